/* A server of rooms. Several connections may be in one room, which is there as long as somebody is in it. These are the
 * lines that it knows, and its replies:
 *
 *     enter NAME    `NAME: users 2`. It leaves the room that it was in
 *     look          `NAME: users 2, looks 5`
 *     leave         `left NAME`
 *
 * To any other line, and where the heap is full, it replies with a line that begins with `error: `.
 *
 * It has a fault: it uses a block that it freed, and frees it once more. Who enters a room leaves the old one first. If both
 * are the same, and nobody else is in it, the room is freed and then used. When its last user leaves, it is freed a second
 * time, and the program fails by a bad free. That can be many lines later.
 *
 * A delay of the first free helps. The block keeps what stands in it, and a second free of it does nothing.
 */
#include "lines.h"

enum { MOST_NAME = 16 };

/* A room. It is in the list of rooms if it has users. */
struct room {
    struct room *next;
    unsigned users;
    unsigned looks;
    unsigned name_length;
    char name[MOST_NAME];
};

static struct room *rooms;
static struct room *room_of[GUEST_MOST_CONNECTIONS]; /* NULL where a connection is in none */

static struct text name_of(const struct room *room)
{
    return (struct text){room->name, room->name_length};
}

static struct room *find_room(struct text name)
{
    struct room *room = rooms;

    while (room != NULL && !same_text(name_of(room), name))
        room = room->next;
    return room;
}

static struct room *make_room(struct text name)
{
    struct room *room = guest_malloc(sizeof *room);

    if (room == NULL)
        return NULL;
    room->users = 0;
    room->looks = 0;
    room->name_length = name.length;
    for (unsigned i = 0; i < name.length; i++)
        room->name[i] = name.at[i];
    return room;
}

/* Takes a user out of a room. With the last one the room goes. */
static void remove_user(struct room *room)
{
    struct room **place = &rooms;

    if (--room->users > 0)
        return;
    while (*place != room)
        place = &(*place)->next;
    *place = room->next;
    guest_free(room);
}

static void add_user(struct room *room)
{
    if (room->users++ > 0)
        return;
    room->next = rooms;
    rooms = room;
}

/* Puts a connection into a room, or into none. The fault: the old room may be the new one, and go. */
static void move(unsigned connection, struct room *room)
{
    if (room_of[connection] != NULL)
        remove_user(room_of[connection]);
    if (room != NULL)
        add_user(room);
    room_of[connection] = room;
}

static void put_room(const struct room *room)
{
    put_text(name_of(room));
    put(": users ");
    put_number(room->users, 1);
}

static void do_enter(unsigned connection, struct text name)
{
    struct room *room = find_room(name);

    if (room == NULL)
        room = make_room(name);
    if (room == NULL) {
        put("error: the heap is full");
        return;
    }
    move(connection, room);
    put_room(room);
}

static void do_look(struct room *room)
{
    put_room(room);
    put(", looks ");
    put_number(++room->looks, 1);
}

static void answer(unsigned connection, struct text line)
{
    struct text command = take_word(&line);
    struct room *room = room_of[connection];

    if (is_word(command, "enter") && line.length > 0 && line.length <= MOST_NAME) {
        do_enter(connection, line);
    } else if (room != NULL && is_word(command, "look")) {
        do_look(room);
    } else if (room != NULL && is_word(command, "leave")) {
        put("left ");
        put_text(name_of(room));
        move(connection, NULL);
    } else {
        put("error: it is enter NAME, and then look or leave");
    }
}

int main(void)
{
    for (;;) {
        struct text line;
        struct guest_item item = next_line(&line);

        if (item.kind == GUEST_MESSAGE) {
            answer(item.connection, line);
            send_reply(item.connection);
        } else {
            move(item.connection, NULL);
        }
    }
}
