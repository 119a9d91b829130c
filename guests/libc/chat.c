/* A chat of several rooms, over a C library.
 *
 *     NICK NAME            this connection has the name: `hello NAME`, or `taken`. All other lines come behind it
 *     JOIN ROOM            enters a room, and leaves the one before: `ROOM: 3 here`
 *     SAY TEXT             all others of the room get `NAME: TEXT`: `ok`
 *     WHISPER NAME TEXT    one of the room gets `NAME whispers: TEXT`: `ok`, or `nobody`
 *     WHO                  those of the room, each with how often he spoke and was answered: `ann 5 2, bob 0 0`
 *     LAST                 who of them spoke last, and what: `NAME: TEXT`, or `nobody`
 *     QUIT                 `bye`. The connection may begin anew, by NICK
 *
 * To any other line the reply is `bad`, and `full` where there is no room for what it wants.
 *
 * It has a fault of a kind that is often made: a room keeps a pointer to who spoke last. Who goes to another room is forgotten
 * there, and who quits isn't, or closes. With -DMENDED he is.
 */
#define _POSIX_C_SOURCE 200809L /* strdup */
#include <stdlib.h>
#include "serve.h"

enum { MOST_ROOMS = 16 };

struct client {
    struct client *next; /* in the same room */
    struct room *room;   /* or NULL */
    unsigned connection;
    unsigned spoken;
    unsigned answered;
    char *name;
};

struct room {
    char name[16];
    struct client *first;
    unsigned count;
    struct client *last; /* who spoke last, or NULL */
    char *text;          /* what was said then */
};

static struct client *clients[GUEST_MOST_CONNECTIONS]; /* NULL where it has no name */
static unsigned end;                                   /* connections with a name are below it */
static struct room rooms[MOST_ROOMS];
static unsigned count;

/* The client of a name in a room, or in any where it is NULL; or NULL. */
static struct client *find(const struct room *room, const char *name)
{
    for (unsigned i = 0; i < end; i++)
        if (clients[i] != NULL && (room == NULL || clients[i]->room == room) && strcmp(clients[i]->name, name) == 0)
            return clients[i];
    return NULL;
}

static struct room *find_or_make(const char *name)
{
    struct room *room = rooms;

    while (room < rooms + count && strcmp(room->name, name) != 0)
        room++;
    if (room < rooms + count)
        return room;
    if (count == MOST_ROOMS || strlen(name) >= sizeof room->name)
        return NULL;
    count++;
    strcpy(room->name, name);
    return room;
}

/* Takes a client out of the room in which it is. */
static void leave(struct client *client)
{
    struct client **at = &client->room->first;

    while (*at != client)
        at = &(*at)->next;
    *at = client->next;
    client->room->count--;
}

static void nick(unsigned connection, const char *name)
{
    struct client *client = clients[connection];
    char *copy;

    if (find(NULL, name) != NULL) {
        say("taken\n");
        return;
    }
    copy = strdup(name);
    if (client == NULL)
        client = calloc(1, sizeof *client);
    if (copy == NULL || client == NULL) {
        free(copy);
        say("full\n");
        return;
    }
    free(client->name);
    client->name = copy;
    client->connection = connection;
    clients[connection] = client;
    if (end <= connection)
        end = connection + 1;
    say("hello %s\n", name);
}

static void join(struct client *client, const char *name)
{
    struct room *room = find_or_make(name);

    if (room == NULL) {
        say("full\n");
        return;
    }
    if (client->room != NULL) {
        leave(client);
        if (client->room->last == client)
            client->room->last = NULL;
    }
    client->room = room;
    client->next = room->first;
    room->first = client;
    room->count++;
    say("%s: %u here\n", name, room->count);
}

/* Tells a text to all others of the room. */
static void tell(struct client *client, const char *text)
{
    struct room *room = client->room;
    char *copy = strdup(text);

    if (copy == NULL) {
        say("full\n");
        return;
    }
    if (room->last != NULL && room->last != client)
        room->last->answered++;
    client->spoken++;
    room->last = client;
    free(room->text);
    room->text = copy;
    say("%s: %s\n", client->name, text);
    for (struct client *other = room->first; other != NULL; other = other->next)
        if (other != client)
            send_reply(other->connection);
    begin_reply();
    say("ok\n");
}

static void whisper(const struct client *client, const char *name, const char *text)
{
    const struct client *other = find(client->room, name);

    if (other == NULL) {
        say("nobody\n");
        return;
    }
    say("%s whispers: %s\n", client->name, text);
    send_reply(other->connection);
    begin_reply();
    say("ok\n");
}

static void who(const struct room *room)
{
    for (const struct client *client = room->first; client != NULL; client = client->next)
        say("%s %u %u%s", client->name, client->spoken, client->answered, client->next == NULL ? "\n" : ", ");
}

static void last(const struct room *room)
{
    if (room->last == NULL)
        say("nobody\n");
    else
        say("%s: %s\n", room->last->name, room->text);
}

static void quit(unsigned connection)
{
    struct client *client = clients[connection];

    if (client == NULL)
        return;
    if (client->room != NULL) {
        leave(client);
#ifdef MENDED
        if (client->room->last == client)
            client->room->last = NULL;
#endif
    }
    clients[connection] = NULL;
    free(client->name);
    free(client);
}

static void answer(unsigned connection)
{
    char *word = strtok(line, " ");
    char *text = word == NULL ? NULL : strtok(NULL, "");
    struct client *client = clients[connection];
    struct room *room = client == NULL ? NULL : client->room;

    if (word == NULL) {
        say("bad\n");
    } else if (strcmp(word, "NICK") == 0 && text != NULL) {
        nick(connection, text);
    } else if (strcmp(word, "QUIT") == 0) {
        quit(connection);
        say("bye\n");
    } else if (strcmp(word, "JOIN") == 0 && client != NULL && text != NULL) {
        join(client, text);
    } else if (strcmp(word, "SAY") == 0 && room != NULL && text != NULL) {
        tell(client, text);
    } else if (strcmp(word, "WHISPER") == 0 && room != NULL && text != NULL) {
        char *name = strtok(text, " ");
        char *rest = name == NULL ? NULL : strtok(NULL, "");

        whisper(client, name == NULL ? "" : name, rest == NULL ? "" : rest);
    } else if (strcmp(word, "WHO") == 0 && room != NULL) {
        who(room);
    } else if (strcmp(word, "LAST") == 0 && room != NULL) {
        last(room);
    } else {
        say("bad\n");
    }
}

int main(void)
{
    for (;;) {
        struct guest_item item = next_item();

        if (item.kind == GUEST_MESSAGE) {
            answer(item.connection);
            send_reply(item.connection);
        } else if (item.kind == GUEST_CLOSE) {
            quit(item.connection);
        }
    }
}
