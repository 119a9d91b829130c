/* A store of keys and values. All connections share it. A value stays until it is deleted, or the connection that set it
 * closes. These are the lines that it knows, and its replies:
 *
 *     set KEY VALUE    `ok`. The value is the rest of the line
 *     get KEY          the value, or `none`
 *     del KEY          `ok`, or `none`
 *     count            `values 3, yours 2`
 *     stats            `lines 6, sets 2, found 2, missed 1`: what this connection did, this line too
 *
 * To any other line, and where there is no room, it replies with a line that begins with `error: `.
 *
 * It has a block for each open connection and a block for each value.
 */
#include "lines.h"

enum { MOST_KEY = 24, CHAINS = 256 };

/* An open connection and what it did so far. */
struct client {
    unsigned lines;
    unsigned sets;
    unsigned found;
    unsigned missed;
};

/* A value. The key stands in `bytes`, and the value behind it. */
struct entry {
    struct entry *next;
    struct client *owner;
    unsigned key_length;
    unsigned value_length;
    char bytes[];
};

static struct client *clients[GUEST_MOST_CONNECTIONS]; /* NULL where it isn't open, or got no block */
static struct entry *chains[CHAINS];

static struct text key_of(const struct entry *entry)
{
    return (struct text){entry->bytes, entry->key_length};
}

static struct text value_of(const struct entry *entry)
{
    return (struct text){entry->bytes + entry->key_length, entry->value_length};
}

/* Where the entry of a key hangs, or where a new one has to. */
static struct entry **place_of(struct text key)
{
    unsigned hash = 0;
    struct entry **place;

    for (unsigned i = 0; i < key.length; i++)
        hash = hash * 31 + (unsigned char)key.at[i];
    place = &chains[hash % CHAINS];
    while (*place != NULL && !same_text(key_of(*place), key))
        place = &(*place)->next;
    return place;
}

static void remove_entry(struct entry **place)
{
    struct entry *entry = *place;

    *place = entry->next;
    guest_free(entry);
}

/* Puts a value at the place of its key: in the entry that hangs there, with the size that it needs now, or in a new one. Tells whether
 * there was room. */
static int put_entry(struct entry **place, struct client *owner, struct text key, struct text value)
{
    struct entry *next = *place != NULL ? (*place)->next : NULL;
    struct entry *entry = guest_realloc(*place, sizeof *entry + key.length + value.length);

    if (entry == NULL)
        return 0;
    entry->next = next;
    entry->owner = owner;
    entry->key_length = key.length;
    entry->value_length = value.length;
    for (unsigned i = 0; i < key.length; i++)
        entry->bytes[i] = key.at[i];
    for (unsigned i = 0; i < value.length; i++)
        entry->bytes[key.length + i] = value.at[i];
    *place = entry;
    return 1;
}

static void do_set(struct client *client, struct text key, struct text value)
{
    if (value.length == 0) {
        put("error: it is set KEY VALUE");
        return;
    }
    if (!put_entry(place_of(key), client, key, value)) {
        put("error: there is no room for it");
        return;
    }
    client->sets++;
    put("ok");
}

static void do_get(struct client *client, struct text key)
{
    struct entry *entry = *place_of(key);

    if (entry == NULL) {
        client->missed++;
        put("none");
    } else {
        client->found++;
        put_text(value_of(entry));
    }
}

static void do_del(struct text key)
{
    struct entry **place = place_of(key);

    if (*place == NULL) {
        put("none");
    } else {
        remove_entry(place);
        put("ok");
    }
}

static void do_count(const struct client *client)
{
    unsigned all = 0;
    unsigned owned = 0;

    for (unsigned i = 0; i < CHAINS; i++)
        for (const struct entry *entry = chains[i]; entry != NULL; entry = entry->next) {
            all++;
            owned += entry->owner == client;
        }
    put("values ");
    put_number(all, 1);
    put(", yours ");
    put_number(owned, 1);
}

static void do_stats(const struct client *client)
{
    put("lines ");
    put_number(client->lines, 1);
    put(", sets ");
    put_number(client->sets, 1);
    put(", found ");
    put_number(client->found, 1);
    put(", missed ");
    put_number(client->missed, 1);
}

static void answer(struct client *client, struct text line)
{
    struct text command = take_word(&line);
    struct text rest = line;
    struct text key = take_word(&rest);

    client->lines++;
    if (is_word(command, "count"))
        do_count(client);
    else if (is_word(command, "stats"))
        do_stats(client);
    else if (!is_word(command, "set") && !is_word(command, "get") && !is_word(command, "del"))
        put("error: unknown command");
    else if (key.length == 0 || key.length > MOST_KEY)
        put("error: a key has 1 to 24 characters");
    else if (is_word(command, "set"))
        do_set(client, key, rest);
    else if (is_word(command, "get"))
        do_get(client, key);
    else
        do_del(key);
}

static void open_client(unsigned connection)
{
    clients[connection] = guest_calloc(1, sizeof *clients[connection]);
}

static void close_client(unsigned connection)
{
    struct client *client = clients[connection];

    if (client == NULL)
        return;
    for (unsigned i = 0; i < CHAINS; i++)
        for (struct entry **place = &chains[i]; *place != NULL;)
            if ((*place)->owner == client)
                remove_entry(place);
            else
                place = &(*place)->next;
    guest_free(client);
    clients[connection] = NULL;
}

int main(void)
{
    for (;;) {
        struct text line;
        struct guest_item item = next_line(&line);

        if (item.kind == GUEST_OPEN) {
            open_client(item.connection);
        } else if (item.kind == GUEST_CLOSE) {
            close_client(item.connection);
        } else {
            if (clients[item.connection] == NULL)
                put("error: there is no room for this connection");
            else
                answer(clients[item.connection], line);
            send_reply(item.connection);
        }
    }
}
