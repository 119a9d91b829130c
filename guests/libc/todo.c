/* A list of things to do, as a JSON API over HTTP/1.1 and a C library. It runs with `--frame whole`.
 *
 *     GET /todos          tells all of them: [{"id":1,"title":"milk","done":false}]
 *     POST /todos         makes one with the title of a body {"title":"milk"}, and tells it
 *     PATCH /todos/ID     gives it another title, or has it done or not, by a body {"title":"tea","done":true}, and tells it
 *     DELETE /todos/ID    tells it, and it is gone
 *
 * A connection stays for further requests. They may come in pieces, and several in one piece. What can't be done is 400, 404, 405 or
 * 507. Behind 413, for too many bytes or requests at once, nothing more of a connection is read.
 *
 * It has a fault of a kind that is often made: a buffer with too little room is doubled, and it may have to be doubled more than once.
 * With -DMENDED it is doubled until there is room.
 */
#define _POSIX_C_SOURCE 200809L /* strdup, strncasecmp */
#include <stdarg.h>
#include <stdbool.h>
#include <stdio.h>
#include <stdlib.h>
#include <string.h>
#include <strings.h>
#include "guest.h"

enum { LEAST_ROOM = 256, MOST_BYTES = 8192, MOST_AT_ONCE = 16, MOST_TODOS = 50, MOST_TITLE = 600 };

/* Bytes, with a zero behind them. */
struct buffer {
    char *bytes;
    size_t length;
    size_t room;
};

struct todo {
    struct todo *next;
    unsigned id;
    bool done;
    char *title;
};

struct client {
    struct buffer came; /* of requests that aren't answered */
    bool is_over;       /* nothing more is read of it */
};

static struct client clients[GUEST_MOST_CONNECTIONS];
static struct buffer reply; /* the body of one */
static struct todo *first;
static unsigned count, last;

/* ---- buffers */

/* Adds bytes to a buffer. Tells whether there was room. */
static bool add(struct buffer *buffer, const char *bytes, size_t length)
{
    size_t needed = buffer->length + length + 1;
    size_t room = buffer->room > 0 ? buffer->room : LEAST_ROOM;

#ifdef MENDED
    while (room < needed)
#else
    if (room < needed)
#endif
        room *= 2;
    if (room > buffer->room) {
        char *larger = realloc(buffer->bytes, room);

        if (larger == NULL)
            return false;
        buffer->bytes = larger;
        buffer->room = room;
    }
    memcpy(buffer->bytes + buffer->length, bytes, length);
    buffer->length += length;
    buffer->bytes[buffer->length] = '\0';
    return true;
}

/* Takes bytes off the front. A buffer without bytes has no block. */
static void take_off(struct buffer *buffer, size_t length)
{
    buffer->length -= length;
    if (buffer->length > 0) {
        memmove(buffer->bytes, buffer->bytes + length, buffer->length + 1);
        return;
    }
    free(buffer->bytes);
    *buffer = (struct buffer){NULL, 0, 0};
}

/* Adds to the reply's body. */
__attribute__((format(printf, 1, 2))) static void put(const char *format, ...)
{
    char text[64];
    va_list values;

    va_start(values, format);
    add(&reply, text, vsnprintf(text, sizeof text, format, values));
    va_end(values);
}

/* ---- JSON */

static void put_todo(const struct todo *todo)
{
    const char *at = todo->title;

    put("{\"id\":%u,\"title\":\"", todo->id);
    for (;;) {
        size_t plain = strcspn(at, "\"\\\n");

        add(&reply, at, plain);
        at += plain;
        if (*at == '\0')
            break;
        put("\\%c", *at == '\n' ? 'n' : *at);
        at++;
    }
    put("\",\"done\":%s}", todo->done ? "true" : "false");
}

/* Where a value stands in an object, by its name in quotes; or NULL. */
static char *find_value(char *object, const char *name)
{
    char *at = strstr(object, name);

    if (at == NULL)
        return NULL;
    at += strlen(name);
    at += strspn(at, " \t\r\n");
    return *at == ':' ? at + 1 + strspn(at + 1, " \t\r\n") : NULL;
}

/* The text of a string, which is written over it; or NULL. */
static char *read_text(char *string)
{
    char *at = string, *to = string;

    if (*at++ != '"')
        return NULL;
    while (*at != '"') {
        bool is_escape = *at == '\\';

        at += is_escape;
        if ((unsigned char)*at < ' ' || (is_escape && strchr("\"\\/n", *at) == NULL))
            return NULL;
        *to++ = is_escape && *at == 'n' ? '\n' : *at;
        at++;
    }
    *to = '\0';
    return string;
}

/* ---- the API. Each of these writes the reply's body, and answers the status. */

static const char *list_all(void)
{
    put("[");
    for (const struct todo *todo = first; todo != NULL; todo = todo->next) {
        put_todo(todo);
        if (todo->next != NULL)
            put(",");
    }
    put("]");
    return "200 OK";
}

static const char *change(struct todo *todo, char *body)
{
    char *done = find_value(body, "\"done\"");
    char *title = find_value(body, "\"title\"");

    if (done != NULL)
        todo->done = strncmp(done, "true", 4) == 0;
    if (title != NULL) {
        char *text = read_text(title);

        if (text == NULL || strlen(text) > MOST_TITLE)
            return "400 Bad Request";
        text = strdup(text);
        if (text == NULL)
            return "507 Insufficient Storage";
        free(todo->title);
        todo->title = text;
    }
    if (todo->title == NULL)
        return "400 Bad Request";
    put_todo(todo);
    return "200 OK";
}

static const char *make(char *body)
{
    struct todo *todo = count < MOST_TODOS ? calloc(1, sizeof *todo) : NULL;
    struct todo **at = &first;
    const char *status;

    if (todo == NULL)
        return "507 Insufficient Storage";
    todo->id = last + 1;
    status = change(todo, body);
    if (*status != '2') {
        free(todo);
        return status;
    }
    while (*at != NULL)
        at = &(*at)->next;
    *at = todo;
    last++;
    count++;
    return "201 Created";
}

static const char *drop(struct todo **at)
{
    struct todo *todo = *at;

    put_todo(todo);
    *at = todo->next;
    free(todo->title);
    free(todo);
    count--;
    return "200 OK";
}

/* Answers a request, which is whole and ends with a zero. */
static const char *answer(char *request)
{
    char *body = strstr(request, "\r\n\r\n") + 4;
    char method[8], path[32];
    struct todo **at = &first;
    unsigned id;

    if (sscanf(request, "%7s %31s", method, path) != 2)
        return "400 Bad Request";
    if (strcmp(path, "/todos") == 0 && strcmp(method, "GET") == 0)
        return list_all();
    if (strcmp(path, "/todos") == 0)
        return strcmp(method, "POST") == 0 ? make(body) : "405 Method Not Allowed";
    if (sscanf(path, "/todos/%u", &id) != 1)
        return "404 Not Found";
    while (*at != NULL && (*at)->id != id)
        at = &(*at)->next;
    if (*at == NULL)
        return "404 Not Found";
    if (strcmp(method, "PATCH") == 0)
        return change(*at, body);
    return strcmp(method, "DELETE") == 0 ? drop(at) : "405 Method Not Allowed";
}

/* ---- HTTP */

/* Sends a reply with the body that was written, and begins another. */
static void send_reply(unsigned connection, const char *status)
{
    char head[128];
    int length = snprintf(head, sizeof head, "HTTP/1.1 %s\r\nContent-Type: application/json\r\nContent-Length: %u\r\n\r\n",
                          status, (unsigned)reply.length);

    guest_send(connection, head, length);
    guest_send(connection, reply.bytes, reply.length);
    reply.length = 0;
}

/* How many bytes the first request has, or 0 where not all of them came. */
static size_t length_of(const struct buffer *came)
{
    const char *end = came->length == 0 ? NULL : strstr(came->bytes, "\r\n\r\n");
    size_t head, body = 0;

    if (end == NULL)
        return 0;
    for (const char *line = strstr(came->bytes, "\r\n"); line < end; line = strstr(line + 2, "\r\n"))
        if (strncasecmp(line + 2, "Content-Length:", 15) == 0)
            body = strtoul(line + 17, NULL, 10);
    head = end + 4 - came->bytes;
    return body <= MOST_BYTES && head + body <= came->length ? head + body : 0;
}

static void take_piece(unsigned connection, const char *piece, size_t piece_length)
{
    struct client *client = &clients[connection];
    struct buffer *came = &client->came;
    size_t length;

    if (client->is_over)
        return;
    client->is_over = came->length + piece_length > MOST_BYTES || !add(came, piece, piece_length);
    for (unsigned done = 0; !client->is_over && (length = length_of(came)) > 0; done++) {
        char behind = came->bytes[length];

        came->bytes[length] = '\0';
        send_reply(connection, answer(came->bytes));
        came->bytes[length] = behind;
        take_off(came, length);
        client->is_over = done == MOST_AT_ONCE;
    }
    if (client->is_over) {
        send_reply(connection, "413 Content Too Large");
        take_off(came, came->length);
    }
}

int main(void)
{
    static char piece[GUEST_MOST_RECEIVED];

    for (;;) {
        struct guest_item item = guest_recv(piece, sizeof piece);

        if (item.kind == GUEST_MESSAGE) {
            take_piece(item.connection, piece, item.length);
        } else {
            take_off(&clients[item.connection].came, clients[item.connection].came.length);
            clients[item.connection].is_over = false;
        }
    }
}
