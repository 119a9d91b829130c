/* What servers of HTTP/1.1 share (RFC 9110 and RFC 9112): requests, which may come in pieces, and replies.
 *
 * They run with `--frame whole`, so an item is a piece of a connection's bytes. What came of a request that isn't whole is kept
 * until the rest comes. Requests that come at once are answered one after another.
 *
 * A server can't close a connection. So each reply has its Content-Length, and a client closes by it. After a reply with
 * `Connection: close`, what still comes on that connection isn't read. Such a reply is that to whoever asks for it, to HTTP/1.0
 * without keep-alive, and where it isn't known how the connection goes on:
 *
 *     400   what is no request. To one with a Content-Length or chunks of its body that are none, too
 *     413   a body of more than 8192 bytes
 *     414   a request line of more than 8192 bytes
 *     431   a head of more than 8192 bytes, or of more than 100 fields
 *     501   another transfer coding than chunked, or CONNECT
 *     503   the heap has no room for what came, or more requests came at once than it has work for
 *     505   another version than 1.0 and 1.1
 *
 * Else the connection stays: 404 to a path that the server doesn't have, 405 to a method that the path doesn't have, and
 * 501 to one that RFC 9110 doesn't know.
 *
 * A server has a table of pages, and `main` calls `serve` with it.
 */
#ifndef HTTP_H
#define HTTP_H

#include "lines.h"

/* Bytes of the request line and the header fields, and how many fields; bytes of the body, and of what is kept of one in chunks. */
enum { MOST_HEAD = 8192, MOST_FIELDS = 100, MOST_BODY = 8192, MOST_CHUNKS = MOST_BODY + 1024 };

/* How many requests of one piece are answered, and the bytes of replies behind which no other one is. A server may do so much for an
 * item and no more: `--budget`. */
enum { MOST_REQUESTS = 64, MOST_REPLIES = 16384 };

/* In the reply the head stands in front of the body. */
enum { HEAD_ROOM = 512, BODY_END = GUEST_MOST_SENT - HEAD_ROOM };

enum method { UNKNOWN = 0, GET = 1, HEAD = 2, POST = 4, OTHER = 8 };

/* What a request is read as: whole, a part of one, or refused with a status of 400 and above. */
enum { WHOLE = 0, PART = 1 };

struct request {
    enum method method;
    struct text path; /* these two as they came, percent-encoded */
    struct text query;
    struct text type;
    struct text body;
    unsigned length; /* of the body, as the head tells it; more than MOST_BODY where it is too much */
    unsigned fields;
    unsigned hosts;
    unsigned char is_new; /* HTTP/1.1 */
    unsigned char has_length;
    unsigned char is_chunked;
    unsigned char closes;
    unsigned char stays;
    unsigned char waits; /* to be told to go on with the body */
};

/* What a page answers. Its body is in the reply. `fields` are further header fields, each with its line's end. */
struct answer {
    unsigned status;
    const char *type;
    const char *fields;
};

/* A page has a path and methods, GET with HEAD. */
struct page {
    const char *path;
    unsigned methods;
    struct answer (*write)(const struct request *request);
};

/* A connection. */
struct client {
    char *bytes; /* what came of a request that isn't whole, or NULL */
    unsigned length;
    unsigned char is_over; /* what comes isn't read */
    unsigned char is_told; /* to go on with its body */
};

static struct client clients[GUEST_MOST_CONNECTIONS];
static char body_bytes[MOST_BODY]; /* a body that came in chunks */

/* ---- texts */

static inline char lower(char c)
{
    return c >= 'A' && c <= 'Z' ? (char)(c - 'A' + 'a') : c;
}

/* Whether a text is this word of the program, which is in lower case, whatever the case of its letters. */
static inline int is_named(struct text text, const char *word)
{
    unsigned i = 0;

    while (i < text.length && word[i] != '\0' && lower(text.at[i]) == word[i])
        i++;
    return i == text.length && word[i] == '\0';
}

static inline void skip(struct text *text, unsigned count)
{
    text->at += count;
    text->length -= count;
}

/* The text without spaces and tabs round it. */
static inline struct text trimmed(struct text text)
{
    while (text.length > 0 && (text.at[0] == ' ' || text.at[0] == '\t'))
        skip(&text, 1);
    while (text.length > 0 && (text.at[text.length - 1] == ' ' || text.at[text.length - 1] == '\t'))
        text.length--;
    return text;
}

/* Takes what stands in front of a character, and that character; all of it where the character doesn't stand there. */
static inline struct text take_until(struct text *text, char end)
{
    struct text front = {text->at, 0};

    while (front.length < text->length && text->at[front.length] != end)
        front.length++;
    skip(text, front.length < text->length ? front.length + 1 : front.length);
    return front;
}

/* Takes a line. Its end, with or without a carriage return, is left out. Tells whether a whole one was there. */
static inline int take_line(struct text *text, struct text *line)
{
    struct text rest = *text;

    *line = take_until(&rest, '\n');
    if (line->length == text->length)
        return 0;
    *text = rest;
    if (line->length > 0 && line->at[line->length - 1] == '\r')
        line->length--;
    return 1;
}

/* The value of a hexadecimal digit, or 16. */
static inline unsigned digit_value(char c)
{
    c = lower(c);
    if (c >= '0' && c <= '9')
        return (unsigned)(c - '0');
    return c >= 'a' && c <= 'f' ? (unsigned)(c - 'a') + 10 : 16;
}

/* Reads a number with this base. One above MOST_BODY is MOST_BODY + 1. Tells whether the text is one. */
static inline int read_count(struct text text, unsigned base, unsigned *count)
{
    *count = 0;
    for (unsigned i = 0; i < text.length; i++) {
        unsigned digit = digit_value(text.at[i]);

        if (digit >= base)
            return 0;
        *count = *count * base + digit;
        if (*count > MOST_BODY)
            *count = MOST_BODY + 1;
    }
    return text.length > 0;
}

/* Takes a character of a text that is percent-encoded, which isn't empty. In a form's text a plus sign is a space. Tells whether two
 * digits stand behind a percent sign. */
static inline int take_char(struct text *text, int is_form, char *c)
{
    unsigned high, low;

    *c = text->at[0];
    skip(text, 1);
    if (is_form && *c == '+')
        *c = ' ';
    if (*c != '%')
        return 1;
    if (text->length < 2)
        return 0;
    high = digit_value(text->at[0]);
    low = digit_value(text->at[1]);
    if (high > 15 || low > 15)
        return 0;
    *c = (char)(high * 16 + low);
    skip(text, 2);
    return 1;
}

/* The value of a field of a form, or of a query, still encoded. It is empty where the field isn't there. */
static inline struct text field_of(struct text form, const char *name)
{
    while (form.length > 0) {
        struct text value = take_until(&form, '&');

        if (is_word(take_until(&value, '='), name))
            return value;
    }
    return form;
}

/* ---- a request's head */

/* Whether a character may stand in the name of a method or of a field. */
static inline int is_token_char(char c)
{
    const char *other = "!#$%&'*+.^_`|~";

    if ((lower(c) >= 'a' && lower(c) <= 'z') || (c >= '0' && c <= '9') || c == '-')
        return 1;
    while (*other != '\0' && *other != c)
        other++;
    return *other != '\0';
}

static inline int is_token(struct text text)
{
    for (unsigned i = 0; i < text.length; i++)
        if (!is_token_char(text.at[i]))
            return 0;
    return text.length > 0;
}

/* Whether there is a character that a header field may not have. */
static inline int has_control(struct text text)
{
    for (unsigned i = 0; i < text.length; i++)
        if (((unsigned char)text.at[i] < ' ' && text.at[i] != '\t') || text.at[i] == 127)
            return 1;
    return 0;
}

static inline enum method method_of(struct text name)
{
    static const char *const others[] = {"PUT", "DELETE", "OPTIONS", "PATCH", "TRACE", "CONNECT"};

    if (is_word(name, "GET"))
        return GET;
    if (is_word(name, "HEAD"))
        return HEAD;
    if (is_word(name, "POST"))
        return POST;
    for (unsigned i = 0; i < sizeof others / sizeof *others; i++)
        if (is_word(name, others[i]))
            return OTHER;
    return UNKNOWN;
}

/* Reads the target: a path and a query, or a whole address, or a star. Tells whether it is one of these. */
static inline int read_target(struct text target, struct request *request)
{
    struct text scheme = {target.at, 7};

    if (target.length >= 7 && is_named(scheme, "http://")) {
        skip(&target, 7);
        while (target.length > 0 && target.at[0] != '/' && target.at[0] != '?')
            skip(&target, 1);
    } else if (!is_word(target, "*") && (target.length == 0 || target.at[0] != '/')) {
        return 0;
    }
    request->path = take_until(&target, '?');
    request->query = target;
    if (request->path.length == 0)
        request->path = (struct text){"/", 1};
    return 1;
}

static inline unsigned read_request_line(struct text line, struct request *request)
{
    struct text method = take_word(&line);
    struct text target = take_word(&line);

    if (!is_token(method) || has_control(target) || line.length != 8 || line.at[5] < '0' || line.at[5] > '9'
        || line.at[6] != '.' || line.at[7] < '0' || line.at[7] > '9' || !is_word((struct text){line.at, 5}, "HTTP/"))
        return 400;
    if (line.at[5] != '1')
        return 505;
    request->is_new = line.at[7] > '0';
    request->method = method_of(method);
    if (request->method == OTHER && is_word(method, "CONNECT"))
        return 501;
    return read_target(target, request) ? WHOLE : 400;
}

/* Reads a value of Connection: words with commas between them. */
static inline void read_connection(struct text value, struct request *request)
{
    while (value.length > 0) {
        struct text word = trimmed(take_until(&value, ','));

        if (is_named(word, "close"))
            request->closes = 1;
        else if (is_named(word, "keep-alive"))
            request->stays = 1;
    }
}

static inline unsigned read_length(struct text value, struct request *request)
{
    unsigned length;

    if (!read_count(value, 10, &length) || (request->has_length && length != request->length))
        return 400;
    request->has_length = 1;
    request->length = length;
    return WHOLE;
}

/* Reads a header field. Those that it doesn't know are passed over. */
static inline unsigned read_field(struct text line, struct request *request)
{
    struct text value = line;
    struct text name = take_until(&value, ':');

    if (++request->fields > MOST_FIELDS)
        return 431;
    if (name.length == line.length || !is_token(name) || has_control(value))
        return 400;
    value = trimmed(value);
    if (is_named(name, "host"))
        request->hosts++;
    else if (is_named(name, "content-length"))
        return read_length(value, request);
    else if (is_named(name, "content-type"))
        request->type = value;
    else if (is_named(name, "connection"))
        read_connection(value, request);
    else if (is_named(name, "expect"))
        request->waits = is_named(value, "100-continue");
    else if (is_named(name, "transfer-encoding")) {
        if (request->is_chunked || !is_named(value, "chunked"))
            return 501;
        request->is_chunked = 1;
    }
    return WHOLE;
}

/* Takes the head off the bytes, with the empty line at its end. */
static inline unsigned take_head(struct text *bytes, struct request *request)
{
    struct text rest = *bytes;
    struct text line = {rest.at, 0};
    unsigned refused;

    if (!take_line(&rest, &line))
        return bytes->length > MOST_HEAD ? 414 : PART;
    if (line.length > MOST_HEAD)
        return 414;
    while (line.length > 0)
        if (!take_line(&rest, &line))
            return bytes->length > MOST_HEAD ? 431 : PART;
    if (bytes->length - rest.length > MOST_HEAD)
        return 431;
    take_line(bytes, &line);
    refused = read_request_line(line, request);
    while (refused == WHOLE && take_line(bytes, &line) && line.length > 0)
        refused = read_field(line, request);
    if (refused != WHOLE)
        return refused;
    if (request->hosts > 1 || (request->is_new && request->hosts == 0) || (request->is_chunked && request->has_length))
        return 400;
    return WHOLE;
}

/* ---- its body */

/* Takes a body that comes in chunks, and the fields behind them. */
static inline unsigned take_chunks(struct text *bytes, struct request *request)
{
    struct text rest = *bytes;
    struct text line;
    unsigned size;

    request->body = (struct text){body_bytes, 0};
    for (;;) {
        if (!take_line(&rest, &line))
            return PART;
        if (!read_count(trimmed(take_until(&line, ';')), 16, &size))
            return 400;
        if (size == 0)
            break;
        if (size > MOST_BODY - request->body.length)
            return 413;
        if (rest.length < size)
            return PART;
        __builtin_memcpy(body_bytes + request->body.length, rest.at, size);
        request->body.length += size;
        skip(&rest, size);
        if (!take_line(&rest, &line))
            return rest.length > 1 ? 400 : PART;
        if (line.length > 0)
            return 400;
    }
    do
        if (!take_line(&rest, &line))
            return PART;
    while (line.length > 0);
    *bytes = rest;
    return WHOLE;
}

static inline unsigned take_body(struct text *bytes, struct request *request)
{
    if (request->is_chunked) {
        unsigned read = take_chunks(bytes, request);

        return read == PART && bytes->length > MOST_CHUNKS ? 413 : read;
    }
    if (request->length > MOST_BODY)
        return 413;
    if (bytes->length < request->length)
        return PART;
    request->body = (struct text){bytes->at, request->length};
    skip(bytes, request->length);
    return WHOLE;
}

/* Takes a request off the bytes where it is whole. Empty lines in front of it are passed over. */
static inline unsigned take_request(struct text *bytes, struct request *request)
{
    struct text rest = *bytes;
    unsigned read;

    *request = (struct request){.method = UNKNOWN};
    while (rest.length > 0 && (rest.at[0] == '\n' || (rest.at[0] == '\r' && rest.length > 1 && rest.at[1] == '\n')))
        skip(&rest, rest.at[0] == '\n' ? 1 : 2);
    *bytes = rest;
    read = take_head(&rest, request);
    if (read != WHOLE)
        request->waits = 0;
    else
        read = take_body(&rest, request);
    if (read == WHOLE)
        *bytes = rest;
    return read;
}

/* ---- replies */

static inline const char *reason(unsigned status)
{
    switch (status) {
    case 200:
        return "OK";
    case 303:
        return "See Other";
    case 400:
        return "Bad Request";
    case 404:
        return "Not Found";
    case 405:
        return "Method Not Allowed";
    case 413:
        return "Content Too Large";
    case 414:
        return "URI Too Long";
    case 415:
        return "Unsupported Media Type";
    case 431:
        return "Request Header Fields Too Large";
    case 501:
        return "Not Implemented";
    case 503:
        return "Service Unavailable";
    default:
        return "HTTP Version Not Supported";
    }
}

/* A short reply: the status and its reason. */
static inline struct answer told(unsigned status, const char *fields)
{
    reply.length = HEAD_ROOM;
    put_number(status, 3);
    put(" ");
    put(reason(status));
    put("\n");
    return (struct answer){status, "text/plain; charset=utf-8", fields};
}

static inline void put_head(struct answer answer, unsigned length, const struct request *request)
{
    put("HTTP/1.1 ");
    put_number(answer.status, 3);
    put(" ");
    put(reason(answer.status));
    put("\r\nContent-Type: ");
    put(answer.type);
    put("\r\nContent-Length: ");
    put_number(length, 1);
    put("\r\n");
    put(answer.fields);
    if (request->closes)
        put("Connection: close\r\n");
    else if (!request->is_new)
        put("Connection: keep-alive\r\n");
    put("\r\n");
}

/* Sends the answer whose body stands in the reply, in one piece. Answers of how many bytes. */
static inline unsigned send_answer(unsigned connection, struct answer answer, const struct request *request)
{
    unsigned length, head;
    char *start;

    if (reply.length > BODY_END)
        reply.length = BODY_END;
    length = reply.length - HEAD_ROOM;
    put_head(answer, length, request);
    head = reply.length - HEAD_ROOM - length;
    start = reply.bytes + HEAD_ROOM - head;
    __builtin_memcpy(start, reply.bytes + HEAD_ROOM + length, head);
    if (request->method == HEAD)
        length = 0;
    guest_send(connection, start, head + length);
    reply.length = HEAD_ROOM;
    return head + length;
}

/* Whether a path, once it is decoded, is this word of the program. */
static inline int is_path(struct text path, const char *word)
{
    char c;

    while (path.length > 0 && *word != '\0')
        if (!take_char(&path, 0, &c) || c != *word++)
            return 0;
    return path.length == 0 && *word == '\0';
}

/* What the server answers to a request that is whole. */
static inline struct answer answer_of(const struct request *request, const struct page *pages, unsigned count)
{
    unsigned method = request->method == HEAD ? GET : request->method;

    if (method == UNKNOWN)
        return told(501, "");
    for (unsigned i = 0; i < count; i++) {
        if (!is_path(request->path, pages[i].path))
            continue;
        if (pages[i].methods & method)
            return pages[i].write(request);
        if (pages[i].methods == GET)
            return told(405, "Allow: GET, HEAD\r\n");
        return told(405, pages[i].methods == POST ? "Allow: POST\r\n" : "Allow: GET, HEAD, POST\r\n");
    }
    return told(404, "");
}

/* ---- connections */

static inline void forget(struct client *client)
{
    guest_free(client->bytes);
    client->bytes = NULL;
    client->length = 0;
}

/* Refuses what a connection sent. Where its next request would begin isn't known, so no more of it is read. */
static inline void refuse(unsigned connection, unsigned status, enum method method)
{
    struct request request = {.method = method, .is_new = 1, .closes = 1};

    send_answer(connection, told(status, ""), &request);
    clients[connection].is_over = 1;
}

/* Answers the requests that are whole, and takes them off the bytes. */
static inline void answer_all(unsigned connection, struct text *bytes, const struct page *pages, unsigned count)
{
    struct client *client = &clients[connection];
    struct request request;
    unsigned read = WHOLE;
    unsigned sent = 0;

    for (unsigned done = 0; bytes->length > 0 && !client->is_over; done++) {
        read = take_request(bytes, &request);
        if (read == PART)
            break;
        if (read == WHOLE && (done == MOST_REQUESTS || sent >= MOST_REPLIES))
            read = 503;
        if (read != WHOLE) {
            refuse(connection, read, request.method);
            return;
        }
        request.closes |= !request.is_new && !request.stays;
        client->is_over = request.closes;
        client->is_told = 0;
        sent += send_answer(connection, answer_of(&request, pages, count), &request);
    }
    if (read == PART && request.waits && request.is_new && !client->is_told) {
        client->is_told = 1;
        guest_send(connection, "HTTP/1.1 100 Continue\r\n\r\n", 25);
    }
}

/* Adds a piece to what is kept of a connection. Tells whether there was room. */
static inline int keep(struct client *client, struct text piece)
{
    char *bytes = guest_realloc(client->bytes, client->length + piece.length);

    if (bytes == NULL)
        return 0;
    __builtin_memcpy(bytes + client->length, piece.at, piece.length);
    client->bytes = bytes;
    client->length += piece.length;
    return 1;
}

/* Keeps the rest of what was kept, or of the piece, where nothing was. Tells whether there was room. */
static inline int keep_rest(struct client *client, struct text rest)
{
    if (rest.length == 0 || client->is_over) {
        forget(client);
        return 1;
    }
    if (client->bytes == NULL)
        return keep(client, rest);
    __builtin_memmove(client->bytes, rest.at, rest.length);
    client->length = rest.length;
    return 1;
}

static inline void take_piece(unsigned connection, struct text piece, const struct page *pages, unsigned count)
{
    struct client *client = &clients[connection];
    struct text bytes = piece;

    if (client->is_over)
        return;
    if (client->bytes != NULL) {
        if (!keep(client, piece)) {
            refuse(connection, 503, UNKNOWN);
            forget(client);
            return;
        }
        bytes = (struct text){client->bytes, client->length};
    }
    answer_all(connection, &bytes, pages, count);
    if (!keep_rest(client, bytes))
        refuse(connection, 503, UNKNOWN);
}

/* Serves these pages to the end of the input. */
_Noreturn static inline void serve(const struct page *pages, unsigned count)
{
    reply.length = HEAD_ROOM;
    for (;;) {
        struct guest_item item = guest_recv(message, sizeof message);

        if (item.kind == GUEST_MESSAGE) {
            take_piece(item.connection, (struct text){message, item.length}, pages, count);
        } else {
            forget(&clients[item.connection]);
            clients[item.connection] = (struct client){.bytes = NULL};
        }
    }
}

#endif
