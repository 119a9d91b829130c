/* The loop of a server of text lines over a C library: each line comes as a string, and a reply is written by printf's rules. */
#ifndef SERVE_H
#define SERVE_H

#include <stdarg.h>
#include <stdio.h>
#include <string.h>
#include "guest.h"

static char line[GUEST_MOST_RECEIVED + 1];

static struct {
    size_t length;
    char bytes[8192];
} reply;

/* Adds to the reply. What is too much is left out. */
__attribute__((format(printf, 1, 2))) static inline void say(const char *format, ...)
{
    va_list values;
    int length;

    va_start(values, format);
    length = vsnprintf(reply.bytes + reply.length, sizeof reply.bytes - reply.length, format, values);
    va_end(values);
    if (length > 0)
        reply.length += length;
    if (reply.length >= sizeof reply.bytes)
        reply.length = sizeof reply.bytes - 1;
}

/* Begins another reply. */
static inline void begin_reply(void)
{
    reply.length = 0;
}

/* Waits for the next item. The line is its message without the line feed, and empty where it is an open or a close. */
static inline struct guest_item next_item(void)
{
    struct guest_item item = guest_recv(line, sizeof line - 1);

    line[item.length] = '\0';
    line[strcspn(line, "\n")] = '\0';
    begin_reply();
    return item;
}

/* Waits for the next line, and answers its connection. */
static inline unsigned next_line(void)
{
    struct guest_item item;

    do
        item = next_item();
    while (item.kind != GUEST_MESSAGE);
    return item.connection;
}

/* Sends the reply that was written. */
static inline void send_reply(unsigned connection)
{
    guest_send(connection, reply.bytes, reply.length);
}

#endif
