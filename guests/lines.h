/* What servers of text lines share: the line that came, its words, and the reply that is being written. */
#ifndef LINES_H
#define LINES_H

#include <stddef.h>
#include "guest.h"

/* Some characters, which stand elsewhere. */
struct text {
    const char *at;
    unsigned length;
};

static char message[GUEST_MOST_RECEIVED];

static struct {
    unsigned length;
    char bytes[GUEST_MOST_SENT];
} reply;

/* Waits for the next item. The line is its message without the line feed at the end. */
static inline struct guest_item next_line(struct text *line)
{
    struct guest_item item = guest_recv(message, sizeof message);

    line->at = message;
    line->length = item.length;
    if (line->length > 0 && message[line->length - 1] == '\n')
        line->length--;
    return item;
}

static inline int same_text(struct text left, struct text right)
{
    if (left.length != right.length)
        return 0;
    for (unsigned i = 0; i < left.length; i++)
        if (left.at[i] != right.at[i])
            return 0;
    return 1;
}

/* Whether a text is this word of the program. */
static inline int is_word(struct text text, const char *word)
{
    unsigned i = 0;

    while (i < text.length && word[i] != '\0' && text.at[i] == word[i])
        i++;
    return i == text.length && word[i] == '\0';
}

/* Takes the first word off a line, and the space behind it. */
static inline struct text take_word(struct text *line)
{
    struct text word = {line->at, 0};
    unsigned taken;

    while (word.length < line->length && line->at[word.length] != ' ')
        word.length++;
    taken = word.length < line->length ? word.length + 1 : word.length;
    line->at += taken;
    line->length -= taken;
    return word;
}

/* Reads a number in decimal, at most `most`, and tells whether the text is one. */
static inline int read_number(struct text text, unsigned most, unsigned *number)
{
    *number = 0;
    for (unsigned i = 0; i < text.length; i++) {
        unsigned digit = (unsigned)(text.at[i] - '0');

        if (digit > 9 || digit > most || *number > (most - digit) / 10)
            return 0;
        *number = *number * 10 + digit;
    }
    return text.length > 0;
}

/* Adds to the reply. What is too much for one send is left out. */
static inline void put_char(char c)
{
    if (reply.length < sizeof reply.bytes)
        reply.bytes[reply.length++] = c;
}

static inline void put_text(struct text text)
{
    for (unsigned i = 0; i < text.length; i++)
        put_char(text.at[i]);
}

static inline void put(const char *word)
{
    while (*word != '\0')
        put_char(*word++);
}

/* A number in decimal, with at least so many digits. */
static inline void put_number(unsigned number, unsigned digits)
{
    char reversed[10];
    unsigned count = 0;

    while (number > 0 || count < digits) {
        reversed[count++] = (char)('0' + number % 10);
        number /= 10;
    }
    while (count > 0)
        put_char(reversed[--count]);
}

/* Ends the reply with a line feed and sends it. Where the connection was closed in the meantime, nobody gets it. */
static inline void send_reply(unsigned connection)
{
    put_char('\n');
    guest_send(connection, reply.bytes, reply.length);
    reply.length = 0;
}

#endif
