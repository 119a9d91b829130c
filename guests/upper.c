/* A server that answers each message in upper case, and with a line about it and about all messages so far. To the
 * message `two words` it replies
 *
 *     TWO WORDS
 *     message 1: 2 words of 4.00 letters; in all 2 words, the longest of 5, the most frequent letter O
 *
 * A word is a run of letters, and letters are those of ASCII. What it counts stays from one message to the next.
 */
#include <stddef.h>
#include "guest.h"

/* All messages so far, of all connections. */
struct tally {
    unsigned words;
    unsigned longest;
    unsigned of_letter[26];
};

/* The reply that is being written. */
struct reply {
    unsigned length;
    char bytes[GUEST_MOST_RECEIVED + 256];
};

static const char alphabet[26] = "ABCDEFGHIJKLMNOPQRSTUVWXYZ";
static unsigned next_message = 1;
static struct tally tally;
static struct reply reply;
static char message[GUEST_MOST_RECEIVED];

/* The number of a letter, from 0, or 26 for any other character. */
static unsigned letter_of(char c)
{
    if (c >= 'a' && c <= 'z')
        return (unsigned)(c - 'a');
    if (c >= 'A' && c <= 'Z')
        return (unsigned)(c - 'A');
    return 26;
}

static void put_char(char c)
{
    reply.bytes[reply.length++] = c;
}

static void put_text(const char *text)
{
    while (*text != '\0')
        put_char(*text++);
}

/* A number in decimal, with at least so many digits. */
static void put_number(unsigned number, unsigned digits)
{
    char reversed[10];
    unsigned count = 0;

    while (number > 0 || count < digits) {
        reversed[count++] = (char)('0' + number % 10);
        number /= 10;
    }
    while (count > 0)
        put_char(reversed[--count]);
}

static char most_frequent(void)
{
    size_t best = 0;

    for (size_t i = 1; i < sizeof alphabet; i++)
        if (tally.of_letter[i] > tally.of_letter[best])
            best = i;
    return alphabet[best];
}

/* Writes a message in upper case and counts it. */
static void put_upper(const char *text, unsigned length, unsigned *words, unsigned *letters)
{
    unsigned word = 0; /* the letters of the word that is being read */

    for (unsigned i = 0; i < length; i++) {
        unsigned letter = letter_of(text[i]);

        if (letter == 26) {
            put_char(text[i]);
            word = 0;
            continue;
        }
        put_char(alphabet[letter]);
        tally.of_letter[letter]++;
        *letters += 1;
        *words += word == 0;
        word++;
        if (word > tally.longest)
            tally.longest = word;
    }
}

/* The line about a message. A word's mean length is rounded down to hundredths. */
static void put_line(unsigned words, unsigned letters)
{
    unsigned mean = words == 0 ? 0 : letters * 100 / words;

    put_text("message ");
    put_number(next_message++, 1);
    put_text(": ");
    put_number(words, 1);
    put_text(" words of ");
    put_number(mean / 100, 1);
    put_char('.');
    put_number(mean % 100, 2);
    put_text(" letters; in all ");
    put_number(tally.words, 1);
    put_text(" words, the longest of ");
    put_number(tally.longest, 1);
    put_text(", the most frequent letter ");
    put_char(most_frequent());
    put_char('\n');
}

int main(void)
{
    for (;;) {
        struct guest_item item = guest_recv(message, sizeof message);
        unsigned words = 0;
        unsigned letters = 0;

        if (item.kind != GUEST_MESSAGE)
            continue;
        reply.length = 0;
        put_upper(message, item.length, &words, &letters);
        if (reply.length > 0 && reply.bytes[reply.length - 1] != '\n')
            put_char('\n');
        tally.words += words;
        put_line(words, letters);
        if (guest_send(item.connection, reply.bytes, reply.length) != GUEST_SENT)
            return 1;
    }
}
