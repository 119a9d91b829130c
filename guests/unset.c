/* A server of statistics. Each connection adds numbers, and asks about all that it added. These are the lines that it knows,
 * and its replies:
 *
 *     add NUMBER NUMBER ..    `numbers 7`
 *     show                    `numbers 7, least 1, most 9, mean 4.28, above it 3`. The mean is rounded down
 *     clear                   `numbers 0`
 *
 * To any other line, and where there is no room for more, it replies with a line that begins with `error: `.
 *
 * It has a fault: it reads a word that was never set. A new chunk of numbers gets no `next`. In memory that nobody had before,
 * it is 0, and all is well. Where freed chunks stood, it is the place of one of them. Then `show` walks into a freed
 * chunk, whose tag is gone: assertion 1.
 *
 * Zeros in the new chunk help. They have to be there when the chunk is made, which is before the line that fails.
 */
#include "lines.h"

enum { IN_CHUNK = 13, MOST_NUMBERS = 10000, MOST = 100000, TAG = 0xc4a9c, FREED = 1 };

struct chunk {
    unsigned tag;
    struct chunk *next;
    unsigned count;
    unsigned numbers[IN_CHUNK];
};

/* The numbers of a connection, in chunks. All but the last are full. */
struct sample {
    struct chunk *first;
    struct chunk *last;
    unsigned count;
};

static struct sample samples[GUEST_MOST_CONNECTIONS];

/* The fault: `next` isn't set. */
static struct chunk *make_chunk(void)
{
    struct chunk *chunk = guest_malloc(sizeof *chunk);

    if (chunk != NULL) {
        chunk->tag = TAG;
        chunk->count = 0;
    }
    return chunk;
}

static void free_chunk(struct chunk *chunk)
{
    chunk->tag = 0;
    guest_free(chunk);
}

/* The chunk behind another one. */
static struct chunk *next_chunk(const struct chunk *chunk)
{
    struct chunk *next = chunk->next;

    guest_assert(next == NULL || next->tag == TAG, FREED);
    return next;
}

/* Adds a number and tells whether there was room. */
static int add_number(struct sample *sample, unsigned number)
{
    if (sample->count == MOST_NUMBERS)
        return 0;
    if (sample->last == NULL || sample->last->count == IN_CHUNK) {
        struct chunk *chunk = make_chunk();

        if (chunk == NULL)
            return 0;
        if (sample->last == NULL)
            sample->first = chunk;
        else
            sample->last->next = chunk;
        sample->last = chunk;
    }
    sample->last->numbers[sample->last->count++] = number;
    sample->count++;
    return 1;
}

static void put_count(const struct sample *sample)
{
    put("numbers ");
    put_number(sample->count, 1);
}

static void do_add(struct sample *sample, struct text line)
{
    while (line.length > 0) {
        unsigned number;

        if (!read_number(take_word(&line), MOST, &number)) {
            put("error: a number is 0 to 100000");
            return;
        }
        if (!add_number(sample, number)) {
            put("error: there is no room for more");
            return;
        }
    }
    put_count(sample);
}

/* How many numbers are above the mean. */
static unsigned above_mean(const struct sample *sample, unsigned sum)
{
    unsigned above = 0;

    for (const struct chunk *chunk = sample->first; chunk != NULL; chunk = next_chunk(chunk))
        for (unsigned i = 0; i < chunk->count; i++)
            above += chunk->numbers[i] * sample->count > sum;
    return above;
}

static void do_show(const struct sample *sample)
{
    unsigned least = MOST;
    unsigned most = 0;
    unsigned sum = 0;

    put_count(sample);
    if (sample->count == 0)
        return;
    for (const struct chunk *chunk = sample->first; chunk != NULL; chunk = next_chunk(chunk))
        for (unsigned i = 0; i < chunk->count; i++) {
            unsigned number = chunk->numbers[i];

            least = number < least ? number : least;
            most = number > most ? number : most;
            sum += number;
        }
    put(", least ");
    put_number(least, 1);
    put(", most ");
    put_number(most, 1);
    put(", mean ");
    put_number(sum / sample->count, 1);
    put_char('.');
    put_number(sum % sample->count * 100 / sample->count, 2);
    put(", above it ");
    put_number(above_mean(sample, sum), 1);
}

static void clear(struct sample *sample)
{
    struct chunk *chunk = sample->first;

    while (chunk != NULL) {
        struct chunk *next = next_chunk(chunk);

        free_chunk(chunk);
        chunk = next;
    }
    *sample = (struct sample){0};
}

int main(void)
{
    for (;;) {
        struct text line;
        struct guest_item item = next_line(&line);
        struct sample *sample = &samples[item.connection];
        struct text command = take_word(&line);

        if (item.kind != GUEST_MESSAGE) {
            clear(sample);
            continue;
        }
        if (is_word(command, "add")) {
            do_add(sample, line);
        } else if (is_word(command, "show")) {
            do_show(sample);
        } else if (is_word(command, "clear")) {
            clear(sample);
            put_count(sample);
        } else {
            put("error: it is add NUMBER .., show or clear");
        }
        send_reply(item.connection);
    }
}
