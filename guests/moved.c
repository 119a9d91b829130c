/* A server of sums. A line has names with amounts. It replies with the sum of each name, and with the name that has most:
 *
 *     ann 30 bob 12 ann 5    `ann 35, bob 12; most ann`
 *
 * To any other line, and where the heap is full, it replies with a line that begins with `error: `.
 *
 * It has a fault: it keeps a pointer across a realloc that moves the block. The sums of a line stand in a table, which gets larger
 * when it is full, with the fifth name and with the ninth. `most` still points to where the largest sum was before. All is well as long
 * as nothing else was put there. The next name may be: then the tag is gone, assertion 1.
 *
 * A delay of the free that is part of realloc helps. The old table keeps its place, and what stands in it. That is right as long as no
 * sum gets larger; and a sum that gets larger than the one there becomes `most`, in the new table. Padding helps where `most` isn't the
 * first sum: only one name is put where the table was, onto its first sum.
 */
#include "lines.h"

enum { FIRST_ROOM = 4, MOST_NAME = 24, MOST_AMOUNT = 1000000, TAG = 0x5a1e5, MOVED = 1 };

struct sum {
    unsigned tag;
    unsigned amount;
    unsigned length;
    char *name;
};

/* The sums of the line. */
static struct {
    struct sum *sums;
    unsigned count;
    unsigned room;
    struct sum *most; /* NULL where there is none */
} table;

static struct text name_of(const struct sum *sum)
{
    return (struct text){sum->name, sum->length};
}

/* The largest sum, the first one where several are. */
static struct sum *most_of(void)
{
    guest_assert(table.most->tag == TAG, MOVED);
    return table.most;
}

/* Makes the table larger where it is full, and tells whether there is room. The fault: `most` stays what it was. */
static int has_room(void)
{
    unsigned room = table.room == 0 ? FIRST_ROOM : 2 * table.room;
    struct sum *sums;

    if (table.count < table.room)
        return 1;
    sums = guest_realloc(table.sums, room * sizeof *sums);
    if (sums == NULL)
        return 0;
    table.sums = sums;
    table.room = room;
    return 1;
}

static struct sum *find_sum(struct text name)
{
    for (unsigned i = 0; i < table.count; i++)
        if (same_text(name_of(&table.sums[i]), name))
            return &table.sums[i];
    return NULL;
}

/* A sum of 0 with a new name, or NULL. */
static struct sum *make_sum(struct text name)
{
    struct sum *sum;
    char *copy;

    if (!has_room())
        return NULL;
    copy = guest_malloc(name.length);
    if (copy == NULL)
        return NULL;
    for (unsigned i = 0; i < name.length; i++)
        copy[i] = name.at[i];
    sum = &table.sums[table.count++];
    *sum = (struct sum){TAG, 0, name.length, copy};
    return sum;
}

/* Adds an amount to the sum of a name, and tells whether there was room. */
static int add(struct text name, unsigned amount)
{
    struct sum *sum = find_sum(name);

    if (sum == NULL)
        sum = make_sum(name);
    if (sum == NULL)
        return 0;
    sum->amount += amount;
    if (table.most == NULL || sum->amount > most_of()->amount)
        table.most = sum;
    return 1;
}

static void put_sums(void)
{
    for (unsigned i = 0; i < table.count; i++) {
        put(i > 0 ? ", " : "");
        put_text(name_of(&table.sums[i]));
        put_char(' ');
        put_number(table.sums[i].amount, 1);
    }
    put("; most ");
    put_text(name_of(most_of()));
}

static void clear(void)
{
    for (unsigned i = 0; i < table.count; i++)
        guest_free(table.sums[i].name);
    guest_free(table.sums);
    table.sums = NULL;
    table.count = 0;
    table.room = 0;
    table.most = NULL;
}

static void answer(struct text line)
{
    do {
        struct text name = take_word(&line);
        unsigned amount;

        if (name.length == 0 || name.length > MOST_NAME || !read_number(take_word(&line), MOST_AMOUNT, &amount)) {
            put("error: it is NAME AMOUNT NAME AMOUNT ..");
            return;
        }
        if (!add(name, amount)) {
            put("error: the heap is full");
            return;
        }
    } while (line.length > 0);
    put_sums();
}

int main(void)
{
    for (;;) {
        struct text line;
        struct guest_item item = next_line(&line);

        if (item.kind == GUEST_MESSAGE) {
            answer(line);
            clear();
            send_reply(item.connection);
        }
    }
}
