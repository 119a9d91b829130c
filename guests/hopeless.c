/* A server that converts times. To `90 min in h` it replies `1.50 h`. It knows s, min, h, d and w. To a line that it can't
 * read it replies with a line that begins with `error: `.
 *
 * It has a fault: it tests the first unit, and not the second. At `90 min in fortnights` it follows a null pointer, which is
 * a bad access. It allocates nothing, so no way of allocating helps.
 */
#include "lines.h"

enum { MOST_SECONDS = 4000000000u };

struct unit {
    const char *name;
    unsigned seconds;
};

static const struct unit units[] = {{"s", 1}, {"min", 60}, {"h", 3600}, {"d", 86400}, {"w", 604800}};

/* The unit of a name, or NULL. */
static const struct unit *find_unit(struct text name)
{
    for (size_t i = 0; i < sizeof units / sizeof units[0]; i++)
        if (is_word(name, units[i].name))
            return &units[i];
    return NULL;
}

/* An amount of seconds in a unit, rounded down to hundredths. */
static void put_time(unsigned seconds, const struct unit *unit)
{
    put_number(seconds / unit->seconds, 1);
    put_char('.');
    put_number(seconds % unit->seconds * 100 / unit->seconds, 2);
    put_char(' ');
    put(unit->name);
}

static void answer(struct text line)
{
    struct text amount = take_word(&line);
    const struct unit *from = find_unit(take_word(&line));
    struct text in = take_word(&line);
    const struct unit *to = find_unit(line);
    unsigned number;

    if (from == NULL || !is_word(in, "in"))
        put("error: it is NUMBER UNIT in UNIT");
    else if (!read_number(amount, MOST_SECONDS / from->seconds, &number))
        put("error: the number is none, or too large");
    else
        put_time(number * from->seconds, to);
}

int main(void)
{
    for (;;) {
        struct text line;
        struct guest_item item = next_line(&line);

        if (item.kind != GUEST_MESSAGE)
            continue;
        answer(line);
        send_reply(item.connection);
    }
}
