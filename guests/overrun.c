/* A server that makes a row of an HTML table of each line of comma-separated values. To `nails,"40 mm, zinc",5.20` it replies
 *
 *     <tr><td>nails</td><td>40 mm, zinc</td><td>5.20</td></tr>
 *
 * A field in double quotes may have commas. Two double quotes stand for one. The characters & < > " are written as HTML
 * has them. Where the heap is full, it replies with a line that begins with `error: `.
 *
 * It has a fault: it runs past the end of a block. `width` counts a double quote as one byte, and `entity` writes six. So a
 * field with a double quote may reach into the next field's block, and the tag there is spoilt. The tag is looked at before
 * the next field is filled: assertion 1. The field `saw 12"` leaves five bytes of its block free, so nothing happens. The
 * field `hand saw 12"` leaves none.
 *
 * Padding helps. What is too much falls between the blocks.
 */
#include "lines.h"

enum { TAG = 0x5ce11, SPOILT = 1 };

/* A field: what stood in the line, and the same in HTML. */
struct cell {
    unsigned tag;
    struct cell *next;
    struct text raw;
    unsigned length;
    char html[];
};

/* What HTML has in place of a character, or NULL. */
static const char *entity(char c)
{
    switch (c) {
    case '&':
        return "&amp;";
    case '<':
        return "&lt;";
    case '>':
        return "&gt;";
    case '"':
        return "&quot;";
    default:
        return NULL;
    }
}

/* How many bytes a character takes in HTML. */
static unsigned width(char c)
{
    switch (c) {
    case '&':
        return 5;
    case '<':
    case '>':
        return 4;
    default:
        return 1;
    }
}

/* Takes the first field off a line, and the comma behind it. Quotes round the field are left out. Tells whether there was a
 * comma, so that another field comes. */
static int take_field(struct text *line, struct text *field)
{
    int is_quoted = line->length > 0 && line->at[0] == '"';
    int within = 0; /* the quotes */
    unsigned end = 0;

    for (; end < line->length && (within || line->at[end] != ','); end++)
        if (is_quoted && line->at[end] == '"')
            within = !within;
    *field = (struct text){line->at, end};
    if (end >= 2 && is_quoted && line->at[end - 1] == '"')
        *field = (struct text){line->at + 1, end - 2};
    if (end == line->length)
        return 0;
    line->at += end + 1;
    line->length -= end + 1;
    return 1;
}

static struct cell *make_cell(struct text raw)
{
    unsigned room = 0;
    struct cell *cell;

    for (unsigned i = 0; i < raw.length; i++)
        room += width(raw.at[i]);
    cell = guest_malloc(sizeof *cell + room);
    if (cell != NULL)
        *cell = (struct cell){.tag = TAG, .raw = raw};
    return cell;
}

static void fill_cell(struct cell *cell)
{
    guest_assert(cell->tag == TAG, SPOILT);
    for (unsigned i = 0; i < cell->raw.length; i++) {
        char c = cell->raw.at[i];
        const char *written = entity(c);

        if (written == NULL)
            cell->html[cell->length++] = c;
        else
            while (*written != '\0')
                cell->html[cell->length++] = *written++;
        if (c == '"' && i + 1 < cell->raw.length && cell->raw.at[i + 1] == '"')
            i++;
    }
}

/* Makes the cells of a line, of which none is filled yet. Tells whether there was room for all. */
static int split(struct text line, struct cell **cells)
{
    struct text raw;
    int more;

    *cells = NULL;
    do {
        more = take_field(&line, &raw);
        *cells = make_cell(raw);
        if (*cells == NULL)
            return 0;
        cells = &(*cells)->next;
    } while (more);
    return 1;
}

static void put_row(const struct cell *cell)
{
    put("<tr>");
    for (; cell != NULL; cell = cell->next) {
        put("<td>");
        put_text((struct text){cell->html, cell->length});
        put("</td>");
    }
    put("</tr>");
}

static void free_cells(struct cell *cell)
{
    while (cell != NULL) {
        struct cell *next = cell->next;

        guest_free(cell);
        cell = next;
    }
}

int main(void)
{
    for (;;) {
        struct text line;
        struct guest_item item = next_line(&line);
        struct cell *cells;

        if (item.kind != GUEST_MESSAGE)
            continue;
        if (split(line, &cells)) {
            for (struct cell *cell = cells; cell != NULL; cell = cell->next)
                fill_cell(cell);
            put_row(cells);
        } else {
            put("error: the heap is full");
        }
        free_cells(cells);
        send_reply(item.connection);
    }
}
