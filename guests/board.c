/* A message board of HTTP/1.1, for a browser, with these pages:
 *
 *     GET  /       the form and the last messages, in HTML
 *     POST /post   adds a message: `name`, of at most 32 bytes, and `text`, of 1 to 160 bytes, as a form sends them
 *
 * Whoever may GET may also ask for the HEAD. It runs with `--frame whole`. What it answers where it can't is told in http.h; beside
 * that 400 to a message that is too long, and 415 to what is no form. Of more than 20 messages the oldest is dropped.
 *
 * It has a fault: it runs past the end of a block. A form is percent-encoded, so the block of a text gets as many bytes as the text
 * had then, as if HTML never took more. But < and > come in three bytes, as %3C and %3E, and take four; & comes in three and takes
 * five. So a text with enough of them may reach into the block of the name, and the tag there is spoilt. The tag is looked at
 * before the name is filled in, and whenever the message is shown: assertion 1. The text `I <3 it` leaves bytes of its block
 * free, so nothing happens. The text `<3 <3 <3 <3 <3` leaves none.
 *
 * Padding helps. What is too much falls between the blocks.
 */
#include "http.h"

enum { TAG = 0xb0a4d, SPOILT = 1, MOST_NAME = 32, MOST_TEXT = 160, MOST_SHOWN = 20 };

/* A text in HTML. */
struct part {
    unsigned tag;
    unsigned length;
    char html[];
};

struct note {
    struct part *text;
    struct part *name;
};

static struct note notes[MOST_SHOWN]; /* the latest stands at 0 */
static unsigned count;

static const char html[] = "text/html; charset=utf-8";

/* What HTML has in place of a character, or NULL. */
static const char *entity(char c)
{
    switch (c) {
    case '&':
        return "&amp;";
    case '<':
        return "&lt;";
    case '>':
        return "&gt;";
    default:
        return NULL;
    }
}

/* How many bytes a text of a form has once it is decoded. Tells whether it can be. */
static int read_size(struct text encoded, unsigned *size)
{
    char c;

    for (*size = 0; encoded.length > 0; ++*size)
        if (!take_char(&encoded, 1, &c))
            return 0;
    return 1;
}

static struct part *make_part(struct text encoded)
{
    struct part *part = guest_malloc(sizeof *part + encoded.length);

    if (part != NULL)
        *part = (struct part){.tag = TAG};
    return part;
}

static void fill_part(struct part *part, struct text encoded)
{
    char c;

    guest_assert(part->tag == TAG, SPOILT);
    while (encoded.length > 0 && take_char(&encoded, 1, &c)) {
        const char *written = entity(c);

        if (written == NULL)
            part->html[part->length++] = c;
        else
            while (*written != '\0')
                part->html[part->length++] = *written++;
    }
}

static void put_part(const struct part *part)
{
    guest_assert(part->tag == TAG, SPOILT);
    put_text((struct text){part->html, part->length});
}

static void drop_note(struct note note)
{
    guest_free(note.text);
    guest_free(note.name);
}

/* Adds a message in front of the others. Tells whether there was room. */
static int add_note(struct text text, struct text name)
{
    struct note note = {make_part(text), make_part(name)};

    if (note.text == NULL || note.name == NULL) {
        drop_note(note);
        return 0;
    }
    fill_part(note.text, text);
    fill_part(note.name, name);
    if (count == MOST_SHOWN)
        drop_note(notes[--count]);
    for (unsigned i = count++; i > 0; i--)
        notes[i] = notes[i - 1];
    notes[0] = note;
    return 1;
}

static struct answer write_board(const struct request *request)
{
    (void)request;
    put("<!DOCTYPE html>\n"
        "<html lang=\"en\">\n"
        "<head><meta charset=\"utf-8\"><title>Board</title></head>\n"
        "<body>\n"
        "<h1>Board</h1>\n"
        "<form method=\"post\" action=\"/post\">\n"
        "<input name=\"name\" placeholder=\"name\" maxlength=\"32\">\n"
        "<input name=\"text\" placeholder=\"text\" maxlength=\"160\" size=\"60\" required>\n"
        "<button>Post</button>\n"
        "</form>\n"
        "<ul>\n");
    for (unsigned i = 0; i < count; i++) {
        put("<li><b>");
        put_part(notes[i].name);
        put("</b>: ");
        put_part(notes[i].text);
        put("</li>\n");
    }
    put("</ul>\n"
        "</body>\n"
        "</html>\n");
    return (struct answer){200, html, "Cache-Control: no-store\r\n"};
}

static struct answer write_post(const struct request *request)
{
    struct text kind = request->type;
    struct text text = field_of(request->body, "text");
    struct text name = field_of(request->body, "name");
    unsigned text_size, name_size;

    if (!is_named(trimmed(take_until(&kind, ';')), "application/x-www-form-urlencoded"))
        return told(415, "");
    if (name.length == 0)
        name = (struct text){"somebody", 8};
    if (!read_size(text, &text_size) || text_size == 0 || text_size > MOST_TEXT || !read_size(name, &name_size)
        || name_size > MOST_NAME)
        return told(400, "");
    if (!add_note(text, name))
        return told(503, "");
    return told(303, "Location: /\r\n");
}

static const struct page pages[] = {
    {"/", GET, write_board},
    {"/post", POST, write_post},
};

int main(void)
{
    serve(pages, sizeof pages / sizeof *pages);
}
