/* A server that reads headers, over a C library. A line is a header of fields, `Name: value; Name: value; ..`. The reply has the
 * fields in order of their names, each as `Name=value`, in lower case, and how many there were.
 *
 * It has a fault of a kind that is often made: the block of a value has room for its characters, and none for the zero behind
 * them. With -DMENDED it has.
 */
#include <assert.h>
#include <ctype.h>
#include <stdlib.h>
#include "serve.h"

enum { SIGN = 0xf1e1d };

struct field {
    unsigned sign;
    struct field *next;
    const char *name;
    char *value;
};

/* A copy of a text without the blanks at its ends, or NULL where there is no room. */
static char *trimmed(const char *text)
{
    size_t length;
    char *copy;

    while (isspace((unsigned char)*text))
        text++;
    length = strlen(text);
    while (length > 0 && isspace((unsigned char)text[length - 1]))
        length--;
#ifdef MENDED
    copy = malloc(length + 1);
#else
    copy = malloc(length);
#endif
    if (copy == NULL)
        return NULL;
    memcpy(copy, text, length);
    copy[length] = '\0';
    return copy;
}

/* Puts a field where its name belongs, behind those with the same. */
static void put(struct field **at, struct field *field)
{
    while (*at != NULL && strcmp((*at)->name, field->name) <= 0)
        at = &(*at)->next;
    field->next = *at;
    *at = field;
}

static struct field *make(char *text)
{
    char *colon = strchr(text, ':');
    struct field *field;

    if (colon == NULL)
        return NULL;
    *colon = '\0';
    for (char *at = text; *at != '\0'; at++)
        *at = tolower((unsigned char)*at);
    field = malloc(sizeof *field);
    if (field == NULL)
        return NULL;
    field->sign = SIGN;
    field->name = text + strspn(text, " ");
    field->value = trimmed(colon + 1);
    return field;
}

int main(void)
{
    for (;;) {
        unsigned connection = next_line();
        struct field *first = NULL;
        unsigned count = 0;

        for (char *text = strtok(line, ";"); text != NULL; text = strtok(NULL, ";")) {
            struct field *field = make(text);

            if (field != NULL)
                put(&first, field);
        }
        while (first != NULL) {
            struct field *field = first;

            assert(field->sign == SIGN);
            if (field->value != NULL)
                say("%s=%s\n", field->name, field->value);
            first = field->next;
            free(field->value);
            free(field);
            count++;
        }
        say("%u fields\n", count);
        send_reply(connection);
    }
}
