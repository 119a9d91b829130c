/* A server that keeps lists of tasks, over a C library.
 *
 *     add LIST TEXT     puts a task at the end of a list: `added 3`, its number
 *     done NUMBER       takes it off its list: `done`, or `no task`
 *     next LIST         the list's next task, one after another and then from its front: `3 TEXT`, or `none`
 *
 * It has a fault of a kind that is often made: a list keeps a pointer to the task that `next` told last, and `done` frees a task
 * without a look at that pointer. With -DMENDED it looks.
 */
#include <assert.h>
#include <stdlib.h>
#include "serve.h"

enum { MOST_LISTS = 16, SIGN = 0x7a5c };

struct task {
    struct task *next;
    unsigned number;
    unsigned sign;
    char text[];
};

struct list {
    char name[16];
    struct task *first;
    struct task *told; /* the one that `next` told last, or NULL */
};

static struct list lists[MOST_LISTS];
static unsigned count, last;

static struct list *find(const char *name)
{
    for (unsigned i = 0; i < count; i++)
        if (strcmp(lists[i].name, name) == 0)
            return &lists[i];
    return NULL;
}

static struct list *find_or_make(const char *name)
{
    struct list *list = find(name);

    if (list != NULL || count == MOST_LISTS)
        return list;
    list = &lists[count++];
    snprintf(list->name, sizeof list->name, "%s", name);
    return list;
}

static void add(const char *name, const char *text)
{
    struct list *list = find_or_make(name);
    struct task *task = malloc(sizeof *task + strlen(text) + 1);
    struct task **at;

    if (list == NULL || task == NULL) {
        free(task);
        say("full\n");
        return;
    }
    task->next = NULL;
    task->number = ++last;
    task->sign = SIGN;
    strcpy(task->text, text);
    for (at = &list->first; *at != NULL; at = &(*at)->next)
        ;
    *at = task;
    say("added %u\n", task->number);
}

/* Takes a task off a list. Tells whether it was there. */
static int take(struct list *list, unsigned number)
{
    for (struct task **at = &list->first; *at != NULL; at = &(*at)->next) {
        struct task *task = *at;

        if (task->number != number)
            continue;
#ifdef MENDED
        if (list->told == task)
            list->told = NULL;
#endif
        *at = task->next;
        free(task);
        return 1;
    }
    return 0;
}

static void done(const char *text)
{
    unsigned number = strtoul(text, NULL, 10);

    for (unsigned i = 0; i < count; i++)
        if (take(&lists[i], number)) {
            say("done\n");
            return;
        }
    say("no task\n");
}

static void next(const char *name)
{
    struct list *list = find(name);
    struct task *task;

    if (list == NULL || list->first == NULL) {
        say("none\n");
        return;
    }
    task = list->told == NULL ? list->first : list->told->next;
    if (task == NULL)
        task = list->first;
    assert(task->sign == SIGN);
    list->told = task;
    say("%u %s\n", task->number, task->text);
}

int main(void)
{
    for (;;) {
        unsigned connection = next_line();
        char *word = strtok(line, " ");
        char *name = word == NULL ? NULL : strtok(NULL, " ");
        char *text = name == NULL ? NULL : strtok(NULL, "");

        if (name == NULL)
            say("bad\n");
        else if (strcmp(word, "add") == 0 && text != NULL)
            add(name, text);
        else if (strcmp(word, "done") == 0)
            done(name);
        else if (strcmp(word, "next") == 0)
            next(name);
        else
            say("bad\n");
        send_reply(connection);
    }
}
