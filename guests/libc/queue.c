/* A queue of jobs for those who work on them, over a C library.
 *
 *     put PRIORITY TEXT    adds a job. One with a lesser number goes first: `inserted 3`, its number
 *     reserve              this connection has the first job that is ready: `reserved 3 TEXT`, or `none`
 *     delete NUMBER        takes away a job that this connection has, or that is ready: `deleted`
 *     release NUMBER       makes a job ready that this connection has: `released`
 *     drop NUMBER          takes away any job, whoever has it: `dropped`
 *     peek                 the first job that is ready, which stays so: `job 3 TEXT`, or `none`
 *     stats                `ready 3, reserved 2, yours 1`
 *
 * Where there is no such job the reply is `not found`. What a connection has when it closes is ready again.
 *
 * It has a fault of a kind that is often made: `drop` takes a job off the list of those that are ready, and one that somebody has
 * stands in another list. It stays there when it is freed. With -DMENDED it is taken off the list in which it stands.
 */
#define _POSIX_C_SOURCE 200809L /* strdup */
#include <assert.h>
#include <stdlib.h>
#include "serve.h"

enum { CHAINS = 64, NOBODY = GUEST_MOST_CONNECTIONS };

struct job {
    struct job *next;  /* of its list: those that are ready, or those that a connection has */
    struct job **back; /* what points at it there */
    struct job *chain; /* the next one whose number has the same rest */
    unsigned number;
    unsigned priority;
    unsigned holder; /* who has it, or NOBODY: it is ready */
    char *text;
};

/* What a connection has. */
struct worker {
    struct job *jobs;
    unsigned count;
};

static struct worker workers[GUEST_MOST_CONNECTIONS];
static struct job *ready; /* in the order in which they go */
static struct job *chains[CHAINS];
static unsigned last, all_ready, all_reserved;

/* Puts a job into a list, in front of the one at this place. */
static void put_in(struct job **at, struct job *job)
{
    job->next = *at;
    job->back = at;
    if (job->next != NULL)
        job->next->back = &job->next;
    *at = job;
}

/* Takes a job off the list in which it stands. */
static void take_off(struct job *job)
{
    assert(*job->back == job);
    if (job->next != NULL)
        job->next->back = job->back;
    *job->back = job->next;
}

/* Where the job of a number hangs, or NULL does. */
static struct job **place_of(unsigned number)
{
    struct job **at = &chains[number % CHAINS];

    while (*at != NULL && (*at)->number != number)
        at = &(*at)->chain;
    return at;
}

/* Puts a job that is in no list among those that are ready, behind those of its priority. */
static void make_ready(struct job *job)
{
    struct job **at = &ready;

    while (*at != NULL && (*at)->priority <= job->priority)
        at = &(*at)->next;
    put_in(at, job);
    job->holder = NOBODY;
    all_ready++;
}

/* Counts a job no more where it is. */
static void uncount(const struct job *job)
{
    if (job->holder == NOBODY) {
        all_ready--;
    } else {
        all_reserved--;
        workers[job->holder].count--;
    }
}

/* Frees the job that hangs at a place. It is in no list. */
static void forget(struct job **place)
{
    struct job *job = *place;

    *place = job->chain;
    free(job->text);
    free(job);
}

static void put(unsigned priority, const char *text)
{
    struct job *job = malloc(sizeof *job);
    char *copy = strdup(text);

    if (job == NULL || copy == NULL) {
        free(copy);
        free(job);
        say("full\n");
        return;
    }
    job->number = ++last;
    job->priority = priority;
    job->text = copy;
    job->chain = NULL;
    *place_of(job->number) = job;
    make_ready(job);
    say("inserted %u\n", job->number);
}

static void reserve(unsigned connection)
{
    struct job *job = ready;

    if (job == NULL) {
        say("none\n");
        return;
    }
    uncount(job);
    take_off(job);
    put_in(&workers[connection].jobs, job);
    job->holder = connection;
    workers[connection].count++;
    all_reserved++;
    say("reserved %u %s\n", job->number, job->text);
}

static void delete(unsigned connection, unsigned number)
{
    struct job **place = place_of(number);
    struct job *job = *place;

    if (job == NULL || (job->holder != connection && job->holder != NOBODY)) {
        say("not found\n");
        return;
    }
    uncount(job);
    take_off(job);
    forget(place);
    say("deleted\n");
}

static void release(unsigned connection, unsigned number)
{
    struct job *job = *place_of(number);

    if (job == NULL || job->holder != connection) {
        say("not found\n");
        return;
    }
    uncount(job);
    take_off(job);
    make_ready(job);
    say("released\n");
}

static void drop(unsigned number)
{
    struct job **place = place_of(number);
    struct job *job = *place;

    if (job == NULL) {
        say("not found\n");
        return;
    }
    uncount(job);
#ifndef MENDED
    if (job->holder == NOBODY)
#endif
        take_off(job);
    forget(place);
    say("dropped\n");
}

/* Makes ready what a connection has. */
static void leave(unsigned connection)
{
    while (workers[connection].jobs != NULL) {
        struct job *job = workers[connection].jobs;

        uncount(job);
        take_off(job);
        make_ready(job);
    }
}

static void answer(unsigned connection)
{
    char *word = strtok(line, " ");
    char *number = word == NULL ? NULL : strtok(NULL, " ");
    char *text = number == NULL ? NULL : strtok(NULL, "");

    if (word == NULL)
        say("bad\n");
    else if (strcmp(word, "reserve") == 0)
        reserve(connection);
    else if (strcmp(word, "peek") == 0 && ready != NULL)
        say("job %u %s\n", ready->number, ready->text);
    else if (strcmp(word, "peek") == 0)
        say("none\n");
    else if (strcmp(word, "stats") == 0)
        say("ready %u, reserved %u, yours %u\n", all_ready, all_reserved, workers[connection].count);
    else if (strcmp(word, "put") == 0 && text != NULL)
        put(strtoul(number, NULL, 10), text);
    else if (strcmp(word, "delete") == 0 && number != NULL)
        delete(connection, strtoul(number, NULL, 10));
    else if (strcmp(word, "release") == 0 && number != NULL)
        release(connection, strtoul(number, NULL, 10));
    else if (strcmp(word, "drop") == 0 && number != NULL)
        drop(strtoul(number, NULL, 10));
    else
        say("bad\n");
}

int main(void)
{
    for (;;) {
        struct guest_item item = next_item();

        if (item.kind == GUEST_MESSAGE) {
            answer(item.connection);
            send_reply(item.connection);
        } else if (item.kind == GUEST_CLOSE) {
            leave(item.connection);
        }
    }
}
