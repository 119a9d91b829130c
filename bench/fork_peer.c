/* The peer of a checkpoint: a process with so many MiB forks at each message, and writes one page between. The copies stand still in
 * a ring of eight; the oldest is ended and awaited before the next comes.
 *
 * fork_peer MIB COUNT PROCESSOR; it prints the seconds of the processor that the forks took, of itself and of the copies. */
#define _GNU_SOURCE
#include <sched.h>
#include <signal.h>
#include <stdio.h>
#include <stdlib.h>
#include <string.h>
#include <sys/resource.h>
#include <sys/wait.h>
#include <unistd.h>

enum { RING = 8 };

static pid_t ring[RING];

static double seconds_of(int who)
{
    struct rusage usage;

    getrusage(who, &usage);
    return usage.ru_utime.tv_sec + usage.ru_stime.tv_sec + 1e-6 * (usage.ru_utime.tv_usec + usage.ru_stime.tv_usec);
}

static double seconds(void)
{
    return seconds_of(RUSAGE_SELF) + seconds_of(RUSAGE_CHILDREN);
}

static void drop(int slot)
{
    if (ring[slot] > 0) {
        kill(ring[slot], SIGKILL);
        waitpid(ring[slot], NULL, 0);
        ring[slot] = 0;
    }
}

int main(int count_of_words, char **words)
{
    if (count_of_words != 4)
        return 2;
    size_t size = (size_t)atoi(words[1]) << 20;
    int count = atoi(words[2]);
    cpu_set_t one;
    char *memory = malloc(size);

    if (memory == NULL)
        return 1;
    CPU_ZERO(&one);
    CPU_SET(atoi(words[3]), &one);
    sched_setaffinity(0, sizeof one, &one);
    memset(memory, 1, size);
    double began = seconds();
    for (int i = 0; i < count; i++) {
        drop(i % RING);
        pid_t child = fork();
        if (child < 0)
            return 1;
        if (child == 0)
            for (;;)
                pause();
        ring[i % RING] = child;
        ((volatile char *)memory)[size / 2] = (char)i;
    }
    for (int slot = 0; slot < RING; slot++)
        drop(slot);
    printf("%.6f\n", seconds() - began);
    return 0;
}
