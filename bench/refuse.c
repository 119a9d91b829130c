/* Refuses a program memory, where it is preloaded: calls of malloc, calloc, realloc and aligned_alloc that the program's own file makes are counted from 1.
 *
 * REFUSE=N refuses call N, REFUSE=N.. that one and all behind it; without either none is refused. At the end the number of calls is written to the
 * descriptor that REFUSE_COUNT names, if it is there. What the C library asks for itself isn't counted: that is no growth of the program's. */
#define _GNU_SOURCE
#include <errno.h>
#include <link.h>
#include <stdint.h>
#include <stdio.h>
#include <stdlib.h>
#include <string.h>
#include <unistd.h>

void *__libc_malloc(size_t size);
void *__libc_calloc(size_t count, size_t size);
void *__libc_realloc(void *old, size_t size);
void *__libc_memalign(size_t alignment, size_t size);

static uintptr_t first, last; /* where the program's own file stands in memory */
static unsigned long long calls, refused;
static int refuses_all_behind;

static int find_program(struct dl_phdr_info *info, size_t size, void *data)
{
    (void)size;
    (void)data;
    first = UINTPTR_MAX;
    for (int number = 0; number < info->dlpi_phnum; number++) {
        const ElfW(Phdr) *header = &info->dlpi_phdr[number];

        if (header->p_type == PT_LOAD) {
            uintptr_t begin = info->dlpi_addr + header->p_vaddr, end = begin + header->p_memsz;

            first = begin < first ? begin : first;
            last = end > last ? end : last;
        }
    }
    return 1; /* the first one is the program */
}

__attribute__((constructor)) static void begin(void)
{
    const char *asked = getenv("REFUSE");

    dl_iterate_phdr(find_program, NULL);
    if (asked != NULL) {
        char *rest;

        refused = strtoull(asked, &rest, 10);
        refuses_all_behind = strcmp(rest, "..") == 0;
    }
}

__attribute__((destructor)) static void end(void)
{
    const char *asked = getenv("REFUSE_COUNT");
    char line[32];

    if (asked != NULL) {
        int length = snprintf(line, sizeof line, "%llu\n", calls);

        if (write(atoi(asked), line, length) != length)
            _exit(125);
    }
}

/* Counts a call of the program, and tells whether it is to be refused. */
static int is_refused(void *caller)
{
    if ((uintptr_t)caller < first || last <= (uintptr_t)caller)
        return 0;
    calls++;
    if (refused == 0 || !(refuses_all_behind ? refused <= calls : refused == calls))
        return 0;
    errno = ENOMEM;
    return 1;
}

void *malloc(size_t size)
{
    return is_refused(__builtin_return_address(0)) ? NULL : __libc_malloc(size);
}

void *calloc(size_t count, size_t size)
{
    return is_refused(__builtin_return_address(0)) ? NULL : __libc_calloc(count, size);
}

void *realloc(void *old, size_t size)
{
    return is_refused(__builtin_return_address(0)) ? NULL : __libc_realloc(old, size);
}

void *aligned_alloc(size_t alignment, size_t size)
{
    return is_refused(__builtin_return_address(0)) ? NULL : __libc_memalign(alignment, size);
}
