/* What a C library leaves to the machine, by guest calls: its heap, and the end of the program. With it a server may use malloc,
 * string.h, strtol, snprintf and assert as anywhere. There are no files, no clock and no standard output. */
#include <stdlib.h>
#include "guest.h"

void *malloc(size_t size)
{
    return guest_malloc(size);
}

void free(void *block)
{
    guest_free(block);
}

void *calloc(size_t count, size_t size)
{
    return guest_calloc(count, size);
}

void *realloc(void *block, size_t size)
{
    return guest_realloc(block, size);
}

_Noreturn void _exit(int code)
{
    guest_exit(code);
}

/* What assert calls: the program fails, and is recovered. */
_Noreturn void __assert_func(const char *file, int line, const char *function, const char *test)
{
    (void)file, (void)function, (void)test;
    guest_assert(0, line);
    guest_exit(1);
}
