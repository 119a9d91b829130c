/* The guest calls of rx, for C.
 *
 * A call is an ECALL with its number in a7 (x17), its operands in a0 to a2 and its answers in the same registers. All
 * other registers keep their values. A call may touch memory, so the compiler is told that it does ("memory").
 */
#ifndef GUEST_H
#define GUEST_H

/* The longest message that comes as one item, and the longest reply that one send takes. */
enum { GUEST_MOST_RECEIVED = 4096, GUEST_MOST_SENT = 65535 };

/* Connections have numbers below this. */
enum { GUEST_MOST_CONNECTIONS = 4096 };

/* What an item is. */
enum guest_kind { GUEST_OPEN = 1, GUEST_MESSAGE = 2, GUEST_CLOSE = 3 };

/* An item: the full length of its bytes, its connection, and its kind. An open and a close have no bytes. */
struct guest_item {
    unsigned length;
    unsigned connection;
    unsigned kind;
};

/* What a send answers. */
enum guest_sent { GUEST_SENT = 0, GUEST_NOT_OPEN = 1, GUEST_TOO_LONG = 2 };

/* Call 1. Waits for the next item and puts its first bytes, at most `size`, at `buffer`. All of the buffer has to be
 * writable. The length in the answer is the item's full length, also where it is more than `size`. Where the input is
 * at its end, the call doesn't return and the run is finished. */
static inline struct guest_item guest_recv(void *buffer, unsigned size)
{
    register unsigned a0 __asm__("a0") = (unsigned)buffer;
    register unsigned a1 __asm__("a1") = size;
    register unsigned a2 __asm__("a2");
    register unsigned a7 __asm__("a7") = 1;

    __asm__ volatile("ecall" : "+r"(a0), "+r"(a1), "=r"(a2) : "r"(a7) : "memory");
    return (struct guest_item){.length = a0, .connection = a1, .kind = a2};
}

/* Call 2. Sends `length` bytes from `bytes` to a connection. A send of no bytes sends nothing. */
static inline enum guest_sent guest_send(unsigned connection, const void *bytes, unsigned length)
{
    register unsigned a0 __asm__("a0") = connection;
    register unsigned a1 __asm__("a1") = (unsigned)bytes;
    register unsigned a2 __asm__("a2") = length;
    register unsigned a7 __asm__("a7") = 2;

    __asm__ volatile("ecall" : "+r"(a0) : "r"(a1), "r"(a2), "r"(a7) : "memory");
    return (enum guest_sent)a0;
}

/* Call 3. Allocates a block of `size` bytes and answers its address, a multiple of 16, or NULL where there is no room. What
 * stands in the block at first isn't known. */
static inline void *guest_malloc(unsigned size)
{
    register unsigned a0 __asm__("a0") = size;
    register unsigned a7 __asm__("a7") = 3;

    __asm__ volatile("ecall" : "+r"(a0) : "r"(a7) : "memory");
    return (void *)a0;
}

/* Call 4. Frees a block that was allocated and that wasn't freed since. NULL is passed over. With any other address the
 * program fails. */
static inline void guest_free(void *block)
{
    register unsigned a0 __asm__("a0") = (unsigned)block;
    register unsigned a7 __asm__("a7") = 4;

    __asm__ volatile("ecall" : : "r"(a0), "r"(a7) : "memory");
}

/* Call 5. Ends the program with a code: 0 where all is well. */
__attribute__((noreturn)) static inline void guest_exit(unsigned code)
{
    register unsigned a0 __asm__("a0") = code;
    register unsigned a7 __asm__("a7") = 5;

    __asm__ volatile("ecall" : : "r"(a0), "r"(a7) : "memory");
    __builtin_unreachable();
}

/* Call 6, where `holds` is 0. The program fails by this code: what has to hold in it doesn't. Else nothing is done. */
static inline void guest_assert(int holds, unsigned code)
{
    register unsigned a0 __asm__("a0") = code;
    register unsigned a7 __asm__("a7") = 6;

    if (holds)
        return;
    __asm__ volatile("ecall" : : "r"(a0), "r"(a7) : "memory");
    __builtin_unreachable();
}

/* Call 7. Allocates a block of `count` times `size` bytes, all of them 0, and answers as guest_malloc. It answers NULL also where
 * the product isn't below 2 to the 32. */
static inline void *guest_calloc(unsigned count, unsigned size)
{
    register unsigned a0 __asm__("a0") = count;
    register unsigned a1 __asm__("a1") = size;
    register unsigned a7 __asm__("a7") = 7;

    __asm__ volatile("ecall" : "+r"(a0) : "r"(a1), "r"(a7) : "memory");
    return (void *)a0;
}

/* Call 8. Allocates a block of `size` bytes in place of another one, and answers where it is: always elsewhere. What stood in the old
 * block stands in the new one, up to the lesser size, and the old one is freed. Where there is no room, the answer is NULL, and the
 * old block stays. With NULL it is guest_malloc. With any other address that isn't a block's the program fails. */
static inline void *guest_realloc(void *block, unsigned size)
{
    register unsigned a0 __asm__("a0") = (unsigned)block;
    register unsigned a1 __asm__("a1") = size;
    register unsigned a7 __asm__("a7") = 8;

    __asm__ volatile("ecall" : "+r"(a0) : "r"(a1), "r"(a7) : "memory");
    return (void *)a0;
}

#endif
