# The start of a guest in C. rx starts it at _start, with sp at the top of the stack and every other register 0.
# Memory that the file doesn't give is 0, so bss needs no clearing. With -DTHREAD_POINTER tp is where thread-local data begin, by
# guest.ld: a C library keeps errno there. Else tp stays 0.

    .section .text.start, "ax"
    .globl _start
_start:
    .option push
    .option norelax                 # else the linker makes this `mv gp, gp`
    la      gp, __global_pointer$   # small data is reached from gp, by guest.ld
    .option pop
#ifdef THREAD_POINTER
    .globl  guest_has_thread_pointer
guest_has_thread_pointer:
    la      tp, __tls_base
#endif

    call    main                    # a0 is the result
    li      a7, 5                   # exit
    ecall
