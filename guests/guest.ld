/* The memory of a guest: code, constants and variables, each in a segment that begins on a page of its own.
 *
 * So no segment shares a byte with another, and each has just the permissions that it needs. A guest without constants
 * has an empty segment for them, which rx passes over. There are no other program headers. rx places the heap, on the
 * first page behind the segments, and the stack.
 */
OUTPUT_FORMAT("elf32-littleriscv")
OUTPUT_ARCH(riscv)
ENTRY(_start)

PHDRS
{
    code PT_LOAD FLAGS(5);          /* read, execute */
    constants PT_LOAD FLAGS(4);     /* read */
    variables PT_LOAD FLAGS(6);     /* read, write */
}

SECTIONS
{
    . = 0x10000;
    .text : { KEEP(*(.text.start)) *(.text .text.*) } :code

    . = ALIGN(4096);
    .rodata : { *(.rodata .rodata.*) *(.srodata .srodata.*) } :constants

    . = ALIGN(4096);
    .data :
    {
        *(.data .data.*)
        /* gp reaches 2048 bytes to either side: the small variables, which stand together from here on. The linker
           wants 16 bytes to spare, for alignment. */
        __global_pointer$ = . + 0x7f0;
        *(.sdata .sdata.*)
    } :variables
    /* Thread-local data, as the errno of a C library. There is one thread, so they stand once, and tp is where they begin. The
       linker gives those without a value no room of their own: bss has it. */
    .tdata : { *(.tdata .tdata.*) *(.tbss .tbss.*) } :variables
    PROVIDE(__tls_base = ADDR(.tdata));
    .bss : { . += SIZEOF(.tdata); *(.sbss .sbss.*) *(.bss .bss.*) *(COMMON) } :variables

    ASSERT(SIZEOF(.tdata) == 0 || DEFINED(guest_has_thread_pointer),
           "thread-local data, as the errno of a C library: assemble start.S with -DTHREAD_POINTER")

    /DISCARD/ : { *(.riscv.attributes) *(.comment) *(.note .note.*) *(.eh_frame) }
}
