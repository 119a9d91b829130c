/* The memory of a program of the suite. The program's own code, constants and variables stand first in each part, so
 * that they have the same addresses with both starts. `far` is a MiB above the code, all but 16 KiB: as far as JAL goes.
 */
OUTPUT_FORMAT("elf32-littleriscv")
OUTPUT_ARCH(riscv)
ENTRY(_start)

PHDRS
{
    code PT_LOAD FLAGS(5);          /* read, execute */
    constants PT_LOAD FLAGS(4);     /* read */
    variables PT_LOAD FLAGS(6);     /* read, write */
    far PT_LOAD FLAGS(5);
}

SECTIONS
{
    . = 0x10000;
    .text : { *(.text .text.*) *(.start) } :code

    . = ALIGN(4096);
    .rodata : { *(.rodata .rodata.*) *(.srodata .srodata.*) } :constants

    . = ALIGN(4096);
    .data : { *(.data .data.*) *(.sdata .sdata.*) } :variables
    .bss : { *(.sbss .sbss.*) *(.bss .bss.*) *(COMMON) *(.results) } :variables

    . = 0x10c000;
    .far : { *(.far) } :far

    /DISCARD/ : { *(.riscv.attributes) *(.comment) *(.note .note.*) *(.eh_frame) }
}
