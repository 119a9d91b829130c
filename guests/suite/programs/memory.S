# Loads and stores: each width at each of eight offsets, so misaligned too; signs; immediates at both ends; across pages
# and across segments; from code; into x0.
    .include "suite.inc"

.macro  put_four
    .irp    offset, 0, 4, 8, 12
    lw      a1, \offset(s0)
    put     a1
    .endr
.endm

.macro  clear_four
    .irp    offset, 0, 4, 8, 12
    sw      x0, \offset(s0)
    .endr
.endm

    begin
    la      s0, signs
    .irp    offset, 0, 1, 2, 3, 4, 5, 6, 7
    .irp    operation, lb, lbu, lh, lhu, lw
    \operation a0, \offset(s0)
    put     a0
    .endr
    .endr

    la      s0, scratch
    li      a0, 0x89abcdef
    .irp    offset, 0, 1, 2, 3, 4, 5, 6, 7
    .irp    operation, sb, sh, sw
    clear_four
    \operation a0, \offset(s0)
    put_four
    .endr
    .endr

    la      a2, scratch + 2048      # immediates at both ends
    la      a3, scratch - 2047
    sw      a0, -2048(a2)
    lw      a1, -2048(a2)
    put     a1
    sb      s0, 2047(a3)
    lw      a1, 2047(a3)
    put     a1

    la      s0, page - 8            # a store across two pages
    .irp    offset, 4, 5, 6, 7, 8
    clear_four
    sw      a0, \offset(s0)
    put_four
    clear_four
    sh      a0, \offset(s0)
    put_four
    lhu     a1, \offset(s0)
    put     a1
    .endr

    la      s0, last_constant       # a load across two segments, of which only one may be written
    .irp    offset, 0, 1, 2, 3, 4
    lw      a1, \offset(s0)
    put     a1
    lh      a1, \offset(s0)
    put     a1
    .endr

    la      s0, program             # code is data as well
    lw      a1, 0(s0)
    put     a1
    lhu     a1, 3(s0)
    put     a1

    la      s0, signs               # into x0, into the base, and a base as its own value
    lw      x0, 0(s0)
    put     x0
    lw      s0, 4(s0)
    put     s0
    la      s0, scratch
    sw      s0, 0(s0)
    lw      a1, 0(s0)
    put     a1
    finish

    .section .rodata
signs:
    .byte   0x80, 0x7f, 0xff, 0x00, 0x01, 0x81, 0xfe, 0x80, 0x7f, 0x80, 0x33, 0xcc
    .space  4092 - (. - edges)      # the rest of the page, but for a word
last_constant:
    .word   0xc0b0a090

    .data
first_variable:
    .word   0x8f7f6f5f
    .word   0x12345678

    .bss
scratch:
    .space  4096 - 12               # the variables begin a page, by suite.ld; 12 bytes stand before
page:
    .space  16
