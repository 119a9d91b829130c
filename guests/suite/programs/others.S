# LUI, AUIPC, FENCE with any fields, and x0, which reads as 0 whatever is written to it.
    .include "suite.inc"
    begin
    .irp    upper, 0, 1, 0x7ffff, 0x80000, 0xfffff, 0x12345
    lui     a0, \upper
    put     a0
    auipc   a0, \upper
    put     a0
    lui     x0, \upper
    auipc   x0, \upper
    put     x0
    .endr

    li      a0, 0x5a5a5a5a
    fence
    fence   rw, w
    fence   i, o
    .word   0x8330000f              # fence.tso
    .word   0xffff8f8f              # each field that isn't fixed has ones: fm, both sets, rs1 and rd
    .word   0x0000000f              # and zeros
    put     a0
    put     t6

    addi    x0, x0, 1
    li      a1, 77
    mul     x0, a1, a1
    jal     x0, 1f
    wrong
1:  put     x0
    add     a2, x0, x0
    put     a2
    finish
