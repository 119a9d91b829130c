# The operations on a register and an immediate, on each edge value: immediates at both ends of their range, and shifts by
# 0 to 31.
    .include "suite.inc"
    begin
    each_value
    .irp    immediate, -2048, -2047, -1, 0, 1, 2046, 2047, 0x555, -0x556
    .irp    operation, addi, slti, sltiu, xori, ori, andi
    \operation a2, a0, \immediate
    put     a2
    .endr
    .endr
    .irp    places, 0, 1, 2, 4, 8, 15, 16, 30, 31
    .irp    operation, slli, srli, srai
    \operation a2, a0, \places
    put     a2
    .endr
    .endr
    addi    a2, a0, 0
    slti    a2, a2, 1
    put     a2
    addi    x0, a0, 1
    srai    x0, a0, 1
    put     x0
    next_value
    finish
