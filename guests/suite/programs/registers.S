# The operations of RV32I on two registers, on each pair of edge values; a shift takes the low five bits. Also with one
# register as both operands, with the result in either operand, and with a result that x0 drops.
    .include "suite.inc"
    begin
    each_pair
    .irp    operation, add, sub, sll, slt, sltu, xor, srl, sra, or, and
    \operation a2, a0, a1
    put     a2
    .endr
    next_pair

    each_value
    li      a1, 0x01234567
    .irp    operation, add, sub, sll, slt, sltu, xor, srl, sra, or, and
    \operation a2, a0, a0
    put     a2
    mv      a2, a0
    \operation a2, a2, a1
    put     a2
    mv      a2, a0
    \operation a2, a1, a2
    put     a2
    \operation x0, a0, a1
    .endr
    put     x0
    next_value
    finish
