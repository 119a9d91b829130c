# The operations of the M extension on each pair of edge values: 0, 1, -1 and the least number are among them, so division
# by zero and the quotient that overflows are too.
    .include "suite.inc"
    begin
    each_pair
    .irp    operation, mul, mulh, mulhsu, mulhu, div, divu, rem, remu
    \operation a2, a0, a1
    put     a2
    .endr
    next_pair

    each_value
    .irp    operation, mul, mulh, mulhsu, mulhu, div, divu, rem, remu
    \operation a2, a0, a0
    put     a2
    mv      a2, a0
    \operation a2, a2, x0
    put     a2
    mv      a2, a0
    \operation a2, x0, a2
    put     a2
    \operation x0, a0, a0
    .endr
    put     x0
    next_value
    finish
