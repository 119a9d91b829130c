# The branches on each pair of edge values, taken and not taken, forwards and backwards. Then the farthest branches.
    .include "suite.inc"
    begin
    each_pair
    li      a2, 0                   # a bit for each branch that is taken
    .irp    comparison, beq, bne, blt, bge, bltu, bgeu
    slli    a2, a2, 1
    \comparison a0, a1, 3f
    j       4f
3:  ori     a2, a2, 1
4:
    .endr
    put     a2
    next_pair

    each_value
    li      a2, 0
    .irp    comparison, beq, bne, blt, bge, bltu, bgeu
    slli    a2, a2, 1
    j       4f
3:  ori     a2, a2, 1
    j       5f
4:  \comparison a0, a0, 3b
5:  slli    a2, a2, 1
    j       4f
3:  ori     a2, a2, 1
    j       5f
4:  \comparison x0, a0, 3b
5:
    .endr
    put     a2
    next_value

    li      a0, 3                   # a loop
6:  put     a0
    addi    a0, a0, -1
    bge     a0, x0, 6b

    beq     x0, x0, farthest        # 4092 bytes forwards
back:
    put     a0
    j       done
    .space  4088 - (. - back)
farthest:
    li      a0, 0x123
    nop
    bgeu    a0, x0, back            # 4096 bytes backwards
    wrong
done:
    finish
