# JAL and JALR: targets before and behind, near and far, bit 0 of JALR's target cleared, and what is written. Results are
# addresses too, which is why the program has the same ones with both starts.
    .include "suite.inc"

# JALR to the label 7 with an immediate. The base is odd or not; so is the sum, whose bit 0 is dropped.
.macro  indirect immediate, odd, written
    la      a1, 7f + (\odd) - (\immediate)
    jalr    \written, \immediate(a1)
    wrong
7:  put     \written
.endm

    begin
    jal     a0, 1f                  # forwards
    wrong
2:  put     a0
    jal     x0, 3f
    wrong
1:  put     a0
    jal     a0, 2b                  # backwards
    wrong
3:
    .irp    immediate, 0, 4, 2047, -2048, -1, 1
    .irp    odd, 0, 1
    indirect \immediate, \odd, a0
    indirect \immediate, \odd, a1   # the base is read before the register is written
    indirect \immediate, \odd, x0
    .endr
    .endr

    jal     a0, far                 # as far as JAL goes, there and back
near:
    put     a0
    la      a1, far_function + 1
    jalr    ra, 0(a1)
    put     a0
    put     ra
    li      a0, 12
    la      sp, stack
    jal     fibonacci
    put     a0
    finish

# The number of a0 in the sequence 0, 1, 1, 2, 3 ..; with itself twice.
fibonacci:
    slti    t0, a0, 2
    bnez    t0, 1f
    addi    sp, sp, -16
    sw      ra, 12(sp)
    sw      a0, 8(sp)
    addi    a0, a0, -1
    jal     fibonacci
    sw      a0, 4(sp)
    lw      a0, 8(sp)
    addi    a0, a0, -2
    jal     fibonacci
    lw      t0, 4(sp)
    add     a0, a0, t0
    lw      ra, 12(sp)
    addi    sp, sp, 16
1:  ret

    .section .far, "ax"
far:
    put     a0
    jal     a0, near
    wrong
far_function:
    auipc   a0, 0
    ret

    .bss
    .balign 16
    .space  512
stack:
