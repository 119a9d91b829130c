# The start of a program of the suite on rx: at the first message it runs the program, sends the results to connection 0
# and ends.

    .section .start, "ax"
    .globl _start
_start:
    li      a0, 0                   # recv, without its bytes, until the item is a message
    li      a1, 0
    li      a7, 1
    ecall
    li      t0, 2
    bne     a2, t0, _start

    la      a0, results
    call    program                 # a0 is behind the results
    la      a1, results             # send
    sub     a2, a0, a1
    li      a0, 0
    li      a7, 2
    ecall
    li      a7, 5                   # exit with what send answered: 0 where all is well
    ecall

    .section .results, "aw", @nobits
    .balign 4
results:
    .space  65532
