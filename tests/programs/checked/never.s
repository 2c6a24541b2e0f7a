# The input's first byte is taken modulo 4 and looked for in three tests; what stands behind them is never reached.
    .section .start, "ax"
    .globl  _start
_start:
    li      a7, 1
    ecall
    andi    a0, a0, 3
    beqz    a0, zero_
    addi    a0, a0, -1
    beqz    a0, one
    addi    a0, a0, -1
    beqz    a0, two
    addi    a0, a0, -1
    beqz    a0, three
behind:
    div     a0, a0, a0
    div     a0, a0, a0
    j       behind_end
three:
    addi    a0, a0, 1
two:
    addi    a0, a0, 1
one:
    addi    a0, a0, 1
zero_:
    addi    a0, a0, 1
behind_end:
    li      a7, 0
last:
    ecall
end:
#: copy main _start
#: exit last
#: never 0 1 behind
#: share main _start end
