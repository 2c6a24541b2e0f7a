# Runs up to the limit of 1000000000 cycles in three ways, which the first byte of the input chooses:
#   no input: the last ECALL takes the last cycle, so that the image exits at 1000000000
#   1: the last ECALL would take one cycle more, so that the limit stops it, at 1000000001 - 13 = 999999988
#   2: no cycle is left before a word without a row, which traps all the same, since a trap costs nothing
#
# The cycles, at 37 for a DIV, 13 for an ECALL, 6 for a MUL, 5 for a jump or a taken branch and 4 for all else:
#   before the loop 4 + 13 + 7 * 4 + 6 * 37 = 267
#   the loop ROUNDS * (16 * 37 + 4 + 5) - 1 = 999,999,692
#   behind it 5 for the jump to the way, so that 36 are left
    .equ    ROUNDS, 1663893

    .macro  way
    .balign 32, 0
    .endm

    .section .start, "ax"
    .globl  _start
_start:
    li      a7, 1
    ecall
    andi    a0, a0, 3           # -1, where there is no input, gives 3
    slli    a0, a0, 5
    la      s0, ways
    add     s0, s0, a0
    lui     t0, %hi(ROUNDS)
    addi    t0, t0, %lo(ROUNDS)
    .rept   6
    div     t1, t1, t1
    .endr
round:
    .rept   16
    div     t1, t1, t1
    .endr
    addi    t0, t0, -1
    bnez    t0, round
    jr      s0
    way
ways:
    .space  32                  # 0 chooses nothing
    li      a7, 0               # 1: 4 + 4 + 4 * 4 + 13 = 37
    li      a0, 0
    .rept   4
    nop
    .endr
    ecall
    way
    .rept   6                   # 2: 6 * 6 = 36
    mul     t1, t1, t1
    .endr
    .word   0
    way
    li      a7, 0               # no input: 4 + 4 + 3 * 5 + 13 = 36
    li      a0, 0
    .rept   3
    j       .+4
    .endr
    ecall
