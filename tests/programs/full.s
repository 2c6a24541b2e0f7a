# Puts 16,777,216 bytes, as many as an output may have: 01, 02 and so on, modulo 256. Without input it exits then. With
# input it puts one byte more, so that the output is full at that ECALL.
#
# The cycles, at 13 for an ECALL, 4 for an ADDI or LUI, 5 for a taken branch and 4 for one that isn't:
#   before the loop 4 + 13 + 4 + 4 + 4 + 4 = 33
#   the loop 2^20 * (16 * (4 + 13) + 4 + 5) - 1 = 294,649,855
#   behind it, without input 5 + 4 + 4 + 13 = 26, so that it exits at 294,649,914
#   with input 4 + 4 = 8 up to the ECALL, which is full at 294,649,896
    .section .start, "ax"
    .globl  _start
_start:
    li      a7, 1
    ecall
    mv      s0, a0              # -1 where there is no input
    li      a0, 0
    li      a7, 2
    lui     t0, 0x100           # 2^20 rounds of 16 bytes
round:
    .rept   16
    addi    a0, a0, 1
    ecall
    .endr
    addi    t0, t0, -1
    bnez    t0, round
    bltz    s0, end
    addi    a0, a0, 1
    ecall
end:
    li      a7, 0
    li      a0, 0
    ecall
