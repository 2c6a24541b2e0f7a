# A loop of arithmetic, loads and stores, for bench/steps: 14 instructions a round, and its sum as the value at the end.
# With QEMU set it ends as the board `virt` of QEMU ends, else as the machine of WCC does.
#
# For WCC: 3,000,000 rounds of 14 steps, 5 before and 3 behind them, 42,000,008 in all. A round takes 67 cycles, at 4 for
# what has no access, but 6 for MUL and 5 for a taken branch, and at 6 for each access to RAM.
    .section .start, "ax"
    .globl  _start
_start:
    la      s0, data
    li      t3, 0
    lui     t0, %hi(ROUNDS)
    addi    t0, t0, %lo(ROUNDS)
round:
    lw      t1, 0(s0)
    addi    t1, t1, 1
    sw      t1, 0(s0)
    slli    t2, t1, 3
    xor     t3, t3, t2
    lbu     t4, 5(s0)
    add     t3, t3, t4
    mul     t5, t3, t2
    sb      t5, 5(s0)
    sub     t3, t3, t5
    sltu    t6, t3, t2
    add     t3, t3, t6
    addi    t0, t0, -1
    bnez    t0, round
    .ifdef  QEMU
    lui     t0, 0x100           # the board's power switch
    lui     t1, 0x5
    addi    t1, t1, 0x555
    sw      t1, 0(t0)
    j       .
    .else
    mv      a0, t3
    li      a7, 0
    ecall
    .endif

    .data
data:
    .word   1, 0
