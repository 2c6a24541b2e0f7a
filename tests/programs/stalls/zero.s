# Nothing waits for a load of x0, and no jump, LUI or AUIPC reads a register whose number stands among its bits.
    li      s0, 0x20000000
    li      t0, 9
    sw      t0, 0(s0)
    li      a0, 0
round:
    lw      zero, 0(s0)
    add     a0, a0, zero
    lw      zero, 0(s0)
    sw      zero, 4(s0)
    lw      zero, 0(s0)
    mv      t1, zero
    lw      t1, 0(s0)           # t1 is x6
    lui     t2, 0x30            # its bits 15 to 19 are 6
    lw      t1, 0(s0)
    lui     t2, 0x600           # its bits 20 to 24 are 6
    lw      t1, 0(s0)
    auipc   t2, 0x630           # both
    lw      s0, 8(s0)           # s0 is x8, and the word there is 0
    jal     t2, behind          # its bits 20 to 24 are 8
    addi    a0, a0, 100
behind:
    li      s0, 0x20000000
    lw      t1, 0(s0)
    addi    t2, zero, 6         # the immediate stands where rs2 would
    lw      t1, 0(s0)
    slli    t2, t2, 6
    add     a0, a0, t1
    addi    t0, t0, -1
    sw      t0, 0(s0)
    bnez    t0, round
    li      a7, 0
    ecall
