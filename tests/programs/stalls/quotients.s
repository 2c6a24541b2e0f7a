# Products and quotients of what was loaded, by both sides, behind what takes long itself.
    li      s0, 0x20000000
    li      t0, -1000003
    sw      t0, 0(s0)
    li      t0, 37
    sw      t0, 4(s0)
    li      s1, 10
    li      a0, 0
round:
    lw      t1, 0(s0)
    lw      t2, 4(s0)
    div     t3, t1, t2          # waits for the second alone
    lw      t1, 0(s0)
    rem     t4, t1, t2
    lw      t2, 4(s0)
    divu    t5, t1, t2
    remu    t6, t5, t2
    lw      t1, 0(s0)
    mul     t1, t1, t1
    mulh    t2, t1, t2
    lw      t2, 4(s0)
    mulhu   t2, t2, t5
    mulhsu  t1, t1, t2
    add     a0, a0, t3
    xor     a0, a0, t4
    add     a0, a0, t6
    add     a0, a0, t1
    sw      a0, 0(s0)
    addi    s1, s1, -1
    bnez    s1, round
    li      a7, 0
    ecall
