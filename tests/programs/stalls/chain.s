# Follows a list of 40 nodes in RAM, first behind each other and then by steps of seven: each load waits for the one before.
    li      s0, 0x20000000
    li      t0, 40
    mv      t1, s0
link:
    addi    t2, t1, 8
    sw      t2, 0(t1)
    sw      t0, 4(t1)
    mv      t1, t2
    addi    t0, t0, -1
    bnez    t0, link
    sw      s0, -8(t1)          # the last node leads to the first
    li      t0, 40
    mv      t1, s0
    li      a0, 0
walk:
    lw      t2, 4(t1)
    add     a0, a0, t2
    lw      t1, 0(t1)
    lw      t1, 0(t1)
    lw      t1, 0(t1)
    lw      t1, 0(t1)
    lw      t1, 0(t1)
    lw      t1, 0(t1)
    lw      t1, 0(t1)
    addi    t0, t0, -1
    bnez    t0, walk
    li      a7, 0
    ecall
