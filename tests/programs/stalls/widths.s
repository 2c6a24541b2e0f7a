# Loads of each width and sign, each with uses of each format behind it.
    li      s0, 0x20000000
    li      t0, 0x8badf00d
    sw      t0, 0(s0)
    li      a0, 0
    li      s1, 6
round:
    lb      t1, 0(s0)
    addi    t5, t1, 1
    add     a0, a0, t5
    lb      t1, 1(s0)
    slli    t2, t1, 4
    lbu     t1, 2(s0)
    srai    t3, t1, 1
    lbu     t1, 3(s0)
    xor     a0, a0, t2
    xor     a0, a0, t1
    lh      t1, 0(s0)
    xor     a0, a0, t1
    lh      t1, 2(s0)
    sltiu   t4, t1, 77
    lhu     t1, 0(s0)
    slt     t4, t4, t1
    lhu     t1, 2(s0)
    sub     a0, a0, t1
    lw      t1, 0(s0)
    sll     t1, t1, s1
    add     a0, a0, t1
    add     a0, a0, t3
    lw      t1, 0(s0)
    sra     t3, t3, t1
    sub     a0, a0, t3
    add     a0, a0, t4
    sw      a0, 0(s0)
    addi    s1, s1, -1
    bnez    s1, round
    li      a7, 0
    ecall
