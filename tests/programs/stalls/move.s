# Moves words from one place to another, with the store right behind the load, one behind it, and at the loaded address.
    li      s0, 0x20000000
    li      s1, 0x20000400
    li      t0, 64
    mv      t1, s0
fill:
    slli    t2, t0, 3
    add     t2, t2, s1          # each word is an address
    sw      t2, 0(t1)
    addi    t1, t1, 4
    addi    t0, t0, -1
    bnez    t0, fill
    li      t0, 64
    mv      t1, s0
    li      a0, 0
move:
    lw      t2, 0(t1)
    sw      t2, 256(t1)         # reads what was loaded, as rs2
    lw      t3, 256(t1)
    sw      t0, 0(t3)           # and as rs1
    lw      t4, 0(t1)
    addi    t1, t1, 4
    sw      t4, 508(t1)         # one instruction later
    lw      t5, 508(t1)
    sw      s1, 768(t1)         # reads other registers
    add     a0, a0, t5
    xor     a0, a0, t2
    addi    t0, t0, -1
    bnez    t0, move
    lw      t2, 128(s1)
    sub     a0, a0, t2
    li      a7, 0
    ecall
