# Sorts 24 words in RAM by insertion, puts the low byte of each, and overwrites loaded registers unread.
    li      s0, 0x20000000
    li      s1, 24
    li      t0, 12345
    mv      t1, s0
    slli    t2, s1, 2
    add     s2, s0, t2          # the end
    li      s3, 1103515245
fill:
    mul     t0, t0, s3
    addi    t0, t0, 1013
    sw      t0, 0(t1)
    addi    t1, t1, 4
    bne     t1, s2, fill
    addi    t1, s0, 4
outer:
    lw      t2, 0(t1)
    mv      t3, t1
inner:
    beq     t3, s0, placed
    lw      t4, -4(t3)
    ble     t4, t2, placed
    sw      t4, 0(t3)
    addi    t3, t3, -4
    j       inner
placed:
    sw      t2, 0(t3)
    addi    t1, t1, 4
    bne     t1, s2, outer
    li      a7, 2
    mv      t1, s0
    li      s4, 0
put:
    lw      a0, 0(t1)
    lw      a0, 0(t1)           # the first is never read
    ecall
    lw      t2, 0(t1)
    li      t2, 3               # nor this
    lw      t3, 0(t1)
    lui     t3, 5
    add     s4, s4, t3
    addi    t1, t1, 4
    bne     t1, s2, put
    lw      a0, 0(s0)
    add     a0, a0, s4
    li      a7, 0
    ecall
