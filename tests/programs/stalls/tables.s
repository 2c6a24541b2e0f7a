# Jumps through addresses that were loaded, and loads that stand last before a jump or a return.
    li      s0, 0x20000000
    jal     t1, behind_first    # the address of what follows
first:
    lw      t4, 0(s0)
    ret
behind_first:
    sw      t1, 0(s0)
    jal     t1, behind_second
second:
    lw      t4, 4(s0)
    addi    t4, t4, -1
    ret
behind_second:
    sw      t1, 4(s0)
    jal     t1, behind_third
third:
    sw      ra, 16(s0)
    li      t4, 7
    lw      ra, 16(s0)
    ret                         # waits for its address
behind_third:
    sw      t1, 8(s0)
    li      s1, 12
    li      a0, 0
    li      s2, 0
round:
    slli    t2, s2, 2
    add     t2, t2, s0
    lw      t3, 0(t2)
    jalr    ra, 0(t3)           # waits for its address
    add     a0, a0, t4          # behind a return: the load is two steps away
    addi    s2, s2, 1
    li      t5, 3
    blt     s2, t5, same
    li      s2, 0
same:
    lw      t6, 0(s0)
    j       jumped
jumped:
    add     a0, a0, t6          # and here too
    sub     a0, a0, t6
    lw      t6, 4(s0)
    addi    s1, s1, -1
    bnez    s1, round
    add     a0, a0, t6
    li      a7, 0
    ecall
