# Branches behind loads: on what was loaded, as rs1, as rs2 and as both, taken and not, and on other registers.
    li      s0, 0x20000000
    li      t0, 20
    sw      t0, 0(s0)
    li      a0, 0
again:
    lw      t1, 0(s0)
    beqz    t1, over
    addi    a0, a0, 1
    lw      t1, 0(s0)
    beq     zero, t1, over
    addi    a0, a0, 1
    lw      t1, 0(s0)
    bne     t1, t1, over
    addi    a0, a0, 1
    lw      t1, 0(s0)
    blt     t1, zero, over
    addi    a0, a0, 1
    lw      t1, 0(s0)
    bge     t0, zero, next      # reads another register
    j       over
next:
    andi    t2, t1, 3
    sw      t2, 4(s0)
    lw      t3, 4(s0)
    bltu    t3, t2, over
    lw      t3, 4(s0)
    bgeu    zero, t3, three     # taken in one of four rounds
    addi    a0, a0, 2
three:
    addi    t1, t1, -1
    sw      t1, 0(s0)
    lw      t2, 0(s0)
    bnez    t2, again
over:
    li      a7, 0
    ecall
