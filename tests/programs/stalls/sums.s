# Sums bytes of the input, kept in RAM, with the use of each load at each distance from it.
    li      s0, 0x20000000
    mv      s1, s0
    li      a7, 1
    li      t0, -1
take:
    ecall
    beq     a0, t0, taken
    sb      a0, 0(s1)
    addi    s1, s1, 1
    j       take
taken:
    li      s2, 0
    mv      t1, s0
sum:
    bgeu    t1, s1, done
    lbu     t2, 0(t1)
    add     s2, s2, t2
    lbu     t2, 0(t1)
    addi    t1, t1, 1
    add     s2, s2, t2
    lbu     t3, -1(t1)
    nop
    nop
    add     s2, t3, s2
    j       sum
done:
    mv      a0, s2
    li      a7, 0
    ecall
