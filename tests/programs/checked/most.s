# Sorts four bytes of the input by exchanges. Both loops turn three times; one restriction is of no use, and the other says
# that twice the exchanges are at most 13, so that the greatest flow is over a unit above 1 and its value is no whole number.
    .section .start, "ax"
    .globl  _start
_start:
    lui     s0, 0x20000
    li      s1, 4
    mv      s2, s0
fill:
    li      a7, 1
    ecall
    sb      a0, 0(s2)
    addi    s2, s2, 1
    addi    s1, s1, -1
    beqz    s1, filled
fill_back:
    j       fill
filled:
    li      s1, 3
pass:
    mv      s2, s0
    li      s3, 3
compare:
    lbu     t0, 0(s2)
    lbu     t1, 1(s2)
    bleu    t0, t1, in_order
exchange:
    sb      t0, 1(s2)
    sb      t1, 0(s2)
in_order:
    addi    s2, s2, 1
    addi    s3, s3, -1
    beqz    s3, passed
compare_back:
    j       compare
passed:
    addi    s1, s1, -1
    beqz    s1, done
pass_back:
    j       pass
done:
    lw      a0, 0(s0)
    li      a7, 0
last:
    ecall
end:

    .data
    .word   0
#: copy main _start
#: copy exchange exchange
#: copy pass pass
#: exit last
#: region fill end r
#: loop 0 1 4 4 fill fill_back
#: loop 1 1 3 3 pass pass_back
#: loop 2 1 3 3 compare compare_back
#: fact 3*exchange <= 7*pass
#: fact 2*exchange <= 13*_start
#: share main _start end
