# Sums at most 12 bytes of the input: a loop that turns from 3 to 12 times. It is left at its end, or in its middle where
# the input ends, though never before its third turn.
    .section .start, "ax"
    .globl  _start
_start:
    li      s0, 0
    li      s1, 12
    li      s2, 9
head:
    li      a7, 1
    ecall
    bgt     s1, s2, keep
    bltz    a0, done
keep:
    add     s0, s0, a0
    addi    s1, s1, -1
back:
    bnez    s1, again
    j       done
again:
    j       head
done:
    mv      a0, s0
    li      a7, 0
last:
    ecall
#: copy main _start
#: exit last
#: loop 0 1 3 12 head again
#: share main _start end
end:
