# The sum of 0 to 99 by a loop of 101 starts, the last of which leaves it, unrolled by four: one start is peeled off, and
# 25 turns of four are left.
    .section .start, "ax"
    .globl  _start
_start:
    li      a0, 0
    li      s1, 0
    li      s2, 100
peeled:
    bge     s1, s2, done
    add     a0, a0, s1
    addi    s1, s1, 1
head:
    bge     s1, s2, done
    add     a0, a0, s1
    addi    s1, s1, 1
    bge     s1, s2, done
    add     a0, a0, s1
    addi    s1, s1, 1
    bge     s1, s2, done
    add     a0, a0, s1
    addi    s1, s1, 1
    bge     s1, s2, done
    add     a0, a0, s1
    addi    s1, s1, 1
back:
    j       head
done:
    li      a7, 0
last:
    ecall
end:
#: copy main _start
#: exit last
#: loop 1 4 25 25 head back
#: share main _start end
