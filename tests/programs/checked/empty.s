# A loop that turns twice or three times, and restrictions that no number of turns can keep: there is no flow.
    .section .start, "ax"
    .globl  _start
_start:
    li      s0, 3
head:
    addi    s0, s0, -1
    beqz    s0, done
back:
    j       head
done:
    li      a7, 0
last:
    ecall
end:
#: copy main _start
#: copy head head
#: exit last
#: loop 0 1 2 3 head back
#: fact 1*head <= 4*_start
#: fact 1*head >= 7*_start
