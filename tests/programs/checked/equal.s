# A byte of the input in each of twelve turns; a dear and a cheap way through the body. The restriction says that the dear
# way is taken in exactly a third of all turns, whatever the input.
    .section .start, "ax"
    .globl  _start
_start:
    li      s0, 12
    li      s1, 0
    li      s2, 0
head:
    addi    s2, s2, 1
    li      t0, 3
    bltu    s2, t0, cheap
dear:
    li      a7, 1
    ecall
    div     s1, a0, t0
    li      s2, 0
    j       joined
cheap:
    addi    s1, s1, 1
joined:
    addi    s0, s0, -1
    beqz    s0, done
back:
    j       head
done:
    mv      a0, s1
    li      a7, 0
last:
    ecall
end:
#: copy main _start
#: copy dear dear
#: copy cheap cheap
#: exit last
#: loop 0 1 12 12 head back
#: fact 2*dear = 1*cheap
#: share main _start end
