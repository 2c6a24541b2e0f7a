# In each of eight turns the body has a cheap way, through which at least five turns go, and a dear one.
    .section .start, "ax"
    .globl  _start
_start:
    li      s0, 8
    li      s1, 3
head:
    li      a7, 1
    ecall
    beqz    s1, cheap
    andi    t0, a0, 1
    beqz    t0, cheap
dear:
    addi    s1, s1, -1
    remu    a0, a0, s0
    j       joined
cheap:
    addi    a0, a0, 1
joined:
    addi    s0, s0, -1
    beqz    s0, done
back:
    j       head
done:
    li      a7, 0
last:
    ecall
end:
#: copy main _start
#: copy cheap cheap
#: exit last
#: loop 0 1 8 8 head back
#: fact 1*cheap >= 5*_start
#: share main _start end
