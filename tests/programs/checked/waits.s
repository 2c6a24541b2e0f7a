# Loads that an instruction right behind them reads, one behind a taken branch that none waits for, and the exit's value.
    .section .start, "ax"
    .globl  _start
_start:
    lw      t0, %lo(data)(zero)
    addi    t0, t0, 1
    li      t1, 3
turn:
    lh      t2, %lo(data)(zero)
    bnez    t2, on
    nop
on:
    lbu      t3, %lo(data)(zero)
    add     t0, t0, t3
    addi    t1, t1, -1
    beqz    t1, done
back:
    j       turn
done:
    li      a7, 0
    lw      a0, %lo(data)(zero)
last:
    ecall
data:
    .word   41
#: copy main _start
#: exit last
#: region _start data f
#: loop 0 1 3 3 turn back
#: share main _start data
