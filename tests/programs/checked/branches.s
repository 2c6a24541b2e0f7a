# Four ways, picked by the first byte of the input; each joins the others at the end. The dearest goes through DIV.
    .section .start, "ax"
    .globl  _start
_start:
    li      a7, 1
    ecall
    li      t0, 'm'
    bltu    a0, t0, low
    andi    t1, a0, 1
    beqz    t1, even
odd:
    div     a0, t0, a0
    j       done
even:
    mul     a0, a0, a0
    j       done
low:
    lw      t2, %lo(table)(zero)
    bge     t2, a0, small
    add     a0, a0, t2
small:
    lui     t3, 0x20000
    sw      a0, 0(t3)
done:
    li      a7, 0
last:
    ecall
table:
    .word   65

    .data
    .word   0
#: copy main _start
#: exit last
#: region small done r
#: share main _start table
