# What `bench/check` repeats until an image has as many instructions as it wants: 46 instructions with two nested loops, a
# branch, and a function that is called twice and has a loop; the exit behind them stands once, at the image's end. All
# jumps are relative, so that the words are the same at each place. The claims stand behind `#:`.
    .section .start, "ax"
    .globl  _start
_start:
    lui     s0, 0x20000
    li      s1, 4
row:
    li      s2, 6
    lw      t0, 0(s0)
column:
    andi    t1, s2, 1
    beqz    t1, even
odd:
    mul     t0, t0, s2
    xor     t0, t0, s1
    j       joined
even:
    addi    t0, t0, 3
    slli    t0, t0, 1
joined:
    addi    s2, s2, -1
    beqz    s2, column_end
column_back:
    j       column
column_end:
    sw      t0, 0(s0)
    addi    s1, s1, -1
    beqz    s1, row_end
row_back:
    j       row
row_end:
    mv      a0, t0
first:
    jal     ra, sum
    lw      t1, 4(s0)
    add     a0, a0, t1
    bgez    a0, second
    sub     a0, zero, a0
    bnez    a0, second
behind:
    nop
second:
    jal     ra, sum
    sw      a0, 4(s0)
    j       next
sum:
    li      t2, 5
    mv      t3, zero
    addi    t4, s0, 8
turn:
    lbu     t5, 0(t4)
    add     t3, t3, t5
    bltu    t3, a0, keep
    sub     t3, t3, a0
keep:
    addi    t4, t4, 1
    addi    t2, t2, -1
    beqz    t2, turned
turn_back:
    j       turn
turned:
    slli    a0, a0, 1
    srai    t6, t3, 2
    or      t6, t6, a0
    andi    t6, t6, 255
    add     a0, t6, t3
    ret
next:
    li      a7, 0
last:
    ecall
end:

    .data
    .word   7, 0, 0x01020304, 5
#: exit last
#: never 0 1 behind
#: region _start next r
#: loop 0 1 4 4 row row_back
#: loop 1 1 6 6 column column_back
#: loop 2 1 5 5 turn turn_back
#: fact 1*odd <= 3*row
#: share - _start sum
#: share sum sum next
#: share - next end
