# A function that is called from two places, and calls another in a loop of its own; the return place is kept in RAM.
    .section .start, "ax"
    .globl  _start
_start:
    lui     s0, 0x20000
    li      a0, 5
first_call:
    jal     ra, sum
    mv      s1, a0
    li      a0, 9
second_call:
    jal     ra, sum
    add     a0, a0, s1
    li      a7, 0
last:
    ecall
sum:
    sw      ra, 0(s0)
    mv      s2, a0
    li      s3, 0
    li      s4, 4
turn:
    mv      a0, s2
    jal     ra, square
    add     s3, s3, a0
    addi    s4, s4, -1
    beqz    s4, sum_end
back:
    j       turn
sum_end:
    mv      a0, s3
    lw      ra, 0(s0)
    ret
square:
    mul     a0, a0, a0
    ret
end:

    .data
    .word   0
#: copy main _start
#: copy square square
#: copy sum sum
#: exit last
#: region sum end r
#: loop 0 1 4 4 turn back
#: share - _start sum
#: share sum sum square
#: share square square end
