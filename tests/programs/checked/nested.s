# A table of products: ten rows, of which row i has i columns, and each is put. The inner loop turns from 1 to 10 times.
    .section .start, "ax"
    .globl  _start
_start:
    li      s0, 1
    li      s2, 10
row:
    li      s1, 1
column:
    mul     a0, s0, s1
    li      a7, 2
    ecall
    addi    s1, s1, 1
next:
    ble     s1, s0, column_again
    addi    s0, s0, 1
    ble     s0, s2, row_again
    j       done
column_again:
    j       column
row_again:
    j       row
done:
    li      a0, 0
    li      a7, 0
last:
    ecall
end:
#: copy main _start
#: copy body column
#: exit last
#: loop 0 1 10 10 row row_again
#: loop 1 1 1 10 column column_again
#: share main _start end
