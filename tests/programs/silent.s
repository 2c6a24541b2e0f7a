# Puts nothing and exits with -1.
    .section .start, "ax"
    .globl  _start
_start:
    li      a0, -1
    ecall                       # x17 is 0 from the start
