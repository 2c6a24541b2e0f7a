# The start of a C program: its stack, then main, whose value the image exits with.
    .section .start, "ax"
    .globl _start
_start:
    lui     sp, %hi(stack)
    addi    sp, sp, %lo(stack)
    jal     main
    li      a7, 0
    ecall
