# Every cost of a fetch and an access: the same work is done by code in flash and by code in the scratchpad, on data in
# all three regions.
#
# The cycles: 24 before, 93 for the work in flash, 9 for the call, 69 for the work in the scratchpad, 20 behind it there
# and 17 at the end, 232 in all. The value: 1000000 - 1000 + 200 = 999200 by the first work, which leaves 16160 in the
# scratchpad and 32 in the lowest byte of RAM, and 999200 + 1000000 + 16160 + 32 = 2015392 by the second.
    .macro  work
    lw      t3, 0(t0)           # flash
    add     a0, a0, t3
    lh      t3, 0(t1)           # scratchpad
    add     a0, a0, t3
    lbu     t3, 0(t2)           # RAM
    add     a0, a0, t3
    sh      a0, 0(t1)
    sw      a0, 0(t2)
    mul     a0, a0, t3
    div     a0, a0, t3
    beq     zero, a0, 1f
    bne     zero, a0, 1f
1:
    .endm

    .section .start, "ax"
    .globl  _start
_start:
    la      t0, constant
    lui     t1, %hi(fast_data)
    addi    t1, t1, %lo(fast_data)
    lui     t2, %hi(ram_data)
    li      a0, 0
    work
    lui     t4, %hi(fast)
    jalr    ra, %lo(fast)(t4)
    li      a7, 0
    ecall
constant:
    .word   1000000

    .section .fast, "ax"
fast:
    work
    li      a7, 2
    ecall                       # an ECALL of the scratchpad
    lw      a0, 0(t2)
    ret

    .section .fast_data, "aw"
fast_data:
    .half   -1000

    .section .ram_data, "aw"
ram_data:
    .byte   200, 0, 0, 0
