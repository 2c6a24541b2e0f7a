# Copies six words from flash to RAM and two more to the scratchpad. The three region lines keep each access to what it
# touches; the load before them has no line, so that it counts as one of flash.
    .section .start, "ax"
    .globl  _start
_start:
    lui     s0, 0x20000
    lui     s1, 0x10000
    lw      s2, %lo(table)(zero)
    li      s3, 0
copying:
    slli    t1, s3, 2
    lw      t0, %lo(table)(t1)
read_end:
    add     t2, t1, s0
    sw      t0, 0(t2)
    addi    s3, s3, 1
    beq     s3, s2, copied
back:
    j       copying
copied:
    lw      t0, 0(s0)
    sw      t0, 0(s1)
    lw      t0, 4(s0)
    sw      t0, 4(s1)
both_end:
    lw      a0, 4(s1)
    li      a7, 0
last:
    ecall
table:
    .word   6, 5, 4, 3, 2, 1
end:

    .data
    .word   0, 0, 0, 0, 0, 0
    .section .spm, "aw"
    .word   0, 0
#: copy main _start
#: exit last
#: region copying read_end f
#: region read_end copied r
#: region copied both_end sr
#: region both_end table s
#: loop 0 1 6 6 copying back
#: share main _start table
