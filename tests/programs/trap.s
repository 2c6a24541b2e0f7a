# Traps in the way that the first byte of the input names, and puts this byte to the output before. Each way takes 16
# bytes and has x8 at 10000000, where six bytes can be executed alone, and x9 at 20000000. From there on six bytes can be
# read, from 20000010 six bytes can be written, and from 20000020 eight bytes both; all else of RAM is in no segment.
    .macro  way
    .balign 16, 0
    .endm

    .section .start, "ax"
    .globl  _start
_start:
    li      a7, 1
    ecall
    li      a7, 2
    ecall
    lui     s0, 0x10000
    lui     s1, 0x20000
    addi    a0, a0, -'a'
    slli    a0, a0, 4
    la      t0, ways
    add     t0, t0, a0
    jr      t0
    way
ways:
# Trap 1
    jalr    zero, 3(t0)         # a: to half a word, after bit 0 is cleared
    way
    .word   0x00000363          # b: BEQ x0, x0, 6, a taken branch to half a word
    way
    jr      s1                  # c: to data
    way
    lui     t0, 0x80000         # d: to an address in no region
    jr      t0
    way
    jr      s0                  # e: on from the last whole word of a segment
    way
# Trap 2
    .word   0x00000000          # f
    way
    .word   0x00100073          # g: EBREAK
    way
    .word   0x0ff0000f          # h: FENCE
    way
    .word   0xc0001073          # i: CSRRW x0, cycle, x0
    way
    .word   0x000000f3          # j: ECALL with a bit set
    way
    .word   0x02051513          # k: SLLI by 32
    way
    .word   0x00053503          # l: LD
    way
# Trap 3
    lb      zero, 8(s1)         # m: from no segment, to x0
    way
    lh      a0, 16(s1)          # n: from a segment that can only be written
    way
    lw      a0, 4(s1)           # o: over the end of a segment
    way
    lw      a0, 0(s0)           # p: from a segment that can only be executed
    way
# Trap 4
    sb      a0, 0(zero)         # q: to code
    way
    sh      a0, 0(s1)           # r: to a segment that can only be read
    way
    sw      a0, 20(s1)          # s: over the end of a segment
    way
# Trap 5
    lhu     a0, 33(s1)          # t
    way
    lw      a0, 62(s1)          # u: in no segment besides
    way
    sh      a0, 35(s1)          # v
    way
    sw      a0, 1(zero)         # w: to code besides
    way
# Trap 6
    li      a7, 3               # x
    ecall
    way
    li      a7, -1              # y: x17 is taken without a sign
    ecall

    .section .executable, "ax"
    nop
    .half   0x0013              # half a NOP

    .section .readable, "a"
    .byte   1, 2, 3, 4, 5, 6

    .section .writable, "aw"
    .byte   1, 2, 3, 4, 5, 6

    .data
    .word   0x01020304, 0x05060708
