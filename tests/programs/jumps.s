# JAL, JALR, AUIPC, LUI and x0: each byte that is put is the low byte of what an instruction left.
    .section .start, "ax"
    .globl _start
_start:
    li      a7, 2
    jal     a0, forward         # a0 is the place behind
behind:
    ecall
    lui     t0, %hi(0xabcde000)
    srli    a0, t0, 12
    ecall                       # de
    auipc   a0, 0
    ecall                       # the place of the AUIPC
    auipc   a0, 0xfffff         # its offset is taken modulo 2^32
    srli    a0, a0, 12
    ecall                       # ff
    la      t0, target
    jalr    a0, 1(t0)           # bit 0 of the target is cleared
after:
    li      a0, 'X'             # passed over
    ecall
target:
    ecall                       # the place behind the JALR
    la      t0, again
    jalr    t0, 0(t0)           # the target is read before the link is written
    li      a0, 'X'             # passed over
    ecall
again:
    mv      a0, t0
    ecall
    addi    zero, zero, 5       # x0 stays zero
    lw      zero, 0(zero)
    jal     zero, next
next:
    mv      a0, zero
    ecall                       # 00
    li      t1, 3
count:
    addi    a0, t1, '0'
    ecall
    addi    t1, t1, -1
    bnez    t1, count           # 3 2 1
    j       end
forward:
    jr      a0
    .space  4080
end:
    li      a7, 0
    li      a0, -2147483648
    ecall
