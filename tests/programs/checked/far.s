# A far call into the scratchpad, where fetches cost one cycle, and a far jump back into flash: both behind AUIPC.
    .option norelax
    .section .start, "ax"
    .globl  _start
_start:
    li      a0, 20
far_call:
    auipc   ra, %pcrel_hi(half)
    jalr    ra, %pcrel_lo(far_call)(ra)
    li      s0, 3
turn:
    addi    a0, a0, 7
far_again:
    auipc   ra, %pcrel_hi(half)
    jalr    ra, %pcrel_lo(far_again)(ra)
    addi    s0, s0, -1
    beqz    s0, left
back:
    j       turn
left:
far_jump:
    auipc   t1, %pcrel_hi(tail)
    jr      %pcrel_lo(far_jump)(t1)
done:
    li      a7, 0
last:
    ecall
end:

    .section .fast, "ax"
half:
    srli    a0, a0, 1
    ret
tail:
    slli    a0, a0, 2
far_back:
    auipc   t1, %pcrel_hi(done)
    jr      %pcrel_lo(far_back)(t1)
fast_end:
#: copy main _start
#: copy half half
#: exit last
#: loop 0 1 3 3 turn back
#: share - _start end
#: share half half tail
#: share tail tail fast_end
