# An endless loop. A round takes 37 cycles for the DIV and 5 for the JAL, 42 in all, so that 23,809,523 rounds take
# 999,999,966 cycles. The next DIV would pass the limit of 1000000000: the run ends at 00000000, cycles 999999966.
    .section .start, "ax"
    .globl  _start
_start:
    div     t0, t0, t0
    j       _start
