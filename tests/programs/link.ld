/* Code and constants in flash, data and stack in RAM. The loader fills each segment, so nothing is copied at the start,
   and what lies in no segment can't be used: the stack is a part of the data's segment. */
ENTRY(_start)
MEMORY
{
    flash : ORIGIN = 0x00000000, LENGTH = 8M
    ram   : ORIGIN = 0x20000000, LENGTH = 2M
}
PHDRS
{
    code PT_LOAD FLAGS(5);
    data PT_LOAD FLAGS(6);
}
SECTIONS
{
    .text : { *(.start) *(.text .text.*) } > flash :code
    .rodata : { *(.rodata .rodata.* .srodata .srodata.*) } > flash :code
    .data : { *(.data .data.* .sdata .sdata.*) } > ram :data
    .bss (NOLOAD) : { *(.bss .bss.* .sbss .sbss.* COMMON) } > ram :data
    /* The end of the stack is a multiple of 16, whatever lies below it. */
    .stack (NOLOAD) : { . += 256K; stack = ABSOLUTE(.) & ~15; } > ram :data
    /DISCARD/ : { *(.comment .riscv.attributes .eh_frame .note.*) }
}
