/* Code and constants in flash, data in RAM; what is fast in the scratchpad, which is code or data. */
ENTRY(_start)
MEMORY
{
    flash : ORIGIN = 0x00000000, LENGTH = 8M
    spm   : ORIGIN = 0x10000000, LENGTH = 64K
    ram   : ORIGIN = 0x20000000, LENGTH = 2M
}
PHDRS
{
    code PT_LOAD FLAGS(5);
    fast PT_LOAD FLAGS(5);
    near PT_LOAD FLAGS(6);
    data PT_LOAD FLAGS(6);
}
SECTIONS
{
    .text : { *(.start) *(.text) } > flash :code
    .fast : { *(.fast) } > spm :fast
    .spm : { *(.spm) } > spm :near
    .data : { *(.data) } > ram :data
    /DISCARD/ : { *(.bss) *(.riscv.attributes) }
}
