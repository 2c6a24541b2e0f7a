/* Code in flash and in the scratchpad, and data in all three regions. The scratchpad's data lies behind its code. */
ENTRY(_start)
PHDRS
{
    flash_code PT_LOAD FLAGS(5);
    spm_code   PT_LOAD FLAGS(5);
    spm_data   PT_LOAD FLAGS(6);
    ram_data   PT_LOAD FLAGS(6);
}
SECTIONS
{
    .start 0x00000000 : { *(.start) } :flash_code
    .fast 0x10000000 : { *(.fast) } :spm_code
    .fast_data : { *(.fast_data) } :spm_data
    .ram_data 0x20000000 : { *(.ram_data) } :ram_data
    /DISCARD/ : { *(.text .data .bss .comment .riscv.attributes) }
}
