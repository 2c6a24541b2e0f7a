/* Code in flash, and small segments with one right each. Those of six bytes end within a word. */
ENTRY(_start)
PHDRS
{
    code       PT_LOAD FLAGS(5);
    executable PT_LOAD FLAGS(1);
    readable   PT_LOAD FLAGS(4);
    writable   PT_LOAD FLAGS(2);
    data       PT_LOAD FLAGS(6);
}
SECTIONS
{
    .start 0x00000000 : { *(.start) } :code
    .executable 0x10000000 : { *(.executable) } :executable
    .readable 0x20000000 : { *(.readable) } :readable
    .writable 0x20000010 : { *(.writable) } :writable
    .data 0x20000020 : { *(.data) } :data
    /DISCARD/ : { *(.text .bss .comment .riscv.attributes) }
}
