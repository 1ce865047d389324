/* Architecture tests in the simulator's default map: code first, then data, which holds the signature. */
OUTPUT_ARCH("riscv")
ENTRY(rvtest_entry_point)
MEMORY
{
    memory (rwx) : ORIGIN = 0x80000000, LENGTH = 1M
}
PHDRS
{
    text PT_LOAD FLAGS(5);
    data PT_LOAD FLAGS(6);
}
SECTIONS
{
    .text : { *(.text.init) *(.text .text.*) } >memory :text
    .data : ALIGN(16) { *(.data .data.*) *(.tohost) *(.bss .bss.*) } >memory :data
    /DISCARD/ : { *(.note .note.*) }
}
