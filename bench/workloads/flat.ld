/* A flat image at the base of the default map, beginning with its entry. */
ENTRY(start)
SECTIONS
{
    . = 0x80000000;
    .text : { *(.text.start) *(.text*) *(.rodata*) }
    .data : { *(.data*) *(.sdata*) }
    .bss (NOLOAD) : { *(.bss*) *(.sbss*) *(COMMON) }
    /DISCARD/ : { *(.comment) *(.riscv.attributes) *(.note*) *(.eh_frame*) }
}
