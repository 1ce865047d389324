/* One region of memory, the simulator's default: code and the image of initialised data in its lower half, as in a
 * ROM; data, zeros and the stack in its upper half. */
ENTRY(start)
MEMORY
{
    code (rx) : ORIGIN = 0x80000000, LENGTH = 512K
    data (rw) : ORIGIN = 0x80080000, LENGTH = 512K
}
PHDRS
{
    text PT_LOAD FLAGS(5);
    data PT_LOAD FLAGS(6);
}
SECTIONS
{
    .text : { *(.text.start) *(.text*) *(.rodata*) *(.srodata*) . = ALIGN(4); } >code :text
    .data : ALIGN(4) { data_begin = .; *(.data*) *(.sdata*) . = ALIGN(4); data_end = .; } >data AT>code :data
    data_image = LOADADDR(.data);
    .bss (NOLOAD) : ALIGN(4) { *(.bss*) *(.sbss*) *(COMMON) . = ALIGN(4); bss_end = .; } >data :NONE
    stack_top = ORIGIN(data) + LENGTH(data);
}
