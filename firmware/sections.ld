/* What stands where in `rom` and `ram`, which the linker script that includes this defines: code, constants and the
 * image of initialised data in `rom`; the stack, data, zeros and the heap in `ram`, in this order. The names are those that
 * picolibc's start-up code and `sbrk` ask for. No segment holds the ELF header, whose page would lie below the memory. */
ENTRY(_start)
/* Where a test has these symbols, they stay, and what they stand in, though no code may refer to them. */
EXTERN(begin_signature end_signature)
PHDRS
{
    text PT_LOAD FLAGS(5);
    data PT_LOAD FLAGS(6);
    tls PT_TLS;
}
SECTIONS
{
    .init : { KEEP(*(.text.init.enter)) KEEP(*(SORT_BY_NAME(.init) SORT_BY_NAME(.init.*))) } >rom :text
    .text : {
        *(.text .text.*)
        *(.rodata .rodata.* .srodata .srodata.*)
        . = ALIGN(4);
        __preinit_array_start = .;
        KEEP(*(.preinit_array))
        __preinit_array_end = .;
        __init_array_start = .;
        KEEP(*(SORT_BY_INIT_PRIORITY(.init_array.*))) KEEP(*(.init_array))
        __init_array_end = .;
        __fini_array_start = .;
        KEEP(*(SORT_BY_INIT_PRIORITY(.fini_array.*))) KEEP(*(.fini_array))
        __fini_array_end = .;
        . = ALIGN(8);
    } >rom :text

    /* The stack grows down to where `ram` begins, and no further. */
    .stack (NOLOAD) : {
        . += DEFINED(__stack_size) ? __stack_size : 0x4000;
        . = ALIGN(16);
        __stack = .;
    } >ram :NONE

    .data : ALIGN_WITH_INPUT {
        __data_start = .;
        KEEP(*(SORT_BY_NAME(.signature) SORT_BY_NAME(.signature.*)))
        *(.data .data.*)
        . = ALIGN(8);
        __global_pointer$ = . + 0x800;
        *(.sdata .sdata.*)
        . = ALIGN(8);
    } >ram AT>rom :data
    __data_source = LOADADDR(.data);

    /* Each of a thread's own variables, as picolibc's errno: there is one thread, so they stand here once. */
    .tdata : ALIGN_WITH_INPUT { *(.tdata .tdata.*) . = ALIGN(8); } >ram AT>rom :data :tls
    __tls_base = ADDR(.tdata);
    __data_end = __tls_base + SIZEOF(.tdata);
    __data_size = __data_end - __data_start;
    .tbss (NOLOAD) : { *(.tbss .tbss.*) *(.tcommon) } >ram :tls
    /* The linker moves on behind .tbss no address: this makes its room. */
    .tbss_room (NOLOAD) : { __bss_start = .; . += SIZEOF(.tbss); . = ALIGN(8); } >ram :NONE
    .bss (NOLOAD) : { *(.sbss .sbss.*) *(.bss .bss.*) *(COMMON) . = ALIGN(8); __bss_end = .; } >ram :NONE
    __bss_size = __bss_end - __bss_start;

    __heap_start = __bss_end;
    __heap_end = ORIGIN(ram) + LENGTH(ram);
    /DISCARD/ : { *(.eh_frame .note .note.*) }
}
ASSERT(__data_size % 4 == 0 && __bss_size % 4 == 0, "the start-up code copies and clears words")
