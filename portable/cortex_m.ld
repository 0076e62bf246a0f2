/* The memory of the boards MPS2 AN385 (Cortex-M3), AN386 (Cortex-M4) and of their emulator: code from 0, data from 0x20000000, 4 MB each. */
MEMORY
{
    code (rx) : ORIGIN = 0x00000000, LENGTH = 4M
    data (rw) : ORIGIN = 0x20000000, LENGTH = 4M
}
ENTRY(_start)
SECTIONS
{
    .text : { KEEP(*(.vectors)) *(.text*) *(.rodata*) KEEP(*(.init)) KEEP(*(.fini)) *(.eh_frame*) } > code
    .ARM.exidx : { __exidx_start = .; *(.ARM.exidx*) __exidx_end = .; } > code
    .init_array : { __init_array_start = .; KEEP(*(.init_array*)) __init_array_end = .; } > data
    .fini_array : { __fini_array_start = .; KEEP(*(.fini_array*)) __fini_array_end = .; } > data
    .preinit_array : { __preinit_array_start = .; KEEP(*(.preinit_array*)) __preinit_array_end = .; } > data
    .data : { *(.data*) } > data
    .bss : { __bss_start__ = .; *(.bss*) *(COMMON) __bss_end__ = .; end = .; _end = .; __end__ = .; } > data
    stack_top = ORIGIN(data) + LENGTH(data);
}
