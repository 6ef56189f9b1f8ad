/* A bare Cortex-M board: program at CODE, data, tables and stack at DATA, 4 MB each. */
ENTRY(board_start)

SECTIONS
{
    . = CODE;
    .text : { KEEP(*(.vectors)) *(.text*) *(.rodata*) . = ALIGN(8); }
    .ARM.exidx : { *(.ARM.exidx*) . = ALIGN(8); }
    data_load = .;
    . = DATA;
    .data : AT(data_load) { data_start = .; *(.data*) . = ALIGN(8); data_end = .; }
    .bss (NOLOAD) : { bss_start = .; *(.bss*) *(COMMON) . = ALIGN(8); bss_end = .; }
    stack_top = DATA + 0x400000;
}
