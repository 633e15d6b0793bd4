/* For the emulator's machines of the name virt: all in the one memory, from PROGRAM on. */
ENTRY(_start)

SECTIONS {
    . = PROGRAM;
    .text : { KEEP(*(.init)) *(.text*) *(.rodata*) *(.srodata*) }
    .stack (NOLOAD) : ALIGN(16) { . += STACK_ROOM; stack_top = .; }
    .data : ALIGN(16) { *(.data*) __global_pointer$ = . + 0x800; *(.sdata*) }
    .bss : ALIGN(16) { *(.sbss*) *(.bss*) *(COMMON) }
    /DISCARD/ : { *(.eh_frame*) *(.comment) }
}
