/* Both boards have as much. The stack comes first, so that one that grows too long leaves the memory. */
MEMORY {
    FLASH (rx) : ORIGIN = 0, LENGTH = 256K
    RAM (rwx) : ORIGIN = 0x20000000, LENGTH = 256K
}

ENTRY(vectors)

SECTIONS {
    .text : { KEEP(*(.vectors)) *(.text*) *(.rodata*) } > FLASH
    .ARM.exidx : { *(.ARM.exidx*) } > FLASH
    .stack (NOLOAD) : { . += STACK_ROOM; stack_top = .; } > RAM
    .data : ALIGN(8) { *(.data*) } > RAM
    .bss : ALIGN(8) { *(.bss*) *(COMMON) } > RAM
}
