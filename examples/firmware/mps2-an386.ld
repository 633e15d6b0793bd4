/* The board has megabytes; a meter's chip has not, and so much is enough: the code with the font in flash, and in RAM
 * the page, four bytes a pixel, and the stack. */
MEMORY
{
    FLASH (rx) : ORIGIN = 0x00000000, LENGTH = 32K
    RAM (rw) : ORIGIN = 0x20000000, LENGTH = 8K
}

ENTRY(reset)

SECTIONS
{
    .text : { KEEP(*(.vectors)) *(.text*) *(.rodata*) } > FLASH
    .ARM.exidx : { *(.ARM.exidx*) } > FLASH
    .data : ALIGN(8) { data_start = .; *(.data*) . = ALIGN(4); data_end = .; } > RAM AT > FLASH
    data_in_flash = LOADADDR(.data);
    .bss (NOLOAD) : ALIGN(8) { bss_start = .; *(.bss*) *(COMMON) . = ALIGN(8); bss_end = .; } > RAM
    stack_top = ORIGIN(RAM) + LENGTH(RAM);
    /* LIBRARY_STACK is what drawing takes, as the build of the library states it; the rest is for main, for what the
     * linker adds and to spare. No hardware would notice a stack that grows into the page. */
    ASSERT(stack_top - bss_end >= LIBRARY_STACK + 500, "too little RAM is left for the stack")
}
