/* The start of an Arm of 64 bits, at exception level 1. The emulator puts the program and its data, zeroes too, where
 * they belong. Systems turn the memory's map on, and only then may code read numbers that are not aligned; here one
 * entry maps the gigabyte with the program to itself, and whoever leaves that has a fault. */
    .section .init, "ax"
    .globl _start
_start:
    ldr x0, =stack_top
    mov sp, x0
    ldr x0, =vectors
    msr vbar_el1, x0
    mov x0, #(3 << 20) /* the registers of floats, by which compilers copy */
    msr cpacr_el1, x0
    mov x0, #0xff /* memory of kind 0 is plain and cached */
    msr mair_el1, x0
    ldr x0, =(25 | 1 << 8 | 1 << 10 | 3 << 12 | 1 << 23) /* addresses of 39 bits, from one table, itself cached */
    msr tcr_el1, x0
    ldr x0, =table
    msr ttbr0_el1, x0
    isb
    mrs x0, sctlr_el1
    bic x0, x0, #2 /* no check of alignment */
    orr x0, x0, #1 /* the map */
    orr x0, x0, #4 /* the data's cache */
    msr sctlr_el1, x0
    isb
    bl main
    bl leave

    .balign 2048
vectors:
    .rept 16
    b at_fault
    .balign 128
    .endr

at_fault:
    ldr x0, =stack_top
    mov sp, x0
    mrs x0, esr_el1
    mrs x1, elr_el1
    b fault

    .data
    .balign 4096
table:
    .quad 0
    .quad 0x40000000 | 1 << 10 | 3 << 8 | 1 /* a block: accessed, shared, of kind 0 */
    .fill 510, 8, 0
