/* The start of a RISC-V, in machine mode. The emulator puts the program and its data, zeroes too, where they belong. */
    .option arch, +zicsr
    .section .init, "ax"
    .globl _start
_start:
    .option push
    .option norelax
    la gp, __global_pointer$
    .option pop
    la t0, at_fault
    csrw mtvec, t0
    la sp, stack_top
    call main
    call leave

    .balign 4
at_fault:
    la sp, stack_top
    csrr a0, mcause
    csrr a1, mepc
    call fault
