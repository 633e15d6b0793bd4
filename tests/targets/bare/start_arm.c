/* The start of an Arm Cortex-M. The emulator puts the program and its data, zeroes too, where they belong. */
#include "board.h"

extern char stack_top[];

static void start(void)
{
    leave((unsigned)main());
}

/* The exception's number, and where it happened, from what the processor has put on the stack. */
static __attribute__((naked)) void at_fault(void)
{
    __asm__ volatile("mrs r0, ipsr\n"
                     "mov r1, sp\n"
                     "ldr r1, [r1, #24]\n"
                     "ldr r2, =stack_top\n"
                     "mov sp, r2\n"
                     "ldr r2, =fault\n"
                     "bx r2\n");
}

__attribute__((section(".vectors"), used)) void (*const vectors[16])(void) = {
    (void (*)(void))(void *)stack_top, start, at_fault, at_fault, at_fault, at_fault, at_fault, at_fault, at_fault,
    at_fault, at_fault, at_fault, at_fault, at_fault, at_fault, at_fault};
