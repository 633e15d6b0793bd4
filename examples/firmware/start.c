/* Start-up of Arm's board MPS2 with a Cortex-M4 (AN386): the vectors, what has to be in memory before main, and the
 * serial port. */
#include "board.h"

/* where the linker script puts things */
extern uint32_t stack_top, data_in_flash, data_start, data_end, bss_start, bss_end;

int main(void);

enum { TRANSMIT = 1, FULL = 1 };

static volatile struct {
    uint32_t data, state, control, interrupts, divisor;
} *const uart = (void *)0x40004000;

void send(const char *text)
{
    while (*text) {
        while (uart->state & FULL)
            ;
        uart->data = (uint8_t)*text++;
    }
}

void send_number(uint32_t n)
{
    char digits[11], *first = digits + sizeof digits - 1;

    *first = '\0';
    do
        *--first = (char)('0' + n % 10);
    while (n /= 10);
    send(first);
}

void reset(void);

void reset(void)
{
    for (uint32_t *from = &data_in_flash, *to = &data_start; to < &data_end;)
        *to++ = *from++;
    for (uint32_t *to = &bss_start; to < &bss_end;)
        *to++ = 0;
    uart->divisor = 16;
    uart->control = TRANSMIT;
    main();
    for (;;)
        __asm__ volatile("wfi");
}

static void fault(void)
{
    send("fault\n");
    for (;;)
        ;
}

/* The stack's top, the reset, and Arm's own fourteen; no interrupt is used. */
__attribute__((section(".vectors"), used)) static const struct {
    uint32_t *stack;
    void (*handlers[15])(void);
} vectors = {
    &stack_top,
    {reset, fault, fault, fault, fault, fault, fault, fault, fault, fault, fault, fault, fault, fault, fault},
};
