/* The stack below the function that makes a call is painted before the call, and looked at after it. No interrupt comes
 * in between. */
#ifndef STACK_H
#define STACK_H

#define PAINT ((uintptr_t)UINT64_C(0xC5C5C5C5C5C5C5C5))

extern uintptr_t painted_from; /* downwards */
extern uintptr_t deepest[KINDS];

static inline __attribute__((always_inline)) uintptr_t stack_pointer(void)
{
    uintptr_t sp;

#ifdef __riscv
    __asm__ volatile("mv %0, sp" : "=r"(sp) : : "memory");
#else
    __asm__ volatile("mov %0, sp" : "=r"(sp) : : "memory");
#endif
    return sp;
}

static inline __attribute__((always_inline)) void paint_stack(void)
{
    painted_from = stack_pointer();
    for (uintptr_t at = painted_from - PAINTED; at < painted_from; at += sizeof at)
        *(volatile uintptr_t *)at = PAINT;
}

static inline __attribute__((always_inline)) void look_at_stack(enum kind kind)
{
    uintptr_t at = painted_from - PAINTED;

    if (stack_pointer() != painted_from)
        fail("the stack's pointer is not where it was");
    while (at < painted_from && *(volatile uintptr_t *)at == PAINT)
        at += sizeof at;
    if (painted_from - at == PAINTED)
        fail("a call takes more stack than was painted");
    if (deepest[kind] < painted_from - at)
        deepest[kind] = painted_from - at;
}

#endif
