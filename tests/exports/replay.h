/* What replay.c asks of the machine that it runs on: linux.c has it for Linux, tests/targets/bare for boards without a
 * system. The machine's own main calls replay(). */
#ifndef REPLAY_H
#define REPLAY_H

#include <stddef.h>
#include <stdint.h>

enum kind { LOAD, LOAD_STRICT, VET, PROPERTY, GLYPH, NAME, METRICS, ACCEL, DIMENSIONS, PREP_CHAR, DRAW_BITMAP,
            DRAW_GLYPH, DRAW_CHAR, WHY, UNPACK_GLYPH, DRAW_STRING, TEXT_CHECK, UTF8_STEP, KINDS };

/* What a call is lent, and last what the first of two calls left of the buffer. */
enum object { RECORD, FONT, TEXT, BUFFER, LEFT, OBJECTS };

void replay(void);

/* Says what is wrong, and ends the program with a status that is not 0. */
void fail(const char *what);

/* The next bytes of the input: whether there are any. An input that is cut is wrong. */
int get(void *bytes, size_t len);

void put(const void *bytes, size_t len);

/* Memory for an object as it comes, which keeps it until more is asked for. */
uint8_t *hold(enum object what, size_t len);

/* Lends a copy of what is held, which may not be read or written beyond its end, and written only if it is the buffer.
 * Where the machine has no pages to forbid, what stands around it is a pattern that is looked at when it is taken back,
 * and `turn`, which grows, says how the copy is aligned. */
uint8_t *lend(enum object what, size_t len, size_t turn);
void take_back(enum object what);

/* Stand in the function that makes a call, before and after it, where the machine measures the stack. */
#ifdef STACK_IS_MEASURED
#include "stack.h"
#else
static inline void paint_stack(void)
{
}
static inline void look_at_stack(enum kind kind)
{
    (void)kind;
}
#endif

#endif
