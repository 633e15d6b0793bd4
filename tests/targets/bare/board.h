/* What the parts of a board's program share, beside tests/exports/replay.h. */
#ifndef BOARD_H
#define BOARD_H

#include <stddef.h>
#include <stdint.h>

void say(const char *text);
void say_number(uintptr_t n); /* in hexadecimal digits */

/* Ends the emulator; nothing that was put but not flushed is written. */
void leave(unsigned status);
void flush(void);

/* Where the processor goes with an exception. */
void fault(uintptr_t cause, uintptr_t at);

int main(void);

#endif
