/* A board's program: it replays the calls and then says how deep each function's calls reached into the stack. */
#include "board.h"
#include "replay.h"

uintptr_t painted_from;
uintptr_t deepest[KINDS];

int main(void)
{
    replay();
    flush();
    for (enum kind kind = LOAD; kind < KINDS; kind++) {
        say("stack ");
        say_number(kind);
        say(" ");
        say_number(deepest[kind]);
        say("\n");
    }
    return 0;
}
