/* Input and output by semihosting: the emulator opens calls.bin and left.bin in the folder that it was started in. */
#include <string.h>

#include "board.h"
#include "replay.h"

#define INPUT "calls.bin"
#define OUTPUT "left.bin"

enum { OPEN = 1, SAY = 4, WRITE = 5, READ = 6, EXIT = 0x20 };
enum { TO_READ = 1, TO_WRITE = 5 }; /* "rb", "wb" */
enum { APPLICATION_EXIT = 0x20026, ROOM = 4096 };

struct stream {
    uintptr_t file;
    int is_open;
    size_t at, end;
    uint8_t bytes[ROOM];
};

static struct stream input, output;

static uintptr_t ask(uintptr_t what, const void *arguments)
{
#if defined(__arm__)
    register uintptr_t answer __asm__("r0") = what;
    register const void *given __asm__("r1") = arguments;
    __asm__ volatile("bkpt 0xab" : "+r"(answer) : "r"(given) : "memory");
#elif defined(__aarch64__)
    register uintptr_t answer __asm__("x0") = what;
    register const void *given __asm__("x1") = arguments;
    __asm__ volatile("hlt 0xf000" : "+r"(answer) : "r"(given) : "memory");
#else /* RISC-V: three instructions of 4 bytes, which no page may part */
    register uintptr_t answer __asm__("a0") = what;
    register const void *given __asm__("a1") = arguments;
    __asm__ volatile(".option push\n.option norvc\n.balign 16\nslli x0, x0, 0x1f\nebreak\nsrai x0, x0, 7\n.option pop"
                     : "+r"(answer) : "r"(given) : "memory");
#endif
    return answer;
}

static void open_once(struct stream *s, const char *name, size_t len, uintptr_t mode)
{
    uintptr_t arguments[3] = {(uintptr_t)name, mode, len};

    if (s->is_open)
        return;
    s->file = ask(OPEN, arguments);
    s->is_open = 1;
    if (s->file == UINTPTR_MAX)
        fail("a file cannot be opened");
}

int get(void *bytes, size_t len)
{
    size_t had = 0;

    open_once(&input, INPUT, sizeof INPUT - 1, TO_READ);
    while (had < len) {
        if (input.at == input.end) {
            uintptr_t arguments[3] = {input.file, (uintptr_t)input.bytes, ROOM};
            uintptr_t lacking = ask(READ, arguments);
            if (lacking > ROOM)
                fail("the input cannot be read");
            input.at = 0;
            input.end = ROOM - (size_t)lacking;
            if (input.end == 0)
                break;
        }
        size_t some = input.end - input.at < len - had ? input.end - input.at : len - had;
        memcpy((uint8_t *)bytes + had, input.bytes + input.at, some);
        input.at += some;
        had += some;
    }
    if (had != len && had != 0)
        fail("the input is cut");
    return had == len;
}

void flush(void)
{
    open_once(&output, OUTPUT, sizeof OUTPUT - 1, TO_WRITE);
    uintptr_t arguments[3] = {output.file, (uintptr_t)output.bytes, output.end};
    if (ask(WRITE, arguments) != 0)
        fail("the output cannot be written");
    output.end = 0;
}

void put(const void *bytes, size_t len)
{
    for (size_t had = 0; had < len;) {
        size_t some = ROOM - output.end < len - had ? ROOM - output.end : len - had;
        memcpy(output.bytes + output.end, (const uint8_t *)bytes + had, some);
        output.end += some;
        had += some;
        if (output.end == ROOM)
            flush();
    }
}

void say(const char *text)
{
    ask(SAY, text);
}

void say_number(uintptr_t n)
{
    char digits[2 * sizeof n + 1];
    size_t i = sizeof digits - 1;

    digits[i] = 0;
    do {
        digits[--i] = "0123456789abcdef"[n & 15];
        n >>= 4;
    } while (n > 0);
    say(digits + i);
}

void leave(unsigned status)
{
    uintptr_t arguments[2] = {APPLICATION_EXIT, status};

    ask(EXIT, arguments);
    for (;;)
        ;
}

void fail(const char *what)
{
    say("replay: ");
    say(what);
    say("\n");
    leave(1);
}

void fault(uintptr_t cause, uintptr_t at)
{
    say("replay: a fault of cause ");
    say_number(cause);
    say(" at ");
    say_number(at);
    say("\n");
    leave(3);
}
