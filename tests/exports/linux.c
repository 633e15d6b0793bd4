/* Linux for replay.c: standard input and output, and memory that ends at a page that may not be touched. */
#define _DEFAULT_SOURCE
#include <stdio.h>
#include <stdlib.h>
#include <string.h>
#include <sys/mman.h>
#include <unistd.h>

#include "replay.h"

struct place {
    uint8_t *held, *map;
    size_t room; /* of the map, in bytes, without the page at its end */
};

static struct place places[OBJECTS];
static size_t memory_page;

void fail(const char *what)
{
    fprintf(stderr, "replay: %s\n", what);
    exit(1);
}

int get(void *bytes, size_t len)
{
    size_t got = fread(bytes, 1, len, stdin);

    if (got != len && got != 0)
        fail("the input is cut");
    return got == len;
}

void put(const void *bytes, size_t len)
{
    if (fwrite(bytes, 1, len, stdout) != len)
        fail("standard output cannot be written");
}

uint8_t *hold(enum object what, size_t len)
{
    places[what].held = realloc(places[what].held, len + 1);
    if (!places[what].held)
        fail("no memory");
    return places[what].held;
}

uint8_t *lend(enum object what, size_t len, size_t turn)
{
    struct place *p = &places[what];
    uint8_t *at;

    (void)turn;
    p->room = (len + memory_page - 1) / memory_page * memory_page;
    p->map = mmap(NULL, p->room + memory_page, PROT_READ | PROT_WRITE, MAP_PRIVATE | MAP_ANONYMOUS, -1, 0);
    if (p->map == MAP_FAILED || mprotect(p->map + p->room, memory_page, PROT_NONE) != 0)
        fail("no memory");
    at = p->map + p->room - len;
    memcpy(at, p->held, len);
    if (what != BUFFER && p->room > 0 && mprotect(p->map, p->room, PROT_READ) != 0)
        fail("no memory");
    return at;
}

void take_back(enum object what)
{
    if (munmap(places[what].map, places[what].room + memory_page) != 0)
        fail("memory is not given back");
}

int main(void)
{
    memory_page = (size_t)sysconf(_SC_PAGESIZE);
    replay();
    if (fflush(stdout) != 0)
        fail("standard output cannot be written");
    return 0;
}
