/* Lent memory where nothing can be forbidden: each object stands between patterns. The rooms are those that the calls
 * need. */
#include <string.h>

#include "replay.h"

enum { AROUND = 32, PATTERN = 0x5A };

struct place {
    uint8_t *held, *around;
    size_t room, step; /* the step is how the object has to be aligned */
    uint8_t *lent;
    size_t len;
};

#define PLACE(name, bytes) static uint64_t name##_held[(bytes) / 8 + 1], name##_around[((bytes) + 2 * AROUND) / 8 + 5]
#define OF(name, bytes, aligned) {(uint8_t *)name##_held, (uint8_t *)name##_around, bytes, aligned, NULL, 0}

PLACE(record, RECORD_ROOM);
PLACE(font, FONT_ROOM);
PLACE(text, TEXT_ROOM);
PLACE(buffer, BUFFER_ROOM);
static uint64_t left_held[BUFFER_ROOM / 8 + 1];

static struct place places[OBJECTS] = {
    [RECORD] = OF(record, RECORD_ROOM, 8), [FONT] = OF(font, FONT_ROOM, 1), [TEXT] = OF(text, TEXT_ROOM, 1),
    [BUFFER] = OF(buffer, BUFFER_ROOM, 4), [LEFT] = {(uint8_t *)left_held, NULL, BUFFER_ROOM, 8, NULL, 0},
};

uint8_t *hold(enum object what, size_t len)
{
    if (len > places[what].room)
        fail("an object is longer than its room");
    return places[what].held;
}

uint8_t *lend(enum object what, size_t len, size_t turn)
{
    struct place *p = &places[what];

    p->lent = p->around + AROUND + p->step * (turn >> 2 * what & 3);
    p->len = len;
    memset(p->lent - AROUND, PATTERN, AROUND);
    memcpy(p->lent, p->held, len);
    memset(p->lent + len, PATTERN, AROUND);
    return p->lent;
}

void take_back(enum object what)
{
    const struct place *p = &places[what];

    for (size_t i = 0; i < AROUND; i++)
        if (p->lent[i - AROUND] != PATTERN || p->lent[p->len + i] != PATTERN)
            fail("memory around what was lent is written");
    if (what != BUFFER && memcmp(p->lent, p->held, p->len) != 0)
        fail("what was lent to be read is written");
}
