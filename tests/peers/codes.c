/* The file's code table, read once more. */
#include "peers.h"

enum { CODE_TABLE = 32, BIG = 4 }; /* the table's type, and the bit of its own format */

static uint32_t half(const uint8_t *at, bool big)
{
    return (uint32_t)at[big ? 0 : 1] << 8 | at[big ? 1 : 0];
}

struct code_table code_table(const struct font *f)
{
    uint32_t entry = word(f->bytes + 4);

    while (entry-- > 0) {
        const uint8_t *listed = f->bytes + 8 + 16 * entry, *table = f->bytes + word(listed + 12);
        bool big = word(table) & BIG;

        if (word(listed) == CODE_TABLE)
            return (struct code_table){half(table + 4, big), half(table + 6, big), half(table + 8, big),
                                       half(table + 10, big), half(table + 12, big), table + 14, big};
    }
    fail("a font has no code table");
    return (struct code_table){0, 0, 0, 0, 0, NULL, false};
}

/* Where the codes are one number, the second byte's bounds are theirs. */
static bool one_number(const struct code_table *t)
{
    return t->low1 == 0 && t->high1 == 0;
}

uint32_t outside(const struct code_table *t, uint32_t code)
{
    uint32_t byte1 = code >> 8, byte2 = one_number(t) ? code : code & 255;

    if (code >= CODES)
        return THK_WHY_ABOVE_CODES;
    if (!one_number(t) && (byte1 < t->low1 || byte1 > t->high1))
        return THK_WHY_FIRST_BYTE;
    return byte2 < t->low2 || byte2 > t->high2 ? THK_WHY_SECOND_BYTE : 0;
}

uint32_t entry_of(const struct code_table *t, uint32_t code)
{
    uint32_t columns = t->high2 - t->low2 + 1;
    uint32_t at = one_number(t) ? code - t->low2 : ((code >> 8) - t->low1) * columns + (code & 255) - t->low2;

    return outside(t, code) ? NO_GLYPH : half(t->entries + 2 * at, t->big);
}
