/* What a font's dump has to have, by the exported calls and without the dumper, as a number, so that many fonts of one
 * picture can be compared. */
#include <inttypes.h>
#include <stdio.h>
#include <stdlib.h>

#include "peers.h"

/* The digest with what a line of the dump has: code, glyph, sizes and pads, name, and every whole byte of the rows. */
static uint64_t with_line(const struct font *f, uint64_t before, uint32_t code)
{
    thk_glyph_info info = thk_prep_char(FONT(f), (thk_char_code){code}, THK_PLAIN).info;
    thk_span name = thk_name(FONT(f), info.glyph).name;
    size_t wide = (info.width + 7U) / 8 * 8, len = info.height * wide;
    uint32_t numbers[] = {code, info.glyph.value, info.width, info.height, info.pad_top, info.pad_left};
    uint8_t *rows = calloc(len + 1, 1);
    thk_cells cells = {.bytes = rows, .len = len, .stride = larger(wide, 1)};

    if (!rows)
        fail("no memory");
    info.pad_top = info.pad_left = 0;
    same(f, thk_unpack_glyph(FONT(f), info, &cells).refusal, 0, "refusal of the rows of %ld", (long)code);
    before = digest(before, numbers, sizeof numbers);
    before = digest(before, f->bytes + name.start, name.len);
    before = digest(before, rows, len);
    free(rows);
    return before;
}

void dump(const struct font *f)
{
    uint64_t sum = DIGEST;
    unsigned long lines = 0;
    uint32_t code;

    if (thk_vet(f->bytes, f->len, THK_PLAIN).refusal)
        return;
    for (code = 0; code < CODES; code++)
        if (thk_glyph(FONT(f), (thk_char_code){code}, THK_PLAIN).refusal == THK_DONE) {
            sum = with_line(f, sum, code);
            lines++;
        }
    printf("dump %016" PRIx64 " %016" PRIx64 " %lu %s\n", sum, f->peers, lines, f->name);
}
