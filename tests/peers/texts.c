/* Texts, laid out by FreeType's metrics. */
#include <stdlib.h>

#include "peers.h"

static size_t utf8(uint32_t code, uint8_t *to)
{
    if (code < 0x80) {
        to[0] = (uint8_t)code;
        return 1;
    }
    if (code < 0x800) {
        to[0] = (uint8_t)(0xC0 | code >> 6);
        to[1] = (uint8_t)(0x80 | (code & 63));
        return 2;
    }
    if (code < 0x10000) {
        to[0] = (uint8_t)(0xE0 | code >> 12);
        to[1] = (uint8_t)(0x80 | (code >> 6 & 63));
        to[2] = (uint8_t)(0x80 | (code & 63));
        return 3;
    }
    to[0] = (uint8_t)(0xF0 | code >> 18);
    to[1] = (uint8_t)(0x80 | (code >> 12 & 63));
    to[2] = (uint8_t)(0x80 | (code >> 6 & 63));
    to[3] = (uint8_t)(0x80 | (code & 63));
    return 4;
}

void text(const struct font *f, const uint32_t *codes, size_t n, thk_mode mode)
{
    uint8_t given[4 * LETTERS];
    FT_UInt index[LETTERS];
    size_t len = 0, wide = 1, high = 0, x = 0, k, ascent = (size_t)f->rec.accel.maxbounds.ascent;
    thk_text_answer drawn;
    struct page page, peers;
    thk_page to;
    FT_GlyphSlot slot;

    for (k = 0; k < n; k++) {
        len += utf8(codes[k], given + len);
        index[k] = shown_index(f, codes[k], mode);
        if (!index[k]) /* skipped */
            continue;
        if (!(slot = loaded(f, index[k])))
            return;
        wide += (size_t)slot->bitmap_left + slot->bitmap.width;
        high = larger(high, ascent - (size_t)slot->bitmap_top + slot->bitmap.rows);
    }
    page = blank(high + 1, wide);
    peers = blank(high + 1, wide);
    for (k = 0; k < n; k++) {
        if (!index[k] || !(slot = loaded(f, index[k])))
            continue;
        put(peers, &slot->bitmap, ascent - (size_t)slot->bitmap_top, x + (size_t)slot->bitmap_left,
            slot->bitmap.width);
        x += (size_t)slot->advance.x / 64;
    }
    to = drawable(page);
    to.mode = mode;
    drawn = thk_draw_string(FONT(f), given, len, &to);
    if (same(f, drawn.refusal, 0, "refusal of the text from code %ld on", (long)codes[0])
        & same(f, (long long)drawn.rows.dropped, 0, "rows dropped of the text from code %ld on", (long)codes[0])
        & same_pages(f, page, peers, 0, 0, "the text from code", codes[0])) {
        *(mode == THK_PLAIN ? &count.texts : &count.default_texts) += 1;
        *(mode == THK_PLAIN ? &count.letters : &count.default_letters) += n;
    }
    free(peers.pixels);
}
