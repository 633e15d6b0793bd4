/* Glyphs by their number: metrics, and the bitmap in the glyph's box. */
#include <stdlib.h>

#include "peers.h"

FT_GlyphSlot loaded(const struct font *f, FT_UInt index)
{
    FT_GlyphSlot slot = f->face->glyph;

    if (!same(f, 0, FT_Load_Glyph(f->face, index, FT_LOAD_DEFAULT), "error for FreeType's glyph %ld", (long)index))
        return NULL;
    if (slot->format != FT_GLYPH_FORMAT_BITMAP || slot->bitmap.pixel_mode != FT_PIXEL_MODE_MONO
        || slot->bitmap.pitch < 0)
        fail("FreeType has a bitmap of another kind");
    return slot;
}

uint32_t bit_order(const struct font *f)
{
    return f->rec.bitmaps.unit == 3 || 1 << f->rec.bitmaps.unit > f->rec.bitmaps.pad ? THK_BIT_ORDER : THK_DONE;
}

/* The bitmap in the glyph's box. */
static void bitmap(struct font *f, thk_glyph_index number, const FT_Bitmap *of)
{
    size_t wide = of->width ? of->width : 1;
    struct page page = blank(of->rows, wide), peers = blank(of->rows, wide);
    thk_page to = drawable(page);
    thk_rows_answer drawn = thk_draw_bitmap(FONT(f), (thk_bitmap){number, of->width, of->rows}, &to);
    bool right = same(f, drawn.refusal, bit_order(f), "refusal of the bitmap of glyph %ld", (long)number.value);

    if (drawn.refusal) {
        count.not_drawn++;
        right = right && same_pages(f, page, peers, 0, 0, "glyph", number.value);
    } else {
        put(peers, of, 0, 0, of->width);
        f->peers = digest(f->peers, peers.pixels, peers.lines * wide * sizeof *peers.pixels);
        right &= same(f, drawn.rows.drawn, of->rows, "rows drawn of glyph %ld", (long)number.value);
        right &= same_pages(f, page, peers, 0, 0, "glyph", number.value);
        count.bitmaps += right;
        count.empty += right && (of->width == 0 || of->rows == 0);
    }
    free(peers.pixels);
}

void glyph(struct font *f, thk_glyph_index number, FT_UInt index)
{
    thk_metrics_answer ours = thk_metrics(FONT(f), number);
    const thk_measures *m = &ours.metrics;
    FT_GlyphSlot slot = loaded(f, index);
    long n = number.value;

    if (!slot || !same(f, ours.refusal, 0, "refusal of the metrics of glyph %ld", n)
        || !same(f, m->left, slot->bitmap_left, "left bearing of glyph %ld", n)
        || !same(f, m->right - m->left, slot->bitmap.width, "box width of glyph %ld", n)
        || !same(f, m->ascent, slot->bitmap_top, "ascent of glyph %ld", n)
        || !same(f, m->ascent + m->descent, slot->bitmap.rows, "height of glyph %ld", n)
        || !same(f, m->width * 64L, slot->advance.x, "64 times the width of glyph %ld", n))
        return;
    count.metrics++;
    bitmap(f, number, &slot->bitmap);
}

thk_glyph_index copied(const struct font *f)
{
    const thk_code_data *c = &f->rec.codes;
    uint32_t code = c->default_code, row = code >> 8, column = code & 255;
    thk_glyph_answer found;

    if (row < c->low1 || row > c->high1 || column < c->low2 || column > c->high2)
        code = (uint32_t)c->low1 << 8 | c->low2;
    found = thk_glyph(FONT(f), (thk_char_code){code}, THK_PLAIN);
    if (found.refusal == THK_DONE && code == c->default_code)
        count.defaults++;
    else
        count.no_default++;
    return found.glyph;
}
