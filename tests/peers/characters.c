/* Characters: placed, drawn and unpacked; and the bounds that their metrics have in FreeType. */
#include <stdlib.h>
#include <string.h>

#include "peers.h"

static void widen(long value, long *least, long *most)
{
    *least = value < *least ? value : *least;
    *most = value > *most ? value : *most;
}

/* Takes a code's glyph into the bounds. One whose metrics are all 0 is in X's fonts no glyph. */
static void measure(struct font *f, FT_GlyphSlot slot)
{
    struct extremes *l = &f->least, *m = &f->most;

    if (slot->advance.x == 0 && slot->bitmap_left == 0 && slot->bitmap.width == 0 && slot->bitmap_top == 0
        && slot->bitmap.rows == 0)
        return;
    widen(slot->bitmap_left, &l->left, &m->left);
    widen(slot->bitmap_left + (long)slot->bitmap.width, &l->right, &m->right);
    widen(slot->advance.x / 64, &l->width, &m->width);
    widen(slot->bitmap_top, &l->ascent, &m->ascent);
    widen((long)slot->bitmap.rows - slot->bitmap_top, &l->descent, &m->descent);
}

/* Whether the metrics that FreeType has are such as 11 refuses; it does not tell the ascent of the bounds. */
static bool out_of_range(const struct font *f, FT_GlyphSlot slot)
{
    return slot->advance.x < 0 || slot->bitmap_top < 0 || slot->bitmap_left < 0 || slot->bitmap.rows > HIGHEST
           || slot->bitmap_top > f->rec.accel.maxbounds.ascent;
}

size_t row_bytes(const struct font *f, size_t width)
{
    size_t pad = f->rec.bitmaps.pad;

    return ((width + 7) / 8 + pad - 1) / pad * pad;
}

/* Where a glyph's rows start in the bitmap data. */
static uint32_t offset(const struct font *f, size_t glyph)
{
    const uint8_t *b = f->bytes + f->rec.bitmaps.offsets + 4 * glyph;
    uint32_t made = 0;
    int k;

    for (k = 0; k < 4; k++)
        made = made << 8 | b[f->rec.bitmaps.big ? k : 3 - k];
    return made;
}

/* How many bytes from a row's start on hold its columns. Where bit and byte order differ, the first columns of a unit
 * stand in its last byte. */
static size_t held_bytes(const struct font *f, size_t width)
{
    size_t unit = f->rec.bitmaps.big == f->rec.bitmaps.top ? 1 : (size_t)1 << f->rec.bitmaps.unit;

    return ((width + 7) / 8 + unit - 1) / unit * unit;
}

/* Whether the bitmap data ends before the rows of the character, which are as wide as its advance. */
static bool data_ends(const struct font *f, FT_GlyphSlot slot, size_t glyph)
{
    size_t width = (size_t)slot->advance.x / 64, rows = slot->bitmap.rows;

    return width > 0 && rows > 0
           && offset(f, glyph) + (rows - 1) * row_bytes(f, width) + held_bytes(f, width) > f->rec.bitmaps.size;
}

uint32_t fault(const struct font *f, FT_GlyphSlot slot, size_t glyph)
{
    if (out_of_range(f, slot))
        return THK_BAD_METRICS;
    return data_ends(f, slot, glyph) ? THK_BITMAP_SHORT : THK_DONE;
}

size_t larger(size_t a, size_t b)
{
    return a > b ? a : b;
}

/* Whether a page has FreeType's bitmap up to the column `cut`. Columns before that which FreeType's does not have are
 * passed over. */
static bool same_bitmap(const struct font *f, struct page ours, size_t left, size_t top, size_t cut, const char *what,
                        uint32_t code)
{
    const FT_Bitmap *of = &f->face->glyph->bitmap;
    struct page peers = blank(ours.lines, ours.stride);
    bool right;

    if (!bit_order(f))
        put(peers, of, top, left, cut);
    right = same_pages(f, ours, peers, left + of->width, left + cut, what, code);
    free(peers.pixels);
    return right;
}

static struct page drawn_char(const struct font *f, uint32_t code, thk_mode mode, size_t lines, size_t stride)
{
    struct page p = blank(lines, stride);
    thk_page to = drawable(p);
    thk_char_answer ours;

    to.mode = mode;
    ours = thk_draw_char(FONT(f), (thk_char_code){code}, &to);
    same(f, ours.refusal, bit_order(f), "refusal of drawing code %ld", (long)code);
    if (!ours.refusal)
        same(f, ours.rows.drawn, f->face->glyph->bitmap.rows, "rows drawn of code %ld", (long)code);
    return p;
}

static struct page unpacked(const struct font *f, uint32_t code, thk_glyph_info info, size_t lines, size_t stride)
{
    struct page p = blank(lines, stride);
    uint8_t *bytes = malloc(lines * stride);
    thk_cells cells = {.bytes = bytes, .len = lines * stride, .stride = stride};
    thk_unpack_answer ours;
    size_t i;

    if (!bytes)
        fail("no memory");
    memset(bytes, BLANK, lines * stride);
    ours = thk_unpack_glyph(FONT(f), info, &cells);
    same(f, ours.refusal, bit_order(f), "refusal of unpacking code %ld", (long)code);
    if (!ours.refusal)
        same(f, ours.rows, f->face->glyph->bitmap.rows, "rows unpacked of code %ld", (long)code);
    for (i = 0; i < lines * stride; i++)
        p.pixels[i] = bytes[i];
    free(bytes);
    return p;
}

bool drawn_as(const struct font *f, uint32_t code, thk_mode mode, thk_glyph_info info)
{
    size_t lines = info.pad_top + info.height + 1U, stride = info.pad_left + info.width + 1U;

    return loaded(f, shown_index(f, code, mode))
           && same_bitmap(f, drawn_char(f, code, mode, lines, stride), info.pad_left, info.pad_top, info.width, "code",
                          code);
}

bool character(struct font *f, uint32_t code)
{
    FT_UInt index = FT_Get_Char_Index(f->face, code);
    FT_GlyphSlot slot = loaded(f, index);
    thk_info_answer placed = thk_prep_char(FONT(f), (thk_char_code){code}, THK_PLAIN);
    thk_glyph_info info = placed.info;
    size_t box, whole, left, top, lines, stride;
    bool right, bad;

    if (!slot)
        return false;
    measure(f, slot);
    bad = out_of_range(f, slot);
    if (f->fault == THK_DONE) {
        f->fault = fault(f, slot, index - 1);
        f->bad = code;
    }
    if (!same(f, placed.refusal, bad ? THK_BAD_METRICS : THK_DONE, "refusal of code %ld", (long)code) || bad) {
        count.out_of_range++;
        return false;
    }
    box = slot->bitmap.width;
    left = (size_t)slot->bitmap_left;
    top = (size_t)(f->rec.accel.maxbounds.ascent - slot->bitmap_top);
    right = same(f, info.width * 64L, slot->advance.x, "64 times the width of code %ld", (long)code)
            && same(f, info.height, slot->bitmap.rows, "height of code %ld", (long)code)
            && same(f, info.pad_left, (long long)left, "left pad of code %ld", (long)code)
            && same(f, info.pad_top, (long long)top, "top pad of code %ld", (long)code);
    if (!right)
        return false;
    if (row_bytes(f, info.width) != row_bytes(f, box)) {
        count.other_rows++;
        return false;
    }
    whole = (info.width + 7U) / 8 * 8; /* the columns that unpacking stores */
    lines = top + info.height + 1;
    stride = left + larger(whole, box) + 1;
    right = same_bitmap(f, drawn_char(f, code, THK_PLAIN, lines, stride), left, top, info.width, "code", code);
    right &= same_bitmap(f, unpacked(f, code, info, lines, stride), left, top, whole, "unpacked code", code);
    if (bit_order(f))
        return false;
    count.characters += right;
    count.cut += right && info.width < box;
    count.wider += right && info.width > box;
    return right && info.width == box;
}
