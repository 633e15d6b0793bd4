/* Why each code is drawn or not. The bounds of codes are read from the file once more; FreeType says which codes have a
 * glyph, and what is in its bitmap. That leaves one reason for the library to name, on a page without end; and one on a
 * page that ends somewhere about the glyph, and with a record that counts the glyph no more. */
#include "peers.h"

/* The reason of a code that has no glyph. */
static uint32_t without_glyph(const struct code_table *t, uint32_t code)
{
    uint32_t reason = outside(t, code);

    return reason ? reason : THK_WHY_EMPTY_ENTRY;
}

/* The reason of a code that has one; 0 where it is THK_WHY_BLANK or THK_WHY_DRAWN and FreeType has no bitmap of the
 * rows that the library draws. Columns from the box up to the character's width stand in FreeType's rows too. */
static uint32_t with_glyph(const struct font *f, FT_GlyphSlot slot, size_t glyph)
{
    size_t width = (size_t)slot->advance.x / 64;
    uint32_t lacks = fault(f, slot, glyph);

    if (lacks == THK_BAD_METRICS)
        return THK_WHY_BAD_METRICS;
    if (bit_order(f))
        return THK_WHY_BIT_ORDER;
    if (lacks)
        return THK_WHY_BITMAP_SHORT;
    if (width > 0 && slot->bitmap.rows > 0 && row_bytes(f, width) != row_bytes(f, slot->bitmap.width))
        return 0;
    return any_set(&slot->bitmap, width) ? THK_WHY_DRAWN : THK_WHY_BLANK;
}

/* On a page where the glyph begins at p: a set bit past its end, rows cut, or as on a page without end. */
static thk_reason on_page(const FT_Bitmap *of, size_t width, uint64_t p, const thk_page *page)
{
    uint64_t lines = page->len < p ? 0 : (page->len - p) / page->stride;
    uint64_t whole = lines / page->scale * page->scale;
    uint64_t rows = whole < of->rows ? whole : of->rows, row, column;
    bool any = false;

    for (row = 0; row < rows; row++)
        for (column = 0; column < width; column++) {
            uint64_t first = p + row * page->stride * page->scale + column * page->scale;

            if (!bit(of, row, column))
                continue;
            if (first + (page->scale - 1) * (page->stride + 1) >= page->len) /* the last pixel of its square */
                return (thk_reason){THK_WHY_BUFFER_SHORT, 0};
            any = true;
        }
    if (rows < of->rows)
        return (thk_reason){THK_WHY_ROWS_CUT, (uint16_t)(of->rows - rows)};
    return (thk_reason){any ? THK_WHY_DRAWN : THK_WHY_BLANK, 0};
}

static void on_short_page(const struct font *f, FT_GlyphSlot slot, uint32_t code)
{
    thk_page page = thk_page_of(NULL, 0, 1 + code % 40);
    size_t down = (size_t)(f->rec.accel.maxbounds.ascent - slot->bitmap_top), right = (size_t)slot->bitmap_left;
    uint64_t p, line;
    thk_why_answer ours;
    thk_reason reason;

    page.scale = 1 + code % 3;
    page.start = code % 11;
    line = page.stride * page.scale;
    p = page.start + line * down + page.scale * right;
    page.len = code % 17 ? p + 7919 * (uint64_t)code % (line * (slot->bitmap.rows + 2)) : p / 2;
    reason = on_page(&slot->bitmap, (size_t)slot->advance.x / 64, p, &page);
    ours = thk_why(FONT(f), (thk_char_code){code}, &page);
    same(f, ours.refusal, THK_DONE, "refusal of the reason of code %ld on a short page", (long)code);
    same(f, ours.reason.number, reason.number, "reason of code %ld on a short page", (long)code);
    same(f, ours.reason.cut, reason.cut, "rows cut of code %ld on a short page", (long)code);
    count.short_16 += reason.number == THK_WHY_BUFFER_SHORT;
    count.short_35 += reason.number == THK_WHY_ROWS_CUT;
    count.short_36 += reason.number == THK_WHY_BLANK;
    count.short_37 += reason.number == THK_WHY_DRAWN;
}

/* With a record whose metrics, and one whose bitmaps, end before the glyph. */
static void without_table(const struct font *f, uint32_t code, uint32_t glyph, const thk_page *page)
{
    thk_record unmeasured = f->rec, unpictured = f->rec;

    unmeasured.metrics.count = glyph;
    unpictured.bitmaps.count = glyph;
    count.fewer_10 += same(f, thk_why(f->bytes, f->len, &unmeasured, (thk_char_code){code}, page).reason.number,
                           THK_WHY_NO_METRICS, "reason of code %ld without metrics", (long)code);
    count.fewer_12 += same(f, thk_why(f->bytes, f->len, &unpictured, (thk_char_code){code}, page).reason.number,
                           THK_WHY_NO_BITMAP, "reason of code %ld without a bitmap", (long)code);
}

static void counted(uint32_t reason)
{
    switch (reason) {
#define COUNT(number)                                                                                                  \
    case number:                                                                                                       \
        count.why_##number++;                                                                                          \
        break;
        REASONS(COUNT)
    }
}

void reasons(const struct font *f)
{
    thk_page endless = thk_page_of(NULL, UINT64_MAX, THK_MAX_STRIDE);
    struct code_table t = code_table(f);
    uint32_t code;

    for (code = 0; code < CODES + BEYOND; code++) {
        thk_why_answer ours = thk_why(FONT(f), (thk_char_code){code}, &endless);
        FT_UInt index = FT_Get_Char_Index(f->face, code);
        FT_GlyphSlot slot = index ? loaded(f, index) : NULL;
        uint32_t reason = slot ? with_glyph(f, slot, index - 1) : without_glyph(&t, code);

        same(f, thk_glyph(FONT(f), (thk_char_code){code}, THK_PLAIN).refusal != THK_DONE, slot == NULL,
             "whether code %ld has no frame", (long)code);
        if (!same(f, ours.refusal, THK_DONE, "refusal of the reason of code %ld", (long)code)
            || !same(f, ours.reason.cut, 0, "rows cut of code %ld", (long)code))
            continue;
        if (reason)
            same(f, ours.reason.number, reason, "reason of code %ld", (long)code);
        else if (ours.reason.number != THK_WHY_BLANK)
            same(f, ours.reason.number, THK_WHY_DRAWN, "reason of code %ld", (long)code);
        count.why_of_other_rows += !reason;
        counted(ours.reason.number);
        if (reason == THK_WHY_BLANK || reason == THK_WHY_DRAWN) {
            on_short_page(f, slot, code);
            without_table(f, code, index - 1, &endless);
        }
    }
}
