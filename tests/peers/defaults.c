/* Default mode. A code takes the glyph of its own entry or else of the default code's, both read from the file once
 * more; FreeType has to have the same glyph under the same code. */
#include <stdlib.h>

#include "peers.h"

enum { STEP = 61 }; /* one in so many of the codes without a glyph is drawn */

static bool same_supplier(const struct font *f, thk_supplier by, uint32_t supplier, bool is_default, uint32_t code)
{
    return same(f, by.code.value, supplier, "code that supplies the glyph of code %ld", (long)code)
           & same(f, by.is_default, is_default, "whether code %ld takes the default", (long)code);
}

/* The glyph of a code; whether it is the default's. */
static bool lookup(const struct font *f, const struct code_table *t, uint32_t code)
{
    thk_glyph_answer ours = thk_glyph(FONT(f), (thk_char_code){code}, THK_DEFAULT);
    uint32_t own = entry_of(t, code), glyph = own == NO_GLYPH ? entry_of(t, t->default_code) : own;
    bool none = glyph == NO_GLYPH, is_default = own == NO_GLYPH && !none;

    same(f, none ? 0 : glyph + 1, shown_index(f, code, THK_DEFAULT), "entry of code %ld, and 1", (long)code);
    if (!same(f, ours.refusal, none ? THK_NO_GLYPH : THK_DONE, "refusal of code %ld in default mode", (long)code))
        return false;
    count.default_none += none;
    if (none)
        return false;
    if (!same(f, ours.glyph.value, glyph, "glyph of code %ld in default mode", (long)code)
        || !same_supplier(f, ours.by, is_default ? t->default_code : code, is_default, code))
        return false;
    count.default_own += !is_default;
    count.default_taken += is_default;
    return is_default;
}

/* Placed and told why as the default code is in plain mode; drawn as FreeType's glyph, if that may stand in a text. */
static void character_by_default(const struct font *f, const struct code_table *t, uint32_t code)
{
    thk_page endless = thk_page_of(NULL, UINT64_MAX, THK_MAX_STRIDE);
    thk_char_code asked = {code}, supplier = {t->default_code};
    thk_info_answer ours = thk_prep_char(FONT(f), asked, THK_DEFAULT);
    thk_info_answer plain = thk_prep_char(FONT(f), supplier, THK_PLAIN);
    thk_why_answer reason, of_default = thk_why(FONT(f), supplier, &endless);

    endless.mode = THK_DEFAULT;
    reason = thk_why(FONT(f), asked, &endless);
    same_supplier(f, reason.by, t->default_code, true, code);
    same(f, reason.reason.number, of_default.reason.number, "reason of code %ld in default mode", (long)code);
    if (!same(f, ours.refusal, plain.refusal, "refusal of placing code %ld in default mode", (long)code)
        || ours.refusal)
        return;
    same_supplier(f, ours.by, t->default_code, true, code);
    count.default_placed += same(f, ours.info.width, plain.info.width, "width of code %ld in default mode", (long)code)
                            & same(f, ours.info.height, plain.info.height, "height of code %ld", (long)code)
                            & same(f, ours.info.pad_top, plain.info.pad_top, "top pad of code %ld", (long)code)
                            & same(f, ours.info.pad_left, plain.info.pad_left, "left pad of code %ld", (long)code);
    if (f->default_stands)
        count.default_drawn += drawn_as(f, code, THK_DEFAULT, ours.info);
}

/* One in STEP codes without a glyph, with a letter that has one between every two of them, in texts. */
static void texts_by_default(const struct font *f, const uint32_t *without, size_t n)
{
    uint32_t line[LETTERS];
    size_t k, used = 0;

    for (k = 0; k < n; k++) {
        line[used++] = without[k];
        line[used++] = f->letter;
        if (used + 2 > LETTERS || k + 1 == n) {
            text(f, line, used, THK_DEFAULT);
            used = 0;
        }
    }
}

void defaults(const struct font *f)
{
    struct code_table t = code_table(f);
    bool has = entry_of(&t, t.default_code) != NO_GLYPH;
    uint32_t code, *without = malloc((CODES + BEYOND) / STEP * sizeof *without + sizeof *without);
    unsigned long seen = 0;
    size_t n = 0;

    if (!without)
        fail("no memory");
    same(f, f->rec.codes.default_code, t.default_code, "default code");
    count.fonts_with_default += has;
    count.fonts_without_default += !has;
    for (code = 0; code < CODES + BEYOND; code++) {
        bool taken = lookup(f, &t, code);

        if (entry_of(&t, code) != NO_GLYPH || seen++ % STEP)
            continue;
        if (taken)
            character_by_default(f, &t, code);
        if (in_texts(code))
            without[n++] = code;
    }
    if (f->letter_stands && (!has || f->default_stands))
        texts_by_default(f, without, n);
    free(without);
}
