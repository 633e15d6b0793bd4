/* Reads fonts with FreeType and with the library, and compares all that both answer: properties, accelerators, the
 * glyph of every code in both modes, metrics, bitmaps, characters and texts drawn, why each code is drawn or not,
 * vetting. FreeType does not read the names of glyphs; those that are given with a font are compared. A font that both
 * read has to load strictly too, and not with a bit of a table's own format changed.
 *
 * Standard input has for each font three lengths, eight bytes each as the machine has them, then the font's name, its
 * bytes, and lines of a code and its glyph's name. Standard output has the first differences, for each vetted font a
 * line that begins with "dump", and in lines that begin with "=" what was counted. Exit status 1 for a difference, 2
 * for trouble.
 *
 * FreeType puts a copy of the default character's glyph before all others, so that its index of a glyph is the font's
 * number and 1. Where a code has no glyph it answers 0. Its bitmaps are as wide as the glyph's box, from the left to
 * the right bearing; those of the library are as wide as the character. */
#include <limits.h>
#include <stdio.h>
#include <stdlib.h>

#include "peers.h"

struct counts count;

void fail(const char *what)
{
    fprintf(stderr, "peers: %s\n", what);
    exit(2);
}

FT_UInt shown_index(const struct font *f, uint32_t code, thk_mode mode)
{
    FT_UInt own = FT_Get_Char_Index(f->face, code);

    return own || mode == THK_PLAIN ? own : FT_Get_Char_Index(f->face, code_table(f).default_code);
}

bool in_texts(uint32_t code)
{
    return code != '\n' && code != '\r' && !(0xD800 <= code && code < 0xE000);
}

/* A code whose glyph may stand in a text. */
static void stands(struct font *f, uint32_t code)
{
    f->default_stands |= code == f->rec.codes.default_code;
    f->letter = code;
    f->letter_stands = true;
}

static void codes(struct font *f)
{
    bool hold = thk_dimensions(FONT(f)).refusal == THK_DONE; /* the bounds, without which no text is drawn */
    uint32_t code, line[LETTERS];
    size_t n = 0;

    for (code = 0; code < CODES + BEYOND; code++) {
        thk_glyph_answer ours = thk_glyph(FONT(f), (thk_char_code){code}, THK_PLAIN);
        FT_UInt peers = FT_Get_Char_Index(f->face, code);

        if (!same(f, ours.refusal, peers ? THK_DONE : THK_NO_GLYPH, "refusal of the glyph of code %ld", (long)code))
            continue;
        if (ours.refusal) {
            count.without_glyph++;
            continue;
        }
        if (!same(f, ours.glyph.value + 1LL, peers, "index of code %ld", (long)code))
            continue;
        count.with_glyph++;
        if (character(f, code) && hold && in_texts(code)) {
            stands(f, code);
            line[n++] = code;
        }
        if (n == LETTERS) {
            text(f, line, n, THK_PLAIN);
            n = 0;
        }
    }
    if (n > 0)
        text(f, line, n, THK_PLAIN);
}

static void font(FT_Library library, const char *name, uint8_t *bytes, size_t len, char *lines)
{
    thk_font_answer ours = thk_load(bytes, len);
    struct font f = {name, bytes, len, ours.rec, NULL, THK_DONE, 0, {LONG_MAX, LONG_MAX, LONG_MAX, LONG_MAX, LONG_MAX},
                     {LONG_MIN, LONG_MIN, LONG_MIN, LONG_MIN, LONG_MIN}, DIGEST, false, false, 0};
    uint32_t k;
    FT_Error error = FT_New_Memory_Face(library, bytes, (FT_Long)len, 0, &f.face);

    if (!same(&f, ours.refusal != 0, error != 0, "whether the file is refused, %lu", (unsigned long)ours.refusal))
        return;
    if (error) {
        count.neither++;
        return;
    }
    if (FT_Select_Size(f.face, 0) || f.face->num_charmaps != 1 || FT_Set_Charmap(f.face, f.face->charmaps[0]))
        fail("FreeType has not one size and one table of codes");
    count.fonts++;
    count.long_metrics += !f.rec.metrics.compressed;
    count.padded_to_8 += f.rec.bitmaps.pad == 8;
    count.usual += f.rec.bitmaps.unit == 0 && f.rec.bitmaps.top;
    strict_loading(&f);
    two_formats(&f);
    accelerators(&f);
    for (k = 0; k < f.rec.props.count; k++)
        property(&f, k);
    if (same(&f, f.rec.metrics.count + 1LL, f.face->num_glyphs, "number of glyphs, and 1")) {
        for (k = 0; k < f.rec.metrics.count; k++)
            glyph(&f, (thk_glyph_index){(uint16_t)k}, k + 1);
        glyph(&f, copied(&f), 0);
        codes(&f);
        reasons(&f);
        defaults(&f);
        bounds(&f);
        vetting(&f);
        dump(&f);
    }
    names(&f, lines);
    FT_Done_Face(f.face);
}

static bool get(void *to, size_t len)
{
    size_t got = fread(to, 1, len, stdin);

    if (got != len && got != 0)
        fail("the input is cut");
    return got == len;
}

/* That many bytes of the input, and a zero byte. */
static char *part(uint64_t len)
{
    char *made = malloc(len + 1);

    if (!made || (len > 0 && !get(made, len)))
        fail("the input is cut, or there is no memory");
    made[len] = 0;
    return made;
}

int main(void)
{
    FT_Library library;
    uint64_t lens[3];

    if (FT_Init_FreeType(&library))
        fail("FreeType does not start");
    while (get(lens, sizeof lens)) {
        char *name = part(lens[0]), *bytes = part(lens[1]), *lines = part(lens[2]);

        font(library, name, (uint8_t *)bytes, lens[1], lines);
        free(name);
        free(bytes);
        free(lines);
    }
    FT_Done_FreeType(library);
#define SAY(name) printf("= " #name " %lu\n", count.name);
    COUNTED(SAY)
#define SAY_WHY(number) printf("= why_" #number " %lu\n", count.why_##number);
    REASONS(SAY_WHY)
    return count.differences > 0;
}
