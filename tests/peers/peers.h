/* What the files of this program share: a font in both readers, what is counted, differences, pages of pixels. */
#ifndef PEERS_H
#define PEERS_H

#include <ft2build.h>
#include FT_FREETYPE_H

#include <stdbool.h>
#include <stddef.h>
#include <stdint.h>

#include "thalluskin.h"

enum {
    CODES = 65536,
    BEYOND = 1024,    /* codes after those, which have no glyph */
    NO_GLYPH = 65535, /* an entry of the code table */
    HIGHEST = 32767,  /* of a glyph */
    LETTERS = 40,     /* of a text at most */
    SHOWN = 5,        /* differences in full */
    SET = 1,          /* a pixel or byte that was written */
    BLANK = 3         /* one that was not */
};

struct extremes {
    long left, right, width, ascent, descent;
};

struct font {
    const char *name;
    uint8_t *bytes;
    size_t len;
    thk_record rec;
    FT_Face face;
    uint32_t fault;        /* the number with which vetting has to refuse a code, or 0 */
    uint32_t bad;          /* the first such code */
    struct extremes least; /* of FreeType's metrics of all codes' glyphs */
    struct extremes most;
    uint64_t peers;        /* a digest of FreeType's bitmaps */
    bool default_stands;   /* the default code's glyph may stand in a text */
    bool letter_stands;    /* and so may that of `letter`, the last such code */
    uint32_t letter;
};

#define FONT(f) (f)->bytes, (f)->len, &(f)->rec

#define COUNTED(C)                                                                                                     \
    C(fonts) C(neither) C(strictly) C(two_formats) C(long_metrics) C(padded_to_8) C(usual) C(bounds) C(vetted)         \
    C(refused_11) C(refused_13) C(refused_14) C(numbers) C(strings) C(repeated) C(with_glyph) C(without_glyph)         \
    C(metrics) C(bitmaps) C(empty) C(not_drawn) C(defaults) C(no_default) C(characters) C(cut) C(wider)                \
    C(out_of_range) C(other_rows) C(texts) C(letters) C(names) C(differences) C(why_of_other_rows)          \
    C(short_16) C(short_35) C(short_36) C(short_37) C(fewer_10) C(fewer_12) C(fonts_with_default)                      \
    C(fonts_without_default) C(default_own) C(default_taken) C(default_none) C(default_placed) C(default_drawn)        \
    C(default_texts) C(default_letters)

/* The reasons that a code can have on a page with room for it, in a font that FreeType reads. */
#define REASONS(C) C(31) C(32) C(33) C(34) C(11) C(13) C(14) C(36) C(37)

#define FIELD(name) unsigned long name;
#define WHY(number) unsigned long why_##number;
extern struct counts {
    COUNTED(FIELD)
    REASONS(WHY)
} count;

void fail(const char *what);

/* FreeType's index of the glyph that a code is shown by, or 0. */
FT_UInt shown_index(const struct font *f, uint32_t code, thk_mode mode);

/* Whether the code is a character, and none at which a text breaks. */
bool in_texts(uint32_t code);

/* ---- pages.c */

enum { DIGEST = 1469598103 }; /* of nothing */

/* The digest of what was digested before and of these bytes. */
uint64_t digest(uint64_t before, const void *bytes, size_t len);

struct page {
    size_t lines, stride;
    uint32_t *pixels;
};

/* Counts a difference: whether it is one to print. */
bool shown(void);

/* Whether two numbers are the same; `what` says which they are, as printf's first argument. */
__attribute__((format(printf, 4, 5)))
bool same(const struct font *f, long long ours, long long peers, const char *what, ...);

struct page blank(size_t lines, size_t stride);

/* The page as the library takes it: drawn on from its first pixel on, at scale 1, in colour SET, without wrapping. */
thk_page drawable(struct page p);

/* Colours FreeType's bitmap on a page, but for columns from `cut` on. */
void put(struct page p, const FT_Bitmap *of, size_t top, size_t left, size_t cut);

/* Whether FreeType's bitmap has this bit set; the column may lie past its box. */
bool bit(const FT_Bitmap *of, size_t row, size_t column);

/* Whether FreeType's bitmap has a set bit in its rows before the column `cut`, which may lie past its box. */
bool any_set(const FT_Bitmap *of, size_t cut);

/* Whether the pages are the same but for their columns from `past` up to `end`; gives back the first. */
bool same_pages(const struct font *f, struct page ours, struct page peers, size_t past, size_t end, const char *what,
                long number);

/* ---- tables.c */

void accelerators(const struct font *f);
void property(const struct font *f, uint32_t number);
void bounds(const struct font *f);
void vetting(const struct font *f);

/* Lines of a code, a space and the name of its glyph. */
void names(const struct font *f, char *lines);

/* ---- strict.c */

/* Four bytes as a number, the least significant first. */
uint32_t word(const uint8_t *at);

/* Counts a font that loads strictly with the record that loading gave. */
void strict_loading(const struct font *f);

/* Counts the known tables over which the font is refused if one bit of the table's own format is changed. */
void two_formats(const struct font *f);

/* ---- codes.c */

/* Bounds of the codes' second and first byte, the default code and the entries. */
struct code_table {
    uint32_t low2, high2, low1, high1, default_code; /* as they follow each other in the table */
    const uint8_t *entries;
    bool big;
};

/* The last one of a font, which serves. */
struct code_table code_table(const struct font *f);

/* The reason why a code has no entry, or 0 where it has one. */
uint32_t outside(const struct code_table *t, uint32_t code);

/* The glyph of a code's own, or NO_GLYPH. */
uint32_t entry_of(const struct code_table *t, uint32_t code);

/* ---- glyphs.c */

/* The glyph in FreeType, under this index. */
FT_GlyphSlot loaded(const struct font *f, FT_UInt index);

/* 13 where the library draws nothing of the font, else 0. */
uint32_t bit_order(const struct font *f);

/* The metrics and the bitmap of a glyph, which FreeType has under the index. */
void glyph(struct font *f, thk_glyph_index number, FT_UInt index);

/* The glyph that FreeType puts before all others: the default code's; if the table does not reach to that code, its
 * first one's; if there is none, the first. */
thk_glyph_index copied(const struct font *f);

/* ---- characters.c */

size_t larger(size_t a, size_t b);

/* How many bytes a row takes in the bitmap data. */
size_t row_bytes(const struct font *f, size_t width);

/* The number with which vetting refuses the code's glyph, or 0. In fonts that FreeType reads each glyph has metrics and
 * a bitmap; names are compared elsewhere. */
uint32_t fault(const struct font *f, FT_GlyphSlot slot, size_t glyph);

/* A character placed, drawn and unpacked, where the rows of FreeType's bitmap and of the library's are the same bytes.
 * Whether it may stand in a text: is drawn, and as wide as its box. */
bool character(struct font *f, uint32_t code);

/* Whether a character that may stand in a text is drawn as FreeType's glyph of this place. */
bool drawn_as(const struct font *f, uint32_t code, thk_mode mode, thk_glyph_info info);

/* ---- reasons.c */

/* Counts why each code is drawn or not. */
void reasons(const struct font *f);

/* ---- defaults.c */

/* Every code's glyph in default mode; characters and texts of codes that have none of their own. */
void defaults(const struct font *f);

/* ---- dumps.c */

/* Prints of a vetted font a digest of all that a dump has of it, and the one of FreeType's bitmaps. */
void dump(const struct font *f);

/* ---- texts.c */

/* The codes as one line, their bitmaps laid side by side by FreeType's advances. Each is as wide as its box and has a
 * left bearing of at least 0, so that the bitmaps end before their pens' sum. A code without a glyph is skipped. */
void text(const struct font *f, const uint32_t *codes, size_t n, thk_mode mode);

#endif
