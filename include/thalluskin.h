/*
 * Thalluskin: reads PCF bitmap fonts and draws text into a buffer of pixels.
 *
 *     cc program.c -I include target/staticlib/libthalluskin.a
 *
 * `./thalluskin build x86-64` makes the archive for x86-64 Linux, which needs SSE registers, memcpy and memset, and
 * nothing else; `./thalluskin build` makes it for Cortex-M, RISC-V, aarch64 and WebAssembly, and says what the linker
 * has to add there. It holds no state, allocates nothing and keeps no pointer, so that any number of threads may call
 * it. One header serves every processor that has its bytes in little-endian order and puts a uint64_t at a multiple of
 * 8, those of 32 bits too, where each font, text and buffer is under 2 GiB.
 *
 * A font is the bytes of its file, which stay the caller's, and the record that thk_load, thk_load_strict or thk_vet
 * gives for them; each call takes both. Every call has an answer for every font, record, text and number, a record that
 * was made up among them. What the caller has to see to, because no callee can:
 *
 *   - a pointer and its length are that many bytes or pixels that may be read, and for a buffer also written; where
 *     the length is 0 nothing is read there, and the pointer may be NULL; a pointer to a record, a page or cells is
 *     not NULL;
 *   - a buffer of pixels stands at an address that is a multiple of 4;
 *   - a buffer overlaps neither the font's bytes nor the text nor the record, and nobody else writes to any of them
 *     during the call;
 *   - a bool in a record is 0 or 1, as C makes it;
 *   - the stack has room. On x86-64 a call takes at most, in bytes, with its return address and what it stores below
 *     the stack's pointer, as Linux programs may, and without memcpy and memset:
 *
 *         thk_vet 3,200; thk_load 2,100; thk_load_strict 2,100
 *         thk_draw_string 1,300; thk_text_check 1,300; thk_why 700
 *         thk_draw_char 800; thk_draw_bitmap 800; thk_draw_glyph 700; thk_unpack_glyph 400
 *         thk_prep_char 600; thk_metrics 300; thk_property 300; each of the others 100
 *
 *     and its caller some 500 for the answer and for copies of the record and of a page's numbers. The page
 *     that `./thalluskin build` leaves beside an archive for another processor has its figures.
 *
 * The archive has no tables to unwind its frames by, or on Arm such as say so: it throws nothing and calls nothing of
 * its caller's, so that no exception passes through it. A debugger that stops inside it may not see who called.
 *
 * Every answer but the version begins with `refusal`, 0 or the number of the reason why there is no result, and
 * `place`, which says where: for THK_BAD_OFFSET, THK_BAD_TABLE, THK_CODE_BOUNDS and THK_TWO_FORMATS in loading, and so
 * in vetting too, the directory entry from 0; else in vetting the property or the code; in a text the byte where the
 * refusing character starts; for THK_BAD_TEXT the first byte at which no character starts, or 0 where the text is too
 * long; otherwise 0. Where `refusal` is not 0 every other value of the answer is 0 and buffers are as they were; where
 * it is 0, so is `place`. thk_refusal_words says a number in words. Places and lengths have 64 bits on every processor,
 * so that printf takes them by PRIu64.
 *
 * The refusals are listed with each function in the order in which they are tested.
 */
#ifndef THALLUSKIN_H
#define THALLUSKIN_H

#include <stdbool.h>
#include <stddef.h>
#include <stdint.h>

#ifdef __cplusplus
extern "C" {
#endif

/* The version of this header, 0.1.0: 10,000 times the first number, 100 times the second, and the third. From
 * the first release on it changes where a struct or a function does; thk_version answers that of the archive, which has
 * to be the same. */
#define THK_VERSION 100

enum {
    THK_DONE = 0,          /* not refused */
    THK_FILE_SHORT = 1,    /* file under 8 bytes */
    THK_NOT_PCF = 2,       /* first four bytes not 01 66 63 70 */
    THK_MANY_ENTRIES = 3,  /* over 64 directory entries */
    THK_BAD_DIRECTORY = 4, /* directory runs past the file */
    THK_BAD_OFFSET = 5,    /* an entry's offset exceeds the file length (unknown types too) */
    THK_BAD_TABLE = 6,     /* a known table's contents run past its bytes; or, in calls, a record with a region outside
                              the bytes given, a code minimum above its maximum, a code region without room for all its
                              entries, or a row pad other than 1, 2, 4, 8 */
    THK_CODE_BOUNDS = 7,   /* code table with a minimum above its maximum */
    THK_NO_TABLE = 8,      /* a table is missing */
    THK_NO_GLYPH = 9,      /* no glyph for this code */
    THK_NO_METRICS = 10,   /* glyph at or above the metrics count */
    THK_BAD_METRICS = 11,  /* metrics out of range */
    THK_NO_BITMAP = 12,    /* glyph at or above the bitmap count */
    THK_BIT_ORDER = 13,    /* scan unit code 3, or a scan unit wider than the row pad */
    THK_BITMAP_SHORT = 14, /* a needed bitmap byte lies beyond the bitmap data */
    THK_BAD_ARGUMENT = 15, /* an argument other than the text outside its limits */
    THK_BUFFER_SHORT = 16, /* a pixel to colour lies beyond the buffer */
    THK_NO_NAME = 17,      /* glyph at or above the names count, or property number too high */
    THK_BAD_STRING = 18,   /* string offset beyond the string data, or no zero byte at or after it */
    THK_BAD_TEXT = 19,     /* text too long or not UTF-8 */
                           /* 20 is of the dump program alone, and 21 to 26 are not in use */
    THK_TWO_FORMATS = 27   /* a known table's format differs from its directory entry's */
};

/* Why a character is on the page or not: what thk_why names, in the order in which it looks. A reason that is a refusal
 * has its number, and the others have numbers that no refusal has, so that 0, which stands beside a refusal, is no
 * reason. */
enum {
    THK_WHY_ABOVE_CODES = 31,  /* code above 65,535 */
    THK_WHY_FIRST_BYTE = 32,   /* the code's first byte is outside its bounds */
    THK_WHY_SECOND_BYTE = 33,  /* its second byte is, or the whole code */
    THK_WHY_EMPTY_ENTRY = 34,  /* the code's entry is empty */
    THK_WHY_NO_METRICS = 10,   /* as THK_NO_METRICS, and so the next five */
    THK_WHY_BAD_METRICS = 11,
    THK_WHY_NO_BITMAP = 12,
    THK_WHY_BIT_ORDER = 13,
    THK_WHY_BITMAP_SHORT = 14,
    THK_WHY_BUFFER_SHORT = 16,
    THK_WHY_ROWS_CUT = 35,     /* the page's end cut rows */
    THK_WHY_BLANK = 36,        /* all rows are drawn, and no bit is set */
    THK_WHY_DRAWN = 37         /* all rows are drawn, with something to see */
};

/* The limits of what calls take; 15 refuses a number past them, and 19 a longer text. */
#define THK_MAX_STRIDE UINT64_C(65535) /* and at least 1 */
#define THK_MAX_SCALE UINT64_C(64) /* and at least 1 */
#define THK_MAX_START UINT64_C(2147483647)
#define THK_MAX_BOX UINT64_C(32767) /* a given width, height or pad */
#define THK_MAX_TEXT UINT64_C(65535) /* bytes */

/* For `wrap`: lines end at newlines alone. */
#define THK_NO_WRAP UINT64_MAX

/* How a call looks codes up: THK_PLAIN, or bits that are or-ed, of which there is one so far. 15 refuses a number with
 * any other bit. */
typedef uint32_t thk_mode;

/* Each code is looked up as it is: one without a glyph is refused 9, and texts skip it. */
#define THK_PLAIN 0

/* A code without a glyph, one above 65,535 too, has that of the font's default code, if that code has one of its own.
 * In texts a carriage return and a newline are no such codes: they are never looked up. */
#define THK_DEFAULT 1

/* A character's code and a glyph's number in its font: two types, so that neither is taken for the other. */
typedef struct {
    uint32_t value;
} thk_char_code;

typedef struct {
    uint16_t value;
} thk_glyph_index;

/* ---- The record: what loading keeps of a font's six tables. Places count from the start of the font's bytes, and
 * `big` says that a table's numbers have the most significant byte first. Programs have no need to look inside. */

/* `count` records of 9 bytes from `records` on; string data of `size` bytes from `strings` on. */
typedef struct {
    bool big;
    uint32_t count;
    uint64_t records;
    uint64_t strings;
    uint64_t size;
} thk_props_data;

/* A glyph's metrics, or the bounds of all glyphs, in pixels. */
typedef struct {
    int16_t left;
    int16_t right;
    int16_t width;
    int16_t ascent;
    int16_t descent;
    uint16_t attributes;
} thk_measures;

/* The accelerator table as its file has it. Of this drawing looks at `maxbounds` alone. */
typedef struct {
    uint32_t format;
    uint8_t no_overlap;
    uint8_t constant_metrics;
    uint8_t terminal_font;
    uint8_t constant_width;
    uint8_t ink_inside;
    uint8_t ink_metrics;
    uint8_t draw_direction;
    uint8_t padding;
    int32_t font_ascent;
    int32_t font_descent;
    int32_t max_overlap;
    thk_measures minbounds;
    thk_measures maxbounds;
} thk_accelerators;

/* `count` records of 5 bytes (compressed) or 12 from `records` on. */
typedef struct {
    bool big;
    bool compressed;
    uint32_t count;
    uint64_t records;
} thk_metrics_data;

/* `count` offsets from `offsets` on, into bitmap data of `size` bytes from `bits` on. A row is padded to a multiple of
 * `pad` bytes. `unit` is the format's scan unit code, 0, 1, 2 for units of 1, 2, 4 bytes; `top` is whether a unit's top
 * bit is its leftmost, else its lowest is. */
typedef struct {
    bool big;
    uint32_t count;
    uint64_t offsets;
    uint64_t bits;
    uint64_t size;
    uint8_t pad;
    uint8_t unit;
    bool top;
} thk_bitmap_data;

/* The bounds of a code's second and first byte, the default code, and the entries: `size` bytes from `entries` on. */
typedef struct {
    bool big;
    uint16_t low2;
    uint16_t high2;
    uint16_t low1;
    uint16_t high1;
    uint16_t default_code;
    uint64_t entries;
    uint64_t size;
} thk_code_data;

/* `count` offsets from `offsets` on, into string data of `size` bytes from `strings` on. */
typedef struct {
    bool big;
    uint32_t count;
    uint64_t offsets;
    uint64_t strings;
    uint64_t size;
} thk_name_data;

typedef struct {
    thk_props_data props;
    thk_accelerators accel;
    thk_metrics_data metrics;
    thk_bitmap_data bitmaps;
    thk_code_data codes;
    thk_name_data names;
} thk_record;

/* ---- What calls take. */

/* A page to draw on, and how: `len` pixels in lines of `stride`; where drawing begins; how large a bit is drawn; where
 * lines of a text wrap; the colour; the mode. Begin with thk_page_of, which sets every field. In a struct that is set
 * by hand what is left out is 0: a stride or scale of 0 is refused (15), but with a `wrap` of 0 every letter begins a
 * new line, and colour 0 may be that of the page. */
typedef struct {
    uint32_t *pixels;
    uint64_t len;
    uint64_t start;
    uint64_t stride;
    uint64_t scale;
    uint64_t wrap;
    uint32_t colour;
    thk_mode mode;
} thk_page;

/* A buffer of `len` bytes to unpack into, one for each bit, in lines of `stride`. thk_cells_of gives one. */
typedef struct {
    uint8_t *bytes;
    uint64_t len;
    uint64_t start;
    uint64_t stride;
    thk_mode mode;
} thk_cells;

/* A glyph's bitmap, and how much of it: `width` by `height`. */
typedef struct {
    thk_glyph_index glyph;
    uint64_t width;
    uint64_t height;
} thk_bitmap;

/* A page's numbers, as they go into the archive. Programs have no need of it. */
typedef struct {
    uint64_t start;
    uint64_t stride;
    uint64_t scale;
    uint64_t wrap;
    uint32_t colour;
    thk_mode mode;
} thk_page_numbers;

/* ---- What answers hold. */

/* A part of the font's bytes: `len` of them from `start` on. */
typedef struct {
    uint64_t start;
    uint64_t len;
} thk_span;

/* The height and width of the font's maximum bounds, in pixels. */
typedef struct {
    uint64_t height;
    uint64_t width;
} thk_extent;

/* A placed glyph: its bitmap is `width` wide and `height` high, and stands `pad_top` below the line's top and
 * `pad_left` right of the pen, all in the font's own pixels, before `scale`. */
typedef struct {
    thk_glyph_index glyph;
    uint16_t width;
    uint16_t height;
    uint16_t pad_top;
    uint16_t pad_left;
} thk_glyph_info;

/* The code that has the glyph: the one asked for, or, where `is_default`, the font's default code in its place. A code
 * with a glyph of its own is never default, even if it is the default code. */
typedef struct {
    thk_char_code code;
    bool is_default;
} thk_supplier;

/* How many rows of a glyph's bitmap were drawn, and how many were dropped because the buffer ends. */
typedef struct {
    uint16_t drawn;
    uint16_t dropped;
} thk_rows;

/* A reason, one of THK_WHY_.., and for THK_WHY_ROWS_CUT how many rows were cut, else 0. */
typedef struct {
    uint32_t number;
    uint16_t cut;
} thk_reason;

/* The height that a text takes, in pixels, and how many rows of all its glyphs were dropped. */
typedef struct {
    uint64_t height;
    uint64_t dropped;
} thk_text_rows;

/* ---- Answers. */

typedef struct {
    uint32_t refusal;
    uint64_t place;
    thk_record rec;
} thk_font_answer;

/* Where the name stands in the font's bytes, and the value: where `is_string`, the bytes at `string`, and `number` is
 * 0; else `number`, and `string` is 0 and 0. */
typedef struct {
    uint32_t refusal;
    uint64_t place;
    thk_span name;
    bool is_string;
    uint32_t number;
    thk_span string;
} thk_property_answer;

typedef struct {
    uint32_t refusal;
    uint64_t place;
    thk_glyph_index glyph;
    thk_supplier by;
} thk_glyph_answer;

typedef struct {
    uint32_t refusal;
    uint64_t place;
    thk_span name;
} thk_name_answer;

typedef struct {
    uint32_t refusal;
    uint64_t place;
    thk_measures metrics;
} thk_metrics_answer;

typedef struct {
    uint32_t refusal;
    uint64_t place;
    thk_accelerators accel;
} thk_accel_answer;

typedef struct {
    uint32_t refusal;
    uint64_t place;
    thk_extent extent;
} thk_extent_answer;

typedef struct {
    uint32_t refusal;
    uint64_t place;
    thk_glyph_info info;
    thk_supplier by;
} thk_info_answer;

typedef struct {
    uint32_t refusal;
    uint64_t place;
    thk_rows rows;
} thk_rows_answer;

typedef struct {
    uint32_t refusal;
    uint64_t place;
    thk_glyph_info info;
    thk_rows rows;
    thk_supplier by;
} thk_char_answer;

/* Where there is no glyph to speak of, `by` is the code asked for, of which the reason speaks then. */
typedef struct {
    uint32_t refusal;
    uint64_t place;
    thk_reason reason;
    thk_supplier by;
} thk_why_answer;

typedef struct {
    uint32_t refusal;
    uint64_t place;
    uint16_t rows;
} thk_unpack_answer;

typedef struct {
    uint32_t refusal;
    uint64_t place;
    thk_text_rows rows;
} thk_text_answer;

/* `found` says whether there is a character; then it is `code`, and the next one starts at byte `next`. At the text's
 * end all three are 0. */
typedef struct {
    uint32_t refusal;
    uint64_t place;
    bool found;
    thk_char_code code;
    uint64_t next;
} thk_step_answer;

/* ---- The archive's own functions, which the ones below call. On x86-64 a struct goes by value, and the archive of the
 * kit has these alone. Elsewhere, and where THK_LENT is defined, the answer goes where the first argument
 * points, and a struct is lent by a pointer: how a struct goes by value is each processor's own affair. Programs have
 * no need of them. */
#if defined(__BYTE_ORDER__) && __BYTE_ORDER__ != __ORDER_LITTLE_ENDIAN__
#error "thalluskin is for processors with little-endian byte order"
#endif

#if defined(__x86_64__) && !defined(__ILP32__) && !defined(_WIN32) && !defined(THK_LENT)
#define THK_DECLARE(answer, name, ...) answer thalluskin_##name(__VA_ARGS__)
#define THK_ANSWER(answer, name, ...) return thalluskin_##name(__VA_ARGS__)
#define THK_STRUCT(type) type
#define THK_GIVE(pointer) *(pointer)
#else
#define THK_DECLARE(answer, name, ...) void thalluskin_lent_##name(answer *to, __VA_ARGS__)
#define THK_ANSWER(answer, name, ...)              \
    answer given;                                  \
    thalluskin_lent_##name(&given, __VA_ARGS__);   \
    return given
#define THK_STRUCT(type) const type *
#define THK_GIVE(pointer) (pointer)
#endif

uint32_t thalluskin_version(void);
THK_DECLARE(thk_font_answer, load, const uint8_t *bytes, uint64_t bytes_len);
THK_DECLARE(thk_font_answer, load_strict, const uint8_t *bytes, uint64_t bytes_len);
THK_DECLARE(thk_font_answer, vet, const uint8_t *bytes, uint64_t bytes_len, thk_mode mode);
THK_DECLARE(thk_property_answer, property, const uint8_t *bytes, uint64_t bytes_len, THK_STRUCT(thk_record) rec,
            uint32_t number);
THK_DECLARE(thk_glyph_answer, glyph, const uint8_t *bytes, uint64_t bytes_len, THK_STRUCT(thk_record) rec,
            THK_STRUCT(thk_char_code) code, thk_mode mode);
THK_DECLARE(thk_name_answer, name, const uint8_t *bytes, uint64_t bytes_len, THK_STRUCT(thk_record) rec,
            THK_STRUCT(thk_glyph_index) glyph);
THK_DECLARE(thk_metrics_answer, metrics, const uint8_t *bytes, uint64_t bytes_len, THK_STRUCT(thk_record) rec,
            THK_STRUCT(thk_glyph_index) glyph);
THK_DECLARE(thk_accel_answer, accel, const uint8_t *bytes, uint64_t bytes_len, THK_STRUCT(thk_record) rec);
THK_DECLARE(thk_extent_answer, dimensions, const uint8_t *bytes, uint64_t bytes_len, THK_STRUCT(thk_record) rec);
THK_DECLARE(thk_info_answer, prep_char, const uint8_t *bytes, uint64_t bytes_len, THK_STRUCT(thk_record) rec,
            THK_STRUCT(thk_char_code) code, thk_mode mode);
THK_DECLARE(thk_rows_answer, draw_bitmap, const uint8_t *bytes, uint64_t bytes_len, THK_STRUCT(thk_record) rec,
            THK_STRUCT(thk_bitmap) bitmap, uint32_t *buf, uint64_t buf_len, THK_STRUCT(thk_page_numbers) page);
THK_DECLARE(thk_rows_answer, draw_glyph, const uint8_t *bytes, uint64_t bytes_len, THK_STRUCT(thk_record) rec,
            THK_STRUCT(thk_glyph_info) info, uint32_t *buf, uint64_t buf_len, THK_STRUCT(thk_page_numbers) page);
THK_DECLARE(thk_char_answer, draw_char, const uint8_t *bytes, uint64_t bytes_len, THK_STRUCT(thk_record) rec,
            THK_STRUCT(thk_char_code) code, uint32_t *buf, uint64_t buf_len, THK_STRUCT(thk_page_numbers) page);
THK_DECLARE(thk_why_answer, why, const uint8_t *bytes, uint64_t bytes_len, THK_STRUCT(thk_record) rec,
            THK_STRUCT(thk_char_code) code, uint64_t len, THK_STRUCT(thk_page_numbers) page);
THK_DECLARE(thk_unpack_answer, unpack_glyph, const uint8_t *bytes, uint64_t bytes_len, THK_STRUCT(thk_record) rec,
            THK_STRUCT(thk_glyph_info) info, uint8_t *buf, uint64_t buf_len, THK_STRUCT(thk_page_numbers) page);
THK_DECLARE(thk_text_answer, draw_string, const uint8_t *bytes, uint64_t bytes_len, THK_STRUCT(thk_record) rec,
            const uint8_t *text, uint64_t text_len, uint32_t *buf, uint64_t buf_len,
            THK_STRUCT(thk_page_numbers) page);
THK_DECLARE(thk_text_answer, text_check, const uint8_t *bytes, uint64_t bytes_len, THK_STRUCT(thk_record) rec,
            const uint8_t *text, uint64_t text_len, uint64_t len, THK_STRUCT(thk_page_numbers) page);
THK_DECLARE(thk_step_answer, utf8_step, const uint8_t *text, uint64_t text_len, uint64_t i);

/* ---- A font. */

/* The version of the archive, which has to be THK_VERSION. */
static inline uint32_t thk_version(void)
{
    return thalluskin_version();
}

/* What a refusal's number means, in English. */
static inline const char *thk_refusal_words(uint32_t number)
{
    switch (number) {
    case THK_DONE:
        return "not refused";
    case THK_FILE_SHORT:
        return "file under 8 bytes";
    case THK_NOT_PCF:
        return "first four bytes not 01 66 63 70";
    case THK_MANY_ENTRIES:
        return "over 64 directory entries";
    case THK_BAD_DIRECTORY:
        return "directory runs past the file";
    case THK_BAD_OFFSET:
        return "an entry's offset exceeds the file length";
    case THK_BAD_TABLE:
        return "a known table's contents run past its bytes; in calls, a record that does not fit the font's bytes";
    case THK_CODE_BOUNDS:
        return "code table with a minimum above its maximum";
    case THK_NO_TABLE:
        return "a table is missing";
    case THK_NO_GLYPH:
        return "no glyph for this code";
    case THK_NO_METRICS:
        return "glyph at or above the metrics count";
    case THK_BAD_METRICS:
        return "metrics out of range";
    case THK_NO_BITMAP:
        return "glyph at or above the bitmap count";
    case THK_BIT_ORDER:
        return "scan unit code 3, or a scan unit wider than the row pad";
    case THK_BITMAP_SHORT:
        return "a needed bitmap byte lies beyond the bitmap data";
    case THK_BAD_ARGUMENT:
        return "an argument other than the text outside its limits";
    case THK_BUFFER_SHORT:
        return "a pixel to colour lies beyond the buffer";
    case THK_NO_NAME:
        return "glyph at or above the names count, or property number too high";
    case THK_BAD_STRING:
        return "string offset beyond the string data, or no zero byte at or after it";
    case THK_BAD_TEXT:
        return "text too long or not UTF-8";
    case THK_TWO_FORMATS:
        return "a known table's format differs from its directory entry's";
    default:
        return "an unknown reason";
    }
}

/* What a reason's number means, in English. */
static inline const char *thk_reason_words(uint32_t number)
{
    switch (number) {
    case THK_WHY_ABOVE_CODES:
        return "code above 65,535";
    case THK_WHY_FIRST_BYTE:
        return "the code's first byte is outside its bounds";
    case THK_WHY_SECOND_BYTE:
        return "the code's second byte, or the whole code, is outside its bounds";
    case THK_WHY_EMPTY_ENTRY:
        return "the code's entry is empty";
    case THK_WHY_NO_METRICS:
        return "glyph at or above the metrics count";
    case THK_WHY_BAD_METRICS:
        return "metrics out of range";
    case THK_WHY_NO_BITMAP:
        return "glyph at or above the bitmap count";
    case THK_WHY_BIT_ORDER:
        return "scan unit code 3, or a scan unit wider than the row pad";
    case THK_WHY_BITMAP_SHORT:
        return "a needed bitmap byte lies beyond the bitmap data";
    case THK_WHY_BUFFER_SHORT:
        return "a pixel to colour lies beyond the buffer";
    case THK_WHY_ROWS_CUT:
        return "rows cut at the buffer's end";
    case THK_WHY_BLANK:
        return "drawn, and no bit is set";
    case THK_WHY_DRAWN:
        return "drawn";
    default:
        return "an unknown reason";
    }
}

/* The record of a font file. A table's format stands in its directory entry and once more in its own first four bytes.
 * Where the two differ the table's own counts, and of metrics the directory's. Refused 1, 2, 3, 4; entry by entry 5, 6
 * (in a code table 6 for its header, 7, 6 for its entries); 8. */
static inline thk_font_answer thk_load(const uint8_t *font, uint64_t font_len)
{
    THK_ANSWER(thk_font_answer, load, font, font_len);
}

/* The same record, of a font in which the two formats of each known table, one of type 1, 2, 4, 8, 32, 128 or 256, have
 * every bit alike. Where they differ, one of them is wrong, and nothing tells which: such a font is refused. Refused 1,
 * 2, 3, 4; entry by entry 5, 6 for the table's first four bytes, 27, 6 for the rest (in a code table 6 for its header,
 * 7, 6 for its entries); 8. */
static inline thk_font_answer thk_load_strict(const uint8_t *font, uint64_t font_len)
{
    THK_ANSWER(thk_font_answer, load_strict, font, font_len);
}

/* The record of a font that loads strictly and of which no code's glyph is ever refused for the font's sake: in such a
 * font a text is refused only for itself (19), for another argument (15), or because a pixel to colour lies beyond the
 * buffer (16). That holds of texts in every mode, and the answer is the same in each: a glyph that stands in for
 * another is vetted as its own code's. A font that thk_load takes and that is refused 27 here is to be made anew from
 * its source, as by bdftopcf; until then the record of thk_load serves every call, without that promise.
 *
 * Two causes can share a number and a place. 11 at 0 is of the bounds if thk_dimensions, with the record that thk_load
 * gives, is refused 11; else of the glyph of code 0. 18 at n is of property n if thk_property is refused 18 for it;
 * else of the name of code n's glyph.
 *
 * Refused 15 for an unknown mode; as thk_load_strict; 13; 11 of the bounds; 18 of a property; code by code 10, 11, 12,
 * 14, 17, 18. */
static inline thk_font_answer thk_vet(const uint8_t *font, uint64_t font_len, thk_mode mode)
{
    THK_ANSWER(thk_font_answer, vet, font, font_len, mode);
}

/* The property with this number, from 0. Refused 6, 17, 18. */
static inline thk_property_answer thk_property(const uint8_t *font, uint64_t font_len, const thk_record *rec,
                                               uint32_t number)
{
    THK_ANSWER(thk_property_answer, property, font, font_len, THK_GIVE(rec), number);
}

/* The glyph of a code, and the code that supplied it. Refused 6, 15 for an unknown mode, 9. */
static inline thk_glyph_answer thk_glyph(const uint8_t *font, uint64_t font_len, const thk_record *rec,
                                         thk_char_code code, thk_mode mode)
{
    THK_ANSWER(thk_glyph_answer, glyph, font, font_len, THK_GIVE(rec), THK_GIVE(&code), mode);
}

/* Where a glyph's name stands in the font's bytes, its zero byte not counted. Refused 6, 17, 18. */
static inline thk_name_answer thk_name(const uint8_t *font, uint64_t font_len, const thk_record *rec,
                                       thk_glyph_index glyph)
{
    THK_ANSWER(thk_name_answer, name, font, font_len, THK_GIVE(rec), THK_GIVE(&glyph));
}

/* A glyph's metrics. Refused 6, 10. */
static inline thk_metrics_answer thk_metrics(const uint8_t *font, uint64_t font_len, const thk_record *rec,
                                             thk_glyph_index glyph)
{
    THK_ANSWER(thk_metrics_answer, metrics, font, font_len, THK_GIVE(rec), THK_GIVE(&glyph));
}

/* The accelerators: what the font says of all its glyphs together. The baseline of a line lies `maxbounds.ascent` rows
 * below the line's top, before `scale`; `font_ascent` and `font_descent` are the rows above and below it that the font
 * asks for as a line. Refused 6. */
static inline thk_accel_answer thk_accel(const uint8_t *font, uint64_t font_len, const thk_record *rec)
{
    THK_ANSWER(thk_accel_answer, accel, font, font_len, THK_GIVE(rec));
}

/* The height and width of the font's maximum bounds, as its file states them. A glyph may be wider or reach lower, and
 * a text's lines have this height all the same; that a text fits a page is said by thk_text_check, whose `dropped` is 0
 * then. 11 is for an ascent or width below 0, or a height, which is ascent and descent together, outside 0 to 32,767.
 * Refused 6, 11. */
static inline thk_extent_answer thk_dimensions(const uint8_t *font, uint64_t font_len, const thk_record *rec)
{
    THK_ANSWER(thk_extent_answer, dimensions, font, font_len, THK_GIVE(rec));
}

/* A character's glyph, placed, and the code that supplied it. 11 is for a width, ascent or left bearing below 0, a
 * height, which is ascent and descent together, outside 0 to 32,767, or an ascent above that of the maximum bounds.
 * Refused 6, 15 for an unknown mode, 9, 10, 11. */
static inline thk_info_answer thk_prep_char(const uint8_t *font, uint64_t font_len, const thk_record *rec,
                                            thk_char_code code, thk_mode mode)
{
    THK_ANSWER(thk_info_answer, prep_char, font, font_len, THK_GIVE(rec), THK_GIVE(&code), mode);
}

/* ---- Drawing. A page holds lines of `stride` pixels. Each set bit colours a square of `scale` by `scale` pixels; all
 * others keep their values. Nothing stops a glyph at its line's right end.
 *
 * A bitmap's first pixel p is `start` in thk_draw_bitmap. For a placed glyph `start` is the pen at the top of the line,
 * and the pads are added:
 *
 *     p = start + stride * scale * pad_top + scale * pad_left
 *     m = (len - p) / stride, or 0 where p lies beyond the page
 *     rows drawn = the smaller of height and m / scale * scale
 *
 * with divisions that round down; the other rows are dropped. m counts strides from p and not lines of the page: at
 * scale 1, on a page that ends with a glyph's last line, only a bitmap that begins at the left end keeps that row. A
 * page with one line more avoids it. A drawn row can still have a pixel to colour beyond the page, at a scale above 1
 * or in a bitmap wider than `stride`; then the call is refused (16).
 *
 * 15 refuses a start, stride, scale, width, height or pad outside its limits, and an unknown mode. Where a glyph is
 * given and no code, the known modes are alike. A glyph is without a bitmap if its number is at or above the bitmap
 * count (12). */

/* A page of `len` pixels in lines of `stride`, from its first pixel on, at scale 1, in colour 1, without wrapping, in
 * mode THK_PLAIN; a program changes what it wants otherwise. */
static inline thk_page thk_page_of(uint32_t *pixels, uint64_t len, uint64_t stride)
{
    thk_page page;
    page.pixels = pixels;
    page.len = len;
    page.start = 0;
    page.stride = stride;
    page.scale = 1;
    page.wrap = THK_NO_WRAP;
    page.colour = 1;
    page.mode = THK_PLAIN;
    return page;
}

/* Bytes in lines of `stride`, from the first on, in mode THK_PLAIN. */
static inline thk_cells thk_cells_of(uint8_t *bytes, uint64_t len, uint64_t stride)
{
    thk_cells cells;
    cells.bytes = bytes;
    cells.len = len;
    cells.start = 0;
    cells.stride = stride;
    cells.mode = THK_PLAIN;
    return cells;
}

/* A page's numbers, each under its own name, as they go into the archive. Programs have no need of it. */
static inline thk_page_numbers thk_numbers_of(const thk_page *page)
{
    thk_page_numbers numbers;
    numbers.start = page->start;
    numbers.stride = page->stride;
    numbers.scale = page->scale;
    numbers.wrap = page->wrap;
    numbers.colour = page->colour;
    numbers.mode = page->mode;
    return numbers;
}

/* Draws a glyph's bitmap at `start`. Refused 6, 15, 12, 13, 14, 16. */
static inline thk_rows_answer thk_draw_bitmap(const uint8_t *font, uint64_t font_len, const thk_record *rec,
                                              thk_bitmap bitmap, const thk_page *page)
{
    thk_page_numbers numbers = thk_numbers_of(page);
    THK_ANSWER(thk_rows_answer, draw_bitmap, font, font_len, THK_GIVE(rec), THK_GIVE(&bitmap), page->pixels, page->len,
               THK_GIVE(&numbers));
}

/* Draws a placed glyph. One without a bitmap is no refusal: nothing is drawn, and both numbers of rows are 0. Refused
 * 6, 15, 13, 14, 16. */
static inline thk_rows_answer thk_draw_glyph(const uint8_t *font, uint64_t font_len, const thk_record *rec,
                                             thk_glyph_info info, const thk_page *page)
{
    thk_page_numbers numbers = thk_numbers_of(page);
    THK_ANSWER(thk_rows_answer, draw_glyph, font, font_len, THK_GIVE(rec), THK_GIVE(&info), page->pixels, page->len,
               THK_GIVE(&numbers));
}

/* Draws a character, and answers its placed glyph too, and the code that supplied it. One whose glyph is without a
 * bitmap is no refusal: nothing is drawn, and both numbers of rows are 0. Refused 6, 15, 9, 10, 11, 13, 14, 16. */
static inline thk_char_answer thk_draw_char(const uint8_t *font, uint64_t font_len, const thk_record *rec,
                                            thk_char_code code, const thk_page *page)
{
    thk_page_numbers numbers = thk_numbers_of(page);
    THK_ANSWER(thk_char_answer, draw_char, font, font_len, THK_GIVE(rec), THK_GIVE(&code), page->pixels, page->len,
               THK_GIVE(&numbers));
}

/* Why thk_draw_char leaves a gap where a character should be, or does not: one reason, the first of these that is true
 * of the font, the code and the page. The page's pixels are not looked at and may be NULL.
 *
 *   THK_WHY_ABOVE_CODES    the code is above 65,535, and no font has a glyph for it
 *   THK_WHY_FIRST_BYTE     its first byte is outside the bounds that the code table has for first bytes, not both 0
 *   THK_WHY_SECOND_BYTE    its second byte is outside the bounds for second bytes; or, where those for first bytes are
 *                          both 0, the whole code is
 *   THK_WHY_EMPTY_ENTRY    the code table's entry for it is 65,535, which says that it has no glyph
 *   THK_WHY_NO_METRICS     its glyph's number is at or above the metrics count
 *   THK_WHY_BAD_METRICS    the glyph's metrics are out of range, as thk_prep_char refuses them
 *   THK_WHY_NO_BITMAP      its number is at or above the bitmap count; thk_draw_char draws nothing then and is not
 *                          refused
 *   THK_WHY_BIT_ORDER      the font's rows are in no order that can be read
 *   THK_WHY_BITMAP_SHORT   a byte that holds columns of a row to draw lies beyond the bitmap data
 *   THK_WHY_BUFFER_SHORT   a set bit of a row to draw has a pixel beyond the page
 *   THK_WHY_ROWS_CUT       the page's end cuts `cut` rows; those above them, if there are any, are drawn
 *   THK_WHY_BLANK          all rows are drawn, and none has a set bit, as those of a space
 *   THK_WHY_DRAWN          all rows are drawn, and there is a set bit
 *
 * The first four are of the code asked for, and given only where thk_draw_char is refused 9: in mode THK_DEFAULT where
 * the font's default code has no glyph either. The others are of the glyph that is drawn, which `by` supplied. Refused
 * 6, 15. */
static inline thk_why_answer thk_why(const uint8_t *font, uint64_t font_len, const thk_record *rec, thk_char_code code,
                                     const thk_page *page)
{
    thk_page_numbers numbers = thk_numbers_of(page);
    THK_ANSWER(thk_why_answer, why, font, font_len, THK_GIVE(rec), THK_GIVE(&code), page->len, THK_GIVE(&numbers));
}

/* Stores 1 for each set bit of every whole row byte of a placed glyph, columns past its width included, and answers how
 * many rows that were. The bit at row r and column c is stored at start + stride * pad_top + pad_left + r * stride + c,
 * and all other bytes keep their values, those of clear bits too. No row is dropped. A glyph without a bitmap is no
 * refusal: nothing is stored, and the rows are 0. Refused 6, 15, 13, 14, 16. */
static inline thk_unpack_answer thk_unpack_glyph(const uint8_t *font, uint64_t font_len, const thk_record *rec,
                                                 thk_glyph_info info, const thk_cells *cells)
{
    thk_page_numbers numbers = {0, 0, 0, 0, 0, 0}; /* scale, wrap and colour count for nothing here */
    numbers.start = cells->start;
    numbers.stride = cells->stride;
    numbers.mode = cells->mode;
    THK_ANSWER(thk_unpack_answer, unpack_glyph, font, font_len, THK_GIVE(rec), THK_GIVE(&info), cells->bytes,
               cells->len, THK_GIVE(&numbers));
}

/* ---- Texts, UTF-8 of at most 65,535 bytes. The pen begins at x = y = 0. A character is drawn as thk_draw_glyph draws
 * its glyph, with start + y * stride + x for `start`; then x grows by the glyph's width times `scale`. A newline sets x
 * to 0 and adds the line height to y, which is `scale` times the height that thk_dimensions answers.
 *
 * A glyph for which x plus its width times `scale` is `wrap` or more goes to a new line first, even at a line's
 * beginning, and by one line at most. So a letter that ends exactly at `wrap` wraps too: on a page 240 pixels wide
 * `wrap` is 241. Nothing stops a glyph at its line's right end.
 *
 * A carriage return and a code without a glyph are skipped; in mode THK_DEFAULT such a code is drawn by the glyph of
 * the font's default code, if that has one. A glyph without a bitmap is no refusal: it draws nothing and drops nothing,
 * but wraps and moves the pen as any other. The answer's height is y and one line height. */

/* Draws a text. With a font that was not vetted, 11 at 0 is of the bounds if thk_dimensions is refused 11, else of the
 * first character's glyph. Refused 6, 15, 19, 11 of the bounds; then the first character with a refusal decides: 10,
 * 11, 13, 14, 16. */
static inline thk_text_answer thk_draw_string(const uint8_t *font, uint64_t font_len, const thk_record *rec,
                                              const uint8_t *text, uint64_t text_len, const thk_page *page)
{
    thk_page_numbers numbers = thk_numbers_of(page);
    THK_ANSWER(thk_text_answer, draw_string, font, font_len, THK_GIVE(rec), text, text_len, page->pixels, page->len,
               THK_GIVE(&numbers));
}

/* What thk_draw_string answers: a dry run. The page's pixels are not looked at and may be NULL. Refused as that. */
static inline thk_text_answer thk_text_check(const uint8_t *font, uint64_t font_len, const thk_record *rec,
                                             const uint8_t *text, uint64_t text_len, const thk_page *page)
{
    thk_page_numbers numbers = thk_numbers_of(page);
    THK_ANSWER(thk_text_answer, text_check, font, font_len, THK_GIVE(rec), text, text_len, page->len,
               THK_GIVE(&numbers));
}

/* The character at byte `i`, and where the next one starts; at or past the text's end there is none, and `found` is 0.
 * The text may have any length here. Refused 19, with `i` as the place. */
static inline thk_step_answer thk_utf8_step(const uint8_t *text, uint64_t text_len, uint64_t i)
{
    THK_ANSWER(thk_step_answer, utf8_step, text, text_len, i);
}

#undef THK_DECLARE
#undef THK_ANSWER
#undef THK_STRUCT
#undef THK_GIVE

/* ---- The layout that the archive has. C99 has no assertions; there no array has -1 elements. */
#if defined(__cplusplus) && __cplusplus >= 201103L
#define THK_ASSERT(holds) static_assert(holds, "thalluskin: another layout than the archive's")
#elif !defined(__cplusplus) && defined(__STDC_VERSION__) && __STDC_VERSION__ >= 201112L
#define THK_ASSERT(holds) _Static_assert(holds, "thalluskin: another layout than the archive's")
#else
#define THK_ASSERT(holds) extern const char thk_another_layout_than_the_archive_s[(holds) ? 1 : -1]
#endif
#define THK_SIZE(type, bytes) THK_ASSERT(sizeof(type) == (bytes))
#define THK_AT(type, field, bytes) THK_ASSERT(offsetof(type, field) == (bytes))

THK_AT(thk_char_code, value, 0); THK_SIZE(thk_char_code, 4);
THK_AT(thk_glyph_index, value, 0); THK_SIZE(thk_glyph_index, 2);
THK_AT(thk_props_data, big, 0); THK_AT(thk_props_data, count, 4); THK_AT(thk_props_data, records, 8);
THK_AT(thk_props_data, strings, 16); THK_AT(thk_props_data, size, 24); THK_SIZE(thk_props_data, 32);
THK_AT(thk_measures, left, 0); THK_AT(thk_measures, right, 2); THK_AT(thk_measures, width, 4);
THK_AT(thk_measures, ascent, 6); THK_AT(thk_measures, descent, 8); THK_AT(thk_measures, attributes, 10);
THK_SIZE(thk_measures, 12);
THK_AT(thk_accelerators, format, 0); THK_AT(thk_accelerators, no_overlap, 4);
THK_AT(thk_accelerators, constant_metrics, 5); THK_AT(thk_accelerators, terminal_font, 6);
THK_AT(thk_accelerators, constant_width, 7); THK_AT(thk_accelerators, ink_inside, 8);
THK_AT(thk_accelerators, ink_metrics, 9); THK_AT(thk_accelerators, draw_direction, 10);
THK_AT(thk_accelerators, padding, 11); THK_AT(thk_accelerators, font_ascent, 12);
THK_AT(thk_accelerators, font_descent, 16); THK_AT(thk_accelerators, max_overlap, 20);
THK_AT(thk_accelerators, minbounds, 24); THK_AT(thk_accelerators, maxbounds, 36); THK_SIZE(thk_accelerators, 48);
THK_AT(thk_metrics_data, big, 0); THK_AT(thk_metrics_data, compressed, 1); THK_AT(thk_metrics_data, count, 4);
THK_AT(thk_metrics_data, records, 8); THK_SIZE(thk_metrics_data, 16);
THK_AT(thk_bitmap_data, big, 0); THK_AT(thk_bitmap_data, count, 4); THK_AT(thk_bitmap_data, offsets, 8);
THK_AT(thk_bitmap_data, bits, 16); THK_AT(thk_bitmap_data, size, 24); THK_AT(thk_bitmap_data, pad, 32);
THK_AT(thk_bitmap_data, unit, 33); THK_AT(thk_bitmap_data, top, 34); THK_SIZE(thk_bitmap_data, 40);
THK_AT(thk_code_data, big, 0); THK_AT(thk_code_data, low2, 2); THK_AT(thk_code_data, high2, 4);
THK_AT(thk_code_data, low1, 6); THK_AT(thk_code_data, high1, 8); THK_AT(thk_code_data, default_code, 10);
THK_AT(thk_code_data, entries, 16); THK_AT(thk_code_data, size, 24); THK_SIZE(thk_code_data, 32);
THK_AT(thk_name_data, big, 0); THK_AT(thk_name_data, count, 4); THK_AT(thk_name_data, offsets, 8);
THK_AT(thk_name_data, strings, 16); THK_AT(thk_name_data, size, 24); THK_SIZE(thk_name_data, 32);
THK_AT(thk_record, props, 0); THK_AT(thk_record, accel, 32); THK_AT(thk_record, metrics, 80);
THK_AT(thk_record, bitmaps, 96); THK_AT(thk_record, codes, 136); THK_AT(thk_record, names, 168);
THK_SIZE(thk_record, 200);
THK_AT(thk_span, start, 0); THK_AT(thk_span, len, 8); THK_SIZE(thk_span, 16);
THK_AT(thk_extent, height, 0); THK_AT(thk_extent, width, 8); THK_SIZE(thk_extent, 16);
THK_AT(thk_glyph_info, glyph, 0); THK_AT(thk_glyph_info, width, 2); THK_AT(thk_glyph_info, height, 4);
THK_AT(thk_glyph_info, pad_top, 6); THK_AT(thk_glyph_info, pad_left, 8); THK_SIZE(thk_glyph_info, 10);
THK_AT(thk_supplier, code, 0); THK_AT(thk_supplier, is_default, 4); THK_SIZE(thk_supplier, 8);
THK_AT(thk_rows, drawn, 0); THK_AT(thk_rows, dropped, 2); THK_SIZE(thk_rows, 4);
THK_AT(thk_reason, number, 0); THK_AT(thk_reason, cut, 4); THK_SIZE(thk_reason, 8);
THK_AT(thk_text_rows, height, 0); THK_AT(thk_text_rows, dropped, 8); THK_SIZE(thk_text_rows, 16);
THK_AT(thk_page_numbers, start, 0); THK_AT(thk_page_numbers, stride, 8); THK_AT(thk_page_numbers, scale, 16);
THK_AT(thk_page_numbers, wrap, 24); THK_AT(thk_page_numbers, colour, 32); THK_AT(thk_page_numbers, mode, 36);
THK_SIZE(thk_page_numbers, 40);
THK_AT(thk_bitmap, glyph, 0); THK_AT(thk_bitmap, width, 8); THK_AT(thk_bitmap, height, 16); THK_SIZE(thk_bitmap, 24);
THK_AT(thk_font_answer, refusal, 0); THK_AT(thk_font_answer, place, 8); THK_AT(thk_font_answer, rec, 16);
THK_SIZE(thk_font_answer, 216);
THK_AT(thk_property_answer, refusal, 0); THK_AT(thk_property_answer, place, 8); THK_AT(thk_property_answer, name, 16);
THK_AT(thk_property_answer, is_string, 32); THK_AT(thk_property_answer, number, 36);
THK_AT(thk_property_answer, string, 40); THK_SIZE(thk_property_answer, 56);
THK_AT(thk_glyph_answer, refusal, 0); THK_AT(thk_glyph_answer, place, 8); THK_AT(thk_glyph_answer, glyph, 16);
THK_AT(thk_glyph_answer, by, 20); THK_SIZE(thk_glyph_answer, 32);
THK_AT(thk_name_answer, refusal, 0); THK_AT(thk_name_answer, place, 8); THK_AT(thk_name_answer, name, 16);
THK_SIZE(thk_name_answer, 32);
THK_AT(thk_metrics_answer, refusal, 0); THK_AT(thk_metrics_answer, place, 8); THK_AT(thk_metrics_answer, metrics, 16);
THK_SIZE(thk_metrics_answer, 32);
THK_AT(thk_accel_answer, refusal, 0); THK_AT(thk_accel_answer, place, 8); THK_AT(thk_accel_answer, accel, 16);
THK_SIZE(thk_accel_answer, 64);
THK_AT(thk_extent_answer, refusal, 0); THK_AT(thk_extent_answer, place, 8); THK_AT(thk_extent_answer, extent, 16);
THK_SIZE(thk_extent_answer, 32);
THK_AT(thk_info_answer, refusal, 0); THK_AT(thk_info_answer, place, 8); THK_AT(thk_info_answer, info, 16);
THK_AT(thk_info_answer, by, 28); THK_SIZE(thk_info_answer, 40);
THK_AT(thk_rows_answer, refusal, 0); THK_AT(thk_rows_answer, place, 8); THK_AT(thk_rows_answer, rows, 16);
THK_SIZE(thk_rows_answer, 24);
THK_AT(thk_char_answer, refusal, 0); THK_AT(thk_char_answer, place, 8); THK_AT(thk_char_answer, info, 16);
THK_AT(thk_char_answer, rows, 26); THK_AT(thk_char_answer, by, 32); THK_SIZE(thk_char_answer, 40);
THK_AT(thk_why_answer, refusal, 0); THK_AT(thk_why_answer, place, 8); THK_AT(thk_why_answer, reason, 16);
THK_AT(thk_why_answer, by, 24); THK_SIZE(thk_why_answer, 32);
THK_AT(thk_unpack_answer, refusal, 0); THK_AT(thk_unpack_answer, place, 8); THK_AT(thk_unpack_answer, rows, 16);
THK_SIZE(thk_unpack_answer, 24);
THK_AT(thk_text_answer, refusal, 0); THK_AT(thk_text_answer, place, 8); THK_AT(thk_text_answer, rows, 16);
THK_SIZE(thk_text_answer, 32);
THK_AT(thk_step_answer, refusal, 0); THK_AT(thk_step_answer, place, 8); THK_AT(thk_step_answer, found, 16);
THK_AT(thk_step_answer, code, 20); THK_AT(thk_step_answer, next, 24); THK_SIZE(thk_step_answer, 32);

#undef THK_ASSERT
#undef THK_SIZE
#undef THK_AT

#ifdef __cplusplus
}
#endif

#endif
