/* Document 01's rule of drawing as one writes it down at first, for the port to be measured beside: loops over rows,
 * columns and a block's pixels, without tricks. Nothing is tested, neither font nor text nor arguments, nor whether a
 * pixel lies in its buffer; only rows that the buffer has no room for are left out, since the answer counts them. A
 * font's rows are in the usual order, the top bit of a byte leftmost, and each of its glyphs has metrics and a bitmap.
 * bench/plain.rs has the structs once more. */
#include <stddef.h>
#include <stdint.h>

enum { NO_GLYPH = 0xFFFF };

/* A font's tables where they stand in its file. Numbers of a big table have the most significant byte first. */
struct plain_font {
    const uint8_t *offsets, *bits;
    const uint8_t *metrics; /* 5 bytes a glyph where they are compressed, else 12 */
    const uint8_t *entries; /* the glyphs of the codes, 2 bytes each */
    size_t pad;             /* 1, 2, 4 or 8: a row's bytes are a multiple of it */
    uint16_t low2, high2, low1, high1;
    int16_t ascent, descent; /* of the maximum bounds */
    uint8_t bitmaps_big, metrics_big, compressed, codes_big;
};

/* A placed glyph, and what is answered. */
struct plain_info { uint16_t glyph, width, height, pad_top, pad_left; };
struct plain_rows { uint16_t drawn, dropped; };
struct plain_text_rows { uint64_t height, dropped; };

static uint16_t number2(const uint8_t *at, int big)
{
    return big ? at[0] << 8 | at[1] : at[1] << 8 | at[0];
}

static uint32_t number4(const uint8_t *at, int big)
{
    uint32_t first = number2(at, big), second = number2(at + 2, big);

    return big ? first << 16 | second : second << 16 | first;
}

/* ---- Glyphs. */

static const uint8_t *first_row(const struct plain_font *font, struct plain_info info)
{
    return font->bits + number4(font->offsets + 4 * info.glyph, font->bitmaps_big);
}

static size_t row_stride(const struct plain_font *font, struct plain_info info)
{
    return ((info.width + 7) / 8 + font->pad - 1) & ~(font->pad - 1);
}

struct plain_rows plain_draw_glyph(const struct plain_font *font, struct plain_info info, uint32_t *pixels,
                                   size_t length, size_t start, size_t stride, size_t scale, uint32_t colour)
{
    size_t p = start + stride * scale * info.pad_top + scale * info.pad_left;
    size_t room = p > length ? 0 : (length - p) / stride / scale * scale; /* in rows */
    size_t rows = room < info.height ? room : info.height;
    size_t next = row_stride(font, info);
    const uint8_t *row = first_row(font, info);

    for (size_t r = 0; r < rows; r++, row += next, p += stride * scale)
        for (size_t k = 0; k < info.width; k += 8) {
            unsigned byte = row[k / 8];
            for (size_t c = k; c < k + 8 && c < info.width; c++, byte <<= 1)
                if (byte & 0x80)
                    for (size_t a = 0; a < scale; a++)
                        for (size_t b = 0; b < scale; b++)
                            pixels[p + c * scale + a * stride + b] = colour;
        }
    return (struct plain_rows){rows, info.height - rows};
}

/* Whole row bytes, columns past the width too. */
uint16_t plain_unpack_glyph(const struct plain_font *font, struct plain_info info, uint8_t *bytes, size_t start,
                            size_t stride)
{
    size_t p = start + stride * info.pad_top + info.pad_left, next = row_stride(font, info);
    const uint8_t *row = first_row(font, info);

    for (size_t r = 0; r < info.height; r++, row += next, p += stride)
        for (size_t k = 0; k < info.width; k += 8) {
            unsigned byte = row[k / 8];
            for (size_t b = 0; b < 8; b++, byte <<= 1)
                if (byte & 0x80)
                    bytes[p + k + b] = 1;
        }
    return info.height;
}

/* ---- Texts. */

/* A character of UTF-8, and the place after it. */
static const uint8_t *step(const uint8_t *text, uint32_t *code)
{
    int more = *text < 0x80 ? 0 : *text < 0xE0 ? 1 : *text < 0xF0 ? 2 : 3;

    *code = more == 0 ? *text : *text & 0x3F >> more;
    for (text++; more > 0; more--)
        *code = *code << 6 | (*text++ & 0x3F);
    return text;
}

static uint16_t glyph_of(const struct plain_font *font, uint32_t code)
{
    int two_bytes = font->low1 != 0 || font->high1 != 0;
    uint32_t first = two_bytes ? code >> 8 : 0, second = two_bytes ? code & 0xFF : code;

    if (code > 0xFFFF || first < font->low1 || first > font->high1 || second < font->low2 || second > font->high2)
        return NO_GLYPH;
    size_t index = (first - font->low1) * (font->high2 - font->low2 + 1) + (second - font->low2);
    return number2(font->entries + 2 * index, font->codes_big);
}

static struct plain_info placed(const struct plain_font *font, uint16_t glyph)
{
    int left, width, ascent, descent;

    if (font->compressed) {
        const uint8_t *at = font->metrics + 5 * glyph;
        left = at[0] - 128;
        width = at[2] - 128;
        ascent = at[3] - 128;
        descent = at[4] - 128;
    } else {
        const uint8_t *at = font->metrics + 12 * glyph;
        left = (int16_t)number2(at, font->metrics_big);
        width = (int16_t)number2(at + 4, font->metrics_big);
        ascent = (int16_t)number2(at + 6, font->metrics_big);
        descent = (int16_t)number2(at + 8, font->metrics_big);
    }
    return (struct plain_info){glyph, width, ascent + descent, font->ascent - ascent, left};
}

struct plain_text_rows plain_draw_string(const struct plain_font *font, const uint8_t *text, size_t text_length,
                                         uint32_t *pixels, size_t length, size_t start, uint64_t wrap, size_t stride,
                                         size_t scale, uint32_t colour)
{
    size_t line = scale * (font->ascent + font->descent), x = 0, y = 0, dropped = 0;

    for (const uint8_t *end = text + text_length; text < end;) {
        uint32_t code;
        text = step(text, &code);
        if (code == '\r')
            continue;
        if (code == '\n') {
            x = 0;
            y += line;
            continue;
        }
        uint16_t glyph = glyph_of(font, code);
        if (glyph == NO_GLYPH)
            continue;
        struct plain_info info = placed(font, glyph);
        if (x + info.width * scale >= wrap) {
            x = 0;
            y += line;
        }
        size_t pen = start + y * stride + x;
        dropped += plain_draw_glyph(font, info, pixels, length, pen, stride, scale, colour).dropped;
        x += info.width * scale;
    }
    return (struct plain_text_rows){y + line, dropped};
}
