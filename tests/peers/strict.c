/* Strict loading. In a font that was written with care each table's own format is its directory entry's, so that the
 * record is the one that loading gives; with one bit of a table's own format changed it is refused. */
#include <stdio.h>

#include "peers.h"

#define BOUNDS(C, of) C(of.left) C(of.right) C(of.width) C(of.ascent) C(of.descent) C(of.attributes)
#define RECORDED(C)                                                                                                    \
    C(props.big) C(props.count) C(props.records) C(props.strings) C(props.size)                                        \
    C(accel.format) C(accel.no_overlap) C(accel.constant_metrics) C(accel.terminal_font) C(accel.constant_width)       \
    C(accel.ink_inside) C(accel.ink_metrics) C(accel.draw_direction) C(accel.padding) C(accel.font_ascent)             \
    C(accel.font_descent) C(accel.max_overlap) BOUNDS(C, accel.minbounds) BOUNDS(C, accel.maxbounds)                   \
    C(metrics.big) C(metrics.compressed) C(metrics.count) C(metrics.records)                                           \
    C(bitmaps.big) C(bitmaps.count) C(bitmaps.offsets) C(bitmaps.bits) C(bitmaps.size) C(bitmaps.pad) C(bitmaps.unit)  \
    C(bitmaps.top) C(codes.big) C(codes.low2) C(codes.high2) C(codes.low1) C(codes.high1) C(codes.default_code)        \
    C(codes.entries) C(codes.size) C(names.big) C(names.count) C(names.offsets) C(names.strings) C(names.size)

/* Whether a number that the library answers is the one that it has to be. */
static bool right(const struct font *f, long long has, long long must, const char *call, const char *what)
{
    if (has != must && shown())
        printf("peers: %s: %s: %s is %lld, and has to be %lld\n", f->name, call, what, has, must);
    return has == must;
}

void strict_loading(const struct font *f)
{
    thk_font_answer strict = thk_load_strict(f->bytes, f->len);
    bool all = right(f, strict.refusal, THK_DONE, "strict loading", "refusal");

#define SAME(field)                                                                                                    \
    all = all && right(f, (long long)strict.rec.field, (long long)f->rec.field, "strict loading", #field);
    RECORDED(SAME)
    count.strictly += all;
}

static bool refused(const struct font *f, thk_font_answer of, uint32_t entry, const char *call)
{
    return right(f, of.refusal, THK_TWO_FORMATS, call, "refusal of two formats")
           && right(f, (long long)of.place, entry, call, "place of two formats");
}

uint32_t word(const uint8_t *at)
{
    return at[0] | (uint32_t)at[1] << 8 | (uint32_t)at[2] << 16 | (uint32_t)at[3] << 24;
}

static bool known(uint32_t kind)
{
    return kind == 1 || kind == 2 || kind == 4 || kind == 8 || kind == 32 || kind == 128 || kind == 256;
}

void two_formats(const struct font *f)
{
    uint32_t entry, entries = word(f->bytes + 4);

    for (entry = 0; entry < entries; entry++) {
        const uint8_t *listed = f->bytes + 8 + 16 * entry;
        unsigned bit = count.two_formats % 32; /* each by turns */
        uint8_t *own, was;

        if (!known(word(listed)))
            continue;
        own = f->bytes + word(listed + 12) + bit / 8;
        was = *own;
        *own ^= (uint8_t)(1U << bit % 8);
        count.two_formats += refused(f, thk_load_strict(f->bytes, f->len), entry, "strict loading")
                             && refused(f, thk_vet(f->bytes, f->len, THK_PLAIN), entry, "vetting");
        *own = was;
    }
}
