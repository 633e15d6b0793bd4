/* Makes the calls that its input describes and writes what each leaves: the answer as the header has it; the memory
 * into which the answer was put, with some beyond; the buffer.
 *
 * Each call is made twice. First by the header's function. Then by the archive's own, with the answer's memory given,
 * filled with a pattern: its first argument points there, and with structs by value, which is on x86-64 alone, a hidden
 * one, since an answer has over 16 bytes. What is lent ends where the memory ends that may be read, and only a buffer
 * may be written (replay.h); an empty slice is such an end at first, and NULL in the second call. */
#include <string.h>

#include "replay.h"
#include "thalluskin.h"

enum { BEYOND = 64, PATTERN = 0xA5 };

/* The numbers of a call. A font's length with every bit set: the font of the call before. */
struct call {
    uint64_t kind, font_len, text_len, buf_len, code, glyph, width, height, pad_top, pad_left, len, start, wrap, stride,
        scale, colour, mode;
};

static uint64_t area[64];

/* The archive's own function, with the memory for its answer. The parameter types are those after that. */
#if !defined(__x86_64__) || defined(THK_LENT)
#define STRUCT(type) const type *
#define GIVE(value) (&(value))
#define BY_HAND(answer_type, name, types, ...) thalluskin_lent_##name((answer_type *)(void *)area, __VA_ARGS__)
#else
#define STRUCT(type) type
#define GIVE(value) (value)
#define BY_HAND(answer_type, name, types, ...)                              \
    do {                                                                    \
        typedef void *raw types;                                            \
        raw *volatile given = (raw *)(void (*)(void))thalluskin_##name;     \
        if (given(area, __VA_ARGS__) != (void *)area)                       \
            fail("the answer's address is not given back");                 \
    } while (0)
#endif

/* `answered` is a call of the header's function; after it the archive's own, by its parameter types and arguments. */
#define CALL(answer_type, name, answered, types, ...)          \
    do {                                                       \
        size = sizeof(answer_type);                            \
        if (by_hand) {                                         \
            BY_HAND(answer_type, name, types, __VA_ARGS__);    \
        } else {                                               \
            answer_type answer = answered;                     \
            memcpy(area, &answer, sizeof answer);              \
        }                                                      \
    } while (0)

#define OF_FONT void *, const uint8_t *, uint64_t, STRUCT(thk_record)
#define OF_PAGE uint32_t *, uint64_t, STRUCT(thk_page_numbers)

/* The call's answer is in `area` then; its size. */
static size_t called(const struct call *c, uint8_t *const lent[], uint64_t len, int by_hand)
{
    const uint8_t *font = lent[FONT], *text = lent[TEXT];
    const thk_record *rec = (const thk_record *)(const void *)lent[RECORD];
    uint32_t *buf = (uint32_t *)(void *)lent[BUFFER], colour = (uint32_t)c->colour;
    thk_mode mode = (thk_mode)c->mode;
    thk_char_code code = {(uint32_t)c->code};
    thk_glyph_index glyph = {(uint16_t)c->glyph};
    thk_glyph_info info = {glyph, (uint16_t)c->width, (uint16_t)c->height, (uint16_t)c->pad_top, (uint16_t)c->pad_left};
    thk_bitmap bitmap = {.glyph = glyph, .width = c->width, .height = c->height};
    thk_page page = {.pixels = buf, .len = c->buf_len, .start = c->start, .stride = c->stride, .scale = c->scale,
                     .wrap = c->wrap, .colour = colour, .mode = mode};
    thk_page dry = {.pixels = NULL, .len = c->len, .start = c->start, .stride = c->stride, .scale = c->scale,
                    .wrap = c->wrap, .colour = colour, .mode = mode};
    thk_cells cells = {.bytes = lent[BUFFER], .len = c->buf_len, .start = c->start, .stride = c->stride, .mode = mode};
    thk_page_numbers numbers = {.start = c->start, .stride = c->stride, .scale = c->scale, .wrap = c->wrap,
                                .colour = colour, .mode = mode};
    size_t size = 0;

    if (by_hand)
        paint_stack();
    switch (c->kind) {
    case LOAD:
        CALL(thk_font_answer, load, thk_load(font, len), (void *, const uint8_t *, uint64_t), font, len);
        break;
    case LOAD_STRICT:
        CALL(thk_font_answer, load_strict, thk_load_strict(font, len), (void *, const uint8_t *, uint64_t), font, len);
        break;
    case VET:
        CALL(thk_font_answer, vet, thk_vet(font, len, mode), (void *, const uint8_t *, uint64_t, thk_mode), font, len,
             mode);
        break;
    case PROPERTY:
        CALL(thk_property_answer, property, thk_property(font, len, rec, code.value), (OF_FONT, uint32_t), font, len,
             GIVE(*rec), code.value);
        break;
    case GLYPH:
        CALL(thk_glyph_answer, glyph, thk_glyph(font, len, rec, code, mode), (OF_FONT, STRUCT(thk_char_code), thk_mode),
             font, len, GIVE(*rec), GIVE(code), mode);
        break;
    case NAME:
        CALL(thk_name_answer, name, thk_name(font, len, rec, glyph), (OF_FONT, STRUCT(thk_glyph_index)), font, len,
             GIVE(*rec), GIVE(glyph));
        break;
    case METRICS:
        CALL(thk_metrics_answer, metrics, thk_metrics(font, len, rec, glyph), (OF_FONT, STRUCT(thk_glyph_index)), font,
             len, GIVE(*rec), GIVE(glyph));
        break;
    case ACCEL:
        CALL(thk_accel_answer, accel, thk_accel(font, len, rec), (OF_FONT), font, len, GIVE(*rec));
        break;
    case DIMENSIONS:
        CALL(thk_extent_answer, dimensions, thk_dimensions(font, len, rec), (OF_FONT), font, len, GIVE(*rec));
        break;
    case PREP_CHAR:
        CALL(thk_info_answer, prep_char, thk_prep_char(font, len, rec, code, mode),
             (OF_FONT, STRUCT(thk_char_code), thk_mode), font, len, GIVE(*rec), GIVE(code), mode);
        break;
    case DRAW_BITMAP:
        CALL(thk_rows_answer, draw_bitmap, thk_draw_bitmap(font, len, rec, bitmap, &page),
             (OF_FONT, STRUCT(thk_bitmap), OF_PAGE), font, len, GIVE(*rec), GIVE(bitmap), buf, c->buf_len,
             GIVE(numbers));
        break;
    case DRAW_GLYPH:
        CALL(thk_rows_answer, draw_glyph, thk_draw_glyph(font, len, rec, info, &page),
             (OF_FONT, STRUCT(thk_glyph_info), OF_PAGE), font, len, GIVE(*rec), GIVE(info), buf, c->buf_len,
             GIVE(numbers));
        break;
    case DRAW_CHAR:
        CALL(thk_char_answer, draw_char, thk_draw_char(font, len, rec, code, &page),
             (OF_FONT, STRUCT(thk_char_code), OF_PAGE), font, len, GIVE(*rec), GIVE(code), buf, c->buf_len,
             GIVE(numbers));
        break;
    case WHY:
        CALL(thk_why_answer, why, thk_why(font, len, rec, code, &dry),
             (OF_FONT, STRUCT(thk_char_code), uint64_t, STRUCT(thk_page_numbers)), font, len, GIVE(*rec), GIVE(code),
             c->len, GIVE(numbers));
        break;
    case UNPACK_GLYPH:
        CALL(thk_unpack_answer, unpack_glyph, thk_unpack_glyph(font, len, rec, info, &cells),
             (OF_FONT, STRUCT(thk_glyph_info), uint8_t *, uint64_t, STRUCT(thk_page_numbers)), font, len, GIVE(*rec),
             GIVE(info), lent[BUFFER], c->buf_len, GIVE(numbers));
        break;
    case DRAW_STRING:
        CALL(thk_text_answer, draw_string, thk_draw_string(font, len, rec, text, c->text_len, &page),
             (OF_FONT, const uint8_t *, uint64_t, OF_PAGE), font, len, GIVE(*rec), text, c->text_len, buf, c->buf_len,
             GIVE(numbers));
        break;
    case TEXT_CHECK:
        CALL(thk_text_answer, text_check, thk_text_check(font, len, rec, text, c->text_len, &dry),
             (OF_FONT, const uint8_t *, uint64_t, uint64_t, STRUCT(thk_page_numbers)), font, len, GIVE(*rec), text,
             c->text_len, c->len, GIVE(numbers));
        break;
    case UTF8_STEP:
        CALL(thk_step_answer, utf8_step, thk_utf8_step(text, c->text_len, c->start),
             (void *, const uint8_t *, uint64_t, uint64_t), text, c->text_len, c->start);
        break;
    default:
        fail("no such call");
    }
    if (by_hand)
        look_at_stack((enum kind)c->kind);
    return size;
}

/* What is lent empty is NULL in the second call. */
static void lend_all(const size_t len[], size_t turn, int by_hand, uint8_t *lent[])
{
    for (enum object what = RECORD; what <= BUFFER; what++) {
        lent[what] = lend(what, len[what], turn);
        if (by_hand && len[what] == 0)
            lent[what] = NULL;
    }
}

static void make_twice(const struct call *c, const size_t len[], size_t turn)
{
    uint8_t *lent[OBJECTS], *left = hold(LEFT, len[BUFFER]);

    for (int by_hand = 0; by_hand < 2; by_hand++) {
        lend_all(len, turn + (size_t)by_hand, by_hand, lent);
        memset(area, PATTERN, sizeof area);
        uint64_t size = called(c, lent, len[FONT], by_hand);
        if (size + BEYOND > sizeof area)
            fail("an answer of unknown size");
        if (by_hand) {
            if (len[BUFFER] > 0 && memcmp(left, lent[BUFFER], len[BUFFER]) != 0)
                fail("the second call leaves another buffer");
            put(area, (size_t)size + BEYOND);
            put(left, len[BUFFER]);
        } else {
            put(&size, sizeof size);
            put(area, (size_t)size);
            memcpy(left, lent[BUFFER], len[BUFFER]);
        }
        for (enum object what = RECORD; what <= BUFFER; what++)
            take_back(what);
    }
}

void replay(void)
{
    size_t len[OBJECTS] = {[RECORD] = sizeof(thk_record)};
    struct call c;

    if (thk_version() != THK_VERSION)
        fail("the archive is of another version than the header");
    for (size_t turn = 0; get(&c, sizeof c); turn++) {
        int same_font = c.font_len == UINT64_MAX;
        if (!same_font)
            len[FONT] = (size_t)c.font_len;
        len[TEXT] = (size_t)c.text_len;
        len[BUFFER] = (size_t)(c.kind == UNPACK_GLYPH ? c.buf_len : c.buf_len * sizeof(uint32_t));
        for (enum object what = RECORD; what <= BUFFER; what++)
            if (!(what == FONT && same_font) && !get(hold(what, len[what]), len[what]))
                fail("the input is cut");
        make_twice(&c, len, turn);
    }
}
