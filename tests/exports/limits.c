/* Tries each limit of the header: the greatest number is taken, and one more is refused, and so is 0 where the least is
 * 1; of modes the greatest has every bit with a name. Tries what the header's functions set of a page and of cells.
 * Prints how many limits and defaults there are. */
#include <stdio.h>
#include <stdlib.h>
#include <string.h>

#include "thalluskin.h"

static uint8_t font[4096], text[THK_MAX_TEXT + 1];
static uint64_t font_len;
static thk_record rec;
static int tried;

static void expect(const char *what, uint32_t got, uint32_t want)
{
    if (got != want) {
        fprintf(stderr, "%s: refusal %u, not %u\n", what, (unsigned)got, (unsigned)want);
        exit(1);
    }
}

/* A page without pixels that is within its limits. */
static thk_page small(void)
{
    return thk_page_of(NULL, 0, 1);
}

static uint32_t refusal(thk_page page, uint64_t text_len)
{
    return thk_text_check(font, font_len, &rec, text, text_len, &page).refusal;
}

#define LIMIT(field, least, most)                                                           \
    do {                                                                                    \
        thk_page within = small(), past = small(), low = small();                           \
        within.field = (most);                                                              \
        past.field = (most) + 1;                                                            \
        low.field = 0;                                                                      \
        expect(#field " within", refusal(within, 1), THK_DONE);                             \
        expect(#field " past", refusal(past, 1), THK_BAD_ARGUMENT);                         \
        expect(#field " of 0", refusal(low, 1), (least) == 0 ? THK_DONE : THK_BAD_ARGUMENT); \
        tried++;                                                                            \
    } while (0)

static void set(const char *what, int is)
{
    if (!is) {
        fprintf(stderr, "not set as the header says: %s\n", what);
        exit(1);
    }
    tried++;
}

static void defaults(void)
{
    uint32_t pixel;
    uint8_t byte;
    thk_page page = thk_page_of(&pixel, 7, 3);
    thk_cells cells = thk_cells_of(&byte, 7, 3);

    set("the page's pixels", page.pixels == &pixel && page.len == 7 && page.stride == 3);
    set("the page's start", page.start == 0);
    set("the page's scale", page.scale == 1);
    set("the page's wrap", page.wrap == THK_NO_WRAP && THK_NO_WRAP == UINT64_MAX);
    set("the page's colour", page.colour == 1);
    set("the page's mode", page.mode == THK_PLAIN && THK_PLAIN == 0);
    set("the cells' bytes", cells.bytes == &byte && cells.len == 7 && cells.stride == 3);
    set("the cells' start", cells.start == 0);
    set("the cells' mode", cells.mode == THK_PLAIN);
}

int main(int argc, char **argv)
{
    FILE *file = argc == 2 ? fopen(argv[1], "rb") : NULL;

    if (!file)
        return 2;
    font_len = fread(font, 1, sizeof font, file);
    fclose(file);
    thk_font_answer loaded = thk_load(font, font_len);
    expect("loading", loaded.refusal, THK_DONE);
    rec = loaded.rec;
    memset(text, '\n', sizeof text);

    LIMIT(stride, 1, THK_MAX_STRIDE);
    LIMIT(scale, 1, THK_MAX_SCALE);
    LIMIT(start, 0, THK_MAX_START);
    LIMIT(mode, THK_PLAIN, THK_PLAIN | THK_DEFAULT);
    expect("a text within", refusal(small(), THK_MAX_TEXT), THK_DONE);
    expect("a text past", refusal(small(), THK_MAX_TEXT + 1), THK_BAD_TEXT);
    tried++;
    thk_page page = small();
    thk_bitmap within = {.width = THK_MAX_BOX, .height = THK_MAX_BOX}, wide = within, high = within;
    wide.width++;
    high.height++;
    expect("a box within", thk_draw_bitmap(font, font_len, &rec, within, &page).refusal, THK_DONE);
    expect("a box too wide", thk_draw_bitmap(font, font_len, &rec, wide, &page).refusal, THK_BAD_ARGUMENT);
    expect("a box too high", thk_draw_bitmap(font, font_len, &rec, high, &page).refusal, THK_BAD_ARGUMENT);
    thk_glyph_info low = {.pad_top = THK_MAX_BOX}, right = {.pad_left = THK_MAX_BOX};
    expect("a pad within", thk_draw_glyph(font, font_len, &rec, low, &page).refusal, THK_DONE);
    expect("another", thk_draw_glyph(font, font_len, &rec, right, &page).refusal, THK_DONE);
    low.pad_top++;
    right.pad_left++;
    expect("too low", thk_draw_glyph(font, font_len, &rec, low, &page).refusal, THK_BAD_ARGUMENT);
    expect("too far right", thk_draw_glyph(font, font_len, &rec, right, &page).refusal, THK_BAD_ARGUMENT);
    tried++;
    defaults();
    printf("%d\n", tried);
    return 0;
}
