/* Draws a text on a page of white pixels, wrapped at its right end, and writes the page as a PBM picture.
 *
 *     cc -std=c99 -I include examples/draw.c target/staticlib/libthalluskin.a -o target/draw
 *     target/draw FONT.pcf TEXT WIDTH HEIGHT SCALE PICTURE.pbm
 *
 * Exit status: 0 for a picture, 1 for a font or a text that is refused, 2 for anything else. */
#include <errno.h>
#include <inttypes.h>
#include <stdio.h>
#include <stdlib.h>
#include <string.h>

#include "thalluskin.h"

enum { REFUSED = 1, TROUBLE = 2 };

static void fail(const char *what, const char *name)
{
    fprintf(stderr, "draw: %s: %s\n", name, what);
    exit(TROUBLE);
}

static void refuse(const char *what, uint32_t number, uint64_t place)
{
    fprintf(stderr, "draw: the %s is refused, %" PRIu32 " at %" PRIu64 ": %s\n", what, number, place,
            thk_refusal_words(number));
    exit(REFUSED);
}

/* The whole file, in memory that the caller frees. */
static uint8_t *file_bytes(const char *name, size_t *len)
{
    FILE *file = fopen(name, "rb");
    uint8_t *bytes = NULL;
    size_t room = 0, got;

    if (!file)
        fail(strerror(errno), name);
    *len = 0;
    do {
        if (*len == room) {
            uint8_t *more = room > SIZE_MAX / 2 ? NULL : realloc(bytes, room = room ? 2 * room : 4096);
            if (!more)
                fail("too long for this machine's memory", name);
            bytes = more;
        }
        got = fread(bytes + *len, 1, room - *len, file);
        *len += got;
    } while (got > 0);
    if (ferror(file) || fclose(file) != 0)
        fail("cannot be read", name);
    return bytes;
}

/* A number from `low` to `high` in decimal digits. */
static size_t number(const char *word, const char *what, size_t low, size_t high)
{
    size_t n = 0, len = strspn(word, "0123456789");

    if (len == 0 || len > 9 || word[len] != '\0')
        fail("not a number of one to nine digits", what);
    for (const char *digit = word; *digit; digit++)
        n = 10 * n + (size_t)(*digit - '0');
    if (n < low || n > high)
        fail("a number outside its limits", what);
    return n;
}

/* Eight pixels to a byte, the leftmost its top bit, and every line from a new byte on. */
static void write_picture(const char *name, const uint32_t *page, size_t width, size_t height)
{
    FILE *file = fopen(name, "wb");

    if (!file)
        fail(strerror(errno), name);
    fprintf(file, "P4\n%zu %zu\n", width, height);
    for (size_t y = 0; y < height; y++)
        for (size_t x = 0; x < width; x += 8) {
            int byte = 0;
            for (size_t k = 0; k < 8; k++)
                byte = 2 * byte + (x + k < width && page[y * width + x + k] != 0);
            putc(byte, file);
        }
    int lost = ferror(file);
    if (fclose(file) != 0 || lost)
        fail("cannot be written", name);
}

int main(int argc, char **argv)
{
    if (argc != 7) {
        fprintf(stderr, "usage: draw FONT.pcf TEXT WIDTH HEIGHT SCALE PICTURE.pbm\n");
        return TROUBLE;
    }
    size_t width = number(argv[3], "WIDTH", 1, THK_MAX_STRIDE), height = number(argv[4], "HEIGHT", 1, 65535);
    size_t scale = number(argv[5], "SCALE", 1, THK_MAX_SCALE), pixels = width * height, len;
    uint8_t *bytes = file_bytes(argv[1], &len);
    uint32_t *panel = calloc(pixels, sizeof *panel);

    if (!panel)
        fail("too large for this machine's memory", "the page");
    thk_font_answer font = thk_vet(bytes, len, THK_PLAIN);
    if (font.refusal)
        refuse("font", font.refusal, font.place);
    thk_page page = thk_page_of(panel, pixels, width);
    page.scale = scale;
    page.wrap = width + 1;
    thk_text_answer drawn =
        thk_draw_string(bytes, len, &font.rec, (const uint8_t *)argv[2], strlen(argv[2]), &page);
    if (drawn.refusal)
        refuse("text", drawn.refusal, drawn.place);
    write_picture(argv[6], panel, width, height);
    free(panel);
    free(bytes);
    if (printf("height %" PRIu64 ", dropped rows %" PRIu64 "\n", drawn.rows.height, drawn.rows.dropped) < 0 ||
        fflush(stdout) != 0)
        fail("cannot be written", "standard output");
    return 0;
}
