/* Differences, and pages of pixels, which are shown as dots. */
#include <stdarg.h>
#include <stdio.h>
#include <stdlib.h>

#include "peers.h"

bool shown(void)
{
    return ++count.differences <= SHOWN;
}

bool same(const struct font *f, long long ours, long long peers, const char *what, ...)
{
    va_list given;

    if (ours == peers)
        return true;
    if (shown()) {
        printf("peers: %s: ", f->name);
        va_start(given, what);
        vprintf(what, given);
        va_end(given);
        printf(": the library has %lld, FreeType %lld\n", ours, peers);
    }
    return false;
}

uint64_t digest(uint64_t before, const void *bytes, size_t len)
{
    const uint8_t *b = bytes;
    size_t i;

    for (i = 0; i < len; i++)
        before = (before ^ b[i]) * 1099511628211U;
    return before;
}

struct page blank(size_t lines, size_t stride)
{
    struct page p = {lines, stride, malloc((lines * stride + 1) * sizeof(uint32_t))};
    size_t i;

    if (!p.pixels)
        fail("no memory");
    for (i = 0; i < lines * stride; i++)
        p.pixels[i] = BLANK;
    return p;
}

thk_page drawable(struct page p)
{
    thk_page made = thk_page_of(p.pixels, p.lines * p.stride, p.stride);

    made.colour = SET;
    return made;
}

bool bit(const FT_Bitmap *of, size_t row, size_t column)
{
    return of->buffer[row * (size_t)of->pitch + column / 8] >> (7 - column % 8) & 1;
}

void put(struct page p, const FT_Bitmap *of, size_t top, size_t left, size_t cut)
{
    size_t row, column;

    for (row = 0; row < of->rows; row++)
        for (column = 0; column < of->width && column < cut; column++)
            if (bit(of, row, column))
                p.pixels[(top + row) * p.stride + left + column] = SET;
}

bool any_set(const FT_Bitmap *of, size_t cut)
{
    size_t row, column;

    for (row = 0; row < of->rows; row++)
        for (column = 0; column < cut; column++)
            if (bit(of, row, column))
                return true;
    return false;
}

static void dots(const char *of, struct page p)
{
    size_t i;

    printf("%s:\n", of);
    for (i = 0; i < p.lines * p.stride; i++)
        printf("%c%s", p.pixels[i] == BLANK ? '.' : p.pixels[i] == SET ? '#' : '?', (i + 1) % p.stride ? "" : "\n");
}

bool same_pages(const struct font *f, struct page ours, struct page peers, size_t past, size_t end,
                       const char *what, long number)
{
    size_t i, column;
    bool all = true;

    for (i = 0; i < ours.lines * ours.stride; i++) {
        column = i % ours.stride;
        all = all && (ours.pixels[i] == peers.pixels[i] || (past <= column && column < end));
    }
    if (!all && shown()) {
        printf("peers: %s: %s %ld is drawn otherwise\n", f->name, what, number);
        dots("the library", ours);
        dots("FreeType", peers);
    }
    free(ours.pixels);
    return all;
}
