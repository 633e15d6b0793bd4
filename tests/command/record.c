/* Writes what a header of `thalluskin record` holds and what is drawn with it: the font's bytes; the record; the answer
 * for the text that is given, wrapped at the page's right end; the page. HEADER is that header, FONT and RECORD are its
 * constants, WIDTH and HEIGHT the page's. This is C99 and C++11. */
#include <stdio.h>
#include <stdlib.h>
#include <string.h>

#include HEADER

static uint32_t pixels[WIDTH * HEIGHT];

static void put(const void *bytes, size_t len)
{
    if (fwrite(bytes, 1, len, stdout) != len)
        exit(1);
}

int main(int argc, char **argv)
{
    thk_page page = thk_page_of(pixels, WIDTH * HEIGHT, WIDTH);
    thk_text_answer drawn;

    if (argc != 2)
        return 2;
    page.wrap = WIDTH + 1;
    drawn = thk_draw_string(FONT, sizeof FONT, &RECORD, (const uint8_t *)argv[1], strlen(argv[1]), &page);
    put(FONT, sizeof FONT);
    put(&RECORD, sizeof RECORD);
    put(&drawn, sizeof drawn);
    put(pixels, sizeof pixels);
    return 0;
}
