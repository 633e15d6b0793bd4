/* A meter's page on a Cortex-M4: draws the snapshot, whose characters the font in flash has, sends the page out as a
 * picture, and says whether it is complete: no row was cut. The caretaker copies nothing else. */
#include "board.h"
#include "meter.h"

#ifndef HEIGHT
#define HEIGHT 21 /* two lines of the font, and one row more */
#endif
enum { WIDTH = 72, LINE = 64 };

static const uint8_t snapshot[] = "12 345 kWh\n3.07 m\302\263  21 \302\260C";
static uint32_t pixels[WIDTH * HEIGHT];

/* The page as a PBM picture in letters, 1 for a coloured pixel; its form asks for short lines. */
static void send_page(void)
{
    send("P1\n");
    send_number(WIDTH);
    send(" ");
    send_number(HEIGHT);
    send("\n");
    for (int y = 0; y < HEIGHT; y++)
        for (int x = 1; x <= WIDTH; x++) {
            send(pixels[y * WIDTH + x - 1] ? "1" : "0");
            if (x % LINE == 0 || x == WIDTH)
                send("\n");
        }
}

int main(void)
{
    thk_page page = thk_page_of(pixels, WIDTH * HEIGHT, WIDTH);
    page.wrap = WIDTH + 1;
    thk_text_answer drawn =
        thk_draw_string(meter_font, sizeof meter_font, &meter_record, snapshot, sizeof snapshot - 1, &page);
    if (drawn.refusal != THK_DONE) {
        send("refused: ");
        send(thk_refusal_words(drawn.refusal));
    } else {
        send_page();
        send(drawn.rows.dropped == 0 ? "complete" : "cut, rows dropped: ");
        if (drawn.rows.dropped != 0)
            send_number((uint32_t)drawn.rows.dropped);
    }
    send("\n");
    return 0;
}
