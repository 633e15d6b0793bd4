/* The board: a serial port to send letters and numbers by. */
#ifndef BOARD_H
#define BOARD_H

#include <stdint.h>

void send(const char *text);
void send_number(uint32_t n);

#endif
