/* What the example asks of a board. */
#ifndef BOARD_H
#define BOARD_H

#include <stddef.h>
#include <stdint.h>

/* Waits for a byte of the serial line. */
int board_read(void);

/* Writes bytes to the serial line. */
void board_write(const void *bytes, size_t length);

/* The bytes of stack that were used so far. */
size_t board_stack_used(void);

/* The words of a page of flash, which stay as they are when the board is reset or has no power. */
enum { BOARD_PAGE_WORDS = 256 };
const uint32_t *board_page(void);

/* Makes each bit of the page 1. */
void board_erase_page(void);

/* Writes words to the front of a page that was erased. */
void board_write_page(const uint32_t *words, size_t count);

/* Resets the board, which then starts as when it gets power. */
void board_reset(void);

#endif
