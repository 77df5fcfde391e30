/* The board mps2-an385: its start, its serial line, a page that a reset leaves as it is, and its end, which QEMU is
 * told by semihosting. */
#include "board.h"

extern uint32_t data_in_flash, data_begin, data_end, bss_begin, bss_end, stack_top;
extern volatile uint32_t page[BOARD_PAGE_WORDS];
int main(void);

/* The serial line of the board, and the bits of its state. */
static volatile uint32_t *const uart = (volatile uint32_t *)0x40004000;
enum { DATA, STATE, CONTROL, DIVISOR = 4 };
enum { WRITING = 1, READY = 2, BOTH_WAYS = 3 };

static const uint32_t UNUSED = 0xA5A5A5A5;

int board_read(void) {
    while (!(uart[STATE] & READY)) {
    }
    return (int)(uart[DATA] & 0xFF);
}

void board_write(const void *bytes, size_t length) {
    for (const uint8_t *byte = (const uint8_t *)bytes; length; length--) {
        while (uart[STATE] & WRITING) {
        }
        uart[DATA] = *byte++;
    }
}

size_t board_stack_used(void) {
    const uint32_t *word = &bss_end;
    while (word < &stack_top && *word == UNUSED)
        word++;
    return (size_t)(&stack_top - word) * sizeof *word;
}

const uint32_t *board_page(void) { return (const uint32_t *)page; }

/* The emulator has no controller of flash, so these two write to memory. A real one is unlocked first and locked again
 * behind it. To erase, it gets the place of the page and the order to erase, and you wait while it is busy, some 20
 * milliseconds. To write, it gets the order to write; then each word, or half of one, is stored, and you wait while it
 * is busy and compare what stands there. If a function in flash waits, interrupts that run from flash wait with it. */
void board_erase_page(void) {
    for (size_t i = 0; i < BOARD_PAGE_WORDS; i++)
        page[i] = UINT32_MAX;
}

void board_write_page(const uint32_t *words, size_t count) {
    for (size_t i = 0; i < count; i++)
        page[i] &= words[i];
}

/* By the register AIRCR, which every Cortex-M3 has: its key, and the bit that asks for a reset of the system. */
void board_reset(void) {
    __asm__ volatile("dsb" ::: "memory");
    *(volatile uint32_t *)0xE000ED0C = 0x05FA0004;
    for (;;) {
    }
}

/* Ends the emulator with a status. */
static void leave(int status) {
    const uint32_t how[2] = {0x20026, (uint32_t)status};
    register int operation __asm__("r0") = 0x20;
    register const void *words __asm__("r1") = how;
    __asm__ volatile("bkpt 0xab" : "+r"(operation) : "r"(words) : "memory");
    for (;;) {
    }
}

void reset(void) {
    const uint32_t *from = &data_in_flash;
    for (uint32_t *to = &data_begin; to < &data_end;)
        *to++ = *from++;
    for (uint32_t *to = &bss_begin; to < &bss_end;)
        *to++ = 0;
    for (uint32_t *to = &bss_end; to < (uint32_t *)__builtin_frame_address(0) - 16;)
        *to++ = UNUSED;
    uart[DIVISOR] = 16;
    uart[CONTROL] = BOTH_WAYS;
    leave(main());
}

static void fault(void) { leave(99); }

__attribute__((section(".vectors"), used)) static void (*const vectors[16])(void) = {
    (void (*)(void))&stack_top, reset, fault, fault, fault, fault, fault, fault,
    fault,                      fault, fault, fault, fault, fault, fault, fault};
