/* TRAC on a small machine: a script in a static block, and then a session whose strings come over the serial line. The
 * static buffers are all the memory that the engine has. The session has two functions of the board: #(save)' writes
 * the image of all forms to a page of flash, with which the session begins at the next start, and #(reset)' starts the
 * board anew. The session ends at #(hl)'. */
#include "board.h"
#include "trac.h"

#include <string.h>

#ifndef CELLS
#define CELLS 256
#endif

static trac_cell block[CELLS];
static trac_machine machine;
/* A string is given whole, so there is a byte more than it could have cells. */
static char input[CELLS + 1];
static char printed[CELLS];
/* What the page holds: how many bytes the image has, and the image. */
static struct {
    uint32_t length;
    uint8_t image[4 * (BOARD_PAGE_WORDS - 1)];
} kept;

static void say(const char *text) { board_write(text, strlen(text)); }

static void say_number(size_t number) {
    char digits[12];
    char *digit = digits + sizeof digits;
    *--digit = 0;
    do
        *--digit = (char)('0' + number % 10);
    while (number /= 10);
    say(digit);
}

/* Runs a script at once, in the least room that it needs. */
static int greet(void) {
    const trac_report report = trac_run(block, 19, 29, "#(ps,hello)'", 12, printed, sizeof printed);
    board_write(printed, report.written);
    say("\n");
    return report.fate == TRAC_INPUT_ENDED && report.steps == 29 && report.peak == 19;
}

/* Tells how a string's run ended badly; the forms stay. */
static void begin_again(uint32_t fate) {
    say("[");
    say(fate == TRAC_WANTS_OUTPUT ? "too long a print" : trac_fate_name(fate));
    say("]\n");
    trac_again(&machine, 100000);
}

/* Writes the image of the forms to the page. If the power goes before all is written, the checksum is wrong, and the
 * board begins without forms; who has two pages writes to them in turn, and has the older image then. */
static int save(void) {
    const size_t length = trac_save(&machine, kept.image, sizeof kept.image);
    if (length > sizeof kept.image)
        return 0;
    kept.length = (uint32_t)length;
    board_erase_page();
    board_write_page((const uint32_t *)(const void *)&kept, 1 + (length + 3) / 4);
    return 1;
}

/* Begins a session with the forms of the page; without forms, where it holds no image. */
static void begin(void) {
    const uint32_t *page = board_page();
    trac_open(&machine, block, CELLS, 100000);
    trac_stop_at_unknown(&machine, 1);
    if (page[0] <= sizeof kept.image && trac_load(&machine, page + 1, page[0]) == 0)
        say("[loaded]\n");
}

static int is_called(const char *name) {
    char found[8];
    const size_t length = trac_argument(&machine, 0, found, sizeof found);
    return length == strlen(name) && memcmp(found, name, length) == 0;
}

/* Performs a call of a function that the language lacks. Each has the null value. */
static void answer(void) {
    if (is_called("save"))
        say(save() ? "[saved]\n" : "[too long to be saved]\n");
    else if (is_called("reset"))
        board_reset();
    const uint32_t fate = trac_answer(&machine, NULL, 0, TRAC_BY_MODE).fate;
    if (fate != TRAC_GOING)
        begin_again(fate);
}

/* A session: each byte is given as soon as it comes. */
static void converse(void) {
    size_t length = 0;
    begin();
    for (;;) {
        const trac_report report =
            trac_turn(&machine, input, length, 0, printed, sizeof printed, UINT64_MAX);
        board_write(printed, report.written);
        length -= report.consumed;
        memmove(input, input + report.consumed, length);
        if (report.fate == TRAC_HALTED)
            return;
        if (report.fate == TRAC_WANTS_INPUT)
            input[length++] = (char)board_read();
        else if (report.fate == TRAC_WANTS_ANSWER)
            answer();
        else if (report.fate != TRAC_WANTS_OUTPUT || report.wanted > sizeof printed)
            begin_again(report.fate);
    }
}

int main(void) {
    if (!greet())
        return 1;
    converse();
    say("\nstack ");
    say_number(board_stack_used());
    say(" bytes\n");
    return 0;
}
