/* A script that is run at once, one that comes in pieces of 5 bytes, and forms that stay over three
 * scripts and are then listed. The static buffers are all the memory that the engine has. */
#include "trac.h"

#include <inttypes.h>
#include <stdio.h>
#include <string.h>

enum { CELLS = 256, STEPS = 1000, PIECE = 5 };

static trac_cell block[CELLS];
static trac_machine machine;
static char printed[64];

static const char greeting[] =
    "#(ds,greet,(Hello, NAME!))#(ss,greet,NAME)#(ps,##(cl,greet,Ada))'";

static const char *const scripts[] = {
    "#(ds,north,cold)'",
    "#(ds,south,warm)#(ps,the south is #(cl,south))'",
    "#(ss,south,r)#(ps,forms:#(ln,( )))'",
};

static void show(trac_report report) {
    printf("%.*s\n", (int)report.written, printed);
    printf("%s: %" PRIu64 " steps, peak %" PRIu32 " cells\n", trac_fate_name(report.fate), report.steps,
           report.peak);
}

static void at_once(void) {
    show(trac_run(block, CELLS, STEPS, greeting, sizeof greeting - 1, printed, sizeof printed));
}

/* Bytes that were not consumed are given again, with a piece more behind them. */
static void in_pieces(void) {
    const size_t len = sizeof greeting - 1;
    size_t start = 0, end = 0, pieces = 0;
    trac_report report;
    trac_open(&machine, block, CELLS, STEPS);
    do {
        report = trac_turn(&machine, greeting + start, end - start, end == len, printed, sizeof printed, 100);
        fwrite(printed, 1, report.written, stdout);
        start += report.consumed;
        if (report.fate == TRAC_WANTS_INPUT) {
            end = len - end < PIECE ? len : end + PIECE;
            pieces++;
        }
    } while (report.fate == TRAC_GOING || report.fate == TRAC_WANTS_INPUT);
    printf("\n%s after %zu pieces\n", trac_fate_name(report.fate), pieces);
}

static void over_three_scripts(void) {
    trac_open(&machine, block, CELLS, STEPS);
    for (size_t i = 0; i < sizeof scripts / sizeof *scripts; i++) {
        trac_again(&machine, STEPS);
        show(trac_turn(&machine, scripts[i], strlen(scripts[i]), 1, printed, sizeof printed, STEPS));
    }
}

static int shown(size_t length, size_t room) { return (int)(length < room ? length : room); }

/* The functions tell the whole lengths; the buffers get what fits. */
static void list(void) {
    char name[16], text[32];
    trac_form form = TRAC_NO_FORM;
    while (trac_next_form(&machine, &form)) {
        const size_t name_length = trac_form_name(&form, name, sizeof name);
        const size_t text_length = trac_form_text(&form, text, sizeof text);
        printf("%.*s: %.*s\n", shown(name_length, sizeof name), name, shown(text_length, sizeof text), text);
    }
}

int main(void) {
    at_once();
    in_pieces();
    over_three_scripts();
    list();
    return 0;
}
