#include "trac.h"
#include <stdio.h>
#include <string.h>

static const char letter[] = "Dear NAME,\nsee you on DAY (at noon).\n";
static const char script[] = "#(ss,letter,NAME,DAY)#(ps,##(cl,letter,##(field,name),##(field,day)))'";
static const char *const people[][2] = {{"Ada", "Monday"}, {"#(da), Ltd.", "Friday"}};

/* What a person has in the field that the next call names. */
static const char *field_of(const trac_machine *machine, const char *const *person) {
    char field[8] = "";
    trac_argument(machine, 1, field, sizeof field - 1);
    return person[strcmp(field, "name") ? 1 : 0];
}

int main(void) {
    static trac_cell block[512];
    static trac_machine machine;
    char printed[256];
    trac_report report;
    trac_open(&machine, block, 512, 1000);
    trac_stop_at_unknown(&machine, 1);
    trac_define_text(&machine, "letter", 6, letter, sizeof letter - 1);
    for (size_t i = 0; i < sizeof people / sizeof people[0]; i++) {
        size_t read = 0;
        trac_again(&machine, 1000);
        do {
            report = trac_turn(&machine, script + read, sizeof script - 1 - read, 1, printed, sizeof printed, 1000);
            fwrite(printed, 1, report.written, stdout);
            read += report.consumed;
            if (report.fate == TRAC_WANTS_ANSWER) {
                const char *value = field_of(&machine, people[i]);
                report = trac_answer(&machine, value, strlen(value), TRAC_UNSCANNED);
            }
        } while (report.fate == TRAC_GOING);
    }
    return report.fate != TRAC_INPUT_ENDED;
}
