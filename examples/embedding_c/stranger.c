#include "trac.h"
#include <stdio.h>
#include <string.h>

enum { CELLS = 400, STEPS = 2000, OUTPUT = 24, FORMS = 50 };

static trac_cell block[CELLS];
static trac_machine machine;

static int keeps_too_much(void) { return trac_part(&machine, TRAC_PART_STORE) > FORMS; }

static void delete_last_form(void) {
    char name[CELLS];
    trac_form form = TRAC_NO_FORM;
    for (size_t left = trac_form_count(&machine); left; left--)
        trac_next_form(&machine, &form);
    trac_delete(&machine, name, trac_form_name(&form, name, sizeof name));
}

/* Runs a script within its budgets, and says how it ended. */
static const char *run(const char *script) {
    char printed[OUTPUT];
    size_t length = strlen(script), written = 0;
    trac_report report;
    trac_again(&machine, STEPS);
    trac_set_meta(&machine, '\'');
    do {
        report = trac_turn(&machine, script, length, 1, printed + written, OUTPUT - written, 50);
        script += report.consumed;
        length -= report.consumed;
        written += report.written;
    } while (report.fate == TRAC_GOING && !keeps_too_much());
    fwrite(printed, 1, written, stdout);
    if (!keeps_too_much())
        return report.fate == TRAC_WANTS_OUTPUT ? "prints too much" : trac_fate_name(report.fate);
    while (keeps_too_much())
        delete_last_form();
    return "keeps too much";
}

int main(void) {
    static const char *const scripts[] = {
        "#(ds,A,kept)#(ps,hello)'",
        "#(ds,B,(#(cl,B)))#(cl,B)'",
        "#(ds,C,(#(ps,spam )#(cl,C)))#(cl,C)'",
        "#(ds,D,one)#(ds,E,two)#(ds,F,three)#(hl)'",
        "#(ps,kept:##(ln, ))'",
    };
    trac_open(&machine, block, CELLS, STEPS);
    for (size_t i = 0; i < sizeof scripts / sizeof scripts[0]; i++)
        printf(": %s\n", run(scripts[i]));
    return 0;
}
