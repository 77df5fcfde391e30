#include "trac.h"
#include <stdio.h>
#include <string.h>

static size_t read_sensor(const char *name, char *value, size_t room) {
    return (size_t)snprintf(value, room, "%d", strcmp(name, "indoors") ? 4 : 21);
}

int main(void) {
    static trac_cell block[256];
    static trac_machine machine;
    const char *script = "#(ps,Indoors #(sensor,indoors)(, )outdoors #(sensor,outdoors).)'";
    char printed[64], name[16] = "", value[16];
    trac_report report;
    trac_open(&machine, block, 256, 1000);
    trac_stop_at_unknown(&machine, 1);
    for (size_t length = strlen(script);;) {
        report = trac_turn(&machine, script, length, 1, printed, sizeof printed, 1000);
        fwrite(printed, 1, report.written, stdout);
        script += report.consumed, length -= report.consumed;
        if (report.fate != TRAC_WANTS_ANSWER)
            break;
        const size_t size = trac_argument(&machine, 1, name, sizeof name - 1);
        name[size < sizeof name ? size : sizeof name - 1] = 0;
        trac_answer(&machine, value, read_sensor(name, value, sizeof value), TRAC_BY_MODE);
    }
    putchar('\n');
    return report.fate != TRAC_INPUT_ENDED;
}
