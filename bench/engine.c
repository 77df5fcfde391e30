/* Runs standard input in an engine of trac.h, with 4,000,000 cells and a billion steps, and writes what it
 * prints. It is linked with the engine in C and with the proved library, to compare the two. */

#include "trac.h"

#include <stdio.h>
#include <stdlib.h>

enum { CELLS = 4000000, MOST = 1 << 26 };

int main(void) {
    trac_cell *block = calloc(CELLS, sizeof *block);
    char *script = malloc(MOST), *output = malloc(MOST);
    if (!block || !script || !output)
        return 1;
    const trac_report report =
        trac_run_zeroed(block, CELLS, 1000000000, script, fread(script, 1, MOST, stdin), output, MOST);
    fwrite(output, 1, report.written, stdout);
    return report.fate != TRAC_INPUT_ENDED;
}
