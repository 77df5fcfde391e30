/* exhaustive LENGTH PART PARTS LETTERS: runs every script of up to LENGTH bytes over #(),' and these letters in both
 * engines of engines.h: in every room from none to one more than its peak, and with every allowance up to its steps, in
 * one run, and in turns of one byte and one step. The scripts are divided among PARTS processes, and this is one of
 * them. Prints how many runs were made, and ends with 1 if some differ. */
#include "engines.h"

#include <stdlib.h>

enum { AMPLE = 64, ALLOWED = 300, LONGEST = 8, ROOM = 256 };

static unsigned long runs, differences;

static void count(int same, const uint8_t *script, size_t length, size_t cells, uint64_t steps) {
    runs++;
    if (!same && differences++ < 5)
        printf("%.*s differs in %zu cells and %llu steps\n", (int)length, (const char *)script, cells,
               (unsigned long long)steps);
}

static trac_report at_once(const uint8_t *script, size_t length, size_t cells, uint64_t steps) {
    trac_report told;
    count(run_both(script, length, cells, steps, ROOM, &told), script, length, cells, steps);
    return told;
}

/* Gives the machines the script byte by byte, for one step each time. */
static void by_turns(const uint8_t *script, size_t length, size_t cells, uint64_t steps, const trac_report *whole) {
    size_t start = 0, given = 0, written = 0;
    trac_report told = {TRAC_GOING, 0, 0, 0, 0, 0};
    int same = open_both(cells, steps);
    while (same && (told.fate == TRAC_GOING || told.fate == TRAC_WANTS_INPUT)) {
        given += told.fate == TRAC_WANTS_INPUT;
        same = turn_both(script + start, given - start, ROOM, given == length, 1, &told);
        start += told.consumed;
        written += told.written;
    }
    same = same && told.fate == whole->fate && told.steps == whole->steps && told.peak == whole->peak &&
           written == whole->written;
    count(same, script, length, cells, steps);
}

static void all_of(const uint8_t *script, size_t length) {
    const trac_report ample = at_once(script, length, AMPLE, ALLOWED);
    by_turns(script, length, AMPLE, ALLOWED, &ample);
    for (size_t cells = 0; cells <= ample.peak + 1u; cells++) {
        const trac_report told = at_once(script, length, cells, ALLOWED);
        by_turns(script, length, cells, ALLOWED, &told);
    }
    for (uint64_t steps = 0; steps <= ample.steps; steps++)
        at_once(script, length, AMPLE, steps);
}

int main(int words, char **word) {
    if (words != 5 || atoi(word[1]) > LONGEST)
        return 2;
    char letters[64];
    snprintf(letters, sizeof letters, "#(),'%.50s", word[4]);
    const unsigned long most = strlen(letters), longest = strtoul(word[1], NULL, 10);
    const unsigned long part = strtoul(word[2], NULL, 10), parts = strtoul(word[3], NULL, 10);
    unsigned long scripts = 1;
    for (unsigned long length = 0; length <= longest; length++, scripts *= most)
        for (unsigned long at = part; at < scripts; at += parts) {
            uint8_t script[LONGEST];
            unsigned long rest = at;
            for (unsigned long i = 0; i < length; i++, rest /= most)
                script[i] = (uint8_t)letters[rest % most];
            all_of(script, length);
        }
    printf("%lu runs, %lu differ\n", runs, differences);
    return differences > 0;
}
