/* The program trac over the engine in C: its options, lines and statuses are those of the proved program, and it reads
 * and prints as that does. Written by hand, and tested, not proved. It makes turns by trac_turn, and gives them room
 * for output only when a step asks for it: so each print is one write, made before the next step. */
#define _POSIX_C_SOURCE 200809L
#include "trac.h"
#include "words.h"

#include <signal.h>

/* The bytes of a read, and of a print that needs no more memory; the room in addition to a print, so that the print is
 * measured only once. */
enum { CHUNK = 8192, MORE = 16 };

static const char HELP[] =
    "Runs a TRAC T-64 script from standard input\n\n"
    "Usage: trac [OPTIONS] < SCRIPT\n\n"
    "Options:\n"
    "      --cells <N>  Cells of the workspace, 1 to 16777216 [default: 65536]\n"
    "      --steps <N>  Steps that are allowed, 1 to 1000000000000 [default: 1000000]\n"
    "      --report     Print the steps and the peak\n"
    "  -h, --help       Print help\n";

/* The options, and their places. */
enum { CELLS, ALLOWANCE, REPORT };
static option options[] = {{"--cells", 0, TAKES_SIGNED, "<N>", 1, TRAC_MOST_CELLS, NULL, 65536, NULL, 0},
                           {"--steps", 0, TAKES_UNSIGNED, "<N>", 1, UINT64_C(1000000000000), NULL, 1000000, NULL, 0},
                           {"--report", 0, TAKES_NOTHING, NULL, 0, 0, NULL, 0, NULL, 0},
                           {"--help", 'h', TAKES_NOTHING, NULL, 0, 0, HELP, 0, NULL, 0},
                           {NULL, 0, TAKES_NOTHING, NULL, 0, 0, NULL, 0, NULL, 0}};

/* ---- The devices. */

/* The bytes that were read and not consumed, from `bytes + start` on. There is room for a full workspace and one more
 * read. */
typedef struct {
    uint8_t *bytes;
    size_t start, length;
    int ended;
} source;

/* Reads once. Gives 0 if that failed. */
static int read_more(source *from) {
    const ssize_t count = read_once(STDIN_FILENO, from->bytes + from->length, CHUNK);
    from->ended = count == 0;
    from->length += count > 0 ? (size_t)count : 0;
    return count >= 0;
}

/* Reads until the next step can be done: until there is a byte, or a string that ends or that is too long for the
 * cells. Gives 0 if a read failed. */
static int feed(const trac_machine *machine, source *from) {
    const int meta = (int)trac_meta(machine);
    const size_t most = trac_awaits(machine) == TRAC_AWAITS_BYTE ? 0 : trac_part(machine, TRAC_PART_FREE) + 1;
    size_t seen;
    memmove(from->bytes, from->bytes + from->start, from->length);
    from->start = 0;
    do {
        seen = from->length;
        if (!read_more(from))
            return 0;
    } while (!from->ended && from->length <= most && !memchr(from->bytes + seen, meta, from->length - seen));
    return 1;
}

/* ---- The run. */

/* The room for one print. */
typedef struct {
    uint8_t *bytes;
    size_t room;
} sink;

/* Makes the room at least this large. Gives 0 if there is no memory for it. */
static int reserve(sink *to, size_t wanted) {
    uint8_t *const bytes = wanted <= to->room ? to->bytes : (uint8_t *)realloc(to->bytes, wanted);
    if (bytes)
        *to = (sink){bytes, wanted > to->room ? wanted : to->room};
    return bytes != NULL;
}

/* Makes a turn, with room for one print if the step asked for that, and otherwise without room. Writes what was
 * printed. */
static trac_report turn(trac_machine *machine, source *from, const sink *to, size_t room) {
    trac_report report = trac_turn(machine, from->bytes + from->start, from->length, from->ended, to->bytes, room,
                                   room ? 1 : UINT64_MAX);
    from->start += report.consumed;
    from->length -= report.consumed;
    if (!write_all(STDOUT_FILENO, to->bytes, report.written)) {
        report.fate = TRAC_OUTPUT_FAILED;
        report.steps--;
    }
    return report;
}

/* Runs the script, and gives the fate of the run. TRAC_REFUSED: there is no memory for a print. */
static trac_report run(trac_machine *machine, size_t cells, source *from, sink *to) {
    trac_report report = turn(machine, from, to, 0);
    while (report.fate == TRAC_GOING || report.fate == TRAC_WANTS_INPUT || report.fate == TRAC_WANTS_OUTPUT) {
        if (report.fate == TRAC_WANTS_OUTPUT && !reserve(to, report.wanted + MORE)) {
            report.fate = TRAC_REFUSED;
        } else if (report.fate == TRAC_WANTS_INPUT && !feed(machine, from)) {
            /* the step's need, for the part of its string that was read so far */
            const size_t text = trac_awaits(machine) == TRAC_AWAITS_TEXT ? from->length : 0;
            const uint32_t need = (uint32_t)(cells - trac_part(machine, TRAC_PART_FREE) - 1 + text);
            report.fate = TRAC_INPUT_FAILED;
            report.peak = need > report.peak ? need : report.peak;
        } else {
            report = turn(machine, from, to, report.wanted ? report.wanted + MORE : 0);
        }
    }
    return report;
}

/* Prints the line on how the run ended, and gives the status. The step that the line names is the one that wasn't
 * done. */
static int ended(const trac_report *report) {
    const uint64_t cells = options[CELLS].number, step = report->steps + 1;
    if (options[REPORT].number && report->fate != TRAC_REFUSED)
        say_line(DONE, "trac: %" PRIu64 " steps, peak %" PRIu32 " cells\n", report->steps, report->peak);
    switch (report->fate) {
    case TRAC_WORKSPACE:
        return say_line(WORKSPACE, "trac: workspace of %" PRIu64 " cells full at step %" PRIu64 "\n", cells, step);
    case TRAC_STEPS:
        return say_line(STEPS, "trac: allowance of %" PRIu64 " steps used up\n", options[ALLOWANCE].number);
    case TRAC_INPUT_FAILED:
        return say_line(INPUT_FAILED, "trac: input failed at step %" PRIu64 "\n", step);
    case TRAC_OUTPUT_FAILED:
        return say_line(OUTPUT_FAILED, "trac: output failed at step %" PRIu64 "\n", step);
    case TRAC_REFUSED:
        return say_line(NO_MEMORY, "trac: no memory for %" PRIu64 " cells\n", cells);
    default:
        return DONE;
    }
}

int main(int count, char **words) {
    static trac_machine machine;
    command given = {"trac [OPTIONS] < SCRIPT", options, 0, NULL, 0, NULL, NULL};
    trac_report report = {TRAC_REFUSED, 0, 0, 0, 0, 0};
    (void)signal(SIGPIPE, SIG_IGN);
    const int status = count ? take_words(&given, words + 1) : -1;
    if (status >= 0)
        return status;
    const size_t cells = (size_t)options[CELLS].number, longest = cells + 1;
    sink to = {(uint8_t *)malloc(CHUNK), CHUNK};
    trac_cell *const block = (trac_cell *)calloc(cells * sizeof(trac_cell) + longest + CHUNK, 1);
    if (block && to.bytes && trac_open_zeroed(&machine, block, cells, options[ALLOWANCE].number) == 0) {
        source from = {(uint8_t *)(block + cells), 0, 0, 0};
        report = run(&machine, cells, &from, &to);
    }
    return ended(&report);
}
