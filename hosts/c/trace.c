/* The program trac_trace over the engine in C: its options, lines and statuses are those of the proved program.
 * trac_trace_step gives the lines for a step, and trac_check those about what is suspicious. Written by hand, and
 * tested. */
#include "terminal.h"

/* The bytes of a read, and of a write. Lines are also written before each read. */
enum { CHUNK = 8192, WRITTEN = 65536 };

#define MOST_STEPS UINT64_C(1000000000000)
/* The maximum width of a text or a line, and the maximum number of steps that `--last` shows. */
#define MOST_WIDTH UINT64_C(16777216)
#define MOST_LAST UINT64_C(1000000)

static const char HELP[] =
    "Shows what a TRAC T-64 script from standard input does\n\n"
    "Usage: trac_trace [OPTIONS] < SCRIPT\n"
    "       trac_trace [OPTIONS] --check FILE ..\n"
    "       trac_trace --version\n\n"
    "Options:\n"
    "      --cells <N>    Cells of the workspace, 1 to 16777216 [default: 65536]\n"
    "      --steps <N>    Steps that are allowed, 1 to 1000000000000 [default: 1000000]\n"
    "      --from <N>     The first step to show, 1 to 1000000000000 [default: 1]\n"
    "      --to <N>       The last step to show, 1 to 1000000000000 [default: 1000000000000]\n"
    "      --last <N>     How many of the last steps of the view to show, 0 for all, to 1000000 [default: 0]\n"
    "      --width <N>    Bytes of a text in a line, 0 for all, to 16777216 [default: 100]\n"
    "      --columns <N>  Columns of a line, 0 for any number, to 16777216 [default: 0]\n"
    "      --calls        Show the calls that are performed\n"
    "      --forms        Show the forms that change, and all at the end\n"
    "      --warn         Show only what is suspicious\n"
    "  -h, --help         Print help\n";

/* The options, and their places. */
enum { CELLS, ALLOWANCE, FROM, TO, LAST, WIDTH, COLUMNS, CALLS, FORMS, WARN };
static option options[] = {{"--cells", 0, TAKES_SIGNED, "<N>", 1, TRAC_MOST_CELLS, NULL, 65536, NULL, 0},
                           {"--steps", 0, TAKES_UNSIGNED, "<N>", 1, MOST_STEPS, NULL, 1000000, NULL, 0},
                           {"--from", 0, TAKES_UNSIGNED, "<N>", 1, MOST_STEPS, NULL, 1, NULL, 0},
                           {"--to", 0, TAKES_UNSIGNED, "<N>", 1, MOST_STEPS, NULL, MOST_STEPS, NULL, 0},
                           {"--last", 0, TAKES_UNSIGNED, "<N>", 0, MOST_LAST, NULL, 0, NULL, 0},
                           {"--width", 0, TAKES_SIGNED, "<N>", 0, MOST_WIDTH, NULL, 100, NULL, 0},
                           {"--columns", 0, TAKES_SIGNED, "<N>", 0, MOST_WIDTH, NULL, 0, NULL, 0},
                           {"--calls", 0, TAKES_NOTHING, NULL, 0, 0, NULL, 0, NULL, 0},
                           {"--forms", 0, TAKES_NOTHING, NULL, 0, 0, NULL, 0, NULL, 0},
                           {"--warn", 0, TAKES_NOTHING, NULL, 0, 0, NULL, 0, NULL, 0},
                           {"--help", 'h', TAKES_NOTHING, NULL, 0, 0, HELP, 0, NULL, 0},
                           {NULL, 0, TAKES_NOTHING, NULL, 0, 0, NULL, 0, NULL, 0}};

static int no_memory(void) { return say_line(NO_MEMORY, "trac_trace: no memory\n"); }

static int not_written(void) { return say_line(OUTPUT_FAILED, "trac_trace: output failed\n"); }

/* ---- A run that is shown. */

/* The bytes that were read are in `input`, and are consumed up to `start`. `end` says what comes after them: more
 * bytes, the end, or a read that failed. Lines that aren't written yet are in `print`. */
typedef struct {
    trac_machine machine;
    trac_trace trace;
    text input, output, print;
    size_t start;
    int end;
    int keeps_input; /* what was consumed stays, for another run */
    int is_shown;    /* lines are printed */
    uint8_t *memory; /* the number of bytes, which are followed by as many bytes for lines */
    size_t memory_length;
} tracer;

static int flush(tracer *of) {
    const size_t length = of->print.length;
    of->print.length = 0;
    return write_all(STDOUT_FILENO, of->print.bytes, length);
}

/* Reads once, into the memory after the input, and writes the lines so far. Gives TRAC_GOING, or the fate that ends the
 * run: there is no memory, or the lines can't be written. */
static uint32_t read_more(tracer *of) {
    if (!flush(of))
        return TRAC_OUTPUT_FAILED;
    if (!of->keeps_input && of->start) {
        of->input.length -= of->start;
        memmove(of->input.bytes, of->input.bytes + of->start, of->input.length);
        of->start = 0;
    }
    if (!reserve(&of->input, CHUNK))
        return TRAC_NO_MEMORY;
    const ssize_t count = read_once(STDIN_FILENO, of->input.bytes + of->input.length, CHUNK);
    of->end = count > 0 ? TRAC_INPUT_GOES_ON : count == 0 ? TRAC_INPUT_ENDS : TRAC_INPUT_FAILS;
    of->input.length += count > 0 ? (size_t)count : 0;
    return TRAC_GOING;
}

/* Gives a turn or a step what it asks for, if it asks for something. Gives its fate, or the fate that there is none of
 * what it asks for. */
static uint32_t give(tracer *of, const trac_report *report) {
    of->start += report->consumed;
    if (report->fate == TRAC_WANTS_OUTPUT)
        return reserve(&of->output, report->wanted) ? TRAC_WANTS_OUTPUT : TRAC_NO_MEMORY;
    if (report->fate != TRAC_WANTS_INPUT)
        return report->fate;
    const uint32_t became = read_more(of);
    return became == TRAC_GOING ? TRAC_WANTS_INPUT : became;
}

/* Makes a step, and adds its lines to those that will be written. */
static trac_report step(tracer *of) {
    trac_report report;
    do {
        uint8_t *const lines = of->memory + of->memory_length;
        report = trac_trace_step(&of->machine, &of->trace, of->input.bytes + of->start, of->input.length - of->start,
                                 of->end, of->output.bytes, of->output.room, of->memory, of->memory_length, lines,
                                 of->memory_length);
        if (of->is_shown)
            add_bytes(&of->print, lines, (size_t)of->trace.lines);
        report.fate = give(of, &report);
    } while (report.fate == TRAC_WANTS_INPUT || report.fate == TRAC_WANTS_OUTPUT);
    if (of->print.is_short)
        report.fate = TRAC_NO_MEMORY;
    else if (of->print.length >= WRITTEN && !flush(of))
        report.fate = TRAC_OUTPUT_FAILED;
    return report;
}

/* The numbers of the last steps for which something was shown, in a ring. */
typedef struct {
    uint64_t *numbers;
    size_t most, count;
} last_steps;

/* Shows a run up to its end, and notes the steps for which something was shown. */
static trac_report run(tracer *of, last_steps *last) {
    uint64_t noted = 0;
    trac_report report;
    do {
        report = step(of);
        if (last && of->trace.shown != noted) {
            noted = of->trace.shown;
            last->numbers[last->count++ % last->most] = noted;
        }
    } while (report.fate == TRAC_GOING);
    if (report.fate != TRAC_OUTPUT_FAILED && !flush(of))
        report.fate = TRAC_OUTPUT_FAILED;
    return report;
}

/* Runs the script without a trace. */
static trac_report run_unseen(tracer *of) {
    trac_report report;
    do {
        report = trac_turn(&of->machine, of->input.bytes + of->start, of->input.length - of->start,
                           of->end == TRAC_INPUT_ENDS, of->output.bytes, of->output.room, UINT64_MAX);
        const int has_failed = report.fate == TRAC_WANTS_INPUT && of->end == TRAC_INPUT_FAILS;
        report.fate = has_failed ? TRAC_INPUT_FAILED : give(of, &report);
    } while (report.fate == TRAC_WANTS_INPUT || report.fate == TRAC_WANTS_OUTPUT);
    return report;
}

/* What to show, by the options. */
static trac_trace asked(void) {
    trac_trace trace = TRAC_NO_TRACE;
    trace.from = options[FROM].number;
    trace.to = options[TO].number;
    trace.width = (uint32_t)options[WIDTH].number;
    trace.columns = (uint32_t)options[COLUMNS].number;
    trace.calls = (uint32_t)options[CALLS].number;
    trace.forms = (uint32_t)options[FORMS].number;
    return trace;
}

/* Finds the first of the last steps for which the view shows something, by a run whose input is kept. If the steps
 * themselves are shown, their total number is enough. Gives TRAC_GOING, or the reason why there is no second run. */
static uint32_t find_first(tracer *of, uint64_t *first) {
    const uint64_t most = options[LAST].number;
    trac_report report;
    if (!options[CALLS].number && !options[FORMS].number) {
        report = run_unseen(of);
        *first = report.steps < most ? 1 : report.steps - most + 1;
    } else {
        last_steps last = {(uint64_t *)malloc((size_t)most * sizeof(uint64_t)), (size_t)most, 0};
        if (!last.numbers)
            return TRAC_NO_MEMORY;
        of->trace = asked();
        of->trace.from = 1;
        of->trace.to = UINT64_MAX;
        report = run(of, &last);
        *first = !last.count ? 1 : last.numbers[last.count < last.most ? 0 : last.count % last.most];
        free(last.numbers);
    }
    return report.fate == TRAC_NO_MEMORY || report.fate == TRAC_OUTPUT_FAILED ? report.fate : TRAC_GOING;
}

/* The status after a run. */
static int status_after(uint32_t fate) {
    switch (fate) {
    case TRAC_WORKSPACE:
        return WORKSPACE;
    case TRAC_STEPS:
        return STEPS;
    case TRAC_INPUT_FAILED:
        return INPUT_FAILED;
    default:
        return DONE;
    }
}

/* Shows the last steps of a run: it is run twice, the second time over the input that the first run read. */
static uint32_t show_last(tracer *of, trac_cell *block) {
    uint64_t first = 1;
    of->keeps_input = 1;
    of->is_shown = 0;
    const uint32_t became = find_first(of, &first);
    if (became != TRAC_GOING)
        return became;
    (void)trac_open(&of->machine, block, (size_t)options[CELLS].number, options[ALLOWANCE].number);
    of->start = 0;
    of->is_shown = 1;
    of->trace = asked();
    of->trace.from = first > of->trace.from ? first : of->trace.from;
    return run(of, NULL).fate;
}

/* Allocates memory for the lists and the lines of a step, as much as a step can need: memory that isn't used costs
 * nothing. If the system gives less, a step may run out of it. */
static int take_memory(tracer *of) {
    const size_t for_a_cell = options[COLUMNS].number ? 256 : 96;
    of->memory_length = ((size_t)1 << 20) + (size_t)options[CELLS].number * for_a_cell;
    while (!(of->memory = (uint8_t *)malloc(2 * of->memory_length)) && of->memory_length > (size_t)1 << 20)
        of->memory_length /= 2;
    return of->memory != NULL;
}

static int show(void) {
    static tracer all;
    const size_t cells = (size_t)options[CELLS].number;
    trac_cell *const block = (trac_cell *)calloc(cells, sizeof *block);
    if (!block || !take_memory(&all) || !reserve(&all.input, CHUNK) || !reserve(&all.output, CHUNK) ||
        trac_open_zeroed(&all.machine, block, cells, options[ALLOWANCE].number))
        return no_memory();
    all.is_shown = 1;
    all.trace = asked();
    const uint32_t fate = options[LAST].number ? show_last(&all, block) : run(&all, NULL).fate;
    return fate == TRAC_NO_MEMORY       ? no_memory()
           : fate == TRAC_OUTPUT_FAILED ? not_written()
                                        : status_after(fate);
}

/* ---- What is suspicious. */

/* The status of a checked script, from how its run ended and from the number of warnings. */
static int status_of(uint32_t fate, size_t warnings) {
    const int status = status_after(fate);
    return status || !warnings ? status : SUSPICIOUS;
}

/* The place of the fault's line among the lines of a check: the end of the lines if there is no such line. */
static size_t place_of_fault(const checker *with, const trac_report *report) {
    size_t place = report->written;
    if (status_after(report->fate) && place)
        while (--place && with->lines.bytes[place - 1] != '\n')
            continue;
    return place;
}

static size_t lines_in(const uint8_t *bytes, size_t length) {
    size_t count = 0;
    for (size_t i = 0; i < length; i++)
        count += bytes[i] == '\n';
    return count;
}

/* If reading fails after a script, the line of that fault comes after the lines of its check. A check has no such
 * input, so the line is made by a trace. Gives 0 if there is no memory. */
static int add_failed_end(checker *with, text *script, trac_report *report) {
    static tracer of;
    of.input = *script;
    of.end = TRAC_INPUT_FAILS;
    trac_cell *const block = (trac_cell *)calloc(with->cells, sizeof *block);
    if (!block || !take_memory(&of) || !reserve(&of.output, CHUNK) ||
        trac_open_zeroed(&of.machine, block, with->cells, with->steps))
        return 0;
    const size_t written = report->written;
    *report = run(&of, NULL);
    const uint8_t *const lines = of.memory + of.memory_length;
    const uint8_t *const end = (const uint8_t *)memchr(lines, '\n', (size_t)of.trace.lines);
    with->lines.length = written;
    add_bytes(&with->lines, lines, end ? (size_t)(end + 1 - lines) : 0);
    report->written = with->lines.length;
    *script = of.input;
    return report->fate == TRAC_INPUT_FAILED && !with->lines.is_short;
}

/* Reads all of standard input. Gives 0 if there is no memory for it. */
static int read_input(text *to, int *has_failed) {
    ssize_t count = 1;
    while (count > 0 && reserve(to, CHUNK)) {
        count = read_once(STDIN_FILENO, to->bytes + to->length, CHUNK);
        to->length += count > 0 ? (size_t)count : 0;
    }
    *has_failed = count < 0;
    return !to->is_short;
}

/* A checker by the options. */
static checker make_checker(void) {
    return (checker){(size_t)options[CELLS].number, options[ALLOWANCE].number, {NULL, 0, 0, 0}, {NULL, 0, 0, 0},
                     {NULL, 0, 0, 0}, {NULL, 0, 0, 0}};
}

static int show_warnings(void) {
    text script = {NULL, 0, 0, 0};
    trac_report report;
    int has_failed;
    if (!read_input(&script, &has_failed))
        return no_memory();
    checker with = make_checker();
    if (!check_script(&with, &script, &report))
        return no_memory();
    if (has_failed && report.fate == TRAC_INPUT_ENDED && !add_failed_end(&with, &script, &report))
        return no_memory();
    if (!write_all(STDOUT_FILENO, with.lines.bytes, report.written))
        return not_written();
    return status_of(report.fate, lines_in(with.lines.bytes, place_of_fault(&with, &report)));
}

/* Adds the lines of a check, each after the file's name, and the line with the totals. Gives the status. */
static int print_check(checker *with, const char *name, const trac_report *report) {
    const char *line = (const char *)with->lines.bytes, *const fault = line + place_of_fault(with, report);
    char summary[160];
    const size_t warnings = lines_in(with->lines.bytes, (size_t)(fault - line));
    with->print.length = 0;
    while (line < fault) {
        const size_t length = (size_t)((const char *)memchr(line, '\n', (size_t)(fault - line)) + 1 - line);
        add_text(&with->print, name);
        add_text(&with->print, ": ");
        add_bytes(&with->print, line, length);
        line += length;
    }
    add_text(&with->print, name);
    (void)snprintf(summary, sizeof summary, ": warnings %zu; ", warnings);
    add_text(&with->print, summary);
    (void)snprintf(summary, sizeof summary, "%s: %" PRIu64 " steps, peak %" PRIu32 " cells\n",
                   trac_fate_name(report->fate), report->steps, report->peak);
    if (status_after(report->fate))
        add_bytes(&with->print, fault, report->written - (size_t)(fault - (const char *)with->lines.bytes));
    else
        add_text(&with->print, summary);
    if (with->print.is_short)
        return NO_MEMORY;
    return write_all(STDOUT_FILENO, with->print.bytes, with->print.length) ? status_of(report->fate, warnings)
                                                                         : OUTPUT_FAILED;
}

/* Prints a line about a file, and gives the status. */
static int say_of_file(int status, const char *before, const char *name, const char *behind) {
    text shown = {NULL, 0, 0, 0};
    (void)say_line(status, "trac_trace: %s%s%s\n", before, shown_in(&shown, name, strlen(name)), behind);
    free(shown.bytes);
    return status;
}

static int check_file(checker *with, const char *name) {
    text script = {NULL, 0, 0, 0};
    trac_report report;
    int status;
    if (!read_file(&script, name))
        status = errno == ENOMEM   ? NO_MEMORY
                 : errno == ENOENT ? say_of_file(INPUT_FAILED, "can't read ", name, ": there is no such file")
                 : errno == EACCES ? say_of_file(INPUT_FAILED, "can't read ", name, ": it may not be read")
                 : errno == EISDIR ? say_of_file(INPUT_FAILED, "can't read ", name, ": it is a folder")
                                   : say_of_file(INPUT_FAILED, "can't read ", name, ": the system refuses it");
    else
        status = check_script(with, &script, &report) ? print_check(with, name, &report) : NO_MEMORY;
    if (status == NO_MEMORY)
        (void)say_of_file(status, "no memory to check ", name, "");
    free(script.bytes);
    return status == OUTPUT_FAILED ? not_written() : status;
}

static int check_all(char **names) {
    checker with = make_checker();
    int worst = DONE;
    if (!*names)
        return say_line(USAGE, "trac_trace: --check needs the name of a file\n");
    for (; *names && worst != OUTPUT_FAILED; names++) {
        const int status = check_file(&with, *names);
        worst = status == OUTPUT_FAILED ? status : worse(worst, status);
    }
    return worst;
}

/* ---- The program. */

static int show_version(void) {
    static const char line[] = "trac_trace " TRAC_VERSION "\n";
    return write_all(STDOUT_FILENO, line, sizeof line - 1) ? DONE : not_written();
}

/* The files after `--check`, which ends the options; a null pointer if there is no `--check`. */
static char **files_to_check(char **words) {
    while (*words && strcmp(*words, "--check"))
        words++;
    if (!*words)
        return NULL;
    *words = NULL;
    return words + 1;
}

int main(int count, char **words) {
    command given = {"trac_trace [OPTIONS] < SCRIPT\n"
                     "       trac_trace [OPTIONS] --check FILE ..\n"
                     "       trac_trace --version",
                     options, 0, NULL, 0, NULL, NULL};
    char *none[] = {NULL, NULL}, **const all = count ? words : none;
    (void)signal(SIGPIPE, SIG_IGN);
    if (count == 2 && !strcmp(all[1], "--version"))
        return show_version();
    char **const files = are_utf8(all + 1) ? files_to_check(all + 1) : NULL;
    const int status = take_words(&given, all + 1);
    if (status >= 0)
        return status;
    return files ? check_all(files) : options[WARN].number ? show_warnings() : show();
}
