/* What is suspicious in files, by the rules of the engine. */
#include "terminal.h"

/* The initial number of bytes for the lists of a check, and for its lines; and how many more there are for each byte of
 * the script, up to MOST_COUNTED. If they aren't enough, the script is checked again. */
enum { LEAST_LISTS = 1 << 22, LEAST_LINES = 1 << 22, LISTS_A_BYTE = 128, LINES_A_BYTE = 16, MOST_COUNTED = 1 << 23 };

/* Makes room for a number of bytes in an empty text. Gives 0 if there is no memory for it. */
static int has_room(text *of, size_t room) {
    of->length = 0;
    of->is_short = 0;
    return reserve(of, room);
}

/* Makes the initial room for a script of the given length. Gives 0 if there is no memory for it. */
static int has_initial_room(checker *with, size_t length) {
    const size_t counted = length < MOST_COUNTED ? length : MOST_COUNTED;
    return (has_room(&with->lists, LEAST_LISTS + LISTS_A_BYTE * counted) &&
            has_room(&with->lines, LEAST_LINES + LINES_A_BYTE * counted)) ||
           (has_room(&with->lists, LEAST_LISTS) && has_room(&with->lines, LEAST_LINES));
}

/* Checks a script in a block of zeros, so that only the cells that its run uses are written. Gives 0 if there is no
 * memory for the block. */
static int check_in_zeros(const checker *with, const text *script, trac_report *report) {
    trac_cell *const block = (trac_cell *)calloc(with->cells, sizeof *block);
    if (block)
        *report = trac_check_zeroed(block, with->cells, with->steps, script->bytes, script->length, with->lists.bytes,
                                    with->lists.room, with->lines.bytes, with->lines.room);
    free(block);
    return block != NULL;
}

int check_script(checker *with, const text *script, trac_report *report) {
    if (!has_initial_room(with, script->length))
        return 0;
    size_t lists = with->lists.room, lines = with->lines.room;
    while (has_room(&with->lists, lists) && has_room(&with->lines, lines)) {
        if (!check_in_zeros(with, script, report))
            return 0;
        if (report->fate == TRAC_NO_MEMORY)
            lists = 4 * with->lists.room;
        else if (report->wanted > report->written)
            lines = report->wanted;
        else
            return 1;
    }
    return 0;
}

/* The status of a check, from how the run ended and from whether there are lines. */
static int status_of(const trac_report *report, int has_lines) {
    if (report->fate == TRAC_WORKSPACE)
        return WORKSPACE;
    if (report->fate == TRAC_STEPS)
        return STEPS;
    return has_lines ? SUSPICIOUS : DONE;
}

/* Adds a line of a check after the shown name of the file. Lines that come before the file's own aren't counted. */
static void add_line(checker *with, const text *name, const char *line, size_t length, size_t before) {
    char number[32] = "";
    size_t at = 0;
    unsigned long long told = 0;
    if (before && length > 5 && !memcmp(line, "line ", 5))
        for (at = 5; at < length && line[at] >= '0' && line[at] <= '9'; at++)
            told = 10 * told + (unsigned long long)(line[at] - '0');
    if (at && told <= before)
        return;
    if (at)
        (void)snprintf(number, sizeof number, "line %llu", told - before);
    add_bytes(&with->print, name->bytes, name->length);
    add_text(&with->print, number);
    add_bytes(&with->print, line + at, length - at);
}

/* Prints the lines of a check of a file. Gives the status. */
static int print_lines(checker *with, const char *name, const trac_report *report) {
    const size_t looks = with->print.length;
    const char *line = (const char *)with->lines.bytes, *const end = line + report->written;
    text shown = {NULL, 0, 0, 0};
    size_t before = 0;
    add_shown(&shown, name, strlen(name));
    add_text(&shown, ": ");
    for (size_t i = 0; i < with->front.length; i++)
        before += with->front.bytes[i] == '\n';
    while (line < end) {
        const size_t length = (size_t)((const char *)memchr(line, '\n', (size_t)(end - line)) + 1 - line);
        add_line(with, &shown, line, length, before);
        line += length;
    }
    with->print.is_short |= shown.is_short;
    free(shown.bytes);
    if (with->print.is_short)
        return NO_MEMORY;
    if (!write_all(STDOUT_FILENO, with->print.bytes, with->print.length))
        return OUTPUT_FAILED;
    return status_of(report, with->print.length > looks);
}

/* Replaces a first line that begins with `#!` by layout, so that the other lines keep their numbers. */
static void blank_head(text *of) {
    const size_t head = head_length(of);
    if (head)
        memset(of->bytes, '\r', head - (of->bytes[head - 1] == '\n'));
}

/* Makes the script that is checked, from a file and the text that comes before it. Notes whether the file looks like an
 * old listing. Gives 0 if there is no memory. */
static int prepare(checker *with, const char *name, text *script) {
    text whole = {NULL, 0, 0, 0};
    with->print.length = 0;
    add_looks(&with->print, name, script);
    blank_head(script);
    if (!with->front.length)
        return 1;
    add_bytes(&whole, with->front.bytes, with->front.length);
    add_bytes(&whole, script->bytes, script->length);
    free(script->bytes);
    *script = whole;
    return !whole.is_short;
}

/* Checks a file. Gives the status. */
static int check_file(checker *with, const char *name) {
    text script = {NULL, 0, 0, 0};
    trac_report report;
    int status = INPUT_FAILED;
    if (read_file(&script, name)) {
        status = prepare(with, name, &script) && check_script(with, &script, &report) ? print_lines(with, name, &report)
                                                                               : NO_MEMORY;
    } else
        say_not_read(name);
    if (status == NO_MEMORY)
        (void)say_line(DONE, "trac_terminal: no memory to check a file\n");
    free(script.bytes);
    return status;
}

int worse(int a, int b) {
    const int is_first = !b || (a && a != SUSPICIOUS && (b == SUSPICIOUS || a > b));
    return is_first ? a : b;
}

int check_files(char *const *names, size_t count, const char *with_file, size_t cells, uint64_t steps) {
    checker with = {cells, steps, {NULL, 0, 0, 0}, {NULL, 0, 0, 0}, {NULL, 0, 0, 0}, {NULL, 0, 0, 0}};
    int worst = DONE;
    if (with_file && !read_file(&with.front, with_file)) {
        say_not_read(with_file);
        return INPUT_FAILED;
    }
    blank_head(&with.front);
    if (with.front.length)
        add_text(&with.front, "\n");
    for (size_t i = 0; i < count && worst != OUTPUT_FAILED; i++)
        worst = worse(worst, check_file(&with, names[i]));
    free(with.lists.bytes);
    free(with.lines.bytes);
    free(with.print.bytes);
    free(with.front.bytes);
    return worst;
}
