/* The program trac_terminal over the engine in C: it runs files, and then the strings that are typed, each when its
 * meta character comes, on one machine. Each string is a separate run, in turns of few steps, so that ^C can stop it.
 * Written by hand, and tested. */
#include "terminal.h"

#include <fcntl.h>
#include <locale.h>
#include <sys/wait.h>

/* The bytes of a read; the room in addition to a print, so that the print is measured only once; the longest end of a
 * line that is remembered. */
enum { CHUNK = 8192, MORE = 16, LONGEST_END = 4000 };

/* Fates in addition to those of the engine: ^C stopped the run; a saved session can't be loaded; a command made the
 * machine run something else, so that the run of the string begins again. If there is no memory the fate is
 * TRAC_REFUSED. */
#define STOPPED 100u
#define NOT_LOADED 101u
#define BEGINS_ANEW 102u

static const char HELP[] =
    "Runs files, and then the TRAC T-64 strings that are typed, each with its own steps\n\n"
    "Usage: trac_terminal [OPTIONS] [FILE ..]\n\n"
    "Options:\n"
    "      --cells <N>    Cells of the workspace, 1 to 16777216 [default: 65536]\n"
    "      --steps <N>    Steps that each string may take, 1 to 1000000000000 [default: 1000000]\n"
    "      --batch        Run the files and end, with the status of the worst\n"
    "      --check        Tell what is suspicious in the files, and end\n"
    "      --convert      Print old listings as scripts for this program, and end\n"
    "      --with <FILE>  Run this file in front, or in front of each that is checked\n"
    "      --save <FILE>  Save the forms in a file at the end, as an image in FILE.image\n"
    "  -q, --quiet        Say nothing but faults\n"
    "  -h, --help         Print help\n"
    "  -V, --version      Print version\n";

static const char COMMANDS[] =
    "A string is run when its meta character comes, at first the apostrophe:\n"
    "#(ps,hello)' prints a word. While it is missing, the prompt shows it.\n"
    "Behind #( the Tab key completes names of functions and forms.\n"
    "^C drops what is half typed, or stops what runs; forms stay.\n"
    "^D ends the session, and so does #(hl)'\n"
    ":save FILE  saves the forms as a script, for another day\n"
    ":save FILE.image saves them as an image, whose place all forms take at :load\n"
    ":load FILE  runs a file, or loads what was saved\n"
    ":check FILE tells what is suspicious in a file, and runs nothing of it here\n"
    ":help       shows this\n"
    "::          begins a string that begins with one colon\n"
    "The language: man 7 trac. This program: man trac_terminal.\n";

static const char VERSION[] = "trac_terminal " TRAC_VERSION "\n";

/* The options, and their places. */
enum { CELLS, ALLOWANCE, BATCH, CHECK, CONVERT, WITH, SAVE, QUIET };
static option options[] = {{"--cells", 0, TAKES_SIGNED, "<N>", 1, TRAC_MOST_CELLS, NULL, 65536, NULL, 0},
                           {"--steps", 0, TAKES_UNSIGNED, "<N>", 1, UINT64_C(1000000000000), NULL, 1000000, NULL, 0},
                           {"--batch", 0, TAKES_NOTHING, NULL, 0, 0, NULL, 0, NULL, 0},
                           {"--check", 0, TAKES_NOTHING, NULL, 0, 0, NULL, 0, NULL, 0},
                           {"--convert", 0, TAKES_NOTHING, NULL, 0, 0, NULL, 0, NULL, 0},
                           {"--with", 0, TAKES_TEXT, "<FILE>", 0, 0, NULL, 0, NULL, 0},
                           {"--save", 0, TAKES_TEXT, "<FILE>", 0, 0, NULL, 0, NULL, 0},
                           {"--quiet", 'q', TAKES_NOTHING, NULL, 0, 0, NULL, 0, NULL, 0},
                           {"--help", 'h', TAKES_NOTHING, NULL, 0, 0, HELP, 0, NULL, 0},
                           {"--version", 'V', TAKES_NOTHING, NULL, 0, 0, VERSION, 0, NULL, 0},
                           {NULL, 0, TAKES_NOTHING, NULL, 0, 0, NULL, 0, NULL, 0}};

/* Where strings are read from: a file, or what is typed. The bytes from `start` on aren't consumed. */
typedef struct {
    const char *name; /* of the file; null if strings are typed */
    int is_terminal;
    text bytes;
    size_t start;
    int has_ended;
    int is_behind;       /* whether the last byte that was consumed ended a string that was typed */
    int has_read;        /* whether the run has read its string */
    size_t line, column; /* of the bytes that aren't consumed */
    size_t string_line, string_column;
} source;

/* A session: the machine, its block, and its output. */
typedef struct {
    trac_machine machine;
    trac_cell *block;
    text print;
    char end[LONGEST_END + 1]; /* what was printed since the last line end, if that isn't longer than this */
    size_t end_length;         /* its whole length */
    watch calls;
} session;

/* ---- Statuses. */

/* The fate of a file that is loaded: TRAC_GOING, or what kept all of it from being defined. */
static uint32_t fate_of_loading(loading became) {
    static const uint32_t fates[] = {TRAC_GOING, NOT_LOADED, NOT_LOADED, TRAC_WORKSPACE, TRAC_STEPS,     TRAC_REFUSED,
                                     STOPPED,    NOT_LOADED, NOT_LOADED, NOT_LOADED,     TRAC_WORKSPACE, TRAC_REFUSED};
    return fates[became];
}

static int status_of(uint32_t fate) {
    static const int statuses[] = {DONE,         DONE,          DONE, WORKSPACE, STEPS,
                                   INPUT_FAILED, OUTPUT_FAILED, DONE, DONE,      NO_MEMORY};
    if (fate == NOT_LOADED)
        return OUTPUT_FAILED;
    return fate < sizeof statuses / sizeof *statuses ? statuses[fate] : DONE;
}

/* ---- Printing. */

/* Remembers what is on the last line. */
static void keep_end(session *of, const uint8_t *bytes, size_t length) {
    for (size_t i = 0; i < length; i++) {
        of->end_length = bytes[i] == '\n' ? 0 : of->end_length + 1;
        if (of->end_length && of->end_length <= LONGEST_END)
            of->end[of->end_length - 1] = (char)bytes[i];
    }
}

static int print(session *of, const uint8_t *bytes, size_t length) {
    keep_end(of, bytes, length);
    return write_all(STDOUT_FILENO, bytes, length);
}

/* Adds a line end to what was printed, if that doesn't end with one. */
static int end_line(session *of) { return !of->end_length || print(of, (const uint8_t *)"\n", 1); }

/* ---- Reading. */

/* Runs a file, or loads the saved session in it, and reports what went wrong. */
static void load_file(session *of, const char *name);

static const uint8_t *unread(const source *from) {
    return from->bytes.bytes ? from->bytes.bytes + from->start : (const uint8_t *)"";
}

static size_t unread_length(const source *from) { return from->bytes.length - from->start; }

/* Skips bytes. A column is a byte of ASCII or a character of UTF-8. */
static void pass(source *from, size_t count) {
    for (const uint8_t *at = unread(from), *end = at + count; at < end; at++) {
        const int is_end = *at == '\n', is_first = (*at & 0xC0) != 0x80;
        from->line += (size_t)is_end;
        from->column = is_end ? 1 : from->column + (size_t)is_first;
    }
    from->start += count;
}

static int is_layout(uint8_t byte) { return byte == '\t' || byte == '\n' || byte == '\r'; }

/* How many bytes of layout precede the rest of what isn't consumed. */
static size_t layout_length(const source *from) {
    size_t count = 0;
    while (count < unread_length(from) && is_layout(unread(from)[count]))
        count++;
    return count;
}

/* Notes where a string begins, after layout. */
static void note_place(source *from) {
    const source before = *from;
    pass(from, layout_length(from));
    const size_t line = from->line, column = from->column;
    *from = before;
    from->string_line = line;
    from->string_column = column;
}

/* Tells whether the file of an image can be loaded over this block. Gives the status. */
static int check_image(const char *name, trac_cell *block) {
    trac_machine machine = TRAC_NO_MACHINE;
    text bytes = {NULL, 0, 0, 0};
    int status = INPUT_FAILED;
    if (!read_file(&bytes, name)) {
        say_not_read(name);
    } else {
        (void)trac_open(&machine, block, (size_t)options[CELLS].number, 0);
        const loading became = load_image(&machine, bytes.bytes, bytes.length);
        if (became != LOADED)
            say_not_loaded(name, became);
        status = status_of(fate_of_loading(became));
    }
    free(bytes.bytes);
    return status;
}

/* Tells what is suspicious in a file; whether an image can be loaded, over this block. Gives the status. */
static int check(char *name, trac_cell *block) {
    if (is_image_name(name))
        return check_image(name, block);
    return check_files(&name, 1, options[WITH].text, (size_t)options[CELLS].number, options[ALLOWANCE].number);
}

/* Does so for each file, and gives the worst status. */
static int check_all(const command *given, trac_cell *block) {
    int worst = DONE;
    for (size_t i = 0; i < given->file_count && worst != OUTPUT_FAILED; i++)
        worst = worse(worst, check(given->files[i], block));
    return worst;
}

/* Reports what is suspicious in a file, in a separate block, and ends the process. */
static void check_and_end(char *name) {
    (void)signal(SIGINT, SIG_DFL);
    trac_cell *const block = (trac_cell *)calloc((size_t)options[CELLS].number, sizeof *block);
    if (block)
        (void)check(name, block);
    else
        (void)say_line(DONE, "trac_terminal: no memory to check a file\n");
    _exit(DONE);
}

/* Makes another process do that, which ^C ends, and waits for it. */
static void check_one(char *name) {
    const pid_t child = fork();
    if (child == 0)
        check_and_end(name);
    if (child < 0)
        (void)say_line(DONE, "trac_terminal: can't check a file: %s\n", strerror(errno));
    while (child > 0 && waitpid(child, NULL, 0) < 0 && errno == EINTR)
        continue;
    is_interrupted = 0;
}

/* The file that a command names, if the line is that command; otherwise a null pointer. */
static char *file_of(char *line, const char *command) {
    const size_t length = strlen(command);
    return !strncmp(line, command, length) && line[length] ? line + length : NULL;
}

/* Handles a line that begins with a colon, which is a command unless it begins with two colons. Gives READ, or what
 * happened to the string that was about to be typed: a file was run. */
static reading do_command(session *of, char *line) {
    char *name;
    line[strcspn(line, "\n")] = 0;
    if ((name = file_of(line, ":load ")) != NULL) {
        load_file(of, name);
        return READ_ELSEWHERE;
    }
    if ((name = file_of(line, ":save ")) != NULL)
        (void)save_forms(&of->machine, (size_t)options[CELLS].number, options[ALLOWANCE].number, name);
    else if ((name = file_of(line, ":check ")) != NULL)
        check_one(name);
    else if (!strcmp(line, ":help"))
        (void)write_all(STDERR_FILENO, COMMANDS, sizeof COMMANDS - 1);
    else
        (void)say_line(DONE, "trac_terminal: no such command; try :help\n");
    return READ;
}

/* Reads a line at a place where a string may begin, or commands up to such a line. */
static reading type_first_line(session *of, source *from) {
    text line = {NULL, 0, 0, 0};
    reading became = READ;
    int is_command = 0;
    do {
        if (is_command)
            became = do_command(of, (char *)line.bytes);
        if (became != READ)
            break;
        line.length = 0;
        became = type_line(&line, "> ", 0, &from->has_ended);
        is_command = line.length > 1 && line.bytes[0] == ':' && line.bytes[1] != ':';
        add_bytes(&line, "", (size_t)is_command);
    } while (became == READ && is_command);
    const size_t colons = line.length > 1 && line.bytes[0] == ':';
    if (became == READ)
        add_bytes(&from->bytes, line.bytes ? line.bytes + colons : NULL, line.length - colons);
    free(line.bytes);
    return from->bytes.is_short ? READ_SHORT : became;
}

/* Reads a line at the terminal. If a string has begun, the prompt shows the meta character that ends it. If the script
 * itself reads, the prompt is what it printed. */
static reading type_more(session *of, source *from) {
    const uint32_t meta = trac_meta(&of->machine);
    const char missing[] = {(char)(meta > ' ' && meta < 127 ? meta : '.'), '>', ' ', 0};
    const int is_pending = unread_length(from) > layout_length(from);
    if (is_pending)
        return type_line(&from->bytes, missing, 0, &from->has_ended);
    if (!from->has_read)
        return type_first_line(of, from);
    const int is_kept = of->end_length <= LONGEST_END;
    of->end[is_kept ? of->end_length : 0] = 0;
    const reading became = type_line(&from->bytes, is_kept ? of->end : NULL, 1, &from->has_ended);
    of->end_length = 0;
    return became;
}

/* Reads more of what is typed, after the bytes that aren't consumed, which are moved to the front. */
static reading read_more(session *of, source *from) {
    if (from->start)
        memmove(from->bytes.bytes, unread(from), unread_length(from));
    from->bytes.length -= from->start;
    from->start = 0;
    if (from->is_terminal)
        return type_more(of, from);
    if (!reserve(&from->bytes, CHUNK))
        return READ_SHORT;
    const ssize_t count = read_once(STDIN_FILENO, from->bytes.bytes + from->bytes.length, CHUNK);
    from->has_ended = count == 0;
    from->bytes.length += count > 0 ? (size_t)count : 0;
    return count < 0 ? READ_FAILED : READ;
}

/* The fate of a run whose reading gave this result; TRAC_GOING if the run can go on. */
static uint32_t fate_of(reading became) {
    static const uint32_t fates[] = {TRAC_GOING, TRAC_INPUT_FAILED, STOPPED, TRAC_REFUSED, BEGINS_ANEW};
    return fates[became];
}

/* Drops the line feed after a string that was typed: it comes from the key that sent the line. */
static void drop_line_feed(source *from) {
    if (!from->is_behind || !unread_length(from))
        return;
    from->is_behind = 0;
    if (*unread(from) == '\n')
        pass(from, 1);
}

/* Notes that a string was read up to its end. */
static void end_string(source *from) {
    from->has_read = 1;
    from->is_behind = !from->name;
}

/* Skips the rest of a string that doesn't fit, up to its meta character or to the end of the input. */
static uint32_t pass_over(session *of, source *from) {
    const int meta = (int)trac_meta(&of->machine);
    for (;;) {
        const uint8_t *const rest = unread(from);
        const size_t length = unread_length(from);
        const uint8_t *const found = length ? (const uint8_t *)memchr(rest, meta, length) : NULL;
        pass(from, found ? (size_t)(found - rest) + 1 : length);
        if (found || from->has_ended)
            break;
        const reading became = read_more(of, from);
        if (became != READ)
            return fate_of(became);
    }
    end_string(from);
    return TRAC_WORKSPACE;
}

/* Whether the bytes read are enough for the next step, which reads: a byte, or a string that ends or that is too long
 * for the cells. No string ends in the bytes before `seen`. */
static int is_enough(const session *of, const source *from, size_t seen) {
    const size_t length = unread_length(from), most = trac_part(&of->machine, TRAC_PART_FREE) + 1;
    if (from->has_ended || length <= seen)
        return from->has_ended;
    return trac_awaits(&of->machine) == TRAC_AWAITS_BYTE || length > most ||
           memchr(unread(from) + seen, (int)trac_meta(&of->machine), length - seen);
}

/* Reads what the next step needs. */
static reading feed(session *of, source *from) {
    reading became = READ;
    size_t seen = 0;
    drop_line_feed(from);
    while (became == READ && !is_enough(of, from, seen)) {
        seen = unread_length(from);
        became = read_more(of, from);
        drop_line_feed(from);
    }
    return became;
}

/* Makes a step that reads. */
static trac_report make_reading_step(session *of, source *from) {
    const int reads_string = trac_awaits(&of->machine) == TRAC_AWAITS_TEXT;
    const reading became = feed(of, from);
    if (!from->has_read)
        note_place(from);
    trac_report report =
        trac_turn(&of->machine, unread(from), unread_length(from), from->has_ended, NULL, 0, became == READ);
    if (became != READ)
        report.fate = fate_of(became);
    pass(from, report.consumed);
    if (reads_string && became == READ && report.fate == TRAC_GOING)
        end_string(from);
    else if (reads_string && report.fate == TRAC_WORKSPACE)
        report.fate = pass_over(of, from);
    return report;
}

/* ---- Running. */

/* Makes steps that don't read. What a step prints is printed before the next step is made. */
static trac_report make_steps(session *of, uint64_t most) {
    trac_report report = trac_turn(&of->machine, NULL, 0, 0, NULL, 0, most);
    if (report.fate != TRAC_WANTS_OUTPUT)
        return report;
    of->print.length = 0;
    if (!reserve(&of->print, report.wanted + MORE)) {
        report.fate = TRAC_REFUSED;
        return report;
    }
    report = trac_turn(&of->machine, NULL, 0, 0, of->print.bytes, of->print.room, 1);
    if (!print(of, of->print.bytes, report.written)) {
        report.fate = TRAC_OUTPUT_FAILED;
        report.steps--;
    }
    return report;
}

/* Ends the line on which the terminal shows the ^C that stopped a run, if nothing else ends it. */
static uint32_t stop(const session *of) {
    if (!of->end_length || !isatty(STDOUT_FILENO))
        (void)write_all(STDERR_FILENO, "\n", 1);
    return STOPPED;
}

/* Runs a string. TRAC_GOING: it was run to its end. */
static trac_report run_string(session *of, source *from) {
    watch *const calls = options[QUIET].number ? NULL : &of->calls;
    trac_report report;
    from->has_read = 0;
    begin_watch(&of->calls);
    (void)trac_again(&of->machine, options[ALLOWANCE].number);
    do {
        const uint64_t most = look_ahead(calls, &of->machine);
        report = trac_awaits(&of->machine) == TRAC_AWAITS_NOTHING ? make_steps(of, most) : make_reading_step(of, from);
        if (is_interrupted && report.fate == TRAC_GOING)
            report.fate = stop(of);
    } while (report.fate == TRAC_GOING && trac_rule(&of->machine) != TRAC_RULE_IDLING);
    return report;
}

/* ---- Messages. */

/* A fault in words; an empty text if no fault ended the run. */
static void write_fault(char *to, size_t room, const trac_report *report) {
    const uint64_t cells = options[CELLS].number, steps = options[ALLOWANCE].number, step = report->steps + 1;
    *to = 0;
    if (report->fate == TRAC_WORKSPACE)
        (void)snprintf(to, room, "workspace of %" PRIu64 " cells full at step %" PRIu64, cells, step);
    else if (report->fate == TRAC_STEPS)
        (void)snprintf(to, room, "allowance of %" PRIu64 " steps used up", steps);
    else if (report->fate == TRAC_INPUT_FAILED)
        (void)snprintf(to, room, "input failed at step %" PRIu64, step);
    else if (report->fate == TRAC_OUTPUT_FAILED)
        (void)snprintf(to, room, "output failed at step %" PRIu64, step);
    else if (report->fate == TRAC_REFUSED)
        (void)snprintf(to, room, "no memory for step %" PRIu64, step);
    else if (report->fate == STOPPED)
        (void)snprintf(to, room, "stopped at step %" PRIu64, step);
}

/* Prints a line; with --batch, after the place of the string. */
static void say_of(const source *from, const char *line) {
    text shown = {NULL, 0, 0, 0};
    if (from->name && options[BATCH].number)
        (void)say_line(DONE, "%s:%zu:%zu: %s\n", shown_in(&shown, from->name, strlen(from->name)), from->string_line,
                       from->string_column, line);
    else
        (void)say_line(DONE, "trac: %s\n", line);
    free(shown.bytes);
}

/* Reports the calls that did nothing, and how the run of a string ended. ^C while nothing runs is no fault. */
static void say_end(session *of, const source *from, const trac_report *report) {
    const text *const lines = &of->calls.lines;
    char fault[100];
    for (size_t at = 0; at < lines->length; at += strlen((const char *)lines->bytes + at) + 1)
        say_of(from, (const char *)lines->bytes + at);
    write_fault(fault, sizeof fault, report);
    if (*fault && (report->fate != STOPPED || from->has_read))
        say_of(from, fault);
}

/* ---- Sources. */

/* Whether no more strings are read after this fate. */
static int ends_source(const source *from, uint32_t fate) {
    if (fate == STOPPED)
        return from->name != NULL;
    return (fate != TRAC_WORKSPACE && fate != TRAC_STEPS) || !from->has_read;
}

/* Discards what was typed, after ^C. */
static void drop_typed(source *from) {
    is_interrupted = 0;
    if (!from->name)
        from->bytes.length = from->start = 0;
    from->is_behind = 0;
}

/* Runs the strings of a source. Gives the fate of the last string, and the worst status of all. */
static uint32_t run_strings(session *of, source *from, int *worst) {
    for (;;) {
        trac_report report = run_string(of, from);
        if (report.fate == BEGINS_ANEW)
            continue;
        if (report.fate != TRAC_OUTPUT_FAILED && (!from->name || report.fate == STOPPED) && !end_line(of))
            report.fate = TRAC_OUTPUT_FAILED;
        say_end(of, from, &report);
        *worst = status_of(report.fate) > *worst ? status_of(report.fate) : *worst;
        if (report.fate == STOPPED)
            drop_typed(from);
        if (report.fate != TRAC_GOING && ends_source(from, report.fate))
            return report.fate;
    }
}

/* The result of running the files: the worst status, whether a file wasn't read or loaded, and whether more may be
 * run. */
typedef struct {
    int worst, is_unread, goes_on;
} outcome;

/* Loads an image, and says how many forms it took the place of. */
static loading load_image_of(session *of, const source *from) {
    const size_t count = trac_form_count(&of->machine);
    const loading became = load_image(&of->machine, unread(from), unread_length(from));
    text shown = {NULL, 0, 0, 0};
    if (became == LOADED && count && !options[QUIET].number)
        (void)say_line(DONE, "trac_terminal: %s: the image took the place of %zu form%s\n",
                       shown_in(&shown, from->name, strlen(from->name)), count, count == 1 ? "" : "s");
    free(shown.bytes);
    return became;
}

static int is_image_in(const source *from) { return is_image(from->name, unread(from), unread_length(from)); }

/* Loads a saved session. Gives TRAC_GOING, or the fate because of which nothing of it was defined. */
static uint32_t load(session *of, source *from) {
    const loading became = is_image_in(from)
                               ? load_image_of(of, from)
                               : load_session(&of->machine, of->block, (size_t)options[CELLS].number,
                                              options[ALLOWANCE].number, unread(from), unread_length(from));
    if (became == LOADING_STOPPED) {
        (void)stop(of);
        drop_typed(from);
    }
    if (became != LOADED)
        say_not_loaded(from->name, became);
    return fate_of_loading(became);
}

/* Runs the strings of a file after a first line that begins with `#!`, or loads the file if it is a saved session. Adds
 * a line end to its output. Gives the fate of the last string, or TRAC_INPUT_FAILED if the file can't be read. */
static uint32_t run_file(session *of, const char *name, outcome *became) {
    source from = {name, 0, {NULL, 0, 0, 0}, 0, 1, 0, 0, 1, 1, 1, 1};
    uint32_t fate = TRAC_INPUT_FAILED;
    if (!read_file(&from.bytes, name)) {
        say_not_read(name);
    } else {
        pass(&from, head_length(&from.bytes));
        const int is_saved = is_image_in(&from) || is_saved_session(unread(&from), unread_length(&from));
        fate = is_saved ? load(of, &from) : run_strings(of, &from, &became->worst);
        became->is_unread |= is_saved && fate != TRAC_GOING;
        fate = fate != TRAC_OUTPUT_FAILED && !end_line(of) ? TRAC_OUTPUT_FAILED : fate;
    }
    free(from.bytes.bytes);
    became->is_unread |= fate == TRAC_INPUT_FAILED;
    became->worst = status_of(fate) > became->worst ? status_of(fate) : became->worst;
    return fate;
}

static void load_file(session *of, const char *name) {
    outcome became = {DONE, 0, 1};
    (void)run_file(of, name, &became);
}

/* Runs the files, beginning with the file of --with. Runs no more files if the output failed, if there is no memory,
 * or, without --batch, if a file can't be read or loaded. */
static outcome run_files(session *of, const command *given) {
    outcome became = {DONE, 0, 1};
    uint32_t fate = TRAC_GOING;
    const size_t front = options[WITH].text != NULL;
    for (size_t i = 0; fate != STOPPED && became.goes_on && i < front + given->file_count; i++) {
        fate = run_file(of, i < front ? options[WITH].text : given->files[i - front], &became);
        became.goes_on = fate != TRAC_OUTPUT_FAILED && fate != TRAC_REFUSED &&
                         (!became.is_unread || fate == STOPPED || options[BATCH].number);
    }
    return became;
}

/* Runs what is typed, and gives the status. */
static int run_typed(session *of) {
    source from = {NULL, isatty(STDIN_FILENO), {NULL, 0, 0, 0}, 0, 0, 0, 0, 1, 1, 1, 1};
    int worst = DONE;
    if (from.is_terminal && !options[QUIET].number)
        (void)say_line(DONE, "TRAC T-64, trac_terminal %s: ^D ends, :help helps\n", trac_version());
    const int status = status_of(run_strings(of, &from, &worst));
    free(from.bytes.bytes);
    return status;
}

/* Saves the forms if --save asks for it, and gives the status. If a file wasn't read, its forms are missing, so the
 * earlier saved session stays. */
static int save(session *of, const outcome *files, int status) {
    const char *const name = options[SAVE].text;
    int is_saved = !name;
    if (name && files->is_unread)
        (void)say_line(DONE, "trac_terminal: the forms aren't saved, since a file wasn't read\n");
    else if (name)
        is_saved = save_forms(&of->machine, (size_t)options[CELLS].number, options[ALLOWANCE].number, name);
    return is_saved || status ? status : OUTPUT_FAILED;
}

/* Runs everything, and gives the status. */
static int run_all(session *of, const command *given) {
    const int is_typed = !options[BATCH].number;
    if (is_typed && isatty(STDIN_FILENO))
        begin_typing(&of->machine);
    const outcome files = run_files(of, given);
    return save(of, &files, is_typed && files.goes_on ? run_typed(of) : files.worst);
}

/* Refuses options that need a file if there is none, and options that exclude each other. Gives 0 if the options are
 * valid. */
static int refuse_together(const command *given) {
    const option *const alone = &options[options[CONVERT].number ? CONVERT : options[CHECK].number ? CHECK : BATCH];
    const char *other = options[BATCH].number ? "--batch" : options[SAVE].text ? "--save <FILE>" : NULL;
    if (alone->number && !given->file_count)
        return say_line(USAGE, "error: the following required arguments were not provided:\n  <FILE>...\n\n"
                               "Usage: trac_terminal %s <FILE>..." HINT, alone->name);
    if (options[CHECK].number && options[WITH].text && is_image_name(options[WITH].text))
        return say_line(USAGE, "error: an image can't be run in front of what is checked: '--with %s'" HINT,
                        options[WITH].text);
    if (options[CONVERT].number && !other)
        other = options[CHECK].number ? "--check" : options[WITH].text ? "--with <FILE>" : NULL;
    if (alone == &options[BATCH] || !other)
        return 0;
    return say_line(USAGE, "error: the argument '%s' cannot be used with '%s'\n\nUsage: %s" HINT, alone->name, other,
                    given->usage);
}

static int refuse_image(const char *name) {
    text shown = {NULL, 0, 0, 0};
    const int status = say_line(INPUT_FAILED, "trac_terminal: %s: an image is no listing\n",
                                shown_in(&shown, name, strlen(name)));
    free(shown.bytes);
    return status;
}

/* Prints old listings as scripts. Gives the worst status. */
static int convert_files(const command *given) {
    int worst = DONE;
    for (size_t i = 0; i < given->file_count && worst != OUTPUT_FAILED; i++)
        worst = worse(worst, is_image_name(given->files[i]) ? refuse_image(given->files[i])
                                                            : convert_file(given->files[i]));
    return worst;
}

int main(int count, char **words) {
    static session all;
    command given = {"trac_terminal [OPTIONS] [FILE ..]", options, 1, NULL, 0, NULL, NULL};
    (void)signal(SIGPIPE, SIG_IGN);
    (void)setlocale(LC_CTYPE, "");
    const int status = count ? take_words(&given, words + 1) : -1;
    if (status >= 0)
        return status;
    const int refused = refuse_together(&given);
    if (refused)
        return refused;
    if (options[CONVERT].number)
        return convert_files(&given);
    const size_t cells = (size_t)options[CELLS].number;
    trac_cell *const block = (trac_cell *)calloc(cells, sizeof(trac_cell));
    if (block && options[CHECK].number)
        return check_all(&given, block);
    if (!block || trac_open_zeroed(&all.machine, block, cells, options[ALLOWANCE].number))
        return say_line(NO_MEMORY, "trac: no memory for %zu cells\n", cells);
    all.block = block;
    return run_all(&all, &given);
}
