/* c_library turns CELLS STEPS MOST ROOM PIECE ..: the same by trac_turn, with MOST steps a turn, once
 * for each ROOM and PIECE: the script is given in pieces of PIECE bytes, and each turn has an output
 * of ROOM bytes, or of as many as a step asked for.
 * c_library CELLS STEPS ROOM [STACK]: runs the script on standard input, by trac_run, in a block of
 * CELLS cells with an output of ROOM bytes; with STACK on a stack of so many bytes, between pages
 * that can't be touched. Writes the output on standard output, and the numbers of the report on
 * standard error. Each buffer is as large as is said and no larger, and the block is filled with
 * bytes that are no cells, so that a sanitizer sees each access outside of them.
 * c_library view CELLS STEPS MOST: opens a machine over CELLS cells with an allowance of STEPS, gives
 * it the script on standard input, and writes a line before each of its first MOST steps: the rule,
 * what the step reads, the meta character, the cells of the four parts, and the codes of both
 * strings. When the run is over, a line for each form: its pointer, and the codes of its name, of its
 * display and of its body. Each buffer is tried with too little room and with too much. The display
 * of each form whose name can be written in a call is compared with what `pf` prints.
 * c_library pointers: calls trac_run with pointers that it must refuse, and with null ones of length
 * 0, which it must not. */
#define _DEFAULT_SOURCE
#include "trac.h"

#include <inttypes.h>
#include <stdio.h>
#include <stdlib.h>
#include <string.h>
#include <sys/mman.h>
#include <ucontext.h>

static void *buffer(size_t bytes) {
    void *at = malloc(bytes ? bytes : 1);
    if (!at)
        exit(70);
    memset(at, 0xA5, bytes);
    return at;
}

static void tell(trac_report report) {
    fprintf(stderr, "%" PRIu32 " %" PRIu64 " %" PRIu32 " %zu %zu %zu\n", report.fate, report.steps,
            report.peak, report.written, report.consumed, report.wanted);
}

static struct {
    trac_cell *block;
    uint8_t *script, *output;
    size_t cells, script_len, room;
    uint64_t steps;
    trac_report report;
} run;

static void run_at_once(void) {
    run.report = trac_run(run.block, run.cells, run.steps, run.script, run.script_len, run.output,
                          run.room);
}

/* The same on a stack of the given number of bytes. */
static void run_on_stack(size_t bytes) {
    static ucontext_t here, there;
    const size_t page = 4096, held = (bytes + page - 1) / page * page;
    char *low = (char *)mmap(NULL, held + 2 * page, PROT_NONE, MAP_PRIVATE | MAP_ANONYMOUS, -1, 0);
    if (low == MAP_FAILED || mprotect(low + page, held, PROT_READ | PROT_WRITE) != 0)
        exit(70);
    getcontext(&there);
    there.uc_stack.ss_sp = low + page;
    there.uc_stack.ss_size = held;
    there.uc_link = &here;
    makecontext(&there, run_at_once, 0);
    swapcontext(&here, &there);
}

/* Whether a machine that can't be used is refused by every function. */
static int is_refused(trac_machine *machine) {
    trac_form form = TRAC_NO_FORM;
    uint32_t code;
    trac_trace trace = TRAC_NO_TRACE;
    return trac_turn(machine, "", 0, 1, NULL, 0, 9).fate == TRAC_REFUSED && trac_again(machine, 9) == TRAC_REFUSED &&
           trac_trace_step(machine, &trace, "", 0, 1, NULL, 0, NULL, 0, NULL, 0).fate == TRAC_REFUSED &&
           !trac_form_count(machine) && !trac_next_form(machine, &form) && !trac_neutral(machine, &code, 1) &&
           !trac_active(machine, &code, 1) && trac_rule(machine) == TRAC_REFUSED &&
           !trac_neutral_part(machine, 0, &code, 1) && !trac_active_part(machine, 0, &code, 1) &&
           !trac_calls(machine, &code, 1) && !trac_takes(machine) && !trac_drops(machine) &&
           !trac_steps_to_call(machine, 9) && !trac_take_peak(machine) &&
           !trac_part(machine, TRAC_PART_FREE) && trac_meta(machine) == 256 && trac_awaits(machine) == TRAC_REFUSED;
}

/* Whether a check reports what is suspicious, as much as there is room for, with lists at any place; reports a lack of
 * memory; and refuses arguments that can't be used. */
static int checks(void) {
    static const char script[] = "#(pss,a)'", line[] = "line 1, column 1: no function has the name pss\n";
    static char memory[65536];
    trac_cell cells[64];
    const size_t length = sizeof script - 1, whole = sizeof line - 1;
    char lines[100];
    for (size_t from = 0; from < 17; from++)
        for (size_t room = 0; room < sizeof lines; room += 33) {
            memset(lines, '?', sizeof lines);
            const trac_report told = trac_check(cells, 64, 999, script, length, memory + from, sizeof memory - from,
                                                lines, room);
            const size_t fits = room < whole ? room : whole;
            if (told.fate != TRAC_INPUT_ENDED || told.wanted != whole || told.written != fits || told.consumed ||
                memcmp(lines, line, fits) || lines[fits] != '?')
                return 1;
        }
    for (size_t size = 0; size < 300; size++)
        if (trac_check(cells, 64, 999, script, length, memory, size, lines, 0).fate != TRAC_NO_MEMORY)
            return 2;
    memset(cells, 0, sizeof cells);
    const trac_report told = trac_check_zeroed(cells, 64, 999, script, length, memory, sizeof memory, lines, whole);
    if (told.fate != TRAC_INPUT_ENDED || told.written != whole || memcmp(lines, line, whole))
        return 3;
    if (trac_check_zeroed(cells, TRAC_MOST_CELLS + 1, 9, script, length, memory, 99, lines, 9).fate != TRAC_REFUSED ||
        trac_check_zeroed(NULL, 64, 9, script, length, memory, 99, lines, 9).fate != TRAC_REFUSED)
        return 4;
    return trac_check(cells, 64, 999, script, length, NULL, 0, lines, 0).fate != TRAC_NO_MEMORY ||
           trac_check(cells, 64, 999, script, length, NULL, 99, lines, 0).fate != TRAC_REFUSED ||
           trac_check(cells, 64, 999, NULL, length, memory, 99, lines, 0).fate != TRAC_REFUSED ||
           trac_check(cells, 64, 999, script, length, memory, sizeof memory, NULL, 9).fate != TRAC_REFUSED ||
           trac_check(cells, TRAC_MOST_CELLS + 1, 9, script, length, memory, sizeof memory, lines, 9).fate !=
               TRAC_REFUSED;
}

/* Whether a form that was found is still there by its place. */
static int is_found(const trac_form *form) {
    char name[4];
    return trac_form_name(form, name, sizeof name) || trac_form_text(form, name, sizeof name) ||
           trac_form_codes(form, NULL, 0) || trac_form_pointer(form);
}

/* Whether a place in the list of forms is refused after a turn, after `again`, after a move and after another opening
 * with the same words, in the same block or in another one whose forms are the same. */
static int places(void) {
    static const char script[] = "#(ds,a,b)#(ds,c,d)'";
    trac_cell *cells = (trac_cell *)buffer(64 * sizeof *cells);
    trac_machine machine = TRAC_NO_MACHINE;
    for (int way = 0; way < 5; way++) {
        trac_form form, behind;
        form = behind = TRAC_NO_FORM;
        if (trac_open(&machine, cells, 64, 99) ||
            trac_turn(&machine, script, sizeof script - 1, 1, NULL, 0, 99).fate != TRAC_INPUT_ENDED ||
            !trac_next_form(&machine, &form) || !is_found(&form))
            return 1;
        while (trac_next_form(&machine, &behind))
            ;
        trac_cell *const other = (trac_cell *)buffer(64 * sizeof *cells);
        if (way == 0 && trac_turn(&machine, NULL, 0, 1, NULL, 0, 0).fate != TRAC_GOING)
            return 2;
        if (way == 1 && trac_again(&machine, 99))
            return 3;
        if (way == 2 && trac_open(&machine, cells, 64, 99))
            return 4;
        if (way >= 3) {
            memcpy(other, cells, 64 * sizeof *cells);
            free(cells);
            cells = other;
            if (way == 3 ? trac_moved(&machine, cells) : trac_open(&machine, cells, 64, 99))
                return 5;
        } else {
            free(other);
        }
        if (way != 3 && trac_turn(&machine, script, sizeof script - 1, 1, NULL, 0, 99).fate == TRAC_REFUSED)
            return 6;
        if (is_found(&form) || trac_next_form(&machine, &form) || is_found(&behind))
            return 7;
    }
    free(cells);
    return 0;
}

/* Whether a machine goes on from the same state when it and its block were moved, together and separately, at each
 * step. */
static int moves(void) {
    static const char script[] = "#(ds,A,(x#(ps,-y)z))#(ss,A,y)#(cl,A,1)#(cl,A,2)#(ps,##(cc,A)#(ad,41,1))'";
    char wanted[64], printed[64];
    trac_cell cells[96];
    const trac_report whole = trac_run(cells, 96, 999, script, sizeof script - 1, wanted, sizeof wanted);
    trac_cell *block = (trac_cell *)buffer(96 * sizeof *block);
    trac_machine *machine = (trac_machine *)buffer(sizeof *machine);
    size_t at = 0, written = 0;
    trac_report report = {0, 0, 0, 0, 0, 0};
    if (whole.fate != TRAC_INPUT_ENDED || trac_open(machine, block, 96, 999))
        return 1;
    for (int step = 0; report.fate == TRAC_GOING; step++) {
        report = trac_turn(machine, script + at, sizeof script - 1 - at, 1, printed + written, sizeof printed - written,
                           1);
        at += report.consumed;
        written += report.written;
        trac_cell *const to = (trac_cell *)buffer(96 * sizeof *to);
        trac_machine *const there = (trac_machine *)buffer(sizeof *there);
        memcpy(to, block, 96 * sizeof *to);
        memset(block, 0xA5, 96 * sizeof *block);
        memcpy(there, machine, sizeof *there);
        free(block);
        free(machine);
        block = to;
        machine = there;
        if (trac_moved(machine, block))
            return 2;
    }
    const int is_same = report.fate == whole.fate && report.steps == whole.steps && report.peak == whole.peak &&
                        written == whole.written && memcmp(printed, wanted, written) == 0;
    trac_cell *const crooked = (trac_cell *)(void *)((char *)block + 1);
    const int is_kept = trac_moved(NULL, block) == TRAC_REFUSED && trac_moved(machine, NULL) == TRAC_REFUSED &&
                        trac_moved(machine, crooked) == TRAC_REFUSED && trac_form_count(machine) == 1;
    free(block);
    free(machine);
    return is_same && is_kept ? 0 : 3;
}

/* Whether an opening that is refused leaves a machine as it was. */
static int refusals(void) {
    trac_cell cells[64], others[64];
    trac_machine machine = TRAC_NO_MACHINE;
    memset(others, 0xA5, sizeof others);
    if (trac_open(&machine, cells, 64, 99) || trac_turn(&machine, "#(ds,a,b)'", 10, 1, NULL, 0, 99).fate != 2)
        return 1;
    const trac_machine before = machine;
    if (trac_open(&machine, others, TRAC_MOST_CELLS + 1, 9) != TRAC_REFUSED ||
        trac_open(&machine, NULL, 64, 9) != TRAC_REFUSED ||
        trac_open(&machine, (trac_cell *)(void *)((char *)others + 1), 8, 9) != TRAC_REFUSED)
        return 2;
    for (size_t i = 0; i < sizeof others; i++)
        if (((const unsigned char *)others)[i] != 0xA5)
            return 3;
    return memcmp(&before, &machine, sizeof machine) || trac_form_count(&machine) != 1;
}

/* Steps that are shown, with memory of any size at any place, and with room for any part of their lines. */
static int traces(void) {
    static uint8_t memory[16384], lines[256];
    static trac_cell cells[64];
    static const char script[] = "#(ps,a)'", head[] = "  step  call\n";
    const trac_trace fresh = {1, UINT64_MAX, 0, 0, 1, 0, 0, 0, 0, 0, 0, 0, 0, 0, 0};
    trac_trace *const crooked = (trac_trace *)(void *)((char *)cells + 1);
    trac_machine machine = TRAC_NO_MACHINE;
    trac_trace trace = fresh;
    trac_report told;
    if (trac_open(&machine, cells, 64, 99) ||
        trac_trace_step(&machine, NULL, script, 8, 1, NULL, 0, memory, 99, lines, 9).fate != TRAC_REFUSED ||
        trac_trace_step(&machine, crooked, script, 8, 1, NULL, 0, memory, 99, lines, 9).fate != TRAC_REFUSED ||
        trac_trace_step(&machine, &trace, NULL, 8, 1, NULL, 0, memory, 99, lines, 9).fate != TRAC_REFUSED ||
        trac_trace_step(&machine, &trace, script, 8, 1, NULL, 9, memory, 99, lines, 9).fate != TRAC_REFUSED ||
        trac_trace_step(&machine, &trace, script, 8, 1, NULL, 0, NULL, 99, lines, 9).fate != TRAC_REFUSED ||
        trac_trace_step(&machine, &trace, script, 8, 1, NULL, 0, memory, 99, NULL, 9).fate != TRAC_REFUSED)
        return 1;
    /* Too little memory: nothing is done. */
    for (size_t size = 0; size < 4096; size += 15) {
        told = trac_trace_step(&machine, &trace, script, 8, 1, NULL, 0, size ? memory : NULL, size, lines, 9);
        if (told.fate != TRAC_NO_MEMORY || told.steps || told.consumed || told.written || trace.lines || trace.begun)
            return 2;
    }
    for (size_t from = 0; from < 33; from++) {
        for (size_t room = 0; room < sizeof head + 1; room++) {
            memset(lines, '.', sizeof lines);
            trace = fresh;
            if (trac_again(&machine, 99))
                return 3;
            told = trac_trace_step(&machine, &trace, script, 8, 1, NULL, 0, memory + from, sizeof memory - from, lines,
                                   room);
            const size_t some = room < sizeof head - 1 ? room : sizeof head - 1;
            if (told.fate != TRAC_GOING || told.steps != 1 || told.peak != 11 || trace.lines != sizeof head - 1 ||
                trace.shown || memcmp(lines, head, some) != 0 || lines[some] != '.')
                return 4;
        }
    }
    /* A step that waits for input has no lines. If reading fails, it ends the run, and each later step says so
     * again. */
    for (int i = 0; i < 7; i++)
        told = trac_trace_step(&machine, &trace, NULL, 0, 0, NULL, 0, memory, sizeof memory, lines, sizeof lines);
    told = trac_trace_step(&machine, &trace, NULL, 0, 0, NULL, 0, memory, sizeof memory, lines, sizeof lines);
    if (told.fate != TRAC_WANTS_INPUT || told.steps != 8 || trace.lines)
        return 5;
    for (int i = 0; i < 2; i++) {
        static const char end[] = "input failed: 8 steps, peak 11 cells\n";
        told = trac_trace_step(&machine, &trace, NULL, 0, TRAC_INPUT_FAILS, NULL, 0, memory, sizeof memory, lines,
                               sizeof lines);
        if (told.fate != TRAC_INPUT_FAILED || told.steps != 8 || memcmp(lines, end, sizeof end - 1) != 0)
            return 6;
    }
    return trac_take_peak(&machine) != 0 || trace.peak != 11;
}

static int pointers(void) {
    trac_cell cells[64];
    uint8_t byte[4] = {'a', 'b', 'c', '\''};
    char *at = (char *)cells;
    trac_cell *const one = (trac_cell *)(void *)(at + 1), *const two = (trac_cell *)(void *)(at + 2);
    trac_cell *const four = (trac_cell *)(void *)(at + 4);
    if (trac_run(NULL, 1, 9, byte, 4, byte, 0).fate != TRAC_REFUSED ||
        trac_run(one, 8, 9, byte, 4, byte, 0).fate != TRAC_REFUSED ||
        trac_run(two, 8, 9, byte, 4, byte, 0).fate != TRAC_REFUSED ||
        trac_run(cells, 8, 9, NULL, 4, NULL, 0).fate != TRAC_REFUSED ||
        trac_run(cells, 8, 9, NULL, 0, NULL, 1).fate != TRAC_REFUSED)
        return 1;
    if (trac_run(NULL, 0, 9, NULL, 0, NULL, 0).fate != TRAC_WORKSPACE ||
        trac_run(four, 60, 99, NULL, 0, NULL, 0).fate != TRAC_INPUT_ENDED ||
        trac_run(cells, 64, 99, byte, 4, NULL, 0).fate != TRAC_OUTPUT_FAILED)
        return 2;
    uint32_t *const crooked = (uint32_t *)(void *)(at + 1);
    trac_machine machine = {{0}}, other;
    trac_form form = TRAC_NO_FORM;
    if (!is_refused(NULL) || !is_refused(&machine) || !is_refused((trac_machine *)(void *)(at + 4)) ||
        trac_form_name(NULL, byte, 4) || trac_form_name(&form, byte, 4) || trac_next_form(&machine, NULL))
        return 4;
    if (trac_open(&machine, NULL, 1, 9) != TRAC_REFUSED || !is_refused(&machine) ||
        trac_open(&machine, cells, TRAC_MOST_CELLS + 1, 9) != TRAC_REFUSED || !is_refused(&machine) ||
        trac_open(NULL, cells, 64, 9) != TRAC_REFUSED)
        return 6;
    if (trac_open(&machine, cells, 64, 99) || trac_part(&machine, TRAC_PART_FREE) != 64 ||
        trac_turn(&machine, byte, 4, 1, NULL, 0, 1).fate != TRAC_GOING ||
        trac_active(&machine, NULL, 0) != 11 || trac_active(&machine, NULL, 1) ||
        trac_active(&machine, crooked, 1) || trac_neutral(&machine, crooked, 1) ||
        trac_active_part(&machine, 2, NULL, 0) != 9 || trac_active_part(&machine, 2, NULL, 1) ||
        trac_active_part(&machine, SIZE_MAX, NULL, 0) || trac_neutral_part(&machine, 1, NULL, 0) ||
        trac_calls(&machine, crooked, 1) || trac_takes(&machine) != 2 || trac_steps_to_call(&machine, 3) != 3)
        return 5;
    if (trac_again(&machine, 99) || trac_turn(&machine, "#(ds,a,b)'", 10, 1, NULL, 0, 99).fate != TRAC_INPUT_ENDED ||
        !trac_next_form(&machine, &form) || trac_form_name(&form, byte, 4) != 1 || byte[0] != 'a' ||
        trac_form_codes(&form, crooked, 1) || trac_form_text(&form, NULL, 1) || trac_form_text(&form, NULL, 0) != 4)
        return 7;
    /* A place in the list is valid for no other machine, and is invalid after a turn. */
    memcpy(&other, &machine, sizeof other);
    if (trac_next_form(&other, &form) || trac_again(&machine, 99) || trac_form_name(&form, byte, 4) ||
        trac_next_form(&machine, &form))
        return 8;
    if (trac_turn(&machine, byte, 0, 1, NULL, 0, 1).fate != TRAC_GOING || trac_take_peak(&machine) != 16 ||
        trac_take_peak(&machine))
        return 9;
    if (checks())
        return 10;
    if (traces())
        return 11;
    if (places() || moves() || refusals())
        return 12;
    return sizeof cells != 512 || !trac_abi(TRAC_VERSION_NUMBER, sizeof machine, sizeof(trac_report)) ||
           trac_abi(TRAC_VERSION_NUMBER + 1000, sizeof machine, sizeof(trac_report)) ||
           trac_abi(TRAC_VERSION_NUMBER, sizeof form - 1, sizeof(trac_report)) ||
           strcmp(trac_version(), TRAC_VERSION) || strcmp(trac_fate_name(TRAC_REFUSED), "refused") ||
           strcmp(trac_fate_name(TRAC_NO_MEMORY), "no memory") ||
           strcmp(trac_fate_name(TRAC_WANTS_ANSWER), "wants answer") || strcmp(trac_fate_name(12), "?") ||
           strcmp(trac_rule_name(TRAC_RULE_CHARACTER), "character")
               ? 3
               : 0;
}

/* Turns to the end of the run: bytes that weren't consumed are given again with a piece more. */
static void run_in_turns(size_t piece, uint64_t most) {
    trac_machine *machine = (trac_machine *)buffer(sizeof(trac_machine));
    size_t start = 0, end = 0, written = 0;
    if (trac_open(machine, run.block, run.cells, run.steps))
        exit(71);
    do {
        uint8_t *given = (uint8_t *)buffer(end - start);
        memcpy(given, run.script + start, end - start);
        run.report = trac_turn(machine, given, end - start, end == run.script_len, run.output,
                               run.room, most);
        free(given);
        fwrite(run.output, 1, run.report.written, stdout);
        written += run.report.written;
        start += run.report.consumed;
        if (run.report.fate == TRAC_WANTS_OUTPUT && run.report.written == 0) {
            if (run.report.wanted <= run.room)
                exit(73);
            free(run.output);
            run.room = run.report.wanted;
            run.output = (uint8_t *)buffer(run.room);
        }
        if (run.report.fate == TRAC_WANTS_INPUT) {
            if (end == run.script_len)
                exit(72);
            end = run.script_len - end < piece ? run.script_len : end + piece;
        }
    } while (run.report.fate == TRAC_GOING || run.report.fate == TRAC_WANTS_INPUT ||
             run.report.fate == TRAC_WANTS_OUTPUT);
    /* The run is over, and stays so. */
    const trac_report later = trac_turn(machine, run.script, start, 1, run.output, run.room, 1);
    if (later.fate != run.report.fate || later.steps != run.report.steps ||
        later.peak != run.report.peak || later.written || later.consumed)
        exit(74);
    run.report.written = written;
    run.report.consumed = start;
    free(machine);
}

/* ---- What a machine shows of itself. */

static trac_machine *seen;
static trac_form seen_form;
static size_t compared;

static size_t name_of(void *to, size_t room) {
    return trac_form_name(&seen_form, to, room);
}

static size_t text_of(void *to, size_t room) {
    return trac_form_text(&seen_form, to, room);
}

static size_t codes_of(void *to, size_t room) {
    return trac_form_codes(&seen_form, (uint32_t *)to, room);
}

static size_t neutral_of(void *to, size_t room) { return trac_neutral(seen, (uint32_t *)to, room); }

static size_t active_of(void *to, size_t room) { return trac_active(seen, (uint32_t *)to, room); }

/* The beginning of the part of a string that is examined. */
static size_t part_from;

static size_t neutral_part_of(void *to, size_t room) {
    return trac_neutral_part(seen, part_from, (uint32_t *)to, room);
}

static size_t active_part_of(void *to, size_t room) {
    return trac_active_part(seen, part_from, (uint32_t *)to, room);
}

static size_t calls_of(void *to, size_t room) { return trac_calls(seen, (uint32_t *)to, room); }

/* Whether a room for a number of items gets the first of these, as many as fit, and nothing more. */
static int fills(size_t (*lay)(void *, size_t), size_t size, const uint8_t *items, size_t len,
                 size_t room) {
    uint8_t *to = (uint8_t *)buffer(room * size);
    const size_t fits = len < room ? len : room;
    int right = lay(to, room) == len && memcmp(to, items, fits * size) == 0;
    for (size_t i = fits * size; i < room * size; i++)
        right = right && to[i] == 0xA5;
    free(to);
    return right;
}

/* All items that a function writes, each of a given size, in a buffer that the caller frees. */
static uint8_t *laid(size_t (*lay)(void *, size_t), size_t size, size_t *len) {
    *len = lay(NULL, 0);
    uint8_t *items = (uint8_t *)buffer(*len * size);
    if (lay(items, *len) != *len)
        exit(80);
    const size_t rooms[] = {0, 1, *len / 2, *len ? *len - 1 : 0, *len + 3};
    for (size_t i = 0; i < sizeof rooms / sizeof *rooms; i++)
        if (!fills(lay, size, items, *len, rooms[i]))
            exit(81);
    return items;
}

static void tell_items(size_t (*lay)(void *, size_t), size_t size) {
    size_t len;
    uint8_t *items = laid(lay, size, &len);
    putchar('|');
    for (size_t i = 0; i < len; i++) {
        uint32_t code = items[i];
        if (size == sizeof code)
            memcpy(&code, items + i * size, size);
        printf("%" PRIu32 " ", code);
    }
    free(items);
}

/* Compares the parts of a string with the whole: from its front, from its middle, from its end and past it. */
static void compare_parts(size_t (*whole)(void *, size_t), size_t (*part)(void *, size_t)) {
    size_t len, part_len;
    uint32_t *items = (uint32_t *)(void *)laid(whole, sizeof *items, &len);
    const size_t froms[] = {0, len / 2, len, len + 1, SIZE_MAX};
    for (size_t i = 0; i < sizeof froms / sizeof *froms; i++) {
        part_from = froms[i];
        uint32_t *some = (uint32_t *)(void *)laid(part, sizeof *some, &part_len);
        if (part_len != (part_from < len ? len - part_from : 0) ||
            (part_len && memcmp(some, items + part_from, part_len * sizeof *some) != 0))
            exit(83);
        free(some);
    }
    free(items);
}

static void tell_step(void) {
    printf("%" PRIu32 " %" PRIu32 " %" PRIu32, trac_rule(seen), trac_awaits(seen), trac_meta(seen));
    for (uint32_t part = TRAC_PART_STORE; part <= TRAC_PART_ACTIVE; part++)
        printf(" %zu", trac_part(seen, part));
    tell_items(neutral_of, sizeof(uint32_t));
    tell_items(active_of, sizeof(uint32_t));
    tell_items(calls_of, sizeof(uint32_t));
    printf("|%zu %zu %" PRIu64 " %" PRIu64 "\n", trac_takes(seen), trac_drops(seen), trac_steps_to_call(seen, 4),
           trac_steps_to_call(seen, UINT64_MAX));
    compare_parts(neutral_of, neutral_part_of);
    compare_parts(active_of, active_part_of);
}

/* Compares the display of a form with what `pf` prints, if its name can be written in a call. */
static void compare_display(void) {
    size_t name_len, text_len;
    uint8_t *name = laid(name_of, 1, &name_len), *text = laid(text_of, 1, &text_len);
    uint8_t *call = (uint8_t *)buffer(name_len + 8), *shown = (uint8_t *)buffer(text_len);
    memcpy(call, "#(pf,(", 6);
    memcpy(call + 6, name, name_len);
    memcpy(call + 6 + name_len, "))", 2);
    if (!memchr(name, '(', name_len) && !memchr(name, ')', name_len) &&
        !memchr(call, (int)trac_meta(seen), name_len + 8)) {
        trac_again(seen, 100000);
        const trac_report done =
            trac_turn(seen, call, name_len + 8, 1, shown, text_len, UINT64_MAX);
        if (done.fate != TRAC_INPUT_ENDED || done.written != text_len ||
            memcmp(shown, text, text_len) != 0)
            exit(82);
        compared++;
    }
    free(call);
    free(shown);
    free(name);
    free(text);
}

/* Goes to the form at a place, from 0. The calls that compare displays are turns, after which a place is old. */
static int go_to_form(size_t at) {
    const trac_form before = TRAC_NO_FORM;
    int is_there = 1;
    seen_form = before;
    for (size_t passed = 0; is_there && passed <= at; passed++)
        is_there = trac_next_form(seen, &seen_form);
    return is_there;
}

static void view(uint64_t most) {
    uint8_t *output = (uint8_t *)buffer(run.room);
    size_t start = 0;
    seen = (trac_machine *)buffer(sizeof(trac_machine));
    if (trac_open(seen, run.block, run.cells, run.steps))
        exit(71);
    do {
        if (run.report.steps < most)
            tell_step();
        run.report = trac_turn(seen, run.script + start, run.script_len - start, 1, output, run.room,
                               run.report.steps < most ? 1 : UINT64_MAX);
        start += run.report.consumed;
    } while (run.report.fate == TRAC_GOING);
    if (trac_awaits(seen) != TRAC_AWAITS_NOTHING)
        exit(83);
    for (size_t at = 0, count = trac_form_count(seen); at <= count; at++) {
        if (go_to_form(at) != (at < count))
            exit(84);
        printf("form %zu", trac_form_pointer(&seen_form));
        tell_items(name_of, 1);
        tell_items(text_of, 1);
        tell_items(codes_of, sizeof(uint32_t));
        putchar('\n');
        if (at < count && run.cells == 65536)
            compare_display();
    }
    printf("compared %zu\n", compared);
    free(output);
    free(seen);
}

/* The buffers of a run with an output of the given number of bytes. */
static void begin(const uint8_t *script, size_t room) {
    run.room = room;
    run.block = (trac_cell *)buffer(run.cells > TRAC_MOST_CELLS ? 0 : run.cells * sizeof(trac_cell));
    run.script = (uint8_t *)buffer(run.script_len);
    run.output = (uint8_t *)buffer(run.room);
    memcpy(run.script, script, run.script_len);
}

static void end(void) {
    tell(run.report);
    free(run.block);
    free(run.script);
    free(run.output);
}

int main(int argc, char **argv) {
    static uint8_t read[1 << 22];
    if (argc == 2 && strcmp(argv[1], "pointers") == 0)
        return pointers();
    const int in_turns = argc > 6 && argc % 2 && strcmp(argv[1], "turns") == 0;
    const int viewed = argc == 5 && strcmp(argv[1], "view") == 0;
    if (in_turns || viewed) {
        argc--;
        argv++;
    }
    if (argc < 4)
        return 2;
    run.script_len = fread(read, 1, sizeof read, stdin);
    run.cells = strtoul(argv[1], 0, 10);
    run.steps = strtoull(argv[2], 0, 10);
    const uint64_t third = strtoull(argv[3], 0, 10);
    if (in_turns) {
        for (int at = 4; at < argc; at += 2) {
            begin(read, strtoul(argv[at], 0, 10));
            run_in_turns(strtoul(argv[at + 1], 0, 10), third);
            end();
        }
        return 0;
    }
    begin(read, third);
    if (viewed) {
        run.room = 1 << 20;
        view(third);
    } else if (argc > 4)
        run_on_stack(strtoul(argv[4], 0, 10));
    else
        run_at_once();
    if (!viewed)
        fwrite(run.output, 1, run.report.written, stdout);
    end();
    return 0;
}
