/* Runs by trac_run_with. The standard input has scripts, each after 20 bytes: its length, the cells and a number that
 * chooses sizes, of four bytes each, and the steps, of eight, the lowest byte first. Each script is run with pieces of
 * many sizes, with reads and writes that fail, and with buffers that are too small, and compared with trac_run, with
 * steps of trac_trace_step whose input fails, and with turns. Then come pointers that are refused, and functions that
 * don't return. Each buffer is exactly as large as its given size. Prints how many runs there were; if a result
 * differs, ends with the number of a line of this file. */
#include "trac.h"

#include <inttypes.h>
#include <setjmp.h>
#include <stdio.h>
#include <stdlib.h>
#include <string.h>

enum { MOST_OUTPUT = 1 << 20, MOST_SCRIPT = 1 << 16, NEVER = -1 };

/* What the functions of a run must do, and what they have done. */
typedef struct {
    const uint8_t *script;
    size_t length, given; /* the input, and how much of it was read */
    size_t most;          /* the most bytes that one of them gives or takes */
    long fails_at;        /* the byte at which reading fails, or NEVER */
    size_t limit;         /* the bytes that are taken before a write fails */
    int wrong;            /* they fail by: 0 TRAC_FAILED, 1 a number that is too large, 2 writing 0 bytes */
    uint32_t seed;
    uint8_t *output;
    size_t written;
    int has_ended, has_failed, looks;
    size_t cells;
    uint64_t steps;
} devices;

static uint8_t script[MOST_SCRIPT], output[MOST_OUTPUT], wanted[MOST_OUTPUT], scratch[MOST_OUTPUT], memory[1 << 16];
static size_t runs;

static void must_at(int holds, int line) {
    if (holds)
        return;
    fprintf(stderr, "c_callbacks.c: line %d: %.200s\n", line, (const char *)script);
    exit(1);
}

#define MUST(found) must_at((found) != 0, __LINE__)

static void *fresh(size_t bytes) {
    void *const made = malloc(bytes ? bytes : 1);
    MUST(made != NULL);
    memset(made, 0xA5, bytes);
    return made;
}

/* A number from 1 to `most`. */
static size_t drawn(devices *of, size_t most) {
    of->seed = of->seed * 1664525u + 1013904223u;
    return 1 + (of->seed >> 8) % most;
}

static size_t least(size_t a, size_t b) { return a < b ? a : b; }

/* A run reads only if its next step needs more than was given, and only after it has written all that it printed. */
static void look_at(const devices *of) {
    trac_cell *const block = (trac_cell *)fresh(of->cells * sizeof *block);
    trac_machine machine = TRAC_NO_MACHINE;
    MUST(trac_open(&machine, block, of->cells, of->steps) == 0);
    const trac_report told =
        trac_turn(&machine, of->script, of->given, 0, scratch, sizeof scratch, UINT64_MAX);
    MUST(told.fate == TRAC_WANTS_INPUT && told.written == of->written && !memcmp(scratch, of->output, of->written));
    free(block);
}

static size_t read_some(void *context, void *to, size_t room) {
    devices *const of = (devices *)context;
    MUST(room > 0 && !of->has_ended && !of->has_failed);
    if (of->looks)
        look_at(of);
    memset(to, 0x5A, room);
    const size_t end = of->fails_at == NEVER ? of->length : (size_t)of->fails_at;
    const size_t count = least(least(drawn(of, of->most), room), end - of->given);
    memcpy(to, of->script + of->given, count);
    of->given += count;
    if (count)
        return count;
    of->has_ended = of->fails_at == NEVER;
    of->has_failed = !of->has_ended;
    return of->has_ended ? 0 : of->wrong ? room + 1 : TRAC_FAILED;
}

static size_t write_some(void *context, const void *from, size_t length) {
    devices *const of = (devices *)context;
    MUST(length > 0 && !of->has_failed);
    const size_t count = least(least(drawn(of, of->most), length), of->limit - of->written);
    memcpy(of->output + of->written, from, count);
    of->written += count;
    if (count)
        return count;
    of->has_failed = 1;
    return of->wrong == 2 ? 0 : of->wrong ? length + 1 : TRAC_FAILED;
}

/* A run with a buffer of `room` bytes. Afterwards the bytes that were read and not consumed begin the buffer. */
static trac_report run_with(devices *of, size_t room) {
    trac_cell *const block = (trac_cell *)fresh(of->cells * sizeof *block);
    uint8_t *const buffer = (uint8_t *)fresh(room);
    const trac_report told = trac_run_with(of->cells ? block : NULL, of->cells, of->steps, room ? buffer : NULL, room,
                                           read_some, write_some, of);
    MUST(told.consumed <= of->given && of->given - told.consumed <= room && told.written == of->written);
    MUST(!told.wanted && !memcmp(buffer, of->script + told.consumed, of->given - told.consumed));
    MUST(told.fate != TRAC_NO_MEMORY || of->given - told.consumed == room);
    free(block);
    free(buffer);
    runs++;
    return told;
}

static void compare(const trac_report *found, const trac_report *expected, int line) {
    must_at(found->fate == expected->fate && found->steps == expected->steps && found->peak == expected->peak, line);
    must_at(found->written == expected->written && found->consumed == expected->consumed, line);
    must_at(!memcmp(output, wanted, found->written), line);
}

/* The run by trac_run, with an output of `room` bytes. */
static trac_report at_once(const devices *of, size_t room) {
    trac_cell *const block = (trac_cell *)fresh(of->cells * sizeof *block);
    const trac_report told =
        trac_run(of->cells ? block : NULL, of->cells, of->steps, of->script, of->length, wanted, room);
    free(block);
    return told;
}

/* The run by steps of trac_trace_step, whose input fails after `at` bytes. */
static trac_report failing_at(const devices *of, size_t at) {
    trac_cell *const block = (trac_cell *)fresh(of->cells * sizeof *block);
    trac_machine machine = TRAC_NO_MACHINE;
    trac_trace trace = TRAC_NO_TRACE;
    size_t consumed = 0, written = 0;
    trac_report told;
    trace.from = UINT64_MAX;
    trace.to = UINT64_MAX;
    MUST(trac_open(&machine, block, of->cells, of->steps) == 0);
    do {
        told = trac_trace_step(&machine, &trace, of->script + consumed, at - consumed, TRAC_INPUT_FAILS,
                               wanted + written, sizeof wanted - written, memory, sizeof memory, NULL, 0);
        consumed += told.consumed;
        written += told.written;
    } while (told.fate == TRAC_GOING);
    free(block);
    told.consumed = consumed;
    told.written = written;
    return told;
}

static devices begun(const devices *plan, size_t most) {
    devices of = *plan;
    of.most = most;
    of.output = output;
    return of;
}

static void with_pieces(const devices *plan, const trac_report *whole) {
    static const size_t sizes[] = {1, 7, 300, MOST_SCRIPT};
    for (size_t each = 0; each < sizeof sizes / sizeof sizes[0]; each++) {
        devices of = begun(plan, sizes[each]);
        of.looks = whole->steps < 2000 && of.length < 300 && each < 2;
        const trac_report told = run_with(&of, of.cells);
        compare(&told, whole, __LINE__);
    }
}

/* If a write fails, the report is that of an output which is full at that byte. */
static void with_failing_writes(devices *plan, const trac_report *whole) {
    for (int each = 0; each < 3 && whole->written; each++) {
        devices of = begun(plan, each ? 5 : 1000);
        of.limit = drawn(plan, whole->written) - 1;
        of.wrong = each;
        const trac_report expected = at_once(&of, of.limit), told = run_with(&of, of.cells);
        MUST(told.fate == TRAC_OUTPUT_FAILED && of.has_failed);
        compare(&told, &expected, __LINE__);
    }
}

static void with_failing_reads(devices *plan, const trac_report *whole) {
    for (int each = 0; each < 4 && whole->steps < 20000; each++) {
        devices of = begun(plan, each % 2 ? 3 : 1000);
        const size_t at = each == 2 ? of.length : each == 3 ? 0 : drawn(plan, of.length + 1) - 1;
        of.fails_at = (long)at;
        of.wrong = each % 2;
        const trac_report expected = failing_at(&of, at), told = run_with(&of, of.cells);
        MUST((told.fate == TRAC_INPUT_FAILED) == of.has_failed);
        compare(&told, &expected, __LINE__);
    }
}

/* If a buffer is too small, the run ends before a string that it can't hold; otherwise it makes no difference. */
static void with_small_buffers(devices *plan, const trac_report *whole) {
    static const size_t most[] = {0, 30, 300, 700};
    for (size_t each = 0; each < sizeof most / sizeof most[0]; each++) {
        devices of = begun(plan, drawn(plan, 500));
        const trac_report told = run_with(&of, each ? least(drawn(plan, most[each]), of.cells) : 0);
        if (told.fate == TRAC_NO_MEMORY) {
            MUST(told.steps < whole->steps || whole->fate == TRAC_WORKSPACE);
            MUST(told.peak <= whole->peak && told.written <= whole->written && !memcmp(output, wanted, told.written));
        } else {
            compare(&told, whole, __LINE__);
        }
    }
}

static void try_one(devices *plan) {
    const trac_report whole = at_once(plan, plan->limit);
    with_pieces(plan, &whole);
    with_small_buffers(plan, &whole);
    with_failing_writes(plan, &whole);
    with_failing_reads(plan, &whole);
}

/* ---- What is refused, and functions that don't return. */

static const char hello[] = "#(ps,hello)#(ps,again)'";
static jmp_buf back;
static trac_cell cells[64];
static char room[64];
static size_t called;

static size_t read_hello(void *context, void *to, size_t most) {
    size_t *const at = (size_t *)context;
    const size_t count = least(most, sizeof hello - 1 - *at);
    called++;
    memcpy(to, hello + *at, count);
    *at += count;
    return count;
}

static size_t write_away(void *context, const void *from, size_t length) {
    (void)context;
    (void)from;
    called++;
    return length;
}

static size_t jump(void *context, const void *from, size_t length) {
    (void)context;
    (void)from;
    (void)length;
    longjmp(back, 1);
}

static size_t jump_from_read(void *context, void *to, size_t most) { return jump(context, to, most); }

/* Another run, in its own block, during this run. */
static size_t run_another(void *context, const void *from, size_t length) {
    trac_cell other[64];
    char buffer[64];
    size_t at = 0;
    const trac_report told = trac_run_with(other, 64, 999, buffer, sizeof buffer, read_hello, write_away, &at);
    (void)context;
    (void)from;
    MUST(told.fate == TRAC_INPUT_ENDED && told.written == 10);
    return length;
}

static trac_report run_hello(trac_reader read, trac_writer write) {
    size_t at = 0;
    return trac_run_with(cells, 64, 999, room, sizeof room, read, write, &at);
}

static void refuse(void) {
    trac_cell *const crooked = (trac_cell *)(void *)((char *)cells + 1);
    size_t at = 0;
    called = 0;
    MUST(run_hello(NULL, write_away).fate == TRAC_REFUSED && run_hello(read_hello, NULL).fate == TRAC_REFUSED);
    MUST(trac_run_with(NULL, 1, 9, room, 64, read_hello, write_away, &at).fate == TRAC_REFUSED);
    MUST(trac_run_with(crooked, 8, 9, room, 64, read_hello, write_away, &at).fate == TRAC_REFUSED);
    MUST(trac_run_with(cells, 64, 9, NULL, 1, read_hello, write_away, &at).fate == TRAC_REFUSED);
    MUST(trac_run_with(cells, TRAC_MOST_CELLS + 1, 9, room, 64, read_hello, write_away, &at).fate == TRAC_REFUSED);
    MUST(called == 0);
    MUST(trac_run_with(NULL, 0, 9, NULL, 0, read_hello, write_away, &at).fate == TRAC_WORKSPACE && called == 0);
    MUST(trac_run_with(cells, 64, 0, NULL, 0, read_hello, write_away, &at).fate == TRAC_STEPS && called == 0);
    MUST(trac_run_with(cells, 64, 99, NULL, 0, read_hello, write_away, &at).fate == TRAC_NO_MEMORY && called == 0);
}

#ifdef __cplusplus
static size_t throw_out(void *, const void *, size_t) { throw 7; }

static void throws(void) {
    int caught = 0;
    try {
        (void)run_hello(read_hello, throw_out);
    } catch (int number) {
        caught = number;
    }
    MUST(caught == 7);
}
#else
static void throws(void) {}
#endif

/* Afterwards the block and the buffer can be lent again. */
static void leave(void) {
    if (!setjmp(back)) {
        (void)run_hello(read_hello, jump);
        MUST(0);
    }
    MUST(run_hello(read_hello, write_away).written == 10);
    if (!setjmp(back)) {
        (void)run_hello(jump_from_read, write_away);
        MUST(0);
    }
    MUST(run_hello(read_hello, write_away).written == 10);
    throws();
    const trac_report told = run_hello(read_hello, run_another);
    MUST(told.fate == TRAC_INPUT_ENDED && told.written == 10 && told.consumed == sizeof hello - 1);
}

static uint64_t number_in(const uint8_t *bytes, int count) {
    return count ? bytes[0] + (number_in(bytes + 1, count - 1) << 8) : 0;
}

int main(void) {
    uint8_t head[20];
    while (fread(head, 1, sizeof head, stdin) == sizeof head) {
        devices plan;
        memset(&plan, 0, sizeof plan);
        plan.script = script;
        plan.length = (size_t)number_in(head, 4);
        plan.cells = (size_t)number_in(head + 4, 4);
        plan.seed = (uint32_t)number_in(head + 8, 4);
        plan.steps = number_in(head + 12, 8);
        plan.fails_at = NEVER;
        plan.limit = MOST_OUTPUT;
        plan.most = 1;
        MUST(plan.length < MOST_SCRIPT && fread(script, 1, plan.length, stdin) == plan.length);
        script[plan.length] = 0;
        try_one(&plan);
    }
    refuse();
    leave();
    printf("%zu runs\n", runs);
    return 0;
}
