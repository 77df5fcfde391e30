/* Calls each function of trac.h with pointers, machines and numbers that it refuses, in both engines of engines.h. */
#include "covering.h"

enum { CELLS_HERE = 200, STEPS_HERE = 500, ROOM = 64 };

static uint32_t codes[ROOM];
static uint64_t words[ROOM];
static uint8_t *const bytes = (uint8_t *)codes;
static trac_machine closed;

/* What both engines give is the same: a number, or a report. `s` is what the one or the other works on. */
#define SAME(call, ...) must_same(#call, trac_##call(__VA_ARGS__), c_trac_##call(__VA_ARGS__))
#define SAME_REPORT(call, ...) must_report(#call, trac_##call(__VA_ARGS__), c_trac_##call(__VA_ARGS__))
#define OF_EACH(call, ...)                                    \
    do {                                                      \
        side *s = &proved;                                    \
        const uint64_t a = (uint64_t)trac_##call(__VA_ARGS__); \
        s = &in_c;                                            \
        must_same(#call, a, (uint64_t)c_trac_##call(__VA_ARGS__)); \
    } while (0)
#define REPORT_OF_EACH(call, ...)                              \
    do {                                                       \
        side *s = &proved;                                     \
        const trac_report a = trac_##call(__VA_ARGS__);        \
        s = &in_c;                                             \
        must_report(#call, a, c_trac_##call(__VA_ARGS__));     \
    } while (0)

static void must_same(const char *what, uint64_t a, uint64_t b) { must(a == b, what); }

static void must_report(const char *what, trac_report a, trac_report b) { must(memcmp(&a, &b, sizeof a) == 0, what); }

static size_t read_nothing(void *context, void *to, size_t room) {
    (void)context, (void)to, (void)room;
    return 0;
}

static size_t write_nothing(void *context, const void *from, size_t length) {
    (void)context, (void)from;
    return length;
}

/* More than can be asked for: the reader and the writer of trac_run_with are wrong. */
static size_t read_too_much(void *context, void *to, size_t room) {
    (void)context, (void)to;
    return room + 1;
}

static size_t write_too_much(void *context, const void *from, size_t length) {
    (void)context, (void)from;
    return length + 1;
}

/* A script that prints, with readers and writers of which one is wrong. */
static size_t read_script(void *context, void *to, size_t room) {
    static const char text[] = "#(ps,abc)'";
    size_t *at = context, length = sizeof text - 1 - *at;
    length = length < room ? length : room;
    memcpy(to, text + *at, length);
    *at += length;
    return length;
}

static void refused_runs(trac_cell *block, size_t cells) {
    for (size_t room = 0; room < 2; room++) {
        const void *const none = room ? NULL : bytes;
        SAME_REPORT(run, block, cells, STEPS_HERE, none, room, bytes, ROOM);
        SAME_REPORT(run, block, cells, STEPS_HERE, bytes, 0, (void *)none, room);
        SAME_REPORT(run_zeroed, block, cells, STEPS_HERE, none, room, bytes, ROOM);
        SAME_REPORT(run_zeroed, block, cells, STEPS_HERE, bytes, 0, (void *)none, room);
        SAME_REPORT(check, block, cells, STEPS_HERE, none, room, words, sizeof words, bytes, ROOM);
        SAME_REPORT(check, block, cells, STEPS_HERE, bytes, 0, (void *)none, room, bytes, ROOM);
        SAME_REPORT(check, block, cells, STEPS_HERE, bytes, 0, words, sizeof words, (void *)none, room);
        SAME_REPORT(run_with, block, cells, STEPS_HERE, (void *)none, room, read_nothing, write_nothing, NULL);
    }
    SAME_REPORT(run_with, block, cells, STEPS_HERE, bytes, ROOM, NULL, write_nothing, NULL);
    SAME_REPORT(run_with, block, cells, STEPS_HERE, bytes, ROOM, read_nothing, NULL, NULL);
    SAME_REPORT(run_with, block, cells, STEPS_HERE, bytes, ROOM, read_too_much, write_nothing, NULL);
}

/* A machine that can't be used: each function refuses it. */
static void refused_machine(trac_machine *m) {
    trac_trace trace = TRAC_NO_TRACE;
    trac_form form = TRAC_NO_FORM;
    SAME_REPORT(turn, m, bytes, 0, 1, bytes, 0, 1);
    SAME_REPORT(answer, m, bytes, 0, 0);
    SAME_REPORT(skip_print, m);
    SAME_REPORT(trace_step, m, &trace, bytes, 0, 1, bytes, 0, words, sizeof words, bytes, 0);
    SAME(again, m, 1);
    SAME(take_peak, m);
    SAME(moved, m, proved.block);
    SAME(stop_at_unknown, m, 1);
    SAME(printed, m, 0, bytes, ROOM);
    SAME(define, m, bytes, 1, codes, 1, 0);
    SAME(define_text, m, bytes, 1, bytes, 1);
    SAME(delete, m, bytes, 1);
    SAME(delete_all, m);
    SAME(set_meta, m, 1);
    SAME(save, m, bytes, ROOM);
    SAME(load, m, bytes, ROOM);
    SAME(form_count, m);
    SAME(next_form, m, &form);
    SAME(find_form, m, bytes, 1, &form);
    SAME(neutral, m, codes, 4);
    SAME(active, m, codes, 4);
    SAME(neutral_part, m, 0, codes, 4);
    SAME(active_part, m, 0, codes, 4);
    SAME(calls, m, codes, 4);
    SAME(takes, m);
    SAME(drops, m);
    SAME(steps_to_call, m, 4);
    SAME(rule, m);
    SAME(part, m, 0);
    SAME(meta, m);
    SAME(awaits, m);
    SAME(argument_count, m);
    SAME(argument, m, 0, bytes, ROOM);
}

/* Pointers that are null or misaligned, with a machine that is open. */
static void refused_pointers(void) {
    trac_trace trace = TRAC_NO_TRACE;
    trac_form form = TRAC_NO_FORM;
    uint32_t *const odd = (uint32_t *)(void *)(bytes + 1);
    for (size_t room = 0; room < 2; room++) {
        uint8_t *const none = room ? NULL : bytes;
        REPORT_OF_EACH(turn, &s->machine, NULL, room, 0, bytes, 4, 0);
        REPORT_OF_EACH(turn, &s->machine, bytes, 0, 0, NULL, room, 0);
        REPORT_OF_EACH(answer, &s->machine, NULL, room, 0);
        REPORT_OF_EACH(trace_step, &s->machine, room ? NULL : &trace, bytes, 0, 0, bytes, 4, words, ROOM, bytes, 0);
        REPORT_OF_EACH(trace_step, &s->machine, &trace, NULL, room, 0, bytes, 4, words, ROOM, bytes, 0);
        REPORT_OF_EACH(trace_step, &s->machine, &trace, bytes, 0, 0, NULL, room, words, ROOM, bytes, 0);
        REPORT_OF_EACH(trace_step, &s->machine, &trace, bytes, 0, 0, bytes, 4, NULL, room, bytes, 0);
        REPORT_OF_EACH(trace_step, &s->machine, &trace, bytes, 0, 0, bytes, 4, words, ROOM, NULL, room);
        OF_EACH(printed, &s->machine, 0, NULL, room);
        OF_EACH(define, &s->machine, NULL, room, codes, 0, 0);
        OF_EACH(define, &s->machine, bytes, 1, NULL, room, 0);
        OF_EACH(define, &s->machine, bytes, 1, room ? odd : codes, 1, 0);
        OF_EACH(define_text, &s->machine, NULL, room, bytes, 0);
        OF_EACH(define_text, &s->machine, bytes, 1, NULL, room);
        OF_EACH(delete, &s->machine, NULL, room);
        OF_EACH(save, &s->machine, NULL, room);
        OF_EACH(load, &s->machine, NULL, room);
        OF_EACH(find_form, &s->machine, NULL, room, &form);
        OF_EACH(find_form, &s->machine, bytes, 1, room ? NULL : &form);
        OF_EACH(next_form, &s->machine, room ? NULL : &form);
        OF_EACH(neutral, &s->machine, NULL, room);
        OF_EACH(active, &s->machine, room ? odd : codes, room);
        OF_EACH(neutral_part, &s->machine, 0, NULL, room);
        OF_EACH(active_part, &s->machine, 0, NULL, room);
        OF_EACH(calls, &s->machine, NULL, room);
        OF_EACH(argument, &s->machine, 0, none, room);
        OF_EACH(moved, &s->machine, room ? NULL : s->block);
    }
}

/* A place in the list of forms that isn't one any more, or never was one. */
static void refused_places(void) {
    trac_form places[2] = {TRAC_NO_FORM, TRAC_NO_FORM};
    OF_EACH(define_text, &s->machine, "a", 1, "body", 4);
    for (int state = 0; state < 4; state++) {
        for (size_t room = 0; room < 2; room++) {
            OF_EACH(form_name, &places[s == &in_c], NULL, room);
            OF_EACH(form_text, &places[s == &in_c], NULL, room);
            OF_EACH(form_codes, &places[s == &in_c], NULL, room);
            OF_EACH(form_pointer, &places[s == &in_c]);
        }
        if (state == 1)
            OF_EACH(delete_all, &s->machine);
        OF_EACH(next_form, &s->machine, &places[s == &in_c]);
    }
    SAME(form_name, NULL, bytes, ROOM);
    SAME(form_text, (trac_form *)(void *)(bytes + 1), bytes, ROOM);
    SAME(form_codes, NULL, codes, 4);
    SAME(form_pointer, NULL);
}

static void words_of_both(void) {
    must(strcmp(trac_version(), c_trac_version()) == 0, "trac_version");
    for (uint32_t which = 0; which < 16; which++)
        must(strcmp(trac_fate_name(which), c_trac_fate_name(which)) == 0 &&
                 strcmp(trac_rule_name(which), c_trac_rule_name(which)) == 0, "a name");
    for (uint32_t less = 0; less < 3; less++)
        for (size_t size = 0; size < 4; size++)
            SAME(abi, TRAC_VERSION_NUMBER - 1000 * less, sizeof(trac_machine) - size % 2 * 8,
                 sizeof(trac_report) - size / 2 * 8);
    SAME(function, 0, NULL);
    SAME(function_text, 0, 0, NULL, 0);
    SAME(function_text, 0, 0, NULL, 1);
}

void refused_both(void) {
    size_t at[2] = {0, 0};
    words_of_both();
    refused_runs(NULL, 1);
    refused_runs(NULL, 0);
    refused_runs(proved.block, TRAC_MOST_CELLS + (size_t)1);
    refused_runs((trac_cell *)(void *)(bytes + 1), 4);
    refused_runs(proved.block, CELLS_HERE);
    SAME_REPORT(check_zeroed, proved.block, TRAC_MOST_CELLS + (size_t)1, STEPS_HERE, bytes, 0, words, sizeof words,
                bytes, ROOM);
    must_report("trac_run_with",
                trac_run_with(proved.block, CELLS_HERE, 99, bytes, 32, read_script, write_too_much, &at[0]),
                c_trac_run_with(in_c.block, CELLS_HERE, 99, bytes, 32, read_script, write_too_much, &at[1]));
    refused_machine(NULL);
    refused_machine(&closed);
    refused_machine((trac_machine *)(void *)(bytes + 1));
    OF_EACH(open, &s->machine, s->block, TRAC_MOST_CELLS + (size_t)1, 1);
    OF_EACH(open, &s->machine, NULL, 1, 1);
    OF_EACH(open, NULL, s->block, 1, 1);
    OF_EACH(open_zeroed, &s->machine, NULL, 1, 1);
    OF_EACH(open_zeroed, NULL, s->block, 1, 1);
    OF_EACH(open, &s->machine, NULL, 0, 1);
    OF_EACH(open, &s->machine, s->block, CELLS_HERE, STEPS_HERE);
    refused_pointers();
    refused_places();
    OF_EACH(set_meta, &s->machine, 256);
}
