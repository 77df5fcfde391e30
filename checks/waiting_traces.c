/* Shows steps in both engines of engines.h that wait: for more input, for room for what they print, and for an answer
 * to a call of an unknown function. And steps behind a million others. */
#include "covering.h"

enum { MEMORY = 1 << 16, MOST_WAITS = 300, ALLOWANCE = 4000, ANSWER = 40, LATE = 999990, SHOWN = 30 };

static _Alignas(16) uint8_t memory[2][MEMORY];

/* What a run that is shown has: of the script, as much as was given of it, and how much room for output. */
typedef struct {
    size_t at, given, count, room;
    trac_trace a, b;
} shown;

static trac_report step_both(shown *s) {
    const int end = s->given < s->count ? TRAC_INPUT_GOES_ON : script[2] % 8u == 7 ? TRAC_INPUT_FAILS : TRAC_INPUT_ENDS;
    const trac_report told = trac_trace_step(&proved.machine, &s->a, script + s->at, s->given - s->at, end,
                                             proved.output, s->room, memory[0], MEMORY, lines[0], LINES);
    const trac_report other = c_trac_trace_step(&in_c.machine, &s->b, script + s->at, s->given - s->at, end,
                                                in_c.output, s->room, memory[1], MEMORY, lines[1], LINES);
    must(is_same(&told, &other) && memcmp(&s->a, &s->b, sizeof s->a) == 0, "a step that waits");
    must(memcmp(lines[0], lines[1], s->a.lines < LINES ? (size_t)s->a.lines : LINES) == 0, "the lines of such a step");
    s->at += told.consumed;
    return told;
}

/* Gives a part of the script as a value. */
static trac_report answer_both(const shown *s) {
    const size_t from = CHOICES + chosen((uint32_t)(s->count - CHOICES) + 1), length = chosen(ANSWER);
    const size_t most = s->count - from < length ? s->count - from : length;
    const uint32_t how = chosen(3);
    const trac_report a = trac_answer(&proved.machine, script + from, most, how);
    const trac_report b = c_trac_answer(&in_c.machine, script + from, most, how);
    must(memcmp(&a, &b, sizeof a) == 0, "an answer in a trace");
    return a;
}

/* Gives what a step waits for. */
static trac_report go_on(shown *s, trac_report told) {
    const uint64_t wanted = told.wanted < MOST_OUTPUT ? told.wanted : MOST_OUTPUT;
    switch (told.fate) {
    case TRAC_WANTS_INPUT:
        s->given += s->given < s->count ? 1 + chosen((uint32_t)(s->count - s->given)) : 0;
        told.fate = TRAC_GOING;
        break;
    case TRAC_WANTS_OUTPUT:
        told.fate = s->room < told.wanted && told.wanted <= MOST_OUTPUT ? TRAC_GOING : TRAC_HALTED;
        s->room = (size_t)wanted;
        break;
    case TRAC_WANTS_ANSWER:
        told = answer_both(s);
        break;
    default:
        s->room = chosen(4);
    }
    return told;
}

/* Makes a character the meta character that is shown in its own way. */
static void change_meta(void) {
    static const uint8_t metas[] = {'\t', '\n', '\r', '\\', 0, 127, 128, 255};
    const uint32_t meta = metas[chosen(sizeof metas)];
    must(trac_set_meta(&proved.machine, meta) == c_trac_set_meta(&in_c.machine, meta), "trac_set_meta in a trace");
}

void waiting_traces_both(size_t count, size_t cells) {
    shown s = {CHOICES, CHOICES, count, chosen(4), TRAC_NO_TRACE, TRAC_NO_TRACE};
    trac_report told = {TRAC_GOING, 0, 0, 0, 0, 0};
    s.a.from = 1 + chosen(2) * chosen(200), s.a.to = chosen(4) ? UINT64_MAX : s.a.from + chosen(90);
    s.a.width = chosen(60), s.a.columns = chosen(60), s.a.calls = chosen(2), s.a.forms = chosen(2);
    s.b = s.a;
    if (!open_both(cells, chosen(2) ? ALLOWANCE : chosen(chosen(2) ? 60 : MOST_WAITS)))
        return;
    const int stops = (int)chosen(2);
    must(trac_stop_at_unknown(&proved.machine, stops) == c_trac_stop_at_unknown(&in_c.machine, stops),
         "trac_stop_at_unknown");
    if (chosen(4) == 0)
        change_meta();
    for (int step = 0; step < MOST_WAITS && told.fate == TRAC_GOING; step++)
        told = go_on(&s, step_both(&s));
}

void late_steps_both(void) {
    static const char loop[] = "#(ds,a,(#(cl,a)))#(cl,a)'";
    const size_t count = CHOICES + sizeof loop - 1;
    shown s = {CHOICES, count, count, MOST_OUTPUT, TRAC_NO_TRACE, TRAC_NO_TRACE};
    trac_report told;
    memcpy(script + CHOICES, loop, sizeof loop);
    must(open_both(MOST_CELLS, LATE + SHOWN - 4), "trac_open");
    must(turn_both(script + s.at, s.given - s.at, MOST_OUTPUT, 1, LATE, &told), "many steps");
    s.at += told.consumed;
    s.a.from = 1, s.a.to = UINT64_MAX, s.a.width = 40;
    s.b = s.a;
    for (int step = 0; step < SHOWN; step++)
        told = step_both(&s);
    must(told.fate == TRAC_STEPS, "the end of many steps");
}
