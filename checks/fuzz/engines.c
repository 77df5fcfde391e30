/* A target for libFuzzer over both engines of engines.h. Of the bytes that it gets, the first five choose the cells,
 * the allowance, the pieces of the input, the steps of a turn and the room for output; the rest is a script. It is
 * run at once and by turns by both engines. They must do the same, and their machines must show the same before each
 * turn and at the end. */
#include "../engines.h"

#include <stdlib.h>

/* What the numbers of cells and steps are multiples of. */
#ifndef CELLS
#define CELLS 4u
#define STEPS 8u
#endif
enum { CHOICES = 5, MOST_ITEMS = 64, MOST_TURNS = 5000, FROM = 5 };

static void must(int holds) {
    if (!holds)
        abort();
}

/* What is seen of a machine: numbers; both strings, as far as they fit, from a place on; and the open calls. */
typedef struct {
    uint32_t numbers[11], neutral[MOST_ITEMS], active[MOST_ITEMS], calls[MOST_ITEMS];
} view;

static view see_proved(void) {
    const trac_machine *const m = &proved.machine;
    view seen = {{trac_rule(m), trac_awaits(m), trac_meta(m), (uint32_t)trac_form_count(m),
                  (uint32_t)trac_part(m, 0), (uint32_t)trac_part(m, 1), (uint32_t)trac_part(m, 2),
                  (uint32_t)trac_part(m, 3), (uint32_t)trac_takes(m), (uint32_t)trac_drops(m),
                  (uint32_t)trac_steps_to_call(m, FROM)}, {0}, {0}, {0}};
    (void)trac_neutral_part(m, FROM, seen.neutral, MOST_ITEMS);
    (void)trac_active_part(m, seen.numbers[8], seen.active, MOST_ITEMS);
    (void)trac_calls(m, seen.calls, MOST_ITEMS);
    return seen;
}

static view see_c(void) {
    const trac_machine *const m = &in_c.machine;
    view seen = {{c_trac_rule(m), c_trac_awaits(m), c_trac_meta(m), (uint32_t)c_trac_form_count(m),
                  (uint32_t)c_trac_part(m, 0), (uint32_t)c_trac_part(m, 1), (uint32_t)c_trac_part(m, 2),
                  (uint32_t)c_trac_part(m, 3), (uint32_t)c_trac_takes(m), (uint32_t)c_trac_drops(m),
                  (uint32_t)c_trac_steps_to_call(m, FROM)}, {0}, {0}, {0}};
    (void)c_trac_neutral_part(m, FROM, seen.neutral, MOST_ITEMS);
    (void)c_trac_active_part(m, seen.numbers[8], seen.active, MOST_ITEMS);
    (void)c_trac_calls(m, seen.calls, MOST_ITEMS);
    return seen;
}

static void must_show_the_same(void) {
    const view a = see_proved(), b = see_c();
    must(memcmp(&a, &b, sizeof a) == 0);
}

static void must_be_the_same_form(const trac_form *a, const trac_form *b) {
    uint8_t names[2][MOST_ITEMS] = {{0}, {0}};
    uint32_t codes[2][MOST_ITEMS] = {{0}, {0}};
    must(trac_form_name(a, names[0], MOST_ITEMS) == c_trac_form_name(b, names[1], MOST_ITEMS));
    must(trac_form_codes(a, codes[0], MOST_ITEMS) == c_trac_form_codes(b, codes[1], MOST_ITEMS));
    must(trac_form_pointer(a) == c_trac_form_pointer(b));
    must(memcmp(names[0], names[1], sizeof names[0]) == 0 && memcmp(codes[0], codes[1], sizeof codes[0]) == 0);
}

static void must_have_the_same_forms(void) {
    trac_form a = TRAC_NO_FORM, b = TRAC_NO_FORM;
    while (trac_next_form(&proved.machine, &a)) {
        must(c_trac_next_form(&in_c.machine, &b));
        must_be_the_same_form(&a, &b);
    }
    must(!c_trac_next_form(&in_c.machine, &b));
}

/* Goes by turns: the room for output is the chosen one, or what a step asked for. */
static void turn_all(const uint8_t *script, size_t length, size_t piece, uint64_t most, size_t least_room) {
    size_t start = 0, given = 0, room = least_room;
    trac_report told = {TRAC_GOING, 0, 0, 0, 0, 0};
    for (int turns = 0; turns < MOST_TURNS; turns++) {
        must_show_the_same();
        must(turn_both(script + start, given - start, room, given == length, most, &told));
        start += told.consumed;
        room = told.fate == TRAC_WANTS_OUTPUT && told.wanted <= MOST_OUTPUT ? told.wanted : least_room;
        if (told.fate == TRAC_WANTS_INPUT)
            given = length - given < piece ? length : given + piece;
        else if (told.fate != TRAC_GOING && (told.fate != TRAC_WANTS_OUTPUT || told.wanted > MOST_OUTPUT))
            break;
    }
    must_show_the_same();
}

int LLVMFuzzerTestOneInput(const uint8_t *bytes, size_t count) {
    if (count < CHOICES)
        return 0;
    const size_t cells = bytes[0] * CELLS;
    const uint64_t steps = bytes[1] * STEPS;
    trac_report told;
    must(run_both(bytes + CHOICES, count - CHOICES, cells, steps, MOST_OUTPUT, &told));
    must(open_both(cells, steps));
    turn_all(bytes + CHOICES, count - CHOICES, bytes[2] % 16u + 1, bytes[3] % 32u + 1, bytes[4] % 16u);
    must_have_the_same_forms();
    return 0;
}
