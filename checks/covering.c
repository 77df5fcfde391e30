/* Runs scripts in both engines of engines.h, as the fuzzer does, and also by trac_check, by shown steps, with functions
 * of the host, with forms from outside, by the rest of trac.h, in little room (tight.c, indexed_rooms.c), with images
 * of forms (images_of_both.c), with little memory (memories.c, tight_traces.c), with steps that wait
 * (waiting_traces.c), and with calls that are refused (refused_by_both.c); and calls of arithmetic (numbers_of_both.c).
 * Standard input has the scripts, each after its length, which has four bytes, the lowest first. Ends with a trap if
 * the engines differ, and otherwise prints how many scripts there were. With -DCHOOSING it also prints for each script
 * how many edges of the engine it took that no script before it took (choosing.c). */
#include "covering.h"

#include <stdlib.h>

int LLVMFuzzerTestOneInput(const uint8_t *bytes, size_t count);
enum { UNITS_OF_MEMORY = 1 << 17, TURNS = 200, MEMORIES = 12, PIECE = 4096, PLACES = 12, ALL_MEMORIES = 201 };

static _Alignas(16) uint64_t memory[2][UNITS_OF_MEMORY];
uint8_t script[LONGEST], lines[2][LINES];

void must(int holds, const char *what) {
    if (!holds) {
        fprintf(stderr, "the engines differ in %s: %s\n", what, (const char *)script + CHOICES);
        abort();
    }
}

static uint32_t choice;

/* Makes the choices those of this script. */
static void begin_choices(size_t count) {
    choice = 2166136261u;
    for (size_t i = 0; i < count; i++)
        choice = (choice ^ script[i]) * 16777619u;
}

uint32_t choices_so_far(void) { return choice; }

void choose_again(uint32_t from) { choice = from; }

/* A number below `most`, which the script chooses. */
uint32_t chosen(uint32_t most) {
    choice = choice * 1664525u + 1013904223u;
    return (choice >> 8) % most;
}

uint32_t chosen_gap(void) {
    uint32_t ordinal = 1;
    for (uint32_t digits = chosen(9); digits > 0; digits--)
        ordinal = ordinal * 10 - chosen(2);
    return chosen(3) ? 256 + chosen(3) : 255u + (ordinal < 16777220u ? ordinal : 16777216u + chosen(2));
}

/* What trac_check reports with so much memory, or trac_check_zeroed, for a script of four. Gives whether that was
 * enough. */
static int check_both_in(size_t length, size_t count, size_t cells, uint64_t steps) {
    const size_t room = script[3] < 30 ? script[3] * 10u : LINES;
    const int is_zeroed = count % 4 == 0;
    if (is_zeroed) {
        memset(proved.block, 0, sizeof proved.block);
        memset(in_c.block, 0, sizeof in_c.block);
    }
    const trac_report a = (is_zeroed ? trac_check_zeroed : trac_check)(
        proved.block, cells, steps, script + CHOICES, count - CHOICES, memory[0], length, lines[0], room);
    const trac_report b = (is_zeroed ? c_trac_check_zeroed : c_trac_check)(
        in_c.block, cells, steps, script + CHOICES, count - CHOICES, memory[1], length, lines[1], room);
    must(memcmp(&a, &b, sizeof a) == 0 && memcmp(lines[0], lines[1], a.written < room ? a.written : room) == 0,
         "trac_check");
    return a.fate != TRAC_NO_MEMORY;
}

/* What trac_check reports; for some scripts also with too little memory for one list or another. Memory is used in
 * pieces of 4096 bytes. */
static void check_both(size_t count, size_t cells, uint64_t steps) {
    const int is_enough = check_both_in(sizeof memory[0], count, cells, steps);
    if (!is_enough || chosen(2))
        return;
    size_t length = chosen(2) ? PIECE : chosen(2 * PIECE);
    for (int i = 0; i < MEMORIES && !check_both_in(length, count, cells, steps); i++)
        length += PIECE;
}

/* A run in a block that is known to be zero. */
static void run_zeroed_both(size_t count, size_t cells, uint64_t steps) {
    memset(proved.block, 0, sizeof proved.block);
    memset(in_c.block, 0, sizeof in_c.block);
    const trac_report a = trac_run_zeroed(proved.block, cells, steps, script + CHOICES, count - CHOICES, proved.output,
                                          MOST_OUTPUT);
    const trac_report b = c_trac_run_zeroed(in_c.block, cells, steps, script + CHOICES, count - CHOICES, in_c.output,
                                            MOST_OUTPUT);
    must(is_same(&a, &b), "trac_run_zeroed");
}

/* What both show of a form, which isn't always the one that was found last. */
static void see_form(const trac_form *a, const trac_form *b, size_t room) {
    memset(lines, 0, sizeof lines);
    uint32_t *const codes = (uint32_t *)(void *)lines[0], *const others = (uint32_t *)(void *)lines[1];
    must(trac_form_pointer(a) == c_trac_form_pointer(b), "the pointer of a form");
    switch (chosen(3)) {
    case 0:
        must(trac_form_name(a, lines[0], room) == c_trac_form_name(b, lines[1], room), "the length of a name");
        break;
    case 1:
        must(trac_form_text(a, lines[0], room) == c_trac_form_text(b, lines[1], room), "the length of a text");
        break;
    default:
        must(trac_form_codes(a, codes, room) == c_trac_form_codes(b, others, room), "the length of a form");
    }
    must(memcmp(lines[0], lines[1], sizeof lines[0]) == 0, "a form");
}

/* Some of the forms, in any order. */
static void see_places(void) {
    trac_form a[PLACES], b[PLACES];
    trac_form one = TRAC_NO_FORM, other = TRAC_NO_FORM;
    size_t count = 0;
    while (count < PLACES && trac_next_form(&proved.machine, &one) && c_trac_next_form(&in_c.machine, &other)) {
        a[count] = one;
        b[count++] = other;
    }
    for (uint32_t i = 0; i < 4 && count > 0; i++) {
        const uint32_t which = chosen((uint32_t)count);
        see_form(&a[which], &b[which], chosen(2) ? chosen(80) : 4000);
        must(trac_next_form(&proved.machine, &a[which]) == c_trac_next_form(&in_c.machine, &b[which]), "the next form");
    }
}

/* The texts of all forms, and the arguments of the innermost call. */
static void see_both(size_t room) {
    trac_form a = TRAC_NO_FORM, b = TRAC_NO_FORM;
    while (trac_next_form(&proved.machine, &a) && c_trac_next_form(&in_c.machine, &b)) {
        memset(lines[0], 0, room);
        memset(lines[1], 0, room);
        must(trac_form_text(&a, lines[0], room) == c_trac_form_text(&b, lines[1], room), "the length of a form");
        must(memcmp(lines[0], lines[1], room) == 0, "a form");
    }
    const size_t arguments = trac_argument_count(&proved.machine);
    must(arguments == c_trac_argument_count(&in_c.machine), "the arguments");
    for (size_t i = 0; i <= arguments; i++) {
        memset(lines[0], 0, room);
        memset(lines[1], 0, room);
        must(trac_argument(&proved.machine, i, lines[0], room) == c_trac_argument(&in_c.machine, i, lines[1], room) &&
                 memcmp(lines[0], lines[1], room) == 0, "an argument");
    }
}

/* Opens both machines over blocks of zeros. Gives 0 if both are refused. */
static int open_zeroed_both(size_t cells, uint64_t steps) {
    memset(proved.block, 0, sizeof proved.block);
    memset(in_c.block, 0, sizeof in_c.block);
    const uint32_t told = trac_open_zeroed(&proved.machine, proved.block, cells, steps);
    must(c_trac_open_zeroed(&in_c.machine, in_c.block, cells, steps) == told, "trac_open_zeroed");
    return told == 0;
}

/* A session of two strings, with new steps for the second. */
static void again_both(size_t count, size_t cells, uint64_t steps) {
    if (!open_zeroed_both(cells, steps))
        return;
    trac_report told = {TRAC_GOING, 0, 0, 0, 0, 0};
    size_t at = CHOICES;
    for (int turn = 0; turn < TURNS && (told.fate == TRAC_GOING || told.fate == TRAC_WANTS_OUTPUT); turn++) {
        must(turn_both(script + at, count - at, MOST_OUTPUT, 1, script[3] % 50u + 1, &told), "a turn");
        at += told.consumed;
        see_both(script[4]);
        see_places();
        if (turn % 8 == 7 || told.fate == TRAC_STEPS) {
            must(trac_take_peak(&proved.machine) == c_trac_take_peak(&in_c.machine), "the peak");
            must(trac_again(&proved.machine, steps) == c_trac_again(&in_c.machine, steps), "trac_again");
        }
    }
}

/* A part of the script, as a name or as a body. */
static const uint8_t *part_of_script(size_t count, size_t most, size_t *length) {
    const size_t from = CHOICES + chosen((uint32_t)(count - CHOICES) + 1);
    *length = chosen((uint32_t)most + 1);
    if (*length > count - from)
        *length = count - from;
    return script + from;
}

/* A name: mostly that of a form. */
static size_t name_of_form(size_t count, uint8_t *name) {
    trac_form form = TRAC_NO_FORM;
    size_t forms = chosen((uint32_t)trac_form_count(&proved.machine) + 1), length;
    for (size_t i = 0; i < forms; i++)
        must(trac_next_form(&proved.machine, &form), "the forms");
    if (forms > 0 && (length = trac_form_name(&form, name, MOST_OUTPUT)) <= MOST_OUTPUT)
        return length;
    const uint8_t *part = part_of_script(count, chosen(2) ? 5 : 90, &length);
    memcpy(name, part, length);
    return length;
}

/* A form of codes, with gaps here and there. */
static void define_both(size_t count, const uint8_t *name, size_t length) {
    static uint32_t codes[400];
    size_t items;
    const uint8_t *body = part_of_script(count, 400, &items);
    for (size_t i = 0; i < items; i++)
        codes[i] = body[i] % 7 == 0 ? chosen_gap() : body[i];
    const size_t pointer = chosen((uint32_t)items + 2);
    must(trac_define(&proved.machine, name, length, codes, items, pointer) ==
             c_trac_define(&in_c.machine, name, length, codes, items, pointer), "trac_define");
}

/* A change of the forms from outside. */
static void change_both(size_t count) {
    static uint8_t name[MOST_OUTPUT];
    size_t body;
    const size_t length = name_of_form(count, name);
    trac_form a, b;
    must(trac_find_form(&proved.machine, name, length, &a) == c_trac_find_form(&in_c.machine, name, length, &b) &&
             trac_form_pointer(&a) == c_trac_form_pointer(&b), "trac_find_form");
    switch (chosen(8)) {
    case 0:
        must(trac_delete(&proved.machine, name, length) == c_trac_delete(&in_c.machine, name, length), "trac_delete");
        break;
    case 1: {
        const uint32_t byte = chosen(300);
        must(trac_set_meta(&proved.machine, byte) == c_trac_set_meta(&in_c.machine, byte), "trac_set_meta");
        break;
    }
    case 2:
        if (chosen(4) == 0)
            must(trac_delete_all(&proved.machine) == c_trac_delete_all(&in_c.machine), "trac_delete_all");
        break;
    case 3:
        save_both(&proved.machine, &in_c.machine);
        break;
    case 4:
    case 5: {
        const uint8_t *text = part_of_script(count, 400, &body);
        must(trac_define_text(&proved.machine, name, length, text, body) ==
                 c_trac_define_text(&in_c.machine, name, length, text, body), "trac_define_text");
        break;
    }
    default:
        define_both(count, name, length);
    }
    see_places();
    must(trac_moved(&proved.machine, proved.block) == c_trac_moved(&in_c.machine, in_c.block), "trac_moved");
}

/* A print that is taken in pieces. */
static void print_both(void) {
    const size_t room = script[3] % 9u + 1;
    size_t from = 0, left;
    do {
        memset(lines[0], 0, room);
        memset(lines[1], 0, room);
        left = trac_printed(&proved.machine, from, lines[0], room);
        must(c_trac_printed(&in_c.machine, from, lines[1], room) == left && memcmp(lines[0], lines[1], room) == 0,
             "trac_printed");
        from += room;
    } while (left > room && from < 90);
    const trac_report a = trac_skip_print(&proved.machine), b = c_trac_skip_print(&in_c.machine);
    must(is_same(&a, &b), "trac_skip_print");
}

/* A session whose host gives values, prints in pieces and changes forms between turns. */
static void host_both(size_t count, size_t cells, uint64_t steps) {
    if (!open_both(cells, steps))
        return;
    must(trac_stop_at_unknown(&proved.machine, script[2] % 8u) == c_trac_stop_at_unknown(&in_c.machine, script[2] % 8u),
         "trac_stop_at_unknown");
    trac_report told = {TRAC_GOING, 0, 0, 0, 0, 0};
    size_t at = CHOICES, length;
    for (int turn = 0; turn < TURNS && told.fate != TRAC_INPUT_ENDED && told.fate != TRAC_HALTED; turn++) {
        must(turn_both(script + at, count - at, script[4] % 4u, 1, chosen(60) + 1, &told), "a turn of a host");
        at += told.consumed;
        if (told.fate == TRAC_WANTS_OUTPUT || chosen(8) == 0)
            print_both();
        const uint8_t *value = part_of_script(count, script[4], &length);
        const uint32_t how = chosen(9) == 0 ? 3 : chosen(3);
        const trac_report a = trac_answer(&proved.machine, value, length, how);
        const trac_report b = c_trac_answer(&in_c.machine, value, length, how);
        must(is_same(&a, &b), "trac_answer");
        if (chosen(3) == 0)
            change_both(count);
    }
}

/* What the functions of the host of trac_run_with read and write. */
typedef struct {
    size_t at, end, written, failing;
} flow;

static size_t read_some(void *context, void *to, size_t room) {
    flow *given = context;
    size_t length = script[3] % 7u + 1;
    length = length < room ? length : room;
    length = length < given->end - given->at ? length : given->end - given->at;
    memcpy(to, script + given->at, length);
    given->at += length;
    return given->failing == given->at ? TRAC_FAILED : length;
}

static size_t write_some(void *context, const void *from, size_t length) {
    flow *given = context;
    const size_t taken = length < script[4] % 9u + 1u ? length : script[4] % 9u + 1u;
    for (size_t i = 0; i < taken; i++)
        given->written = given->written * 31 + ((const uint8_t *)from)[i];
    return script[3] == 9 ? TRAC_FAILED : taken;
}

static void run_with_both(size_t count, size_t cells, uint64_t steps) {
    flow one = {CHOICES, count, 0, script[3] % 4u == 0 ? CHOICES + script[4] : 0}, other = one;
    const size_t room = script[4] < 99 ? script[4] : MOST_OUTPUT;
    const trac_report a = trac_run_with(proved.block, cells, steps, proved.output, room, read_some, write_some, &one);
    const trac_report b = c_trac_run_with(in_c.block, cells, steps, in_c.output, room, read_some, write_some, &other);
    must(memcmp(&a, &b, sizeof a) == 0 && one.at == other.at && one.written == other.written, "trac_run_with");
}

/* Some forms from outside, and some steps of the script. Gives how far it was read. */
static size_t begin_both(size_t count) {
    trac_report told = {TRAC_GOING, 0, 0, 0, 0, 0};
    char name[12];
    for (uint32_t left = chosen(3) ? chosen(3) : chosen(300); left > 0 && count > CHOICES; left--)
        define_both(count, (const uint8_t *)name, (size_t)sprintf(name, "f%u", left));
    if (chosen(2))
        must(turn_both(script + CHOICES, count - CHOICES, MOST_OUTPUT, 1, chosen(3000), &told),
             "a turn before a trace");
    return CHOICES + told.consumed;
}

/* The lines of steps, calls or forms, with little memory and room for lines now and then. */
static void trace_both(size_t count, size_t cells, uint64_t steps) {
    if (!open_zeroed_both(cells, steps))
        return;
    size_t at = begin_both(count);
    trac_trace a, b;
    memset(&a, 0, sizeof a);
    a.from = script[4] % 3u + 1, a.to = script[4] > 200 ? 99 : UINT64_MAX;
    a.width = script[3] % 40u, a.columns = script[2] % 50u;
    a.calls = script[3] % 3u == 0, a.forms = script[4] % 3u == 0;
    b = a;
    const size_t room = script[3] < 30 ? script[3] * 10u : LINES;
    size_t length = script[2] < 150 ? PIECE * (1 + chosen(1 + chosen(6))) + chosen(2) * 16 : sizeof memory[0];
    trac_report told = {TRAC_GOING, 0, 0, 0, 0, 0};
    for (int step = 0; step < TURNS && (told.fate == TRAC_GOING || told.fate == TRAC_NO_MEMORY); step++) {
        length = told.fate == TRAC_NO_MEMORY ? length + PIECE : length;
        length = length < sizeof memory[0] ? length : sizeof memory[0];
        const int ended = script[2] % 8u == 7 ? 2 : 1;
        told = trac_trace_step(&proved.machine, &a, script + at, count - at, ended, proved.output, MOST_OUTPUT,
                               memory[0], length, lines[0], room);
        const trac_report other = c_trac_trace_step(&in_c.machine, &b, script + at, count - at, ended, in_c.output,
                                                    MOST_OUTPUT, memory[1], length, lines[1], room);
        must(memcmp(&told, &other, sizeof told) == 0 && memcmp(&a, &b, sizeof a) == 0, "trac_trace_step");
        must(memcmp(lines[0], lines[1], a.lines < room ? (size_t)a.lines : room) == 0, "the lines of a step");
        at += told.consumed;
    }
}

static void functions_of_both(void) {
    must(trac_function_count() == c_trac_function_count(), "the number of functions");
    for (size_t which = 0; which <= trac_function_count(); which++) {
        trac_function_facts a, b;
        memset(&a, 0, sizeof a);
        memset(&b, 0, sizeof b);
        must(trac_function(which, &a) == c_trac_function(which, &b) && memcmp(&a, &b, sizeof a) == 0, "a function");
        for (uint32_t text = 0; text < 8; text++) {
            const size_t room = text * 9;
            memset(lines[0], 0, room);
            memset(lines[1], 0, room);
            must(trac_function_text(which, text, lines[0], room) == c_trac_function_text(which, text, lines[1], room) &&
                     memcmp(lines[0], lines[1], room) == 0, "the text of a function");
        }
    }
}

/* As many cells as the script chooses, or some more or fewer than its peak. */
static size_t chosen_cells(uint32_t peak) {
    const size_t more = peak + chosen(60), less = chosen(chosen(2) ? 30 : peak + 60);
    const size_t cells = script[0] < 200 ? script[0] * CELLS + script[4] % 4u
                       : script[0] < 220 ? (more > less ? more - less : 0)
                                         : MOST_CELLS - script[4] % 4u;
    return cells < MOST_CELLS ? cells : MOST_CELLS;
}

static void run_script(size_t count) {
    begin_choices(count);
    LLVMFuzzerTestOneInput(script, count);
    const size_t cells = chosen_cells(tight_both(count));
    const uint64_t steps = script[1] * STEPS;
    if (script[2] == ALL_MEMORIES)
        memories_both(count);
    check_both(count, cells, steps);
    run_zeroed_both(count, cells, steps);
    again_both(count, cells, steps);
    trace_both(count, cells, steps);
    if (count > CHOICES) {
        host_both(count, cells, steps);
        run_with_both(count, cells, steps);
        waiting_traces_both(count, cells);
    }
    exact_both(count);
}

#ifdef CHOOSING
long new_edges(void);
#endif

int main(void) {
    uint8_t length[4];
    long scripts = 0;
    functions_of_both();
    refused_both();
    numbers_both();
    late_steps_both();
    tight_traces_both();
    indexed_rooms_both();
    while (fread(length, 1, 4, stdin) == 4) {
        const size_t count = length[0] | (size_t)length[1] << 8;
        memset(script, 0, CHOICES + 1);
        if (fread(script, 1, count, stdin) != count)
            return 1;
        if (count >= CHOICES)
            run_script(count);
        scripts++;
#ifdef CHOOSING
        printf("%ld\n", new_edges());
        fflush(stdout);
#endif
    }
    printf("%ld\n", scripts);
    return 0;
}
