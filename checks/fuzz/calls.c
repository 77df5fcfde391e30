/* A target for libFuzzer that makes sequences of calls of trac.h. Its input is read as calls on a few machines, blocks
 * and places, with null and invalid pointers, stale places, machines that were never opened, blocks that were moved,
 * runs that are over, and blocks that are full. Each buffer is exactly as large as its given size, so that a sanitizer
 * sees each access outside of it. A call must be refused exactly where the header says so, and must then leave machine
 * and block unchanged; a place must be refused after its machine was changed; and a machine must show the same before
 * and after it was examined. */
#include "trac_engine.c"

#include <stdlib.h>

enum { MACHINES = 3, PLACES = 4, MOST_CELLS = 200, MOST_BYTES = 64, MOST_CALLS = 300 };

typedef struct {
    trac_machine machine;
    trac_cell *block;
    size_t cells;
    uint64_t changes; /* counts what makes its places stale */
    trac_trace trace;
    int stops; /* whether it was told to stop at calls whose name is no function */
} kept;

typedef struct {
    trac_form form;
    int of; /* the machine that it belongs to, -1 if to none */
    uint64_t changes;
} place;

static kept machines[MACHINES];
static place places[PLACES];
static const uint8_t *next, *end;

static void must(int holds) {
    if (!holds)
        abort();
}

static unsigned drawn(unsigned below) { return next < end ? *next++ % below : 0; }

static void *fresh(size_t bytes) {
    void *const made = malloc(bytes ? bytes : 1);
    must(made != NULL);
    memset(made, 0xA5, bytes);
    return made;
}

/* A sum of the bytes of a machine and its block, which a refused call and an examination leave unchanged. The engine
 * remembers in the machine's words where a form begins, so an examination may change these words. */
static uint64_t sum_of(const void *bytes, size_t length, uint64_t sum) {
    for (size_t i = 0; i < length; i++)
        sum = (sum ^ ((const uint8_t *)bytes)[i]) * UINT64_C(1099511628211);
    return sum;
}

static uint64_t block_sum(const kept *of) {
    return of->block ? sum_of(of->block, of->cells * sizeof(trac_cell), 7) : 0;
}

static void open_one(kept *of) {
    const size_t cells = drawn(MOST_CELLS);
    const unsigned way = drawn(8);
    const int is_zeroed = drawn(2) == 0;
    uint32_t (*const opens)(trac_machine *, trac_cell *, size_t, uint64_t) = is_zeroed ? trac_open_zeroed : trac_open;
    trac_cell *const block = (trac_cell *)fresh((cells + 1) * sizeof *block);
    const uint64_t machine_sum = sum_of(&of->machine, sizeof of->machine, 1), old_sum = block_sum(of);
    uint32_t told;
    if (is_zeroed)
        memset(block, 0, (cells + 1) * sizeof *block);
    if (way == 0)
        told = opens(&of->machine, (trac_cell *)(void *)((char *)block + 1), cells ? cells : 1, 9);
    else if (way == 1)
        told = opens(&of->machine, NULL, cells + 1, 9);
    else if (way == 2)
        told = opens(&of->machine, block, (size_t)TRAC_MOST_CELLS + 1 + cells, 9);
    else
        told = opens(&of->machine, block, cells, drawn(256) * drawn(256));
    must((told == 0) == (way > 2));
    if (told) {
        must(sum_of(&of->machine, sizeof of->machine, 1) == machine_sum && block_sum(of) == old_sum);
        free(block);
        return;
    }
    free(of->block);
    of->block = block;
    of->cells = cells;
    of->stops = 0;
    of->changes++;
}

/* The block goes to another place, and the old one is gone. */
static void move_one(kept *of) {
    if (!of->block) {
        must(trac_moved(&of->machine, (trac_cell *)(void *)&of->machine) == TRAC_REFUSED);
        return;
    }
    trac_cell *const to = (trac_cell *)fresh(of->cells * sizeof *to);
    must(trac_moved(&of->machine, NULL) == TRAC_REFUSED && trac_moved(NULL, to) == TRAC_REFUSED);
    memcpy(to, of->block, of->cells * sizeof *to);
    free(of->block);
    of->block = to;
    must(trac_moved(&of->machine, to) == 0);
    of->changes++;
}

/* Another machine becomes a copy of this one, with a block of its own. */
static void copy_one(const kept *of, kept *to) {
    if (of == to || !of->block)
        return;
    free(to->block);
    to->machine = of->machine;
    to->cells = of->cells;
    to->stops = of->stops;
    to->block = (trac_cell *)fresh(of->cells * sizeof *to->block);
    memcpy(to->block, of->block, of->cells * sizeof *to->block);
    must(trac_moved(&to->machine, to->block) == 0);
    to->changes++;
}

/* ---- What a machine shows, as a number. Machines that show different things have different numbers, except with a
 * chance of 1 in 2^64. */

static uint64_t with_number(uint64_t number, uint64_t sum) { return sum_of(&number, sizeof number, sum); }

static uint64_t forms_sum(const trac_machine *machine, uint64_t sum) {
    static uint32_t codes[MOST_CELLS];
    static uint8_t name[MOST_CELLS];
    trac_form form = TRAC_NO_FORM;
    while (trac_next_form(machine, &form)) {
        const size_t length = trac_form_name(&form, name, MOST_CELLS);
        const size_t count = trac_form_codes(&form, codes, MOST_CELLS);
        must(length + count <= MOST_CELLS);
        sum = sum_of(codes, count * sizeof *codes, sum_of(name, length, with_number(length, sum)));
        sum = with_number(trac_form_pointer(&form), sum);
    }
    return with_number(trac_form_count(machine), sum);
}

static uint64_t strings_sum(const trac_machine *machine, uint64_t sum) {
    static uint32_t codes[MOST_CELLS];
    const size_t neutral = trac_neutral(machine, codes, MOST_CELLS);
    sum = sum_of(codes, neutral * sizeof *codes, with_number(neutral, sum));
    const size_t active = trac_active(machine, codes, MOST_CELLS);
    return sum_of(codes, active * sizeof *codes, with_number(active, sum));
}

/* The steps and the peak of a machine; its words are copied, so that nothing of it changes. */
static trac_report counts_of(const kept *of) {
    trac_machine copy = of->machine;
    return trac_turn(&copy, NULL, 0, 1, NULL, 0, 0);
}

/* What a machine shows, without its forms. */
static uint64_t shown_sum(const kept *of) {
    const trac_report counts = counts_of(of);
    const uint64_t sum = sum_of(&counts, sizeof counts, trac_meta(&of->machine));
    return strings_sum(&of->machine, with_number(trac_rule(&of->machine), sum));
}

static uint64_t picture(const kept *of) {
    const uint64_t sum = forms_sum(&of->machine, shown_sum(of));
    return with_number(trac_awaits(&of->machine), with_number(trac_argument_count(&of->machine), sum));
}

/* What a machine shows, its block, and the place of its first form. */
typedef struct {
    uint64_t shown, block;
    trac_form first;
    int has_form;
} sight;

static sight sight_of(const kept *of) {
    sight seen = {picture(of), block_sum(of), TRAC_NO_FORM, 0};
    seen.has_form = trac_next_form(&of->machine, &seen.first);
    return seen;
}

static void must_be_as(const kept *of, const sight *before) {
    must(picture(of) == before->shown && block_sum(of) == before->block);
    must((trac_form_text(&before->first, NULL, 0) != 0) == before->has_form);
}

/* After a change an older place must be refused. */
static void must_be_changed(kept *of, const sight *before) {
    must(trac_form_text(&before->first, NULL, 0) == 0);
    of->changes++;
}

static size_t free_cells(const kept *of) { return trac_part(&of->machine, TRAC_PART_FREE); }

/* A machine in the same state, in its own block, which the caller frees. */
static kept twin_of(const kept *of) {
    kept twin = *of;
    twin.block = (trac_cell *)fresh(of->cells * sizeof *twin.block);
    memcpy(twin.block, of->block, of->cells * sizeof *twin.block);
    must(trac_moved(&twin.machine, twin.block) == 0);
    return twin;
}

/* Whether a text is the name of a function of the language, in letters of either case. */
static int is_function(const uint8_t *name, size_t length) {
    uint8_t known[8];
    for (size_t which = 0; which < trac_function_count(); which++) {
        size_t same = trac_function_text(which, TRAC_TEXT_NAME, known, sizeof known) == length;
        for (size_t i = 0; same && i < length; i++)
            same = known[i] == name[i] || (name[i] >= 'A' && name[i] <= 'Z' && known[i] == name[i] + 32);
        if (same)
            return 1;
    }
    return 0;
}

/* Whether the next step performs a call whose name is no function. */
static int calls_unknown(const trac_machine *machine) {
    uint8_t name[8];
    if (!trac_argument_count(machine))
        return 0;
    const size_t length = trac_argument(machine, 0, name, sizeof name);
    return length > sizeof name || !is_function(name, length);
}

static void turn_one(kept *of) {
    const size_t given = drawn(MOST_BYTES), room = drawn(MOST_BYTES), left = (size_t)(end - next);
    const size_t length = given < left ? given : left;
    uint8_t *const input = (uint8_t *)fresh(length), *const output = (uint8_t *)fresh(room);
    memcpy(input, next, length);
    next += length;
    const int is_end = drawn(2) != 0;
    const trac_report told = trac_turn(&of->machine, length ? input : NULL, length, is_end, room ? output : NULL, room,
                                       drawn(200));
    must(told.written <= room && told.consumed <= length && (told.fate != TRAC_REFUSED) == (of->block != NULL));
    must(told.fate != TRAC_WANTS_ANSWER || (of->stops && calls_unknown(&of->machine)));
    must(trac_turn(&of->machine, NULL, 1, 0, output, room, 1).fate == TRAC_REFUSED);
    of->changes++;
    free(input);
    free(output);
}

static void find_one(kept *of, place *at) {
    const int is_new = drawn(2) == 0;
    if (is_new)
        *at = (place){TRAC_NO_FORM, -1, 0};
    const int is_current = at->of < 0 || (of == &machines[at->of] && at->changes == of->changes);
    const int is_found = trac_next_form(&of->machine, &at->form);
    must(!is_found || (is_current && of->block));
    if (at->of < 0 && of->block) {
        at->of = (int)(of - machines);
        at->changes = of->changes;
    }
}

static void look_at(const place *at) {
    const size_t room = drawn(8);
    uint8_t *const bytes = (uint8_t *)fresh(room);
    uint32_t *const codes = (uint32_t *)fresh(room * sizeof *codes);
    const size_t length = trac_form_name(&at->form, bytes, room) + trac_form_text(&at->form, bytes, room) +
                          trac_form_codes(&at->form, codes, room) + trac_form_pointer(&at->form);
    must(at->of >= 0 && machines[at->of].changes == at->changes ? 1 : length == 0);
    free(bytes);
    free(codes);
}

/* The arguments of a call are the codes behind its mark, with comma marks between. */
static void show_call(const trac_machine *machine) {
    const size_t count = trac_argument_count(machine), room = drawn(8);
    uint32_t mark = 0;
    uint8_t *const bytes = (uint8_t *)fresh(room);
    size_t at = trac_calls(machine, &mark, 1) ? (size_t)mark + 1 : 0;
    must(!count || (at && trac_rule(machine) == TRAC_RULE_END_OF_CALL));
    for (size_t which = 0; which < count; which++) {
        const size_t length = trac_argument(machine, which, bytes, room);
        uint32_t code = 0;
        must(trac_neutral_part(machine, at, NULL, 0) >= length && trac_argument(machine, which, NULL, 1) == 0);
        for (size_t i = 0; i < room && i < length; i++)
            must(trac_neutral_part(machine, at + i, &code, 1) && code == bytes[i]);
        must(trac_neutral_part(machine, at + length, &code, 1) ? code == TRAC_COMMA_MARK : which + 1 == count);
        at += length + 1;
    }
    must(trac_argument(machine, count, bytes, room) == 0);
    free(bytes);
}

static void show_one(const kept *of) {
    const trac_machine *const machine = &of->machine;
    const uint64_t sum = block_sum(of);
    const size_t room = drawn(MOST_BYTES), from = drawn(MOST_BYTES);
    uint32_t *const codes = (uint32_t *)fresh(room * sizeof *codes);
    size_t all = 0;
    (void)trac_neutral_part(machine, from, codes, room);
    (void)trac_active_part(machine, from, codes, room);
    (void)trac_calls(machine, codes, room);
    must(trac_neutral_part(machine, SIZE_MAX, codes, room) == 0);
    for (uint32_t part = 0; part < 5; part++)
        all += trac_part(machine, part);
    must(all == (of->block ? of->cells : 0));
    (void)trac_takes(machine);
    (void)trac_drops(machine);
    (void)trac_steps_to_call(machine, from);
    (void)trac_rule(machine);
    (void)trac_awaits(machine);
    must((trac_meta(machine) == 256) == !of->block);
    show_call(machine);
    must(block_sum(of) == sum);
    free(codes);
}

/* A step that is shown: what it was, whether the memory was too small, and whether the lines were cut. */
static void trace_one(kept *of) {
    static const size_t most = 8192;
    const size_t given = drawn(MOST_BYTES), room = drawn(MOST_BYTES), lists = drawn(4) ? most : drawn(250) * 40;
    const size_t shown = drawn(2) ? most : drawn(99), left = (size_t)(end - next), length = given < left ? given : left;
    uint8_t *const input = (uint8_t *)fresh(length), *const output = (uint8_t *)fresh(room);
    uint8_t *const memory = (uint8_t *)fresh(lists), *const lines = (uint8_t *)fresh(shown);
    trac_trace *const trace = &of->trace;
    memcpy(input, next, length);
    next += length;
    if (!trace->begun) {
        *trace = (trac_trace){drawn(9), drawn(2) ? UINT64_MAX : drawn(99), drawn(9), drawn(30), drawn(2), drawn(2),
                              0, 0, 0, 0, 0, 0, 0, 0, 0};
    }
    const trac_trace before = *trace;
    const uint64_t sum = block_sum(of);
    const trac_report told = trac_trace_step(&of->machine, trace, length ? input : NULL, length, (int)drawn(4), output,
                                             room, lists ? memory : NULL, lists, lines, shown);
    must(told.written <= room && told.consumed <= length && (told.fate != TRAC_REFUSED) == (of->block != NULL));
    must(told.fate == TRAC_REFUSED ? memcmp(trace, &before, sizeof before) == 0 : told.peak == trace->peak);
    must((told.fate != TRAC_WANTS_INPUT && told.fate != TRAC_WANTS_OUTPUT && told.fate != TRAC_WANTS_ANSWER) ||
         (!trace->lines && block_sum(of) == sum));
    must(trac_trace_step(&of->machine, trace, NULL, 1, 0, output, room, memory, lists, lines, shown).fate ==
         TRAC_REFUSED);
    must(trac_trace_step(&of->machine, NULL, NULL, 0, 0, output, room, memory, lists, lines, shown).fate ==
         TRAC_REFUSED);
    of->changes++;
    free(input);
    free(output);
    free(memory);
    free(lines);
}

/* A check reports the same in a block of any content and in one of zero bytes. */
static void check_some(void) {
    static const size_t most = 4096;
    const size_t room = drawn(MOST_BYTES), lists = drawn(2) ? most : drawn(250), left = (size_t)(end - next);
    const size_t length = left < 40 ? left : 40;
    trac_cell *const block = (trac_cell *)fresh(60 * sizeof *block);
    trac_cell *const zeroed = (trac_cell *)calloc(60, sizeof *zeroed);
    uint8_t *const memory = (uint8_t *)fresh(most), *const lines = (uint8_t *)fresh(room);
    uint8_t *const other = (uint8_t *)fresh(room);
    must(zeroed != NULL);
    const trac_report one = trac_check(block, 60, 200, next, length, memory, lists, lines, room);
    const trac_report two = trac_check_zeroed(zeroed, 60, 200, next, length, memory, lists, other, room);
    must(one.fate == two.fate && one.steps == two.steps && one.peak == two.peak && one.written == two.written);
    must(one.wanted == two.wanted && one.written <= room && memcmp(lines, other, one.written) == 0);
    next += length;
    free(block);
    free(zeroed);
    free(memory);
    free(lines);
    free(other);
}

/* A script does the same in a block of any content and in one of zero bytes. */
static void run_some(void) {
    const size_t cells = drawn(MOST_CELLS), room = drawn(MOST_BYTES), left = (size_t)(end - next);
    const size_t length = left < 40 ? left : 40;
    trac_cell *const block = (trac_cell *)fresh(cells * sizeof *block);
    trac_cell *const zeroed = (trac_cell *)calloc(cells + 1, sizeof *zeroed);
    uint8_t *const output = (uint8_t *)fresh(room), *const other = (uint8_t *)fresh(room);
    must(zeroed != NULL);
    const trac_report one = trac_run(block, cells, 200, next, length, output, room);
    const trac_report two = trac_run_zeroed(zeroed, cells, 200, next, length, other, room);
    must(one.fate == two.fate && one.steps == two.steps && one.peak == two.peak && one.written == two.written);
    must(one.consumed == two.consumed && one.written <= room && memcmp(output, other, room) == 0);
    next += length;
    free(block);
    free(zeroed);
    free(output);
    free(other);
}

/* ---- Calls that the host answers, and output in pieces. */

/* The next bytes of the input, in a buffer of exactly their length, which the caller frees. */
static uint8_t *taken(size_t *length) {
    const size_t wanted = drawn(MOST_BYTES), left = (size_t)(end - next);
    *length = wanted < left ? wanted : left;
    uint8_t *const bytes = (uint8_t *)fresh(*length);
    memcpy(bytes, next, *length);
    next += *length;
    return bytes;
}

static void answer_one(kept *of) {
    const unsigned how = drawn(5), is_null = drawn(8) == 0;
    size_t length;
    uint8_t *const value = taken(&length);
    const sight before = sight_of(of);
    const trac_report counts = counts_of(of);
    const int is_good = of->block && calls_unknown(&of->machine) && how < 3 && !(is_null && length);
    const size_t need = of->cells - free_cells(of) - 1 + length;
    const trac_report told = trac_answer(&of->machine, is_null ? NULL : value, length, how);
    must(told.written == 0 && told.consumed == 0 && told.wanted == 0);
    if (!is_good) {
        must(told.fate == TRAC_REFUSED || (told.fate == TRAC_STEPS && told.steps == counts.steps));
    } else if (need > of->cells) {
        must(told.fate == TRAC_WORKSPACE && told.steps == counts.steps && told.peak == counts.peak);
        must(trac_answer(&of->machine, NULL, 0, TRAC_BY_MODE).fate == TRAC_REFUSED);
    } else {
        must(told.fate == TRAC_GOING && told.steps == counts.steps + 1);
        must(told.peak == (need > counts.peak ? need : counts.peak));
    }
    if (told.fate == TRAC_REFUSED)
        must_be_as(of, &before);
    else
        must_be_changed(of, &before);
    free(value);
}

/* Brings a machine to a call that the host answers, to a step that prints or to one that uses forms, if its cells and
 * steps suffice. Its forms stay. */
static void begin_one(kept *of) {
    static const char *const scripts[] = {
        "#(zz,a,b)'", "#(ps,<##(yy,#(cl,A,1))>)'", "#(ps,text)'", "#(ds,A,one-two-)#(ss,A,-)#(pf,A)'",
        "#(ds,B,x)#(ds,,y)#(ln,/)'", "#(ps,#(cl,B)#(x#(y))#(Z))'", "#(ds,A,1)#(ds,B,2)#(ds,C,3)'", "##(q,(,))#(rs)'",
    };
    const char *const script = scripts[drawn(sizeof scripts / sizeof scripts[0])];
    const uint64_t steps = drawn(2) ? 999 : drawn(60);
    if (drawn(2))
        (void)trac_again(&of->machine, steps);
    (void)trac_stop_at_unknown(&of->machine, 1);
    of->stops = of->block != NULL;
    of->trace = TRAC_NO_TRACE;
    (void)trac_turn(&of->machine, script, strlen(script), 1, NULL, 0, drawn(2) ? 999 : drawn(90));
    of->changes++;
}

static void stop_one(kept *of) {
    const int on = (int)drawn(3);
    const sight before = sight_of(of);
    must((trac_stop_at_unknown(&of->machine, on) == 0) == (of->block != NULL));
    must(trac_stop_at_unknown(NULL, on) == TRAC_REFUSED);
    of->stops = of->block && on;
    if (of->block)
        must_be_changed(of, &before);
    if (calls_unknown(&of->machine)) {
        kept twin = twin_of(of);
        must((trac_turn(&twin.machine, NULL, 0, 1, NULL, 0, 1).fate == TRAC_WANTS_ANSWER) == (on != 0));
        free(twin.block);
    }
}

/* The pieces of what a step prints are the same as the whole, and as what a turn prints. */
static void print_one(const kept *of) {
    const size_t room = drawn(9), from = drawn(MOST_BYTES), whole = trac_printed(&of->machine, 0, NULL, 0);
    const uint64_t sum = block_sum(of);
    uint8_t *const all = (uint8_t *)fresh(whole), *const piece = (uint8_t *)fresh(room);
    must(trac_printed(&of->machine, 0, all, whole) == whole && trac_printed(&of->machine, 0, NULL, 1) == 0);
    const size_t left = trac_printed(&of->machine, from, piece, room);
    must(left == (from < whole ? whole - from : 0) && trac_printed(&of->machine, SIZE_MAX, piece, room) == 0);
    must(!left || memcmp(piece, all + from, left < room ? left : room) == 0);
    must(block_sum(of) == sum);
    if (whole) {
        kept twin = twin_of(of);
        uint8_t *const output = (uint8_t *)fresh(whole);
        must(trac_turn(&twin.machine, NULL, 0, 0, output, whole - 1, 1).fate == TRAC_WANTS_OUTPUT);
        const trac_report told = trac_turn(&twin.machine, NULL, 0, 0, output, whole, 1);
        must(told.fate == TRAC_GOING && told.written == whole && memcmp(output, all, whole) == 0);
        free(output);
        free(twin.block);
    }
    free(all);
    free(piece);
}

/* A step that prints does the same if its output is skipped. */
static void skip_one(kept *of) {
    static uint8_t output[1 << 12];
    const size_t whole = trac_printed(&of->machine, 0, NULL, 0);
    const sight before = sight_of(of);
    must(trac_skip_print(NULL).fate == TRAC_REFUSED);
    if (!whole) {
        must(trac_skip_print(&of->machine).fate == TRAC_REFUSED);
        must_be_as(of, &before);
    } else {
        kept twin = twin_of(of);
        const trac_report told = trac_turn(&twin.machine, NULL, 0, 0, output, sizeof output, 1);
        const trac_report done = trac_skip_print(&of->machine);
        must(done.fate == TRAC_GOING && told.fate == TRAC_GOING && done.steps == told.steps && done.peak == told.peak);
        must(done.written == 0 && picture(of) == picture(&twin));
        must_be_changed(of, &before);
        free(twin.block);
    }
}

/* ---- Forms defined from outside. */

static int has_form(const trac_machine *machine, const uint8_t *name, size_t length) {
    trac_form form = TRAC_NO_FORM;
    return trac_find_form(machine, name, length, &form);
}

/* The form that was just made is the last one, and has this name, this body and this pointer. */
static void must_be_last(const kept *of, const uint8_t *name, size_t length, const uint32_t *codes, size_t count,
                         size_t pointer) {
    static uint32_t body[MOST_CELLS];
    static uint8_t text[MOST_CELLS];
    trac_form form = TRAC_NO_FORM, last = TRAC_NO_FORM, one = TRAC_NO_FORM;
    while (trac_next_form(&of->machine, &one))
        last = one;
    must(trac_find_form(&of->machine, name, length, &form) && memcmp(&form, &last, sizeof form) == 0);
    must(trac_form_name(&form, text, MOST_CELLS) == length && memcmp(text, name, length) == 0);
    must(trac_form_codes(&form, body, MOST_CELLS) == count && trac_form_pointer(&form) == pointer);
    must(memcmp(body, codes, count * sizeof *codes) == 0);
}

/* The code of a byte or of a gap, or sometimes of neither. */
static uint32_t drawn_code(void) {
    static const uint32_t odd[] = {TRAC_FIRST_GAP, TRAC_FIRST_GAP + 16777215, TRAC_FIRST_GAP + 16777216, UINT32_MAX};
    const unsigned kind = drawn(40);
    return kind < 4 ? odd[kind] : kind < 12 ? TRAC_FIRST_GAP + drawn(5) : drawn(256);
}

static void define_one(kept *of) {
    const size_t count = drawn(30), pointer = drawn(32);
    const unsigned wrong = drawn(12), is_text = drawn(2);
    size_t length;
    uint8_t *const name = taken(&length), *const text = (uint8_t *)fresh(count);
    uint32_t *const codes = (uint32_t *)fresh((count + 1) * sizeof *codes);
    uint32_t *const given = wrong == 0 ? NULL : wrong == 1 ? (uint32_t *)(void *)((char *)codes + 1) : codes;
    uint32_t greatest = 0;
    for (size_t i = 0; i < count; i++) {
        codes[i] = is_text ? drawn(256) : drawn_code();
        text[i] = (uint8_t)codes[i];
        greatest = codes[i] > greatest ? codes[i] : greatest;
    }
    const sight before = sight_of(of);
    const uint64_t shown = shown_sum(of);
    const size_t forms = trac_form_count(&of->machine), is_new = !has_form(&of->machine, name, length);
    const int is_name = wrong != 2 || !length;
    const int is_body = is_text ? wrong != 0 || !count
                                : (wrong > 1 || (wrong == 0 && !count)) && pointer <= count &&
                                      greatest < TRAC_FIRST_GAP + 16777216;
    const int fits = of->block && 3 + length + count <= free_cells(of) && is_name && is_body;
    const uint32_t told =
        is_text ? trac_define_text(&of->machine, is_name ? name : NULL, length, wrong ? text : NULL, count)
                : trac_define(&of->machine, is_name ? name : NULL, length, given, count, pointer);
    must((told == 0) == fits && (told == 0 || told == TRAC_REFUSED));
    if (told == 0) {
        must(shown_sum(of) == shown && trac_form_count(&of->machine) == forms + is_new);
        must_be_last(of, name, length, codes, count, is_text ? 0 : pointer);
        must_be_changed(of, &before);
    } else {
        must_be_as(of, &before);
    }
    free(name);
    free(text);
    free(codes);
}

/* The name of an existing form, or any bytes. */
static uint8_t *drawn_name(const kept *of, size_t *length) {
    trac_form form = TRAC_NO_FORM;
    for (unsigned passed = drawn(9); passed; passed--)
        (void)trac_next_form(&of->machine, &form);
    if (!trac_form_codes(&form, NULL, 0))
        return taken(length);
    *length = trac_form_name(&form, NULL, 0);
    uint8_t *const name = (uint8_t *)fresh(*length);
    must(trac_form_name(&form, name, *length) == *length);
    return name;
}

static void delete_one(kept *of) {
    size_t length;
    uint8_t *const name = drawn_name(of, &length);
    const sight before = sight_of(of);
    const uint64_t shown = shown_sum(of);
    const size_t forms = trac_form_count(&of->machine);
    const int is_there = has_form(&of->machine, name, length);
    must(trac_delete(&of->machine, NULL, 1) == TRAC_REFUSED && trac_delete(NULL, name, length) == TRAC_REFUSED);
    must((trac_delete(&of->machine, name, length) == 0) == is_there);
    must(!has_form(&of->machine, name, length) && shown_sum(of) == shown);
    must(trac_form_count(&of->machine) == forms - (size_t)is_there);
    if (is_there)
        must_be_changed(of, &before);
    else
        must_be_as(of, &before);
    free(name);
}

static void delete_all_of(kept *of) {
    const uint64_t shown = shown_sum(of);
    const sight before = sight_of(of);
    must((trac_delete_all(&of->machine) == 0) == (of->block != NULL) && trac_delete_all(NULL) == TRAC_REFUSED);
    must(shown_sum(of) == shown && !trac_form_count(&of->machine) && !trac_part(&of->machine, TRAC_PART_STORE));
    must_be_changed(of, &before);
}

static void set_meta_of(kept *of) {
    const uint32_t byte = drawn(9) ? drawn(256) : 256 + drawn(2) * (UINT32_MAX - 256);
    const sight before = sight_of(of);
    const int is_good = of->block && byte < 256;
    must((trac_set_meta(&of->machine, byte) == 0) == is_good && trac_set_meta(NULL, byte) == TRAC_REFUSED);
    must(!is_good || trac_meta(&of->machine) == byte);
    if (is_good)
        must_be_changed(of, &before);
    else
        must_be_as(of, &before);
}

/* A form is found by its name exactly if the list has it. */
static void find_by_name(const kept *of, place *at) {
    size_t length;
    uint8_t *const name = drawn_name(of, &length), *const other = (uint8_t *)fresh(length);
    trac_form form = TRAC_NO_FORM;
    int is_there = 0;
    while (!is_there && trac_next_form(&of->machine, &form))
        is_there = trac_form_name(&form, other, length) == length && memcmp(name, other, length) == 0;
    must(trac_find_form(&of->machine, NULL, 1, &at->form) == 0 && trac_find_form(NULL, name, length, &at->form) == 0);
    must(trac_find_form(&of->machine, name, length, NULL) == 0);
    must(trac_find_form(&of->machine, name, length, &at->form) == is_there);
    must(!is_there || memcmp(&at->form, &form, sizeof form) == 0);
    if (of->block) {
        at->of = is_there ? (int)(of - machines) : -1;
        at->changes = of->changes;
    }
    free(name);
    free(other);
}

/* An image of a machine's forms is taken by a machine exactly if that one's strings leave the cells, and then it has
 * these forms and nothing else has changed; one that is cut, or in which a bit is turned, is taken by none. */
static void image_one(const kept *of, kept *to) {
    const size_t room = drawn(MOST_BYTES), whole = trac_save(&of->machine, NULL, 0);
    const unsigned wrong = drawn(5), bit = drawn(8);
    const size_t place = whole ? (256 * drawn(256) + drawn(256)) % whole : 0, given = wrong == 0 ? place : whole;
    uint8_t *const image = (uint8_t *)fresh(given), *const front = (uint8_t *)fresh(room);
    must((whole != 0) == (of->block != NULL) && trac_save(&of->machine, NULL, 1) == 0);
    must(trac_save(NULL, front, room) == 0);
    must(trac_save(&of->machine, image, given) == whole && trac_save(&of->machine, front, room) == whole);
    must(memcmp(front, image, room < given ? room : given) == 0);
    if (whole && wrong == 1)
        image[place] ^= (uint8_t)(1u << bit);
    const sight before = sight_of(to);
    const trac_report counts = counts_of(to);
    const uint64_t forms = forms_sum(&of->machine, trac_meta(&of->machine)), strings = strings_sum(&to->machine, 0);
    const size_t store = trac_part(&of->machine, TRAC_PART_STORE), own = trac_part(&to->machine, TRAC_PART_STORE);
    const int fits = of->block && to->block && wrong > 1 && store <= free_cells(to) + own;
    must(trac_load(&to->machine, NULL, 1) == TRAC_REFUSED && trac_load(NULL, image, given) == TRAC_REFUSED);
    must((trac_load(&to->machine, image, given) == 0) == fits);
    if (fits) {
        uint8_t *const again = (uint8_t *)fresh(whole);
        const trac_report now = counts_of(to);
        must(forms_sum(&to->machine, trac_meta(&to->machine)) == forms && strings_sum(&to->machine, 0) == strings);
        must(memcmp(&now, &counts, sizeof now) == 0);
        must(trac_save(&to->machine, again, whole) == whole && memcmp(again, image, whole) == 0);
        must_be_changed(to, &before);
        free(again);
    } else {
        must_be_as(to, &before);
    }
    free(image);
    free(front);
}

/* ---- Runs that read and write by functions of the host. */

typedef struct {
    const uint8_t *script;
    size_t length, given, limit, written, most;
    int fails;
    uint8_t *output;
} devices;

/* What a function of the host may do with another machine. */
static void use_another(void) {
    kept *const of = &machines[drawn(MACHINES)];
    if (drawn(4) == 0) {
        (void)trac_turn(&of->machine, NULL, 0, 0, NULL, 0, 1);
        of->changes++;
    }
}

static size_t read_some(void *context, void *to, size_t room) {
    devices *const of = (devices *)context;
    const size_t left = of->length - of->given, most = room < of->most ? room : of->most;
    const size_t count = left < most ? left : most;
    must(room > 0);
    use_another();
    memset(to, 0xA5, room);
    memcpy(to, of->script + of->given, count);
    of->given += count;
    return count || !of->fails ? count : of->fails == 1 ? TRAC_FAILED : room + 1;
}

static size_t write_some(void *context, const void *from, size_t length) {
    devices *const of = (devices *)context;
    const size_t left = of->limit - of->written, most = length < of->most ? length : of->most;
    const size_t count = left < most ? left : most;
    must(length > 0);
    use_another();
    memcpy(of->output + of->written, from, count);
    of->written += count;
    return count || of->fails != 2 ? count : length + 1;
}

/* A run by functions of the host does what trac_run does, up to the first failure. */
static void run_by_functions(void) {
    const size_t cells = drawn(MOST_CELLS), room = drawn(2) ? cells : drawn(20), limit = drawn(MOST_BYTES);
    devices of = {NULL, 0, 0, limit, 0, 1 + drawn(9), (int)drawn(3), (uint8_t *)fresh(limit)};
    uint8_t *const script = taken(&of.length), *const wanted = (uint8_t *)fresh(limit);
    trac_cell *const block = (trac_cell *)fresh(cells * sizeof *block);
    uint8_t *const buffer = (uint8_t *)fresh(room);
    of.script = script;
    const trac_report whole = trac_run(block, cells, 200, script, of.length, wanted, limit);
    must(trac_run_with(block, cells, 200, buffer, room, NULL, write_some, &of).fate == TRAC_REFUSED);
    must(trac_run_with(block, cells, 200, buffer, room, read_some, NULL, &of).fate == TRAC_REFUSED);
    must(trac_run_with(block, cells, 200, NULL, 1, read_some, write_some, &of).fate == TRAC_REFUSED);
    must(of.given == 0 && of.written == 0);
    const trac_report told = trac_run_with(block, cells, 200, buffer, room, read_some, write_some, &of);
    must(told.consumed <= of.given && told.written == of.written && told.written <= whole.written);
    must(memcmp(of.output, wanted, told.written) == 0 && told.steps <= whole.steps);
    must(memcmp(buffer, script + told.consumed, of.given - told.consumed) == 0);
    if (told.fate != TRAC_INPUT_FAILED && told.fate != TRAC_NO_MEMORY)
        must(told.fate == whole.fate && told.steps == whole.steps && told.peak == whole.peak &&
             told.consumed == whole.consumed && told.written == whole.written);
    must(told.fate != TRAC_INPUT_FAILED || of.fails);
    must(told.fate != TRAC_NO_MEMORY || (room < cells && of.given - told.consumed == room));
    free(script);
    free(wanted);
    free(block);
    free(buffer);
    free(of.output);
}

static void call_host(kept *of, place *at, unsigned which) {
    switch (which) {
    case 0:
        stop_one(of);
        break;
    case 1:
    case 2:
        answer_one(of);
        break;
    case 3:
        print_one(of);
        break;
    case 4:
        skip_one(of);
        break;
    case 5:
        define_one(of);
        break;
    case 6:
        delete_one(of);
        break;
    case 7:
        delete_all_of(of);
        break;
    case 8:
        set_meta_of(of);
        break;
    case 9:
        find_by_name(of, at);
        break;
    case 10:
        run_by_functions();
        break;
    case 14:
        image_one(of, &machines[drawn(MACHINES)]);
        break;
    default:
        begin_one(of);
    }
}

static void call_one(kept *of) {
    place *const at = &places[drawn(PLACES)];
    const unsigned which = drawn(29);
    switch (which) {
    case 0:
        open_one(of);
        break;
    case 1:
        move_one(of);
        break;
    case 2:
        copy_one(of, &machines[drawn(MACHINES)]);
        break;
    case 3:
        must((trac_again(&of->machine, drawn(256) * 8u) == 0) == (of->block != NULL));
        of->trace = TRAC_NO_TRACE;
        of->changes++;
        break;
    case 4:
    case 5:
        find_one(of, at);
        break;
    case 6:
        look_at(at);
        break;
    case 7:
        show_one(of);
        break;
    case 8:
        (void)trac_take_peak(&of->machine);
        break;
    case 9:
        check_some();
        break;
    case 10:
        run_some();
        break;
    case 11:
    case 12:
        trace_one(of);
        break;
    case 13:
        turn_one(of);
        break;
    default:
        call_host(of, at, which - 14);
    }
}

int LLVMFuzzerTestOneInput(const uint8_t *bytes, size_t count) {
    next = bytes;
    end = bytes + count;
    memset(machines, 0, sizeof machines);
    for (int i = 0; i < PLACES; i++)
        places[i] = (place){TRAC_NO_FORM, -1, 0};
    for (int calls = 0; next < end && calls < MOST_CALLS; calls++)
        call_one(&machines[drawn(MACHINES)]);
    for (int i = 0; i < MACHINES; i++)
        free(machines[i].block);
    return 0;
}
