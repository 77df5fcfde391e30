/* Shows steps in both engines of engines.h with memory that doesn't suffice for their lines: calls with arguments of
 * each length, in no other call and in many, and ends of runs behind forms of each length. */
#include "covering.h"

enum { PIECE = 4096, CELLS_HERE = 4000, MOST = 4200, STEPS_TO_CALL = 3, LONGEST_SCRIPT = 600, STEPS_LEFT = 40 };
enum { FORM = 40, FIRST_FORM = 12, FEWEST_FORMS = 30, MOST_FORMS = 42 };

static _Alignas(16) uint8_t memory[2][PIECE];
static uint32_t letters[MOST], width;

static void define_letters_to(const char *name, size_t length, size_t pointer) {
    const size_t named = strlen(name);
    must(trac_define(&proved.machine, name, named, letters, length, pointer) ==
             c_trac_define(&in_c.machine, name, named, letters, length, pointer), "a form of letters");
}

static void define_letters(const char *name, size_t length) { define_letters_to(name, length, 0); }

static void set_meta(uint32_t meta) {
    must(trac_set_meta(&proved.machine, meta) == c_trac_set_meta(&in_c.machine, meta), "trac_set_meta");
}

/* Makes a step with one piece of memory. */
static trac_report step_in_a_piece(const uint8_t *input, size_t length, trac_trace *a, trac_trace *b) {
    const trac_report told = trac_trace_step(&proved.machine, a, input, length, 1, proved.output, MOST_OUTPUT,
                                             memory[0], PIECE, lines[0], LINES);
    const trac_report other = c_trac_trace_step(&in_c.machine, b, input, length, 1, in_c.output, MOST_OUTPUT,
                                                memory[1], PIECE, lines[1], LINES);
    must(is_same(&told, &other) && memcmp(a, b, sizeof *a) == 0, "a step in a piece of memory");
    must(memcmp(lines[0], lines[1], a->lines < LINES ? (size_t)a->lines : LINES) == 0, "its lines");
    return told;
}

/* Whether the run isn't over; lines may be lost. */
static int is_going(trac_report told) { return told.fate == TRAC_GOING || told.fate == TRAC_NO_MEMORY; }

/* How many steps a text makes before it comes to an empty active string or the end of a call for the third or fourth
 * time: the first is the start, the second reads the text. */
static uint64_t steps_before(const char *text, size_t length, uint32_t meta, int ends) {
    trac_report told = {TRAC_GOING, 0, 0, 0, 0, 0};
    size_t at = 0;
    must(open_both(CELLS_HERE, UINT64_MAX), "trac_open");
    define_letters("e", 1);
    set_meta(meta);
    while (ends -= trac_steps_to_call(&proved.machine, 1) == 0) {
        must(turn_both((const uint8_t *)text + at, length - at, MOST_OUTPUT, 1, 1, &told), "a turn before an end");
        at += told.consumed;
    }
    return told.steps;
}

/* Calls whose arguments are as long as the form e, in so many other calls. */
static void trace_call(const char *call, int around, size_t characters, int is_of_forms, int is_end) {
    char text[LONGEST_SCRIPT];
    size_t length = 0, at = 0;
    trac_report told = {TRAC_GOING, 0, 0, 0, 0, 0};
    trac_trace a = TRAC_NO_TRACE, b;
    a.from = 1, a.to = UINT64_MAX, a.calls = !is_of_forms, a.forms = is_of_forms, a.width = width;
    b = a;
    for (int i = 0; i < around; i++)
        length += (size_t)sprintf(text + length, "#(eq,");
    length += (size_t)sprintf(text + length, "%s'", call);
    must(open_both(CELLS_HERE, is_end ? steps_before(text, length, '\'', 4) : UINT64_MAX), "trac_open");
    define_letters("e", characters);
    define_letters("a", 3);
    for (size_t left = STEPS_LEFT + length; left > 0 && is_going(told); left--) {
        told = step_in_a_piece((const uint8_t *)text + at, length - at, &a, &b);
        at += told.consumed;
    }
}

static void trace_calls(void) {
    static const char *const calls[] = {
        "#(zz,##(cl,e))", "#(ds,f,##(cl,e))", "#(dd,e,##(cl,e))", "#(dd,##(cl,e),a,b)", "#(da,##(cl,e))",
        "#(ps,##(cl,e))", "#(cl,q,##(cl,e))", "#(ad,1,2,##(cl,e))", "#(ss,a,##(cl,e))", "#(ds,a,bc,##(cl,e))",
        "#(cn,a,9,##(cl,e))", "#(pf,a,##(cl,e))", "#(hl,##(cl,e))", "##(cl,a,##(cl,e))", "#(eq,a,a,##(cl,e))"};
    for (size_t i = 0; i < sizeof calls / sizeof calls[0]; i++)
        for (size_t characters = 456; characters < 508; characters++)
            for (int way = 0; way < 4; way++)
                trace_call(calls[i], (int)characters % 24, characters, way % 2, way / 2);
}

/* The end of a run behind so many forms, of which the last has so many characters, in so many calls. */
static void trace_end(int forms, size_t characters, uint32_t meta, int around) {
    char text[LONGEST_SCRIPT], name[8];
    size_t length = 0;
    trac_report told;
    trac_trace a = TRAC_NO_TRACE, b;
    a.from = 1, a.to = UINT64_MAX, a.forms = 1;
    b = a;
    for (int i = 0; i < around; i++)
        length += (size_t)sprintf(text + length, i % 2 ? "#(eq,x" : "##(ps,");
    text[length++] = (char)meta;
    const uint64_t allowance = steps_before(text, length, meta, 3);
    must(open_both(CELLS_HERE, allowance), "trac_open");
    for (int i = 0; i < forms; i++) {
        sprintf(name, "f%d", i);
        define_letters(name, i == 0 ? FIRST_FORM : i + 1 == forms ? characters : FORM);
    }
    set_meta(meta);
    must(turn_both((const uint8_t *)text, length, MOST_OUTPUT, 1, allowance, &told), "a turn before the end");
    told = step_in_a_piece((const uint8_t *)"", 0, &a, &b);
}

static void trace_ends(void) {
    static const uint8_t metas[] = {'\'', '\t', '\n', '\r', '\\', 0, 128, 255};
    for (int forms = FEWEST_FORMS; forms < MOST_FORMS; forms++)
        for (size_t characters = 0; characters < FORM + 14; characters++)
            for (size_t i = 0; i < (forms < 38 ? 1 : sizeof metas); i++)
                for (int around = 3; around < 13; around += 9)
                    trace_end(forms, characters, metas[i], around);
}

/* The steps of a text behind a form of so many characters in the neutral string. */
static void trace_steps(const char *text, size_t characters, uint32_t width) {
    trac_report told = {TRAC_GOING, 0, 0, 0, 0, 0};
    trac_trace a = TRAC_NO_TRACE, b;
    size_t length = strlen(text), at = 0;
    a.from = STEPS_TO_CALL + 1, a.to = UINT64_MAX, a.width = width;
    b = a;
    must(open_both(MOST_CELLS, UINT64_MAX), "trac_open");
    define_letters("e", characters);
    while (is_going(told)) {
        told = step_in_a_piece((const uint8_t *)text + at, length - at, &a, &b);
        at += told.consumed;
    }
}

static void trace_all_steps(void) {
    static const char *const texts[] = {"##(cl,e)#(ps,xyz)'", "##(cl,e)#(ps,(\n))#(eq,a)##(eq)'", "##(cl,e)((abc'"};
    for (size_t i = 0; i < 3; i++)
        for (size_t characters = 2600; characters < 2700; characters++)
            trace_steps(texts[i], characters, 0);
    for (uint32_t width = 5250; width < 5350; width++)
        trace_steps("##(cl,e)##(cl,e)ab'", 2700, width);
}

static void set_letters(uint32_t one, uint32_t other) {
    for (size_t i = 0; i < MOST; i++)
        letters[i] = i % 2 ? other : one;
}

/* Calls with arguments of which each character takes two bytes of a line, whole and cut. */
static void trace_two_bytes(void) {
    for (size_t characters = 340; characters < 430; characters++) {
        set_letters('\t', '\t');
        trace_call("#(zz,##(cl,e))", 0, characters, 0, 0);
        set_letters(0xC3, 0xA9);
        trace_call("#(zz,##(cl,e))", 0, characters, 0, 0);
        width = 150;
        trace_call("#(zz,##(cl,e))", 0, characters, 0, 0);
        width = 0;
    }
}

/* The end of a run behind a form whose pointer stands at its end. */
static void trace_pointers(void) {
    for (size_t characters = 2040; characters < 2052; characters++) {
        trac_trace a = TRAC_NO_TRACE, b;
        a.from = 1, a.to = UINT64_MAX, a.forms = 1;
        b = a;
        must(open_both(CELLS_HERE, 0), "trac_open");
        define_letters_to("e", characters, characters);
        (void)step_in_a_piece((const uint8_t *)"", 0, &a, &b);
    }
}

void tight_traces_both(void) {
    trace_two_bytes();
    set_letters('a', 'b');
    trace_pointers();
    trace_all_steps();
    trace_calls();
    trace_ends();
}
