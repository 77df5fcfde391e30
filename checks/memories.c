/* Gives trac_check and trac_trace_step of both engines of engines.h too little memory, so that each of their lists
 * finds too little of it once. Memory is used in pieces of 4096 bytes; so the script stands behind a form whose body is
 * made longer by one character at a time, and what is done at the end of a piece moves on by some bytes each time. */
#include "covering.h"

enum { PIECE = 4096, MOST_PIECES = 64, FEWER = 8, FILLED = 480, TRACES = 24, LONGEST_FILL = 2200, TRACED = 60 };
enum { CALLS = 400, LAST = 24, FIRST_STEPS = 24, LONG_SCRIPT = 500 };
enum { CELLS_HERE = 6000, STEPS_HERE = 9000, FEWEST_MARKS = 20, MOST_MARKS = 110, FEWER_MARKED = 4 };
enum { LONGEST_NAME = 150, CELLS_OF_ROOM = 8, AMPLE_ROOM = 200, FIRST_ALLOWANCES = 100 };
/* What a script asks for by its fourth byte, in a room that its fifth byte chooses; others ask for all the rest. */
enum { MARKED, LINES_ALONE, ROOMS };

static _Alignas(16) uint8_t memory[2][PIECE * MOST_PIECES];
static uint8_t filled[LONGEST + LONGEST_FILL + 16];

/* Puts the script behind a form of so many characters, and gives the length of both. */
static size_t fill(size_t count, size_t characters) {
    const size_t length = (size_t)sprintf((char *)filled, "#(ds,e,%0*d)", (int)characters + 1, 0);
    memcpy(filled + length, script + CHOICES, count - CHOICES);
    return length + count - CHOICES;
}

/* Puts behind the script so many left parentheses that look like calls, and gives the length of all. Before the first
 * step the warning of each takes memory; that of a named one takes some bytes more. */
static size_t mark(size_t count, size_t marks, size_t named) {
    size_t length = count - CHOICES;
    memcpy(filled, script + CHOICES, length);
    for (size_t i = 0; i < marks; i++)
        length += (size_t)sprintf((char *)filled + length, i < named ? "(ps,)" : ":(ps)");
    return length;
}

/* Puts the script behind a call of a name of so many characters, which the first line shows, and gives the length of
 * both. */
static size_t name(size_t count, size_t characters) {
    const size_t length = (size_t)sprintf((char *)filled, "#(%0*d)'", (int)characters + 1, 0);
    memcpy(filled + length, script + CHOICES, count - CHOICES);
    return length + count - CHOICES;
}

/* What trac_check has for the run of the script. */
static size_t cells = CELLS_HERE;
static uint64_t steps = STEPS_HERE;

/* Gives whether this memory was enough. */
static int check_in(size_t length, size_t pieces) {
    const trac_report a = trac_check(proved.block, cells, steps, filled, length, memory[0], pieces * PIECE, lines[0],
                                     LINES);
    const trac_report b = c_trac_check(in_c.block, cells, steps, filled, length, memory[1], pieces * PIECE, lines[1],
                                       LINES);
    must(memcmp(&a, &b, sizeof a) == 0 && memcmp(lines[0], lines[1], a.written < LINES ? a.written : LINES) == 0,
         "trac_check with little memory");
    return a.fate != TRAC_NO_MEMORY;
}

/* With so many pieces, and with up to so many fewer: those that are too few end at other places, too. */
static void check_in_each(size_t length, size_t pieces, size_t fewer) {
    const size_t fewest = pieces > fewer ? pieces - fewer : 1;
    for (size_t less = pieces; less >= fewest; less--)
        check_in(length, less);
}

/* How many pieces are enough, or the most. */
static size_t enough_pieces(size_t length) {
    size_t pieces = 1;
    while (pieces < MOST_PIECES && !check_in(length, pieces))
        pieces++;
    return pieces;
}

/* With less and less memory left at the first step, so that each list that the first steps need finds too little of it
 * once. */
static void check_marked(size_t count) {
    for (size_t marks = FEWEST_MARKS; marks <= MOST_MARKS; marks++) {
        const size_t pieces = enough_pieces(mark(count, marks, 0));
        for (size_t named = 0; named <= marks; named += 16)
            check_in_each(mark(count, marks, named), pieces, FEWER_MARKED);
    }
}

/* With first lines of many lengths, so that the list of all lines finds too little memory at each part of a line. */
static void check_lines(size_t count) {
    for (size_t characters = 0; characters < LONGEST_NAME; characters++)
        (void)enough_pieces(name(count, characters));
}

/* In all rooms up to the one of the script, and then with the first allowances. */
static void check_rooms(size_t count) {
    const size_t length = fill(count, 0), most = cells;
    for (cells = 0; cells < most; cells++)
        check_in(length, MOST_PIECES);
    for (steps = 0; steps < FIRST_ALLOWANCES; steps++)
        check_in(length, MOST_PIECES);
    steps = STEPS_HERE;
}

/* A long script takes longer, and has all pieces alone. */
static void check_filled(size_t count) {
    const size_t pieces = enough_pieces(fill(count, 0)), fewer = count < LONG_SCRIPT ? FEWER : 0;
    for (size_t characters = 1; characters < FILLED; characters++)
        check_in_each(fill(count, characters), pieces, fewer);
}

/* Runs that end at one of their first steps, so that their lists have nothing yet, with each number of pieces. */
static void check_first_steps(size_t count) {
    const size_t length = fill(count, 0);
    for (uint32_t i = 0; i < FIRST_STEPS; i++) {
        steps = i % 2 ? STEPS_HERE : i < 32 ? i / 2 : chosen(200);
        cells = i % 2 ? (i < 32 ? i / 2 : chosen((uint32_t)length + 30)) : CELLS_HERE;
        (void)enough_pieces(length);
    }
    cells = CELLS_HERE, steps = STEPS_HERE;
}

/* Makes a step that is shown; with all memory, if one piece isn't enough. */
static trac_report trace_in(const uint8_t *input, size_t length, trac_trace *a, trac_trace *b) {
    trac_report told = {TRAC_NO_MEMORY, 0, 0, 0, 0, 0}, other;
    for (size_t pieces = 1; pieces <= MOST_PIECES && told.fate == TRAC_NO_MEMORY; pieces *= 4) {
        told = trac_trace_step(&proved.machine, a, input, length, 1, proved.output, MOST_OUTPUT, memory[0],
                               pieces * PIECE, lines[0], LINES);
        other = c_trac_trace_step(&in_c.machine, b, input, length, 1, in_c.output, MOST_OUTPUT, memory[1],
                                  pieces * PIECE, lines[1], LINES);
        must(memcmp(&told, &other, sizeof told) == 0 && memcmp(a, b, sizeof *a) == 0, "a step with little memory");
        must(memcmp(lines[0], lines[1], a->lines < LINES ? (size_t)a->lines : LINES) == 0, "its lines");
    }
    return told;
}

static void trace_filled(size_t count, size_t characters) {
    const size_t length = fill(count, characters);
    trac_report told = {TRAC_GOING, 0, 0, 0, 0, 0};
    size_t at = 0;
    trac_trace a = TRAC_NO_TRACE, b;
    a.from = 1, a.to = UINT64_MAX, a.calls = chosen(3) == 0, a.forms = chosen(3) == 0;
    a.width = chosen(4) ? 0 : chosen(300), a.columns = chosen(3) ? 0 : 20 + chosen(80);
    b = a;
    if (!open_both(CELLS_HERE, STEPS_HERE))
        return;
    for (uint32_t left = TRACED + chosen(TRACED); left > 0 && told.fate == TRAC_GOING; left--) {
        told = trace_in(filled + at, length - at, &a, &b);
        at += told.consumed;
    }
}

/* A call of which an argument has so many characters, or a value, and the script behind it. Gives the length of both,
 * and of the call. */
static size_t long_call(size_t count, size_t characters, size_t *call) {
    static const char *const calls[] = {
        "#(ds,e,%0*d)", "#(ps,%0*d)", "#(ds,e,%0*d)#(cl,e)", "#(ds,e,%0*d)##(cl,e)#(ps,##(cl,e))", "#(zz,%0*d)",
        "#(ds,e,ab)#(ss,e,%0*d)", "#(ds,e,a)#(dd,%0*d,e,e)", "#(cl,%0*d)", "#(eq,%0*d,a,b)", "#(ad,%0*d,1)",
        "#(ds,%0*d,a)#(dd,b)#(da)", "#(ds,e,%0*d)#(ds,f,x)#(da)", "#(ds,e,%0*d)#(cs,e)#(cc,e)#(pf,e)", "(%0*d)#(ln)"};
    const char *const text = calls[chosen(sizeof calls / sizeof calls[0])];
    *call = (size_t)sprintf((char *)filled, text, (int)characters + 1, 0);
    memcpy(filled + *call, script + CHOICES, count - CHOICES);
    return *call + count - CHOICES;
}

/* The steps at the end of a long call, of which the last may be a fault, because the allowance is used up or because
 * there are no more cells. */
static void trace_call(size_t count, size_t characters) {
    size_t call;
    const size_t length = long_call(count, characters, &call);
    const size_t before = call + chosen(LAST) > LAST ? call + chosen(LAST) - LAST : 0;
    const size_t room = chosen(4) ? CELLS_HERE : call + chosen(100);
    trac_report told = {TRAC_GOING, 0, 0, 0, 0, 0};
    trac_trace a = TRAC_NO_TRACE, b;
    a.from = 1, a.to = UINT64_MAX, a.calls = chosen(2), a.forms = chosen(2);
    a.width = chosen(4) ? 0 : chosen(300), a.columns = chosen(3) ? 0 : 20 + chosen(80);
    b = a;
    if (!open_both(room, before + chosen(2 * LAST)))
        return;
    must(turn_both(filled, length, MOST_OUTPUT, 1, before, &told), "a turn before the last steps");
    size_t at = told.consumed;
    for (int left = LAST; left > 0 && told.fate == TRAC_GOING; left--) {
        told = trace_in(filled + at, length - at, &a, &b);
        at += told.consumed;
    }
}

void memories_both(size_t count) {
    if (script[3] <= ROOMS) {
        cells = script[4] < AMPLE_ROOM ? script[4] * CELLS_OF_ROOM : CELLS_HERE;
        (script[3] == MARKED ? check_marked : script[3] == LINES_ALONE ? check_lines : check_rooms)(count);
        cells = CELLS_HERE;
        return;
    }
    check_filled(count);
    check_first_steps(count);
    for (int i = 0; i < TRACES; i++)
        trace_filled(count, chosen(LONGEST_FILL));
    for (int i = 0; i < CALLS; i++)
        trace_call(count, chosen(chosen(2) ? LONGEST_FILL : 60));
}
