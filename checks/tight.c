/* Runs a script in little room, with few steps, and in small pieces, in both engines of engines.h. */
#include "covering.h"

enum { ROOMS = 8, FULL_ROOMS = 3, AMPLE_STEPS = 20000, MOST_TURNS = 400 };
enum { MOST_FORMS = 150, NAME = 80, BODY = 40, LONG_BODY = 400 };

/* A number up to `most`: as often near it as anywhere. */
static uint32_t below(uint32_t most) {
    const uint32_t less = chosen(2) ? chosen(24) : chosen(most + 1);
    return less < most ? most - less : 0;
}

/* Fewer cells than the peak, or some more. */
static size_t cells_by(uint32_t peak) {
    const size_t cells = chosen(3) ? below(peak) : peak + chosen(400);
    return cells < MOST_CELLS ? cells : MOST_CELLS;
}

/* What the strings of both machines are now, as far as they fit, and their innermost calls. */
static void see_strings(void) {
    static uint32_t codes[2][600];
    const size_t room = chosen(600);
    memset(codes, 0, sizeof codes);
    must(trac_neutral(&proved.machine, codes[0], room) == c_trac_neutral(&in_c.machine, codes[1], room) &&
             memcmp(codes[0], codes[1], sizeof codes[0]) == 0, "trac_neutral");
    must(trac_active(&proved.machine, codes[0], room) == c_trac_active(&in_c.machine, codes[1], room) &&
             memcmp(codes[0], codes[1], sizeof codes[0]) == 0, "trac_active");
    must(trac_steps_to_call(&proved.machine, room) == c_trac_steps_to_call(&in_c.machine, room), "trac_steps_to_call");
    const uint32_t part = chosen(6);
    must(trac_part(&proved.machine, part) == c_trac_part(&in_c.machine, part), "trac_part");
}

/* A run by turns of few steps, whose input comes in pieces, and goes on or ends behind them. */
static void turn_in(size_t count, size_t cells, uint64_t steps, size_t room) {
    if (!open_both(cells, steps))
        return;
    const size_t piece = 1 + chosen(chosen(2) ? 3 : 60);
    const uint32_t most = chosen(2) ? 2 : 200;
    size_t at = CHOICES, given = CHOICES;
    trac_report told = {TRAC_GOING, 0, 0, 0, 0, 0};
    for (int turn = 0; turn < MOST_TURNS; turn++) {
        must(turn_both(script + at, given - at, room, given == count, chosen(most), &told), "a turn in little room");
        at += told.consumed;
        if (turn % 16 == 0)
            see_strings();
        if (told.fate == TRAC_WANTS_INPUT)
            given = count - given < piece ? count : given + piece;
        else if (told.fate == TRAC_WANTS_OUTPUT && room < MOST_OUTPUT)
            room = MOST_OUTPUT;
        else if (told.fate != TRAC_GOING)
            break;
    }
    see_strings();
}

/* A name that is one of a hundred, or a part of the script. */
static size_t some_name(size_t count, char *name) {
    if (chosen(5)) {
        const int begin = (int)chosen(3) * 20;
        return (size_t)snprintf(name, NAME, "%.*sf%u", begin, "a name, longer than forty characters are", chosen(100));
    }
    const size_t from = CHOICES + chosen((uint32_t)(count - CHOICES) + 1), length = chosen(NAME);
    memcpy(name, script + from, length < count - from ? length : count - from);
    return length < count - from ? length : count - from;
}

/* Defines a form from outside, with a gap or none, or deletes one. Gives whether it fitted, or was there. */
static int change_a_form(size_t count) {
    char name[NAME];
    uint32_t codes[BODY], a, b;
    const size_t named = some_name(count, name), length = chosen(chosen(3) ? 6 : BODY);
    const size_t gap = chosen(BODY), pointer = chosen(3) ? 0 : chosen((uint32_t)length + 1);
    for (size_t i = 0; i < length; i++)
        codes[i] = i == gap ? chosen_gap() : script[CHOICES + chosen((uint32_t)(count - CHOICES) + 1)];
    if (chosen(8) == 0) {
        a = trac_delete(&proved.machine, name, named), b = c_trac_delete(&in_c.machine, name, named);
    } else {
        a = trac_define(&proved.machine, name, named, codes, length, pointer);
        b = c_trac_define(&in_c.machine, name, named, codes, length, pointer);
    }
    must(a == b, "a form from outside");
    return a == 0;
}

/* Strings that call forms, so that an index of them is made, then calls that need room, and the script. */
static size_t strings_for_forms(size_t count, uint8_t *to) {
    static const char *const calls[] = {
        "#(rs)'", "#(ps,#(rs))'", "##(rs)'", "#(rc)'", "#(ln,;)'", "#(cl,f%u,a,b)'", "#(pf,f%u)'", "#(ad,f%u,%u)'",
        "#(ml,98765432198765432198,%u%u)'", "#(su,%u,%u12345678901234567890)'", "#(bu,17,%u%u)'", "#(bs,%u,1234567)'",
        "#(ss,f%u,a,b)'", "#(cc,f%u)'", "#(cn,f%u,%u)'", "#(cn,f%u,-%u)'", "#(cs,f%u)'", "#(in,f%u,a)'",
        "#(ds,f%u,xyz)'", "#(dd,f%u,f%u,f2)'", "#(da)'", "#(zz,q%u)'", "##(cl,f%u)'", "#(eq,f%u,f%u,a,b)'",
        "#(cr,f%u)'",
        "#(dv,%u%u,0,z)'", "#(ad,-98765432109876543210,%u%u)'", "#(bc,%u%u)'", "#(gr,%u,%u,a,b)'"};
    size_t length = 0;
    for (uint32_t left = chosen(120); left > 0; left--)
        length += (size_t)sprintf((char *)to + length, "#(cl,f%u)'", chosen(300));
    for (uint32_t left = chosen(12); left > 0; left--) {
        const char *const call = calls[chosen(sizeof calls / sizeof calls[0])];
        const size_t text = chosen(3) ? 0 : chosen(chosen(2) ? 40 : 600);
        const uint32_t one = chosen(100);
        length += (size_t)sprintf((char *)to + length, call, one, chosen(100));
        memset(to + length, 'x', text);
        length += text;
        to[length] = '\'';
        length += text > 0;
    }
    memcpy(to + length, script + CHOICES, count - CHOICES);
    return length + count - CHOICES;
}

/* A run in a room that is full of forms, which leave few cells for the strings and for the index of forms. */
static void full_both(size_t count) {
    static uint8_t given[LONGEST + 12000];
    const size_t length = strings_for_forms(count, given);
    if (!open_both(20 + chosen(chosen(2) ? 200 : 1500), AMPLE_STEPS))
        return;
    const int most = 1 + (int)chosen(chosen(2) ? MOST_FORMS : 40);
    for (int refused = 0, forms = 0; refused < 3 && forms < most; forms++)
        refused += !change_a_form(count);
    size_t at = 0;
    trac_report told = {TRAC_GOING, 0, 0, 0, 0, 0};
    for (int turn = 0; turn < MOST_TURNS && told.fate == TRAC_GOING; turn++) {
        must(turn_both(given + at, length - at, MOST_OUTPUT, 1, 1 + chosen(60), &told), "a turn in a full room");
        at += told.consumed;
        if (chosen(5) == 0)
            (void)change_a_form(count);
    }
}

uint32_t tight_both(size_t count) {
    trac_report told, other;
    must(run_both(script + CHOICES, count - CHOICES, MOST_CELLS, AMPLE_STEPS, MOST_OUTPUT, &told), "a run");
    for (int i = 0; i < ROOMS; i++) {
        const size_t cells = cells_by(told.peak);
        const uint64_t steps = chosen(3) ? AMPLE_STEPS : below((uint32_t)told.steps);
        const size_t room = chosen(3) ? MOST_OUTPUT : below((uint32_t)told.written) % MOST_OUTPUT;
        must(run_both(script + CHOICES, count - CHOICES, cells, steps, room, &other), "a run in little room");
        if (i % 4 == 0)
            turn_in(count, cells_by(told.peak), steps, room);
    }
    for (int i = 0; i < FULL_ROOMS; i++)
        full_both(count);
    return told.peak;
}

/* Strings that search for forms, so that an index of them is made, and call the long one, and those of
 * strings_for_forms. */
static size_t strings_for_a_long_form(size_t count, uint8_t *to) {
    static const char *const calls[] = {
        "#(cl,f7)'", "#(cl,f7,x,yz)'", "##(cl,f7)'", "#(cs,f7)'", "##(cs,f7)'", "#(cn,f7,%u)'", "##(cn,f7,%u)'",
        "#(in,f7,ab)'", "#(cc,f7)'", "#(pf,f7)'", "#(ss,f7,ab)'", "#(ds,f8,##(cl,f7))'",
        "#(eq,##(cl,f7),##(cl,f7),a)'"};
    size_t length = 0;
    for (uint32_t left = 20 + chosen(60); left > 0; left--)
        length += (size_t)sprintf((char *)to + length, "#(cl,z%u)'", left);
    for (uint32_t left = chosen(4); left > 0; left--) {
        const char *const call = calls[chosen(sizeof calls / sizeof calls[0])];
        length += (size_t)sprintf((char *)to + length, call, chosen(400));
    }
    return length + strings_for_forms(count, to + length);
}

/* Defines forms, of which one is long, and runs strings that call them. Gives the peak. */
static uint32_t run_with_forms(size_t count, size_t cells) {
    static uint8_t given[LONGEST + 16000];
    static uint32_t codes[LONG_BODY];
    const size_t body = chosen(LONG_BODY), length = strings_for_a_long_form(count, given);
    trac_report told = {TRAC_GOING, 0, 0, 0, 0, 0};
    if (!open_both(cells, AMPLE_STEPS))
        return 0;
    for (uint32_t left = 12 + chosen(40); left > 0; left--)
        (void)change_a_form(count);
    const size_t gap = chosen(2) ? LONG_BODY : chosen(LONG_BODY);
    for (size_t i = 0; i < body; i++)
        codes[i] = i == gap ? TRAC_FIRST_GAP : 'a' + chosen(2);
    must(trac_define(&proved.machine, "f7", 2, codes, body, 0) == c_trac_define(&in_c.machine, "f7", 2, codes, body, 0),
         "a long form");
    for (size_t at = 0, turn = 0; turn < MOST_TURNS && told.fate == TRAC_GOING; turn++) {
        must(turn_both(given + at, length - at, MOST_OUTPUT, 1, 200, &told), "a turn in exact room");
        at += told.consumed;
    }
    return told.peak;
}

void exact_both(size_t count) {
    const uint32_t from = choices_so_far(), peak = run_with_forms(count, MOST_CELLS);
    for (uint32_t less = 0; less < 4; less++) {
        choose_again(from);
        (void)run_with_forms(count, peak > less ? peak - less : 0);
    }
    choose_again(from);
    (void)run_with_forms(count, peak + 9 < MOST_CELLS ? peak + 9 : MOST_CELLS);
}
