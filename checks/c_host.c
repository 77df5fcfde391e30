/* Calls that the host answers, prints in pieces, forms from outside, and images of forms, through trac.h. Ends with 0,
 * or with the line at which something else was found. */
#include "trac.h"

#include <stdint.h>
#include <stdio.h>
#include <string.h>

enum { CELLS = 65536, ROOM = 4096 };
static trac_cell block[CELLS];
static trac_machine machine;
static char output[ROOM];

#define CHECK(found)                                                                                                 \
    do {                                                                                                             \
        if (!(found)) {                                                                                              \
            fprintf(stderr, "c_host.c: line %d\n", __LINE__);                                                        \
            return __LINE__;                                                                                         \
        }                                                                                                            \
    } while (0)

static void open_with(size_t cells, uint64_t steps) {
    memset(block, 0xA5, sizeof block);
    (void)trac_open(&machine, block, cells, steps);
}

static trac_report turn(const char *script, size_t room) {
    return trac_turn(&machine, script, strlen(script), 1, output, room, UINT64_MAX);
}

static int has(const char *text, size_t length) { return strlen(text) == length && !memcmp(output, text, length); }

static int argument_is(size_t which, const char *text) {
    char found[64];
    const size_t length = trac_argument(&machine, which, found, sizeof found);
    return length == strlen(text) && !memcmp(found, text, length);
}

static int names_are(const char *names) {
    trac_form form = TRAC_NO_FORM;
    char found[64];
    size_t length = 0;
    while (trac_next_form(&machine, &form)) {
        length += trac_form_name(&form, found + length, sizeof found - length);
        found[length++] = ' ';
    }
    return length == strlen(names) && !memcmp(found, names, length);
}

/* The value goes where the call's mode or the host says; the step is counted like any other. */
static int answers(void) {
    static const struct {
        const char *script;
        uint32_t how;
        const char *value, *printed;
    } cases[] = {
        {"#(ps,#(now,a,b))'", TRAC_BY_MODE, "12:30", "12:30"},
        {"#(ps,#(now,a,b))'", TRAC_BY_MODE, "#(ad,1,2)", "3"},
        {"#(ps,##(now,a,b))'", TRAC_BY_MODE, "#(ad,1,2)", "#(ad,1,2)"},
        {"#(ps,##(now,a,b))'", TRAC_SCANNED, "#(ad,1,2)", "3"},
        {"#(ps,#(now,a,b))'", TRAC_UNSCANNED, "#(ad,1,2)", "#(ad,1,2)"},
        {"#(ps,#(now,a,b))'", TRAC_UNSCANNED, ")),'", ")),'"},
        {"#(ps,[#(now,a,b)])'", TRAC_BY_MODE, "", "[]"},
    };
    for (size_t each = 0; each < sizeof cases / sizeof cases[0]; each++) {
        open_with(1000, 1000);
        CHECK(trac_stop_at_unknown(&machine, 1) == 0);
        trac_report told = turn(cases[each].script, ROOM);
        CHECK(told.fate == TRAC_WANTS_ANSWER && told.written == 0 && told.wanted == 0);
        CHECK(trac_argument_count(&machine) == 3 && argument_is(0, "now") && argument_is(2, "b"));
        const trac_report again = trac_turn(&machine, "", 0, 1, output, ROOM, 1);
        CHECK(again.fate == TRAC_WANTS_ANSWER && again.steps == told.steps && again.peak == told.peak);
        const trac_report step = trac_answer(&machine, cases[each].value, strlen(cases[each].value), cases[each].how);
        CHECK(step.fate == TRAC_GOING && step.steps == told.steps + 1);
        CHECK(trac_answer(&machine, "", 0, TRAC_BY_MODE).fate == TRAC_REFUSED);
        told = turn("", ROOM);
        CHECK(told.fate == TRAC_INPUT_ENDED && has(cases[each].printed, told.written));
    }
    return 0;
}

/* A machine that isn't set to stop gives such a call the null value, in as many steps as one that is answered with
 * it. */
static int nulls(void) {
    static const char script[] = "#(ps,a#(zz,#(yy,1),(2))b)#(ds,x,#(xx))#(ps,##(cl,x)##(nn))'";
    open_with(1000, 1000);
    const trac_report plain = turn(script, ROOM);
    CHECK(plain.fate == TRAC_INPUT_ENDED && has("ab", plain.written));
    open_with(1000, 1000);
    (void)trac_stop_at_unknown(&machine, 1);
    trac_report told = turn(script, ROOM);
    size_t asked = 0, written = told.written;
    for (; told.fate == TRAC_WANTS_ANSWER; asked++) {
        CHECK(trac_answer(&machine, NULL, 0, TRAC_BY_MODE).fate == TRAC_GOING);
        told = trac_turn(&machine, "", 0, 1, output + written, ROOM - written, UINT64_MAX);
        written += told.written;
    }
    CHECK(asked == 4 && told.fate == TRAC_INPUT_ENDED && has("ab", written));
    CHECK(told.steps == plain.steps && told.peak == plain.peak);
    (void)trac_again(&machine, 1000);
    CHECK(turn("#(zz)'", ROOM).fate == TRAC_WANTS_ANSWER);
    (void)trac_stop_at_unknown(&machine, 0);
    CHECK(turn("", ROOM).fate == TRAC_INPUT_ENDED);
    return 0;
}

/* The room and the allowance of the step are tested, and elsewhere nothing is answered. */
static int bounds(void) {
    open_with(30, 1000);
    (void)trac_stop_at_unknown(&machine, 1);
    const trac_report before = turn("#(zz)'", ROOM);
    CHECK(before.fate == TRAC_WANTS_ANSWER);
    const size_t used = 30 - trac_part(&machine, TRAC_PART_FREE);
    CHECK(used == 9);
    char value[64] = {0};
    trac_machine copy = machine;
    CHECK(trac_answer(&machine, value, 30 - used + 1, TRAC_UNSCANNED).fate == TRAC_GOING);
    // of the 9 cells in use the call's 3 and its parenthesis leave, and the value's 22 come
    CHECK(trac_part(&machine, TRAC_PART_FREE) == 30 - (9 - 3 - 1 + 22) && trac_take_peak(&machine) == 30);
    open_with(30, 1000);
    (void)trac_stop_at_unknown(&machine, 1);
    (void)turn("#(zz)'", ROOM);
    const trac_report full = trac_answer(&machine, value, 30 - used + 2, TRAC_UNSCANNED);
    CHECK(full.fate == TRAC_WORKSPACE && full.steps == before.steps && full.peak == before.peak);
    CHECK(trac_answer(&machine, "", 0, TRAC_BY_MODE).fate == TRAC_REFUSED);
    CHECK(turn("", ROOM).fate == TRAC_WORKSPACE);
    open_with(30, before.steps);
    (void)trac_stop_at_unknown(&machine, 1);
    CHECK(turn("#(zz)'", ROOM).fate == TRAC_STEPS);
    open_with(30, 1000);
    CHECK(trac_answer(&machine, "", 0, TRAC_BY_MODE).fate == TRAC_REFUSED);
    (void)trac_stop_at_unknown(&machine, 1);
    (void)turn("#(zz)'", ROOM);
    CHECK(trac_answer(&machine, "", 0, 3).fate == TRAC_REFUSED);
    CHECK(trac_answer(&machine, NULL, 1, 0).fate == TRAC_REFUSED);
    CHECK(trac_answer(NULL, "", 0, 0).fate == TRAC_REFUSED && trac_stop_at_unknown(NULL, 1) == TRAC_REFUSED);
    copy.words[11] = 0;
    CHECK(trac_answer(&copy, "", 0, 0).fate == TRAC_REFUSED && trac_skip_print(&copy).fate == TRAC_REFUSED);
    CHECK(trac_answer(&machine, "", 0, TRAC_BY_MODE).fate == TRAC_GOING);
    return 0;
}

/* A host with three bytes for output has all that is printed, in the same steps. */
static int pieces(void) {
    static const char script[] = "#(ds,form,(one two three))#(ss,form,two)#(ps,first)#(pf,form)#(ps,)#(ps,last)'";
    open_with(1000, 1000);
    const trac_report whole = turn(script, ROOM);
    char wanted[64], found[64], three[3];
    memcpy(wanted, output, whole.written);
    open_with(1000, 1000);
    size_t length = 0;
    trac_report told = turn(script, 0);
    CHECK(trac_printed(&machine, 0, NULL, 0) == 5 && trac_printed(&machine, 4, NULL, 0) == 1);
    CHECK(trac_printed(&machine, 5, NULL, 0) == 0 && trac_printed(&machine, SIZE_MAX, three, 3) == 0);
    for (; told.fate == TRAC_WANTS_OUTPUT; told = turn("", 0)) {
        for (size_t from = 0, left; (left = trac_printed(&machine, from, three, 3)) != 0; from += left < 3 ? left : 3) {
            memcpy(found + length, three, left < 3 ? left : 3);
            length += left < 3 ? left : 3;
        }
        CHECK(trac_skip_print(&machine).fate == TRAC_GOING);
        CHECK(trac_skip_print(&machine).fate == TRAC_REFUSED);
    }
    CHECK(told.fate == TRAC_INPUT_ENDED && told.steps == whole.steps && told.peak == whole.peak);
    CHECK(length == whole.written && !memcmp(found, wanted, length));
    CHECK(trac_printed(NULL, 0, three, 3) == 0 && trac_printed(&machine, 0, NULL, 3) == 0);
    return 0;
}

/* Forms are defined, found and removed in a full block, in the middle of a run and after its end. */
static int forms(void) {
    static const uint32_t codes[] = {'a', TRAC_FIRST_GAP, 'b', TRAC_FIRST_GAP + 1};
    static const uint32_t wrong[] = {TRAC_FIRST_GAP + 16777216};
    static const uint32_t last[] = {TRAC_FIRST_GAP + 16777215};
    trac_form form = TRAC_NO_FORM;
    uint32_t body[8];
    open_with(40, 1000);
    CHECK(trac_define(&machine, "f", 1, codes, 4, 1) == 0 && trac_define_text(&machine, "t", 1, "xyz", 3) == 0);
    CHECK(names_are("f t ") && trac_find_form(&machine, "f", 1, &form) == 1 && trac_form_pointer(&form) == 1);
    CHECK(trac_form_codes(&form, body, 8) == 4 && !memcmp(body, codes, sizeof codes));
    CHECK(trac_find_form(&machine, "g", 1, &form) == 0 && trac_form_name(&form, NULL, 0) == 0);
    CHECK(trac_define(&machine, "w", 1, wrong, 1, 0) == TRAC_REFUSED);
    CHECK(trac_define(&machine, "w", 1, codes, 4, 5) == TRAC_REFUSED);
    CHECK(trac_define(&machine, "w", 1, NULL, 1, 0) == TRAC_REFUSED);
    // a place stays where a call is refused
    CHECK(trac_find_form(&machine, "f", 1, &form) == 1 && trac_delete(&machine, "w", 1) == TRAC_REFUSED);
    CHECK(trac_define(&machine, "w", 1, wrong, 1, 0) == TRAC_REFUSED && trac_form_pointer(&form) == 1);
    CHECK(trac_define(&machine, "", 0, last, 1, 1) == 0 && names_are("f t  "));
    CHECK(trac_define_text(&machine, "f", 1, "new", 3) == 0 && names_are("t  f "));
    // 7 + 4 + 7 cells are used: a form of 22 fits, one of 23 does not
    CHECK(trac_part(&machine, TRAC_PART_FREE) == 40 - 7 - 5 - 7 + 1);
    CHECK(trac_define_text(&machine, "n", 1, output, 40 - 18 - 4 + 1) == TRAC_REFUSED && names_are("t  f "));
    CHECK(trac_define_text(&machine, "n", 1, output, 40 - 18 - 4) == 0 && trac_part(&machine, TRAC_PART_FREE) == 0);
    CHECK(turn("#(ps,hello)'", ROOM).fate == TRAC_WORKSPACE);
    CHECK(trac_delete(&machine, "zz", 2) == TRAC_REFUSED && trac_delete(&machine, "n", 1) == 0 && names_are("t  f "));
    CHECK(trac_delete_all(&machine) == 0 && trac_form_count(&machine) == 0);
    (void)trac_again(&machine, 1000);
    CHECK(trac_set_meta(&machine, '!') == 0 && trac_meta(&machine) == '!');
    CHECK(trac_set_meta(&machine, 256) == TRAC_REFUSED && trac_meta(&machine) == '!');
    const trac_report told = turn("#(ps,hello)!", ROOM);
    CHECK(told.fate == TRAC_INPUT_ENDED && has("hello", told.written));
    (void)trac_find_form(&machine, "", 0, &form);
    CHECK(trac_define_text(NULL, "a", 1, "b", 1) == TRAC_REFUSED && trac_delete(NULL, "a", 1) == TRAC_REFUSED);
    CHECK(trac_delete_all(NULL) == TRAC_REFUSED && trac_set_meta(NULL, 1) == TRAC_REFUSED);
    CHECK(trac_find_form(NULL, "a", 1, &form) == 0 && trac_find_form(&machine, "a", 1, NULL) == 0);
    // a place is none behind a change
    CHECK(trac_define_text(&machine, "a", 1, "b", 1) == 0 && trac_find_form(&machine, "a", 1, &form) == 1);
    CHECK(trac_define_text(&machine, "c", 1, "d", 1) == 0 && trac_form_name(&form, NULL, 0) == 0);
    // in the middle of a call: the arguments stay what they were
    (void)trac_stop_at_unknown(&machine, 1);
    (void)trac_again(&machine, 1000);
    CHECK(turn("#(ps,#(zz,#(cl,a)))!", ROOM).fate == TRAC_WANTS_ANSWER && argument_is(1, "b"));
    CHECK(trac_define_text(&machine, "a", 1, "q", 1) == 0 && argument_is(1, "b"));
    CHECK(trac_answer(&machine, "#(cl,a)", 7, TRAC_BY_MODE).fate == TRAC_GOING);
    CHECK(has("q", turn("", ROOM).written));
    return 0;
}

/* An image that was made by hand: the form F, a gap 1 between `a` and `b`, with pointer 2; the meta character `;`. */
static const unsigned char IMAGE[] = {84, 82, 65, 67, 1, 59, 1,  0,  0,  0, 1, 0, 0, 0, 3, 0, 0,   0, 2,  0,
                                      0,  0,  2,  0,  0, 0,  70, 97, 98, 1, 0, 0, 0, 1, 0, 0, 0, 123, 2, 40, 60};

static int saves_image(void) {
    unsigned char saved[sizeof IMAGE];
    return trac_save(&machine, saved, sizeof saved) == sizeof IMAGE && !memcmp(saved, IMAGE, sizeof IMAGE);
}

/* An image is saved into any room, and its bytes are those of the format. */
static int saved_images(void) {
    static const uint32_t codes[] = {'a', TRAC_FIRST_GAP, 'b'};
    unsigned char saved[sizeof IMAGE + 1];
    trac_machine never = TRAC_NO_MACHINE;
    open_with(100, 1000);
    CHECK(trac_save(&machine, saved, sizeof saved) == 14 && !memcmp(saved, "TRAC\1'\0\0\0\0\x53\1\xda\x0a", 14));
    CHECK(trac_define(&machine, "F", 1, codes, 3, 2) == 0 && trac_set_meta(&machine, ';') == 0 && saves_image());
    CHECK(trac_save(&machine, NULL, 0) == sizeof IMAGE && trac_save(&machine, NULL, 1) == 0);
    CHECK(trac_save(NULL, saved, sizeof saved) == 0 && trac_save(&never, saved, sizeof saved) == 0);
    for (size_t room = 0; room <= sizeof IMAGE; room++) {
        memset(saved, 0xA5, sizeof saved);
        CHECK(trac_save(&machine, saved, room) == sizeof IMAGE && !memcmp(saved, IMAGE, room) && saved[room] == 0xA5);
    }
    return 0;
}

/* An image that is refused changes nothing, and a place stays good; one that is taken makes a place none. */
static int loaded_images(void) {
    unsigned char image[sizeof IMAGE];
    trac_machine never = TRAC_NO_MACHINE;
    trac_form form = TRAC_NO_FORM;
    open_with(100, 1000);
    CHECK(trac_define_text(&machine, "own", 3, "text", 4) == 0 && trac_find_form(&machine, "own", 3, &form) == 1);
    CHECK(trac_load(NULL, IMAGE, sizeof IMAGE) == TRAC_REFUSED && trac_load(&machine, NULL, 1) == TRAC_REFUSED);
    CHECK(trac_load(&never, IMAGE, sizeof IMAGE) == TRAC_REFUSED && trac_load(&machine, NULL, 0) == TRAC_REFUSED);
    for (size_t length = 0; length < sizeof IMAGE; length++)
        CHECK(trac_load(&machine, IMAGE, length) == TRAC_REFUSED);
    for (size_t bit = 0; bit < 8 * sizeof IMAGE; bit++) {
        memcpy(image, IMAGE, sizeof image);
        image[bit / 8] ^= (unsigned char)(1u << bit % 8);
        CHECK(trac_load(&machine, image, sizeof image) == TRAC_REFUSED);
    }
    CHECK(trac_form_pointer(&form) == 0 && trac_form_text(&form, NULL, 0) == 7 && trac_meta(&machine) == '\'');
    CHECK(names_are("own ") && trac_load(&machine, IMAGE, sizeof IMAGE) == 0 && trac_form_name(&form, NULL, 0) == 0);
    CHECK(names_are("F ") && trac_meta(&machine) == ';' && saves_image());
    CHECK(trac_find_form(&machine, "F", 1, &form) == 1 && trac_form_pointer(&form) == 2);
    return 0;
}

/* In the middle of a run the strings stay, and so do the steps, the peak and its end; the image gets what cells they
 * leave. */
static int loads_in_a_run(void) {
    open_with(100, 1000);
    (void)trac_define_text(&machine, "F", 1, "(((old)))", 9);
    (void)trac_stop_at_unknown(&machine, 1);
    const trac_report before = turn("#(ps,[#(zz,##(cl,F))]#(pf,F))'", ROOM);
    CHECK(before.fate == TRAC_WANTS_ANSWER && argument_is(1, "(((old)))"));
    CHECK(trac_load(&machine, IMAGE, sizeof IMAGE) == 0 && saves_image() && argument_is(1, "(((old)))"));
    trac_report told = trac_turn(&machine, "", 0, 0, output, 0, 0);
    CHECK(told.fate == TRAC_GOING && told.steps == before.steps && told.peak == before.peak);
    CHECK(trac_answer(&machine, "##(cl,F)", 8, TRAC_BY_MODE).fate == TRAC_GOING);
    told = turn("", ROOM);
    CHECK(told.fate == TRAC_INPUT_ENDED && has("a<1><^>b[b]", told.written));
    for (size_t cells = 7; cells < 40; cells++) {
        open_with(cells, 1000);
        (void)trac_stop_at_unknown(&machine, 1);
        (void)turn("#(zz,abc)'", 0);
        const size_t used = cells - trac_part(&machine, TRAC_PART_FREE);
        CHECK((trac_load(&machine, IMAGE, sizeof IMAGE) == 0) == (cells - used >= 7));
        CHECK(trac_part(&machine, TRAC_PART_FREE) == cells - used - (cells - used >= 7 ? 7 : 0));
    }
    // a run that is over stays so
    open_with(30, 1000);
    CHECK(turn("#(hl)'", ROOM).fate == TRAC_HALTED && trac_load(&machine, IMAGE, sizeof IMAGE) == 0);
    CHECK(turn("#(ps,a);", ROOM).fate == TRAC_HALTED && trac_again(&machine, 1000) == 0);
    CHECK(has("b", turn("#(ps,##(cl,F));", ROOM).written));
    return 0;
}

static int images(void) {
    int line = saved_images();
    line = line ? line : loaded_images();
    return line ? line : loads_in_a_run();
}

int main(void) {
    int line;
    if ((line = answers()) || (line = nulls()) || (line = bounds()) || (line = pieces()) || (line = forms()) ||
        (line = images()))
        return line > 255 ? 1 : line;
    puts("ok");
    return 0;
}
