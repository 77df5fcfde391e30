/* Runs calls in both engines of engines.h where an index of forms stands in the cells that they need: behind searches
 * for many forms, and a text of each length in the neutral string. */
#include "covering.h"

enum { FORMS = 20, SEARCHES = 30, ROOM = 900, LONGEST_TEXT = 370, SHORTEST_TEXT = 200 };
enum { STEPS_HERE = 9000, SCRIPT = 1200 };

static uint32_t letters[LONGEST_TEXT];

static void define_letters(const char *name, size_t length, size_t pointer) {
    const size_t named = strlen(name);
    must(trac_define(&proved.machine, name, named, letters, length, pointer) ==
             c_trac_define(&in_c.machine, name, named, letters, length, pointer), "a form of letters");
}

/* Runs a call behind searches and a text of so many characters. */
static void run_behind(const char *call, size_t characters) {
    char text[SCRIPT], name[8];
    size_t length = 0, at = 0;
    trac_report told = {TRAC_GOING, 0, 0, 0, 0, 0};
    must(open_both(ROOM, STEPS_HERE), "trac_open");
    for (int i = 0; i < FORMS; i++) {
        sprintf(name, "f%d", i);
        define_letters(name, 1, 0);
    }
    define_letters("g", 30, 0);
    define_letters("h", 1, 1);
    define_letters("e", characters, 0);
    for (int i = 0; i < SEARCHES; i++)
        length += (size_t)sprintf(text + length, "#(cl,z)");
    length += (size_t)sprintf(text + length, "##(cl,e)%s'", call);
    while (told.fate == TRAC_GOING) {
        must(turn_both((const uint8_t *)text + at, length - at, MOST_OUTPUT, 1, STEPS_HERE, &told), "an indexed room");
        at += told.consumed;
    }
}

void indexed_rooms_both(void) {
    static const char *const calls[] = {
        "#(ml,abcdef99999,99999)", "##(ml,abcdef99999,99999)", "#(ml,a999999999,9)", "##(ml,999999,9999)",
        "#(ad,ab1234567890123456789,1)",
        "##(ad,ab1234567890123456789,1)", "#(ml,abc98765432198765432198,7)", "##(ml,abc98765432198765432198,7)",
        "##(ml,10000000000000000000000,10)", "#(ml,10000000000000000000000,10)", "##(dv,1,0,abcdef)",
        "#(dv,1,0,abcdef)", "#(cs,h,abcdef)", "#(cc,h,abcdef)",
        "#(cn,h,9,abcdef)", "#(cn,g,-9,abcdef)", "#(in,f1,zz,abcdef)", "##(cs,g)", "##(cc,g)",
        "#(cc,g)", "##(cc,g)##(cc,g)##(cc,g)##(cc,g)##(cc,g)##(cc,g)##(cc,g)##(cc,g)##(cc,g)##(cc,g)",
        "##(cn,g,20)", "#(cn,g,20)", "#(cn,g,9)", "#(cn,g,3)", "#(cn,g,2)", "#(cn,g,1)", "##(cl,g)", "#(cl,g)",
        "##(bu,1,2345671234567)", "#(bu,1,23456712345)", "##(bs,3,12345)", "#(bs,3,12345)", "##(bc,12345)",
        "##(br,3,1234567)", "#(ln,;)", "##(ln,;)", "#(eq,a,a,abcdef)", "##(eq,a,b,,abcdef)", "##(gr,2,1,abc)",
        "##(rc)", "#(rc)", "#(ps,abc)", "#(ds,h,abcdefghijkl)", "#(ss,g,ab)", "#(eq,##(cl,g),##(cl,g),abcdefg)",
        "#(cl,#(rs))"};
    for (size_t i = 0; i < LONGEST_TEXT; i++)
        letters[i] = 'a' + i % 2;
    for (size_t i = 0; i < sizeof calls / sizeof calls[0]; i++)
        for (size_t characters = SHORTEST_TEXT; characters < LONGEST_TEXT; characters++)
            run_behind(calls[i], characters);
}
