/* Calls of arithmetic and of bit strings in both engines of engines.h: with each pair of numbers at the limits, with
 * bit strings of many lengths and with shifts of many widths, in ample room and in too little. */
#include "covering.h"

#include <stdlib.h>

enum { ROOM = 3000, STEPS_HERE = 20000, TEXT = 800, LESS = 4, BITS = 48, LONGEST_DEFAULT = 30 };

/* Numbers at which arithmetic changes its way: ends of 64 and of 128 bits, and of 18, 19, 38 and 39 digits. */
static const char *const numbers[] = {
    "", "0", "1", "2", "3", "7", "10", "99", "1000000007", "999999999", "99999999999999999", "999999999999999999",
    "1000000000000000000", "3037000500", "3037000499", "4294967295", "4294967296", "9223372036854775807",
    "9223372036854775808", "9223372036854775809", "18446744073709551615", "18446744073709551616",
    "18446744073709551617", "13043817825332782212", "13043817825332782213", "42535295865117307932921825928971026432",
    "85070591730234615865843651857942052863", "85070591730234615865843651857942052864",
    "85070591730234615865843651857942052865", "99999999999999999999999999999999999999",
    "170141183460469231731687303715884105726", "170141183460469231731687303715884105727",
    "170141183460469231731687303715884105728", "170141183460469231731687303715884105729",
    "340282366920938463463374607431768211455", "340282366920938463463374607431768211456",
    "999999999999999999999999999999999999999", "100000000000000000000000000000000000000000000",
    "00000000000000000000000000000000000000000000000000000000000000012",
    "123456789012345678901234567890123456789012345678901234567890", "1 text of 18 chars-", "-",
    "00000000000000000000"};
enum { NUMBERS = sizeof numbers / sizeof numbers[0] };
static const char *const signs[] = {"", "-", "+", "a", "Apples-", "a name that is long before it ends and a number -"};

/* Runs a script in ample room, and in a few cells less than it needs. */
static void run_in_rooms(const char *text, uint32_t fewer) {
    trac_report told, other;
    const size_t length = strlen(text);
    const uint8_t *const bytes = (const uint8_t *)text;
    must(run_both(bytes, length, ROOM, STEPS_HERE, MOST_OUTPUT, &told), text);
    for (uint32_t less = 0; less < fewer && less < told.peak; less++)
        must(run_both(bytes, length, told.peak - less, STEPS_HERE, MOST_OUTPUT, &other), text);
}

static void pair_both(const char *function, const char *one, const char *other, uint32_t fewer) {
    char text[TEXT];
    snprintf(text, sizeof text, fewer ? "#(ds,n,##(%s,%s,%s,#(z)))##(cl,n)'" : "#(ps,#(%s,%s,%s,z))'", function, one,
             other);
    run_in_rooms(text, fewer);
}

/* One number with all others, with each pair of signs. */
static void pairs_with(const char *function, const char *number, size_t sign) {
    char one[TEXT / 4], other[TEXT / 4];
    snprintf(one, sizeof one, "%s%s", signs[sign], number);
    for (size_t i = 0; i < NUMBERS * 2; i++) {
        snprintf(other, sizeof other, "%s%s", signs[i % 2], numbers[i / 2]);
        pair_both(function, one, other, i % 16 == 0 ? LESS : 0);
    }
}

static void arithmetic_both(void) {
    static const char *const functions[] = {"ad", "su", "ml", "dv", "gr"};
    for (size_t i = 0; i < 5 * NUMBERS * 2; i++)
        pairs_with(functions[i % 5], numbers[i / 10], i / 5 % 2);
    for (size_t i = 0; i < 5 * 4 * 8; i++)
        pairs_with(functions[i % 5], numbers[i / 20 * 5], 2 + i / 5 % 4);
}

/* Numbers of so many digits, behind another character and behind none. */
static void numbers_of(int length) {
    static const char *const functions[] = {"ad", "su", "ml", "dv", "gr"};
    static const char *const others[] = {"7", "-7", "10000000000000000000", "a-3",
                                         "123456789012345678901234567890123456"};
    char one[TEXT / 4];
    for (size_t i = 0; i < 5 * 5 * 4; i++) {
        const size_t begin = (size_t)snprintf(one, sizeof one, "%s", signs[i / 25 * 2 - (i >= 50)]);
        memset(one + begin, i % 2 ? '9' : '1', (size_t)length);
        one[begin + (size_t)length] = 0;
        pair_both(functions[i % 5], one, others[i / 5 % 5], 0);
        pair_both(functions[i % 5], others[i / 5 % 5], one, 0);
    }
}

/* Octal digits, so many of them. */
static void put_bits(char *to, uint32_t length) {
    for (uint32_t i = 0; i < length; i++)
        to[i] = (char)('0' + chosen(8));
    to[length] = 0;
}

static void shifts_of(const char *bits) {
    for (size_t i = 0; i < NUMBERS; i++)
        pair_both(i % 2 ? "br" : "bs", bits, numbers[i], 0);
}

static void bits_of(uint32_t length) {
    static const char *const pairs[] = {"bu", "bi"}, *const alone[] = {"bs", "br"};
    static const char *const texts[] = {"", "x", "9", "a text-8"};
    char one[TEXT / 4], other[TEXT / 4];
    const size_t begin = (size_t)snprintf(one, sizeof one, "%s", texts[chosen(4)]);
    put_bits(one + begin, length);
    for (uint32_t i = 0; i < BITS; i++) {
        put_bits(other, i);
        pair_both(pairs[i % 2], one, other, i % 8 == 0 ? LESS : 0);
        snprintf(other, sizeof other, "%s%u", i % 4 < 2 ? "" : "-", chosen(3) ? i * 3 + chosen(3) : chosen(100000));
        pair_both(alone[i % 2], other, one, 0);
        pair_both(alone[i % 2], one, other, i % 8 == 1 ? LESS : 0);
    }
    pair_both("bc", one, "z", LESS);
    shifts_of(one);
}

/* Calls whose value is their last argument, which has so many characters, with a form and with none before them. */
static void defaults_of(int length) {
    static const char *const calls[] = {
        "%s#(eq,a,b,c,%0*d)'", "%s#(eq,a,a,%0*d)'", "%s#(gr,2,1,%0*d,b)'", "%s#(gr,1,2,,%0*d)'", "%s#(dv,1,0,%0*d)'",
        "%s#(cs,f,%0*d)'", "%s#(cc,f,%0*d)'", "%s#(cn,f,9,%0*d)'", "%s#(cn,f,-9,%0*d)'", "%s#(in,f,z,%0*d)'",
        "%s##(eq,a,b,c,%0*d)'", "%s##(cs,f,%0*d)'", "%s##(in,f,z,%0*d)'", "%s#(ad,%0*d,)'", "%s#(ad,x,%0*d)'",
        "%s##(ml,99999999999999999999,99999999999999999999,%0*d)'", "%s##(gr,-1,1,,%0*d)'", "%s##(cc,f,%0*d)'"};
    static const char *const before[] = {"", "#(ds,f,)", "#(ds,f,ab)#(cs,f)"};
    char text[TEXT];
    for (size_t i = 0; i < sizeof calls / sizeof calls[0] * 3; i++) {
        snprintf(text, sizeof text, calls[i / 3], before[i % 3], length, 0);
        run_in_rooms(text, LESS);
    }
}

void numbers_both(void) {
    choose_again(1);
    for (int length = 1; length < LONGEST_DEFAULT; length++)
        defaults_of(length);
    arithmetic_both();
    for (int length = 1; length < 2 * LONGEST_DEFAULT; length++)
        numbers_of(length);
    for (uint32_t length = 0; length < 2 * BITS; length++)
        bits_of(length < BITS ? length : length * 2);
}
