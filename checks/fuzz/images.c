/* Mutated images of forms, given to trac_load under sanitizers. An image is made of random forms, which a writer and a
 * reader in this file read the format of by themselves. It is mutated, its checksum mostly made right again, and given
 * to a machine in the middle of a run, with forms of its own: exactly what the reader takes, and what fits beside the
 * strings, must be taken, and trac_save must give the same bytes then; all else must be refused, and machine, forms and
 * strings be as they were. The words are the number of mutations and a number to begin with. */
#include "trac_engine.c"

#include <inttypes.h>
#include <stdio.h>
#include <stdlib.h>

enum { MOST_CELLS = 200, MOST_FORMS = 6, MOST_CODES = 12, MOST_BYTES = 4096, HEAD = 10, FORM_HEAD = 16, SUM = 4 };
static const uint32_t MOST_ORDINAL = 16777216;

typedef struct {
    uint8_t bytes[MOST_BYTES];
    size_t length;
    size_t starts[MOST_FORMS + 2]; /* of each form, and the end of the last; a run can make one more form */
    size_t forms;
} image;

typedef struct {
    trac_machine machine;
    trac_cell *block;
    size_t cells;
} kept;

static uint64_t state;

static void must_at(int holds, int line) {
    if (holds)
        return;
    fprintf(stderr, "images.c: line %d\n", line);
    abort();
}
#define must(holds) must_at(holds, __LINE__)

/* A number below a bound, of the generator SplitMix64. */
static uint32_t drawn(uint32_t below) {
    uint64_t x = state += UINT64_C(0x9E3779B97F4A7C15);
    x = (x ^ x >> 30) * UINT64_C(0xBF58476D1CE4E5B9);
    x = (x ^ x >> 27) * UINT64_C(0x94D049BB133111EB);
    return (uint32_t)((x ^ x >> 31) % below);
}

static void *fresh(size_t bytes) {
    void *const made = malloc(bytes ? bytes : 1);
    must(made != NULL);
    memset(made, 0xA5, bytes);
    return made;
}

/* ---- The format, written. */

static void put_byte(image *to, uint32_t byte) {
    must(to->length < MOST_BYTES);
    to->bytes[to->length++] = (uint8_t)byte;
}

static void put_number(image *to, uint32_t number) {
    for (int i = 0; i < 4; i++)
        put_byte(to, number >> 8 * i & 255);
}

static void set_number(image *to, size_t at, uint32_t number) {
    for (size_t i = 0; i < 4 && at + i < to->length; i++)
        to->bytes[at + i] = (uint8_t)(number >> 8 * i);
}

static uint32_t adler(const uint8_t *bytes, size_t length) {
    uint32_t low = 1, high = 0;
    for (size_t i = 0; i < length; i++) {
        low = (low + bytes[i]) % 65521;
        high = (high + low) % 65521;
    }
    return high << 16 | low;
}

/* Makes the last four bytes the checksum. */
static void set_sum(image *to) {
    if (to->length >= SUM)
        set_number(to, to->length - SUM, adler(to->bytes, to->length - SUM));
}

static void begin_image(image *to, uint32_t meta, uint32_t count) {
    static const char mark[] = "TRAC\1";
    to->length = to->forms = 0;
    for (const char *byte = mark; *byte; byte++)
        put_byte(to, (uint8_t)*byte);
    put_byte(to, meta);
    put_number(to, count);
    to->starts[0] = to->length;
}

static void end_image(image *to) {
    put_number(to, 0);
    set_sum(to);
}

static uint32_t characters_in(const uint32_t *codes, uint32_t count) {
    uint32_t characters = 0;
    for (uint32_t i = 0; i < count; i++)
        characters += codes[i] < TRAC_FIRST_GAP;
    return characters;
}

static void put_gaps(image *to, const uint32_t *codes, uint32_t count) {
    uint32_t since = 0;
    for (uint32_t i = 0; i < count; i++) {
        if (codes[i] >= TRAC_FIRST_GAP) {
            put_number(to, since);
            put_number(to, codes[i] - TRAC_FIRST_GAP + 1);
        }
        since = codes[i] < TRAC_FIRST_GAP ? since + 1 : 0;
    }
}

static void put_form(image *to, const char *name, uint32_t name_length, const uint32_t *codes, uint32_t count,
                     uint32_t pointer) {
    put_number(to, name_length);
    put_number(to, count);
    put_number(to, characters_in(codes, count));
    put_number(to, pointer);
    for (uint32_t i = 0; i < name_length; i++)
        put_byte(to, (uint8_t)name[i]);
    for (uint32_t i = 0; i < count; i++)
        if (codes[i] < TRAC_FIRST_GAP)
            put_byte(to, codes[i]);
    put_gaps(to, codes, count);
    to->starts[++to->forms] = to->length;
}

/* The image of a machine's forms, by what it shows of them. */
static void write_image(image *to, const trac_machine *machine) {
    trac_form form = TRAC_NO_FORM;
    begin_image(to, trac_meta(machine), (uint32_t)trac_form_count(machine));
    while (trac_next_form(machine, &form)) {
        uint32_t codes[MOST_CODES];
        char name[8];
        const size_t length = trac_form_name(&form, name, sizeof name);
        const size_t count = trac_form_codes(&form, codes, MOST_CODES);
        must(length <= sizeof name && count <= MOST_CODES);
        put_form(to, name, (uint32_t)length, codes, (uint32_t)count, (uint32_t)trac_form_pointer(&form));
    }
    end_image(to);
}

/* ---- The format, read. */

/* What was not read yet, in front of the checksum. */
typedef struct {
    const uint8_t *at;
    size_t left;
    int is_wrong;
} rest;

static const uint8_t *take(rest *of, size_t count) {
    const uint8_t *const at = of->at;
    of->is_wrong |= count > of->left;
    count = of->is_wrong ? of->left : count;
    of->at += count;
    of->left -= count;
    return at;
}

static uint32_t take_number(rest *of) {
    const uint8_t *const at = take(of, 4);
    return of->is_wrong ? 0 : at[0] | (uint32_t)at[1] << 8 | (uint32_t)at[2] << 16 | (uint32_t)at[3] << 24;
}

static void take_gaps(rest *of, uint64_t gaps, uint64_t characters) {
    for (uint64_t passed = 0; gaps && !of->is_wrong; gaps--) {
        passed += take_number(of);
        const uint32_t ordinal = take_number(of);
        of->is_wrong |= passed > characters || ordinal == 0 || ordinal > MOST_ORDINAL;
    }
}

typedef struct {
    const uint8_t *at;
    size_t length;
} name_of;

static int has_name(const name_of *names, size_t count, name_of name) {
    size_t i = 0;
    while (i < count && (names[i].length != name.length || memcmp(names[i].at, name.at, name.length) != 0))
        i++;
    return i < count;
}

/* Reads a form, and gives the cells that it needs. */
static uint64_t take_form(rest *of, name_of *names, size_t before) {
    const uint32_t length = take_number(of), items = take_number(of), characters = take_number(of);
    of->is_wrong |= take_number(of) > items || characters > items;
    names[before].at = take(of, length);
    names[before].length = length;
    (void)take(of, characters);
    if (!of->is_wrong)
        take_gaps(of, items - characters, characters);
    of->is_wrong |= !of->is_wrong && has_name(names, before, names[before]);
    return 3 + (uint64_t)length + items;
}

/* The cells that the forms of an image need; UINT64_MAX where it is none. */
static uint64_t cells_of(const uint8_t *bytes, size_t length) {
    static name_of names[MOST_BYTES / FORM_HEAD];
    uint64_t cells = 0;
    if (length < HEAD + SUM || memcmp(bytes, "TRAC\1", 5) != 0)
        return UINT64_MAX;
    rest end = {bytes + length - SUM, SUM, 0}, all = {bytes + 6, length - 6 - SUM, 0};
    if (take_number(&end) != adler(bytes, length - SUM))
        return UINT64_MAX;
    const uint32_t count = take_number(&all);
    for (uint32_t i = 0; i < count && !all.is_wrong; i++)
        cells += take_form(&all, names, i);
    return all.is_wrong || all.left ? UINT64_MAX : cells;
}

/* ---- Machines. */

static void define_one(kept *of) {
    static const uint32_t ordinals[] = {1, 2, 3, 16777216};
    uint32_t codes[MOST_CODES];
    uint8_t name[3];
    const size_t length = drawn(4), count = drawn(MOST_CODES + 1);
    for (size_t i = 0; i < length; i++)
        name[i] = (uint8_t)(drawn(8) ? "ab'"[drawn(3)] : drawn(256));
    for (size_t i = 0; i < count; i++)
        codes[i] = drawn(3) ? drawn(256) : TRAC_FIRST_GAP + ordinals[drawn(4)] - 1;
    (void)trac_define(&of->machine, name, length, codes, count, drawn((uint32_t)count + 1));
}

static void define_some(kept *of) {
    for (uint32_t left = drawn(MOST_FORMS + 1); left; left--)
        define_one(of);
    if (drawn(2))
        (void)trac_set_meta(&of->machine, drawn(256));
}

/* Makes a machine with forms. */
static void make(kept *of, size_t cells) {
    of->cells = cells;
    of->block = (trac_cell *)fresh(cells * sizeof *of->block);
    must(trac_open(&of->machine, of->block, cells, 1000) == 0);
    define_some(of);
}

/* Brings it into the middle of a run: in front of a call of no function, behind some steps, or in front of any. */
static void run_some(kept *of) {
    char script[] = "#(ds,k,#(zz,(12),#(cl,a,))(34))?", output[1];
    script[sizeof script - 2] = (char)trac_meta(&of->machine);
    (void)trac_stop_at_unknown(&of->machine, (int)drawn(2));
    (void)trac_turn(&of->machine, script, sizeof script - 1, (int)drawn(2), output, 0, drawn(80));
}

/* What a machine shows beside its forms: both strings, its parts, its steps and peak, and the end of its run. */
typedef struct {
    uint32_t neutral[MOST_CELLS], active[MOST_CELLS];
    size_t neutral_length, active_length, used;
    uint32_t awaits, rule;
    trac_report told;
} strings;

static strings strings_of(const kept *of) {
    strings seen;
    trac_machine twin = of->machine;
    memset(&seen, 0, sizeof seen);
    seen.neutral_length = trac_neutral(&of->machine, seen.neutral, MOST_CELLS);
    seen.active_length = trac_active(&of->machine, seen.active, MOST_CELLS);
    seen.used = trac_part(&of->machine, TRAC_PART_NEUTRAL) + trac_part(&of->machine, TRAC_PART_ACTIVE);
    seen.awaits = trac_awaits(&of->machine);
    seen.rule = trac_rule(&of->machine);
    seen.told = trac_turn(&twin, NULL, 0, 0, NULL, 0, 0);
    return seen;
}

static void strings_stay(const kept *of, const strings *before) {
    const strings now = strings_of(of);
    must(now.neutral_length == before->neutral_length && now.active_length == before->active_length);
    must(memcmp(now.neutral, before->neutral, sizeof now.neutral) == 0);
    must(memcmp(now.active, before->active, sizeof now.active) == 0);
    must(now.used == before->used && now.awaits == before->awaits && now.rule == before->rule);
    must(now.told.fate == before->told.fate && now.told.steps == before->told.steps);
    must(now.told.peak == before->told.peak);
}

/* trac_save gives these bytes, and no more of them than there is room for. */
static void saves(const kept *of, const uint8_t *bytes, size_t length) {
    uint8_t *const all = (uint8_t *)fresh(length);
    must(trac_save(&of->machine, all, length) == length && memcmp(all, bytes, length) == 0);
    free(all);
    const size_t room = drawn((uint32_t)length + 1);
    uint8_t *const some = (uint8_t *)fresh(room);
    must(trac_save(&of->machine, some, room) == length && memcmp(some, bytes, room) == 0);
    free(some);
}

/* ---- Mutations. */

static void replace(image *of, size_t from, size_t to, const uint8_t *with, size_t length) {
    if (of->length - (to - from) + length > MOST_BYTES)
        return;
    memmove(of->bytes + from + length, of->bytes + to, of->length - to);
    memcpy(of->bytes + from, with, length);
    of->length = of->length - (to - from) + length;
}

static size_t place_in(const image *of) { return drawn((uint32_t)of->length + 1); }

/* Removes a part, puts a copy of it to another place, or puts bytes to a place. */
static void change_part(image *of) {
    uint8_t copy[MOST_BYTES];
    size_t from = place_in(of), to = place_in(of);
    const size_t at = place_in(of), how = drawn(3), more = 1 + drawn(8);
    const size_t low = from < to ? from : to, high = from < to ? to : from;
    memcpy(copy, of->bytes + low, high - low);
    for (size_t i = high - low; i < more; i++)
        copy[i] = (uint8_t)drawn(256);
    if (how == 0)
        replace(of, low, high, copy, 0);
    else
        replace(of, at, at, copy, how == 1 ? high - low : more);
}

static void flip_bits(image *of) {
    for (uint32_t left = 1 + drawn(3); left && of->length; left--)
        of->bytes[drawn((uint32_t)of->length)] ^= (uint8_t)(1 << drawn(8));
}

/* Doubles a form, removes one, or swaps it with the last, and makes the count right in most cases. */
static void change_forms(image *of) {
    uint8_t copy[MOST_BYTES];
    if (!of->forms)
        return;
    const size_t which = drawn((uint32_t)of->forms), how = drawn(3), from = of->starts[which];
    const size_t end = of->starts[of->forms], length = of->starts[which + 1] - from;
    memcpy(copy, of->bytes + from, length);
    if (how != 0)
        replace(of, from, from + length, copy, 0);
    if (how != 1)
        replace(of, how == 0 ? end : end - length, how == 0 ? end : end - length, copy, length);
    if (drawn(4))
        set_number(of, 6, (uint32_t)(of->forms + (how == 0) - (how == 1)));
}

/* Changes one of the numbers of a form, or any four bytes. */
static void change_number(image *of) {
    static const uint32_t numbers[] = {0, 1, 16777216, 16777217, 0x7FFFFFFF, 0x80000000, 0xFFFFFFF0, 0xFFFFFFFF};
    const size_t which = of->forms ? drawn((uint32_t)of->forms) : 0;
    size_t at = drawn(2) || !of->forms ? place_in(of) : of->starts[which] + 4 * drawn(4);
    if (drawn(3) == 0 && of->forms && of->starts[which + 1] >= 8)
        at = of->starts[which + 1] - 4 * (1 + drawn(2));
    if (at >= of->length)
        return;
    if (drawn(2))
        set_number(of, at, numbers[drawn(8)]);
    else
        of->bytes[at] = (uint8_t)(of->bytes[at] + (drawn(2) ? 1 : 255));
}

static void mutate(image *of) {
    switch (drawn(6)) {
    case 0:
        flip_bits(of);
        break;
    case 1:
        of->length = place_in(of);
        break;
    case 2:
        change_part(of);
        break;
    case 3:
        change_forms(of);
        break;
    default:
        change_number(of);
    }
    if (drawn(2))
        set_sum(of);
}

/* ---- Loading. */

/* Gives an image to a machine, and gives whether it was taken. */
static int load(kept *to, const image *given) {
    image own;
    write_image(&own, &to->machine);
    saves(to, own.bytes, own.length);
    const strings before = strings_of(to);
    uint8_t *const bytes = (uint8_t *)fresh(given->length);
    memcpy(bytes, given->bytes, given->length);
    const uint32_t told = trac_load(&to->machine, bytes, given->length);
    must(memcmp(bytes, given->bytes, given->length) == 0);
    free(bytes);
    const uint64_t cells = cells_of(given->bytes, given->length);
    must(told == (cells <= to->cells - before.used ? 0 : TRAC_REFUSED));
    saves(to, told ? own.bytes : given->bytes, told ? own.length : given->length);
    strings_stay(to, &before);
    return !told;
}

/* Lets a machine list, show, call and define forms after a load. */
static void use(kept *of) {
    char output[64], more[] = "#(ln,;)#(pf,a)#(cl,b,c)#(ds,a,x)?";
    more[sizeof more - 2] = (char)trac_meta(&of->machine);
    (void)trac_again(&of->machine, 1000);
    (void)trac_turn(&of->machine, more, sizeof more - 1, 1, output, sizeof output, 1000);
}

/* One mutation. Gives whether it was taken. */
static int try_one(void) {
    kept from, to;
    image given;
    make(&from, MOST_CELLS);
    write_image(&given, &from.machine);
    saves(&from, given.bytes, given.length);
    mutate(&given);
    make(&to, drawn(MOST_CELLS));
    run_some(&to);
    const int is_taken = load(&to, &given);
    use(&to);
    free(from.block);
    free(to.block);
    return is_taken;
}

/* ---- Worked values. */

/* It is written to where the greatest byte stands first: see trac_define. */
static uint32_t BODY[] = {'a', TRAC_FIRST_GAP, 'b'};

/* Whether an image of forms that are all given is taken in so many cells, beside a form and no strings. */
static int is_taken_in(size_t cells, const image *given) {
    kept to = {TRAC_NO_MACHINE, (trac_cell *)fresh(cells * sizeof(trac_cell)), cells};
    must(trac_open(&to.machine, to.block, cells, 1000) == 0);
    (void)trac_define_text(&to.machine, "k", 1, "x", 1);
    const int is_taken = load(&to, given);
    free(to.block);
    return is_taken;
}

/* Whether an image of a form with this pointer, whose gap has this ordinal, is taken. */
static int is_form_taken(uint32_t ordinal, uint32_t pointer) {
    image one;
    begin_image(&one, '\'', 1);
    put_form(&one, "F", 1, BODY, 3, pointer);
    end_image(&one);
    set_number(&one, one.length - SUM - 4, ordinal);
    set_sum(&one);
    return is_taken_in(100, &one);
}

static void refuse_forms(void) {
    must(is_form_taken(1, 3) && is_form_taken(16777216, 0));
    must(!is_form_taken(0, 0) && !is_form_taken(16777217, 0) && !is_form_taken(UINT32_MAX, 0));
    must(!is_form_taken(1, 4) && !is_form_taken(1, UINT32_MAX));
}

static void refuse_names_and_room(void) {
    for (int is_other = 0; is_other < 2; is_other++) {
        image two;
        begin_image(&two, '\'', 2);
        put_form(&two, "F", 1, BODY, 3, 0);
        put_form(&two, is_other ? "G" : "F", 1, BODY, 3, 0);
        end_image(&two);
        must(is_taken_in(100, &two) == is_other);
        must(is_taken_in(14, &two) == is_other && !is_taken_in(13, &two));
    }
}

/* The image of the form F, a gap 1 between `a` and `b`, with pointer 2, where the meta character is a semicolon; and
 * that of no forms and the apostrophe. */
static void worked_bytes(void) {
    static const uint8_t of_form[] = {84, 82, 65, 67, 1, 59, 1,  0,  0,  0, 1, 0, 0, 0, 3, 0, 0,   0, 2,  0,
                                      0,  0,  2,  0,  0, 0,  70, 97, 98, 1, 0, 0, 0, 1, 0, 0, 0, 123, 2, 40, 60};
    static const uint8_t of_none[] = {84, 82, 65, 67, 1, 39, 0, 0, 0, 0, 83, 1, 218, 10};
    kept one = {TRAC_NO_MACHINE, (trac_cell *)fresh(7 * sizeof(trac_cell)), 7};
    must(trac_open(&one.machine, one.block, 7, 1000) == 0);
    saves(&one, of_none, sizeof of_none);
    must(trac_define(&one.machine, "F", 1, BODY, 3, 2) == 0 && trac_set_meta(&one.machine, ';') == 0);
    saves(&one, of_form, sizeof of_form);
    must(trac_load(&one.machine, of_none, sizeof of_none) == 0 && trac_meta(&one.machine) == '\'');
    saves(&one, of_none, sizeof of_none);
    must(trac_load(&one.machine, of_form, sizeof of_form) == 0 && trac_meta(&one.machine) == ';');
    saves(&one, of_form, sizeof of_form);
    free(one.block);
}

int main(int count, char **words) {
    const uint64_t mutations = count > 1 ? strtoull(words[1], NULL, 10) : 0;
    uint64_t taken = 0;
    state = count > 2 ? strtoull(words[2], NULL, 10) : 0;
    worked_bytes();
    refuse_forms();
    refuse_names_and_room();
    for (uint64_t i = 0; i < mutations; i++)
        taken += (uint64_t)try_one();
    printf("%" PRIu64 " mutations, %" PRIu64 " taken\n", mutations, taken);
    return 0;
}
