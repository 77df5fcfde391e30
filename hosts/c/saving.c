/* Writes the forms of a machine as a script that defines them again, with their gaps and pointers.
 *
 * A form becomes at most three strings: its definition, with a placeholder for each gap; a call of `ss` that makes gaps
 * of these; and calls of `cn` and `cs` that move the pointer. Parentheses protect a text. A special character can't be
 * in parentheses: it is a parenthesis without a match, or the meta character, if each possible meta character occurs in
 * a form. It is given by a neutral call of a form that exists only for this, and is deleted in the end. Everything is
 * first loaded into a machine with as many cells, and what doesn't fit there is reported. */
#include "terminal.h"

/* The characters that have forms of their own. */
typedef enum { LEFT, RIGHT, META, SPECIAL_COUNT } special;

/* The characters in the names of these forms; the possible meta characters of the script; and the characters that may
 * begin a placeholder, the best first. The characters of the names are in neither of the other two lists. */
static const char NAMES[] = LOADING_NAMES, METAS[] = "';!|`@&$%?:", BEGINNINGS[] = "~^_*+=-/";

/* How many characters these lists have. */
enum { BEGINNING_COUNT = sizeof BEGINNINGS - 1 };

/* A script under construction. `marks` has a byte for each byte of a text: 0, or 1 more than the number of the special
 * character that it is. */
typedef struct {
    const trac_machine *from;
    const char *file;
    text script;
    text name, codes, body, marks;
    uint8_t meta;
    size_t repeats[SPECIAL_COUNT]; /* how often the names of the special characters repeat their character */
    int is_used[SPECIAL_COUNT];
    trac_machine trial; /* in which the script is tried, if `is_tried` */
    int is_tried;
    size_t tried; /* the length of what was tried */
    int is_told;  /* whether it was reported that something didn't fit */
    size_t cells;
    uint64_t steps;
} saving;

static void add_number(text *to, const char *format, size_t number) {
    char digits[40];
    (void)snprintf(digits, sizeof digits, format, number);
    add_text(to, digits);
}

static void add_repeated(text *to, char byte, size_t count) {
    for (; count; count--)
        add_bytes(to, &byte, 1);
}

/* ---- A text as an argument of a call. */

static int is_plain(uint8_t byte) {
    return (byte >= '0' && byte <= '9') || (byte >= 'A' && byte <= 'Z') || (byte >= 'a' && byte <= 'z') ||
           (byte && strchr(" !$%&*+-./:;<=>?@[]^_{|}~\"", byte));
}

static int are_plain(const uint8_t *bytes, size_t length, uint8_t meta) {
    while (length && is_plain(*bytes) && *bytes != meta) {
        bytes++;
        length--;
    }
    return !length;
}

/* Marks the meta characters, and the right parentheses without a match between meta characters. */
static void mark_right(text *marks, const uint8_t *bytes, size_t length, uint8_t meta) {
    size_t open = 0;
    for (size_t i = 0; i < length; i++) {
        const int is_right = bytes[i] == ')';
        marks->bytes[i] = (uint8_t)(bytes[i] == meta ? META + 1 : is_right && !open ? RIGHT + 1 : 0);
        open = bytes[i] == meta ? 0 : open + (bytes[i] == '(') - (size_t)(is_right && open);
    }
}

/* Marks the left parentheses without a match between meta characters. */
static void mark_left(text *marks, const uint8_t *bytes, size_t length, uint8_t meta) {
    size_t closed = 0;
    for (size_t i = length; i; i--) {
        const uint8_t byte = bytes[i - 1];
        if (byte == '(' && !closed)
            marks->bytes[i - 1] = LEFT + 1;
        closed = byte == meta ? 0 : closed + (byte == ')') - (size_t)(byte == '(' && closed);
    }
}

static void add_special(saving *of, special which) {
    of->is_used[which] = 1;
    add_text(&of->script, "##(cl,");
    add_repeated(&of->script, NAMES[which], of->repeats[which]);
    add_text(&of->script, ")");
}

/* How many characters from a place on can be in parentheses. */
static size_t unmarked_length(const text *marks, size_t at, size_t length) {
    size_t count = 0;
    while (at + count < length && !marks->bytes[at + count])
        count++;
    return count;
}

/* Adds text whose evaluation gives this text. */
static void add_argument(saving *of, const uint8_t *bytes, size_t length) {
    of->marks.length = 0;
    if (are_plain(bytes, length, of->meta) || !reserve(&of->marks, length)) {
        add_bytes(&of->script, bytes, length);
        return;
    }
    mark_right(&of->marks, bytes, length, of->meta);
    mark_left(&of->marks, bytes, length, of->meta);
    for (size_t at = 0; at < length;) {
        const size_t count = unmarked_length(&of->marks, at, length);
        if (count) {
            add_text(&of->script, "(");
            add_bytes(&of->script, bytes + at, count);
            add_text(&of->script, ")");
        } else {
            add_special(of, (special)(of->marks.bytes[at] - 1));
        }
        at += count ? count : 1;
    }
}

/* Begins a call that has the name of the form as its argument. */
static void begin_call(saving *of, const char *beginning) {
    add_text(&of->script, beginning);
    add_argument(of, of->name.bytes, of->name.length);
}

/* ---- Strings. */

/* Runs in the trial what was added since the last time, as loading does: with the line feeds between strings. Answers
 * whether it ran to its end. */
static int try_added(saving *of) {
    const size_t from = of->tried;
    of->tried = of->script.length;
    return !of->is_tried || of->script.is_short ||
           run_saved(&of->trial, of->steps, of->script.bytes + from, of->tried - from, 0) == TRAC_GOING;
}

/* Ends a string of the script. Answers whether the string runs to its end in the trial. */
static int end_string(saving *of) {
    add_bytes(&of->script, &of->meta, 1);
    const int is_run = try_added(of);
    add_text(&of->script, "\n");
    return is_run;
}

/* ---- Gaps. */

static const uint32_t *codes_of(const saving *of) { return (const uint32_t *)(const void *)of->codes.bytes; }

static size_t count_of(const saving *of) { return of->codes.length / sizeof(uint32_t); }

static uint32_t greatest_ordinal(const saving *of) {
    uint32_t most = 0;
    for (size_t i = 0; i < count_of(of); i++)
        if (codes_of(of)[i] >= TRAC_FIRST_GAP && codes_of(of)[i] - TRAC_FIRST_GAP + 1 > most)
            most = codes_of(of)[i] - TRAC_FIRST_GAP + 1;
    return most;
}

/* The greatest number of times that each byte occurs in a row in the body. */
static void measure_rows(const saving *of, size_t longest[256]) {
    size_t row = 0;
    memset(longest, 0, 256 * sizeof *longest);
    for (size_t i = 0; i < count_of(of); i++) {
        const uint32_t code = codes_of(of)[i];
        row = i && codes_of(of)[i - 1] == code ? row + 1 : 1;
        if (code < TRAC_FIRST_GAP && row > longest[code])
            longest[code] = row;
    }
}

static int can_begin(const saving *of, uint8_t byte) {
    return !(byte >= '0' && byte <= '9') && byte != '(' && byte != ')' && byte != of->meta;
}

/* The byte that begins placeholders, and how often it is repeated: once more than it occurs in a row in the body.
 * Because digits follow, always the same number of them, a placeholder is found where it was put and nowhere else. */
static uint8_t choose_beginning(const saving *of, size_t *count) {
    size_t longest[256];
    uint8_t best = (uint8_t)BEGINNINGS[0];
    measure_rows(of, longest);
    for (size_t i = 0; i < BEGINNING_COUNT + 256; i++) {
        const uint8_t byte = (uint8_t)(i < BEGINNING_COUNT ? (size_t)BEGINNINGS[i] : i - BEGINNING_COUNT);
        if (can_begin(of, byte) && (longest[byte] < longest[best] || !can_begin(of, best)))
            best = byte;
    }
    *count = longest[best] + 1;
    return best;
}

/* How a placeholder is written: with how many bytes, and with how many digits of the ordinal. */
typedef struct {
    uint8_t beginning;
    size_t count;
    int digits;
} placeholder;

static placeholder choose_placeholder(const saving *of, uint32_t most) {
    placeholder chosen = {0, 0, 1};
    chosen.beginning = choose_beginning(of, &chosen.count);
    for (; most > 9; most /= 10)
        chosen.digits++;
    return chosen;
}

static void add_placeholder(text *to, const placeholder *written, uint32_t ordinal) {
    char digits[40];
    add_repeated(to, (char)written->beginning, written->count);
    (void)snprintf(digits, sizeof digits, "%0*" PRIu32, written->digits, ordinal);
    add_text(to, digits);
}

/* The body as a text, with a placeholder for each gap. */
static void write_body(saving *of, const placeholder *written) {
    of->body.length = 0;
    for (size_t i = 0; i < count_of(of); i++) {
        const uint32_t code = codes_of(of)[i];
        const uint8_t byte = (uint8_t)code;
        if (code >= TRAC_FIRST_GAP)
            add_placeholder(&of->body, written, code - TRAC_FIRST_GAP + 1);
        else
            add_bytes(&of->body, &byte, 1);
    }
}

/* Notes which ordinals occur, in a byte for each. */
static int note_ordinals(const saving *of, text *to, uint32_t most) {
    if (!reserve(to, most))
        return 0;
    memset(to->bytes, 0, most);
    for (size_t i = 0; i < count_of(of); i++)
        if (codes_of(of)[i] >= TRAC_FIRST_GAP)
            to->bytes[codes_of(of)[i] - TRAC_FIRST_GAP] = 1;
    return 1;
}

/* Adds the call that makes gaps of the placeholders. An ordinal without a gap has a null text. */
static void add_segmenting(saving *of, const placeholder *written, uint32_t most) {
    text ordinals = {NULL, 0, 0, 0};
    begin_call(of, "#(ss,");
    const uint32_t noted = note_ordinals(of, &ordinals, most) ? most : 0;
    for (uint32_t ordinal = 1; ordinal <= noted; ordinal++) {
        of->body.length = 0;
        if (ordinals.bytes[ordinal - 1])
            add_placeholder(&of->body, written, ordinal);
        add_text(&of->script, ",");
        add_argument(of, of->body.bytes, of->body.length);
    }
    add_text(&of->script, ")");
    of->script.is_short |= !noted;
    free(ordinals.bytes);
}

/* ---- Forms. */

/* How many gaps right before an item follow the last character before it; and how many characters precede the item. */
static size_t count_gaps(const saving *of, size_t item, size_t *characters) {
    size_t gaps = 0;
    *characters = 0;
    for (size_t i = 0; i < item; i++) {
        const int is_gap = codes_of(of)[i] >= TRAC_FIRST_GAP;
        *characters += (size_t)!is_gap;
        gaps = is_gap ? gaps + 1 : 0;
    }
    return gaps;
}

/* Adds the calls that move the pointer to a place: past a number of characters, and then past the gaps that follow
 * them. Their values are in an argument of a call of no function. */
static void add_pointer(saving *of, size_t pointer) {
    size_t characters, gaps = count_gaps(of, pointer, &characters);
    add_text(&of->script, "#(,");
    if (characters) {
        begin_call(of, "##(cn,");
        add_number(&of->script, ",%zu)", characters);
    }
    for (; gaps; gaps--) {
        begin_call(of, "##(cs,");
        add_text(&of->script, ")");
    }
    add_text(&of->script, ")");
}

/* Adds the strings that define a form. Answers whether they do so in the trial. */
static int define(saving *of, size_t pointer) {
    const uint32_t most = greatest_ordinal(of);
    const placeholder written = choose_placeholder(of, most);
    write_body(of, &written);
    begin_call(of, "#(ds,");
    add_text(&of->script, ",");
    add_argument(of, of->body.bytes, of->body.length);
    add_text(&of->script, ")");
    int is_defined = end_string(of);
    if (most) {
        add_segmenting(of, &written, most);
        is_defined &= end_string(of);
    }
    if (pointer) {
        add_pointer(of, pointer);
        is_defined &= end_string(of);
    }
    return is_defined;
}

/* Reports, on standard error and in the script, that defining a form takes more cells than there are. */
static void say_undefined(saving *of) {
    text file = {NULL, 0, 0, 0}, name = {NULL, 0, 0, 0};
    (void)say_line(DONE, "trac_terminal: %s: more cells or steps are needed to define the form %s\n",
                   shown_in(&file, of->file, strlen(of->file)), shown_in(&name, of->name.bytes, of->name.length));
    free(file.bytes);
    free(name.bytes);
    begin_call(of, "#(,(More cells or steps than there were are needed to define the form )");
    add_text(&of->script, ")");
    (void)end_string(of);
    of->is_told = 1;
}

/* Reports that loading a part of the script that belongs to no form takes more cells than there are. */
static void say_not_loadable(saving *of) {
    text file = {NULL, 0, 0, 0};
    if (!of->is_told)
        (void)say_line(DONE, "trac_terminal: %s: more cells or steps are needed to load it\n",
                       shown_in(&file, of->file, strlen(of->file)));
    free(file.bytes);
    of->is_told = 1;
}

static void end_other_string(saving *of) {
    if (!end_string(of))
        say_not_loadable(of);
}

static void add_forms(saving *of) {
    trac_form form = TRAC_NO_FORM;
    while (trac_next_form(of->from, &form)) {
        const int is_taken = take_name(&of->name, &form) && take_codes(&of->codes, &form);
        if (is_taken && !define(of, trac_form_pointer(&form)))
            say_undefined(of);
    }
}

/* ---- The special characters. */

/* Notes the bytes in a form's name and body. */
static void note_bytes(const saving *of, uint8_t is_there[TRAC_FIRST_GAP + 1]) {
    const size_t length = of->name.length;
    for (size_t i = 0; i < length + count_of(of); i++) {
        const uint32_t code = i < length ? of->name.bytes[i] : codes_of(of)[i - length];
        is_there[code < TRAC_FIRST_GAP ? code : TRAC_FIRST_GAP] = 1;
    }
}

/* The first of these characters that doesn't occur; the first one if all occur. */
static uint8_t first_free(const char *characters, const uint8_t is_there[TRAC_FIRST_GAP + 1]) {
    const char *at = characters;
    while (*at && is_there[(uint8_t)*at])
        at++;
    return (uint8_t)(*at ? *at : *characters);
}

/* Chooses a meta character that occurs in no form, or else the apostrophe. */
static void choose_meta(saving *of) {
    uint8_t is_there[TRAC_FIRST_GAP + 1] = {0};
    trac_form form = TRAC_NO_FORM;
    while (trac_next_form(of->from, &form))
        if (take_name(&of->name, &form) && take_codes(&of->codes, &form))
            note_bytes(of, is_there);
    of->meta = first_free(METAS, is_there);
}

/* Chooses a name that no form has. */
static void choose_name(saving *of, special which) {
    do {
        of->repeats[which]++;
        of->body.length = 0;
        add_repeated(&of->body, NAMES[which], of->repeats[which]);
    } while (!of->body.is_short && has_form(of->from, of->body.bytes, of->body.length, &of->name));
}

/* Adds a string in which $ stands for the name of a special character's form. */
static void add_definition(saving *of, special which, const char *written) {
    for (; *written; written++)
        if (*written == '$')
            add_repeated(&of->script, NAMES[which], of->repeats[which]);
        else
            add_bytes(&of->script, written, 1);
    end_other_string(of);
}

/* Begins the script: its first line, its meta character, and the special characters that are used. */
static void begin_script(saving *of) {
    static const char *const written[] = {"#(ds,$,(()))#(ds,$,##(cc,$))", "#(ds,$,(()))#(,##(cc,$))#(ds,$,##(cc,$))",
                                          "#(cm,~)'#(ds,$,('))#(cm,('))~"};
    const uint8_t meta = of->meta;
    add_first_line(&of->script);
    of->tried = of->script.length;
    of->meta = '\'';
    if (meta != '\'') {
        add_text(&of->script, "#(cm,");
        add_bytes(&of->script, &meta, 1);
        add_text(&of->script, ")");
        end_other_string(of);
    }
    of->meta = meta;
    for (special which = LEFT; which < SPECIAL_COUNT; which++)
        if (of->is_used[which])
            add_definition(of, which, written[which]);
}

/* Ends the script: sets the session's meta character, deletes the forms of the special characters, and, in the same
 * string, which the script's own meta character still ends, adds the last line. */
static void finish_script(saving *of) {
    const uint8_t meta = (uint8_t)trac_meta(of->from);
    const size_t from = of->script.length;
    if (meta != of->meta) {
        add_text(&of->script, "#(cm,");
        add_argument(of, &meta, 1);
        add_text(&of->script, ")");
    }
    for (special which = LEFT; which < SPECIAL_COUNT; which++) {
        if (of->is_used[which]) {
            add_text(&of->script, "#(dd,");
            add_repeated(&of->script, NAMES[which], of->repeats[which]);
            add_text(&of->script, ")");
        }
    }
    if (of->script.length > from) {
        if (!try_added(of))
            say_not_loadable(of);
        add_text(&of->script, "\n");
    }
    add_last_line(&of->script, trac_form_count(of->from), of->meta);
}

/* Writes the script: once to find which special characters are used, and then again with their forms. */
static void write_script(saving *of) {
    trac_cell *const block = (trac_cell *)calloc(of->cells, sizeof(trac_cell));
    choose_meta(of);
    for (special which = LEFT; which < SPECIAL_COUNT; which++)
        choose_name(of, which);
    add_forms(of);
    finish_script(of);
    of->script.length = 0;
    of->is_tried = block && trac_open_zeroed(&of->trial, block, of->cells, of->steps) == 0;
    if (!of->is_tried)
        (void)say_line(DONE, "trac_terminal: no memory to try the script that is saved\n");
    begin_script(of);
    add_forms(of);
    finish_script(of);
    free(block);
}

/* ---- The file, or an image in its place. */

static void say_not_saved(const char *name, const char *why) {
    text shown = {NULL, 0, 0, 0};
    (void)say_line(DONE, "trac_terminal: can't save %s: %s\n", shown_in(&shown, name, strlen(name)), why);
    free(shown.bytes);
}

/* Saves the image that the engine makes of the forms and the meta character. */
static int save_image(const trac_machine *machine, const char *name) {
    text image = {NULL, 0, 0, 0};
    const size_t length = trac_save(machine, NULL, 0);
    if (reserve(&image, length))
        image.length = trac_save(machine, image.bytes, length);
    const int is_saved = !image.is_short && replace_file(name, &image);
    if (!is_saved)
        say_not_saved(name, image.is_short ? strerror(ENOMEM) : strerror(errno));
    free(image.bytes);
    return is_saved;
}

int save_forms(const trac_machine *machine, size_t cells, uint64_t steps, const char *name) {
    static const text none = {NULL, 0, 0, 0};
    if (is_image_name(name))
        return save_image(machine, name);
    saving of = {machine, name, none, none, none, none, none, 0, {0, 0, 0}, {0, 0, 0}, {{0}}, 0, 0, 0,
                 cells, steps};
    write_script(&of);
    const int is_short =
        of.script.is_short || of.name.is_short || of.codes.is_short || of.body.is_short || of.marks.is_short;
    const int is_saved = !is_short && replace_file(name, &of.script);
    if (!is_saved)
        say_not_saved(name, is_short ? strerror(ENOMEM) : strerror(errno));
    free(of.script.bytes);
    free(of.name.bytes);
    free(of.codes.bytes);
    free(of.body.bytes);
    free(of.marks.bytes);
    return is_saved;
}
