/* Old listings: how they differ from scripts for this processor, and which of these differences can be converted. */
#include "terminal.h"

/* The characters by which a typewriter took back the character before. */
enum { RUBOUT = 127, BACKSPACE = 8 };

/* Functions of the language that this processor omits: their names, what to do instead, and how often each is called in
 * a listing. */
enum { LEFT_OUT = 6 };
static const struct {
    const char *name, *instead;
} left_out[LEFT_OUT] = {
    {"sb", "keep the forms in a file: :save FILE"},
    {"fb", "give the file of its forms: --with FILE"},
    {"eb", "remove the file of its forms"},
    {"tn", "trac_trace shows the steps"},
    {"tf", "trac_trace shows the steps"},
    {"mo", "there are no modes"},
};

/* What was converted, and what was found and isn't converted. */
typedef struct {
    size_t line_ends, rubouts, apostrophes, bare_names;
    size_t calls[LEFT_OUT], first_line[LEFT_OUT];
    size_t capitals, small, numbered, lines;
    int has_other_quotes;
} findings;

/* The length of a typographic apostrophe, U+2018, U+2019 or U+00B4; 0 if there is none. */
static size_t quote_length(const uint8_t *at, size_t left) {
    if (left > 2 && at[0] == 0xE2 && at[1] == 0x80 && (at[2] == 0x98 || at[2] == 0x99))
        return 3;
    return left > 1 && at[0] == 0xC2 && at[1] == 0xB4 ? 2 : 0;
}

/* Removes the last character of a line, with all its bytes; if the bytes are no character, it removes one byte. */
static void take_back(text *of) {
    uint8_t last[4] = {0, 0, 0, 0};
    size_t length = of->length < 4 ? of->length : 4;
    for (; length > 1; length--) {
        memcpy(last, of->bytes + of->length - length, length);
        if (length_of_character(last) == length)
            break;
    }
    if (length && of->bytes[of->length - 1] != '\n')
        of->length -= length;
}

/* The bytes that may have to be changed: those that end a line, take back a character, or begin a typographic
 * apostrophe. */
static const uint8_t may_change[] = {'\r', BACKSPACE, RUBOUT, 0xC2, 0xE2};

/* The maximum number of bytes that are examined at once. */
enum { AT_ONCE = 1024 };

/* How many bytes come before the next that may have to be changed, at most AT_ONCE. */
static size_t length_unchanged(const uint8_t *at, size_t left) {
    size_t length = left < AT_ONCE ? left : AT_ONCE;
    for (size_t i = 0; i < sizeof may_change; i++) {
        const uint8_t *const found = (const uint8_t *)memchr(at, may_change[i], length);
        length = found ? (size_t)(found - at) : length;
    }
    return length;
}

/* Adds the characters of a listing, with one kind of line ends and of apostrophes, and without the characters that were
 * taken back. */
static void add_plain(text *to, const text *from, findings *found) {
    const int has_apostrophe = from->length && memchr(from->bytes, '\'', from->length) != NULL;
    for (size_t i = 0, length; i < from->length; i += length) {
        const uint8_t *const at = from->bytes + i;
        const size_t unchanged = length_unchanged(at, from->length - i);
        const size_t quote = quote_length(at, from->length - i);
        length = unchanged ? unchanged : quote ? quote : 1;
        if (unchanged) {
            add_bytes(to, at, unchanged);
        } else if (*at == RUBOUT || *at == BACKSPACE) {
            take_back(to);
            found->rubouts++;
        } else if (*at == '\r') {
            length = i + 1 < from->length && at[1] == '\n' ? 2 : 1;
            add_text(to, "\n");
            found->line_ends++;
        } else {
            found->has_other_quotes |= quote && has_apostrophe;
            found->apostrophes += (size_t)(quote && !has_apostrophe);
            add_bytes(to, quote && !has_apostrophe ? (const uint8_t *)"'" : at, quote && !has_apostrophe ? 1 : length);
        }
    }
}

/* The bytes that end a name. */
static const uint8_t ends_name[256] = {[0] = 1,   ['#'] = 1, ['('] = 1,  [')'] = 1,
                                       [','] = 1, ['\''] = 1, ['\n'] = 1};

/* The length of the name after `#(`, up to a comma or a right parenthesis; 0 if something else comes first. */
static size_t name_length(const uint8_t *at, size_t left) {
    size_t length = 0;
    while (length < left && !ends_name[at[length]])
        length++;
    return length < left && (at[length] == ',' || at[length] == ')') ? length : 0;
}

/* A name in a script. */
typedef struct {
    const uint8_t *bytes;
    size_t length;
} name_part;

static int compare_names(const void *one, const void *other) {
    const name_part *const a = (const name_part *)one, *const b = (const name_part *)other;
    const int order = memcmp(a->bytes, b->bytes, a->length < b->length ? a->length : b->length);
    return order ? order : (a->length > b->length) - (a->length < b->length);
}

/* What is called at a place in a script: the name, and the function if it names one. */
typedef struct {
    const uint8_t *name;
    size_t length;
    const known_function *function;
} called;

/* The call whose `#(` is right before a place. */
static called call_at(const text *script, size_t at) {
    called of = {script->bytes + at, name_length(script->bytes + at, script->length - at), NULL};
    of.function = of.length ? function_named(of.name, of.length) : NULL;
    return of;
}

/* Moves past the next `#(`. Gives 0 if there is none. */
static size_t next_call(const text *script, size_t from) {
    while (from + 1 < script->length) {
        const void *const sign = memchr(script->bytes + from, '#', script->length - 1 - from);
        if (!sign)
            return 0;
        from = (size_t)((const uint8_t *)sign - script->bytes) + 1;
        if (script->bytes[from] == '(')
            return from + 1;
    }
    return 0;
}

static void add_name(text *names, const uint8_t *bytes, size_t length) {
    const name_part name = {bytes, length};
    if (length)
        add_bytes(names, &name, sizeof name);
}

/* The names of the forms that a script makes, sorted. A function makes a form if it changes a form that needn't
 * exist. They are found when one is asked for. */
typedef struct {
    const text *script;
    text sorted;
    int are_found;
} made_names;

static void find_names(text *names, const text *script) {
    for (size_t at = next_call(script, 0); at; at = next_call(script, at)) {
        const called of = call_at(script, at);
        const size_t begin = at + of.length + 1;
        if (of.function && of.function->facts.forms == TRAC_FORMS_FIRST && of.function->facts.changes_forms &&
            !of.function->facts.needs_form && begin < script->length)
            add_name(names, script->bytes + begin, name_length(script->bytes + begin, script->length - begin));
    }
    if (names->length)
        qsort(names->bytes, names->length / sizeof(name_part), sizeof(name_part), compare_names);
}

/* Whether the script makes a form with a name. */
static int has_name(made_names *names, const uint8_t *bytes, size_t length) {
    const name_part name = {bytes, length};
    text *const sorted = &names->sorted;
    if (!names->are_found)
        find_names(sorted, names->script);
    names->are_found = 1;
    return sorted->length && bsearch(&name, sorted->bytes, sorted->length / sizeof name, sizeof name, compare_names);
}

/* The line of a place in a script, from 1. */
static size_t line_at(const text *script, const uint8_t *place) {
    size_t line = 1;
    for (const uint8_t *at = script->bytes; at < place; at++)
        line += *at == '\n';
    return line;
}

/* Whether two characters are these letters of lower case, in either case. */
static int are_letters(const uint8_t *name, const char *letters) {
    return (name[0] | 32) == letters[0] && (name[1] | 32) == letters[1];
}

/* Which function that this processor omits has a name; LEFT_OUT if none has. */
static size_t number_left_out(const uint8_t *name, size_t length) {
    size_t which = length == 2 ? 0 : LEFT_OUT;
    while (which < LEFT_OUT && !are_letters(name, left_out[which].name))
        which++;
    return which;
}

/* Notes how the name of a call is written, and whether the function is one that this processor omits. */
static void note_call(findings *found, const called *of, made_names *names) {
    for (size_t i = 0; i < of->length; i++) {
        found->capitals += (size_t)(of->function && of->name[i] >= 'A' && of->name[i] <= 'Z');
        found->small += (size_t)(of->function && of->name[i] >= 'a' && of->name[i] <= 'z');
    }
    const size_t omitted = of->function ? LEFT_OUT : number_left_out(of->name, of->length);
    if (omitted < LEFT_OUT && !has_name(names, of->name, of->length) && !found->calls[omitted]++)
        found->first_line[omitted] = line_at(names->script, of->name);
}

/* Adds a script, in which calls of bare names become calls of the forms with these names, if the script makes them. */
static void add_called(text *to, const text *script, made_names *names, findings *found) {
    size_t from = 0;
    for (size_t at = next_call(script, 0); at; at = next_call(script, at)) {
        const called of = call_at(script, at);
        add_bytes(to, script->bytes + from, at - from);
        note_call(found, &of, names);
        if (of.length && !of.function && has_name(names, of.name, of.length)) {
            add_text(to, "cl,");
            found->bare_names++;
        }
        from = at;
    }
    add_bytes(to, script->bytes + from, script->length - from);
}

/* Counts the lines, and the lines that begin with a number. */
static void count_lines(findings *found, const text *script) {
    for (size_t at = 0; at < script->length;) {
        found->lines++;
        found->numbered += script->bytes[at] >= '0' && script->bytes[at] <= '9';
        const void *const end = memchr(script->bytes + at, '\n', script->length - at);
        at = end ? (size_t)((const uint8_t *)end - script->bytes) + 1 : script->length;
    }
}

/* Adds a listing as a script for this processor, and notes what was changed and what wasn't. */
static void convert(text *to, const text *from, findings *found) {
    text plain = {NULL, 0, 0, 0};
    made_names names = {&plain, {NULL, 0, 0, 0}, 0};
    to->is_short |= !function_at(0);
    add_plain(&plain, from, found);
    count_lines(found, &plain);
    add_called(to, &plain, &names, found);
    to->is_short |= plain.is_short | names.sorted.is_short;
    free(plain.bytes);
    free(names.sorted.bytes);
}

/* Adds a number of things, after a comma if others come before. */
static void add_count(text *to, size_t count, const char *one, const char *many) {
    char number[32];
    if (!count)
        return;
    (void)snprintf(number, sizeof number, "%s%zu ", to->length ? ", " : "", count);
    add_text(to, number);
    add_text(to, count == 1 ? one : many);
}

/* Adds what was converted; nothing if nothing was. */
static void add_changes(text *to, const findings *found) {
    add_count(to, found->line_ends, "line end", "line ends");
    add_count(to, found->rubouts, "rubout", "rubouts");
    add_count(to, found->apostrophes, "apostrophe", "apostrophes");
    add_count(to, found->bare_names, "bare name", "bare names");
}

static size_t calls_left_out(const findings *found) {
    size_t count = 0;
    for (size_t i = 0; i < LEFT_OUT; i++)
        count += found->calls[i];
    return count;
}

/* Reports what isn't converted. */
static void say_left(const char *name, const findings *found) {
    for (size_t i = 0; i < LEFT_OUT; i++)
        if (found->calls[i])
            (void)say_line(DONE, "trac_terminal: %s: line %zu: %s is left out here; %s\n", name, found->first_line[i],
                           left_out[i].name, left_out[i].instead);
    if (found->has_other_quotes)
        (void)say_line(DONE, "trac_terminal: %s: typographic quotes stay, since apostrophes stand there too\n", name);
    if (found->numbered > 2 && found->numbered == found->lines)
        (void)say_line(DONE, "trac_terminal: %s: the numbers in front of the lines stay\n", name);
}

/* Reports what was converted, and what wasn't. */
static void say_changes(const char *name, const findings *found) {
    text changes = {NULL, 0, 0, 0}, shown = {NULL, 0, 0, 0};
    const char *const file = shown_in(&shown, name, strlen(name));
    add_changes(&changes, found);
    if (changes.length && !changes.is_short)
        (void)say_line(DONE, "trac_terminal: %s: made right: %.*s\n", file, (int)changes.length,
                       (const char *)changes.bytes);
    else
        (void)say_line(DONE, "trac_terminal: %s: nothing to make right\n", file);
    say_left(file, found);
    free(changes.bytes);
    free(shown.bytes);
}

int convert_file(const char *name) {
    text listing = {NULL, 0, 0, 0}, script = {NULL, 0, 0, 0};
    findings found = {0};
    int status = DONE;
    if (!read_file(&listing, name)) {
        say_not_read(name);
        return INPUT_FAILED;
    }
    convert(&script, &listing, &found);
    if (script.is_short)
        status = say_line(NO_MEMORY, "trac_terminal: no memory to convert a file\n");
    else if (!write_all(STDOUT_FILENO, script.bytes, script.length))
        status = OUTPUT_FAILED;
    else
        say_changes(name, &found);
    free(listing.bytes);
    free(script.bytes);
    return status;
}

void add_looks(text *to, const char *name, const text *listing) {
    text script = {NULL, 0, 0, 0}, changes = {NULL, 0, 0, 0};
    findings found = {0};
    convert(&script, listing, &found);
    add_changes(&changes, &found);
    const int is_in_capitals = found.capitals && !found.small;
    if (found.line_ends || found.rubouts || found.apostrophes || calls_left_out(&found) ||
        (found.bare_names && is_in_capitals)) {
        add_shown(to, name, strlen(name));
        add_text(to, ": it looks like an old listing");
        add_text(to, is_in_capitals ? ", all in capitals" : "");
        if (changes.length) {
            add_text(to, "; trac_terminal --convert would make right: ");
            add_bytes(to, changes.bytes, changes.length);
        }
        add_text(to, "\n");
    }
    free(script.bytes);
    free(changes.bytes);
}
