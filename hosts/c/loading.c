/* Sessions that were saved, as scripts and as images: what marks them, whether they are whole, and how they are loaded,
 * all or nothing. Of an image the engine tells whether it is whole.
 *
 * The first line of a saved script and its last one are calls of no function. The last tells how many forms there are
 * and a checksum of all other bytes of the file, as 16 digits: FNV-1a with 64 bits, which any single byte changes. */
#include "terminal.h"

/* The beginnings of the first and of the last line. */
static const char FIRST[] = "#(,(Session saved by trac_terminal ";
static const char LAST[] = "#(,(End of the session saved by trac_terminal, ";
enum { FIRST_LENGTH = sizeof FIRST - 1, LAST_LENGTH = sizeof LAST - 1 };

/* The number of digits of the checksum, and of bytes after them: `))`, a meta character, a line feed. The steps that
 * are made at once, between two tests for ^C. */
enum { DIGITS = 16, BEHIND = 4, AT_ONCE = 4096 };

/* ---- The first line and the last one. */

static uint64_t add_to_sum(uint64_t sum, const uint8_t *bytes, size_t length) {
    for (size_t i = 0; i < length; i++)
        sum = (sum ^ bytes[i]) * UINT64_C(0x100000001b3);
    return sum;
}

/* Writes the checksum of a saved session, of all its bytes except the digits of the checksum. */
static void write_sum(char digits[DIGITS + 1], const uint8_t *bytes, size_t length) {
    uint64_t sum = add_to_sum(UINT64_C(0xcbf29ce484222325), bytes, length - BEHIND - DIGITS);
    sum = add_to_sum(sum, bytes + length - BEHIND, BEHIND);
    (void)snprintf(digits, DIGITS + 1, "%016" PRIx64, sum);
}

void add_first_line(text *to) {
    add_text(to, FIRST);
    add_text(to, TRAC_VERSION "))'\n");
}

void add_last_line(text *to, size_t forms, uint8_t meta) {
    char line[80];
    (void)snprintf(line, sizeof line, "%zu form%s, checksum %0*d))", forms, forms == 1 ? "" : "s", DIGITS, 0);
    add_text(to, LAST);
    add_text(to, line);
    add_bytes(to, &meta, 1);
    add_text(to, "\n");
    if (to->is_short)
        return;
    write_sum(line, to->bytes, to->length);
    memcpy(to->bytes + to->length - BEHIND - DIGITS, line, DIGITS);
}

static int begins_with(const uint8_t *bytes, size_t length, const char *mark, size_t mark_length) {
    return length >= mark_length && memcmp(bytes, mark, mark_length) == 0;
}

int is_saved_session(const uint8_t *bytes, size_t length) {
    const uint8_t *at = bytes, *const end = bytes + length;
    if (length < FIRST_LENGTH)
        return length && memcmp(bytes, FIRST, length) == 0;
    while (at < end && !begins_with(at, (size_t)(end - at), FIRST, FIRST_LENGTH) &&
           !begins_with(at, (size_t)(end - at), LAST, LAST_LENGTH)) {
        const uint8_t *const feed = (const uint8_t *)memchr(at, '\n', (size_t)(end - at));
        at = feed ? feed + 1 : end;
    }
    return at < end;
}

/* Whether a saved session is unchanged since it was saved. */
static int is_whole(const uint8_t *bytes, size_t length) {
    char digits[DIGITS + 1];
    if (length < FIRST_LENGTH + LAST_LENGTH + DIGITS + BEHIND || !begins_with(bytes, length, FIRST, FIRST_LENGTH))
        return 0;
    write_sum(digits, bytes, length);
    return memcmp(bytes + length - BEHIND - DIGITS, digits, DIGITS) == 0;
}

/* Removes the first and the last line of a saved session, with the line feed before the last. */
static void take_lines_away(const uint8_t **bytes, size_t *length) {
    const uint8_t *const feed = (const uint8_t *)memchr(*bytes, '\n', *length);
    const size_t first = feed ? (size_t)(feed + 1 - *bytes) : *length;
    size_t last = *length - 1;
    while (last > first && (*bytes)[last - 1] != '\n')
        last--;
    *bytes += first;
    *length = last > first ? last - first - 1 : 0;
}

/* ---- Loading. */

/* Runs the string at the front of some bytes, with the given number of steps, and gives its fate. Says how many bytes
 * are left. */
static uint32_t run_front(trac_machine *on, uint64_t steps, const uint8_t *bytes, size_t *length, int can_stop) {
    trac_report report;
    const uint8_t *const end = bytes + *length;
    (void)trac_again(on, steps);
    do {
        const uint64_t most = trac_steps_to_call(on, AT_ONCE);
        report = trac_turn(on, end - *length, *length, 1, NULL, 0, most ? most : 1);
        *length -= report.consumed;
    } while (report.fate == TRAC_GOING && trac_rule(on) != TRAC_RULE_IDLING && !(can_stop && is_interrupted));
    return report.fate;
}

uint32_t run_saved(trac_machine *on, uint64_t steps, const uint8_t *bytes, size_t length, int can_stop) {
    const uint8_t *const end = bytes + length;
    uint32_t fate = TRAC_GOING;
    while (length && fate == TRAC_GOING && !(can_stop && is_interrupted))
        fate = run_front(on, steps, end - length, &length, can_stop);
    return fate;
}

void say_not_loaded(const char *name, loading became) {
    static const char *const why[] = {
        "",
        "the saved session is cut or damaged",
        "a saved session is loaded where the meta character is the apostrophe",
        "the saved session needs more cells",
        "the saved session needs more steps for a string",
        "there is no memory to load the saved session",
        "loading was stopped",
        "a form has a name that loading it uses",
        "the image is cut or damaged",
        "the image is of another version",
        "the image needs more cells",
        "there is no memory to load the image"};
    text shown = {NULL, 0, 0, 0};
    (void)say_line(DONE, "trac_terminal: %s: %s; nothing of it is defined\n", shown_in(&shown, name, strlen(name)),
                   why[became]);
    free(shown.bytes);
}

/* ---- Images. */

/* How an image begins, behind which stands its version. */
static const char IMAGE[] = "TRAC";
enum { MARK_LENGTH = sizeof IMAGE - 1, VERSION = 1, BEFORE_TEXT = ' ' };

int is_image_name(const char *name) {
    static const char ending[] = ".image";
    const size_t length = strlen(name), ending_length = sizeof ending - 1;
    return length >= ending_length && strcmp(name + length - ending_length, ending) == 0;
}

int is_image(const char *name, const uint8_t *bytes, size_t length) {
    if (is_image_name(name))
        return 1;
    if (length <= MARK_LENGTH)
        return length && memcmp(bytes, IMAGE, length) == 0;
    return begins_with(bytes, length, IMAGE, MARK_LENGTH) && bytes[MARK_LENGTH] < BEFORE_TEXT &&
           !strchr("\t\n\r", bytes[MARK_LENGTH]);
}

/* Why an image is refused. What is whole is taken into as many cells as it has bytes, since no cell of a form takes
 * less than one byte. */
static loading why_refused(const uint8_t *bytes, size_t length) {
    const size_t cells = length < TRAC_MOST_CELLS ? length : TRAC_MOST_CELLS;
    trac_machine trial = TRAC_NO_MACHINE;
    if (begins_with(bytes, length, IMAGE, MARK_LENGTH) && length > MARK_LENGTH && bytes[MARK_LENGTH] != VERSION)
        return OTHER_VERSION;
    trac_cell *const block = (trac_cell *)calloc(cells + 1, sizeof *block);
    if (!block || trac_open_zeroed(&trial, block, cells, 0)) {
        free(block);
        return IMAGE_LACKS_MEMORY;
    }
    const uint32_t refused = trac_load(&trial, bytes, length);
    free(block);
    return refused ? IMAGE_NOT_WHOLE : IMAGE_LACKS_CELLS;
}

loading load_image(trac_machine *to, const uint8_t *bytes, size_t length) {
    return trac_load(to, bytes, length) ? why_refused(bytes, length) : LOADED;
}

/* ---- Scripts. */

/* Lists the names of forms that loading may use and delete, each ended by a null byte: such as are made of those
 * characters alone. */
static void list_endangered(const trac_machine *machine, text *names) {
    trac_form form = TRAC_NO_FORM;
    text name = {NULL, 0, 0, 0};
    while (trac_next_form(machine, &form)) {
        const size_t length = take_name(&name, &form) ? name.length : 0;
        add_bytes(&name, "", 1);
        if (length && !name.is_short && strspn((const char *)name.bytes, LOADING_NAMES) == length)
            add_bytes(names, name.bytes, length + 1);
    }
    names->is_short |= name.is_short;
    free(name.bytes);
}

/* Whether one of these names is no longer the name of a form. */
static int is_one_lost(const trac_machine *machine, text *names) {
    text found = {NULL, 0, 0, 0};
    size_t at = 0, length = 0;
    while (at < names->length && (length = strlen((const char *)names->bytes + at)) > 0 &&
           has_form(machine, names->bytes + at, length, &found))
        at += length + 1;
    names->is_short |= found.is_short;
    free(found.bytes);
    return at < names->length;
}

/* The result of loading, from the result of a run of the strings of a saved session. */
static loading loading_of(uint32_t fate) {
    if (is_interrupted)
        return LOADING_STOPPED;
    if (fate == TRAC_WORKSPACE)
        return LACKS_CELLS;
    if (fate == TRAC_STEPS)
        return LACKS_STEPS;
    return fate == TRAC_GOING ? LOADED : NOT_WHOLE;
}

loading load_session(trac_machine *to, trac_cell *block, size_t cells, uint64_t steps, const uint8_t *bytes,
                     size_t length) {
    const trac_machine before = *to;
    text names = {NULL, 0, 0, 0};
    if (!is_whole(bytes, length))
        return NOT_WHOLE;
    if (trac_meta(to) != '\'')
        return OTHER_META;
    trac_cell *const aside = (trac_cell *)malloc(cells * sizeof *aside);
    if (!aside)
        return LACKS_MEMORY;
    memcpy(aside, block, cells * sizeof *aside);
    take_lines_away(&bytes, &length);
    list_endangered(to, &names);
    loading became = loading_of(run_saved(to, steps, bytes, length, 1));
    if (became == LOADED && is_one_lost(to, &names))
        became = NAME_IS_USED;
    if (names.is_short)
        became = LACKS_MEMORY;
    free(names.bytes);
    if (became != LOADED) {
        memcpy(block, aside, cells * sizeof *aside);
        *to = before;
    }
    free(aside);
    return became;
}
