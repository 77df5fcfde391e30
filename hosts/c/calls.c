/* What is seen of the calls of a run: which calls do nothing, because they name no function or no form. */
#include "terminal.h"

/* The steps that are made at once, between two tests for ^C, and the maximum number of lines that are printed about a
 * string. */
enum { AT_ONCE = 4096, MOST_LINES = 8 };

static uint8_t small(uint8_t letter) { return letter >= 'A' && letter <= 'Z' ? (uint8_t)(letter + 32) : letter; }

/* For each letter, a function whose name begins with it. */
static const known_function *by_letter[256];

/* Gets what the engine knows about a function. */
static void learn(known_function *of, size_t which) {
    const size_t length = trac_function_text(which, TRAC_TEXT_NAME, of->name, MOST_NAME);
    of->name[length < MOST_NAME ? length : MOST_NAME] = 0;
    (void)trac_function(which, &of->facts);
    of->next = by_letter[(uint8_t)of->name[0]];
    by_letter[(uint8_t)of->name[0]] = of;
}

/* The functions; none if there is no memory for them. The engine's answers are fetched once, because a run has many
 * calls. */
static const known_function *functions(size_t *count) {
    static known_function *known;
    static size_t learned;
    const size_t all = known ? learned : trac_function_count();
    if (!known && (known = malloc(all * sizeof *known)))
        while (learned < all)
            learn(&known[learned], learned), learned++;
    *count = learned;
    return known;
}

const known_function *function_at(size_t which) {
    size_t count;
    const known_function *const known = functions(&count);
    return which < count ? &known[which] : NULL;
}

/* Whether a name is this one, which is in letters of lower case. */
static int is_name(const uint8_t *name, size_t length, const char *of) {
    size_t i = 0;
    while (i < length && of[i] && small(name[i]) == (uint8_t)of[i])
        i++;
    return i == length && !of[i];
}

const known_function *function_named(const uint8_t *name, size_t length) {
    size_t count;
    const known_function *of = functions(&count) && length ? by_letter[small(name[0])] : NULL;
    while (of && !is_name(name, length, of->name))
        of = of->next;
    return of;
}

void begin_watch(watch *of) { of->lines.length = of->count = 0; }

/* Whether the last line already occurs before it. */
static int is_said(const text *lines, size_t last) {
    const char *const added = (const char *)lines->bytes + last;
    const char *at = (const char *)lines->bytes;
    while (at < added && strcmp(at, added) != 0)
        at += strlen(at) + 1;
    return at < added;
}

/* Notes a line once, and that there are more lines if there are many. */
static void note(watch *of, const char *what, const text *name) {
    const size_t before = of->lines.length;
    if (of->count > MOST_LINES)
        return;
    add_text(&of->lines, of->count == MOST_LINES ? "more calls did nothing" : what);
    if (of->count < MOST_LINES)
        add_shown(&of->lines, name->bytes, name->length);
    add_bytes(&of->lines, "", 1);
    if (of->lines.is_short || is_said(&of->lines, before))
        of->lines.length = before;
    else
        of->count++;
}

/* Copies an argument of the call that the next step performs. Gives 0 if there is no memory for it. */
static int take_argument(text *to, const trac_machine *machine, size_t which) {
    const size_t length = trac_argument(machine, which, NULL, 0);
    to->length = 0;
    if (!reserve(to, length + 1))
        return 0;
    to->length = trac_argument(machine, which, to->bytes, length);
    return 1;
}

/* Looks at the call that the next step performs. */
static void look_at_call(watch *of, const trac_machine *machine) {
    if (!function_at(0) || !take_argument(&of->function, machine, 0))
        return;
    const known_function *const function = function_named(of->function.bytes, of->function.length);
    if (!function) {
        if (of->function.length)
            note(of, "no function ", &of->function);
    } else if (function->facts.needs_form && take_argument(&of->form, machine, 1) &&
               !has_form(machine, of->form.bytes, of->form.length, &of->found) && !of->found.is_short) {
        note(of, of->form.length ? "no form " : "no form of the null name", &of->form);
    }
}

uint64_t look_ahead(watch *of, const trac_machine *machine) {
    const uint64_t steps = trac_steps_to_call(machine, AT_ONCE);
    if (of && trac_rule(machine) == TRAC_RULE_END_OF_CALL)
        look_at_call(of, machine);
    return steps ? steps : 1;
}
