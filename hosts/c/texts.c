/* Texts that grow, and what they are made of. */
#include "terminal.h"

#include <fcntl.h>

/* The bytes of a read. */
enum { CHUNK = 8192 };

int reserve(text *of, size_t more) {
    const size_t least = of->length + more, twice = 2 * of->room;
    if (least <= of->room)
        return 1;
    const size_t room = least > twice ? least : twice;
    uint8_t *const bytes = (uint8_t *)realloc(of->bytes, room);
    if (!bytes) {
        of->is_short = 1;
        return 0;
    }
    of->bytes = bytes;
    of->room = room;
    return 1;
}

void add_bytes(text *to, const void *from, size_t length) {
    if (!length || !reserve(to, length))
        return;
    memcpy(to->bytes + to->length, from, length);
    to->length += length;
}

void add_text(text *to, const char *from) { add_bytes(to, from, strlen(from)); }

/* Whether this is a control character, of ASCII or beyond. */
static int is_control(const uint8_t *c) { return c[0] < ' ' || c[0] == 127 || (c[0] == 0xC2 && c[1] < 0xA0); }

/* Whether this controls the writing direction, which would show a line in another order. */
static int turns_direction(const uint8_t *c) {
    if (c[0] == 0xE2 && c[1] == 0x80)
        return c[2] == 0x8E || c[2] == 0x8F || (c[2] >= 0xAA && c[2] <= 0xAE);
    return (c[0] == 0xD8 && c[1] == 0x9C) || (c[0] == 0xE2 && c[1] == 0x81 && c[2] >= 0xA6 && c[2] <= 0xA9);
}

/* The length of the character at the front, if it can be shown as it is; 0 if there is none. */
static size_t length_shown(const uint8_t *from, size_t left) {
    uint8_t ahead[4] = {0, 0, 0, 0};
    memcpy(ahead, from, left < 4 ? left : 4);
    return is_control(ahead) || turns_direction(ahead) || ahead[0] == '\\' ? 0 : length_of_character(ahead);
}

/* How many characters at the front are ASCII and can be shown as they are. */
static size_t length_plain(const uint8_t *from, size_t left) {
    size_t length = 0;
    while (length < left && from[length] >= ' ' && from[length] < 127 && from[length] != '\\')
        length++;
    return length;
}

static void add_escape(text *to, uint8_t byte) {
    static const char plain[] = "\t\n\r\\", letters[] = "tnr\\";
    const char *const found = byte ? strchr(plain, byte) : NULL;
    char shown[8];
    if (found)
        (void)snprintf(shown, sizeof shown, "\\%c", letters[found - plain]);
    else
        (void)snprintf(shown, sizeof shown, "\\x%02x", byte);
    add_text(to, shown);
}

void add_shown(text *to, const void *from, size_t length) {
    const uint8_t *at = (const uint8_t *)from;
    while (length) {
        const size_t plain = length_plain(at, length), shown = plain ? plain : length_shown(at, length);
        const size_t passed = shown ? shown : 1;
        if (shown)
            add_bytes(to, at, shown);
        else
            add_escape(to, *at);
        at += passed;
        length -= passed;
    }
}

const char *shown_in(text *to, const void *from, size_t length) {
    to->length = 0;
    add_shown(to, from, length);
    add_bytes(to, "", 1);
    return to->is_short ? ".." : (const char *)to->bytes;
}

int take_name(text *to, const trac_form *form) {
    to->length = 0;
    const size_t length = trac_form_name(form, NULL, 0);
    if (!reserve(to, length + 1))
        return 0;
    to->length = trac_form_name(form, to->bytes, length);
    return 1;
}

int take_codes(text *to, const trac_form *form) {
    to->length = 0;
    const size_t length = trac_form_codes(form, NULL, 0);
    if (!reserve(to, (length + 1) * sizeof(uint32_t)))
        return 0;
    to->length = sizeof(uint32_t) * trac_form_codes(form, (uint32_t *)(void *)to->bytes, length);
    return 1;
}

int has_form(const trac_machine *machine, const uint8_t *name, size_t length, text *found) {
    trac_form form = TRAC_NO_FORM;
    int is_found = 0;
    while (!is_found && trac_next_form(machine, &form))
        is_found = trac_form_name(&form, NULL, 0) == length && take_name(found, &form) &&
                   (!length || memcmp(found->bytes, name, length) == 0);
    return is_found;
}

int read_file(text *to, const char *name) {
    const int file = open(name, O_RDONLY | O_CLOEXEC);
    ssize_t count = file < 0 ? -1 : 1;
    while (count > 0 && reserve(to, CHUNK)) {
        count = read_once(file, to->bytes + to->length, CHUNK);
        to->length += count > 0 ? (size_t)count : 0;
    }
    const int why = to->is_short ? ENOMEM : errno;
    if (file >= 0)
        (void)close(file);
    errno = why;
    return count == 0 && !to->is_short;
}

void say_not_read(const char *name) {
    const char *const why = strerror(errno);
    text shown = {NULL, 0, 0, 0};
    (void)say_line(DONE, "trac_terminal: can't read %s: %s\n", shown_in(&shown, name, strlen(name)), why);
    free(shown.bytes);
}

size_t head_length(const text *of) {
    if (of->length < 2 || memcmp(of->bytes, "#!", 2) != 0)
        return 0;
    const uint8_t *const feed = (const uint8_t *)memchr(of->bytes, '\n', of->length);
    return feed ? (size_t)(feed + 1 - of->bytes) : of->length;
}
