/* Images of forms, which both engines of engines.h save and load: whole ones, and changed ones with a mended
 * checksum. */
#include "covering.h"

enum { HEAD = 10, FORM_HEAD = 16, SUM = 4, SHORT = 9, MOST_OF_TWINS = 1500 };

/* An image is changed here. */
static uint8_t image[LINES];
static size_t length;

static uint32_t number_at(size_t at) {
    return image[at] | (uint32_t)image[at + 1] << 8 | (uint32_t)image[at + 2] << 16 | (uint32_t)image[at + 3] << 24;
}

static void put_number(size_t at, uint32_t number) {
    for (size_t i = 0; i < 4; i++)
        image[at + i] = (uint8_t)(number >> 8 * i);
}

/* Makes the last four bytes the checksum, which is Adler-32. */
static void mend_checksum(void) {
    uint32_t low = 1, high = 0;
    for (size_t i = 0; i + SUM < length; i++) {
        low = (low + image[i]) % 65521u;
        high = (high + low) % 65521u;
    }
    if (length >= SUM)
        put_number(length - SUM, high << 16 | low);
}

/* The bytes of a form in an image that is whole: its numbers, its name, its characters and its gaps. */
static size_t form_length(size_t at) {
    return FORM_HEAD + number_at(at) + number_at(at + 8) + 8 * (size_t)(number_at(at + 4) - number_at(at + 8));
}

/* Where a form begins; behind the last one if it has so many. */
static size_t form_start(uint32_t which) {
    size_t at = HEAD;
    while (which-- > 0)
        at += form_length(at);
    return at;
}

/* Puts a copy of the form that begins here behind the last one. Gives where the copy begins. */
static size_t copy_form(size_t from) {
    const size_t size = form_length(from), end = length - SUM;
    memmove(image + end, image + from, size);
    length += size;
    put_number(6, number_at(6) + 1);
    return end;
}

/* Doubles a form, now and then with another name of the same length. */
static void double_form(uint32_t forms) {
    const size_t from = form_start(chosen(forms));
    if (length + form_length(from) > LINES)
        return;
    const size_t end = copy_form(from);
    if (number_at(end) > 0 && chosen(3))
        image[end + FORM_HEAD + chosen(number_at(end))] ^= 1;
}

/* Changes a number of a form, or one of its gaps. */
static void change_number(uint32_t forms) {
    static const uint32_t numbers[] = {0, 1, 16777216, 16777217, 0x7FFFFFFF, 0x80000000, 0xFFFFFFF0, 0xFFFFFFFF};
    const uint32_t which = chosen(forms);
    const size_t from = form_start(which), size = form_length(from);
    const size_t at = size >= FORM_HEAD + 8 && chosen(2) ? from + size - 4 * (1 + chosen(2)) : from + 4 * chosen(4);
    put_number(at, chosen(2) ? numbers[chosen(8)] : number_at(at) + chosen(5) - 2);
}

static void change_image(void) {
    const uint32_t forms = number_at(6), place = chosen((uint32_t)length);
    switch (chosen(7)) {
    case 0:
    case 1:
        if (forms > 0)
            double_form(forms);
        break;
    case 2:
    case 3:
        if (forms > 0)
            change_number(forms);
        break;
    case 4:
        length = chosen(2) ? place : chosen(40);
        break;
    case 5: {
        const uint8_t bit = (uint8_t)(1u << chosen(8));
        image[chosen(2) ? chosen(HEAD) : place] ^= bit;
        break;
    }
    default:
        image[place] = chosen(2) ? 0 : 255;
    }
    if (chosen(5))
        mend_checksum();
}

static void load_both(trac_machine *one, trac_machine *other) {
    must(trac_load(one, image, length) == c_trac_load(other, image, length), "trac_load");
    must(trac_form_count(one) == c_trac_form_count(other), "the forms of an image");
}

/* Where the form begins that has the longest name. */
static size_t longest_name(void) {
    size_t longest = HEAD, at = HEAD;
    for (uint32_t left = number_at(6); left > 0; left--) {
        longest = number_at(at) > number_at(longest) ? at : longest;
        at += form_length(at);
    }
    return longest;
}

/* Loads images in which a form with a long name stands twice, with each character of the second name changed once. */
static void load_twins(const trac_machine *of_proved) {
    if (number_at(6) == 0 || length > MOST_OF_TWINS || number_at(longest_name()) < SHORT)
        return;
    const size_t from = longest_name(), name = number_at(from);
    for (size_t changed = 0; changed <= name; changed++) {
        length = trac_save(of_proved, image, LINES);
        const size_t end = copy_form(from);
        if (changed < name)
            image[end + FORM_HEAD + changed] ^= 1;
        mend_checksum();
        must(trac_open(&proved.machine, proved.block, MOST_CELLS, 9) == 0 &&
                 c_trac_open(&in_c.machine, in_c.block, MOST_CELLS, 9) == 0, "trac_open");
        load_both(&proved.machine, &in_c.machine);
    }
}

void save_both(trac_machine *of_proved, trac_machine *of_c) {
    const size_t room = chosen(2) ? chosen(60) : LINES, cells = chosen(3) ? MOST_CELLS : chosen(600);
    memset(lines, 0, sizeof lines);
    length = trac_save(of_proved, lines[0], room);
    must(c_trac_save(of_c, lines[1], room) == length, "the length of an image");
    must(memcmp(lines[0], lines[1], sizeof lines[0]) == 0, "an image");
    if (length > LINES)
        return;
    must(trac_save(of_proved, image, LINES) == length, "the length of an image that doesn't fit");
    load_twins(of_proved);
    length = trac_save(of_proved, image, LINES);
    for (int i = 0; i < 3; i++) {
        if (i > 0)
            change_image();
        must(trac_open(&proved.machine, proved.block, cells, 9) == 0 &&
                 c_trac_open(&in_c.machine, in_c.block, cells, 9) == 0, "trac_open");
        load_both(&proved.machine, &in_c.machine);
        if (chosen(3) == 0)
            load_both(of_proved, of_c);
        length = trac_save(of_proved, image, LINES);
        if (length > LINES)
            return;
    }
}
