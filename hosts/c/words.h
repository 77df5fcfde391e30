/* What the programs in C share: how they write, and how they read their command line, which is how the proved programs
 * do it. Written by hand, and tested. */
#ifndef WORDS_H
#define WORDS_H

#include <errno.h>
#include <inttypes.h>
#include <stdarg.h>
#include <stdio.h>
#include <stdlib.h>
#include <string.h>
#include <unistd.h>

/* The exit statuses. What the engine calls halted and input ended are both 0. */
enum { DONE, WORKSPACE, USAGE, STEPS, INPUT_FAILED, OUTPUT_FAILED, NO_MEMORY };

/* Writes all bytes. Repeats an interrupted call. Gives 0 if a write failed. */
static inline int write_all(int device, const void *from, size_t length) {
    const uint8_t *next = (const uint8_t *)from;
    while (length) {
        const ssize_t count = write(device, next, length);
        if (count < 0 && errno == EINTR)
            continue;
        if (count <= 0)
            return 0;
        next += count;
        length -= (size_t)count;
    }
    return 1;
}

/* Reads once. Repeats an interrupted call. Gives 0 at the end, and -1 if the read failed. */
static inline ssize_t read_once(int device, void *to, size_t most) {
    ssize_t count;
    do
        count = read(device, to, most);
    while (count < 0 && errno == EINTR);
    return count;
}

/* Prints a line on standard error in one write, and gives the status. If there is no memory for all of it, its first
 * 199 characters are printed. */
static inline int say_line(int status, const char *format, ...) {
    char few[200], *line = few;
    va_list values, again;
    va_start(values, format);
    va_copy(again, values);
    const int length = vsnprintf(few, sizeof few, format, values);
    if (length >= (int)sizeof few && (line = (char *)malloc((size_t)length + 1)) != NULL)
        (void)vsnprintf(line, (size_t)length + 1, format, again);
    line = line ? line : few;
    va_end(again);
    va_end(values);
    (void)write_all(STDERR_FILENO, line, strlen(line));
    if (line != few)
        free(line);
    return status;
}

/* The length of the character of UTF-8 at the front; 0 if there is none. */
static inline size_t length_of_character(const uint8_t *c) {
    const size_t length = c[0] < 0x80 ? 1 : c[0] < 0xE0 ? 2 : c[0] < 0xF0 ? 3 : 4;
    const uint8_t least = c[0] == 0xE0 ? 0xA0 : c[0] == 0xF0 ? 0x90 : 0x80;
    const uint8_t most = c[0] == 0xED ? 0x9F : c[0] == 0xF4 ? 0x8F : 0xBF;
    if (length > 1 && (c[0] < 0xC2 || c[0] > 0xF4 || c[1] < least || c[1] > most))
        return 0;
    for (size_t i = 2; i < length; i++)
        if ((c[i] & 0xC0) != 0x80)
            return 0;
    return length;
}

static inline int is_utf8(const char *word) {
    size_t length = 1;
    for (; length && *word; word += length)
        length = length_of_character((const uint8_t *)word);
    return length != 0;
}

/* What an option takes: nothing, a number that is read as a signed or as an unsigned one, or a text. */
typedef enum { TAKES_NOTHING, TAKES_SIGNED, TAKES_UNSIGNED, TAKES_TEXT } option_kind;

/* An option, and the value that was given for it. If no number was given, it keeps its value; an option without a value
 * has the number 1 if it was given. */
typedef struct {
    const char *name; /* with its two hyphens */
    char letter;      /* after one hyphen; or 0 */
    option_kind kind;
    const char *value;    /* the name of its value; or null */
    uint64_t least, most; /* the numbers that it takes */
    const char *shown;    /* a text that is printed before the program ends; or null */
    uint64_t number;
    const char *text;
    int is_given;
} option;

/* A program's options, up to the one without a name. An option whose value is the next word waits until that word is
 * read. The files, if the program takes files, are put at the front of its words. */
typedef struct {
    const char *usage;
    option *options;
    int takes_files;
    char **files;
    size_t file_count;
    option *waiting;
    const char *value;
} command;

#define HINT "\n\nFor more information, try '--help'.\n"

static inline int refuse_word(const command *of, const char *word) {
    return say_line(USAGE, "error: unexpected argument '%s' found\n\nUsage: %s" HINT, word, of->usage);
}

/* The option with this name, or with this letter if that isn't 0. A null pointer if there is none. */
static inline option *find_option(const command *of, const char *name, char letter) {
    option *at = of->options;
    while (at->name && (letter ? at->letter != letter : strcmp(at->name, name) != 0))
        at++;
    return at->name ? at : NULL;
}

/* What is wrong with a number; a null pointer, and the number, if nothing is wrong. */
static inline const char *fault_of_number(const char *word, option *to) {
    static char range[80];
    const int is_negative = to->kind == TAKES_SIGNED && *word == '-';
    const uint64_t limit = to->kind == TAKES_SIGNED ? (uint64_t)INT64_MAX + (uint64_t)is_negative : UINT64_MAX;
    const char *digit = word + (is_negative || *word == '+');
    uint64_t value = 0;
    if (!*digit)
        return *word ? "invalid digit found in string" : "cannot parse integer from empty string";
    for (; *digit; digit++) {
        const uint64_t next = (uint64_t)(uint8_t)*digit - '0';
        if (next > 9)
            return "invalid digit found in string";
        if (value > (limit - next) / 10)
            return is_negative ? "number too small to fit in target type" : "number too large to fit in target type";
        value = value * 10 + next;
    }
    if ((!is_negative || !value) && value >= to->least && value <= to->most) {
        to->number = value;
        return NULL;
    }
    (void)snprintf(range, sizeof range, "%s%" PRIu64 " is not in %" PRIu64 "..=%" PRIu64,
                   is_negative && value ? "-" : "", value, to->least, to->most);
    return range;
}

/* Handles the option that waits. Gives -1, or the status with which the program ends, like the functions below. */
static inline int take_waiting(command *of) {
    option *const to = of->waiting;
    const char *fault = NULL;
    if (!to)
        return -1;
    of->waiting = NULL;
    if (!of->value)
        return say_line(USAGE, "error: a value is required for '%s %s' but none was supplied" HINT, to->name,
                        to->value);
    if (to->is_given)
        return say_line(USAGE, "error: the argument '%s %s' cannot be used multiple times\n\nUsage: %s" HINT, to->name,
                        to->value, of->usage);
    to->is_given = 1;
    if (to->kind == TAKES_TEXT)
        to->text = of->value;
    else
        fault = fault_of_number(of->value, to);
    return fault ? say_line(USAGE, "error: invalid value '%s' for '%s %s': %s" HINT, of->value, to->name, to->value,
                            fault)
                 : -1;
}

/* Handles an option, and the text after its equals sign. */
static inline int take_option(command *of, option *to, const char *value) {
    if (to->kind == TAKES_NOTHING && value)
        return say_line(USAGE, "error: unexpected value '%s' for '%s' found; no more were expected\n\nUsage: %s" HINT,
                        value, to->name, of->usage);
    const int status = take_waiting(of);
    if (status >= 0)
        return status;
    if (to->shown)
        return write_all(STDOUT_FILENO, to->shown, strlen(to->shown)) ? DONE : OUTPUT_FAILED;
    if (to->kind == TAKES_NOTHING && to->number)
        return say_line(USAGE, "error: the argument '%s' cannot be used multiple times\n\nUsage: %s" HINT, to->name,
                        of->usage);
    to->number = to->kind == TAKES_NOTHING ? 1 : to->number;
    of->waiting = to->kind == TAKES_NOTHING ? NULL : to;
    of->value = value;
    return value ? take_waiting(of) : -1;
}

/* Handles the letters of a word after its one hyphen. */
static inline int take_letters(command *of, const char *letter) {
    int status = -1;
    while (*letter && status < 0) {
        const size_t length = length_of_character((const uint8_t *)letter);
        option *const found = find_option(of, "", *letter);
        char word[8] = "-";
        memcpy(word + 1, letter, length);
        status = found ? take_option(of, found, NULL) : refuse_word(of, word);
        letter += length;
    }
    return status;
}

/* Handles a word that is no option: the value of the option that waits, or a file. */
static inline int take_plain(command *of, char *word) {
    if (of->waiting && !of->value) {
        of->value = word;
        return -1;
    }
    if (!of->takes_files)
        return refuse_word(of, word);
    of->files[of->file_count++] = word;
    return take_waiting(of);
}

/* Handles a word. If it begins with two hyphens and is unknown, the part before an equals sign is named. */
static inline int take_word(command *of, char *word) {
    char *const end = word + strcspn(word, "=");
    const char *const value = *end ? end + 1 : NULL;
    if (word[0] != '-' || !word[1])
        return take_plain(of, word);
    if (word[1] != '-')
        return take_letters(of, word + 1);
    *end = 0;
    option *const found = find_option(of, word, 0);
    return found ? take_option(of, found, value) : refuse_word(of, word);
}

static inline int are_utf8(char **words) {
    while (*words && is_utf8(*words))
        words++;
    return !*words;
}

/* Handles all words: after `--` there are only files. */
static inline int take_words(command *of, char **words) {
    int status = -1, are_files = 0;
    of->files = words;
    if (!are_utf8(words))
        return say_line(USAGE, "error: the command line isn't UTF-8\n");
    for (; *words && status < 0; words++) {
        if (!are_files && !strcmp(*words, "--"))
            are_files = 1;
        else if (are_files && !of->takes_files)
            status = refuse_word(of, *words);
        else if (are_files)
            of->files[of->file_count++] = *words;
        else
            status = take_word(of, *words);
    }
    return status < 0 ? take_waiting(of) : status;
}

#endif
