/* The parts of the program trac_terminal; trac_trace uses some of them. Written by hand, and tested. */
#ifndef TERMINAL_H
#define TERMINAL_H

#define _XOPEN_SOURCE 700
#include "trac.h"
#include "words.h"

#include <signal.h>

/* ---- Texts that grow: texts.c. */

/* Bytes. `is_short` says that memory ran out before everything was added. */
typedef struct {
    uint8_t *bytes;
    size_t length, room;
    int is_short;
} text;

/* Makes room for a number of further bytes. Gives 0 if there is no memory for it. */
int reserve(text *of, size_t more);

void add_bytes(text *to, const void *from, size_t length);

/* The same, for a text that ends with a null byte. */
void add_text(text *to, const char *from);

/* Adds bytes in readable form: control characters, those of the writing direction, backslashes and bytes that are no
 * character of UTF-8 are written as in the lines of trac_trace, as `\n` or `\x1b`. */
void add_shown(text *to, const void *from, size_t length);

/* The same as a text that ends with a null byte, which is valid as long as `to`; `..` if there is no memory. */
const char *shown_in(text *to, const void *from, size_t length);

/* The bytes of a form's name and the codes of its body. Each gives 0 if there is no memory for it. */
int take_name(text *to, const trac_form *form);
int take_codes(text *to, const trac_form *form);

/* Reads a whole file. If that fails, gives 0, with the reason in errno. */
int read_file(text *to, const char *name);

/* Reports that a file can't be read, with the reason from errno. */
void say_not_read(const char *name);

/* The length of a first line that begins with `#!`, with its line feed; 0 if there is none. */
size_t head_length(const text *of);

/* Whether a form has this name. `found` is used for the names of the forms. */
int has_form(const trac_machine *machine, const uint8_t *name, size_t length, text *found);

/* ---- What is seen of a run: calls.c. */

/* The maximum length of a function's name here. */
enum { MOST_NAME = 8 };

/* A function of the language: its name, followed by a null byte, what is true of its calls, and another function whose
 * name begins with the same letter, if there is one. */
typedef struct known_function {
    char name[MOST_NAME + 1];
    trac_function_facts facts;
    const struct known_function *next;
} known_function;

/* Function `which` of the language, from 0; a null pointer past the last, and if there is no memory for them. */
const known_function *function_at(size_t which);

/* The function with this name, in letters of either case; a null pointer if there is none. */
const known_function *function_named(const uint8_t *name, size_t length);

/* The lines, each followed by a null byte, about the calls of a string's run that did nothing. The other texts belong
 * to the call that is being examined. */
typedef struct {
    text lines;
    unsigned count;
    text function, form, found;
} watch;

void begin_watch(watch *of);

/* How many steps can be made at once such that only the first may end a call, read, print, or be the last of a string's
 * run. If `of` is no null pointer, this notes a call that the next step performs and that does nothing because no
 * function or no form has its name. */
uint64_t look_ahead(watch *of, const trac_machine *machine);

/* ---- Lines that are typed: typing.c. */

/* The result of reading: something came or the input ended; the read failed; ^C; there is no memory; a command made the
 * machine run something else. */
typedef enum { READ, READ_FAILED, READ_INTERRUPTED, READ_SHORT, READ_ELSEWHERE } reading;

/* Whether ^C was typed since this was last set to 0. */
extern volatile sig_atomic_t is_interrupted;

/* Makes the program note ^C, and edit lines if that is possible. The names of the machine's forms are completed. */
void begin_typing(const trac_machine *machine);

/* Adds a line with its line feed. At the end of the input, adds nothing and sets `*has_ended` to 1. Shows the prompt,
 * unless it is on the screen already; a null pointer means a prompt that is on the screen and is too long to be
 * given. */
reading type_line(text *to, const char *prompt, int is_shown, int *has_ended);

/* ---- Files that are replaced: replacing.c. */

/* Replaces the content of a file. The old content stays until the whole new content is on the disk: a new file is made
 * beside the old one, or beside the file that a link leads to. A file that isn't regular is written to; the file that
 * the output goes to is appended to. If this fails, gives 0, with the reason in errno, and the old content stays. A
 * file that may not be written to isn't replaced. */
int replace_file(const char *name, const text *content);

/* ---- Sessions that were saved, as scripts and as images: loading.c. */

/* Adds the first line of a saved session, and the last one, whose checksum is that of everything in the text. */
void add_first_line(text *to);
void add_last_line(text *to, size_t forms, uint8_t meta);

/* Whether these bytes are a saved session, complete or not: they contain one of its two lines, or they are the
 * beginning of the first line. */
int is_saved_session(const uint8_t *bytes, size_t length);

/* Runs the strings between these two lines, each with the given number of steps, up to the first that isn't run to its
 * end. Gives the fate of that string, or TRAC_GOING if there is none. ^C stops it if `can_stop`. */
uint32_t run_saved(trac_machine *on, uint64_t steps, const uint8_t *bytes, size_t length, int can_stop);

/* The characters of the names of those forms that a saved session defines in order to load it, and deletes in the
 * end. */
#define LOADING_NAMES "<>\""

/* The result of loading: everything was defined, or nothing. */
typedef enum {
    LOADED,
    NOT_WHOLE,
    OTHER_META,
    LACKS_CELLS,
    LACKS_STEPS,
    LACKS_MEMORY,
    LOADING_STOPPED,
    NAME_IS_USED,
    IMAGE_NOT_WHOLE,
    OTHER_VERSION,
    IMAGE_LACKS_CELLS,
    IMAGE_LACKS_MEMORY
} loading;

/* Loads a saved session into a machine over this block, each string with the given number of steps. If this fails, the
 * machine is as it was before. */
loading load_session(trac_machine *to, trac_cell *block, size_t cells, uint64_t steps, const uint8_t *bytes,
                     size_t length);

/* Whether a file of this name is to hold an image: it ends in `.image`. */
int is_image_name(const char *name);

/* Whether these bytes of a file are to be an image, be it whole or not: its name says so, or how they begin, up to a
 * version that is no character of a text. */
int is_image(const char *name, const uint8_t *bytes, size_t length);

/* Loads an image into a machine, whose forms and meta character it takes the place of. Where that can't be, the machine
 * is as it was before. */
loading load_image(trac_machine *to, const uint8_t *bytes, size_t length);

/* Says why the saved session in a file isn't loaded. */
void say_not_loaded(const char *name, loading became);

/* ---- Forms as a script, or as an image: saving.c. */

/* Saves the forms and the meta character in a file: as an image where its name ends in `.image`, else as a script. What
 * can't be saved is said. Gives 0 then. */
int save_forms(const trac_machine *machine, size_t cells, uint64_t steps, const char *name);

/* ---- What is suspicious in files: suspicions.c. */

/* The status if something is suspicious, and there is nothing worse. */
enum { SUSPICIOUS = 7 };

/* What a check uses: a number of cells, and of steps; memory for its lists and for its lines; what is printed about a
 * file; and the script that is run before each file, followed by a line end. */
typedef struct {
    size_t cells;
    uint64_t steps;
    text lists, lines, print, front;
} checker;

/* Checks a script in a block of its own, with more memory if necessary. Gives 0 if there is no memory. */
int check_script(checker *with, const text *script, trac_report *report);

/* The worse of two statuses: each is worse than 0, and each other one is worse than that of what is suspicious. */
int worse(int a, int b);

/* Runs files, each separately and without its output, and prints what is suspicious in them, each line after the file's
 * name. If `with` is no null pointer, the content of that file is run before each. Gives the worst status: 7 if
 * something is suspicious, and there is nothing worse. */
int check_files(char *const *names, size_t count, const char *with, size_t cells, uint64_t steps);

/* ---- Old listings: listing.c. */

/* Prints a file, with line ends, apostrophes, rubouts and bare names of forms converted, and reports what was converted
 * and what wasn't. Gives the status. */
int convert_file(const char *name);

/* Adds a line if a script looks like an old listing: what convert_file would convert. */
void add_looks(text *to, const char *name, const text *listing);

#endif
