/* TRAC T-64 in a block of memory that the caller lends: for C11 and C++17.
 *
 * Two libraries have these functions, and either can take the other's place: libtrac.a, whose engine is proved, and
 * trac_engine.c, which is C generated from that engine. trac_kind() says which one it is. The engine meets its
 * contracts if its callers meet the conditions below. The functions of this header wrap the engine in C. They are
 * tested, not proved, and refuse pointers and machines that can't be used.
 *
 * Conditions that no function can test:
 * - a pointer is good for as many items as are said, and what is lent for writing overlaps nothing else that is lent;
 * - while a machine is used, its trac_machine and its block are touched by its calls alone. Both may be copied or moved
 *   between two calls: see trac_moved;
 * - one thread at a time uses a machine. Different machines may be used by different threads at once: the library
 *   has no data of its own that changes, and every function can be called from within a signal handler that
 *   interrupted none of the same machine.
 *
 * The library takes no memory and calls memcpy, memmove and memset alone, beside what the compiler calls for numbers
 * of 64 and 128 bits. A call needs 8 KiB of stack at the most, trac_check and trac_trace_step 16 KiB, beside what
 * functions of yours need that it calls; trac_engine.c some 2 KiB on a Cortex-M3. On machines of 32 bits size_t has
 * 32 bits, and so have the lengths here; steps have 64 everywhere. trac_abi() says whether a program was compiled
 * against the library's own header. */
#ifndef TRAC_H
#define TRAC_H

#include <stddef.h>
#include <stdint.h>

#ifdef __cplusplus
extern "C" {
#endif

#define TRAC_VERSION "0.10.0"
/* 1,000,000 for each major version, 1,000 for each minor one, and 1 for each patch. */
#define TRAC_VERSION_NUMBER 10000u

/* The most cells that a block may have. */
#define TRAC_MOST_CELLS 16777216

/* A cell of a block. A character of a text takes one, and so does a mark, a gap and each of a form's three heads. */
typedef struct {
    uint32_t words[2];
} trac_cell;

/* A machine: what is kept between two turns, beside its block. Its words are the library's own. Before it is opened
 * for the first time give it TRAC_NO_MACHINE, words that are 0: what no trac_open has filled is refused everywhere. */
typedef struct {
    uint64_t words[14];
} trac_machine;

/* A place in the list of a machine's forms. trac_next_form sets it; TRAC_NO_FORM is the place before the first. It
 * holds the address of the machine and two numbers, and nothing of the form. */
typedef struct {
    uint64_t words[4];
} trac_form;

/* What is shown of a run, step by step, and how far it has come. A new one is TRAC_NO_TRACE, all numbers 0; then the
 * first six say what is shown. The others are told by trac_trace_step, or are the library's own. */
typedef struct {
    uint64_t from;    /* the first step that is shown, from 1 */
    uint64_t to;      /* the last step that is shown */
    uint32_t width;   /* the most bytes of a text in a line, and cells of a string, 0 for all */
    uint32_t columns; /* the most columns of a line, 0 for any number */
    uint32_t calls;   /* not 0: in the place of the steps the calls that are performed */
    uint32_t forms;   /* not 0: in the place of the steps the forms that change, and at the end all of them */
    uint64_t shown;   /* told: the last step of which something was shown; 0 before there is one */
    uint64_t lines;   /* told: the bytes of all lines of the last call; more than there was room for are lost */
    uint32_t peak;    /* told: the greatest need of a step so far, in cells */
    uint32_t begun;   /* this and the rest are the library's own */
    uint64_t depth, line, column, string_line, string_column;
} trac_trace;

/* Values: each begins a variable, and can be assigned. */
#ifdef __cplusplus
#define TRAC_NO_MACHINE trac_machine()
#define TRAC_NO_FORM trac_form()
#define TRAC_NO_TRACE trac_trace()
#else
#define TRAC_NO_MACHINE ((trac_machine){{0}})
#define TRAC_NO_FORM ((trac_form){{0}})
#define TRAC_NO_TRACE ((trac_trace){0, 0, 0, 0, 0, 0, 0, 0, 0, 0, 0, 0, 0, 0, 0})
#endif

/* How a run or a turn ended: trac_report.fate. */
#define TRAC_GOING 0u         /* of a turn: all its steps were done, and the run goes on */
#define TRAC_HALTED 1u        /* the script called `hl` */
#define TRAC_INPUT_ENDED 2u   /* the script asked for more input at its end */
#define TRAC_WORKSPACE 3u     /* the next step needs more cells than there are; it wasn't done */
#define TRAC_STEPS 4u         /* the allowance is used up */
#define TRAC_INPUT_FAILED 5u  /* of trac_trace_step and trac_run_with: the step reads past an input that fails there */
#define TRAC_OUTPUT_FAILED 6u /* of trac_run: the output is full, and holds all that was printed up to there; of
                               * trac_run_with: a write failed */
#define TRAC_WANTS_INPUT 7u   /* of a turn: the next step reads more than there is; it wasn't done */
#define TRAC_WANTS_OUTPUT 8u  /* of a turn: the next step prints more than there is room for; it wasn't done */
#define TRAC_REFUSED 9u       /* too many cells, a pointer that can't be used, or no opened machine: nothing done */
#define TRAC_NO_MEMORY 10u    /* of trac_check and trac_trace_step: the memory is too small for their lists; of
                               * trac_run_with: the buffer is too small for a string */
#define TRAC_WANTS_ANSWER 11u /* of a turn: the next step performs a call of no function, and trac_stop_at_unknown asked
                               * to stop there; it wasn't done */

/* Where a value goes that the host gives to a call: trac_answer. */
#define TRAC_BY_MODE 0u   /* it is scanned again after `#(`, and not after `##(`, as the language has it */
#define TRAC_SCANNED 1u   /* it is scanned again, whatever the call */
#define TRAC_UNSCANNED 2u /* it is never scanned again, whatever the call: for data from outside */

/* What a trac_reader or a trac_writer gives where it fails. */
#define TRAC_FAILED ((size_t)-1)

/* What is behind the input of trac_trace_step. */
#define TRAC_INPUT_GOES_ON 0
#define TRAC_INPUT_ENDS 1
#define TRAC_INPUT_FAILS 2

/* What stands in a string beside bytes, which are 0 to 255: the codes of trac_neutral. */
#define TRAC_ACTIVE_CALL 256u  /* the mark of an active call */
#define TRAC_NEUTRAL_CALL 257u /* the mark of a neutral call */
#define TRAC_COMMA_MARK 258u   /* a comma mark: an argument begins */
/* The code of the gap with ordinal 1 in trac_form_codes; that with ordinal N has N - 1 more. */
#define TRAC_FIRST_GAP 256u

/* The rule that the next step follows: trac_rule. */
#define TRAC_RULE_IDLING 0u
#define TRAC_RULE_LAYOUT 1u
#define TRAC_RULE_PROTECTION 2u
#define TRAC_RULE_ARGUMENT 3u
#define TRAC_RULE_ACTIVE_CALL 4u
#define TRAC_RULE_NEUTRAL_CALL 5u
#define TRAC_RULE_NUMBER_SIGN 6u
#define TRAC_RULE_END_OF_CALL 7u
#define TRAC_RULE_CHARACTER 8u

/* The parts of a block: trac_part. */
#define TRAC_PART_STORE 0u   /* the store of forms */
#define TRAC_PART_NEUTRAL 1u /* the neutral string */
#define TRAC_PART_FREE 2u
#define TRAC_PART_ACTIVE 3u /* the active string */

/* What the next step reads: trac_awaits. */
#define TRAC_AWAITS_NOTHING 0u
#define TRAC_AWAITS_TEXT 1u /* a string, up to the meta character */
#define TRAC_AWAITS_BYTE 2u

/* How many arguments a function uses, where it uses all that a call has: trac_function_facts.uses. */
#define TRAC_ALL_ARGUMENTS UINT32_MAX

/* The forms that a call of a function concerns: trac_function_facts.forms. */
#define TRAC_FORMS_NONE 0u
#define TRAC_FORMS_FIRST 1u /* the one that its first argument names */
#define TRAC_FORMS_EACH 2u  /* those that its arguments name */
#define TRAC_FORMS_ALL 3u

/* What of a form is the value of a call: trac_function_facts.gives. */
#define TRAC_GIVES_NOTHING 0u
#define TRAC_GIVES_BODY 1u /* all of it from its pointer on, with its gaps filled */
#define TRAC_GIVES_PART 2u /* a part of it, which its pointer then goes past; or the default value */

/* The texts about a function: trac_function_text. */
#define TRAC_TEXT_NAME 0u     /* its name, as "cs", in letters of lower case; a call names it in either case */
#define TRAC_TEXT_CALL 1u     /* a call of it, with letters for arguments, as "cs,N,Z" */
#define TRAC_TEXT_TITLE 2u    /* what the name is short for, as "call segment" */
#define TRAC_TEXT_SENTENCE 3u /* what it does, in a sentence with the letters of its call */
#define TRAC_TEXT_GROUP 4u    /* the heading under which the manual tells of it */

/* How the functions are declared: static with TRAC_STATIC, for a program that includes trac_engine.c and is to have
 * none of its names; exported with TRAC_EXPORT, where a shared library is built, whatever the compiler hides. */
#if defined(TRAC_STATIC) && (defined(__GNUC__) || defined(__TINYC__))
#define TRAC_API static __attribute__((unused))
#elif defined(TRAC_STATIC)
#define TRAC_API static
#elif defined(TRAC_EXPORT) && defined(_WIN32)
#define TRAC_API __declspec(dllexport)
#elif defined(TRAC_EXPORT) && defined(__GNUC__)
#define TRAC_API __attribute__((visibility("default")))
#else
#define TRAC_API
#endif

typedef struct {
    uint32_t fate;   /* how the run or the turn ended */
    uint32_t peak;   /* the greatest need of a step, in cells: the smallest block for the same run */
    uint64_t steps;  /* the steps done */
    size_t written;  /* the bytes written, from the front of the output */
    size_t consumed; /* the bytes consumed, from the front of the input */
    size_t wanted;   /* with TRAC_WANTS_OUTPUT: the bytes that the next step prints; of trac_check: those of all its
                      * lines; else 0 */
} trac_report;

/* Gives input to trac_run_with: puts at least 1 byte and at most `room` bytes to the front of `to`, and gives their
 * number; or 0 at the end of the input, or TRAC_FAILED. */
typedef size_t (*trac_reader)(void *context, void *to, size_t room);

/* Takes what trac_run_with prints: at least the first of these bytes and at most all, and gives their number; or
 * TRAC_FAILED. */
typedef size_t (*trac_writer)(void *context, const void *from, size_t length);

/* What is true of every call of a function of the language. */
typedef struct {
    uint32_t uses;             /* how many arguments behind its name it uses, or TRAC_ALL_ARGUMENTS */
    uint32_t forms;            /* the forms that a call concerns: TRAC_FORMS_.. */
    uint32_t needs_form;       /* 1 where a call does nothing if no form has the name that its first argument is */
    uint32_t changes_forms;    /* 1 where a call can make, change or remove the forms that it concerns */
    uint32_t gives;            /* what of a form is its value: TRAC_GIVES_.. */
    uint32_t default_argument; /* which argument behind its name is its default value; 0 where there is none */
    uint32_t chooses;          /* 1 where its value is its third or its fourth argument */
    uint32_t reads;            /* 1 where it reads */
    uint32_t prints;           /* 1 where it can print */
    uint32_t changes_meta;     /* 1 where it can change the meta character */
    uint32_t ends;             /* 1 where it ends the run */
} trac_function_facts;

/* ---- The library. */

/* Its version, as TRAC_VERSION is written. */
TRAC_API const char *trac_version(void);

/* Whether its header says the same: 1 where these are its TRAC_VERSION_NUMBER but for the patch, and the sizes of
 * trac_machine and of trac_report:
 *
 *     trac_abi(TRAC_VERSION_NUMBER, sizeof(trac_machine), sizeof(trac_report)) */
TRAC_API int trac_abi(uint32_t version, size_t machine_size, size_t report_size);

/* "proved" or "generated": which of the two libraries it is. */
TRAC_API const char *trac_kind(void);

/* A fate in words, as "input ended"; "refused" for TRAC_REFUSED, and "?" for what is no fate. */
TRAC_API const char *trac_fate_name(uint32_t fate);

/* A rule in words, as "end of call"; "?" for what is no rule. */
TRAC_API const char *trac_rule_name(uint32_t rule);

/* ---- The functions of the language, in the order of the manual. */

/* How many there are. */
TRAC_API size_t trac_function_count(void);

/* Gives the facts of function `which`, from 0. Gives 0, or TRAC_REFUSED where there is no such function or `facts` is
 * null, and nothing was written. */
TRAC_API uint32_t trac_function(size_t which, trac_function_facts *facts);

/* The length of a text about function `which`, TRAC_TEXT_.., in ASCII; as much of it as fits goes to the front of `to`,
 * and the rest of it stays as it is. 0 where there is no such function or no such text, and where `to` is null and
 * `room` isn't 0. */
TRAC_API size_t trac_function_text(size_t which, uint32_t text, void *to, size_t room);

/* ---- Scripts. Where a length is 0 its pointer may be null, also that of a block of no cells. */

/* Runs a script in a block of so many cells, at most TRAC_MOST_CELLS, with an allowance of so many steps. What it
 * prints goes to the front of `output`. The block may hold anything; afterwards it is the caller's again, and its
 * contents are unspecified. */
TRAC_API trac_report trac_run(trac_cell *block, size_t cells, uint64_t steps, const void *script, size_t script_length,
                              void *output, size_t output_length);

/* Runs a script as trac_run does, in a block each byte of which is 0, as calloc gives it. Nothing is written to cells
 * that the run doesn't use, so a great block costs no time. Another block is a mistake that is not found. */
TRAC_API trac_report trac_run_zeroed(trac_cell *block, size_t cells, uint64_t steps, const void *script,
                                     size_t script_length, void *output, size_t output_length);

/* Runs a script as trac_run does: the script's bytes come from `read`, and what it prints goes to `write`. Each call of
 * either gets `context`. What a step prints is written before the next step, and `read` is called where a step reads
 * more than there is, never behind the end of the input. What is read stays in `buffer` until it is consumed. What a
 * step prints goes through the free part of `buffer`, or through 256 bytes on the stack where that part is smaller.
 * `buffer` must hold a whole string with its meta character: as many bytes as the block has cells are always enough.
 *
 * TRAC_INPUT_FAILED: `read` gave TRAC_FAILED, or more than `room`. TRAC_OUTPUT_FAILED: `write` gave TRAC_FAILED, 0, or
 * more than `length`; `written` counts the bytes that were taken before. TRAC_NO_MEMORY: the buffer is full, and the
 * next step reads a string that it can't hold; the step wasn't done. TRAC_REFUSED, as from trac_run, and where `read`
 * or `write` is null: neither was called. Else the report is that of trac_run with the same bytes and an output that is
 * never full. The bytes that were read and not consumed stand at the front of `buffer` then.
 *
 * `read` and `write` may do anything but touch the block and the buffer; they may use other machines and make runs of
 * their own. Either may leave the run by longjmp, or by an exception of C++ where the engine was compiled with
 * -fexceptions or as C++: nothing is held then. The contents of the block and of the buffer are unspecified, and both
 * are the caller's again. */
TRAC_API trac_report trac_run_with(trac_cell *block, size_t cells, uint64_t steps, void *buffer, size_t room,
                                   trac_reader read, trac_writer write, void *context);

/* Runs a script as trac_run does, and puts what is suspicious in it to the front of `lines`, as much as fits: a line
 * for each place, as "line 2, column 5: no function has the name pss", in the order of their places, and behind them
 * the line of the fault, if one ended the run. These are the lines of `trac_trace --warn`. What the script prints is
 * dropped, and `consumed` is 0. The lists that this needs stand in `memory`, of which nothing is used afterwards; a
 * megabyte is enough for most scripts. With TRAC_NO_MEMORY nothing was written. The engine in C leaves this function
 * out with -DTRAC_WITHOUT_CHECK, trac_check_zeroed and trac_trace_step too; all the others with -DTRAC_CHECK_ALONE. */
#if !defined(TRAC_STATIC) || !defined(TRAC_WITHOUT_CHECK)
TRAC_API trac_report trac_check(trac_cell *block, size_t cells, uint64_t steps, const void *script,
                                size_t script_length, void *memory, size_t memory_length, void *lines,
                                size_t lines_length);

/* Checks a script as trac_check does, in a block each byte of which is 0, as calloc gives it. Nothing is written to
 * cells that the run doesn't use. Another block is a mistake that is not found. */
TRAC_API trac_report trac_check_zeroed(trac_cell *block, size_t cells, uint64_t steps, const void *script,
                                       size_t script_length, void *memory, size_t memory_length, void *lines,
                                       size_t lines_length);
#endif

/* Makes a machine without forms over a block of so many cells, with an allowance of so many steps. Gives 0, and the
 * block is then the machine's until it is used no more; or TRAC_REFUSED, and neither the block nor the machine was
 * touched: one that was open is open as before. */
TRAC_API uint32_t trac_open(trac_machine *machine, trac_cell *block, size_t cells, uint64_t steps);

/* Makes a machine as trac_open does, over a block each byte of which is 0, as calloc gives it; writes nothing to it.
 * Another block is a mistake that is not found. */
TRAC_API uint32_t trac_open_zeroed(trac_machine *machine, trac_cell *block, size_t cells, uint64_t steps);

/* Tells a machine where its block is now. Call it where the block, or a copy of the machine with a copy of the block,
 * stands at another address than the machine was last told, before anything else is asked of it: without it the machine
 * reads and writes the cells at the old address. The block has as many cells as before, and holds what it held. The
 * machine's own words may be moved or copied without it. Gives 0, and each trac_form of the machine is invalid
 * afterwards; or TRAC_REFUSED, and nothing has changed. */
TRAC_API uint32_t trac_moved(trac_machine *machine, trac_cell *block);

/* A turn: makes steps, at most `most`, over these bytes of input, behind which the input ends where `ended` is not 0.
 * What it prints goes to the front of `output`. Bytes that were not consumed are given again at the next turn, with
 * more behind them.
 *
 * TRAC_GOING: `most` steps were done. TRAC_WANTS_INPUT: the next step reads more than there is: a string whose meta
 * character isn't there yet, or a byte; nothing was done of it. That is never answered where `ended` is not 0, nor for
 * a string that the cells can't hold: such a step ends the run, as it would if the whole input were there.
 * TRAC_WANTS_OUTPUT: the next step prints `wanted` bytes, more than there is room for behind those written; nothing was
 * done of it. TRAC_WANTS_ANSWER: see trac_stop_at_unknown. Else the run is over: each later turn that may make a step
 * gives the same fate, until trac_again. The steps and the peak are those of the whole run so far. */
TRAC_API trac_report trac_turn(trac_machine *machine, const void *input, size_t input_length, int ended, void *output,
                               size_t output_length, uint64_t most);

/* Clears both strings of a machine, with the calls that are open, and begins a new run with an allowance of so many
 * steps: the steps and the peak count from 0. The forms with their pointers and the meta character stay. Gives 0, or
 * TRAC_REFUSED. */
TRAC_API uint32_t trac_again(trac_machine *machine, uint64_t steps);

/* The peak of a machine, in cells, which then counts from 0 again: called after each step it tells what that step
 * needed. 0 where the machine can't be used. */
TRAC_API uint32_t trac_take_peak(trac_machine *machine);

/* ---- Functions of the host. */

/* Says whether turns stop before a call whose name is no function: where `on` isn't 0 they give TRAC_WANTS_ANSWER
 * there. trac_argument has the name and the arguments, and trac_answer makes that step with a value. A machine that
 * was just opened doesn't stop: such a call has the null value. Names of the language's own functions never stop a
 * turn. Gives 0, or TRAC_REFUSED. */
TRAC_API uint32_t trac_stop_at_unknown(trac_machine *machine, int on);

/* Makes the next step, which performs a call whose name is no function, with this value in the place of the null one;
 * `how` is TRAC_BY_MODE, TRAC_SCANNED or TRAC_UNSCANNED. The step needs the cells of both strings and of all forms but
 * one, and one for each byte of the value. TRAC_GOING: it was done. TRAC_WORKSPACE: it needs more cells than there are,
 * and the run is over. TRAC_STEPS: the allowance is used up, and the run is over. TRAC_REFUSED: the next step performs
 * no such call, the run is over, there is no such `how`, or a pointer can't be used; nothing has changed. The null
 * value with TRAC_BY_MODE makes the step that the language makes. */
TRAC_API trac_report trac_answer(trac_machine *machine, const void *value, size_t length, uint32_t how);

/* ---- Prints in pieces. With TRAC_WANTS_OUTPUT take what is printed by trac_printed, in buffers of any size, and then
 * make the step by trac_skip_print: a host with a few bytes runs every script. */

/* What the next step prints, from byte `from` on: the answer is how many bytes there are from there on, and as many as
 * fit go to the front of `to`. 0 where the step prints nothing, where the run is over, and where the allowance is used
 * up. */
TRAC_API size_t trac_printed(const trac_machine *machine, size_t from, void *to, size_t room);

/* Makes the next step, which prints, and writes nothing: as a turn of one step does with room for what it prints.
 * Gives TRAC_GOING; or TRAC_REFUSED where the next step prints nothing, and nothing has changed. */
TRAC_API trac_report trac_skip_print(trac_machine *machine);

/* ---- Forms from outside, without a step: whether a run goes on, is over or has used up its cells. Each gives 0, and
 * each trac_form of the machine is invalid afterwards; or TRAC_REFUSED, and nothing has changed. The peak doesn't count
 * what they need. Where a length is 0 its pointer may be null. */

/* Makes a form of a name, the codes of a body, as trac_form_codes gives them, and a pointer, from 0 to the number of
 * codes. It becomes the last form; an older one of that name is removed. Refused where a code is none of a byte or of
 * a gap with an ordinal up to 16,777,216, and where 3 cells, the name and the body don't fit beside what is there, the
 * older form of that name included, as for `ds`. On machines whose greatest byte stands first the engine in C turns the
 * codes for the call and then back, so there they can't stand in memory that is only read. */
TRAC_API uint32_t trac_define(trac_machine *machine, const void *name, size_t name_length, const uint32_t *codes,
                              size_t count, size_t pointer);

/* Makes a form of a name and a text, with pointer 0, as `ds` does. */
TRAC_API uint32_t trac_define_text(trac_machine *machine, const void *name, size_t name_length, const void *body,
                                   size_t body_length);

/* Removes the form of a name. Refused where no form has it. */
TRAC_API uint32_t trac_delete(trac_machine *machine, const void *name, size_t name_length);

/* Removes all forms. */
TRAC_API uint32_t trac_delete_all(trac_machine *machine);

/* Makes a byte the meta character, which ends a string. Refused where it is more than 255. */
TRAC_API uint32_t trac_set_meta(trac_machine *machine, uint32_t byte);

/* ---- An image of the forms: bytes that hold each form with its gaps and its pointer, and the meta character. They
 * have no address, are the same on every machine and in every order of bytes, and end with a checksum. An image has 14
 * bytes, 16 for each form, one for each character of a name or a body, and 8 for each gap. */

/* The length of the image of a machine's forms and its meta character, in bytes; as much of it as fits goes to the
 * front of `to`. 0 where the machine or a pointer can't be used. */
TRAC_API size_t trac_save(const trac_machine *machine, void *to, size_t room);

/* Takes an image into a machine: its forms, in their order, and its meta character replace the machine's own. The
 * strings stay, and so do the steps, the peak and the end of a run. trac_save then gives the same bytes. Gives 0, and
 * each trac_form of the machine is invalid afterwards; or TRAC_REFUSED, and nothing has changed. It refuses an image of
 * which a byte is missing or changed, an image of another version, one with two forms of one name, with a pointer
 * behind its body or with a gap whose ordinal is 0 or over 16,777,216, and one whose forms need more cells than the
 * strings leave. Each pair of names is compared: 1,000 forms take some hundredths of a second, and ten times as many a
 * hundred times as long. */
TRAC_API uint32_t trac_load(trac_machine *machine, const void *from, size_t length);

/* ---- A run that is shown. */

/* Makes a step, as trac_turn does with `most` 1, and puts what is shown of it to the front of `lines`, as much as fits:
 * the lines of `trac_trace`. A head stands in front of those of the first step, and behind those of the last one how
 * the run ended, with all forms if `trace` asks for forms, and what a fault left. A turn that waits shows nothing.
 *
 *     trac_trace trace = TRAC_NO_TRACE;
 *     trace.from = 1, trace.to = UINT64_MAX, trace.width = 100;
 *
 * `end` says what is behind these bytes of input: TRAC_INPUT_GOES_ON, TRAC_INPUT_ENDS, or TRAC_INPUT_FAILS, and then a
 * step that reads past them ends the run with TRAC_INPUT_FAILED. When the run is over, each later call makes no step,
 * and reports again how the run ended. The peak of the report is the trace's own: each step moves the machine's peak
 * into it, and the machine's peak then counts from 0 again. A trace is of one run: behind trac_again give it
 * TRAC_NO_TRACE again.
 *
 * The lists that a step needs stand in `memory`, of which nothing is used afterwards; `lines` of as many bytes are
 * always enough. A megabyte is enough for steps and calls whose width is bound, in blocks of up to 50,000 cells. With
 * TRAC_NO_MEMORY either nothing was done, or the step was, as the rest of the report tells, and its lines are lost. */
#if !defined(TRAC_STATIC) || !defined(TRAC_WITHOUT_CHECK)
TRAC_API trac_report trac_trace_step(trac_machine *machine, trac_trace *trace, const void *input, size_t input_length,
                                     int end, void *output, size_t output_length, void *memory, size_t memory_length,
                                     void *lines, size_t lines_length);
#endif

/* ---- What a machine shows of itself. None of these functions changes it.
 *
 * Those that fill `to` answer how many items there are. As many of them as fit go to the front of `to`, and the rest of
 * it stays as it is: a call with no room asks how much is needed. Where the machine or a pointer can't be used, and
 * where there is no form, the answer is 0. */

/* How many forms there are. */
TRAC_API size_t trac_form_count(const trac_machine *machine);

/* Goes to the next form, in the order of definition, and gives 1; gives 0 behind the last. To list all forms:
 *
 *     trac_form form = TRAC_NO_FORM;
 *     while (trac_next_form(machine, &form)) ...
 *
 * A place is good until a call that can change the machine: then it is no form's any more, and this gives 0. It is good
 * while the machine's words stay where they are. */
TRAC_API int trac_next_form(const trac_machine *machine, trac_form *form);

/* Goes to the form of a name, and gives 1; gives 0, and the place is none then, where no form has it. */
TRAC_API int trac_find_form(const trac_machine *machine, const void *name, size_t name_length, trac_form *form);

/* The name of a form. */
TRAC_API size_t trac_form_name(const trac_form *form, void *to, size_t room);

/* A form as `pf` displays it: characters as they are, a gap as its ordinal in angle brackets, <^> at the pointer. */
TRAC_API size_t trac_form_text(const trac_form *form, void *to, size_t room);

/* The body of a form, item by item: a byte as it is, the gap with ordinal N as 255 + N. */
TRAC_API size_t trac_form_codes(const trac_form *form, uint32_t *to, size_t room);

/* How many items of a form stand in front of its pointer. */
TRAC_API size_t trac_form_pointer(const trac_form *form);

/* The neutral string: the base text, and then for each open call, the outermost first, its mark and its arguments with
 * comma marks between. A byte as it is, a mark as one of the codes above. */
TRAC_API size_t trac_neutral(const trac_machine *machine, uint32_t *to, size_t room);

/* The active string, the next character first. It has no marks. */
TRAC_API size_t trac_active(const trac_machine *machine, uint32_t *to, size_t room);

/* The same strings from a place on, counted in codes from 0: the answer is how many codes there are from there on, 0
 * behind the end. */
TRAC_API size_t trac_neutral_part(const trac_machine *machine, size_t from, uint32_t *to, size_t room);
TRAC_API size_t trac_active_part(const trac_machine *machine, size_t from, uint32_t *to, size_t room);

/* The open calls, the innermost first: the place at which the mark of each stands in the neutral string, counted in
 * codes from 0. The arguments of a call stand behind its mark, up to that of the next call or to the end. */
TRAC_API size_t trac_calls(const trac_machine *machine, uint32_t *to, size_t room);

/* How many arguments the call has that the next step performs, its name counted, and null ones: one more than it has
 * comma marks. 0 where that step performs no call, where the run is over, and where the allowance is used up. */
TRAC_API size_t trac_argument_count(const trac_machine *machine);

/* An argument of the call that the next step performs: 0 is the name. Its bytes are those that the call gets, after all
 * calls in it. 0 where there is no such argument. */
TRAC_API size_t trac_argument(const trac_machine *machine, size_t which, void *to, size_t room);

/* How many characters the next step takes from the front of the active string: the 2 or 3 that open a call; a text in
 * parentheses with both of them; all, where a left parenthesis has no match; none of an empty string; and else 1. */
TRAC_API size_t trac_takes(const trac_machine *machine);

/* How many characters the next step drops: all of an active string that begins with a left parenthesis that has no
 * match, and else none. */
TRAC_API size_t trac_drops(const trac_machine *machine);

/* How many steps come before the next one at a right parenthesis, which performs a call where one is open, or at an
 * empty active string; at most `most`. None of them performs a call, reads or prints. They are counted as if the
 * allowance had no end. */
TRAC_API uint64_t trac_steps_to_call(const trac_machine *machine, uint64_t most);

/* The rule that the next step follows, unless the run is over or ends before it: TRAC_RULE_..; or TRAC_REFUSED. */
TRAC_API uint32_t trac_rule(const trac_machine *machine);

/* The cells of a part of the block, TRAC_PART_..; 0 of any other number. Together they are the cells of the block. */
TRAC_API size_t trac_part(const trac_machine *machine, uint32_t which);

/* The meta character, which ends a string: a byte; 256 where the machine can't be used. */
TRAC_API uint32_t trac_meta(const trac_machine *machine);

/* What the next step reads: TRAC_AWAITS_.., nothing, too, where the run is over or the allowance is used up; or
 * TRAC_REFUSED. */
TRAC_API uint32_t trac_awaits(const trac_machine *machine);

#ifdef __cplusplus
}
#endif

#endif
