/* Two engines behind trac.h in one program: the proved library, whose names are those of the header, and the engine in
 * C, whose names begin with c_. The functions below run both on the same input, and compare. */
#ifndef ENGINES_H
#define ENGINES_H

#include "trac.h"

#include <stdio.h>
#include <string.h>

trac_report c_trac_run(trac_cell *, size_t, uint64_t, const void *, size_t, void *, size_t);
uint32_t c_trac_open(trac_machine *, trac_cell *, size_t, uint64_t);
trac_report c_trac_turn(trac_machine *, const void *, size_t, int, void *, size_t, uint64_t);
size_t c_trac_form_count(const trac_machine *);
int c_trac_next_form(const trac_machine *, trac_form *);
size_t c_trac_form_name(const trac_form *, void *, size_t);
size_t c_trac_form_codes(const trac_form *, uint32_t *, size_t);
size_t c_trac_form_pointer(const trac_form *);
size_t c_trac_neutral(const trac_machine *, uint32_t *, size_t);
size_t c_trac_active(const trac_machine *, uint32_t *, size_t);
size_t c_trac_neutral_part(const trac_machine *, size_t, uint32_t *, size_t);
size_t c_trac_active_part(const trac_machine *, size_t, uint32_t *, size_t);
size_t c_trac_calls(const trac_machine *, uint32_t *, size_t);
size_t c_trac_takes(const trac_machine *);
size_t c_trac_drops(const trac_machine *);
uint64_t c_trac_steps_to_call(const trac_machine *, uint64_t);
uint32_t c_trac_rule(const trac_machine *);
size_t c_trac_part(const trac_machine *, uint32_t);
uint32_t c_trac_meta(const trac_machine *);
uint32_t c_trac_awaits(const trac_machine *);
trac_report c_trac_run_zeroed(trac_cell *, size_t, uint64_t, const void *, size_t, void *, size_t);
trac_report c_trac_check(trac_cell *, size_t, uint64_t, const void *, size_t, void *, size_t, void *, size_t);
trac_report c_trac_check_zeroed(trac_cell *, size_t, uint64_t, const void *, size_t, void *, size_t, void *, size_t);
uint32_t c_trac_open_zeroed(trac_machine *, trac_cell *, size_t, uint64_t);
uint32_t c_trac_again(trac_machine *, uint64_t);
uint32_t c_trac_take_peak(trac_machine *);
size_t c_trac_form_text(const trac_form *, void *, size_t);
size_t c_trac_argument_count(const trac_machine *);
size_t c_trac_argument(const trac_machine *, size_t, void *, size_t);
trac_report c_trac_trace_step(trac_machine *, trac_trace *, const void *, size_t, int, void *, size_t, void *, size_t,
                              void *, size_t);
trac_report c_trac_run_with(trac_cell *, size_t, uint64_t, void *, size_t, trac_reader, trac_writer, void *);
uint32_t c_trac_moved(trac_machine *, trac_cell *);
uint32_t c_trac_stop_at_unknown(trac_machine *, int);
trac_report c_trac_answer(trac_machine *, const void *, size_t, uint32_t);
size_t c_trac_printed(const trac_machine *, size_t, void *, size_t);
trac_report c_trac_skip_print(trac_machine *);
uint32_t c_trac_define(trac_machine *, const void *, size_t, const uint32_t *, size_t, size_t);
uint32_t c_trac_define_text(trac_machine *, const void *, size_t, const void *, size_t);
uint32_t c_trac_delete(trac_machine *, const void *, size_t);
uint32_t c_trac_delete_all(trac_machine *);
uint32_t c_trac_set_meta(trac_machine *, uint32_t);
int c_trac_find_form(const trac_machine *, const void *, size_t, trac_form *);
size_t c_trac_save(const trac_machine *, void *, size_t);
uint32_t c_trac_load(trac_machine *, const void *, size_t);
size_t c_trac_function_count(void);
uint32_t c_trac_function(size_t, trac_function_facts *);
size_t c_trac_function_text(size_t, uint32_t, void *, size_t);
int c_trac_abi(uint32_t, size_t, size_t);
const char *c_trac_version(void);
const char *c_trac_fate_name(uint32_t);
const char *c_trac_rule_name(uint32_t);

#ifndef MOST_CELLS
#define MOST_CELLS 1024
#endif
enum { MOST_OUTPUT = 4096 };

/* What one engine works on. */
typedef struct {
    trac_cell block[MOST_CELLS];
    trac_machine machine;
    uint8_t output[MOST_OUTPUT];
} side;

static side proved, in_c;

static int is_same(const trac_report *a, const trac_report *b) {
    return a->fate == b->fate && a->peak == b->peak && a->steps == b->steps && a->written == b->written &&
           a->consumed == b->consumed && a->wanted == b->wanted &&
           memcmp(proved.output, in_c.output, a->written) == 0;
}

/* Runs a script at once by both. Gives whether they did the same, and what that was. */
static int run_both(const uint8_t *script, size_t length, size_t cells, uint64_t steps, size_t room,
                    trac_report *told) {
    *told = trac_run(proved.block, cells, steps, script, length, proved.output, room);
    const trac_report other = c_trac_run(in_c.block, cells, steps, script, length, in_c.output, room);
    return is_same(told, &other);
}

static int open_both(size_t cells, uint64_t steps) {
    return trac_open(&proved.machine, proved.block, cells, steps) == 0 &&
           c_trac_open(&in_c.machine, in_c.block, cells, steps) == 0;
}

/* Makes a turn of both machines. Gives whether they did the same, and what that was. */
static int turn_both(const uint8_t *input, size_t length, size_t room, int ended, uint64_t most,
                     trac_report *told) {
    *told = trac_turn(&proved.machine, input, length, ended, proved.output, room, most);
    const trac_report other = c_trac_turn(&in_c.machine, input, length, ended, in_c.output, room, most);
    return is_same(told, &other);
}

#endif
