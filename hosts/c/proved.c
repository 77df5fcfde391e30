/* The functions of trac.h around the exports of the proved library, which are hidden behind them in libtrac.a: each
 * export meets its contract in crates/trac_c where its caller meets the conditions of trac.h. */
#include "trac.h"

#include <string.h>

/* They are in the same object, so their addresses need no table that the linker makes. */
#pragma GCC visibility push(hidden)
trac_report trac_engine_run(void *block, size_t cells, uint64_t steps, const uint8_t *script, size_t script_length,
                            uint8_t *output, size_t output_length);
trac_report trac_engine_run_zeroed(void *block, size_t cells, uint64_t steps, const uint8_t *script,
                                   size_t script_length, uint8_t *output, size_t output_length);
trac_report trac_engine_check(void *block, size_t cells, uint64_t steps, const uint8_t *script, size_t script_length,
                              void *memory, size_t units, uint8_t *to, size_t to_length);
trac_report trac_engine_check_zeroed(void *block, size_t cells, uint64_t steps, const uint8_t *script,
                                     size_t script_length, void *memory, size_t units, uint8_t *to, size_t to_length);
trac_report trac_engine_trace_step(void *machine, trac_trace *trace, const uint8_t *input, size_t input_length,
                                   uint8_t *output, size_t output_length, uint32_t ended, void *memory, size_t units,
                                   uint8_t *lines, size_t lines_length);
size_t trac_engine_cell_size(void);
size_t trac_engine_machine_size(void);
uint32_t trac_engine_open(void *machine, void *block, size_t cells, uint64_t steps);
uint32_t trac_engine_open_zeroed(void *machine, void *block, size_t cells, uint64_t steps);
trac_report trac_engine_turn(void *machine, const uint8_t *input, size_t input_length, uint8_t *output,
                             size_t output_length, uint32_t ended, uint64_t most);
void trac_engine_again(void *machine, uint64_t steps);
uint32_t trac_engine_take_peak(void *machine);
void trac_engine_turn_to_form(void *machine, size_t k);
size_t trac_engine_form_count(void *machine);
size_t trac_engine_form_name(void *machine, size_t k, uint8_t *to, size_t room);
size_t trac_engine_form_text(void *machine, size_t k, uint8_t *to, size_t room);
size_t trac_engine_form_codes(void *machine, size_t k, uint32_t *to, size_t room);
size_t trac_engine_form_pointer(void *machine, size_t k);
size_t trac_engine_neutral_part(void *machine, size_t from, uint32_t *to, size_t room);
size_t trac_engine_active_part(void *machine, size_t from, uint32_t *to, size_t room);
size_t trac_engine_calls(void *machine, uint32_t *to, size_t room);
size_t trac_engine_argument_count(void *machine);
size_t trac_engine_argument(void *machine, size_t which, uint8_t *to, size_t room);
size_t trac_engine_takes(void *machine);
size_t trac_engine_drops(void *machine);
uint64_t trac_engine_steps_to_call(void *machine, uint64_t most);
uint32_t trac_engine_rule(void *machine);
size_t trac_engine_part(void *machine, uint32_t which);
uint32_t trac_engine_meta(void *machine);
uint32_t trac_engine_awaits(void *machine);
void trac_engine_stop_at_unknown(void *machine, uint32_t stops);
trac_report trac_engine_answer(void *machine, const uint8_t *value, size_t length, uint32_t how);
size_t trac_engine_printed(void *machine, size_t from, uint8_t *to, size_t room);
trac_report trac_engine_skip_print(void *machine);
uint32_t trac_engine_define(void *machine, const uint8_t *name, size_t name_length, const uint32_t *codes, size_t count,
                            size_t pointer);
uint32_t trac_engine_define_text(void *machine, const uint8_t *name, size_t name_length, const uint8_t *body,
                                 size_t body_length);
uint32_t trac_engine_delete(void *machine, const uint8_t *name, size_t name_length);
void trac_engine_delete_all(void *machine);
uint32_t trac_engine_set_meta(void *machine, uint32_t byte);
size_t trac_engine_find_form(void *machine, const uint8_t *name, size_t name_length);
size_t trac_engine_save(void *machine, uint8_t *to, size_t room);
uint32_t trac_engine_load(void *machine, const uint8_t *image, size_t length);
size_t trac_engine_function_count(void);
uint32_t trac_engine_function_fact(size_t which, uint32_t fact);
size_t trac_engine_function_text(size_t which, uint32_t text, uint8_t *to, size_t room);
#pragma GCC visibility pop

#define TRAC_KIND "proved"
#include "api.c"
