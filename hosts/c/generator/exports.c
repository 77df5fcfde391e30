
/* ---- The exports. */

/* A report as the engine writes it. */
struct engine_report {
    u32 fate, peak;
    u64 steps, written, consumed, wanted;
};

static trac_report told(const struct engine_report *report) {
    trac_report given;
    given.fate = order32(report->fate);
    given.peak = order32(report->peak);
    given.steps = order64(report->steps);
    given.written = (size_t)order64(report->written);
    given.consumed = (size_t)order64(report->consumed);
    given.wanted = (size_t)order64(report->wanted);
    return given;
}

#ifndef TRAC_WITHOUT_CHECK
static trac_report trac_engine_check(void *block, size_t cells, uint64_t steps, const uint8_t *script,
                                     size_t script_len, void *memory, size_t units, uint8_t *to, size_t to_len) {
    struct engine_report report;
    engine_check(address_of(&report), address_of(block), cells, steps,
                 address_of(script), script_len, address_of(memory), units, address_of(to), to_len);
    return told(&report);
}

static trac_report trac_engine_check_zeroed(void *block, size_t cells, uint64_t steps, const uint8_t *script,
                                            size_t script_len, void *memory, size_t units, uint8_t *to,
                                            size_t to_len) {
    struct engine_report report;
    engine_check_zeroed(address_of(&report), address_of(block), cells, steps,
                        address_of(script), script_len, address_of(memory), units, address_of(to), to_len);
    return told(&report);
}

/* Puts the numbers of a trace from this machine's order of bytes into the engine's, or back. */
static void turn_numbers(trac_trace *of) {
    uint64_t *const long_ones[] = {&of->from,  &of->to,   &of->shown,  &of->lines,
                                   &of->depth, &of->line, &of->column, &of->string_line, &of->string_column};
    uint32_t *const short_ones[] = {&of->width, &of->columns, &of->calls, &of->forms, &of->peak, &of->begun};
    for (size_t i = 0; i < sizeof long_ones / sizeof *long_ones; i++)
        *long_ones[i] = order64(*long_ones[i]);
    for (size_t i = 0; i < sizeof short_ones / sizeof *short_ones; i++)
        *short_ones[i] = order32(*short_ones[i]);
}

/* The engine has the numbers of a trace without gaps. */
typedef char trace_has_no_gaps[sizeof(trac_trace) == 96 ? 1 : -1];

static trac_report trac_engine_trace_step(void *machine, trac_trace *trace, const uint8_t *input, size_t input_len,
                                          uint8_t *output, size_t output_len, uint32_t ended, void *memory,
                                          size_t units, uint8_t *lines, size_t lines_len) {
    struct engine_report report;
    turn_numbers(trace);
    engine_trace_step(address_of(&report), address_of(machine), address_of(trace), address_of(input), input_len,
                      address_of(output), output_len, ended, address_of(memory), units, address_of(lines), lines_len);
    turn_numbers(trace);
    return told(&report);
}
#endif

#ifndef TRAC_CHECK_ALONE
/* Puts the codes that were laid into the order of bytes of this machine. */
static size_t in_order(u32 *codes, size_t room, u64 count) {
    for (size_t i = 0; i < count && i < room; i++)
        codes[i] = order32(codes[i]);
    return (size_t)count;
}

static trac_report trac_engine_run(void *block, size_t cells, uint64_t steps, const uint8_t *script,
                                   size_t script_len, uint8_t *output, size_t output_len) {
    struct engine_report report;
    engine_run(address_of(&report), address_of(block), cells, steps, address_of(script), script_len,
               address_of(output), output_len);
    return told(&report);
}

static trac_report trac_engine_run_zeroed(void *block, size_t cells, uint64_t steps, const uint8_t *script,
                                          size_t script_len, uint8_t *output, size_t output_len) {
    struct engine_report report;
    engine_run_zeroed(address_of(&report), address_of(block), cells, steps, address_of(script), script_len,
                      address_of(output), output_len);
    return told(&report);
}

static size_t trac_engine_cell_size(void) {
    return (size_t)engine_cell_size();
}

static size_t trac_engine_machine_size(void) {
    return (size_t)engine_machine_size();
}

static uint32_t trac_engine_open(void *machine, void *block, size_t cells, uint64_t steps) {
    return engine_open(address_of(machine), address_of(block), cells, steps);
}

static uint32_t trac_engine_open_zeroed(void *machine, void *block, size_t cells, uint64_t steps) {
    return engine_open_zeroed(address_of(machine), address_of(block), cells, steps);
}

static trac_report trac_engine_turn(void *machine, const uint8_t *input, size_t input_len, uint8_t *output,
                                    size_t output_len, uint32_t ended, uint64_t most) {
    struct engine_report report;
    engine_turn(address_of(&report), address_of(machine), address_of(input), input_len,
                address_of(output), output_len, ended, most);
    return told(&report);
}

static void trac_engine_again(void *machine, uint64_t steps) {
    engine_again(address_of(machine), steps);
}

static void trac_engine_stop_at_unknown(void *machine, uint32_t stops) {
    engine_stop_at_unknown(address_of(machine), stops);
}

static trac_report trac_engine_answer(void *machine, const uint8_t *value, size_t value_len, uint32_t how) {
    struct engine_report report;
    engine_answer(address_of(&report), address_of(machine), address_of(value), value_len, how);
    return told(&report);
}

static trac_report trac_engine_skip_print(void *machine) {
    struct engine_report report;
    engine_skip_print(address_of(&report), address_of(machine));
    return told(&report);
}

static size_t trac_engine_printed(void *machine, size_t from, uint8_t *to, size_t room) {
    return (size_t)engine_printed(address_of(machine), from, address_of(to), room);
}

/* Where the first byte of a number is the greatest, the codes are turned for the engine, and then turned back. */
static uint32_t trac_engine_define(void *machine, const uint8_t *name, size_t name_len, const uint32_t *codes,
                                   size_t count, size_t pointer) {
    uint32_t *const given = (uint32_t *)(uintptr_t)codes;
    const size_t turned = order32(1) == 1 ? 0 : count;
    (void)in_order(given, turned, turned);
    const uint32_t answer = engine_define(address_of(machine), address_of(name), name_len, address_of(codes), count,
                                          pointer);
    (void)in_order(given, turned, turned);
    return answer;
}

static uint32_t trac_engine_define_text(void *machine, const uint8_t *name, size_t name_len, const uint8_t *body,
                                        size_t body_len) {
    return engine_define_text(address_of(machine), address_of(name), name_len, address_of(body), body_len);
}

static uint32_t trac_engine_delete(void *machine, const uint8_t *name, size_t name_len) {
    return engine_delete(address_of(machine), address_of(name), name_len);
}

static void trac_engine_delete_all(void *machine) {
    engine_delete_all(address_of(machine));
}

static uint32_t trac_engine_set_meta(void *machine, uint32_t byte) {
    return engine_set_meta(address_of(machine), byte);
}

static size_t trac_engine_find_form(void *machine, const uint8_t *name, size_t name_len) {
    return (size_t)engine_find_form(address_of(machine), address_of(name), name_len);
}

static size_t trac_engine_save(void *machine, uint8_t *to, size_t room) {
    return (size_t)engine_save(address_of(machine), address_of(to), room);
}

static uint32_t trac_engine_load(void *machine, const uint8_t *image, size_t image_len) {
    return engine_load(address_of(machine), address_of(image), image_len);
}

static uint32_t trac_engine_take_peak(void *machine) {
    return engine_take_peak(address_of(machine));
}

static void trac_engine_turn_to_form(void *machine, size_t k) {
    engine_turn_to_form(address_of(machine), k);
}

static size_t trac_engine_form_count(void *machine) {
    return (size_t)engine_form_count(address_of(machine));
}

static size_t trac_engine_form_name(void *machine, size_t k, uint8_t *to, size_t room) {
    return (size_t)engine_form_name(address_of(machine), k, address_of(to), room);
}

static size_t trac_engine_form_text(void *machine, size_t k, uint8_t *to, size_t room) {
    return (size_t)engine_form_text(address_of(machine), k, address_of(to), room);
}

static size_t trac_engine_form_codes(void *machine, size_t k, uint32_t *to, size_t room) {
    return in_order(to, room, engine_form_codes(address_of(machine), k, address_of(to), room));
}

static size_t trac_engine_form_pointer(void *machine, size_t k) {
    return (size_t)engine_form_pointer(address_of(machine), k);
}

static size_t trac_engine_neutral_part(void *machine, size_t from, uint32_t *to, size_t room) {
    return in_order(to, room, engine_neutral_part(address_of(machine), from, address_of(to), room));
}

static size_t trac_engine_active_part(void *machine, size_t from, uint32_t *to, size_t room) {
    return in_order(to, room, engine_active_part(address_of(machine), from, address_of(to), room));
}

static size_t trac_engine_calls(void *machine, uint32_t *to, size_t room) {
    return in_order(to, room, engine_calls(address_of(machine), address_of(to), room));
}

static size_t trac_engine_argument_count(void *machine) {
    return (size_t)engine_argument_count(address_of(machine));
}

static size_t trac_engine_argument(void *machine, size_t which, uint8_t *to, size_t room) {
    return (size_t)engine_argument(address_of(machine), which, address_of(to), room);
}

static size_t trac_engine_takes(void *machine) {
    return (size_t)engine_takes(address_of(machine));
}

static size_t trac_engine_drops(void *machine) {
    return (size_t)engine_drops(address_of(machine));
}

static uint64_t trac_engine_steps_to_call(void *machine, uint64_t most) {
    return engine_steps_to_call(address_of(machine), most);
}

static uint32_t trac_engine_rule(void *machine) {
    return engine_rule(address_of(machine));
}

static size_t trac_engine_part(void *machine, uint32_t which) {
    return (size_t)engine_part(address_of(machine), which);
}

static uint32_t trac_engine_meta(void *machine) {
    return engine_meta(address_of(machine));
}

static uint32_t trac_engine_awaits(void *machine) {
    return engine_awaits(address_of(machine));
}

static size_t trac_engine_function_count(void) {
    return (size_t)engine_function_count();
}

static uint32_t trac_engine_function_fact(size_t which, uint32_t fact) {
    return engine_function_fact(which, fact);
}

static size_t trac_engine_function_text(size_t which, uint32_t text, uint8_t *to, size_t room) {
    return (size_t)engine_function_text(which, text, address_of(to), room);
}
#endif
