/* The functions of trac.h, around the exports of the engine. They test what can be tested of pointers and machines, and
 * hand the exports pointers that are never null. Written by hand, and tested. TRAC_KIND is "proved" or "generated". */

static int is_aligned(const void *place, size_t bytes) { return (uintptr_t)place % bytes == 0; }

static int is_block(const trac_cell *block, size_t cells) {
    return block ? is_aligned(block, sizeof(uint32_t)) : cells == 0;
}

static int are_bytes(const void *bytes, size_t length) { return bytes || !length; }

static const trac_report refused = {TRAC_REFUSED, 0, 0, 0, 0, 0};

/* What stands in the place of a null pointer of length 0, and is never written. */
static const uint32_t NOTHING = 0;

static const uint8_t *read_from(const void *bytes) { return (const uint8_t *)(bytes ? bytes : &NOTHING); }

static uint8_t *written_to(void *bytes) { return bytes ? (uint8_t *)bytes : (uint8_t *)(uintptr_t)&NOTHING; }

/* The words of a machine: the engine's, a mark of one that was opened, a stamp that each change makes anew, and the
 * address of its block. */
enum { ENGINE_WORDS = 11, MARK = 11, STAMP = 12, BLOCK = 13 };
static const uint64_t OPENED = UINT64_C(0x74726163743634A7);

struct aligned_machine {
    char before;
    trac_machine machine;
};

static int is_place(const void *machine) {
    return machine && is_aligned(machine, offsetof(struct aligned_machine, machine));
}

static int is_opened(const trac_machine *machine) { return is_place(machine) && machine->words[MARK] == OPENED; }

/* Makes a machine's stamp anew, of what it was and a number: no two states of machines have the same one, but by a
 * chance of 1 to 2^64. So no place of before is taken for one of now, by a machine that was opened or copied over these
 * words neither. The steps are those of the generator SplitMix64. */
static void stamp(trac_machine *machine, uint64_t number) {
    uint64_t x = (machine->words[STAMP] ^ number) + UINT64_C(0x9E3779B97F4A7C15);
    x = (x ^ x >> 30) * UINT64_C(0xBF58476D1CE4E5B9);
    x = (x ^ x >> 27) * UINT64_C(0x94D049BB133111EB);
    machine->words[STAMP] = x ^ x >> 31;
}

#ifndef TRAC_WITHOUT_CHECK
/* Lists in lent memory stand in units of so many bytes, which are aligned to them. */
enum { UNIT = 16 };

/* The units that are in memory, behind the first bytes of it. */
typedef struct {
    void *place;
    size_t count;
} units;

/* Where there are none, the place is one that is aligned and not null. */
static units units_in(void *memory, size_t length) {
    const size_t before = (size_t)(0 - (uintptr_t)memory) % UNIT;
    units found = {(void *)(uintptr_t)UNIT, 0};
    if (length >= before + UNIT) {
        found.place = (char *)memory + before;
        found.count = (length - before) / UNIT;
    }
    return found;
}

/* Checks a script by an export, where its block, its bytes and its memory can be used. */
static trac_report check_by(trac_report (*checks)(void *, size_t, uint64_t, const uint8_t *, size_t, void *, size_t,
                                                  uint8_t *, size_t),
                            trac_cell *block, size_t cells, uint64_t steps, const void *script, size_t script_length,
                            void *memory, size_t memory_length, void *lines, size_t lines_length) {
    static const trac_report no_memory = {TRAC_NO_MEMORY, 0, 0, 0, 0, 0};
    trac_cell no_cell;
    units lent;
    if (!is_block(block, cells) || !are_bytes(script, script_length) || !are_bytes(memory, memory_length) ||
        !are_bytes(lines, lines_length))
        return refused;
    lent = units_in(memory, memory_length);
    if (!lent.count)
        return no_memory;
    return checks(block ? block : &no_cell, cells, steps, read_from(script), script_length, lent.place, lent.count,
                  written_to(lines), lines_length);
}

trac_report trac_check(trac_cell *block, size_t cells, uint64_t steps, const void *script, size_t script_length,
                       void *memory, size_t memory_length, void *lines, size_t lines_length) {
    return check_by(trac_engine_check, block, cells, steps, script, script_length, memory, memory_length, lines,
                    lines_length);
}

trac_report trac_check_zeroed(trac_cell *block, size_t cells, uint64_t steps, const void *script,
                              size_t script_length, void *memory, size_t memory_length, void *lines,
                              size_t lines_length) {
    return check_by(trac_engine_check_zeroed, block, cells, steps, script, script_length, memory, memory_length, lines,
                    lines_length);
}

struct aligned_trace {
    char before;
    trac_trace trace;
};

trac_report trac_trace_step(trac_machine *machine, trac_trace *trace, const void *input, size_t input_length, int end,
                            void *output, size_t output_length, void *memory, size_t memory_length, void *lines,
                            size_t lines_length) {
    units lent;
    if (!is_opened(machine) || !trace || !is_aligned(trace, offsetof(struct aligned_trace, trace)) ||
        !are_bytes(input, input_length) || !are_bytes(output, output_length) || !are_bytes(memory, memory_length) ||
        !are_bytes(lines, lines_length))
        return refused;
    lent = units_in(memory, memory_length);
    stamp(machine, trace->shown);
    return trac_engine_trace_step(machine, trace, read_from(input), input_length, written_to(output), output_length,
                                  end == TRAC_INPUT_FAILS ? 2 : end != 0, lent.place, lent.count, written_to(lines),
                                  lines_length);
}
#endif

#ifndef TRAC_CHECK_ALONE
/* Makes a machine's stamp anew where a call wasn't refused, of which this is what it told. */
static uint32_t stamped(trac_machine *machine, uint64_t number, uint32_t told) {
    if (told != TRAC_REFUSED)
        stamp(machine, number);
    return told;
}

/* The words of a place in the list of forms: the machine's address; its stamp then; and the number of the form, from 1,
 * 0 before the first. */
enum { OF_MACHINE, OF_STAMP, NUMBER };

static uint64_t number_of(const void *place) { return (uint64_t)(uintptr_t)place; }

static int are_codes(const uint32_t *codes, size_t room) {
    return codes ? is_aligned(codes, sizeof(uint32_t)) : room == 0;
}

/* The machine, for an export that leaves it as it is. */
static void *seen(const trac_machine *machine) { return (void *)(uintptr_t)machine; }

/* Whether a place in the list of forms is one of this machine as it is now. */
static int is_current(const trac_form *form, const trac_machine *machine) {
    return form->words[OF_MACHINE] == number_of(machine) && form->words[OF_STAMP] == machine->words[STAMP];
}

/* The machine that has a form at this place. Null where the place is none any more. */
static void *found(const trac_form *form) {
    const trac_machine *machine;
    if (!is_place(form) || !form->words[NUMBER])
        return NULL;
    machine = (const trac_machine *)(uintptr_t)form->words[OF_MACHINE];
    return is_opened(machine) && is_current(form, machine) ? seen(machine) : NULL;
}

static uint32_t *laid_to(uint32_t *codes) { return codes ? codes : (uint32_t *)(uintptr_t)&NOTHING; }

const char *trac_version(void) { return TRAC_VERSION; }

int trac_abi(uint32_t version, size_t machine_size, size_t report_size) {
    return version / 1000 == TRAC_VERSION_NUMBER / 1000 && machine_size == sizeof(trac_machine) &&
           report_size == sizeof(trac_report);
}

const char *trac_kind(void) { return TRAC_KIND; }

const char *trac_fate_name(uint32_t fate) {
    static const char names[][16] = {"going",        "halted",        "input ended", "workspace",    "steps",
                                        "input failed", "output failed", "wants input", "wants output", "refused",
                                        "no memory",    "wants answer"};
    return fate < sizeof names / sizeof *names ? names[fate] : "?";
}

const char *trac_rule_name(uint32_t rule) {
    static const char names[][16] = {"idling",       "layout",      "protection",  "argument", "active call",
                                        "neutral call", "number sign", "end of call", "character"};
    return rule < sizeof names / sizeof *names ? names[rule] : "?";
}

static int can_run(const trac_cell *block, size_t cells, const void *script, size_t script_length, const void *output,
                   size_t output_length) {
    return is_block(block, cells) && are_bytes(script, script_length) && are_bytes(output, output_length);
}

trac_report trac_run(trac_cell *block, size_t cells, uint64_t steps, const void *script, size_t script_length,
                     void *output, size_t output_length) {
    trac_cell no_cell;
    if (!can_run(block, cells, script, script_length, output, output_length))
        return refused;
    return trac_engine_run(block ? block : &no_cell, cells, steps, read_from(script), script_length,
                           written_to(output), output_length);
}

trac_report trac_run_zeroed(trac_cell *block, size_t cells, uint64_t steps, const void *script, size_t script_length,
                            void *output, size_t output_length) {
    trac_cell no_cell;
    if (!can_run(block, cells, script, script_length, output, output_length))
        return refused;
    return trac_engine_run_zeroed(block ? block : &no_cell, cells, steps, read_from(script), script_length,
                                  written_to(output), output_length);
}

/* Opens a machine by an export, where its words and its block can be used. */
static uint32_t open_by(uint32_t (*opens)(void *, void *, size_t, uint64_t), trac_machine *machine, trac_cell *block,
                        size_t cells, uint64_t steps) {
    if (!is_place(machine) || !is_block(block, cells) || cells > TRAC_MOST_CELLS ||
        trac_engine_machine_size() > ENGINE_WORDS * sizeof(uint64_t) || trac_engine_cell_size() != sizeof(trac_cell))
        return TRAC_REFUSED;
    if (!is_opened(machine))
        machine->words[STAMP] = number_of(machine) ^ steps;
    stamp(machine, number_of(block) ^ cells);
    machine->words[BLOCK] = number_of(block);
    machine->words[MARK] = OPENED;
    return opens(machine, block ? (void *)block : (void *)machine, cells, steps);
}

uint32_t trac_open(trac_machine *machine, trac_cell *block, size_t cells, uint64_t steps) {
    return open_by(trac_engine_open, machine, block, cells, steps);
}

uint32_t trac_open_zeroed(trac_machine *machine, trac_cell *block, size_t cells, uint64_t steps) {
    return open_by(trac_engine_open_zeroed, machine, block, cells, steps);
}

/* Puts the address of a machine's block to where the engine keeps it: that is where two machines of no cells differ, of
 * which one was opened at the old address and one at the new one. */
static void put_address(trac_machine *machine, void *old_block, void *block) {
    trac_machine before = TRAC_NO_MACHINE, after = TRAC_NO_MACHINE;
    (void)trac_engine_open(&before, old_block, 0, 0);
    (void)trac_engine_open(&after, block, 0, 0);
    for (int i = 0; i < ENGINE_WORDS; i++)
        if (machine->words[i] == before.words[i])
            machine->words[i] = after.words[i];
}

uint32_t trac_moved(trac_machine *machine, trac_cell *block) {
    if (!is_opened(machine) || !block || !machine->words[BLOCK] || !is_aligned(block, sizeof(uint32_t)))
        return TRAC_REFUSED;
    put_address(machine, (void *)(uintptr_t)machine->words[BLOCK], block);
    machine->words[BLOCK] = number_of(block);
    stamp(machine, number_of(block));
    return 0;
}

trac_report trac_turn(trac_machine *machine, const void *input, size_t input_length, int ended, void *output,
                      size_t output_length, uint64_t most) {
    if (!is_opened(machine) || !are_bytes(input, input_length) || !are_bytes(output, output_length))
        return refused;
    stamp(machine, most);
    return trac_engine_turn(machine, read_from(input), input_length, written_to(output), output_length, ended != 0,
                            most);
}

uint32_t trac_again(trac_machine *machine, uint64_t steps) {
    if (!is_opened(machine))
        return TRAC_REFUSED;
    stamp(machine, steps);
    trac_engine_again(machine, steps);
    return 0;
}

uint32_t trac_stop_at_unknown(trac_machine *machine, int on) {
    if (!is_opened(machine))
        return TRAC_REFUSED;
    stamp(machine, 0);
    trac_engine_stop_at_unknown(machine, on != 0);
    return 0;
}

trac_report trac_answer(trac_machine *machine, const void *value, size_t length, uint32_t how) {
    if (!is_opened(machine) || !are_bytes(value, length))
        return refused;
    const trac_report told = trac_engine_answer(machine, read_from(value), length, how);
    (void)stamped(machine, length, told.fate);
    return told;
}

size_t trac_printed(const trac_machine *machine, size_t from, void *to, size_t room) {
    if (!is_opened(machine) || !are_bytes(to, room))
        return 0;
    return trac_engine_printed(seen(machine), from, written_to(to), room);
}

trac_report trac_skip_print(trac_machine *machine) {
    if (!is_opened(machine))
        return refused;
    const trac_report told = trac_engine_skip_print(machine);
    (void)stamped(machine, 0, told.fate);
    return told;
}

/* A run with the caller's functions, and how much of its buffer is in use: what was read and is not consumed. */
typedef struct {
    trac_machine machine;
    trac_reader read;
    trac_writer write;
    void *context;
    uint8_t *buffer;
    size_t room, begin, end, consumed, written;
    int has_ended;
} called_run;

/* Moves what is not consumed to the front of the buffer. */
static void called_to_front(called_run *run) {
    if (!run->begin)
        return;
    memmove(run->buffer, run->buffer + run->begin, run->end - run->begin);
    run->end -= run->begin;
    run->begin = 0;
}

/* The report of a step that a device failed: of the same step where the device did not, but for the count of it. */
static trac_report called_failure(uint32_t fate, trac_report done) {
    done.fate = fate;
    done.steps--;
    return done;
}

/* A turn over what was read and is not consumed. */
static trac_report called_turn(called_run *run, int has_ended, uint64_t most) {
    const size_t held = run->end - run->begin;
    const trac_report report =
        trac_turn(&run->machine, run->buffer + run->begin, held, has_ended, NULL, 0, most);
    run->begin += report.consumed;
    run->consumed += report.consumed;
    return report;
}

/* Has the caller read on, behind what is not consumed. */
static trac_report called_read(called_run *run, trac_report report) {
    size_t count, free;
    called_to_front(run);
    free = run->room - run->end;
    report.fate = free ? TRAC_GOING : TRAC_NO_MEMORY;
    if (!free)
        return report;
    count = run->read(run->context, run->buffer + run->end, free);
    if (count > free)
        return called_failure(TRAC_INPUT_FAILED, called_turn(run, 1, 1));
    run->end += count;
    run->has_ended = count == 0;
    return report;
}

/* Has the caller write a piece of what is printed, and gives how many bytes it took before it failed. */
static size_t called_write(const called_run *run, const uint8_t *piece, size_t length) {
    size_t done = 0, count = 1;
    while (count && done < length) {
        count = run->write(run->context, piece + done, length - done);
        count = count > length - done ? 0 : count;
        done += count;
    }
    return done;
}

/* Has the caller write the bytes that the next step prints, and makes that step. They are laid in what is free of the
 * buffer, or where that is less on the stack. */
static trac_report called_print(called_run *run, size_t wanted) {
    uint8_t small[256];
    const size_t free = run->room - run->end, room = free > sizeof small ? free : sizeof small;
    uint8_t *const piece = free > sizeof small ? run->buffer + run->end : small;
    size_t done = 0, length, taken;
    do {
        length = trac_printed(&run->machine, done, piece, room);
        length = length < room ? length : room;
        taken = called_write(run, piece, length);
        done += taken;
    } while (taken == length && done < wanted);
    run->written += done;
    const trac_report report = trac_skip_print(&run->machine);
    return taken < length ? called_failure(TRAC_OUTPUT_FAILED, report) : report;
}

/* Makes steps up to one that reads more than there is, prints, or ends the run. */
static trac_report called_steps(called_run *run) {
    const trac_report report = called_turn(run, run->has_ended, UINT64_MAX);
    if (report.fate == TRAC_WANTS_INPUT)
        return called_read(run, report);
    return report.fate == TRAC_WANTS_OUTPUT ? called_print(run, report.wanted) : report;
}

trac_report trac_run_with(trac_cell *block, size_t cells, uint64_t steps, void *buffer, size_t room, trac_reader read,
                          trac_writer write, void *context) {
    called_run run = {TRAC_NO_MACHINE, read, write, context, written_to(buffer), room, 0, 0, 0, 0, 0};
    trac_report report;
    if (!read || !write || !are_bytes(buffer, room) || trac_open(&run.machine, block, cells, steps))
        return refused;
    do {
        report = called_steps(&run);
    } while (report.fate == TRAC_GOING);
    called_to_front(&run);
    report.written = run.written;
    report.consumed = run.consumed;
    return report;
}

uint32_t trac_define(trac_machine *machine, const void *name, size_t name_length, const uint32_t *codes, size_t count,
                     size_t pointer) {
    if (!is_opened(machine) || !are_bytes(name, name_length) || !are_codes(codes, count))
        return TRAC_REFUSED;
    return stamped(machine, count, trac_engine_define(machine, read_from(name), name_length, codes ? codes : &NOTHING,
                                                      count, pointer));
}

uint32_t trac_define_text(trac_machine *machine, const void *name, size_t name_length, const void *body,
                          size_t body_length) {
    if (!is_opened(machine) || !are_bytes(name, name_length) || !are_bytes(body, body_length))
        return TRAC_REFUSED;
    return stamped(machine, body_length, trac_engine_define_text(machine, read_from(name), name_length,
                                                                 read_from(body), body_length));
}

uint32_t trac_delete(trac_machine *machine, const void *name, size_t name_length) {
    if (!is_opened(machine) || !are_bytes(name, name_length))
        return TRAC_REFUSED;
    return stamped(machine, name_length, trac_engine_delete(machine, read_from(name), name_length));
}

uint32_t trac_delete_all(trac_machine *machine) {
    if (!is_opened(machine))
        return TRAC_REFUSED;
    stamp(machine, 0);
    trac_engine_delete_all(machine);
    return 0;
}

uint32_t trac_set_meta(trac_machine *machine, uint32_t byte) {
    if (!is_opened(machine))
        return TRAC_REFUSED;
    return stamped(machine, byte, trac_engine_set_meta(machine, byte));
}

size_t trac_save(const trac_machine *machine, void *to, size_t room) {
    if (!is_opened(machine) || !are_bytes(to, room))
        return 0;
    return trac_engine_save(seen(machine), written_to(to), room);
}

uint32_t trac_load(trac_machine *machine, const void *from, size_t length) {
    if (!is_opened(machine) || !are_bytes(from, length))
        return TRAC_REFUSED;
    return stamped(machine, length, trac_engine_load(machine, read_from(from), length));
}

uint32_t trac_take_peak(trac_machine *machine) {
    return is_opened(machine) ? trac_engine_take_peak(machine) : 0;
}

size_t trac_form_count(const trac_machine *machine) {
    return is_opened(machine) ? trac_engine_form_count(seen(machine)) : 0;
}

int trac_next_form(const trac_machine *machine, trac_form *form) {
    size_t count;
    if (!is_opened(machine) || !is_place(form))
        return 0;
    if (!form->words[NUMBER]) {
        form->words[OF_MACHINE] = number_of(machine);
        form->words[OF_STAMP] = machine->words[STAMP];
    } else if (!is_current(form, machine)) {
        return 0;
    }
    count = trac_engine_form_count(seen(machine));
    if (form->words[NUMBER] > count)
        return 0;
    trac_engine_turn_to_form(seen(machine), (size_t)form->words[NUMBER]++);
    return form->words[NUMBER] <= count;
}

int trac_find_form(const trac_machine *machine, const void *name, size_t name_length, trac_form *form) {
    if (!is_opened(machine) || !is_place(form) || !are_bytes(name, name_length))
        return 0;
    form->words[OF_MACHINE] = number_of(machine);
    form->words[OF_STAMP] = machine->words[STAMP];
    form->words[NUMBER] = trac_engine_find_form(seen(machine), read_from(name), name_length);
    return form->words[NUMBER] != 0;
}

/* Which form it is, from 0. Behind the last one there is none. */
static size_t place_of(const trac_form *form) { return (size_t)(form->words[NUMBER] - 1); }

size_t trac_form_name(const trac_form *form, void *to, size_t room) {
    void *const machine = found(form);
    if (!machine || !are_bytes(to, room))
        return 0;
    return trac_engine_form_name(machine, place_of(form), written_to(to), room);
}

size_t trac_form_text(const trac_form *form, void *to, size_t room) {
    void *const machine = found(form);
    if (!machine || !are_bytes(to, room))
        return 0;
    return trac_engine_form_text(machine, place_of(form), written_to(to), room);
}

size_t trac_form_codes(const trac_form *form, uint32_t *to, size_t room) {
    void *const machine = found(form);
    if (!machine || !are_codes(to, room))
        return 0;
    return trac_engine_form_codes(machine, place_of(form), laid_to(to), room);
}

size_t trac_form_pointer(const trac_form *form) {
    void *const machine = found(form);
    return machine ? trac_engine_form_pointer(machine, place_of(form)) : 0;
}

size_t trac_neutral_part(const trac_machine *machine, size_t from, uint32_t *to, size_t room) {
    if (!is_opened(machine) || !are_codes(to, room))
        return 0;
    return trac_engine_neutral_part(seen(machine), from, laid_to(to), room);
}

size_t trac_active_part(const trac_machine *machine, size_t from, uint32_t *to, size_t room) {
    if (!is_opened(machine) || !are_codes(to, room))
        return 0;
    return trac_engine_active_part(seen(machine), from, laid_to(to), room);
}

size_t trac_neutral(const trac_machine *machine, uint32_t *to, size_t room) {
    return trac_neutral_part(machine, 0, to, room);
}

size_t trac_active(const trac_machine *machine, uint32_t *to, size_t room) {
    return trac_active_part(machine, 0, to, room);
}

size_t trac_calls(const trac_machine *machine, uint32_t *to, size_t room) {
    if (!is_opened(machine) || !are_codes(to, room))
        return 0;
    return trac_engine_calls(seen(machine), laid_to(to), room);
}

size_t trac_argument_count(const trac_machine *machine) {
    return is_opened(machine) ? trac_engine_argument_count(seen(machine)) : 0;
}

size_t trac_argument(const trac_machine *machine, size_t which, void *to, size_t room) {
    if (!is_opened(machine) || !are_bytes(to, room))
        return 0;
    return trac_engine_argument(seen(machine), which, written_to(to), room);
}

size_t trac_function_count(void) { return trac_engine_function_count(); }

uint32_t trac_function(size_t which, trac_function_facts *facts) {
    if (!facts || !is_aligned(facts, sizeof(uint32_t)) || which >= trac_engine_function_count())
        return TRAC_REFUSED;
    uint32_t *const each[] = {&facts->uses,    &facts->forms,        &facts->needs_form, &facts->changes_forms,
                              &facts->gives,   &facts->default_argument, &facts->chooses, &facts->reads,
                              &facts->prints,  &facts->changes_meta, &facts->ends};
    for (uint32_t fact = 0; fact < sizeof each / sizeof each[0]; fact++)
        *each[fact] = trac_engine_function_fact(which, fact);
    return 0;
}

size_t trac_function_text(size_t which, uint32_t text, void *to, size_t room) {
    return are_bytes(to, room) ? trac_engine_function_text(which, text, written_to(to), room) : 0;
}

size_t trac_takes(const trac_machine *machine) { return is_opened(machine) ? trac_engine_takes(seen(machine)) : 0; }

size_t trac_drops(const trac_machine *machine) { return is_opened(machine) ? trac_engine_drops(seen(machine)) : 0; }

uint64_t trac_steps_to_call(const trac_machine *machine, uint64_t most) {
    return is_opened(machine) ? trac_engine_steps_to_call(seen(machine), most) : 0;
}

uint32_t trac_rule(const trac_machine *machine) {
    return is_opened(machine) ? trac_engine_rule(seen(machine)) : TRAC_REFUSED;
}

size_t trac_part(const trac_machine *machine, uint32_t which) {
    return is_opened(machine) ? trac_engine_part(seen(machine), which) : 0;
}

uint32_t trac_meta(const trac_machine *machine) {
    return is_opened(machine) ? trac_engine_meta(seen(machine)) : 256;
}

uint32_t trac_awaits(const trac_machine *machine) {
    return is_opened(machine) ? trac_engine_awaits(seen(machine)) : TRAC_REFUSED;
}
#endif
