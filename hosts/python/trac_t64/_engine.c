/* The module trac_t64._engine: a machine of trac.h as a Python object, with its own block and buffers. Written by hand,
 * and tested. It uses only Python's stable ABI. The engine is in the same compilation unit, so no other library sees
 * it. */
#define PY_SSIZE_T_CLEAN
#include <Python.h>

#include "trac_engine.c"

#include <stdlib.h>
#include <time.h>

/* The steps of a turn that keeps Python's lock; the time between two tests for signals, as a part of a second; the
 * smallest size of a buffer in bytes, and the greatest size that it keeps when it is empty. */
enum { SHORT = 16, LOOKS = 20, LEAST = 4096, KEPT = 65536 };

/* The smallest and the greatest number of steps of a turn, and the number of cells that its steps may pass over if each
 * passes over everything: about 50 milliseconds. */
enum { FEWEST = 4, MOST = 4096, CELLS_A_TURN = 1 << 24 };

/* ---- Bytes that are appended at the end and removed at the front. */

typedef struct {
    char *bytes;
    size_t start, end, room;
} buffer;

static size_t length_of(const buffer *of) { return of->end - of->start; }

static size_t room_in(const buffer *of) { return of->room - of->end; }

/* The first byte; null if there is no memory yet. */
static char *front_of(const buffer *of) { return of->bytes ? of->bytes + of->start : NULL; }

/* Makes room for a number of further bytes. Gives 0, with nothing changed, if there is no memory for them. */
static int reserve(buffer *to, size_t more) {
    const size_t length = length_of(to), most = (size_t)PY_SSIZE_T_MAX / 2;
    if (more <= room_in(to))
        return 1;
    if (more > most - length)
        return 0;
    const size_t needed = length + more > LEAST ? length + more : LEAST, room = needed + needed / 2;
    char *const bytes = (char *)malloc(room);
    if (!bytes)
        return 0;
    if (length)
        memcpy(bytes, front_of(to), length);
    free(to->bytes);
    *to = (buffer){bytes, 0, length, room};
    return 1;
}

/* Adds bytes. Gives 0, with nothing changed, if there is no memory for them. */
static int append(buffer *to, const void *bytes, size_t length) {
    if (!reserve(to, length))
        return 0;
    if (length)
        memcpy(to->bytes + to->end, bytes, length);
    to->end += length;
    return 1;
}

/* Removes bytes from the front. An empty buffer doesn't keep much memory. */
static void discard(buffer *from, size_t length) {
    from->start += length;
    if (from->start < from->end)
        return;
    from->start = from->end = 0;
    if (from->room > KEPT) {
        free(from->bytes);
        *from = (buffer){NULL, 0, 0, 0};
    }
}

static PyObject *bytes_of(const buffer *of) {
    return PyBytes_FromStringAndSize(of->bytes ? front_of(of) : "", (Py_ssize_t)length_of(of));
}

/* ---- Machines. */

typedef struct {
    PyObject_HEAD
    trac_machine machine;
    trac_cell *block; /* null if the machine is closed */
    size_t cells;
    buffer input, output;
    int has_ended; /* whether the input ends after the content of the buffer */
    int is_busy;   /* whether a call uses it. Whoever asks meanwhile, as an object's finaliser does, is refused */
    uint8_t *lent; /* for the lists of a shown step, and after them for its lines; null before the first */
    size_t lent_length; /* the bytes of each of the two */
    trac_report report;
    uint64_t consumed;
} machine_object;

/* Whether the machine can be used now; if not, the error is set. */
static int is_usable(const machine_object *self) {
    if (!self->block) {
        PyErr_SetString(PyExc_ValueError, "the session is closed");
        return 0;
    }
    if (self->is_busy) {
        PyErr_SetString(PyExc_RuntimeError, "the session is in the middle of a turn or another call");
        return 0;
    }
    return 1;
}

/* Reserves the machine for one call, which makes Python objects or runs Python code, made by a function; gives what the
 * function gives. */
static PyObject *used(machine_object *self, PyObject *(*by)(machine_object *)) {
    PyObject *result;
    if (!is_usable(self))
        return NULL;
    self->is_busy = 1;
    result = by(self);
    self->is_busy = 0;
    return result;
}

/* Frees the block and all other memory. */
static void release(machine_object *self) {
    free(self->block);
    free(self->input.bytes);
    free(self->output.bytes);
    free(self->lent);
    self->block = NULL;
    self->lent = NULL;
    self->input = self->output = (buffer){NULL, 0, 0, 0};
}

static void machine_dealloc(PyObject *object) {
    PyTypeObject *const type = Py_TYPE(object);
    release((machine_object *)object);
    ((freefunc)PyType_GetSlot(type, Py_tp_free))(object);
    Py_DECREF(type);
}

static PyObject *machine_new(PyTypeObject *type, PyObject *arguments, PyObject *names) {
    static char cells_name[] = "cells", steps_name[] = "steps";
    static char *known[] = {cells_name, steps_name, NULL};
    Py_ssize_t cells;
    PyObject *number;
    if (!PyArg_ParseTupleAndKeywords(arguments, names, "nO", known, &cells, &number))
        return NULL;
    const uint64_t steps = PyLong_AsUnsignedLongLong(number);
    if (steps == UINT64_MAX && PyErr_Occurred())
        return NULL;
    if (cells < 1 || cells > TRAC_MOST_CELLS)
        return PyErr_Format(PyExc_ValueError, "cells must be from 1 to %d", TRAC_MOST_CELLS);
    machine_object *const self = (machine_object *)PyType_GenericAlloc(type, 0);
    if (!self)
        return NULL;
    self->block = (trac_cell *)calloc((size_t)cells, sizeof(trac_cell));
    self->cells = (size_t)cells;
    if (self->block && trac_open_zeroed(&self->machine, self->block, self->cells, steps) == 0)
        return (PyObject *)self;
    Py_DECREF(self);
    return PyErr_NoMemory();
}

static PyObject *machine_close(machine_object *self, PyObject *nothing) {
    (void)nothing;
    if (self->block && !is_usable(self))
        return NULL;
    release(self);
    Py_RETURN_NONE;
}

static PyObject *machine_copy(machine_object *self, PyObject *nothing) {
    (void)nothing;
    if (!is_usable(self))
        return NULL;
    machine_object *const copy = (machine_object *)PyType_GenericAlloc(Py_TYPE((PyObject *)self), 0);
    if (!copy)
        return NULL;
    const size_t size = self->cells * sizeof(trac_cell);
    copy->block = (trac_cell *)malloc(size);
    if (!copy->block || !append(&copy->input, front_of(&self->input), length_of(&self->input)) ||
        !append(&copy->output, front_of(&self->output), length_of(&self->output))) {
        Py_DECREF(copy);
        return PyErr_NoMemory();
    }
    memcpy(copy->block, self->block, size);
    copy->cells = self->cells;
    copy->machine = self->machine;
    (void)trac_moved(&copy->machine, copy->block);
    copy->has_ended = self->has_ended;
    copy->report = self->report;
    copy->consumed = self->consumed;
    return (PyObject *)copy;
}

/* ---- Turns. */

static PyObject *machine_feed(machine_object *self, PyObject *given) {
    char *bytes;
    Py_ssize_t length;
    if (!is_usable(self) || PyBytes_AsStringAndSize(given, &bytes, &length) < 0)
        return NULL;
    if (!append(&self->input, bytes, (size_t)length))
        return PyErr_NoMemory();
    Py_RETURN_NONE;
}

static PyObject *machine_end(machine_object *self, PyObject *nothing) {
    (void)nothing;
    if (!is_usable(self))
        return NULL;
    self->has_ended = 1;
    Py_RETURN_NONE;
}

/* Makes at most `most` steps, with the given room for their output in bytes. Gives the number of steps made. */
static uint64_t take_turn(machine_object *self, size_t room, uint64_t most) {
    const uint64_t before = self->report.steps;
    buffer *const input = &self->input, *const output = &self->output;
    self->report = trac_turn(&self->machine, front_of(input), length_of(input), self->has_ended,
                             room ? output->bytes + output->end : NULL, room, most);
    discard(input, self->report.consumed);
    output->end += self->report.written;
    self->consumed += self->report.consumed;
    return self->report.steps - before;
}

/* What is left to do, and whether to stop after a step that printed something. */
typedef struct {
    uint64_t most;
    int stops_at_output;
} task;

/* Why the steps stopped: there are no more to make now; there is no memory for a print, whose step wasn't done; or it
 * is time to test for signals. */
typedef enum { DONE, NO_MEMORY, TIME } stop;

/* How many steps the next turn makes, so that it ends in time for a test for signals, whatever the steps do. */
static uint64_t steps_a_turn(const machine_object *self) {
    const size_t used = self->cells - trac_part(&self->machine, TRAC_PART_FREE) + length_of(&self->input);
    const size_t steps = CELLS_A_TURN / (used + 1);
    return steps < FEWEST ? FEWEST : steps > MOST ? MOST : steps;
}

/* Makes steps until they stop. Doesn't need Python's lock. */
static stop make_steps(machine_object *self, task *of) {
    const clock_t begin = clock();
    while (of->most && clock() - begin <= CLOCKS_PER_SEC / LOOKS) {
        const size_t room = of->stops_at_output ? 0 : room_in(&self->output);
        const uint64_t steps = steps_a_turn(self);
        of->most -= take_turn(self, room, of->most < steps ? of->most : steps);
        if (self->report.fate == TRAC_WANTS_OUTPUT) {
            if (!reserve(&self->output, self->report.wanted))
                return NO_MEMORY;
            of->most -= take_turn(self, room_in(&self->output), 1);
            if (of->stops_at_output)
                return DONE;
        }
        if (self->report.fate != TRAC_GOING)
            return DONE;
    }
    return of->most ? TIME : DONE;
}

/* Makes steps, and tests for signals in between. Gives 0 if the error is set. */
static int go_on(machine_object *self, task *of) {
    stop why;
    do {
        if (of->most <= SHORT) {
            why = make_steps(self, of);
        } else {
            Py_BEGIN_ALLOW_THREADS
            why = make_steps(self, of);
            Py_END_ALLOW_THREADS
        }
        if (PyErr_CheckSignals() < 0)
            return 0;
    } while (why == TIME);
    if (why == NO_MEMORY)
        PyErr_NoMemory();
    return why == DONE;
}

static PyObject *machine_go(machine_object *self, PyObject *arguments) {
    PyObject *number;
    task given;
    if (!PyArg_ParseTuple(arguments, "Op", &number, &given.stops_at_output))
        return NULL;
    given.most = PyLong_AsUnsignedLongLong(number);
    if ((given.most == UINT64_MAX && PyErr_Occurred()) || !is_usable(self))
        return NULL;
    self->is_busy = 1;
    const int is_done = go_on(self, &given);
    self->is_busy = 0;
    if (!is_done)
        return NULL;
    Py_RETURN_NONE;
}

static PyObject *taken(machine_object *self) {
    PyObject *const printed = bytes_of(&self->output);
    if (printed)
        discard(&self->output, length_of(&self->output));
    return printed;
}

static PyObject *machine_take(machine_object *self, PyObject *nothing) {
    (void)nothing;
    return used(self, taken);
}

static PyObject *machine_again(machine_object *self, PyObject *number) {
    const uint64_t steps = PyLong_AsUnsignedLongLong(number);
    if ((steps == UINT64_MAX && PyErr_Occurred()) || !is_usable(self))
        return NULL;
    (void)trac_again(&self->machine, steps);
    discard(&self->input, length_of(&self->input));
    self->has_ended = 0;
    self->report = (trac_report){TRAC_GOING, 0, 0, 0, 0, 0};
    self->consumed = 0;
    Py_RETURN_NONE;
}

/* ---- Calls that the host answers, and forms from outside. */

static PyObject *machine_stop_at_unknown(machine_object *self, PyObject *stops) {
    const int is_on = PyObject_IsTrue(stops);
    if (is_on < 0 || !is_usable(self))
        return NULL;
    (void)trac_stop_at_unknown(&self->machine, is_on);
    Py_RETURN_NONE;
}

/* Calls a function of the host with its arguments. The machine can't be used meanwhile. */
static PyObject *machine_call(machine_object *self, PyObject *arguments) {
    PyObject *function, *given, *made;
    if (!PyArg_ParseTuple(arguments, "OO!", &function, &PyTuple_Type, &given) || !is_usable(self))
        return NULL;
    self->is_busy = 1;
    made = PyObject_CallObject(function, given);
    self->is_busy = 0;
    return made;
}

/* Sets the error if the engine refused the request. */
static PyObject *was_refused(const char *reason) {
    PyErr_SetString(PyExc_ValueError, reason);
    return NULL;
}

static PyObject *machine_answer(machine_object *self, PyObject *arguments) {
    const char *value;
    Py_ssize_t length;
    unsigned int how;
    if (!PyArg_ParseTuple(arguments, "y#I", &value, &length, &how) || !is_usable(self))
        return NULL;
    const trac_report told = trac_answer(&self->machine, value, (size_t)length, how);
    if (told.fate == TRAC_REFUSED)
        return was_refused("no call waits for a value");
    self->report = told;
    Py_RETURN_NONE;
}

static PyObject *machine_define(machine_object *self, PyObject *arguments) {
    const char *name, *codes;
    Py_ssize_t name_length, length, pointer;
    if (!PyArg_ParseTuple(arguments, "y#y#n", &name, &name_length, &codes, &length, &pointer) || !is_usable(self))
        return NULL;
    const size_t count = (size_t)length / sizeof(uint32_t);
    uint32_t *const copy = (uint32_t *)malloc(count ? count * sizeof(uint32_t) : 1);
    if (!copy)
        return PyErr_NoMemory();
    memcpy(copy, codes, count * sizeof(uint32_t));
    const uint32_t refused = trac_define(&self->machine, name, (size_t)name_length, copy, count, (size_t)pointer);
    free(copy);
    if (refused)
        return was_refused("the form does not fit, or an item or the pointer is out of range");
    Py_RETURN_NONE;
}

static PyObject *machine_delete(machine_object *self, PyObject *name) {
    char *bytes;
    Py_ssize_t length;
    if (!is_usable(self) || PyBytes_AsStringAndSize(name, &bytes, &length) < 0)
        return NULL;
    return PyBool_FromLong(trac_delete(&self->machine, bytes, (size_t)length) == 0);
}

static PyObject *machine_delete_all(machine_object *self, PyObject *nothing) {
    (void)nothing;
    if (!is_usable(self))
        return NULL;
    (void)trac_delete_all(&self->machine);
    Py_RETURN_NONE;
}

static PyObject *machine_save(machine_object *self, PyObject *nothing) {
    (void)nothing;
    if (!is_usable(self))
        return NULL;
    const size_t length = trac_save(&self->machine, NULL, 0);
    self->is_busy = 1;
    PyObject *const image = PyBytes_FromStringAndSize(NULL, (Py_ssize_t)length);
    if (image)
        (void)trac_save(&self->machine, PyBytes_AsString(image), length);
    self->is_busy = 0;
    return image;
}

static PyObject *machine_load(machine_object *self, PyObject *image) {
    char *bytes;
    Py_ssize_t length;
    if (PyBytes_AsStringAndSize(image, &bytes, &length) < 0 || !is_usable(self))
        return NULL;
    if (trac_load(&self->machine, bytes, (size_t)length))
        return was_refused("these bytes are no image of forms, or its forms don't fit into the workspace");
    Py_RETURN_NONE;
}

static PyObject *machine_set_meta(machine_object *self, PyObject *number) {
    const unsigned long byte = PyLong_AsUnsignedLong(number);
    if ((byte == (unsigned long)-1 && PyErr_Occurred()) || !is_usable(self))
        return NULL;
    if (byte > 255 || trac_set_meta(&self->machine, (uint32_t)byte))
        return was_refused("the meta character must be a byte");
    Py_RETURN_NONE;
}

/* ---- What a machine shows. */

static PyObject *reported(machine_object *self) {
    return Py_BuildValue("sKIK", trac_fate_name(self->report.fate), (unsigned long long)self->report.steps,
                         (unsigned int)self->report.peak, (unsigned long long)self->consumed);
}

static PyObject *machine_report(machine_object *self, PyObject *nothing) {
    (void)nothing;
    return used(self, reported);
}

static PyObject *unread(machine_object *self) { return bytes_of(&self->input); }

static PyObject *machine_unread(machine_object *self, PyObject *nothing) {
    (void)nothing;
    return used(self, unread);
}

static PyObject *machine_has_ended(machine_object *self, PyObject *nothing) {
    (void)nothing;
    return is_usable(self) ? PyBool_FromLong(self->has_ended) : NULL;
}

/* Fills new bytes by a function of trac.h, which answers how many items there are. */
static PyObject *filled_by_form(const trac_form *form, size_t (*fill)(const trac_form *, void *, size_t)) {
    const size_t length = fill(form, NULL, 0);
    PyObject *const bytes = PyBytes_FromStringAndSize(NULL, (Py_ssize_t)length);
    if (bytes)
        (void)fill(form, PyBytes_AsString(bytes), length);
    return bytes;
}

/* New bytes with room for a number of codes, each with 32 bits. */
static PyObject *room_for_codes(size_t count) {
    return PyBytes_FromStringAndSize(NULL, (Py_ssize_t)(count * sizeof(uint32_t)));
}

static uint32_t *codes_in(PyObject *bytes) { return (uint32_t *)(void *)PyBytes_AsString(bytes); }

static PyObject *codes_of_form(const trac_form *form) {
    const size_t count = trac_form_codes(form, NULL, 0);
    PyObject *const bytes = room_for_codes(count);
    if (bytes)
        (void)trac_form_codes(form, codes_in(bytes), count);
    return bytes;
}

/* A part of a string from a place on, with at most `most` codes, by a function of trac.h. */
static PyObject *codes_of_part(machine_object *self, size_t (*fill)(const trac_machine *, size_t, uint32_t *, size_t),
                               Py_ssize_t start, Py_ssize_t most) {
    if (!is_usable(self))
        return NULL;
    const size_t left = fill(&self->machine, (size_t)start, NULL, 0);
    const size_t count = left < (size_t)most ? left : (size_t)most;
    self->is_busy = 1;
    PyObject *const bytes = room_for_codes(count);
    if (bytes)
        (void)fill(&self->machine, (size_t)start, codes_in(bytes), count);
    self->is_busy = 0;
    return bytes;
}

/* A form: its name, what `pf` shows, its items as codes, and its pointer. */
static PyObject *form_tuple(const trac_form *form) {
    PyObject *const name = filled_by_form(form, trac_form_name), *const text = filled_by_form(form, trac_form_text),
                    *const codes = codes_of_form(form);
    PyObject *const made = name && text && codes
                               ? Py_BuildValue("OOOn", name, text, codes, (Py_ssize_t)trac_form_pointer(form))
                               : NULL;
    Py_XDECREF(name);
    Py_XDECREF(text);
    Py_XDECREF(codes);
    return made;
}

/* Objects are made during this, so the collector may run finalisers; these can't use the machine meanwhile. */
static PyObject *forms(machine_object *self) {
    trac_form form = TRAC_NO_FORM;
    PyObject *const list = PyList_New(0);
    while (list && trac_next_form(&self->machine, &form)) {
        PyObject *const each = form_tuple(&form);
        const int is_added = each && PyList_Append(list, each) == 0;
        Py_XDECREF(each);
        if (!is_added) {
            Py_DECREF(list);
            return NULL;
        }
    }
    return list;
}

static PyObject *machine_forms(machine_object *self, PyObject *nothing) {
    (void)nothing;
    return used(self, forms);
}

static PyObject *machine_neutral_part(machine_object *self, PyObject *arguments) {
    Py_ssize_t start, most;
    return PyArg_ParseTuple(arguments, "nn", &start, &most) ? codes_of_part(self, trac_neutral_part, start, most)
                                                            : NULL;
}

static PyObject *machine_active_part(machine_object *self, PyObject *arguments) {
    Py_ssize_t start, most;
    return PyArg_ParseTuple(arguments, "nn", &start, &most) ? codes_of_part(self, trac_active_part, start, most) : NULL;
}

static size_t calls_from(const trac_machine *machine, size_t from, uint32_t *to, size_t room) {
    (void)from;
    return trac_calls(machine, to, room);
}

static PyObject *machine_calls(machine_object *self, PyObject *nothing) {
    (void)nothing;
    return codes_of_part(self, calls_from, 0, PY_SSIZE_T_MAX);
}

/* An argument of the call that the next step performs. */
static PyObject *argument(const machine_object *self, size_t which) {
    const size_t length = trac_argument(&self->machine, which, NULL, 0);
    PyObject *const bytes = PyBytes_FromStringAndSize(NULL, (Py_ssize_t)length);
    if (bytes)
        (void)trac_argument(&self->machine, which, PyBytes_AsString(bytes), length);
    return bytes;
}

/* All of these arguments. Each is searched for from the first one on, so if there are many, a signal can stop this. */
static PyObject *all_arguments(machine_object *self) {
    const size_t count = trac_argument_count(&self->machine);
    PyObject *const tuple = PyTuple_New((Py_ssize_t)count);
    for (size_t which = 0; tuple && which < count; which++) {
        PyObject *const each = PyErr_CheckSignals() < 0 ? NULL : argument(self, which);
        if (!each || PyTuple_SetItem(tuple, (Py_ssize_t)which, each) < 0) {
            Py_DECREF(tuple);
            return NULL;
        }
    }
    return tuple;
}

static PyObject *machine_arguments(machine_object *self, PyObject *nothing) {
    (void)nothing;
    return used(self, all_arguments);
}

static PyObject *machine_takes(machine_object *self, PyObject *nothing) {
    (void)nothing;
    return is_usable(self) ? PyLong_FromSize_t(trac_takes(&self->machine)) : NULL;
}

static PyObject *machine_drops(machine_object *self, PyObject *nothing) {
    (void)nothing;
    return is_usable(self) ? PyLong_FromSize_t(trac_drops(&self->machine)) : NULL;
}

static PyObject *machine_steps_to_call(machine_object *self, PyObject *number) {
    const uint64_t most = PyLong_AsUnsignedLongLong(number);
    if ((most == UINT64_MAX && PyErr_Occurred()) || !is_usable(self))
        return NULL;
    return PyLong_FromUnsignedLongLong(trac_steps_to_call(&self->machine, most));
}

static PyObject *machine_rule(machine_object *self, PyObject *nothing) {
    (void)nothing;
    return is_usable(self) ? PyUnicode_FromString(trac_rule_name(trac_rule(&self->machine))) : NULL;
}

static PyObject *machine_awaits(machine_object *self, PyObject *nothing) {
    (void)nothing;
    return is_usable(self) ? PyLong_FromUnsignedLong(trac_awaits(&self->machine)) : NULL;
}

static PyObject *machine_meta(machine_object *self, PyObject *nothing) {
    (void)nothing;
    return is_usable(self) ? PyLong_FromUnsignedLong(trac_meta(&self->machine)) : NULL;
}

static PyObject *parts(machine_object *self) {
    Py_ssize_t cells[4];
    for (uint32_t part = TRAC_PART_STORE; part <= TRAC_PART_ACTIVE; part++)
        cells[part] = (Py_ssize_t)trac_part(&self->machine, part);
    return Py_BuildValue("nnnn", cells[TRAC_PART_STORE], cells[TRAC_PART_NEUTRAL], cells[TRAC_PART_FREE],
                         cells[TRAC_PART_ACTIVE]);
}

static PyObject *machine_parts(machine_object *self, PyObject *nothing) {
    (void)nothing;
    return used(self, parts);
}

static PyObject *machine_take_peak(machine_object *self, PyObject *nothing) {
    (void)nothing;
    return is_usable(self) ? PyLong_FromUnsignedLong(trac_take_peak(&self->machine)) : NULL;
}

/* ---- A shown run. */

/* Allocates memory for the lists and the lines of a step, as much as a step can need: memory that isn't used costs
 * nothing. If the system gives less, a step may run out of it. Gives 0 if there is hardly any. */
static int has_lent(machine_object *self) {
    const size_t least = (size_t)1 << 20;
    if (self->lent)
        return 1;
    self->lent_length = least + 256 * self->cells;
    while (!(self->lent = (uint8_t *)malloc(2 * self->lent_length)) && self->lent_length > least)
        self->lent_length /= 2;
    return self->lent != NULL;
}

/* The trace's words of memory before its first step: what to show. */
static PyObject *module_trace(PyObject *module, PyObject *args) {
    trac_trace trace = TRAC_NO_TRACE;
    unsigned long long from, to;
    unsigned int width, columns;
    int calls, forms;
    (void)module;
    if (!PyArg_ParseTuple(args, "KKIIpp", &from, &to, &width, &columns, &calls, &forms))
        return NULL;
    trace.from = from;
    trace.to = to;
    trace.width = width;
    trace.columns = columns;
    trace.calls = (uint32_t)calls;
    trace.forms = (uint32_t)forms;
    return PyBytes_FromStringAndSize((const char *)&trace, sizeof trace);
}

/* Makes a shown step. Gives 0 if there is no memory; then the step may have been made, without its lines. */
static int show_step(machine_object *self, trac_trace *trace) {
    buffer *const input = &self->input, *const output = &self->output;
    do {
        if (!reserve(output, self->report.wanted) || !has_lent(self))
            return 0;
        const trac_report told = trac_trace_step(
            &self->machine, trace, front_of(input), length_of(input), self->has_ended,
            output->bytes ? output->bytes + output->end : NULL, room_in(output), self->lent, self->lent_length,
            self->lent + self->lent_length, self->lent_length);
        discard(input, told.consumed);
        output->end += told.written;
        self->consumed += told.consumed;
        if (told.fate == TRAC_NO_MEMORY) {
            self->report.steps = told.steps;
            free(self->lent);
            self->lent = NULL; /* the next step may get more */
            return 0;
        }
        self->report = told;
    } while (self->report.fate == TRAC_WANTS_OUTPUT);
    return 1;
}

/* Makes a step with the words of a trace. Gives the words after it, and the lines; none if there is no memory. */
static PyObject *machine_show(machine_object *self, PyObject *words) {
    trac_trace trace;
    char *bytes;
    Py_ssize_t length;
    if (!is_usable(self) || PyBytes_AsStringAndSize(words, &bytes, &length) < 0)
        return NULL;
    if (length != (Py_ssize_t)sizeof trace)
        return PyErr_Format(PyExc_ValueError, "words must be %d bytes", (int)sizeof trace);
    memcpy(&trace, bytes, sizeof trace);
    const int is_shown = show_step(self, &trace);
    const char *const lines = is_shown ? (const char *)self->lent + self->lent_length : NULL;
    /* Objects are made, so the collector may run finalisers; these can't use the machine meanwhile. */
    self->is_busy = 1;
    PyObject *const shown = Py_BuildValue("y#y#", (const char *)&trace, (Py_ssize_t)sizeof trace, lines,
                                          (Py_ssize_t)trace.lines);
    self->is_busy = 0;
    return shown;
}

/* ---- What is suspicious in a script. */

/* The initial number of bytes for the lists of a check, and for its lines; and how many more there are for each byte of
 * the script, up to MOST_COUNTED. */
enum { LEAST_LISTS = 1 << 20, LEAST_LINES = 1 << 16, LISTS_A_BYTE = 128, LINES_A_BYTE = 16, MOST_COUNTED = 1 << 23 };

/* The input and the result of a check. */
typedef struct {
    Py_buffer script;
    size_t cells;
    uint64_t steps;
    void *lists, *lines;
    trac_report report;
} checking;

/* Replaces the memory at a place by other memory, without its content. Gives 0 if there is none. */
static int remade(void **place, size_t length) {
    free(*place);
    *place = malloc(length);
    return *place != NULL;
}

/* Checks in a block of zeros, so that only the cells that the run uses are written. Gives 0 if there is no memory for
 * the block. */
static int check_in_zeros(checking *of, size_t lists, size_t lines) {
    trac_cell *const block = (trac_cell *)calloc(of->cells, sizeof *block);
    if (block)
        of->report = trac_check_zeroed(block, of->cells, of->steps, of->script.buf, (size_t)of->script.len, of->lists,
                                       lists, of->lines, lines);
    free(block);
    return block != NULL;
}

/* Checks with memory for the given number of bytes of lists and of lines, or for more if necessary. Gives 0 if there is
 * no memory. */
static int checked(checking *of, size_t lists, size_t lines) {
    int is_made = remade(&of->lists, lists) && remade(&of->lines, lines);
    while (is_made) {
        if (!check_in_zeros(of, lists, lines))
            return 0;
        if (of->report.fate == TRAC_NO_MEMORY)
            is_made = lists <= SIZE_MAX / 4 && remade(&of->lists, lists *= 4);
        else if (of->report.wanted > of->report.written)
            is_made = remade(&of->lines, lines = of->report.wanted);
        else
            return 1;
    }
    return 0;
}

static PyObject *module_check(PyObject *module, PyObject *args) {
    checking of = {0};
    Py_ssize_t cells;
    unsigned long long steps;
    PyObject *result = NULL;
    int is_made = 0;
    (void)module;
    if (!PyArg_ParseTuple(args, "y*nK", &of.script, &cells, &steps))
        return NULL;
    of.cells = (size_t)cells;
    of.steps = steps;
    const size_t length = (size_t)of.script.len, counted = length < MOST_COUNTED ? length : MOST_COUNTED;
    Py_BEGIN_ALLOW_THREADS;
    is_made = checked(&of, LEAST_LISTS + LISTS_A_BYTE * counted, LEAST_LINES + LINES_A_BYTE * counted);
    Py_END_ALLOW_THREADS;
    if (is_made)
        result = Py_BuildValue("sKky#", trac_fate_name(of.report.fate), (unsigned long long)of.report.steps,
                               (unsigned long)of.report.peak, of.lines, (Py_ssize_t)of.report.written);
    else
        PyErr_NoMemory();
    free(of.lists);
    free(of.lines);
    PyBuffer_Release(&of.script);
    return result;
}

/* ---- The module. */

#define METHOD(name, takes, says) {#name, (PyCFunction)(void (*)(void))machine_##name, takes, says}

static PyMethodDef machine_methods[] = {
    METHOD(close, METH_NOARGS, "Gives up all memory."),
    METHOD(copy, METH_NOARGS, "A machine that stands where this one does."),
    METHOD(feed, METH_O, "Adds bytes to the input."),
    METHOD(end, METH_NOARGS, "Ends the input behind what it holds."),
    METHOD(go, METH_VARARGS, "Makes at most so many steps, up to the next print where the second argument is true."),
    METHOD(take, METH_NOARGS, "Takes what was printed."),
    METHOD(show, METH_O, "Makes a step by the words of a trace. Gives the words behind it, and its lines."),
    METHOD(stop_at_unknown, METH_O, "Says whether turns stop before a call whose name is no function."),
    METHOD(call, METH_VARARGS, "Calls a function with a tuple of arguments, while the machine can't be used."),
    METHOD(answer, METH_VARARGS,
           "Makes the step of a call whose name is no function, with a value; how it is delivered."),
    METHOD(define, METH_VARARGS, "Makes a form of a name, items as numbers of 32 bits, and a pointer."),
    METHOD(delete, METH_O, "Removes the form of a name, and says whether there was one."),
    METHOD(delete_all, METH_NOARGS, "Removes all forms."),
    METHOD(save, METH_NOARGS, "The image of the forms and the meta character."),
    METHOD(load, METH_O, "Takes an image in the place of the forms and the meta character."),
    METHOD(set_meta, METH_O, "Makes a byte the meta character."),
    METHOD(again, METH_O, "Begins a new run with an allowance of so many steps; drops the input."),
    METHOD(take_peak, METH_NOARGS, "The peak in cells, which then counts from 0 again."),
    METHOD(report, METH_NOARGS, "The fate in words, the steps, the peak in cells, and the bytes consumed."),
    METHOD(unread, METH_NOARGS, "The input that wasn't read."),
    METHOD(has_ended, METH_NOARGS, "Whether the input has ended."),
    METHOD(forms, METH_NOARGS, "The forms: name, display, items as numbers of 32 bits, and pointer."),
    METHOD(neutral_part, METH_VARARGS, "The neutral string from a place on, at most so many numbers of 32 bits."),
    METHOD(active_part, METH_VARARGS, "The active string from a place on, at most so many numbers of 32 bits."),
    METHOD(calls, METH_NOARGS, "Where the marks of the open calls stand, the innermost first."),
    METHOD(arguments, METH_NOARGS, "The name and the arguments of the call that the next step performs."),
    METHOD(takes, METH_NOARGS, "How many characters the next step takes from the active string."),
    METHOD(drops, METH_NOARGS, "How many characters the next step drops."),
    METHOD(steps_to_call, METH_O, "How many steps come before the next right parenthesis, at most so many."),
    METHOD(rule, METH_NOARGS, "The rule of the next step, in words."),
    METHOD(awaits, METH_NOARGS, "What the next step reads: 0 nothing, 1 a string, 2 a byte."),
    METHOD(meta, METH_NOARGS, "The meta character."),
    METHOD(parts, METH_NOARGS, "The cells of the store, the neutral string, those free, and the active string."),
    {NULL, NULL, 0, NULL},
};

static PyType_Slot machine_slots[] = {
    {Py_tp_doc, (void *)"A machine of trac.h with its block: Machine(cells, steps)."},
    {Py_tp_new, (void *)machine_new},
    {Py_tp_dealloc, (void *)machine_dealloc},
    {Py_tp_methods, machine_methods},
    {0, NULL},
};

static PyType_Spec machine_spec = {"trac_t64._engine.Machine", sizeof(machine_object), 0, Py_TPFLAGS_DEFAULT,
                                   machine_slots};

static int fill_module(PyObject *module) {
    PyObject *const type = PyType_FromModuleAndSpec(module, &machine_spec, NULL);
    const int is_added = type && PyModule_AddType(module, (PyTypeObject *)type) == 0;
    Py_XDECREF(type);
    return is_added && PyModule_AddStringConstant(module, "VERSION", trac_version()) == 0 &&
                   PyModule_AddIntConstant(module, "MOST_CELLS", TRAC_MOST_CELLS) == 0
               ? 0
               : -1;
}

static PyModuleDef_Slot module_slots[] = {{Py_mod_exec, (void *)fill_module}, {0, NULL}};

/* A text about a function of the language, which is ASCII. */
static PyObject *text_of(size_t which, uint32_t kind) {
    char text[256];
    const size_t length = trac_function_text(which, kind, text, sizeof text);
    return PyUnicode_FromStringAndSize(text, (Py_ssize_t)(length < sizeof text ? length : sizeof text));
}

/* The texts and the facts of a function. */
static PyObject *function_row(size_t which) {
    trac_function_facts facts;
    if (trac_function(which, &facts) != 0)
        return PyErr_Format(PyExc_IndexError, "there is no function %zu", which);
    return Py_BuildValue("(NNNNN)(kkkkkkkkkkk)", text_of(which, TRAC_TEXT_NAME), text_of(which, TRAC_TEXT_CALL),
                         text_of(which, TRAC_TEXT_TITLE), text_of(which, TRAC_TEXT_SENTENCE),
                         text_of(which, TRAC_TEXT_GROUP), (unsigned long)facts.uses, (unsigned long)facts.forms,
                         (unsigned long)facts.needs_form, (unsigned long)facts.changes_forms,
                         (unsigned long)facts.gives, (unsigned long)facts.default_argument,
                         (unsigned long)facts.chooses, (unsigned long)facts.reads, (unsigned long)facts.prints,
                         (unsigned long)facts.changes_meta, (unsigned long)facts.ends);
}

static PyObject *module_functions_of_the_language(PyObject *module, PyObject *nothing) {
    const size_t count = trac_function_count();
    PyObject *const rows = PyTuple_New((Py_ssize_t)count);
    (void)module;
    (void)nothing;
    for (size_t which = 0; rows && which < count; which++) {
        PyObject *const row = function_row(which);
        if (!row || PyTuple_SetItem(rows, (Py_ssize_t)which, row) < 0) {
            Py_DECREF(rows);
            return NULL;
        }
    }
    return rows;
}

static PyMethodDef module_functions[] = {
    {"functions", module_functions_of_the_language, METH_NOARGS, "The texts and the facts of each function."},
    {"check", module_check, METH_VARARGS, "The fate of a script, its steps, its peak, and what is suspicious."},
    {"trace", module_trace, METH_VARARGS, "The words of a trace before its first step, by what is shown."},
    {NULL, NULL, 0, NULL},
};

static PyModuleDef module_definition = {
    PyModuleDef_HEAD_INIT, "_engine", "Machines of trac.h.", 0, module_functions, module_slots, NULL, NULL, NULL};

PyMODINIT_FUNC PyInit__engine(void) { return PyModuleDef_Init(&module_definition); }
