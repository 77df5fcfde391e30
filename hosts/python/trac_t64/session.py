"""Runs and sessions: the public names of `trac_t64`."""
from __future__ import annotations

import array
import enum
import functools
import itertools
import operator
import re
import threading
from collections.abc import Callable, Iterable, Iterator
from concurrent.futures import Future
from dataclasses import dataclass, field
from types import TracebackType
from typing import NamedTuple, ParamSpec, SupportsIndex, TypeAlias, TypeVar

from . import _engine
from ._engine import MOST_CELLS, Machine

# A script or a piece of input. A str is encoded in UTF-8.
Text: TypeAlias = str | bytes | bytearray | memoryview

# The marks in a neutral string; its bytes are 0 to 255.
ACTIVE_CALL = 256
NEUTRAL_CALL = 257
COMMA_MARK = 258
# The gap with ordinal 1 in the items of a form; the gap with ordinal N is greater by N - 1.
FIRST_GAP = 256

# The greatest width of a text or a line in a trace.
MOST_WIDTH = 16777216

DEFAULT_CELLS = 65536
DEFAULT_STEPS = 1000000
MOST_STEPS = 2**64 - 1

_MARKS = {ACTIVE_CALL: '<#>', NEUTRAL_CALL: '<##>', COMMA_MARK: '<,>'}
_LAYOUT = {'\t': '\\t', '\n': '\\n', '\r': '\\r', '\\': '\\\\'}
_AWAITED = ('nothing', 'text', 'byte')


class Fate(enum.Enum):
    """How a run ended, or why the last turn of an unfinished run ended."""

    GOING = 'going'  # all steps of the turn were made, and the run goes on
    WANTS_INPUT = 'wants input'  # the next step reads more than there is; nothing was done of it
    WANTS_OUTPUT = 'wants output'  # there is no memory for what the next step prints; nothing was done of it
    WANTS_ANSWER = 'wants answer'  # the next step performs a call of a function of the host; nothing was done of it
    HALTED = 'halted'  # the script called `hl`
    INPUT_ENDED = 'input ended'  # the script asked for more input after its end
    WORKSPACE = 'workspace'  # the next step needs more cells than there are; it wasn't done
    STEPS = 'steps'  # the allowance of steps is used up

    @property
    def is_end(self) -> bool:
        """Whether the run is over."""
        return self not in (Fate.GOING, Fate.WANTS_INPUT, Fate.WANTS_OUTPUT, Fate.WANTS_ANSWER)


@dataclass(frozen=True)
class Report:
    """The result of a run."""

    output: bytes
    """What the script printed."""
    fate: Fate
    """How the run ended."""
    steps: int
    """The steps that were made."""
    peak: int
    """The greatest need of a step, in cells: the smallest workspace for the same run."""
    consumed: int
    """How many bytes of the script were read."""

    @property
    def text(self) -> str:
        """The output, read as UTF-8; invalid bytes become U+FFFD."""
        return self.output.decode(errors='replace')


class Suspicion(NamedTuple):
    """Something suspicious in a script."""

    line: int
    """Its line, from 1."""
    column: int
    """Its column, from 1, in characters."""
    text: str
    """The message; for a place in the value of a form, also its place there."""


@dataclass(frozen=True)
class Check:
    """The result of a check of a script. It is true if nothing is suspicious, as the place of a fault is."""

    suspicions: list[Suspicion]
    """What is suspicious, in the order of the places."""
    fate: Fate
    """How the run ended."""
    steps: int
    """The steps that were made."""
    peak: int
    """The greatest need of a step, in cells."""
    fault: str = field(default='', compare=False)
    """The fault that ended the run, in words; empty if no fault did."""

    def __bool__(self) -> bool:
        return not self.suspicions


class Step(NamedTuple):
    """A step that was made."""

    number: int
    """Its number in the run, from 1."""
    rule: str
    """The rule that it applied, by its name in the manual, such as 'end of call'."""
    output: bytes
    """What it printed."""


class Form(NamedTuple):
    """A form, as it was when `forms` was called."""

    name: bytes
    text: bytes
    """The body as `pf` shows it: `<N>` for a gap, and `<^>` at the pointer."""
    items: tuple[int, ...]
    """The body item by item: 0 to 255 is a byte, 255 + N the gap with ordinal N."""
    pointer: int
    """How many items precede the form's pointer."""


class Parts(NamedTuple):
    """The number of cells of each part of the block."""

    store: int
    """The cells of all forms."""
    neutral: int
    free: int
    active: int


def _whole(name: str, value: SupportsIndex, least: int, most: int) -> int:
    """A whole number in a range."""
    try:
        number = operator.index(value)
    except TypeError:
        raise TypeError(f'{name} must be an int, not {type(value).__name__}') from None
    if not least <= number <= most:
        raise ValueError(f'{name} must be from {least} to {most}')
    return number


def _bytes_of(name: str, text: Text) -> bytes:
    """The bytes of a text."""
    if isinstance(text, bytes):
        return text
    if isinstance(text, (bytearray, memoryview)):
        return bytes(text)
    if not isinstance(text, str):
        raise TypeError(f'{name} must be str or bytes, not {type(text).__name__}')
    try:
        return text.encode()
    except UnicodeEncodeError as error:
        raise ValueError(f'{name} has no UTF-8: {error.reason} at {error.start}') from None


def _items_of(name: str, body: Text | Iterable[SupportsIndex]) -> Iterator[SupportsIndex]:
    """The items of a body: the bytes of a text, or those that it has."""
    if isinstance(body, (str, bytes, bytearray, memoryview)):
        return iter(_bytes_of(name, body))
    try:
        return iter(body)
    except TypeError:
        raise TypeError(f'{name} must be str, bytes or items, not {type(body).__name__}') from None


def _codes(numbers: bytes) -> tuple[int, ...]:
    return tuple(memoryview(numbers).cast('I'))


def _shown_character(one: str, digits: str = '02X') -> str:
    if one in _LAYOUT or one.isprintable():
        return _LAYOUT.get(one, one)
    return ''.join(f'\\x{byte:{digits}}' for byte in one.encode(errors='surrogateescape'))


def shown_name(name: str) -> str:
    """A file's name within a line: unprintable characters are escaped, as `\\n` and `\\x1b`."""
    return ''.join(_shown_character(one, '02x') for one in name)


def _shown_mark(code: int) -> str:
    if code not in _MARKS:
        raise ValueError(f'codes has {code}, which is no byte and no mark')
    return _MARKS[code]


def shown(codes: Iterable[int]) -> str:
    """A string of a session as a readable line: marks in angle brackets, as `<#>ps<,>hello`, and unprintable characters
    escaped, as `\\n` and `\\xFF`. Raises ValueError for a code that is no byte and no mark."""
    parts: list[str] = []
    for is_text, part in itertools.groupby(codes, lambda code: code < 256):
        if is_text:
            parts.extend(map(_shown_character, bytes(part).decode(errors='surrogateescape')))
        else:
            parts.extend(map(_shown_mark, part))
    return ''.join(parts)


def run(script: Text, cells: SupportsIndex = DEFAULT_CELLS, steps: SupportsIndex = DEFAULT_STEPS) -> Report:
    """Runs a script to its end, in a workspace of `cells` cells, from 1 to 16777216, with an allowance of `steps`
    steps, from 1 to 2**64 - 1. Other threads run meanwhile, and ^C stops it.

    Raises TypeError or ValueError, which name the argument, for an argument that can't be used, and MemoryError."""
    text = _bytes_of('script', script)
    with Session(cells, steps) as session:
        session.feed(text, most=0)
        output = session.end()
        return Report(output, session.fate, session.steps, session.peak, session.consumed)


_Given = ParamSpec('_Given')
_Made = TypeVar('_Made')


def _awaited(function: Callable[_Given, _Made], *arguments: _Given.args, **names: _Given.kwargs) -> _Made:
    """The result of a function that runs without Python's lock. In the main thread, which alone receives signals,
    another thread calls it, so that a signal ends the wait."""
    if threading.current_thread() is not threading.main_thread():
        return function(*arguments, **names)
    answer: Future[_Made] = Future()

    def call() -> None:
        try:
            answer.set_result(function(*arguments, **names))
        except BaseException as error:
            answer.set_exception(error)

    threading.Thread(target=call, daemon=True).start()
    return answer.result()


_SUSPICION = re.compile(r'line (\d+), column (\d+): (.*)', re.DOTALL)


def check(script: Text, cells: SupportsIndex = DEFAULT_CELLS, steps: SupportsIndex = DEFAULT_STEPS) -> Check:
    """Runs a script to its end, as `run` does, and reports what is suspicious in it, by the rules of `trac_trace
    --warn`: names that are no function, parentheses that end no call, and so on. The script's output isn't kept. Other
    threads run meanwhile. ^C ends the call at once; the check itself then continues in another thread until its steps
    are used up, and its result is discarded.

    Raises TypeError or ValueError, which name the argument, for an argument that can't be used, and MemoryError."""
    fate, made, peak, lines = _awaited(
        _engine.check, _bytes_of('script', script), _whole('cells', cells, 1, MOST_CELLS),
        _whole('steps', steps, 1, MOST_STEPS))
    said = lines.decode(errors='replace').split('\n')
    found = [_SUSPICION.fullmatch(line) for line in said]
    return Check([Suspicion(int(each[1]), int(each[2]), each[3]) for each in found if each], Fate(fate), made, peak,
                 ''.join(line for line, each in zip(said, found) if not each))


class Trace:
    """A run of a session, shown as lines. A trace belongs to one run: after `again`, make another trace. While the
    trace makes steps, the session's `peak` is used by the trace, and it counts from 0 again after them; the greatest
    need of all its steps is in its last line."""

    __slots__ = ('_session', '_machine', '_words')

    def __init__(self, machine: Machine, words: bytes, session: Session | None = None) -> None:
        self._machine, self._words, self._session = machine, words, session

    def step(self) -> list[str] | None:
        """Makes one step, and gives its lines, without line ends. Gives None if there is no step to make: the script
        wants input, or the run is over. What the step prints is in the lines, and the next `feed` or `end` gives it
        too. The step of a call of a function of the host has no lines."""
        self._machine.stop_at_unknown(bool(self._session and self._session.functions))
        if Fate(self._machine.report()[0]).is_end:
            return None
        self._words, lines = self._machine.show(self._words)
        if lines is None:
            raise MemoryError
        if self._machine.report()[0] == Fate.WANTS_INPUT.value:
            return None
        if self._session and self._machine.report()[0] == Fate.WANTS_ANSWER.value:
            self._session._go(1)
            return []
        return lines.decode(errors='replace').split('\n')[:-1]

    def __iter__(self) -> Iterator[str]:
        """Makes steps until there is no step to make, and gives the lines of each step when it was made. If input was
        fed since, another iteration goes on."""
        while (lines := self.step()) is not None:
            yield from lines


@functools.cache
def _idle() -> bytes:
    """Both strings of a session that waits for its next string."""
    waiting = Session(64)
    waiting.feed()
    return waiting._stands()


def _revived(
    kind: type[Session], cells: int, steps: int, image: bytes, functions: dict[str, Callable[..., Text | None]]
) -> Session:
    """A session of what a pickle holds."""
    session = object.__new__(kind)
    Session.__init__(session, cells, steps)
    session.load(image)
    session.functions = functions
    return session


class Session:
    """A machine for several runs. Input is fed to it in pieces, and its forms and its meta character stay from one run
    to the next.

    Only one call at a time can use a session. Meanwhile another caller gets a RuntimeError: another thread during a
    turn, or a finaliser that the collector runs while `forms` makes its list. Sessions are independent of each other,
    and so are copies.

    ^C stops a turn between two steps, with KeyboardInterrupt, and so does a lack of memory, with MemoryError. The next
    turn goes on from there, and also gives what was printed before."""

    __slots__ = ('_machine', '_cells', '_steps', 'functions')

    functions: dict[str, Callable[..., Text | None]]
    """Functions of the host, by name. A call whose name is no function of the language, but is in this dict, calls the
    function with this name, with the arguments after the name as bytes. The function returns the value of the call, as
    bytes or a str; None is the null value. If it raises an exception, the turn ends with that exception; the call isn't
    performed yet, and the session can go on. The function may not use the session that calls it: that raises
    RuntimeError."""

    def __init__(self, cells: SupportsIndex = DEFAULT_CELLS, steps: SupportsIndex = DEFAULT_STEPS) -> None:
        """A machine without forms, in a workspace of `cells` cells, from 1 to 16777216, with an allowance of `steps`
        steps for each run, from 1 to 2**64 - 1."""
        self._cells = _whole('cells', cells, 1, MOST_CELLS)
        self._steps = _whole('steps', steps, 1, MOST_STEPS)
        self._machine = Machine(self._cells, self._steps)
        self.functions = {}

    def __enter__(self) -> Session:
        return self

    def __exit__(
        self, kind: type[BaseException] | None, error: BaseException | None, trace: TracebackType | None
    ) -> None:
        self.close()

    def close(self) -> None:
        """Frees the memory. After this every other call raises ValueError."""
        self._machine.close()

    def copy(self) -> Session:
        """Another session in the same state, independent of this one."""
        twin = object.__new__(type(self))
        twin._cells, twin._steps, twin._machine = self._cells, self._steps, self._machine.copy()
        twin.functions = dict(self.functions)
        return twin

    __copy__ = copy

    def __deepcopy__(self, memo: dict[int, object]) -> Session:
        return self.copy()

    # ---- Turns.

    def _go(self, most: int, stops_at_output: bool = False) -> None:
        """Makes steps, at most `most`, and lets the functions of the host give the values of their calls."""
        while True:
            before = self.steps
            self._machine.stop_at_unknown(bool(self.functions))
            self._machine.go(most, stops_at_output)
            most -= self.steps - before
            if self.fate is not Fate.WANTS_ANSWER or not most:
                return
            self._machine.answer(self._value(*self._machine.arguments()), 0)
            most -= 1

    def _value(self, name: bytes, *arguments: bytes) -> bytes:
        """The value of a call whose name is no function of the language."""
        function = self.functions.get(name.decode(errors='surrogateescape'))
        value = None if function is None else self._machine.call(function, arguments)
        return b'' if value is None else _bytes_of('the value of a function', value)

    def feed(self, data: Text = b'', most: SupportsIndex | None = None) -> bytes:
        """Adds to the input, makes steps until the script wants more or its run is over, at most `most` of them, and
        gives what they printed. With `most=0` it only adds the input. If the run is over, no step is made until
        `again`, and the input is kept in `unread`. Raises ValueError if the input has ended."""
        given = _bytes_of('data', data)
        limit = MOST_STEPS if most is None else _whole('most', most, 0, MOST_STEPS)
        if given and self._machine.has_ended():
            raise ValueError('data comes behind the end of the input')
        self._machine.feed(given)
        self._go(limit)
        return self._machine.take()

    def end(self, most: SupportsIndex | None = None) -> bytes:
        """Ends the input, makes steps to the end of the run, at most `most` of them, and gives what they
        printed. A last string without a meta character is read as if one followed."""
        limit = MOST_STEPS if most is None else _whole('most', most, 0, MOST_STEPS)
        self._machine.end()
        self._go(limit)
        return self._machine.take()

    def step(self) -> Step | None:
        """Makes one step. Gives None if there is no step to make: the script wants input, or the run is over."""
        machine = self._machine
        rule, before = machine.rule(), self.steps
        self._go(1)
        return Step(before + 1, rule, machine.take()) if self.steps > before else None

    def __iter__(self) -> Iterator[Step]:
        """Makes steps until there is no step to make, and gives each step when it was made."""
        while (made := self.step()) is not None:
            yield made

    def trace(
        self, *, first: SupportsIndex = 1, to: SupportsIndex = MOST_STEPS, calls: bool = False, forms: bool = False,
        width: SupportsIndex = 100, columns: SupportsIndex = 0,
    ) -> Trace:
        """The run from here on as lines, which are those of `trac_trace`: an iteration makes steps until there is no
        step to make, and gives the lines of each step when it was made. The steps from `first` to `to` are shown, both
        from 1 to 2**64 - 1: the steps themselves; or, with `calls`, the calls that they perform; or, with `forms`, the
        forms that change, and all forms at the end of the run. A text is cut to `width` bytes, and a line is folded at
        `columns`; both are from 0, for no bound, to 16777216."""
        return Trace(self._machine, _engine.trace(
            _whole('first', first, 1, MOST_STEPS), _whole('to', to, 1, MOST_STEPS),
            _whole('width', width, 0, MOST_WIDTH), _whole('columns', columns, 0, MOST_WIDTH), calls, forms), self)

    def outputs(self) -> Iterator[bytes]:
        """Makes steps until there is no step to make, and gives each output before the next step."""
        while True:
            self._go(MOST_STEPS, True)
            if output := self._machine.take():
                yield output
            if self.fate is not Fate.GOING:
                return

    def again(self, steps: SupportsIndex | None = None) -> None:
        """Begins a new run, with an allowance of `steps` steps; the session's allowance if left out. Both strings, the
        open calls and the input are cleared; the steps and the peak count from 0. The forms with their pointers and the
        meta character stay."""
        self._machine.again(self._steps if steps is None else _whole('steps', steps, 1, MOST_STEPS))

    # ---- Forms from outside, without a step.

    def define(self, name: Text, body: Text | Iterable[SupportsIndex], pointer: SupportsIndex = 0) -> None:
        """Makes a form from a name, a body and a pointer. The body is a text, or items as `forms` gives them. The form
        becomes the last one, and an older form of that name is removed. Raises ValueError, with nothing changed, if an
        item or the pointer is out of range, or if the form doesn't fit beside the present contents."""
        codes = array.array('I', [_whole('an item', item, 0, 2**32 - 1) for item in _items_of('body', body)])
        self._machine.define(_bytes_of('name', name), codes.tobytes(), _whole('pointer', pointer, 0, MOST_CELLS))

    def delete(self, name: Text) -> bool:
        """Removes the form with a name, and says whether there was one."""
        return self._machine.delete(_bytes_of('name', name))

    def delete_all(self) -> None:
        """Removes all forms."""
        self._machine.delete_all()

    def save(self) -> bytes:
        """The image of the forms, with their gaps and pointers, and of the meta character: bytes that are the same on
        every machine, for a file or for another session. The strings and the input are no part of it."""
        return self._machine.save()

    def load(self, image: bytes | bytearray | memoryview) -> None:
        """Takes an image, as `save` gives it: its forms and its meta character take the place of the session's own.
        The run goes on where it stands. Raises ValueError, with nothing changed, where the bytes are no whole image,
        and where its forms don't fit beside the strings."""
        if isinstance(image, str):
            raise TypeError('image must be bytes, not str')
        self._machine.load(_bytes_of('image', image))

    def __reduce__(self) -> tuple[Callable[..., Session], tuple[object, ...]]:
        """A session is pickled by its image: the copy has the forms, the meta character, the cells, the allowance and
        the functions, and begins a run. Raises ValueError in the middle of a string, whose run would be lost."""
        if not self.fate.is_end and (self.unread or self._stands() not in (b'', _idle())):
            raise ValueError("a session can't be pickled in the middle of a string")
        return _revived, (type(self), self._cells, self._steps, self.save(), self.functions)

    def _stands(self) -> bytes:
        """Both strings."""
        return self._machine.neutral_part(0, MOST_CELLS) + self._machine.active_part(0, MOST_CELLS)

    def take_peak(self) -> int:
        """The greatest need of a step, in cells, since the last call of `take_peak`, or since the run began: if you
        call this after each step, it gives what that step needed."""
        return self._machine.take_peak()

    # ---- What a session shows.

    @property
    def cells(self) -> int:
        """The cells of the workspace."""
        return self._cells

    @property
    def fate(self) -> Fate:
        """How the run ended, or why the last turn did."""
        return Fate(self._machine.report()[0])

    @property
    def steps(self) -> int:
        """The steps of the run so far."""
        return self._machine.report()[1]

    @property
    def peak(self) -> int:
        """The greatest need of a step, in cells: of the run so far, or since `take_peak` or the last step of a
        trace."""
        return self._machine.report()[2]

    @property
    def consumed(self) -> int:
        """How many bytes of the input the run has read so far."""
        return self._machine.report()[3]

    @property
    def unread(self) -> bytes:
        """The input that wasn't read yet."""
        return self._machine.unread()

    @property
    def neutral(self) -> tuple[int, ...]:
        """The neutral string: the base text, and then each open call: its mark, and its arguments with comma marks
        between them. 0 to 255 is a byte; the marks are ACTIVE_CALL, NEUTRAL_CALL and COMMA_MARK."""
        return self.neutral_part()

    @property
    def active(self) -> bytes:
        """The active string, the next character first."""
        return self.active_part()

    def neutral_part(self, start: SupportsIndex = 0, most: SupportsIndex = MOST_CELLS) -> tuple[int, ...]:
        """At most `most` codes of the neutral string, from a place on, which counts from 0; none past its end."""
        first, count = _whole('start', start, 0, MOST_CELLS), _whole('most', most, 0, MOST_CELLS)
        return _codes(self._machine.neutral_part(first, count))

    def active_part(self, start: SupportsIndex = 0, most: SupportsIndex = MOST_CELLS) -> bytes:
        """At most `most` bytes of the active string, from a place on, which counts from 0; none past its end."""
        first, count = _whole('start', start, 0, MOST_CELLS), _whole('most', most, 0, MOST_CELLS)
        return bytes(_codes(self._machine.active_part(first, count)))

    @property
    def calls(self) -> tuple[int, ...]:
        """The open calls, the innermost first: the place of each call's mark in the neutral string. Its arguments
        follow the mark, up to the mark of the next call or to the end."""
        return _codes(self._machine.calls())

    @property
    def arguments(self) -> tuple[bytes, ...]:
        """The name and the arguments of the call that the next step performs: the bytes that the call gets, after all
        calls in it. Empty if that step performs no call, if the run is over, or if the allowance is used up. The time
        grows with the number of arguments times the characters of the call: a second for about ten thousand arguments.
        ^C stops it."""
        return self._machine.arguments()

    @property
    def takes(self) -> int:
        """How many characters the next step takes from the front of the active string: the 2 or 3 that open a call; a
        text in parentheses with both parentheses; all, if a left parenthesis has no match; none of an empty string; and
        otherwise 1."""
        return self._machine.takes()

    @property
    def drops(self) -> int:
        """How many characters the next step drops: all of an active string that begins with a left parenthesis without
        a match, and otherwise none."""
        return self._machine.drops()

    def steps_to_call(self, most: SupportsIndex = MOST_STEPS) -> int:
        """How many steps, at most `most`, come before the next step at a right parenthesis, which performs a call if
        one is open, or at an empty active string. None of these steps performs a call, reads or prints. They are
        counted as if the allowance were unlimited."""
        return self._machine.steps_to_call(_whole('most', most, 0, MOST_STEPS))

    @property
    def rule(self) -> str:
        """The rule that the next step applies, by its name in the manual: idling, layout, protection, argument, active
        call, neutral call, number sign, end of call or character."""
        return self._machine.rule()

    @property
    def awaits(self) -> str:
        """What the next step reads: 'nothing', 'text' if it performs `rs`, 'byte' if it performs `rc`."""
        return _AWAITED[self._machine.awaits()]

    @property
    def meta(self) -> int:
        """The meta character, which ends a string: a byte. You can set it."""
        return self._machine.meta()

    @meta.setter
    def meta(self, byte: SupportsIndex) -> None:
        self._machine.set_meta(_whole('meta', byte, 0, 255))

    @property
    def parts(self) -> Parts:
        """How many cells each part of the workspace has."""
        return Parts(*self._machine.parts())

    def forms(self) -> list[Form]:
        """The forms, in the order of their definition."""
        return [Form(name, text, _codes(items), pointer) for name, text, items, pointer in self._machine.forms()]
