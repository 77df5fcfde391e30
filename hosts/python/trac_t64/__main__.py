"""python -m trac_t64: runs scripts, with the options, the lines and the statuses of `trac`; shows their steps, with the
lines of `trac_trace`; or checks them, with the lines of `trac_terminal --check`."""
from __future__ import annotations

import argparse
import contextlib
import io
import os
import re
import signal
import sys
from collections.abc import Callable, Iterator, Sequence
from typing import Any, NamedTuple, NoReturn

from ._engine import MOST_CELLS
from .reading import Reading, fault_words, is_idle
from .session import DEFAULT_CELLS, DEFAULT_STEPS, MOST_WIDTH, Fate, Session, Trace, check, shown_name

PROGRAM = 'trac_t64'
MOST_STEPS = 1000000000000
CHUNK = 65536
DONE, WORKSPACE, USAGE, STEPS, INPUT_FAILED, OUTPUT_FAILED, NO_MEMORY, SUSPICIOUS = range(8)
STATUS = {Fate.WORKSPACE: WORKSPACE, Fate.STEPS: STEPS}


# ---- The options.


class Once(argparse.Action):
    """An option that may be given once."""

    def __call__(self, parser: argparse.ArgumentParser, namespace: argparse.Namespace, values: Any,
                 option_string: str | None = None) -> None:
        if getattr(namespace, self.dest) is not None:
            parser.error(f'argument {option_string} cannot be used multiple times')
        setattr(namespace, self.dest, True if self.nargs == 0 else values)


def number_to(most: int, least: int = 1) -> Callable[[str], int]:
    """Makes a function that reads a number from `least` to `most`."""
    def read(word: str) -> int:
        if not re.fullmatch(r'\+?0*[0-9]{1,20}', word, re.ASCII) or not least <= int(word) <= most:
            raise argparse.ArgumentTypeError(f'{word!r} is not in {least}..={most}')
        return int(word)
    return read


class Parser(argparse.ArgumentParser):
    """A parser that prints its line about a word as the other lines are printed."""

    def error(self, message: str) -> NoReturn:
        line = ''.join(one if one == '\\' else shown_name(one) for one in message)
        say(f'{self.format_usage()}{PROGRAM}: error: {line}')
        sys.exit(USAGE)


def parser() -> Parser:
    made = Parser(
        prog=PROGRAM, add_help=False, allow_abbrev=False,
        description='Runs TRAC T-64 scripts: the files, then those of -e, in one workspace in which forms stay;'
        ' standard input where there are none')
    made.add_argument('files', metavar='FILE', nargs='*',
                      help='a script; a first line that begins with #! is passed over')
    made.add_argument('-e', metavar='SCRIPT', dest='scripts', action='append', default=[], help='a script, given here')
    made.add_argument('-i', dest='stays', action='store_true', help='stay in a session behind them')
    made.add_argument('--check', action=Once, nargs=0,
                      help='tell what is suspicious in each script, which is run by itself')
    made.add_argument('--cells', metavar='N', action=Once, type=number_to(MOST_CELLS),
                      help=f'cells of the workspace, 1 to {MOST_CELLS} [default: {DEFAULT_CELLS}]')
    made.add_argument('--steps', metavar='N', action=Once, type=number_to(MOST_STEPS),
                      help=f'steps that each script is allowed, 1 to {MOST_STEPS} [default: {DEFAULT_STEPS}]')
    made.add_argument('--report', action=Once, nargs=0, help='print the steps and the peak')
    add_views(made)
    made.add_argument('-h', '--help', action='store_true', help='print this help')
    return made


# The values of the options that belong to --trace.
VIEWS = ('calls', 'forms', 'first', 'to', 'width', 'columns')


def add_views(to: Parser) -> None:
    """The options of a trace."""
    to.add_argument('--trace', action=Once, nargs=0, help='show each step in the place of what a script prints')
    to.add_argument('--calls', action=Once, nargs=0, help='with --trace: show the calls that are performed')
    to.add_argument('--forms', action=Once, nargs=0,
                    help='with --trace: show the forms that change, and all at the end')
    to.add_argument('--from', dest='first', metavar='N', action=Once, type=number_to(MOST_STEPS),
                    help='with --trace: the first step to show [default: 1]')
    to.add_argument('--to', metavar='N', action=Once, type=number_to(MOST_STEPS),
                    help=f'with --trace: the last step to show [default: {MOST_STEPS}]')
    to.add_argument('--width', metavar='N', action=Once, type=number_to(MOST_WIDTH, 0),
                    help='with --trace: bytes of a text in a line, 0 for all [default: 100]')
    to.add_argument('--columns', metavar='N', action=Once, type=number_to(MOST_WIDTH, 0),
                    help='with --trace: columns of a line, 0 for any number [default: 0]')


def views_of(given: argparse.Namespace) -> dict[str, Any]:
    """The options of a trace that were given."""
    return {name: value for name in VIEWS if (value := getattr(given, name)) is not None}


# ---- The devices.


def write_all(device: int, data: bytes) -> None:
    """Writes all bytes. Repeats a write that a signal interrupted."""
    left = memoryview(data)
    while left:
        left = left[os.write(device, left):]


def say(line: str) -> None:
    """Prints a line on standard error; a failure of that is ignored."""
    with contextlib.suppress(OSError):
        write_all(2, line.encode(errors='surrogateescape') + b'\n')


class Source:
    """A script, with the function that reads at most a number of its bytes, and how far it was read."""

    def __init__(self, name: str, read: Callable[[int], bytes], line: int = 1) -> None:
        self.name, self._read = shown_name(name), read
        self._reading = Reading(line)

    def give_more(self, session: Session) -> None:
        """Reads once, and gives the session what was read, or the end of its input."""
        if data := self._read(CHUNK):
            self._reading.give(session, data)
        else:
            session.end(most=0)

    def place(self, session: Session) -> str:
        line, column = self._reading.place(session)
        return f'{self.name}:{line}:{column}'


@contextlib.contextmanager
def opened(name: str) -> Iterator[Source]:
    """The script in a file, after a first line that begins with `#!`."""
    with open(name, 'rb') as file:
        if file.peek(2).startswith(b'#!'):
            file.readline()
            yield Source(name, file.read1, 2)
        else:
            yield Source(name, file.read1)


# ---- The run.


class Ending(NamedTuple):
    """How a run ended: the status, the fault in words, and the report line."""

    status: int
    words: str
    steps: int
    peak: int


def need_of_read(session: Session) -> int:
    """The cells that the next step, which reads, needs for the part of its string that was read so far."""
    text = len(session.unread) if session.awaits == 'text' else 0
    return session.cells - session.parts.free - 1 + text


def lines_of(trace: Trace) -> Iterator[bytes]:
    """The lines of a shown run, as they are written."""
    return (line.encode(errors='replace') + b'\n' for line in trace)


def play(session: Session, source: Source, trace: Trace | None) -> Ending:
    """Runs a script to its end, or shows it. Each output is written before the next step, and so before the next
    read."""
    while True:
        try:
            for output in lines_of(trace) if trace else session.outputs():
                write_all(1, output)
        except OSError:
            if trace:  # the step whose lines fail was made
                return Ending(OUTPUT_FAILED, 'output failed', session.steps, session.peak)
            return Ending(OUTPUT_FAILED, f'output failed at step {session.steps}', session.steps - 1, session.peak)
        if session.fate is not Fate.WANTS_INPUT:
            return Ending(STATUS.get(session.fate, DONE), fault_words(session), session.steps, session.peak)
        try:
            source.give_more(session)
        except OSError:
            peak = max(session.peak, need_of_read(session))
            return Ending(INPUT_FAILED, f'input failed at step {session.steps + 1}', session.steps, peak)


def run_source(session: Session, source: Source, given: argparse.Namespace) -> int:
    """Runs a script, or shows it, reports how it ended, and gives the status."""
    session.again()
    ending = play(session, source, session.trace(**views_of(given)) if given.trace else None)
    session.feed(most=0)
    if given.report:
        say(f'{source.name}: {ending.steps} steps, peak {ending.peak} cells')
    if ending.words:
        say(f'{source.place(session)}: {ending.words}')
    return ending.status


def run_file(session: Session, name: str, given: argparse.Namespace) -> int:
    """Runs the script in a file, and gives the status."""
    try:
        with opened(name) as source:
            return run_source(session, source, given)
    except OSError as error:
        say(f"{PROGRAM}: can't read {shown_name(name)}: {error.strerror}")
        return INPUT_FAILED


def run_all(session: Session, given: argparse.Namespace) -> int:
    """Runs the scripts, up to the first one that ends with a fault."""
    status = DONE
    for name in given.files:
        status = status or run_file(session, name, given)
    for script in given.scripts:
        status = status or run_source(session, Source('-e', io.BytesIO(os.fsencode(script)).read1), given)
    if not (given.files or given.scripts or given.stays):
        status = run_source(session, Source('<stdin>', lambda most: os.read(0, most)), given)
    return status


# ---- A check.


def script_in(file: io.BufferedReader) -> bytes:
    """The script in a file. Of a first line that begins with `#!` only the line end stays, so that the other lines keep
    their numbers."""
    return re.sub(rb'\A#![^\n]*', b'', file.read())


def check_script(name: str, script: bytes, cells: int, steps: int) -> int:
    """Reports on standard output what is suspicious in a script, and gives the status."""
    found = check(script, cells, steps)
    lines = [f'line {each.line}, column {each.column}: {each.text}' for each in found.suspicions]
    lines += [found.fault] if found.fault else []
    write_all(1, ''.join(f'{shown_name(name)}: {line}\n' for line in lines).encode(errors='surrogateescape'))
    return STATUS.get(found.fate, SUSPICIOUS if lines else DONE)


def check_file(name: str, cells: int, steps: int) -> int:
    """Checks the script in a file, and gives the status."""
    try:
        with open(name, 'rb') as file:
            script = script_in(file)
    except OSError as error:
        say(f"{PROGRAM}: can't read {shown_name(name)}: {error.strerror}")
        return INPUT_FAILED
    return check_script(name, script, cells, steps)


def check_all(given: argparse.Namespace, cells: int, steps: int) -> int:
    """Checks the scripts, each separately, and gives the worst status: any other status is worse than the one for what
    is suspicious."""
    statuses = [check_file(name, cells, steps) for name in given.files]
    statuses += [check_script('-e', os.fsencode(script), cells, steps) for script in given.scripts]
    if not statuses:
        statuses.append(check_script('<stdin>', sys.stdin.buffer.read() if sys.stdin else b'', cells, steps))
    return max(statuses, key=lambda status: (status != DONE, status != SUSPICIOUS, status))


# ---- A session at a terminal.


def is_typed() -> bool:
    """Whether standard input is a terminal."""
    return sys.stdin is not None and sys.stdin.isatty()


def ask(prompt: str) -> bytes | None:
    """The next line: from the terminal, after a prompt, or from standard input. None at its end."""
    if not is_typed():
        return sys.stdin and sys.stdin.buffer.readline() or None
    try:
        return os.fsencode(input(prompt)) + b'\n'
    except EOFError:
        say('')
        return None


def give_line(session: Session, reading: Reading, line: bytes | None) -> None:
    """Gives the session a line, or the end. The line feed right after a meta character is dropped."""
    if line is None:
        session.end(most=0)
    elif line.endswith(bytes([session.meta, 10])):
        reading.give(session, line[:-1], line[-1:])
    else:
        reading.give(session, line)


def run_line(session: Session) -> None:
    """Runs what the session was given. At a terminal a line end is added to its output if necessary."""
    output = b'\n'
    for output in session.outputs():
        write_all(1, output)
    if not output.endswith(b'\n') and is_typed():
        write_all(1, b'\n')


def take_line(session: Session, reading: Reading) -> None:
    """Reads a line and runs it. ^C discards an unfinished string, and stops a string that runs."""
    try:
        is_new = is_idle(session) and not session.unread
        give_line(session, reading, ask('> ' if is_new else '. '))
        run_line(session)
    except KeyboardInterrupt:
        say('\n<stdin>: interrupted')
        reading.begin_again(session)
    if session.fate is Fate.WANTS_INPUT and is_idle(session) and not session.unread:
        reading.begin_again(session)


def say_fault(session: Session, reading: Reading, words: str) -> None:
    line, column = reading.place(session)
    say(f'<stdin>:{line}:{column}: {words}')


def hold(session: Session, reading: Reading) -> int:
    """Reads lines to the end of standard input or `hl`, and gives the status. A fault drops the rest of its line; it
    ends the session if no string can be read at all."""
    while True:
        session.feed()
        can_read = not session.fate.is_end
        if can_read:
            take_line(session, reading)
        if session.fate.is_end:
            if words := fault_words(session):
                say_fault(session, reading, words)
            if not (words and can_read):
                return STATUS.get(session.fate, DONE)
            reading.begin_again(session)


def converse(session: Session) -> int:
    """A session at a terminal, which keeps the forms. Gives the status."""
    if is_typed() and isinstance(sys.stdin, io.TextIOWrapper):
        sys.stdin.reconfigure(errors='surrogateescape')
        with contextlib.suppress(ImportError):
            __import__('readline')
    reading = Reading()
    session.again()
    try:
        return hold(session, reading)
    except OSError:
        say_fault(session, reading, f'output failed at step {session.steps}')
        return OUTPUT_FAILED


# ---- The program.


def perform(given: argparse.Namespace) -> int:
    """Does what the options ask for, and gives the status."""
    cells, steps = given.cells or DEFAULT_CELLS, given.steps or DEFAULT_STEPS
    try:
        if given.check:
            return check_all(given, cells, steps)
        with Session(cells, steps) as session:
            status = run_all(session, given)
            return converse(session) if given.stays else status
    except MemoryError:
        say(f'{PROGRAM}: no memory for {cells} cells')
        return NO_MEMORY


def main(words: Sequence[str] | None = None) -> int:
    """Runs the program with these words, and gives its status."""
    made = parser()
    given = made.parse_intermixed_args(words)
    if given.check and (given.stays or given.report or given.trace):
        made.error('argument --check cannot be used with '
                   + ('-i' if given.stays else '--report' if given.report else '--trace'))
    if views_of(given) and not given.trace:
        made.error('argument --trace is missing, which goes with ' + ', '.join(
            '--from' if name == 'first' else f'--{name}' for name in views_of(given)))
    if given.trace and given.stays and not (given.files or given.scripts):
        made.error('argument --trace shows scripts, of which -i alone has none')
    try:
        if not given.help:
            return perform(given)
        write_all(1, made.format_help().encode())
        return DONE
    except OSError:
        return OUTPUT_FAILED


if __name__ == '__main__':
    try:
        sys.exit(main())
    except KeyboardInterrupt:
        # as a program ends by the signal
        signal.signal(signal.SIGINT, signal.SIG_DFL)
        os.kill(os.getpid(), signal.SIGINT)
