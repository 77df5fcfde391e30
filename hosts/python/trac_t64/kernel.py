"""A kernel for Jupyter: python -m trac_t64.kernel --install puts it where Jupyter finds it.

A cell is a script: its text is the input of a run in a session whose forms stay from one cell to the
next. What the script reads behind the cell's text is asked for. Lines at the head of a cell that begin
with a percent sign are commands to the kernel. Behind `%function NAME` the cell is Python.
"""
from __future__ import annotations

import argparse
import codecs
import html
import json
import os
import re
import sys
import tempfile
from collections.abc import Callable, Iterable, Sequence
from typing import Any, NamedTuple, cast

from ._engine import MOST_CELLS, VERSION
from .cell_function import CallFailed, CellFunction, NotPython
from .functions import FUNCTIONS, names_a_form
from .reading import Reading, fault_words, is_idle
from .session import DEFAULT_CELLS, DEFAULT_STEPS, MOST_STEPS, Fate, Session, Trace, check, shown

try:
    from IPython.core.error import StdinNotImplementedError
    from ipykernel.kernelapp import IPKernelApp
    from ipykernel.kernelbase import Kernel
    from jupyter_client.kernelspec import KernelSpecManager
except ModuleNotFoundError as missing:
    raise ImportError(f'the kernel needs ipykernel, and {missing.name} is missing') from None

NAME = 'trac_t64'
# The steps that are shown, where no other number is given.
SHOWN_STEPS = 100
COMMANDS = {
    '%forms': 'a table of the forms',
    '%cells N': 'a new session with so many cells, without forms and functions of yours',
    '%steps N': 'so many steps are allowed to each cell',
    '%reset': 'a new session, without forms and functions of yours',
    '%trace [N]': 'the first N steps of the script below, as lines',
    '%trace calls [N]': 'the calls that these steps perform',
    '%trace forms [N]': 'the forms that these steps change',
    '%check': 'a table of what is suspicious in the script below, which is run by itself, without forms and functions '
              'of yours',
    '%function NAME': 'a function of yours, for calls of NAME, whose body is the Python below: arguments has what '
                      'stands behind the name, as bytes, and the value is what it returns, bytes, a str or None; '
                      'without Python it is removed',
    '%function': 'your functions, as cells that make them',
    '%help': 'these commands, and the functions',
}
STYLE = '<style>.trac th, .trac td { text-align: left !important; white-space: pre }</style>'
FUNCTION_BEFORE = re.compile(r'#\(([A-Za-z]*)$')
FORM_BEFORE = re.compile(r'#\(([A-Za-z]+),([^#(),]*)$')
MAKES_FUNCTION = re.compile(r'%function\s+\S')
COMMAND_BEFORE = re.compile(r'(?:^|\n)(%\w*)$')
WORD_AROUND = re.compile(r'[A-Za-z]*$')

Table = Sequence[Sequence[str]]


class Fault(Exception):
    """What is told in red: its kind, and a line about it."""

    def __init__(self, kind: str, line: str) -> None:
        super().__init__(kind, line)
        self.kind, self.line = kind, line


def number_of(command: str, words: Sequence[str], most: int) -> int:
    """The number behind a command, from 1 to `most`."""
    if len(words) != 1 or not re.fullmatch(r'[0-9]{1,20}', words[0], re.ASCII) or not 1 <= int(words[0]) <= most:
        raise Fault('command', f'{command} wants one number, from 1 to {most}')
    return int(words[0])


class Cell(NamedTuple):
    """A cell: the commands at its head, and behind them a script; or the Python of a function, which the last command
    names. `line` is the number of the line in which that text begins."""

    commands: list[str]
    makes: str | None
    line: int
    text: str


def parted(code: str) -> Cell:
    """The parts of a cell."""
    lines = code.split('\n')
    count = next((k for k, line in enumerate(lines) if not line.startswith('%')), len(lines))
    made = next((k for k, line in enumerate(lines[:count]) if MAKES_FUNCTION.match(line)), None)
    if made is None:
        return Cell(lines[:count], None, count + 1, '\n'.join(lines[count:]))
    return Cell(lines[:made], lines[made], made + 2, '\n'.join(lines[made + 1:]))


def as_html(head: Sequence[str], rows: Table) -> str:
    def row(kind: str, cells: Sequence[str]) -> str:
        return '<tr>\n' + ''.join(f'<{kind}><code>{html.escape(cell)}</code></{kind}>\n' for cell in cells) + '</tr>\n'

    body = ''.join(row('td', cells) for cells in rows)
    return f'<table class="trac">\n{STYLE}\n{row("th", head)}{body}</table>'


def as_text(head: Sequence[str], rows: Table) -> str:
    table = [head, *rows]
    widths = [max(map(len, column)) for column in zip(*table)]
    return '\n'.join('  '.join(map(str.ljust, row, widths)).rstrip() for row in table)


def forms_table(session: Session) -> Table:
    """The forms as `pf` shows them."""
    return [(shown(form.name), shown(form.text), str(form.pointer)) for form in session.forms()]


def form_names(session: Session) -> list[str]:
    """The names of the forms that are text."""
    names = (form.name.decode(errors='replace') for form in session.forms())
    return [name for name in names if '\ufffd' not in name]


def completions(code: str, names: Iterable[str], functions: Iterable[str]) -> tuple[list[str], int]:
    """What can stand at the end of a text, which begins at the place that is given: a command, a function of the
    language or one of these, or one of these names of forms."""
    if found := COMMAND_BEFORE.search(code):
        words: Iterable[str] = (command.split()[0] for command in COMMANDS)
    elif found := FUNCTION_BEFORE.search(code):
        words = [*FUNCTIONS, *functions]
    elif (found := FORM_BEFORE.search(code)) and names_a_form(found[1]):
        words = names
    else:
        return [], len(code)
    begin = found[found.lastindex or 0]
    return sorted({word for word in words if word.startswith(begin)}), len(code) - len(begin)


class Printer:
    """What a script printed, as text: a character may come in two parts."""

    def __init__(self, send: Callable[[str], None]) -> None:
        self._send = send
        self._decoder = codecs.getincrementaldecoder('utf-8')('replace')

    def put(self, output: bytes, is_last: bool = False) -> None:
        if text := self._decoder.decode(output, is_last):
            self._send(text)


class TracKernel(Kernel):
    """A session, and the cells that are run in it."""

    implementation = NAME
    implementation_version = VERSION
    banner = f'Cenotesieve {VERSION}, TRAC T-64. %help says what there is.'
    language_info = {
        'name': 'trac', 'version': 'T-64', 'mimetype': 'text/x-trac', 'file_extension': '.trac',
        'pygments_lexer': 'text',
    }

    def __init__(self, **more: Any) -> None:
        super().__init__(**more)
        self._session = Session(DEFAULT_CELLS, DEFAULT_STEPS)
        self._steps = DEFAULT_STEPS
        # what a cell shows of its steps, how many it shows, and the lines of them
        self._view: dict[str, bool] = {}
        self._shown_steps = 0
        self._lines: list[str] = []
        # whether a cell's script is checked
        self._is_checked = False
        # the global names of the functions that cells make
        self._names: dict[str, Any] = {}

    # ---- What is shown.

    def _send_text(self, text: str) -> None:
        self.send_response(self.iopub_socket, 'stream', {'name': 'stdout', 'text': text})

    def _send_table(self, head: Sequence[str], rows: Table) -> None:
        data = {'text/html': as_html(head, rows), 'text/plain': as_text(head, rows)}
        self.send_response(self.iopub_socket, 'display_data', {'data': data, 'metadata': {}})

    def _send_lines(self, lines: Sequence[str]) -> None:
        text = '\n'.join(lines)
        data = {'text/html': f'<pre>{html.escape(text)}</pre>', 'text/plain': text}
        self.send_response(self.iopub_socket, 'display_data', {'data': data, 'metadata': {}})

    def _failed(self, fault: Fault) -> dict[str, Any]:
        """Shows a fault, and gives the reply of its cell."""
        told = {'ename': fault.kind, 'evalue': fault.line, 'traceback': [f'\x1b[31m{fault.line}\x1b[0m']}
        self.send_response(self.iopub_socket, 'error', told)
        return {'status': 'error', 'execution_count': self.execution_count, **told}

    # ---- Commands.

    def _open(self, cells: int) -> None:
        """A new session; the old one stays where there is no memory for it."""
        try:
            session = Session(cells, self._steps)
        except MemoryError:
            raise Fault('memory', f'no memory for {cells} cells') from None
        self._session.close()
        self._session = session

    def _command(self, line: str) -> None:
        command, *words = line.split()
        if command == '%cells':
            self._open(number_of(command, words, MOST_CELLS))
        elif command == '%steps':
            self._steps = number_of(command, words, MOST_STEPS)
        elif command == '%trace':
            self._view = {word: True for word in words[:1] if word in ('calls', 'forms')}
            self._shown_steps = number_of('%trace, behind which calls or forms may stand,',
                                          words[len(self._view):] or [str(SHOWN_STEPS)], MOST_STEPS)
        elif command == '%check' and not words:
            self._is_checked = True
        elif command == '%reset' and not words:
            self._open(self._session.cells)
        elif command == '%forms' and not words:
            self._send_table(('name', 'form', 'pointer'), forms_table(self._session))
        elif command == '%function' and not words:
            self._send_lines([f'%function {name}\n{each.body}' for name, each in self._functions().items()])
        elif command == '%help' and not words:
            self._send_table(('command', ''), list(COMMANDS.items()))
            self._send_table(('call', ''), [(f'#({each.call})', each.sentence) for each in FUNCTIONS.values()])
        else:
            raise Fault('command', f'{line}: there is no such command; there are ' + ', '.join(COMMANDS))

    # ---- Functions of the host.

    def _functions(self) -> dict[str, CellFunction]:
        """Those of the session, all of which are made by cells."""
        return cast(dict[str, CellFunction], self._session.functions)

    def _make_function(self, command: str, line: int, body: str) -> None:
        """Makes the function that a command names, of the Python that begins in this line of its cell, or removes it
        where there is none."""
        _, name, *more = command.split()
        if more:
            raise Fault('command', '%function wants one name, or none')
        if name.lower() in FUNCTIONS:
            raise Fault('command', f'{name} is a function of the language, which is never asked of you')
        if not body.strip():
            if not self._functions().pop(name, None):
                raise Fault('command', f'there is no function {name} to remove, and no Python below that makes it')
            return
        try:
            self._functions()[name] = CellFunction(name, body, line, self._names)
        except NotPython as wrong:
            raise Fault('function', f'line {wrong.line}: function {name}: {wrong.reason}') from None

    # ---- Scripts.

    def _run_on(self, trace: Trace, printer: Printer) -> None:
        """Makes steps until there is none to make, the first ones by a trace."""
        session = self._session
        while session.steps < self._shown_steps and (lines := trace.step()) is not None:
            self._lines += lines
            printer.put(session.feed(most=0))
        for output in session.outputs():
            printer.put(output)

    def _give_more(self, reading: Reading) -> None:
        """Gives the script what it wants: the cell's last string is ended, and more is asked for."""
        session = self._session
        if is_idle(session):
            session.end(most=0)
            return
        try:
            line = self.raw_input().encode(errors='replace')
        except StdinNotImplementedError:
            session.end(most=0)
        else:
            reading.give(session, line if line.endswith(bytes([session.meta])) else line + b'\n')

    def _run_script(self, script: str, line: int, printer: Printer) -> None:
        """Runs a script that begins in this line of its cell."""
        session, reading = self._session, Reading(line)
        session.again(self._steps)
        trace = session.trace(**self._view)
        reading.give(session, script.encode(errors='replace'))
        try:
            self._run_on(trace, printer)
            while session.fate is Fate.WANTS_INPUT:
                self._give_more(reading)
                self._run_on(trace, printer)
        except CallFailed as failed:
            at = 'line {}, column {}'.format(*reading.place(session))
            raise Fault('function', f'{at}: function {failed.name}, line {failed.line} of its cell: '
                                    f'{failed.reason}') from None
        if words := fault_words(session):
            at = 'line {}, column {}'.format(*reading.place(session))
            raise Fault(session.fate.value, f'{at}: {words}')

    def _check_script(self, script: str, line: int) -> None:
        """Shows what is suspicious in a script that begins in this line of its cell."""
        found = check(script.encode(errors='replace'), self._session.cells, self._steps)
        rows = [(str(each.line + line - 1), str(each.column), each.text) for each in found.suspicions]
        if rows:
            self._send_table(('line', 'column', 'what is suspicious'), rows)
        if found.fault or not rows:
            self._send_text((found.fault or 'nothing is suspicious') + '\n')

    def _run_cell(self, code: str) -> None:
        """Runs the commands and the script of a cell, or checks the script, and shows what it asked for."""
        self._view, self._shown_steps, self._lines, self._is_checked = {}, 0, [], False
        cell = parted(code)
        for command in cell.commands:
            self._command(command)
        if cell.makes:
            self._make_function(cell.makes, cell.line, cell.text)
            return
        if self._is_checked:
            self._check_script(cell.text, cell.line)
            return
        printer = Printer(self._send_text)
        try:
            if cell.text.strip():
                self._run_script(cell.text, cell.line, printer)
        finally:
            printer.put(b'', is_last=True)
            if self._lines:
                self._send_lines(self._lines)

    def do_execute(
        self, code: str, silent: bool, store_history: bool = True, user_expressions: Any = None,
        allow_stdin: bool = False, **more: Any,
    ) -> dict[str, Any]:
        """Runs a cell."""
        self._allow_stdin = allow_stdin
        try:
            self._run_cell(code)
        except Fault as fault:
            return self._failed(fault)
        except KeyboardInterrupt:
            return self._failed(Fault('interrupted', f'interrupted behind step {self._session.steps}'))
        except MemoryError:
            return self._failed(Fault('memory', 'no memory'))
        return {'status': 'ok', 'execution_count': self.execution_count, 'payload': [], 'user_expressions': {}}

    # ---- Help while a cell is written.

    def do_complete(self, code: str, cursor_pos: int) -> dict[str, Any]:
        """Functions behind `#(`, and forms behind a function that takes one."""
        matches, begin = completions(code[:cursor_pos], form_names(self._session), self._functions())
        return {'status': 'ok', 'matches': matches, 'cursor_start': begin, 'cursor_end': cursor_pos, 'metadata': {}}

    def do_inspect(
        self, code: str, cursor_pos: int, detail_level: int = 0, omit_sections: Sequence[str] = ()
    ) -> dict[str, Any]:
        """How the function at the cursor is called."""
        begin = WORD_AROUND.search(code[:cursor_pos])
        word = (begin[0] if begin else '') + re.split('[^A-Za-z]', code[cursor_pos:], 1)[0]
        known = FUNCTIONS.get(word.lower())
        data = {'text/plain': f'#({known.call}): {known.title}. {known.sentence}'} if known else {}
        return {'status': 'ok', 'found': bool(data), 'data': data, 'metadata': {}}

    def do_is_complete(self, code: str) -> dict[str, str]:
        """A script is complete behind the meta character, commands are, and Python is behind an empty line."""
        cell = parted(code)
        if cell.makes:
            is_done = not code.rpartition('\n')[2].strip()
        else:
            is_done = not cell.text.strip() or cell.text.rstrip().encode().endswith(bytes([self._session.meta]))
        return {'status': 'complete'} if is_done else {'status': 'incomplete', 'indent': ''}


def install(prefix: str | None, is_of_user: bool) -> str:
    """Puts the kernel where Jupyter finds it, and gives the folder."""
    spec = {
        'argv': [sys.executable, '-Xfrozen_modules=off', '-m', 'trac_t64.kernel', '-f', '{connection_file}'],
        'display_name': 'TRAC T-64', 'language': 'trac', 'interrupt_mode': 'signal',
    }
    with tempfile.TemporaryDirectory() as folder:
        with open(os.path.join(folder, 'kernel.json'), 'w', encoding='utf-8') as file:
            json.dump(spec, file, indent=1)
        os.chmod(folder, 0o755)
        return str(KernelSpecManager().install_kernel_spec(folder, NAME, user=is_of_user, prefix=prefix))


def main() -> None:
    """Runs the kernel, or installs it where the first word is --install."""
    if '--install' not in sys.argv[1:]:
        IPKernelApp.launch_instance(kernel_class=TracKernel)
        return
    parser = argparse.ArgumentParser(prog='python -m trac_t64.kernel', description='Installs the kernel for Jupyter.')
    parser.add_argument('--install', action='store_true', required=True)
    where = parser.add_mutually_exclusive_group()
    where.add_argument('--user', action='store_true', help='for this user')
    where.add_argument('--prefix', help='below this folder; that of the Python which runs, if left out')
    words = parser.parse_args()
    try:
        print(install(None if words.user else words.prefix or sys.prefix, words.user))
    except OSError as error:
        sys.exit(f"trac_t64.kernel: can't install it: {error}")


if __name__ == '__main__':
    main()
