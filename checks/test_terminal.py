"""`trac_terminal` at a pseudo-terminal, from a pipe, and with files; its messages; forms that are saved."""
import functools
import os
import pty
import re
import select
import signal
import struct
import subprocess
import tempfile
import termios
import time
import unittest
from fcntl import ioctl

import pyte

from c_api import HEADERS, STRICT
from kept_forms import kept_by, library, script_of, sum_of
from test_interruptions import interrupt, shown_though_interrupted, traced
from test_program import are_not_written
from trac import TERMINAL, TOP, instructions

LOOP = '#(ds,L,(#(cl,L)))#(cl,L)\''
USED_UP = 'trac: allowance of 1000 steps used up\n'
FOREVER = '1000000000000'
SOURCES = [os.path.join(HEADERS, f'{name}.c')
           for name in ('terminal', 'calls', 'listing', 'loading', 'replacing', 'saving', 'suspicions', 'texts',
                        'typing')]
ENGINE = os.path.join(TOP, 'build', 'libtrac.a')
EDITING = ['-DWITH_LIBEDIT', '-ledit']
CHECKING = ['-O0', '-g', '-fsanitize=address,undefined', '-fno-sanitize-recover=all']
STORES = 60


@functools.cache
def checked():
    """The program under sanitizers, built once."""
    folder = tempfile.TemporaryDirectory()
    unittest.addModuleCleanup(folder.cleanup)
    return built(folder.name, 'gcc', *CHECKING, *EDITING)


def piped(script, *words, program=TERMINAL, **more):
    """The output of a session, what it prints on standard error, and its status."""
    script = script if isinstance(script, bytes) else script.encode()
    done = subprocess.run([program, *words], input=script, capture_output=True, timeout=60, **more)
    return done.stdout.decode(errors='replace'), done.stderr.decode(errors='replace'), done.returncode


def has_libedit(program):
    """Whether a program was built with libedit."""
    return b'libedit' in subprocess.run(['ldd', program], capture_output=True, check=True).stdout


def built(folder, compiler, *flags):
    """The program, built with these flags; the engine is the one that make built."""
    program = os.path.join(folder, f'terminal{len(os.listdir(folder))}')
    subprocess.run([compiler, *STRICT, '-Wconversion', '-o', program, *SOURCES, ENGINE, *flags], check=True)
    return program


class Room(unittest.TestCase):
    """A test case with its own folder."""

    def setUp(self):
        folder = tempfile.TemporaryDirectory()
        self.addCleanup(folder.cleanup)
        self.folder = folder.name

    def path(self, name):
        return os.path.join(self.folder, name)

    def put(self, name, text):
        with open(self.path(name), 'wb') as file:
            file.write(text if isinstance(text, bytes) else text.encode())
        return self.path(name)

    def got(self, name):
        with open(self.path(name), 'rb') as file:
            return file.read()


def set_window(terminal, lines, columns):
    ioctl(terminal, termios.TIOCSWINSZ, struct.pack('HHHH', lines, columns, 0, 0))


class Typist:
    """A session at a pseudo-terminal, whose output and standard error go there too."""

    def __init__(self, *words, program=TERMINAL, window=None, **env):
        self.shown = b''
        self.child, self.place = pty.fork()
        if self.child == 0:
            # the shell that runs the checks may ignore interrupts
            signal.signal(signal.SIGINT, signal.SIG_DFL)
            set_window(0, *(window or (Screen.ROWS, Screen.COLUMNS)))
            env = {**os.environ, 'TERM': 'dumb', 'LC_ALL': 'C.UTF-8', 'TRAC_HISTORY': '', **env}
            os.execve(program, [program, *words], {name: value for name, value in env.items() if value is not None})

    def read(self, why):
        """Reads what the terminal shows next."""
        try:
            if select.select([self.place], [], [], 20)[0]:
                return os.read(self.place, 65536)
        except OSError:
            pass
        raise AssertionError(why())

    def wait(self, text):
        """Reads until the terminal shows the text, and gives what it showed up to its end."""
        text = text.encode()
        while text not in self.shown:
            more = self.read(lambda: f'{text!r} is not shown, but {self.shown!r}')
            self.shown = (self.shown + more).replace(b'\r\n', b'\n')
        before, self.shown = self.shown.split(text, 1)
        return (before + text).decode()

    def type(self, text):
        os.write(self.place, text if isinstance(text, bytes) else text.encode())

    def status(self):
        """Waits for the end, and gives the status."""
        try:
            while select.select([self.place], [], [], 20)[0] and os.read(self.place, 4096):
                pass
        except OSError:
            pass
        # hangs up, if it hasn't ended
        os.close(self.place)
        return os.waitpid(self.child, 0)[1]


class Screen(Typist):
    """The same at a terminal that can edit lines: what is on its screen."""

    ROWS, COLUMNS = 16, 72

    def __init__(self, *words, **env):
        super().__init__(*words, **{'TERM': 'xterm', **env})
        self.screen = pyte.Screen(self.COLUMNS, self.ROWS)
        self.stream = pyte.ByteStream(self.screen)

    def lines(self):
        return '\n'.join(line.rstrip() for line in self.screen.display).rstrip('\n').split('\n')

    def waits_for(self, *lines):
        """Waits until the last lines of the screen are these."""
        while self.lines()[-len(lines):] != [line.rstrip() for line in lines]:
            self.stream.feed(self.read(lambda: '\n'.join([f'not shown: {lines}', *self.lines()])))

    def waits_at(self, row, column):
        """Waits until the cursor is at this place, counted from 0, or in the last row instead."""
        wanted = min(row, self.ROWS - 1), column
        while (self.screen.cursor.y, self.screen.cursor.x) != wanted:
            self.stream.feed(self.read(lambda: '\n'.join([f'no cursor at {wanted}', *self.lines()])))

    def shows(self, *lines):
        """Waits until the last lines of the screen are these, with the cursor after them."""
        wanted = [line.rstrip() for line in lines]
        while self.lines()[-len(lines):] != wanted or self.screen.cursor.y != len(self.lines()) - 1:
            self.stream.feed(self.read(lambda: '\n'.join([f'not shown: {wanted}', *self.lines()])))


class AtATerminal(Room):
    """Sessions in which the terminal edits lines."""

    def begin(self, *words, **env):
        typist = Typist('--quiet', *words, **env)
        self.assertEqual(typist.wait('> '), '> ')
        return typist

    def end(self, typist):
        typist.type('\x04')
        self.assertEqual(typist.wait('\n'), '\n')
        self.assertEqual(typist.status(), 0)

    def stop(self, typist):
        """Interrupts the running program."""
        typist.type('\x03')
        self.assertRegex(typist.wait('\n> '), r'^\^C\ntrac: stopped at step \d+\n> $')

    def test_a_session(self):
        typist = self.begin()
        typist.type("#(ps,hello)'\n")
        self.assertEqual(typist.wait('> '), "#(ps,hello)'\nhello\n> ")
        # over several lines, and with a line end of its own
        typist.type('#(ps,(one\n')
        self.assertEqual(typist.wait("'> "), "#(ps,(one\n'> ")
        typist.type('two\n')
        self.assertEqual(typist.wait("'> "), "two\n'> ")
        typist.type("))'\n")
        self.assertEqual(typist.wait('\n> '), "))'\none\ntwo\n> ")
        # two strings on one line
        typist.type("#(ps,a)'#(ps,b)'\n")
        self.assertEqual(typist.wait('b\n> '), "#(ps,a)'#(ps,b)'\na\nb\n> ")
        self.end(typist)

    def test_the_banner(self):
        with open(os.path.join(TOP, 'VERSION'), encoding='utf-8') as file:
            version = file.read().strip()
        typist = Typist()
        self.assertEqual(typist.wait('> '), f'TRAC T-64, trac_terminal {version}: ^D ends, :help helps\n> ')
        self.end(typist)

    def test_the_line_feed_behind_a_string_is_dropped(self):
        typist = self.begin()
        typist.type("#(ds,A,##(rc))#(pf,A)'\n")
        typist.wait("'\n")
        typist.type('x\n')
        self.assertIn('x', typist.wait('> ').split('\n')[1])
        self.end(typist)

    def test_a_fault_keeps_the_forms_and_the_meta_character(self):
        typist = self.begin('--steps', '1000')
        typist.type("#(ds,A,kept)#(cm,!)'\n")
        typist.wait('\n> ')
        typist.type(LOOP.replace("'", '!') + '\n')
        self.assertIn(USED_UP + '> ', typist.wait('\n> '))
        typist.type('#(cl,A)\n')
        self.assertEqual(typist.wait('!> '), '#(cl,A)\n!> ')
        typist.type('!\n')
        self.assertIn('\nkept\n', typist.wait('\n> '))
        self.end(typist)

    def test_halt(self):
        typist = self.begin()
        typist.type("#(ps,a)#(hl)'\n")
        self.assertEqual(typist.status(), 0)

    def test_an_interrupt_drops_what_is_half_typed(self):
        typist = self.begin()
        typist.type('#(ps,(half\n')
        typist.wait("'> ")
        typist.type('of it')
        typist.wait('of it')
        typist.type('\x03')
        self.assertEqual(typist.wait('\n> '), '^C\n> ')
        typist.type("#(ps,whole)'\n")
        self.assertEqual(typist.wait('\n> '), "#(ps,whole)'\nwhole\n> ")
        self.end(typist)

    def test_an_interrupt_stops_a_run_and_keeps_forms(self):
        typist = self.begin('--steps', FOREVER)
        typist.type("#(cm,!)#(ds,A,kept)#(ds,L,(#(cl,L)))'#(ps,begun)#(cl,L)!\n")
        typist.wait('\nbegun')
        self.stop(typist)
        typist.type("#(cl,A)!\n")
        self.assertIn('\nkept\n> ', typist.wait('\n> '))
        self.end(typist)

    def test_an_interrupt_stops_files_and_what_reads(self):
        with tempfile.NamedTemporaryFile(suffix='.trac') as file:
            file.write(b"#(ds,A,kept)#(ps,begun)'" + LOOP.encode() + b"#(ps,not this)'")
            file.flush()
            typist = Typist('--quiet', '--steps', FOREVER, file.name, file.name)
            typist.wait('begun')
            self.stop(typist)
        typist.type("#(cl,A)#(ps,( ..))#(rs)'\n")
        typist.wait(' ..')
        typist.wait(' ..')
        typist.type('half')
        typist.wait('half')
        self.stop(typist)
        typist.type("##(cl,A)'\n")
        self.assertIn('\nkept\n> ', typist.wait('\n> '))
        self.end(typist)

    def test_the_end_of_the_input_ends_a_string(self):
        typist = self.begin()
        typist.type('#(ps,half\n')
        typist.wait("'> ")
        typist.type('\x04')
        self.assertEqual(typist.wait('half\n'), '\nhalf\n')
        self.assertEqual(typist.status(), 0)

    def test_empty_lines_begin_no_string(self):
        typist = self.begin()
        for _ in range(2):
            typist.type('\n')
            self.assertEqual(typist.wait('> '), '\n> ')
        typist.type("#(ps,a)'\n")
        self.assertEqual(typist.wait('\n> '), "#(ps,a)'\na\n> ")
        self.end(typist)

    def test_commands(self):
        with tempfile.TemporaryDirectory() as folder:
            saved = os.path.join(folder, 'saved')
            typist = self.begin()
            typist.type(':help\n')
            self.assertIn('\n:save FILE  ', typist.wait('\n> '))
            typist.type(":what\n")
            self.assertEqual(typist.wait('\n> '), ':what\ntrac_terminal: no such command; try :help\n> ')
            for line in ("#(ds,A,b)'", f':save {saved}'):
                typist.type(line + '\n')
                self.assertEqual(typist.wait('\n> '), line + '\n> ')
            typist.type("::x'\n")
            self.assertEqual(typist.wait('\n> '), "::x'\n:x\n> ")
            typist.type('#(ps,(\n')
            typist.wait("'> ")
            typist.type(':help\n')
            typist.wait("'> ")
            typist.type("))'\n")
            self.assertEqual(typist.wait('\n> '), "))'\n\n:help\n> ")
            typist.type(f':save {folder}\n')
            self.assertIn(f"trac_terminal: can't save {folder}: Is a directory\n", typist.wait('\n> '))
            self.end(typist)
            self.assertEqual(piped("##(cl,A)'", saved), ('b\n', '', 0))

    def shows(self, typist, line, shown):
        """Types a line, and expects that this and then the prompt is shown after it."""
        typist.type(line + '\n')
        self.assertEqual(typist.wait('\n> '), f'{line}\n{shown}> ')

    def test_files_are_loaded_between_strings(self):
        script = self.put('script', "#(ps,(a word))#(ds,A,(#(ps,B)))#(ss,A,B)'#(hl)'#(ps,(never seen))'")
        saved = self.path('saved')
        typist = self.begin()
        for line, shown in ((f':load {script}', 'a word\n'), ("#(cl,A,b)'", 'b\n'), (f':save {saved}', ''),
                            ("#(ds,A,c)#(ds,D,d)'", ''), (f':load {saved}', ''),
                            ("#(cl,A,e)#(ps,##(cl,D))'", 'ed\n')):
            self.shows(typist, line, shown)
        self.end(typist)

    def test_what_is_not_loaded_changes_nothing(self):
        saved = self.path('saved')
        typist = self.begin()
        for line in ("#(ds,A,b)'", f':save {saved}', "#(ds,A,c)'"):
            self.shows(typist, line, '')
        self.put('saved', self.got('saved')[:-1])
        for name, why in ((saved, f'{saved}: the saved session is cut or damaged; nothing of it is defined'),
                          (self.folder, f"can't read {self.folder}: Is a directory")):
            self.shows(typist, f':load {name}', f'trac_terminal: {why}\n')
        self.shows(typist, "##(cl,A)'", 'c\n')
        self.end(typist)

    def test_a_file_is_checked_between_strings(self):
        script = self.put('script', "#(ds,A,b)#(ps,(not seen))#(xy,A)'")
        typist = self.begin()
        typist.type(f':check {script}\n')
        self.assertRegex(typist.wait('\n> '), rf'^:check {script}\n{script}: line 1, column \d+: .*xy.*\n> $')
        self.shows(typist, "#(eq,##(cl,A),,none,b)'", 'none\n')
        self.end(typist)

    def test_a_check_is_stopped(self):
        script = self.put('script', "#(ds,A,(#(cl,A)))#(cl,A)'")
        typist = self.begin('--steps', FOREVER)
        self.shows(typist, "#(ds,A,b)'", '')
        typist.type(f':check {script}\n')
        typist.wait('script\n')
        time.sleep(0.5)
        typist.type('\x03')
        typist.wait('> ')
        self.shows(typist, "##(cl,A)'", 'b\n')
        self.end(typist)


class Edited(Room):
    """Sessions in which libedit edits lines: what their screens look like."""

    @classmethod
    def setUpClass(cls):
        made = tempfile.TemporaryDirectory()
        cls.addClassCleanup(made.cleanup)
        cls.program = TERMINAL if has_libedit(TERMINAL) else built(made.name, 'gcc', *EDITING)

    def begin(self, *words, **env):
        screen = Screen(*words, program=self.program, **{'TRAC_HISTORY': self.path('history'), **env})
        screen.shows('> ')
        return screen

    def end(self, screen):
        screen.type('\x04')
        self.assertEqual(screen.status(), 0)

    def test_a_session(self):
        screen = self.begin('--steps', FOREVER)
        self.assertRegex(screen.lines()[0], r'^TRAC T-64, trac_terminal [0-9.]+: \^D ends, :help helps$')
        screen.type("#(ds,greeting,(Hello, X!))'#(ss,greeting,X)'\r")
        screen.shows("> #(ds,greeting,(Hello, X!))'#(ss,greeting,X)'", '> ')
        # arrows in the line, and a forgotten meta character
        screen.type("##(cl,greeting,AdB)\x1b[D\x1b[D\x7fa\r")
        screen.shows("> ##(cl,greeting,AaB)", "'> ")
        screen.type("'\r")
        screen.shows("'> '", 'Hello, AaB!', '> ')
        # the history
        screen.type('\x1b[A\x1b[A')
        screen.shows('> ##(cl,greeting,AaB)')
        screen.type("'\r")
        screen.shows("> ##(cl,greeting,AaB)'", 'Hello, AaB!', '> ')
        # calls that do nothing
        screen.type("#(foo,x)'\r")
        screen.shows("> #(foo,x)'", 'trac: no function foo', '> ')
        # ^C
        screen.type('#(ps,(half')
        screen.shows('> #(ps,(half')
        screen.type('\x03')
        screen.shows('> #(ps,(half^C', '> ')
        screen.type(LOOP + '\r')
        time.sleep(0.3)
        screen.type('\x03')
        screen.shows('> ' + LOOP, '^C', *screen_line(screen, 'trac: stopped at step '), '> ')
        self.end(screen)

    def test_names_are_completed(self):
        screen = self.begin()
        screen.type("#(ds,greeting,G)#(ds,greater,g)#(ds,other,o)#(ds,(a,b),c)'\r")
        screen.shows("> #(ds,greeting,G)#(ds,greater,g)#(ds,other,o)#(ds,(a,b),c)'", '> ')
        screen.type('#(ps,#(i\t,o\t\t')
        screen.shows('> #(ps,#(in,other')
        screen.type("))'\x01\x0b#(cl,\t")
        screen.shows('> #(cl,', 'greeting  greater  other', '> #(cl,')
        screen.type('g\t')
        screen.shows('greeting  greater  other', '> #(cl,gre')
        screen.type('\t')
        screen.shows('> #(cl,gre', 'greeting  greater', '> #(cl,gre')
        screen.type("a\t)'\r")
        screen.shows("> #(cl,greater)'", 'g', '> ')
        # an argument that is no form's name
        screen.type("#(cl,greater,o\t)'\r")
        screen.shows("> #(cl,greater,o)'", 'g', '> ')
        screen.type('#(c\t')
        screen.shows('> #(c', 'cm  cl  cs  cc  cn  cr', '> #(c')
        screen.type("\x15#(dd,greater,gre\t)#(cl,gre\t)'\r")
        screen.shows("> #(dd,greater,gre)#(cl,gre)'", 'trac: no form gre', '> ')
        screen.type('#(DD,gre,o\t')
        screen.shows('> #(DD,gre,other')
        screen.type('\x15')
        self.end(screen)

    def test_what_a_script_asks_stands_before_what_is_typed(self):
        screen = self.begin('--quiet')
        screen.type("#(ps,(Name? ))#(ds,N,##(rs))'\r")
        screen.shows('Name?')
        screen.type("Ada\x1b[D\x1b[DX")
        screen.shows('Name? AXda')
        screen.type("\r")
        screen.shows('Name? AXda', "'> ")
        screen.type("'##(cl,N)'\r")
        screen.shows("'> '##(cl,N)'", 'AXda', '> ')
        self.end(screen)

    def test_a_question_of_any_length_stands_before_what_is_typed(self):
        full, wide = 'x' * Screen.COLUMNS, '\u4e00' * (Screen.COLUMNS // 2)
        for question, rows, shown in ((full[:-1], 1, full[:-1]), (full, 2, ''), (full + 'Name? ', 2, 'Name? '),
                                      (full * 2 + 'Name? ', 3, 'Name? '), (wide + 'Name? ', 2, 'Name? '),
                                      # a prompt that isn't shown again is on a line of its own
                                      ('x' * 4000 + '?', 99, ''), ('Name\t? ', 2, ''),
                                      ('\x1b[1mName\x1b[m? ', 2, '')):
            with self.subTest(question=question):
                file = self.put('file', f"#(ds,ask,(#(ps,({question}))#(ds,N,##(rs))))'")
                screen = self.begin('--quiet', file)
                screen.type("#(cl,ask)'\r")
                screen.waits_at(rows, len(shown))
                screen.type("Ada\x1b[D\x1b[DX'\r")
                typed = shown + "AX'da"
                screen.shows(*[typed[at:at + Screen.COLUMNS] for at in range(0, len(typed), Screen.COLUMNS)], "'> ")
                self.assertIn(question.strip()[-1], '\n'.join(screen.lines()))
                screen.type("##(cl,N)'\r")
                screen.shows("'> ##(cl,N)'", 'daAX', '> ')
                self.end(screen)

    def test_names_that_are_shown_are_escaped(self):
        file = self.put('file', "#(ds,a\u202eb,x)#(ds,a\u2066\u061c,x)#(ds,a\u009bm,x)#(ds,aé‰,x)'")
        screen = self.begin('--quiet', file)
        screen.type('#(cl,\t\t')
        screen.shows('> #(cl,a', r'a\xe2\x80\xaeb  a\xe2\x81\xa6\xd8\x9c  a\xc2\x9bm  aé‰', '> #(cl,a')
        screen.type("\x15'\r")
        screen.shows("> '", '> ')
        self.end(screen)

    def test_windows_that_can_not_be(self):
        for lines, columns in ((65535, 65535), (0, 0), (65535, 80)):
            screen = self.begin('--quiet', window=(lines, columns))
            screen.type("#(ps,hello)'\r")
            screen.shows("> #(ps,hello)'", 'hello', '> ')
            found = struct.unpack('HHHH', ioctl(screen.place, termios.TIOCGWINSZ, bytes(8)))[:2]
            self.assertEqual(found, (24, 80) if lines else (0, 0))
            set_window(screen.place, 65535, 65535)
            screen.type("#(ps,again)'\r")
            screen.shows('again', '> ')
            self.end(screen)

    def test_the_history_is_searched(self):
        for keys in ('', 'bind -v'):
            with self.subTest(keys=keys):
                self.put('history', "#(ps,(one apple))'\n#(ps,(two pears))'\n#(ps,(no apple))'\n")
                screen = self.begin('--quiet', EDITRC=self.put('editrc', keys + '\n'))
                screen.type('\x12app')
                screen.waits_for("> #(ps,(no apple))'", 'bck:app')
                screen.type('\x12')
                screen.waits_for("> #(ps,(one apple))'", 'bck:app')
                screen.type('\r')
                screen.shows("> #(ps,(one apple))'", 'one apple', '> ')
                screen.type("#(p\t,x)'\r")
                screen.shows('ps  pf', "> #(p,x)'", '> ')
                self.end(screen)

    def test_what_is_pasted_is_not_run_before_its_line_is_sent(self):
        screen = self.begin('--quiet')
        screen.type("\x1b[200~#(ps,(one\rtwo\tthree\x01\nfour))'\x1b[201~")
        screen.shows('> #(ps,(one', 'two     three^A', "four))'")
        screen.type('\r')
        screen.shows("four))'", 'one', 'two     three', 'four', '> ')
        self.end(screen)

    def test_bytes_that_are_no_characters(self):
        screen = self.begin('--quiet')
        screen.type("#(ds,A,é€".encode() + b"\xff\xe9)'\r")
        screen.shows("> #(ds,A,é€\\U+DCFF\\U+DCE9)'", '> ')
        screen.type(f":save {self.path('saved')}\r")
        screen.shows(f"> :save {self.path('saved')}", '> ')
        self.end(screen)
        self.assertIn(b'#(ds,A,(' + 'é€'.encode() + b"\xff\xe9))'", self.got('saved'))

    def test_long_lines(self):
        for text in ('x' * 20000, '\x1b[200~' + 'y' * 30000 + '\x1b[201~'):
            screen = self.begin('--quiet')
            script, sent = f"#(ds,A,{text})'#(ln,(n))'\r", 0
            while sent < len(script):
                screen.type(script[sent:sent + 500])
                sent += 500
                while select.select([screen.place], [], [], 0)[0]:
                    screen.shown += screen.read(str)
            screen.shown = screen.shown.replace(b'\r\n', b'\n')
            screen.wait('nA\n')
            # what is typed before that is the terminal's
            screen.wait('> ')
            self.end(screen)

    def test_the_history_is_kept(self):
        screen = self.begin('--quiet')
        screen.type("#(ps,é\\)'\r\x1b[200~#(ps,(a\rb))'\x1b[201~\r")
        screen.shows('a', 'b', '> ')
        self.end(screen)
        self.assertEqual(self.got('history').decode(), "#(ps,é\\\\)'\n#(ps,(a\\nb))'\n")
        self.assertEqual(os.stat(self.path('history')).st_mode & 0o777, 0o600)
        screen = self.begin('--quiet')
        screen.type('\x1b[A\x1b[A\r')
        screen.shows("> #(ps,é\\)'", 'é\\', '> ')
        self.end(screen)
        self.assertEqual(self.got('history').decode(), "#(ps,é\\\\)'\n#(ps,(a\\nb))'\n#(ps,é\\\\)'\n")

    def test_a_long_history_is_cut(self):
        self.put('history', ''.join(f'#(ps,{i})\'\n' for i in range(2500)))
        screen = self.begin('--quiet')
        screen.type('\x1b[A\r')
        screen.shows("> #(ps,2499)'", '2499', '> ')
        self.end(screen)
        lines = self.got('history').decode().split('\n')
        self.assertEqual((lines[0], len(lines)), ("#(ps,1500)'", 1002))

    def test_a_history_that_can_not_be_cut_stays(self):
        lines = ''.join(f'#(ps,{i})\'\n' for i in range(2500))
        self.put('history', lines)
        limited = self.put('limited', f'#!/bin/sh\ntrap "" XFSZ\nulimit -f 0\nexec {self.program} "$@"\n')
        os.chmod(limited, 0o755)
        screen = Screen('--quiet', program=limited, TRAC_HISTORY=self.path('history'))
        screen.shows('> ')
        self.end(screen)
        self.assertEqual(self.got('history').decode(), lines)

    def test_the_history_in_the_home_folder_and_none(self):
        for history, wanted in (('', []), (None, ['.trac_history'])):
            screen = self.begin('--quiet', HOME=self.folder, TRAC_HISTORY=history)
            screen.type("a'\r")
            screen.shows("> a'", 'a', '> ')
            self.end(screen)
            self.assertEqual(os.listdir(self.folder), wanted)

    def test_without_libedit_lines_are_plain(self):
        plain = built(self.folder, 'gcc')
        self.assertFalse(has_libedit(plain))
        typist = Typist('--quiet', program=plain, TERM='xterm')
        typist.type("#(ps,a)'\n")
        self.assertIn("#(ps,a)'\n", typist.wait('a\n> '))
        typist.type('\x04')
        self.assertEqual(typist.status(), 0)


def screen_line(screen, start):
    """The line of the screen that begins with this text, when it is there."""
    while not any(line.startswith(start) for line in screen.lines()):
        screen.stream.feed(screen.read(lambda: '\n'.join(screen.lines())))
    return [line for line in screen.lines() if line.startswith(start)][-1:]


class Piped(unittest.TestCase):
    def test_no_prompt(self):
        self.assertEqual(piped("#(ps,a)'\n#(ps,(b\n))'\n'\n#(ps,c)"), ('a\nb\nc\n', '', 0))
        self.assertEqual(piped(''), ('', '', 0))
        with open(os.devnull, 'rb') as nothing:
            done = subprocess.run([TERMINAL], stdin=nothing, capture_output=True, timeout=60)
        self.assertEqual((done.stdout, done.stderr, done.returncode), (b'', b'', 0))

    def test_the_allowance_is_for_each_string(self):
        string = "#(ps,0123456789)'\n"
        self.assertEqual(piped(string * 100, '--steps', '100'), ('0123456789\n' * 100, '', 0))
        self.assertEqual(piped(LOOP + string, '--steps', '1000'), ('0123456789\n', USED_UP, 0))
        # a string whose last step is the last that is allowed
        self.assertEqual(piped("#(ps,hello)'" * 3, '--steps', '20'), ('hello\n' * 3, '', 0))
        self.assertEqual(piped("#(ps,hello)'", '--steps', '19'),
                         ('hello\n', 'trac: allowance of 19 steps used up\n', 0))

    def test_a_string_that_does_not_fit_is_passed_over(self):
        script = '#(ps,' + 'x' * 100 + ")'\n#(ps,ok)'\n"
        self.assertEqual(piped(script, '--cells', '40'),
                         ('ok\n', 'trac: workspace of 40 cells full at step 9\n', 0))
        script = '#(ps,' + 'x' * 100000 + ")'\n#(ps,ok)'\n"
        self.assertEqual(piped(script, '--cells', '40')[0], 'ok\n')

    def test_a_room_and_an_allowance_in_which_nothing_is_read(self):
        self.assertEqual(piped("'" * 9, '--cells', '10'),
                         ('', 'trac: workspace of 10 cells full at step 1\n', 1))
        self.assertEqual(piped("'" * 9, '--steps', '8'),
                         ('', 'trac: allowance of 8 steps used up\n', 3))

    def test_a_fault_keeps_the_forms_and_the_meta_character(self):
        script = "#(ds,A,kept)#(cm,!)'" + LOOP.replace("'", '!') + '#(cl,A)!'
        self.assertEqual(piped(script, '--steps', '1000'), ('kept\n', USED_UP, 0))

    def test_a_string_is_answered_before_the_next_is_read(self):
        session = subprocess.Popen([TERMINAL], stdin=subprocess.PIPE, stdout=subprocess.PIPE)
        for text in (b'one', b'two', b'three'):
            for piece in (b'#(ps,', text, b")'"):
                os.write(session.stdin.fileno(), piece)
                time.sleep(0.02)
            self.assertEqual(session.stdout.readline(), text + b'\n')
        self.assertEqual((session.communicate(timeout=60)[0], session.returncode), (b'', 0))

    def test_all_that_is_printed_is_written_once(self):
        names = ''.join(f'#(ps,{i};)' for i in range(200))
        text = 'x' * 20000
        script = f"{names}'#(ps,{text})'#(ps,end)'"
        wanted = ''.join(f'{i};' for i in range(200)) + f'\n{text}\nend\n'
        self.assertEqual(piped(script), (wanted, '', 0))

    def test_a_long_session_in_little_memory(self):
        script = b''.join(b"#(ds,A,(%s))'\n" % (b'x' * (20000 + at)) for at in range(1000)) + b"#(ps,end)'"
        endless = b"#(ps," + b'x' * 30000000 + b")'#(ps,end)'"
        for given, line in ((script, ''), (endless, 'trac: workspace of 65536 cells full at step 9\n')):
            done = subprocess.run(['sh', '-c', 'ulimit -v 12000; "$0"', TERMINAL], input=given, capture_output=True,
                                  timeout=60)
            self.assertEqual((done.stdout, done.stderr.decode(), done.returncode), (b'end\n', line, 0))

    def test_a_long_string(self):
        script = b'#(ps,(' + b'x' * 8000000 + b"))'#(ps,end)'"
        output, lines, status = piped(script, '--cells', '16777216')
        self.assertEqual((len(output), output[-6:], lines, status), (8000005, 'x\nend\n', '', 0))

    def test_words_that_are_refused(self):
        for words in (['--cells', '0'], ['--steps'], ['--report'], ['-x', 'file'], ['--save'], ['-qx'], ['--batch'],
                      ['--check'], ['--check', '--batch', 'x'], ['--check', '--save', 'x', 'y'],
                      ['--quiet', '-q'], ['--batch=yes', 'x'], ['--save', 'x', '--save', 'y'], [b'--save=\xff']):
            output, lines, status = piped('', *words)
            self.assertEqual((output, status), ('', 2))
            self.assertTrue(lines.startswith('error:'))
        self.assertEqual(piped('', '--help')[1:], ('', 0))
        self.assertEqual(piped('', '-x')[1], "error: unexpected argument '-x' found\n\n"
                         "Usage: trac_terminal [OPTIONS] [FILE ..]\n\nFor more information, try '--help'.\n")

    def test_help_and_version(self):
        with open(os.path.join(TOP, 'VERSION'), encoding='utf-8') as file:
            self.assertEqual(piped('', '--version'), (f'trac_terminal {file.read().strip()}\n', '', 0))
        self.assertIn('\nUsage: trac_terminal [OPTIONS] [FILE ..]\n', piped('', '-qh')[0])
        are_not_written(self, TERMINAL)


class Devices(Room):
    def test_an_output_that_fails(self):
        with open('/dev/full', 'wb') as full:
            done = subprocess.run([TERMINAL], input=b"#(ps,a)'#(ps,b)'", stdout=full,
                                  stderr=subprocess.PIPE, timeout=60)
        self.assertEqual((done.stderr, done.returncode), (b'trac: output failed at step 15\n', 5))

    def test_an_output_that_failed_is_not_written_again(self):
        file = self.put('file', "#(ps,a)'#(ps,b)'")
        for words, step in (([], 1), (['--batch', file, file], 1), ([file, file], 1), ([], 2)):
            (output, lines, status), calls = traced([TERMINAL, *words], f'write:error=EIO:when={step}+')
            # the line about it isn't written either
            self.assertEqual((lines, status), ('', 5))
            self.assertEqual([call[:8] for call in calls if call.startswith('write(1,')], ['write(1,'] * step)
            self.assertLessEqual(len(output), 5)

    def test_an_input_that_failed_is_not_read_again(self):
        plain = traced([TERMINAL])[1]
        first = 1 + next(at for at, line in enumerate(line for line in plain if line.startswith('read('))
                         if line.startswith('read(0,'))
        (output, lines, status), calls = traced([TERMINAL], f'read:error=EIO:when={first}+')
        self.assertEqual((output, lines, status), (b'', 'trac: input failed at step 9\n', 4))
        self.assertEqual(sum(line.startswith('read(0,') for line in calls), 1)
        folder = os.open(self.folder, os.O_RDONLY)
        done = subprocess.run([TERMINAL], stdin=folder, capture_output=True, timeout=60)
        os.close(folder)
        self.assertEqual((done.stdout, done.stderr, done.returncode), (b'', b'trac: input failed at step 9\n', 4))

    def test_calls_that_are_interrupted(self):
        interrupt(self, [TERMINAL], (b'hello\n', '', 0))
        shown_though_interrupted(self, TERMINAL)

    def test_no_memory_for_the_cells(self):
        done = subprocess.run(['sh', '-c', 'ulimit -v 50000; "$0" --cells 16777216', TERMINAL], input=b"#(ps,a)'",
                              capture_output=True, timeout=60)
        self.assertEqual((done.stdout, done.stderr, done.returncode), (b'', b'trac: no memory for 16777216 cells\n', 6))

    def test_each_request_for_memory_in_turn(self):
        refusing = self.path('refusing.so')
        subprocess.run(['gcc', '-shared', '-fPIC', '-O1', '-fno-builtin', '-o', refusing,
                        os.path.join(TOP, 'checks', 'refusing.c')], check=True)
        file = self.put('file', "#(ds,P,(()))#(ds,A,##(cc,P)a)#(ps,(from a file ))'")
        script = "#(ps," + 'x' * 9000 + ")#(foo)#(cl,A)'#(ps,end)'"
        piped("#(ds,loaded,x)'", '--save', self.path('loaded'))
        words = ['--save', self.path('saved'), self.path('loaded'), file]
        def run_refusing(number):
            with tempfile.TemporaryFile() as requests:
                ended = piped(script, *words, pass_fds=[requests.fileno()], env={
                    **os.environ, 'LD_PRELOAD': refusing, 'REFUSED': str(number), 'REQUESTS': str(requests.fileno())})
                requests.seek(0)
                return ended, len(requests.read().split())

        ample, made = run_refusing(0)
        self.assertEqual(ample[1:], ('trac: no function foo\n', 0))
        self.assertGreater(made, 30)
        saved = self.got('saved')
        for number in range(1, made + 1):
            with self.subTest(request=number, of=made):
                os.remove(self.path('saved'))
                (output, lines, status), _ = run_refusing(number)
                self.assertIn(status, (0, 4, 5, 6))
                self.assertTrue(ample[0].startswith(output), output)
                self.assertLessEqual(set(re.findall(r'no function (\w+)', lines)), {'foo'})
                if status == 0:
                    self.assertEqual((output, self.got('saved')), (ample[0], saved))
                else:
                    self.assertIn('memory', lines)
                if not os.path.exists(self.path('saved')):
                    self.put('saved', saved)


class Files(Room):
    def test_what_is_suspicious(self):
        folder = os.path.join(TOP, 'examples', 'broken')
        files = sorted(os.path.join(folder, name) for name in os.listdir(folder) if name.endswith('.trac'))
        wanted = []
        for file in files:
            with open(file[:-4] + 'warnings', encoding='utf-8') as told:
                wanted += [f'{file}: {line}' for line in told]
        output, lines, status = piped('', '--check', *files)
        looks = [line for line in output.splitlines(True) if ': it looks like an old listing' in line]
        self.assertEqual([os.path.basename(line.split(':')[0]) for line in looks],
                         ['27-typographic-apostrophe.trac', '32-line-end-as-meta.trac', 'listing-3-cr-lf.trac',
                          'listing-7-left-out.trac'])
        self.assertEqual((''.join(line for line in output.splitlines(True) if line not in looks), lines, status),
                         (''.join(wanted), '', 1))
        clean, endless = self.put('clean', "#!trac_terminal\n#(ps,(a))'"), self.put('endless', LOOP)
        none, odd = self.path('none'), self.put('odd', b"#(cl,\xff)'")
        self.assertEqual(piped('', '--check', clean, '/dev/null'), ('', '', 0))
        output, lines, status = piped('', '--check', '--steps', '500', odd, endless, none)
        self.assertEqual((output, status), (
            f'{odd}: line 1, column 1: no form has the name \\xff\n'
            f'{endless}: line 1, column 9: in the value of L, column 1: this call was open when the run ended\n'
            f'{endless}: line 1, column 9: in the value of L, column 5: the run ended here\n'
            f'{endless}: allowance used up: 500 steps, peak 36 cells\n', 4))
        self.assertTrue(lines.startswith(f"trac_terminal: can't read {none}: "))
        many = self.put('many', ''.join(f'#(no{number})' for number in range(20000)) + "'")
        self.assertEqual(piped('', '--check', '--cells', '400000', many)[0].count('no function has the name'), 20000)
        with open('/dev/full', 'wb') as full:
            done = subprocess.run([TERMINAL, '--check', odd], stdout=full, check=False, timeout=60)
        self.assertEqual(done.returncode, 5)

    def test_files_are_run_first(self):
        first = self.put('first', "#!/usr/bin/trac\n#(ds,A,(#(ps,a)))'\n#(cl,A)'#(cl,A)'\n")
        second = self.put('second', "#(ps,b)#(hl)'#(ps,not this)'")
        self.assertEqual(piped("#(cl,A)'\n", first, second), ('aa\nb\na\n', '', 0))
        self.assertEqual(piped("#(cl,A)'\n", '--steps', '100', '--', first), ('aa\na\n', '', 0))

    def test_options_behind_files(self):
        file = self.put('loop', LOOP)
        self.assertEqual(piped("#(ps,a)'", file, '--steps', '1000'), ('a\n', USED_UP, 0))
        self.assertEqual(piped("#(ps,a)'", '--', file, '--steps')[1:],
                         ("trac: allowance of 1000000 steps used up\n"
                          "trac_terminal: can't read --steps: No such file or directory\n", 4))

    def test_a_file_is_read_as_it_stands(self):
        name = self.put('lines', "#(ds,A,##(rs))'\nx'[##(cl,A)]'")
        self.assertEqual(piped('', name), ('[\nx]\n', '', 0))

    def test_heads_of_files(self):
        for text, output in (('#!', ''), ('#!x', ''), ("#!'\n", ''), ("##!'", '##!\n'),
                             (" #!'", ' #!\n'), ('', '')):
            with self.subTest(text=text):
                self.assertEqual(piped('', self.put('head', text)), (output, '', 0))

    def test_a_fault_in_a_file(self):
        name = self.put('loop', LOOP + "#(ds,A,kept)'")
        self.assertEqual(piped("#(cl,A)'", '--steps', '1000', name), ('kept\n', USED_UP, 0))

    def test_a_file_that_can_not_be_read(self):
        name = self.path('none')
        self.assertEqual(piped("#(ps,a)'", name),
                         ('', f"trac_terminal: can't read {name}: No such file or directory\n", 4))
        self.assertEqual(piped("#(ps,a)'", self.folder)[1:],
                         (f"trac_terminal: can't read {self.folder}: Is a directory\n", 4))

    def test_names_of_files_are_shown_with_escapes(self):
        for name, shown in (('a\nb\x1b[m', r'a\nb\x1b[m'), ('\x7f\\\t\r', r'\x7f\\\t\r'), ('é\u0085', r'é\xc2\x85'),
                            ('\u202ea\u2066\u061c', r'\xe2\x80\xaea\xe2\x81\xa6\xd8\x9c'),
                            ('‰\u2065', '‰\u2065')):
            self.assertEqual(piped('', name)[1], f"trac_terminal: can't read {shown}: No such file or directory\n")


class Batches(Room):
    def test_files_are_run_and_nothing_else(self):
        first, second = self.put('first', "#(ds,A,a)#(ps,one)'"), self.put('second', "##(cl,A)'")
        self.assertEqual(piped("#(ps,not this)'", '--batch', first, second), ('one\na\n', '', 0))
        self.assertEqual(piped("#(ps,not this)'", first, second, '--batch'), ('one\na\n', '', 0))

    def test_the_status_of_the_worst(self):
        good, halted = self.put('good', "#(ps,good)'"), self.put('halted', "#(hl)'#(ps,not this)'")
        full, long = self.put('full', "\n\n\t\t#(ps," + 'x' * 100 + ")'#(ps,ok)'"), self.put('long', "é'" + LOOP)
        none = self.path('none')
        faults = {full: (f'{full}:3:3: workspace of 60 cells full at step 9\n', 1),
                  long: (f'{long}:1:3: allowance of 1000 steps used up\n', 3),
                  none: (f"trac_terminal: can't read {none}: No such file or directory\n", 4)}
        for files in ([good], [good, full], [full, good], [long, full, good], [none, full, long, halted]):
            with self.subTest(files=[os.path.basename(file) for file in files]):
                _, lines, status = piped('', '--batch', '--cells', '60', '--steps', '1000', *files)
                self.assertEqual(lines, ''.join(faults[file][0] for file in files if file in faults))
                self.assertEqual(status, max(faults.get(file, ('', 0))[1] for file in files))

    def test_places_of_strings(self):
        file = self.put('a\nb', "#!head\n#(foo)'é#(bar)'\n\té#(baz,(\n\n))'\n'#(baz)'")
        shown = self.path(r'a\nb')
        self.assertEqual(piped('', '--batch', file)[1].splitlines(), [
            f'{shown}:2:1: no function foo', f'{shown}:2:8: no function bar', f'{shown}:3:2: no function baz',
            f'{shown}:6:2: no function baz'])

    def test_a_script_with_a_head_ends_by_itself(self):
        script = self.put('script', f"#!{TERMINAL} --batch\n#(ps,(from the script))'")
        os.chmod(script, 0o755)
        self.assertEqual(piped("#(ps,not this)'", program=script), ('from the script\n', '', 0))

    def test_an_interrupt_ends_it(self):
        file = self.put('endless', "#(ps,begun)'" + LOOP)
        typist = Typist('--batch', '--steps', FOREVER, file)
        typist.wait('begun')
        typist.type('\x03')
        self.assertTrue(os.WIFSIGNALED(typist.status()))


class Unheard(unittest.TestCase):
    """Calls that do nothing."""

    def said(self, script, *words):
        _, lines, status = piped(script, *words)
        self.assertEqual(status, 0)
        return lines.splitlines()

    def test_functions_that_are_none(self):
        self.assertEqual(self.said("#(foo,x)'"), ['trac: no function foo'])
        self.assertEqual(self.said("#(foo,#(ps,a)##(ps,#(bar,#(eq,a,b)#(eq))))'"), [
            'trac: no function bar', 'trac: no function foo'])
        self.assertEqual(self.said("##(foo,x)#(#(bar),y)#((,)\n)#(p,s)#( ps,x)#(ps#(x),y)#(psx,y)#(ps(x),z)'"), [
            f'trac: no function {name}' for name in ('foo', 'bar', ',', 'p', ' ps', 'x', 'psx')])
        self.assertEqual(self.said("#(ds,F,(#(foo)))#(ps,#(cl,F)#(cl,F))'#(cl,F)'"), ['trac: no function foo'] * 2)
        self.assertEqual(self.said("#(((\x1b\n\\é)))'"), [r'trac: no function (\x1b\n\\é)'])

    def test_forms_that_are_none(self):
        self.assertEqual(self.said("#(cl,F)#(ds,F,x)#(cl,F)#(CS,G)#(cl)#(dd,F)#(dd,F)'"), [
            'trac: no form F', 'trac: no form G', 'trac: no form of the null name'])
        self.assertEqual(self.said("#(ds,,x)#(cl)#(cl,)'"), [])

    def test_what_is_no_mistake(self):
        self.assertEqual(self.said("#(,(a comment))#()#(PS,a)#(Ps,b)###(ps,c))'#(hl)'"), [])
        self.assertEqual(self.said("#(dd,F)#(dd)#(dd,)#(DD,(F),G)#(ds,F,x)#(dd,G,F,F)'"), [])
        self.assertEqual(self.said("#(foo,x)#(cl,F)'", '--quiet'), [])
        self.assertEqual(self.said("#(foo,x)#(cl,F)'", '-q'), [])
        with open(os.path.join(TOP, 'examples', 'hanoi.trac'), encoding='utf-8') as script:
            self.assertEqual(self.said(script.read()), [])

    def test_a_call_that_is_not_performed(self):
        self.assertEqual(piped("#(foo)'", '--steps', '13'), ('', 'trac: allowance of 13 steps used up\n', 0))
        self.assertEqual(piped("#(foo)'", '--steps', '14')[1].splitlines()[0], 'trac: no function foo')

    def test_many_of_them(self):
        calls = [f'no function f{i}' for i in range(8)]
        self.assertEqual(self.said(''.join(f'#(f{i},#(f0))' for i in range(100)) + "'#(x)'"), [
            *(f'trac: {call}' for call in calls), 'trac: more calls did nothing', 'trac: no function x'])

    def test_in_calls_that_stand_deep(self):
        script = "#(ds,D,(#(gr,N,0,(#(ps,#(cl,D,#(su,N,1)))),(#(foo)))))#(ss,D,N)#(cl,D,900)'"
        self.assertEqual(self.said(script), ['trac: no function foo'])

    def test_a_look_at_a_call_passes_over_no_text_in_front_of_it(self):
        def took(text, calls):
            script = f"#(ps,({'x' * text}){'#(cl,a)' * calls})'"
            return instructions([TERMINAL, '--cells', '100000'], script.encode())

        short, long = (took(text, 200) - took(text, 0) for text in (100, 20000))
        self.assertLess(long, 2 * short)

    def test_the_functions_are_those_of_the_manual(self):
        with open(os.path.join(TOP, 'docs', 'LANGUAGE.md'), encoding='utf-8') as file:
            table = file.read().split('\n## All functions on one page\n')[1].split('\n## ')[0]
        rows = re.findall(r'^\|((?: `[a-z]{2}[^`]*`)+) \|', table, re.MULTILINE)
        functions = {name for row in rows for name in re.findall(r'`([a-z]{2})', row)}
        self.assertEqual(len(functions), 28)
        letters = 'abcdefghijklmnopqrstuvwxyz'
        names = [a + b for a in letters for b in letters if a + b not in ('ds', 'hl', 'rs', 'rc')]
        lines = self.said(''.join(f"#({name})'" for name in names))
        self.assertEqual([line for line in lines if 'function' in line],
                         [f'trac: no function {name}' for name in names if name not in functions])
        self.assertEqual(sum('no form' in line for line in lines), len('ss pf cl cs cc cn in cr'.split()))
        for name in ('ds', 'hl', 'rs', 'rc'):
            self.assertEqual(self.said(f"#({name})'x'"), [])


class Saved(Room):
    """Forms that are saved: the script defines the same ones anew."""

    @classmethod
    def setUpClass(cls):
        cls.library = library()

    def save(self, script, *words):
        """The saved session after the script was run, and the messages."""
        file = self.put('script', script)
        output, lines, status = piped('', '--batch', '--quiet', '--save', self.path('saved'), file, *words,
                                      program=checked())
        self.assertEqual((output, status), ('', 0), lines)
        return self.got('saved'), lines

    def is_kept(self, script, *words):
        saved, lines = self.save(script, *words)
        self.assertEqual(lines, '')
        self.assertEqual(kept_by(self.library, saved), kept_by(self.library, script), saved)
        return saved.decode(errors='replace')

    def test_what_is_written(self):
        script = (b"#(ds,greet,(#(ps,(Hello, X!))))'#(ss,greet,X)#(,##(cs,greet))'"
                  b"#(ds,P,(()))#(ds,open,##(cc,P)a)#(dd,P)'")
        with open(os.path.join(TOP, 'VERSION'), encoding='utf-8') as file:
            version = file.read().strip()
        saved = self.is_kept(script)
        self.assertEqual(saved, f"""#(,(Session saved by trac_terminal {version}))'
#(ds,<,(()))#(ds,<,##(cc,<))'
#(ds,greet,(#(ps,(Hello, ~1!))))'
#(ss,greet,~1)'
#(,##(cn,greet,13)##(cs,greet))'
#(ds,open,##(cl,<)(a))'
#(dd,<)
#(,(End of the session saved by trac_terminal, 2 forms, checksum {sum_of(saved.encode())}))'
""")

    def test_the_meta_character(self):
        saved = self.is_kept(b"#(cm,;)'#(ds,It's,(don't));")
        self.assertIn("#(cm,;)'\n#(ds,(It's),(don't));\n", saved)
        for meta in b'\n\r\t(),#\'!ax\x00\xff':
            self.is_kept(b"#(ds,A,##(rc))'" + bytes([meta]) + b"#(cm,##(cl,A))'")

    def test_no_forms(self):
        self.assertEqual(self.is_kept(b"#(ds,A,b)#(da)'").count('\n'), 2)

    def test_all_bytes_gaps_and_pointers(self):
        every = bytes(range(256))
        read = b'##(rc)' * 256
        for pointer in (b'', b'#(,##(cn,A,5))', b'#(,##(cs,A))', b'#(,##(cs,A)##(cs,A))', b'#(,##(cn,A,1000)##(cs,A))'):
            self.is_kept(b'#(ds,A,' + read + b")'" + every + b"#(ss,A,A,B,C,(),x)" + pointer + b"'")
        self.is_kept(b'#(ds,' + read + b',' + read + b")'" + every + every[::-1])
        # texts that look like placeholders, more ordinals than ten, gaps at both ends and side by side
        self.is_kept(b"#(ds,A,~1~~01~10~a~b)#(ss,A,a,,,,,,,,,,,,b)#(,##(cn,A,99)##(cs,A))'")
        for at in range(9):
            self.is_kept(b"#(ds,A,aabcaabaa)#(ss,A,aa,b)#(,##(cs,A))" + b'#(,##(cs,A))' * at + b"'")
            self.is_kept(b"#(ds,A,aabcaabaa)#(ss,A,aa,b)" + b'#(,##(cc,A))' * at + b"'")

    def test_names_that_the_script_itself_uses(self):
        self.is_kept(b"#(ds,P,(()))#(ds,<,##(cc,P))#(ds,<<,##(cc,P))#(ds,>,##(cl,<))#(ds,>>>,x)'")

    def test_random_stores(self):
        forms = gaps = moved = 0
        for seed in range(STORES):
            with self.subTest(seed=seed):
                script = script_of(seed)
                self.is_kept(script)
                kept, _ = kept_by(self.library, script)
                forms += len(kept)
                gaps += sum(code > 255 for form in kept for code in form[1])
                moved += sum(form[2] > 0 for form in kept)
        self.assertGreater(min(forms, gaps, moved), STORES)

    def test_a_form_that_takes_more_cells_is_named(self):
        # whose parenthesis takes a form beside it, and whose gaps were one character each
        script = b"#(ds,A,##(rs))'((((((((((((((((((((((((((((((((((((((((((((((((((((((((((((((('#(ds,B,c)'"
        saved, lines = self.save(script, '--cells', '160')
        self.assertEqual(
            lines, f"trac_terminal: {self.path('saved')}: more cells or steps are needed to define the form A\n")
        self.assertIn(b"#(,(More cells or steps than there were are needed to define the form )A)'\n", saved)
        self.assertEqual(kept_by(self.library, saved), kept_by(self.library, script))
        self.assertEqual(self.save(script)[1], '')

    def test_a_session_goes_on_another_day(self):
        first, second = self.path('first'), self.path('second')
        self.assertEqual(piped("#(ds,N,0)#(ds,count,(#(ds,N,#(ad,#(cl,N),1))#(cl,N)))'#(cl,count)'", '--save', first),
                         ('1\n', '', 0))
        self.assertEqual(piped("#(cl,count)'#(cl,count)'", first, '--save', second), ('2\n3\n', '', 0))
        self.assertEqual(piped("#(cl,count)'", second), ('4\n', '', 0))

    def test_where_it_can_not_be_saved(self):
        self.assertEqual(piped("#(ps,a)'", '--save', self.path('no/where')),
                         ('a\n', f"trac_terminal: can't save {self.path('no/where')}: No such file or directory\n", 5))
        # by links, so that a program that puts a file in the place of a device does no harm
        for name in ('full', 'stdout'):
            os.symlink(f'/dev/{name}', self.path(name))
        self.assertEqual(piped("#(ps,a)'", '--save', self.path('full'))[1:],
                         (f"trac_terminal: can't save {self.path('full')}: No space left on device\n", 5))
        self.assertIn("#(ds,A,b)'\n", piped("#(ds,A,b)'", '--save', self.path('stdout'))[0])
        self.assertTrue(os.path.islink(self.path('full')) and os.path.islink(self.path('stdout')))

    def test_what_was_saved_before_stays_where_a_file_is_not_read(self):
        saved, none, file = self.put('saved', 'before'), self.path('none'), self.put('file', "#(ds,A,b)'")
        for words in ([none], [file, none], ['--batch', none, file]):
            lines, status = piped("#(ps,a)'", *words, '--save', saved)[1:]
            self.assertEqual((lines, status), (f"trac_terminal: can't read {none}: No such file or directory\n"
                                               "trac_terminal: the forms aren't saved, since a file wasn't read\n", 4))
        self.assertEqual(self.got('saved'), b'before')

    def test_what_was_saved_before_stays_until_the_new_is_there(self):
        saved = self.put('saved', 'before')
        done = subprocess.run(['sh', '-c', 'trap "" XFSZ; ulimit -f 0; "$0" --save "$1"', TERMINAL, saved],
                              input=b"#(ds,A,b)'", capture_output=True, timeout=60)
        self.assertEqual((done.returncode, self.got('saved')), (5, b'before'))
        self.assertIn(b'File too large', done.stderr)
        self.assertEqual(os.listdir(self.folder), ['saved'])

    def test_permissions_stay(self):
        saved, umask = self.put('saved', 'before'), os.umask(0o22)
        self.addCleanup(os.umask, umask)
        for mode in (0o600, 0o664):
            os.chmod(saved, mode)
            self.assertEqual(piped("#(ds,A,b)'", '--save', saved), ('', '', 0))
            self.assertEqual(os.stat(saved).st_mode & 0o777, mode)
        os.remove(saved)
        piped('', '--save', saved)
        self.assertEqual((os.stat(saved).st_mode & 0o777, os.listdir(self.folder)), (0o644, ['saved']))
        os.symlink(saved, self.path('link'))
        piped("#(ds,A,b)'", '--save', self.path('link'))
        self.assertTrue(os.path.islink(self.path('link')))
        self.assertIn(b'#(ds,A,b)', self.got('saved'))


class Page(unittest.TestCase):
    """The man page says what the help and the program say."""

    @classmethod
    def setUpClass(cls):
        done = subprocess.run(['man', '--warnings', '-l', os.path.join(TOP, 'docs', 'trac_terminal.1')], check=True,
                              capture_output=True, text=True,
                              env={**os.environ, 'MANWIDTH': '500', 'MANPAGER': 'cat', 'LC_ALL': 'C.UTF-8'})
        cls.text, cls.warnings = done.stdout, done.stderr
        cls.help = piped('', '--help')[0]

    def section(self, name):
        return re.search(rf'^{name}\n(.*?)\n(?=\S)', self.text, re.MULTILINE | re.DOTALL)[1]

    def test_it_formats_without_a_warning(self):
        self.assertEqual(self.warnings, '')

    def test_it_sends_nobody_to_a_page_that_needs_the_kit(self):
        self.assertNotIn('trac_trace', self.text)

    def test_its_lines_are_those_of_the_program(self):
        """Why a saved session isn't loaded, and the messages about cells."""
        with open(os.path.join(HEADERS, 'saving.c'), encoding='utf-8') as file:
            said = re.findall(r'"trac_terminal: %s: ([^%"\\]+)', file.read())
        self.assertEqual(len(said), 2)
        for line in said:
            self.assertIn(f'FILE: {line}', self.section('DIAGNOSTICS'))

    def test_its_options_are_those_of_the_help(self):
        shown = re.findall(r'^ +((?:-\w, )?--\w+(?: <\w+>)?)  +.*?(?:1 to (\d+) \[default: (\d+)\])?$', self.help,
                           re.MULTILINE)
        told = re.findall(r'^ {7}((?:-\w, )?--\w+(?: [A-Z]+)?)(?: {2,}|\n)((?:.*\S.*\n?)+)', self.section('OPTIONS'),
                          re.MULTILINE)
        self.assertEqual([re.sub('[<>]', '', option) for option, _, _ in shown], [option for option, _ in told])
        for (_, most, default), (_, words) in zip(shown, told):
            if most:
                self.assertRegex(words, rf'from 1 to {most}\. +The default is {default}\.')

    def test_its_statuses(self):
        self.assertEqual(re.findall(r'^ {7}(\d|signal)\b', self.section('EXIT STATUS'), re.MULTILINE),
                         [*map(str, range(8)), 'signal'])

    def test_its_session(self):
        """The text after a prompt is typed, and the rest is shown."""
        lines = [line[11:] for line in self.section('EXAMPLES').splitlines() if line.startswith(' ' * 11)]
        ended = 0
        with tempfile.TemporaryDirectory() as folder:
            for line in lines:
                typed = re.match("('?> )(.*)", line)
                if line.startswith('$ trac_terminal '):
                    typist = Typist(*(os.path.join(folder, word) if '.' in word else word for word in line.split()[2:]))
                elif typed:
                    typist.wait(typed[1])
                    typist.type(typed[2] + '\n')
                    typist.wait('\n')
                elif not line.startswith('#!'):
                    typist.wait(line + '\n')
                if line.endswith("#(hl)'"):
                    self.assertEqual(typist.status(), 0)
                    ended += 1
        self.assertEqual(ended, 2)


class Built(unittest.TestCase):
    def test_libedit_is_found(self):
        # make EDITING= leaves it out
        self.assertEqual(has_libedit(TERMINAL), os.environ.get('EDITING') != '')

    def test_it_is_clear_of_warnings(self):
        for compiler in ('gcc', 'clang'):
            for how in (EDITING[:1], []):
                subprocess.run([compiler, *STRICT, '-Wconversion', *how, '-fsyntax-only', *SOURCES], check=True)

    def test_a_session_under_sanitizers(self):
        with tempfile.TemporaryDirectory() as folder:
            screen = Screen(program=checked(), TRAC_HISTORY=os.path.join(folder, 'history'))
            screen.shows('> ')
            screen.type("#(ds,greeting,é)#(foo)'\r")
            screen.shows('trac: no function foo', '> ')
            screen.type("#(cl,g\t\t)'\x1b[A\x1b[B\x1b[200~a\rb\x1b[201~'\r")
            screen.shows("b'", 'é', 'ab', '> ')
            screen.type(f":save {os.path.join(folder, 'saved')}\r")
            screen.shows(f"> :save {os.path.join(folder, 'saved')}", '> ')
            screen.type('#(half\x03\x04')
            self.assertEqual(screen.status(), 0)


if __name__ == '__main__':
    unittest.main()
