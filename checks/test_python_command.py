"""python -m trac_t64: the cases of conformance/ and the program's worked scripts, places in files, failing devices, and
a session at a terminal."""
import glob
import os
import pty
import re
import resource
import select
import signal
import subprocess
import sys
import tempfile

import pytest

import python_package
from test_program import REFUSED, ROWS
from test_python import CASES, HELLO
from trac import TOP, TRACER

LINES = re.compile(rb'(?:<stdin>: (\d+) steps, peak (\d+) cells\n)?(?:<stdin>:\d+:\d+: (.*)\n)?')
LOOP = "#(ds,L,(#(cl,L)))#(cl,L)'"


@pytest.fixture(scope='module')
def command(python_site):
    """Calls the program in a process of its own, and gives its output, its lines and its status."""
    environment = python_package.environment(python_site)

    def call(*words, script=b'', **more):
        done = subprocess.run([sys.executable, '-m', 'trac_t64', *words], input=script, capture_output=True, timeout=60,
                              env=environment, check=False, **more)
        return done.stdout, done.stderr.decode(errors='surrogateescape'), done.returncode
    return call


@pytest.fixture(scope='module')
def forked(trac_t64):
    """The same in a fork of this process, which is quicker; standard input is a file or a descriptor."""
    from trac_t64.__main__ import main

    def run_child(words, devices):
        status = 99
        try:
            for number, device in enumerate(devices):
                os.dup2(device, number)
            status = main(words)
        except SystemExit as ended:
            status = ended.code
        finally:
            os._exit(status)

    def call(words, script, stdin=None):
        with tempfile.TemporaryFile() as given, tempfile.TemporaryFile() as output, tempfile.TemporaryFile() as lines:
            given.write(script)
            given.seek(0)
            child = os.fork()
            if child == 0:
                run_child(words, (given.fileno() if stdin is None else stdin, output.fileno(), lines.fileno()))
            status = os.waitstatus_to_exitcode(os.waitpid(child, 0)[1])
            output.seek(0), lines.seek(0)
            return output.read(), lines.read(), status
    return call


def heed_interrupts():
    """Makes a program react to ^C, which programs in the background may ignore."""
    signal.signal(signal.SIGINT, signal.SIG_DFL)


def hung_up(data):
    """A terminal that hangs up after these bytes."""
    import tty
    ours, theirs = os.openpty()
    tty.setraw(theirs)
    os.write(theirs, data)
    os.close(theirs)
    return ours


def test_cases(forked):
    # all that end badly, and some of the others: all of them are tried without the command line, too
    bad, good = ([case for case in CASES if (case['status'] == '0') == is_good] for is_good in (False, True))
    assert len(bad) > 70
    for case in bad + good[::10]:
        device = hung_up(case['input']) if 'fails' in case else None
        words = ['--cells', case['cells'], '--steps', case['allowance'], '--report']
        output, lines, status = forked(words, case['input'], device)
        if device is not None:
            os.close(device)
        steps, peak, line = (each.decode() if each else '' for each in LINES.fullmatch(lines).groups())
        got = {'output': output, 'status': str(status), 'steps': steps, 'peak': peak, 'line': line}
        said = [key for key in got if key in case]
        assert {key: got[key] for key in said} == {key: case[key] for key in said}, case['name']


def test_rows_of_the_program(forked):
    for script, words, output, lines, status in ROWS:
        script, output = (each if isinstance(each, bytes) else each.encode() for each in (script, output))
        got = forked(words.split(), script)
        said = re.sub(r'(?m)^<stdin>(:\d+:\d+)?: ', 'trac: ', got[1].decode())
        assert (got[0], said, got[2]) == (output, lines, status), (script, words)


def test_words_that_are_refused(forked, command, python_site):
    for words in REFUSED:
        if words != 'extra':
            output, lines, status = forked(words.split(), HELLO)
            assert (output, status) == (b'', 2) and lines.startswith(b'usage: trac_t64'), words
    for words in (['--cells', '1_0'], ['--cells', '\u0661'], ['--steps', ' 7'], ['--ste', '7'], ['-e'],
                  ['--cells', '9' * 5000]):
        assert forked(words, HELLO)[::2] == (b'', 2), words
    assert command(b'--cells=\xff')[::2] == (b'', 2)
    with open('/dev/full', 'wb') as full:
        done = subprocess.run([sys.executable, '-m', 'trac_t64', '--unknown'], stderr=full, check=False,
                              env=python_package.environment(python_site))
    assert done.returncode == 2


def test_a_check(command, written):
    """The same lines and statuses as those of `trac_terminal --check`."""
    terminal = os.path.join(TOP, 'build', 'trac_terminal')
    broken = sorted(glob.glob(os.path.join(TOP, 'examples', 'broken', '*.trac')))
    written(headed="#!/usr/bin/env x'\n#(pss,a)'\n#(ps,never)'", fine="#(ps,a)'", endless=LOOP)
    for words in ([*broken, '--steps', '100000'], ['headed'], ['fine'], ['fine', 'headed', 'nowhere'],
                  ['headed', 'endless'], ['headed', '--cells', '10']):
        done = subprocess.run([terminal, '--check', *words], capture_output=True, check=False)
        output, lines, status = command('--check', *words)
        # The terminal also says if a file looks like an old listing.
        told = b''.join(line for line in done.stdout.splitlines(True) if b': it looks like an old listing' not in line)
        assert (output, status) == (told, done.returncode), words
        assert lines.replace('trac_t64', 'trac_terminal') == done.stderr.decode(), words
    assert command('--check', '-e', "#(pss,a)'") == (b'-e: line 1, column 1: no function has the name pss\n', '', 7)
    assert command('--check', script=b"#(pss,a)'")[::2] == (
        b'<stdin>: line 1, column 1: no function has the name pss\n', 7)
    for word in ('-i', '--report', '--trace'):
        output, lines, status = command('--check', word, 'fine')
        assert (output, status) == (b'', 2) and f'--check cannot be used with {word}' in lines


def test_a_trace(command, written):
    """The lines of `trac_trace`, and the statuses and lines of a run."""
    written(greets="#(ds,A,hello)#(ps,#(cl,A))'", endless=LOOP)
    for words in ([], ['--calls'], ['--forms', '--columns', '20'], ['--from', '3', '--to=9', '--width', '0']):
        with open('greets', 'rb') as script:
            done = subprocess.run([TRACER, *words], stdin=script, capture_output=True, check=True)
        assert command('greets', '--trace', *words) == (done.stdout, '', 0)
    output, lines, status = command('--trace', '--calls', '--steps', '50', 'greets', 'endless')
    assert (output.count(b'  step  call\n'), output.count(b'allowance used up: 50 steps'), status) == (2, 1, 3)
    assert lines == command('--steps', '50', 'greets', 'endless')[1] and 'allowance of 50 steps used up' in lines
    for words, said in ((['--calls'], '--trace is missing, which goes with --calls'),
                        (['--from', '3', '--width=8'], '--trace is missing, which goes with --from, --width'),
                        (['--trace', '--width', '16777217'], "'16777217' is not in 0..=16777216"),
                        (['--trace', '-i'], '--trace shows scripts, of which -i alone has none')):
        output, lines, status = command(*words, *(() if '-i' in words else ('greets',)))
        assert (output, status) == (b'', 2) and said in lines, words


def test_help(command):
    for word in ('-h', '--help'):
        output, lines, status = command(word)
        assert (lines, status) == ('', 0) and b'--cells N' in output and output.startswith(b'usage: trac_t64')


@pytest.fixture
def written(tmp_path, monkeypatch):
    """Writes scripts into the working folder."""
    monkeypatch.chdir(tmp_path)

    def write(**scripts):
        for name, script in scripts.items():
            (tmp_path / name).write_text(script, 'utf-8')
    return write


def test_files_and_scripts(command, written):
    written(one="#!/usr/bin/env x'\n#(ds,A,(one, ))'\n#(ps,##(cl,A))#(hl)#(ps,never)'", two="#(ps,##(cl,A)two;)'")
    words = ('-e', '#(ps,##(cl,A)three)', 'one', '--report', 'two', '-e', "#(hl)'x'")
    output, lines, status = command(*words)
    assert (output, status) == (b'one, one, two;one, three', 0)
    assert re.sub(r'\d+', 'N', lines) == ''.join(
        f'{name}: N steps, peak N cells\n' for name in ('one', 'two', '-e', '-e'))


def test_places(command, written):
    written(steps=f"#(ds,A,\u00e9)'\n  \u00e9{LOOP}x", room="#(ps,a)'\n" + 'x' * 200, begun=f'#!x\n\n{LOOP}',
            after="#(ps,b)'")
    rows = [
        ('steps', ['--steps', '1000'], '2:29: allowance of 1000 steps used up', 3),
        ('room', ['--cells', '50'], '2:43: workspace of 50 cells full at step 25', 1),
        ('room', ['--cells', '5'], '1:1: workspace of 5 cells full at step 1', 1),
        ('begun', ['--steps', '99'], '3:26: allowance of 99 steps used up', 3),
    ]
    for name, words, line, status in rows:
        # what comes after the first fault isn't run
        output, lines, got = command(name, 'after', *words)
        assert (lines, got) == (f'{name}:{line}\n', status) and b'b' not in output
    assert command('-e', 'a\nb' + LOOP, '--steps', '99')[1:] == ('-e:2:27: allowance of 99 steps used up\n', 3)
    assert command('--steps', '99', script=LOOP.encode())[1:] == ('<stdin>:1:26: allowance of 99 steps used up\n', 3)


def test_files_that_can_not_be_read(command, written):
    written(good="#(ps,good)'")
    for name, why in (('none', 'No such file or directory'), ('.', 'Is a directory')):
        assert command('good', name, 'good') == (b'good', f"trac_t64: can't read {name}: {why}\n", 4)
    for name, told in ((b'\xff', r'\xff'), (b'\x1b]0;x\x07', r'\x1b]0;x\x07'),
                       ('\u202ea\n\\\x9b'.encode(), r'\xe2\x80\xaea\n\\\xc2\x9b')):
        assert command(name)[1:] == (f"trac_t64: can't read {told}: No such file or directory\n", 4)


def test_names_with_control_characters(command, written):
    written(**{'a\x1b[2J\nb': LOOP})
    assert command('a\x1b[2J\nb', '--steps', '99')[1:] == (
        r'a\x1b[2J\nb:1:26: allowance of 99 steps used up' + '\n', 3)
    assert r'unrecognized arguments: --\x1b[2J' in command('--\x1b[2J')[1]


def test_devices_that_fail(python_site):
    words = [sys.executable, '-m', 'trac_t64']
    environment = python_package.environment(python_site)
    line = b'<stdin>:1:13: output failed at step 19\n'
    with open('/dev/full', 'wb') as full:
        report = b'<stdin>: 18 steps, peak 19 cells\n'
        for more, lines in (([], line), (['--report'], report + line), (['--help'], b'')):
            done = subprocess.run([*words, *more], input=HELLO, stdout=full, stderr=subprocess.PIPE, env=environment)
            assert (done.stderr, done.returncode) == (lines, 5)
        done = subprocess.run([*words, '-i'], input=HELLO, stdout=full, stderr=subprocess.PIPE, env=environment)
        assert (done.stderr, done.returncode) == (line, 5)
    reading, writing = os.pipe()
    os.close(reading)
    done = subprocess.run(words, input=HELLO, stdout=writing, stderr=subprocess.PIPE, env=environment)
    os.close(writing)
    assert (done.stderr, done.returncode) == (line, 5)
    done = subprocess.run(['sh', '-c', '"$@" >&-', 'sh', *words], input=HELLO, stderr=subprocess.PIPE, env=environment)
    assert (done.stderr, done.returncode) == (line, 5)


def test_a_trace_whose_lines_can_not_be_written(python_site):
    for words, lines in (([], b'<stdin>: 1 steps, peak 11 cells\n<stdin>:1:1: output failed\n'),
                         (['--cells', '10'], b'<stdin>: 0 steps, peak 0 cells\n<stdin>:1:1: output failed\n')):
        with open('/dev/full', 'wb') as full:
            done = subprocess.run([sys.executable, '-m', 'trac_t64', '--trace', '--report', *words], input=HELLO,
                                  stdout=full, stderr=subprocess.PIPE, env=python_package.environment(python_site))
        assert (done.stderr, done.returncode) == (lines, 5), words


def test_an_input_that_is_closed_or_not_there_yet(command):
    line = '<stdin>:1:1: input failed at step 9\n'
    assert command(preexec_fn=lambda: os.close(0)) == (b'', line, 4)
    reading, writing = os.pipe()
    os.set_blocking(reading, False)
    assert command(preexec_fn=lambda: os.dup2(reading, 0)) == (b'', line, 4)
    os.close(reading), os.close(writing)


def test_memory_that_is_refused(command):
    def limit():
        resource.setrlimit(resource.RLIMIT_AS, (100000000, 100000000))
    assert command('--cells', '16777216', script=HELLO, preexec_fn=limit) == (
        b'', 'trac_t64: no memory for 16777216 cells\n', 6)


def test_a_trace_where_there_is_memory_for_a_run(command):
    def limit():
        resource.setrlimit(resource.RLIMIT_AS, (1000000000, 1000000000))
    for words in ([], ['--trace', '--calls']):
        _, lines, status = command('--cells', '16777216', *words, script=HELLO, preexec_fn=limit)
        assert (lines, status) == ('', 0), words


def test_what_is_printed_is_out_before_the_next_string_is_read(python_site):
    with subprocess.Popen([sys.executable, '-m', 'trac_t64'], stdin=subprocess.PIPE, stdout=subprocess.PIPE,
                          env=python_package.environment(python_site)) as running:
        for text in (b'one', b'two'):
            os.write(running.stdin.fileno(), b"#(ps,%s)'" % text)
            assert os.read(running.stdout.fileno(), 99) == text
        running.stdin.close()
        assert running.wait(10) == 0


def test_an_interrupt_ends_the_program(python_site):
    running = subprocess.Popen([sys.executable, '-m', 'trac_t64', '--steps', '1000000000000'], stdin=subprocess.PIPE,
                               stdout=subprocess.PIPE, stderr=subprocess.PIPE, preexec_fn=heed_interrupts,
                               env=python_package.environment(python_site))
    running.stdin.write(("#(ps,a)'" + LOOP).encode())
    running.stdin.flush()
    assert running.stdout.read(1) == b'a'
    running.send_signal(signal.SIGINT)
    assert running.communicate(timeout=10) == (b'', b'') and running.returncode == -signal.SIGINT


# ---- A session.


def test_a_session_from_a_pipe(command, written):
    written(forms="#(ds,A,kept)'")
    script = "#(ps,##(cl,A))'\n" + LOOP + "#(ps,dropped)'\n#(ps,##(cl,A)\n)#(ps,[##(rc)])'x\n#(hl)'#(ps,y)'"
    assert command('forms', '-i', '--steps', '1000', script=script.encode()) == (
        b'keptkept[x]', '<stdin>:2:26: allowance of 1000 steps used up\n', 0)
    assert command('-i', '--steps', '99', script=b"a'\nb'" + LOOP.encode())[1] == (
        '<stdin>:2:28: allowance of 99 steps used up\n')
    assert command('-i', script=b'no apostrophe') == (b'no apostrophe', '', 0)
    assert command('-i', '--cells', '10', script=HELLO) == (
        b'', '<stdin>:1:1: workspace of 10 cells full at step 1\n', 1)
    long = b'x' * 99 + b"'\n"
    output, lines, status = command('-i', '--cells', '60', script=long + HELLO)
    assert (output, status) == (b'hello', 0) and 'workspace of 60 cells full at step 9' in lines
    assert command('-i', preexec_fn=lambda: os.close(0)) == (b'', '', 0)


class Terminal:
    """The program with -i under a terminal, whose echo is off."""

    def __init__(self, site, *words):
        import termios
        self.child, self.device = pty.fork()
        if self.child == 0:
            heed_interrupts()
            os.execve(sys.executable, [sys.executable, '-m', 'trac_t64', '-i', *words],
                      python_package.environment(site, TERM='dumb', INPUTRC='/dev/null'))
        modes = termios.tcgetattr(self.device)
        modes[3] &= ~termios.ECHO
        termios.tcsetattr(self.device, termios.TCSANOW, modes)

    def until(self, text, again=b''):
        """What is shown up to a text. Where nothing is shown for two seconds, something is typed again."""
        seen, left = b'', 15
        while text not in seen:
            if select.select([self.device], [], [], 2)[0]:
                seen += os.read(self.device, 4096)
            else:
                self.type(again)
                left -= 1
                assert left, seen
        return seen

    def type(self, text):
        os.write(self.device, text)

    def interrupt(self):
        """Types ^C; once more if it came just before the program waited for a line and the program still waits."""
        self.type(b'\x03')
        self.until(b'interrupted\r\n> ', b'\x03')

    def status(self):
        return os.waitstatus_to_exitcode(os.waitpid(self.child, 0)[1])


def test_a_session_at_a_terminal(python_site):
    terminal = Terminal(python_site, '--steps', '1000000000000')
    terminal.until(b'> ')
    terminal.type(b"#(ds,A,kept)#(ps,two)#(ps, words)'\r")
    assert b'two words\r\n' in terminal.until(b'words\r\n> ')
    terminal.type(b'#(ps,half\r')
    terminal.until(b'. ')
    terminal.interrupt()
    terminal.type(b"#(ps,begun)'" + LOOP.encode() + b'\r')
    terminal.until(b'begun')
    terminal.interrupt()
    terminal.type(b"##(cl,A)#(rs)'\r")
    terminal.until(b'. ')
    terminal.type("\u00e9'\r".encode())
    assert 'kept\u00e9\r\n'.encode() in terminal.until(b'\r\n> ')
    terminal.type(b'\x04')
    assert terminal.status() == 0
