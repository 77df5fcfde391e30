"""The program in a pipe: it answers at once, ends when it should, holds no output back, and makes no more system calls
than necessary."""
import os
import pty
import re
import resource
import subprocess
import tempfile
import time
import tty
import unittest

from trac import PROGRAM

# The bytes of memory that must suffice for the program, whatever it prints.
FEW = 64 * 1024 * 1024


def limited():
    resource.setrlimit(resource.RLIMIT_AS, (FEW, FEW))


def calls(script, *words, program=PROGRAM):
    """The reads of standard input, and the writes to standard output and standard error: for each its kind, and how
    many bytes."""
    with tempfile.NamedTemporaryFile('r', errors='replace') as said:
        subprocess.run(['strace', '-o', said.name, '-e', 'trace=read,write', program, *words], input=script,
                       stdout=subprocess.DEVNULL, stderr=subprocess.DEVNULL, timeout=60, check=False)
        return re.findall(r'^(read\(0|write\([12]),.* = (\d+)$', said.read(), re.MULTILINE)


class Session:
    """The program with open pipes, or at a terminal of its own."""

    def __init__(self, at_terminal=False, words=()):
        self.writing, self.reading = pty.openpty() if at_terminal else (None, None)
        if at_terminal:
            tty.setraw(self.reading)
            self.program = subprocess.Popen([PROGRAM, *words], stdin=self.reading, stdout=subprocess.PIPE)
        else:
            self.program = subprocess.Popen([PROGRAM, *words], stdin=subprocess.PIPE, stdout=subprocess.PIPE)
            self.writing = self.program.stdin.fileno()

    def say(self, text):
        os.write(self.writing, text)

    def hear(self):
        return os.read(self.program.stdout.fileno(), 1000)

    def end(self):
        """The status."""
        if self.reading is None:
            self.program.stdin.close()
        else:
            os.close(self.writing)
            os.close(self.reading)
        self.program.stdout.read()
        self.program.stdout.close()
        return self.program.wait(timeout=60)


class Streams(unittest.TestCase):
    def test_each_string_is_answered_at_once(self):
        for at_terminal in (False, True):
            session = Session(at_terminal)
            for text in (b'one', b'two', b'three'):
                session.say(b'#(ps,' + text + b")'")
                self.assertEqual(session.hear(), text)
            # a terminal that hangs up is an input that ends, or that fails if it is being read at that time
            self.assertIn(session.end(), (0, 4) if at_terminal else (0,))

    def test_a_string_that_comes_in_pieces(self):
        session = Session()
        for piece in (b'#', b'(ps,', b'he', b'llo)', b"'"):
            session.say(piece)
            time.sleep(0.02)
        self.assertEqual(session.hear(), b'hello')
        self.assertEqual(session.end(), 0)

    def test_single_characters_are_read_as_they_come(self):
        session = Session()
        session.say(b"#(ps,#(rc)#(rc))'")
        session.say(b'a')
        time.sleep(0.05)
        session.say(b'b')
        self.assertEqual(session.hear(), b'ab')
        self.assertEqual(session.end(), 0)

    def test_a_halt_ends_the_program_while_its_input_is_open(self):
        session = Session()
        session.say(b"#(ps,bye)#(hl)'#(ps,never)'")
        self.assertEqual(session.hear(), b'bye')
        self.assertEqual(session.program.wait(timeout=60), 0)
        self.assertEqual(session.end(), 0)

    def test_a_string_that_never_ends_and_never_fits(self):
        with tempfile.TemporaryFile() as file:
            file.truncate(300000000)
            done = subprocess.run([PROGRAM, '--cells', '100', '--report'], stdin=file, capture_output=True,
                                  timeout=60, preexec_fn=limited)
        self.assertEqual((done.stdout, done.stderr.decode(), done.returncode), (
            b'', 'trac: 8 steps, peak 11 cells\ntrac: workspace of 100 cells full at step 9\n', 1))

    def test_a_string_that_never_ends_is_refused_while_its_pipe_is_open(self):
        session = Session(words=['--cells', '100'])
        session.say(b'x' * 200)
        self.assertEqual(session.program.wait(timeout=60), 1)
        self.assertEqual(session.end(), 1)

    def test_a_long_output_in_little_memory(self):
        length, times = 100000, 1000
        script = f"#(ds,A,({'x' * length}))'" + "#(ps,#(cl,A))'" * times
        with tempfile.TemporaryFile() as file:
            done = subprocess.run([PROGRAM, '--cells', '400000', '--steps', '1000000000'], input=script.encode(),
                                  stdout=file, stderr=subprocess.PIPE, timeout=120, preexec_fn=limited)
            self.assertEqual((done.stderr, done.returncode), (b'', 0))
            self.assertEqual(file.seek(0, os.SEEK_END), length * times)

    def test_each_print_is_one_write(self):
        script = b"#(ps,hello)'#(ps,#(rs))'abc'#(ps," + b'x' * 8000 + b")#(ps,y)#(ps,)'"
        written = [int(length) for call, length in calls(script) if call == 'write(1']
        self.assertEqual(written, [5, 3, 8000, 1])

    def test_each_line_on_standard_error_is_one_write(self):
        lines = [b'trac: 8 steps, peak 11 cells\n', b'trac: workspace of 18 cells full at step 9\n']
        written = [int(length) for call, length in calls(b"#(ps,hello)'", '--report', '--cells', '18')
                   if call == 'write(2']
        self.assertEqual(written, [len(line) for line in lines])

    def test_it_reads_so_much_at_a_time_and_no_more_than_it_needs(self):
        script = b"#(hl)'" + b'x' * 20000
        self.assertEqual(calls(script), [('read(0', '8192')])

    def test_what_it_does_not_read_is_left_to_others(self):
        with tempfile.TemporaryFile() as file:
            file.write(b"#(hl)'" + b'x' * 20000)
            file.seek(0)
            subprocess.run([PROGRAM], stdin=file, check=True, timeout=60)
            self.assertEqual(os.lseek(file.fileno(), 0, os.SEEK_CUR), 8192)


class Closed(unittest.TestCase):
    def test_an_input_that_is_closed(self):
        done = subprocess.run(['sh', '-c', '"$1" --report <&-', 'sh', PROGRAM], capture_output=True, timeout=60)
        self.assertEqual((done.stdout, done.stderr.decode(), done.returncode), (
            b'', 'trac: 8 steps, peak 11 cells\ntrac: input failed at step 9\n', 4))

    def test_an_input_that_only_takes(self):
        done = subprocess.run(['sh', '-c', '"$1" 0>/dev/null', 'sh', PROGRAM], capture_output=True, timeout=60)
        self.assertEqual((done.stdout, done.stderr, done.returncode), (b'', b'trac: input failed at step 9\n', 4))

    def test_an_output_that_only_gives(self):
        done = subprocess.run(['sh', '-c', 'printf "#(ps,x)\'" | "$1" 1</dev/null', 'sh', PROGRAM],
                              capture_output=True, timeout=60)
        self.assertEqual((done.stderr, done.returncode), (b'trac: output failed at step 15\n', 5))

    def test_all_devices_closed(self):
        done = subprocess.run(['sh', '-c', '"$1" --report <&- >&- 2>&-', 'sh', PROGRAM], timeout=60)
        self.assertEqual(done.returncode, 4)

    def test_a_run_that_prints_nothing_needs_no_output(self):
        done = subprocess.run(['sh', '-c', 'printf "#(ds,A,b)\'" | "$1" >&-', 'sh', PROGRAM], capture_output=True,
                              timeout=60)
        self.assertEqual((done.stderr, done.returncode), (b'', 0))

    def test_a_failed_print_is_the_last(self):
        with open('/dev/full', 'wb') as full:
            done = subprocess.run([PROGRAM, '--report'], input=b"#(ps,ab)#(ps,cd)'", stdout=full,
                                  stderr=subprocess.PIPE, timeout=60)
        self.assertEqual((done.stderr.decode(), done.returncode), (
            'trac: 15 steps, peak 24 cells\ntrac: output failed at step 16\n', 5))


if __name__ == '__main__':
    unittest.main()
