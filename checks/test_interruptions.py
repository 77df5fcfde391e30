"""Interrupted system calls, made by strace, are no failures."""
import os
import re
import subprocess
import tempfile
import unittest

from trac import PROGRAM

HELLO = b"#(ps,hello)'"
# for how many calls in a row the second kind of trial goes on
MANY = 300
# how often the library tries again that writes the help and the lines on standard error
LIBRARY = 64


def traced(words, *injections):
    """What a program writes on a greeting, what it says, its status, and its reads and writes."""
    more = [word for injection in injections for word in ('-e', f'inject={injection}')]
    with tempfile.TemporaryDirectory() as folder:
        calls = os.path.join(folder, 'calls')
        done = subprocess.run(['strace', '-o', calls, '-e', 'trace=read,write', *more, *words],
                              input=HELLO, capture_output=True, timeout=60)
        with open(calls, encoding='utf-8', errors='replace') as file:
            return (done.stdout, done.stderr.decode(), done.returncode), file.read().splitlines()


def injected(lines, call):
    """How many calls of this kind, on the file descriptor that is named, were interrupted."""
    return sum(line.startswith(call) and 'EINTR' in line and line.endswith('(INJECTED)')
               for line in lines)


def first_read(lines):
    """Which of the reads, from 1, is the first of standard input: the loader reads before it."""
    reads = [line for line in lines if line.startswith('read(')]
    return 1 + next(at for at, line in enumerate(reads) if re.match(r'read\(0,', line))


def interrupt(case, words, wanted):
    """Interrupts the first reads and the first write of a program, once and many times in a row."""
    plain, lines = traced(words)
    case.assertEqual(plain, wanted)
    case.assertEqual(injected(lines, ''), 0)
    first = first_read(lines)
    for call, name, at in (('read(0,', 'read', first), ('read(0,', 'read', first + 1),
                           ('write(1,', 'write', 1)):
        for more in (0, MANY - 1):
            with case.subTest(program=words[0], call=name, at=at, more=more):
                got, lines = traced(words, f'{name}:error=EINTR:when={at}..{at + more}')
                case.assertEqual(got, wanted)
                case.assertEqual(injected(lines, call), 1 + more)


def shown_though_interrupted(case, program):
    """Interrupts the write of the help."""
    shown, _ = traced([program, '--help'])
    case.assertIn(b'--cells <N>', shown[0])
    got, lines = traced([program, '--help'], 'write:error=EINTR:when=1')
    case.assertEqual(got, shown)
    case.assertEqual(injected(lines, 'write(1,'), 1)


class Interruptions(unittest.TestCase):
    def test_the_program(self):
        interrupt(self, [PROGRAM], (b'hello', '', 0))

    def test_the_help(self):
        shown_though_interrupted(self, PROGRAM)

    def test_standard_error(self):
        words = [PROGRAM, '--report']
        plain, lines = traced(words)
        self.assertEqual(plain, (b'hello', 'trac: 29 steps, peak 19 cells\n', 0))
        self.assertEqual(sum(line.startswith('write(2,') for line in lines), 1)
        for more in (0, LIBRARY - 1):
            with self.subTest(more=more):
                # the first write is that of the script
                got, lines = traced(words, f'write:error=EINTR:when=2..{2 + more}')
                self.assertEqual(got, plain)
                self.assertEqual(injected(lines, 'write(2,'), 1 + more)

    def test_another_error_is_a_failure(self):
        first = first_read(traced([PROGRAM])[1])
        self.assertEqual(traced([PROGRAM], f'read:error=EIO:when={first}')[0],
                         (b'', 'trac: input failed at step 9\n', 4))
        self.assertEqual(traced([PROGRAM], 'write:error=EIO:when=1')[0],
                         (b'', 'trac: output failed at step 19\n', 5))
