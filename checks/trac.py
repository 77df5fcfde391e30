"""Runs the built programs on a script, and counts their instructions.

The checks of this folder need no kit. They run the programs in C, or those that TRAC and TRACER in the environment
name. Those of proved/ need the proved programs or the proved library."""
import os
import re
import subprocess
import sys

TOP = os.path.dirname(os.path.dirname(os.path.abspath(__file__)))
sys.path.insert(0, os.path.join(TOP, 'bench'))
from bench import cost, instructions
from growing import GROWING, GROWS, WORDS

LAUNCHER = os.path.join(TOP, 'trac')
PROVED = os.path.join(TOP, 'crates', 'trac_cli', 'out', 'trac_cli')
IN_C = os.path.join(TOP, 'build', 'trac')
PROGRAM = os.path.abspath(os.environ.get('TRAC') or IN_C)
PROVED_TRACER = os.path.join(TOP, 'crates', 'trac_trace', 'out', 'trac_trace')
TRACER_IN_C = os.path.join(TOP, 'build', 'trac_trace')
TRACER = os.path.abspath(os.environ.get('TRACER') or TRACER_IN_C)
TERMINAL = os.path.join(TOP, 'build', 'trac_terminal')


def crates_of(crate):
    """A crate of the repository and those that it depends on, in the order of crates.txt."""
    with open(os.path.join(TOP, 'crates.txt'), encoding='utf-8') as lines:
        rows = [line.split('#')[0].split(':') for line in lines]
    uses = {row[0].split()[0]: row[1].split() for row in rows if len(row) == 2}
    found, left = {crate}, [crate]
    while left:
        for name in uses[left.pop()]:
            if name in uses and name not in found:
                found.add(name)
                left.append(name)
    return [name for name in uses if name in found]


def make(*targets):
    """Makes the targets of the Makefile that are missing or out of date."""
    done = subprocess.run(['make', '-s', *targets], cwd=TOP, capture_output=True, text=True, check=False)
    if done.returncode:
        raise AssertionError(done.stdout + done.stderr)


def run(script, *words, **more):
    """The program's output, what it prints on standard error, and its status."""
    if isinstance(script, str):
        script = script.encode()
    done = subprocess.run([PROGRAM, *words], input=script, capture_output=True, timeout=60, **more)
    return done.stdout, done.stderr.decode(), done.returncode


def report(script, *words):
    """The output, the steps, the peak and the status of a run."""
    output, lines, status = run(script, '--report', *words)
    first = lines.split('\n')[0].split()
    return output, int(first[1]), int(first[4]), status


def trace(script, *words):
    """The lines of a trace of a script, and the status."""
    done = subprocess.run([TRACER, *words], input=script, capture_output=True, timeout=60)
    return done.stdout.decode().splitlines(), done.returncode


def whole_trace(script, *words):
    """The same, with strings of any length, uncut."""
    return trace(script, '--width', '0', *words)


def traced(lines):
    """The steps of a trace: number, rule, size, need, neutral and active string."""
    return [(int(line[:6]), line[8:21].rstrip(), int(line[21:27]), int(line[27:33]),
             *line[35:].split('|', 1))
            for line in lines if re.match(r' *\d+  [a-z]', line)]
