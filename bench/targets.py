#!/usr/bin/env python3
"""targets.py [PROGRAM]: compares the program with the targets of speed that docs/PERFORMANCE.md names, and prints a
row for each: what it measures, the target, and the ratio between them, which is at most 1 where the target is reached.

PROGRAM is the proved program if it is built, or else the program in C. Instructions are counted by valgrind, without
those of the start; bench/fast.c is built by gcc. Times are the best of many runs without the start, so nothing else
should run meanwhile. Where dist/libtrac.a is built, the engine in C is compared with it, too."""
import os
import subprocess
import sys
import tempfile
import time

import bench
import worst

TOP = bench.TOP
# How many instructions the program may take for each one of bench/fast.c.
BESIDE_FAST = {
    'towers of Hanoi': 2.0, 'counting down from 5000': 2.0, 'a form of two gaps': 2.2,
    'a form of two gaps, scanned again': 2.2, 'a form of eight gaps, scanned again': 2.4, 'a shorter walk by cc': 2.2,
    'ad': 2.2, 'sums and products of a recursion': 2.2, 'long numbers': 2.2, 'eq': 2.2,
}
A_CHARACTER = 6.5
# How much time the program may take for each second of bench/fast.c: in strings of so many characters, with as many
# cells.
TEXT_TIMES = {(30000, 65536): 2.5, (2700000, 4000000): 4.0}
PF_NANOSECONDS = 1.0
# How many instructions the engine in C may take for each one of the proved library.
BESIDE_PROVED = 1.25
RUNS, CHARACTERS = 60, 3000000
EMPTY = b"'"


def row(name, value, target, unit=''):
    return name, f'{value:.2f}{unit}', f'{target}{unit}', f'{value / target:.2f}'


def over_start(words, script):
    """The instructions of a script without those of the start."""
    return bench.instructions(words, script) - bench.instructions(words, EMPTY)


def instruction_rows(program, fast):
    for job in bench.compared_jobs():
        if job.name in BESIDE_FAST:
            ours, theirs = (over_start(words, job.script) for words in (bench.limits(program), limits_of(fast)))
            yield row(f'{job.name}, beside Fast C', ours / theirs, BESIDE_FAST[job.name])
    job = next(bench.text_jobs(False))
    yield row('a character of plain text, in instructions', over_start(bench.limits(program), job.script)
              / len(job.printed), A_CHARACTER)


def limits_of(fast):
    return [fast, *bench.limits(fast)[2::2]]


def seconds(words, script):
    """The shortest time of a run of the script, without that of the shortest start."""
    shortest = []
    for given in (script, EMPTY):
        with tempfile.TemporaryFile() as source:
            source.write(given)
            shortest.append(min(one_time(words, source) for _ in range(RUNS)))
    return shortest[0] - shortest[1]


def one_time(words, source):
    source.seek(0)
    begun = time.perf_counter()
    subprocess.run(words, stdin=source, stdout=subprocess.DEVNULL, check=True)
    return time.perf_counter() - begun


def time_rows(program, fast):
    for (length, cells), target in TEXT_TIMES.items():
        script = (b'a' * length + b"'") * (CHARACTERS // length)
        ours = seconds([program, '--cells', str(cells), '--steps', '1000000000'], script)
        theirs = seconds([fast, str(cells), '1000000000'], script)
        yield row(f'text in strings of {length:,} characters, beside Fast C', ours / theirs, target)
    name = 'pf of gaps with great ordinals'
    steps, took = worst.cost(program, worst.WORST[name], worst.CELLS, 0)
    yield row(f'{name}, for each step and cell', took * 1e9 / steps / worst.CELLS, PF_NANOSECONDS, ' ns')


def engine_rows(folder):
    proved = os.path.join(TOP, 'dist', 'libtrac.a')
    if not os.path.exists(proved):
        return
    engines = []
    for name, engine in (('in_c', os.path.join(TOP, 'hosts', 'c', 'trac_engine.c')), ('proved', proved)):
        engines.append([os.path.join(folder, name)])
        subprocess.run(['gcc', '-std=c11', '-O2', '-DTRAC_WITHOUT_CHECK', '-I', os.path.join(TOP, 'hosts', 'c'), '-o',
                        *engines[-1], os.path.join(TOP, 'bench', 'engine.c'), engine], check=True)
    for job in (*bench.jobs(False), *bench.repeated_jobs(False)):
        in_c, in_proved = (over_start(words, job.script) for words in engines)
        yield row(f'{job.name}, the engine in C beside the proved library', in_c / in_proved, BESIDE_PROVED)


def main(words):
    if words[:1] == ['--help']:
        print(__doc__)
        return
    [program] = words or [bench.PROVED if os.path.exists(bench.PROVED) else bench.IN_C]
    with tempfile.TemporaryDirectory() as folder:
        fast = bench.built(os.path.join(TOP, 'bench', 'fast.c'), folder)
        head = ('what', 'measured', 'target', 'ratio')
        bench.print_table(head, (found for rows in (instruction_rows(program, fast), time_rows(program, fast),
                                                    engine_rows(folder)) for found in rows))


if __name__ == '__main__':
    main(sys.argv[1:])
