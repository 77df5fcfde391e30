"""choose_seeds.py LIBRARY FIRST LAST: writes seeds.txt anew: of its seeds, and of those from FIRST to LAST, the ones
whose scripts take edges of the engine in C that no script before them takes. LIBRARY is the engine that it is compared
with, as dist/libtrac.a. Whenever you end it, the file has the seeds that were found. 10,000 seeds take about ten
minutes of processor time."""
import os
import subprocess
import sys
import tempfile
import textwrap

from covering_scripts import SEEDS, first_scripts, found_scripts, known, of_seed, present_seeds
from scripts import framed
from trac import TOP

CHECKS = os.path.join(TOP, 'checks')
COVERING = ('covering.c', 'choosing.c', 'tight.c', 'indexed_rooms.c', 'memories.c', 'tight_traces.c',
            'waiting_traces.c', 'numbers_of_both.c', 'images_of_both.c', 'refused_by_both.c',
            os.path.join('fuzz', 'engines.c'))
WIDTH = 119


def built(folder, library):
    """Compiles the program that says how many new edges each script takes."""
    engine, program = (os.path.join(folder, name) for name in ('in_c.o', 'choosing'))
    subprocess.run([os.path.join(CHECKS, 'engines'), 'clang', engine, '-O0', '-w', '-D__OPTIMIZE_SIZE__',
                    '-fsanitize-coverage=trace-pc-guard'], check=True)
    subprocess.run(['clang', '-std=c11', '-O1', '-w', '-DCHOOSING', '-DCELLS=32u', '-DSTEPS=64u', '-DMOST_CELLS=8192',
                    '-I', os.path.join(TOP, 'hosts', 'c'), '-I', CHECKS, '-o', program,
                    *(os.path.join(CHECKS, name) for name in COVERING), engine, library], check=True)
    return program


def chosen(program, seeds):
    """Gives the seeds whose scripts take new edges, one by one."""
    scripts = known()
    with subprocess.Popen(program, stdin=subprocess.PIPE, stdout=subprocess.PIPE) as running:
        def new_edges(script):
            running.stdin.write(framed(script))
            running.stdin.flush()
            return int(running.stdout.readline())
        for script in [*first_scripts(scripts), *found_scripts()]:
            new_edges(script)
        for seed in seeds:
            if new_edges(of_seed(seed, scripts)):
                yield seed


def write(seeds):
    with open(SEEDS, 'w', encoding='ascii') as file:
        file.write(textwrap.fill(' '.join(map(str, seeds)), WIDTH) + '\n')


def main(library, first, last):
    present, found = present_seeds(), []
    with tempfile.TemporaryDirectory() as folder:
        for seed in chosen(built(folder, library), dict.fromkeys([*present, *range(int(first), int(last) + 1)])):
            found.append(seed)
            if seed not in present:
                write(found)
    write(found)


if __name__ == '__main__':
    main(*sys.argv[1:])
