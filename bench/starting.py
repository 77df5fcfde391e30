#!/usr/bin/env python3
"""starting.py: prints the time from a fresh clone to its first hello, the compiler's time for each unit of the engine,
and what the launcher costs in addition to the program that it starts.

Times are in seconds and milliseconds, the best of several runs. Processor times are those of the compiler alone,
whatever else the machine does."""
import os
import resource
import shutil
import subprocess
import tempfile
import time

TOP = os.path.dirname(os.path.dirname(os.path.abspath(__file__)))
HELLO = b"#(ps,hello)'"
UNITS = range(1, 8)
FLAGS = ['-std=c11', '-O2', '-fPIC', '-ffunction-sections', '-DTRAC_EXPORT']


def took(words, **more):
    """The seconds by the clock, and those of processors, that a command takes over the script."""
    before = resource.getrusage(resource.RUSAGE_CHILDREN)
    begun = time.perf_counter()
    subprocess.run(words, input=HELLO, stdout=subprocess.PIPE, check=True, **more)
    clock = time.perf_counter() - begun
    after = resource.getrusage(resource.RUSAGE_CHILDREN)
    return clock, after.ru_utime + after.ru_stime - before.ru_utime - before.ru_stime


def first_hello(folder, processors):
    """The same for the launcher in a copy that has built nothing, on a number of processors."""
    top = os.path.join(folder, str(processors))
    shutil.copytree(os.path.join(TOP, 'hosts', 'c'), os.path.join(top, 'hosts', 'c'))
    shutil.copy(os.path.join(TOP, 'trac'), top)
    some = set(list(os.sched_getaffinity(0))[:processors])
    return took([os.path.join(top, 'trac')], preexec_fn=lambda: os.sched_setaffinity(0, some))


def unit(number, folder):
    """The seconds of processors that a unit takes, by the words of the Makefile."""
    more = ['-O1'] if number > 4 else []
    words = ['cc', *FLAGS, *more, f'-DTRAC_UNIT={number}', '-c', '-o', os.path.join(folder, 'unit.o'),
             os.path.join(TOP, 'hosts', 'c', 'trac_engine.c')]
    return min(took(words)[1] for _ in range(3))


def launcher(folder):
    """The milliseconds of a run by the launcher, and of the program alone."""
    top = os.path.join(folder, '1')
    programs = os.path.join(top, 'trac'), os.path.join(top, 'build', 'trac')
    return [1000 * min(took([program])[0] for _ in range(200)) for program in programs]


def main():
    with tempfile.TemporaryDirectory() as folder:
        print('| processors | first hello, s | of processors, s |\n|---|---|---|')
        for processors in (1, 2, 4):
            clock, own = first_hello(folder, processors)
            print(f'| {processors} | {clock:.2f} | {own:.2f} |')
        times = [unit(number, folder) for number in UNITS]
        print('\n| unit | ' + ' | '.join(map(str, UNITS)) + ' |\n|---|' + '---|' * len(times))
        print('| of processors, s | ' + ' | '.join(f'{each:.2f}' for each in times) + ' |')
        by_launcher, alone = launcher(folder)
        print(f'\nThe launcher: {by_launcher:.2f} ms, the program alone: {alone:.2f} ms.')


if __name__ == '__main__':
    main()
