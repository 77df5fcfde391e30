#!/usr/bin/env python3
"""checking.py [TEXT]: what a check of a script takes beside its run, on the jobs of bench.py, or on those whose names
contain TEXT, with 1,000,000 steps at most.

The processor time is that of the whole programs, the least of some runs. Where valgrind is installed, it counts the
instructions, without those that the script `#(hl)'` takes. `make` builds the programs."""
import os
import subprocess
import sys
import tempfile

from bench import IN_C, TOP, instructions, jobs, print_table, repeated_jobs, shown

TERMINAL = os.path.join(TOP, 'build', 'trac_terminal')
LIMITS = ['--cells', '4000000', '--steps', '1000000']
RUNS = 15


def processor_time(words, script):
    """The milliseconds of processor time that a program takes."""
    with subprocess.Popen(words, stdin=script, stdout=subprocess.DEVNULL, stderr=subprocess.DEVNULL) as process:
        _, _, used = os.wait4(process.pid, 0)
        process.returncode = 0
    return 1000 * (used.ru_utime + used.ru_stime)


def least_time(words, name):
    """The least processor time of some runs of a program that gets this file as its input."""
    times = []
    for _ in range(RUNS):
        with open(name, 'rb') as script:
            times.append(processor_time(words, script))
    return min(times)


def costs(script):
    """Of a run and of a check: milliseconds of processor time, and instructions, or None without valgrind."""
    with tempfile.NamedTemporaryFile(suffix='.trac') as file:
        file.write(script)
        file.flush()
        programs = [IN_C, *LIMITS], [TERMINAL, *LIMITS, '--check', file.name]
        return [(least_time(words, file.name), instructions(words, script)) for words in programs]


def row(job, start):
    """The cells of a job, without the instructions that a start takes."""
    (run_time, run), (check_time, check) = costs(job.script)
    cells = job.name, f'{run_time:.1f}', f'{check_time:.1f}', f'{check_time / run_time:.1f}'
    if run is None:
        return (*cells, '', '', '')
    run, check = run - start[0][1], check - start[1][1]
    return (*cells, shown(run), shown(check), f'{check / run:.1f}')


def main():
    if sys.argv[1:2] == ['--help']:
        print(__doc__)
        return
    named = ''.join(sys.argv[1:])
    start = costs(b"#(hl)'")
    print_table(('job', 'run, ms', 'check, ms', 'ratio', 'run', 'check', 'ratio'),
                [row(job, start) for job in (*jobs(False), *repeated_jobs(False)) if named in job.name])


if __name__ == '__main__':
    main()
