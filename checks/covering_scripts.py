"""The scripts that covering.c runs: known ones, long ones, those that a fuzzer found, and those of the seeds of
seeds.txt, which choose_seeds.py chose."""
import base64
import glob
import os
import re

from changed_scripts import LONGEST, changed, place_of
from long_scripts import few_given, long_scripts, of_choices, written
from scripts import made
from trac import TOP
from worked_rows import tables, text

SEEDS = os.path.join(TOP, 'checks', 'seeds.txt')
FOUND = os.path.join(TOP, 'checks', 'found.txt')
# The first seed of those that nothing chose.
OTHERS = 1000000
# Choices of ample cells and steps; these with all memories of memories.c; and the first choices for parts of it.
AMPLE, ALL_MEMORIES, PARTS = b'\xff\xff\x07\x1f\x0f', b'\xff\xff\xc9\x1f\x0f', b'\xff\xff\xc9'
# Choices of ample cells and steps for long scripts: with calls, with forms, and with lines that are cut.
LONG = AMPLE, b'\xff\xff\x96\x21\xc9', b'\xff\xff\x31\x63\x63'


def contents(*pattern):
    for name in sorted(glob.glob(os.path.join(TOP, *pattern), recursive=True)):
        with open(name, 'rb') as file:
            yield file.read()


def known():
    """The scripts that were worked by hand, the examples and the broken scripts, and the cases, in the order that
    Changes needs."""
    found = [text(row['input']) for rows in tables().values() for row in rows]
    found += contents('examples', '**', '*.trac')
    for cases in contents('conformance', '*.cases'):
        found += [text([one.decode()]) for one in re.findall(rb'^input: (.*)$', cases, re.MULTILINE)]
    return sorted({one for one in found if len(one) < LONGEST}, key=place_of)


def found_scripts():
    """The scripts that a fuzzer found, each with its choices: with its length before it, in base64."""
    with open(FOUND, encoding='ascii') as file:
        text = base64.b64decode(file.read())
    while text:
        length = int.from_bytes(text[:4], 'little')
        yield text[4:4 + length]
        text = text[4 + length:]


def first_scripts(scripts):
    """The known scripts, long ones, the broken ones once more with all memories, and those for parts of memories.c."""
    broken = [*contents('examples', 'broken', '*.trac'), *written(), *few_given()]
    long = [LONG[place % 3] + one for place, one in enumerate(long_scripts())]
    parts = [PARTS + one for one in of_choices()]
    return [AMPLE + one for one in scripts] + long + [ALL_MEMORIES + one for one in broken] + parts


def of_seed(seed, scripts):
    """The script of a seed: an even one has a changed script, an odd one has one of the grammar."""
    return made(seed) if seed % 2 else changed(seed, scripts)


def present_seeds():
    """The seeds that were chosen."""
    with open(SEEDS, encoding='ascii') as file:
        return [int(seed) for seed in file.read().split()]


def covering_scripts(more):
    """The known scripts, those that were found, those of the seeds, and some more."""
    scripts = known()
    seeds = [*present_seeds(), *range(OTHERS, OTHERS + more)]
    return first_scripts(scripts) + [*found_scripts()] + [of_seed(seed, scripts) for seed in seeds]
