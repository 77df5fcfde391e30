"""A fuzzer of calls of trac.h, which runs for some seconds over the engine in C under sanitizers, finds nothing,
and nor do mutated images of forms."""
import os
import re
import subprocess

from trac import TOP

SECONDS = 10
MUTATIONS = int(os.environ.get('MUTATIONS', '5000'))


def fuzz(seconds):
    """Fuzzes for some seconds, and gives how many sequences of calls were made."""
    done = subprocess.run([os.path.join(TOP, 'checks', 'fuzz', 'run'), 'calls', str(seconds)], capture_output=True,
                          text=True, errors='replace', timeout=300, check=False, env={**os.environ, 'SEED': '64'})
    assert done.returncode == 0, done.stderr[-3000:]
    return int(re.search(r'number_of_executed_units: (\d+)', done.stderr)[1])


def test_what_a_fuzzer_of_calls_finds():
    # a machine that does much else at that time gets more seconds
    assert fuzz(SECONDS) > 2000 or fuzz(10 * SECONDS) > 2000


def test_mutated_images():
    """Beside worked bytes: what is no image is refused and changes nothing, and what is one is given back."""
    done = subprocess.run([os.path.join(TOP, 'checks', 'fuzz', 'run'), 'images', str(MUTATIONS)], capture_output=True,
                          text=True, timeout=600, check=False)
    assert done.returncode == 0, done.stderr[-3000:]
    taken = re.fullmatch(rf'{MUTATIONS} mutations, (\d+) taken\n', done.stdout)
    assert MUTATIONS / 50 < int(taken[1]) < MUTATIONS / 2, done.stdout
