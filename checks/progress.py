"""progress.py CRATE COMMAND ..: runs a command of rt in a crate's folder, or at the top for '.', and shows its
progress: the current crate, the number of crates so far, the number of functions of the crate, and the time since the
beginning. At a terminal this is one line that is rewritten, elsewhere a line for each crate. The whole output of rt is
in build/rt.log; it is shown if rt fails."""
import os
import re
import subprocess
import sys
import time

TOP = os.path.dirname(os.path.dirname(os.path.abspath(__file__)))
LOG = os.path.join(TOP, 'build', 'rt.log')
CRATE = re.compile(r'(?:fn|struct|enum|impl) (trac_\w+)::|(\w+): (?:begins with|its tests|trying)|== (\w+)')
SO_FAR = re.compile(r'so far: (\d+ of \d+) functions')
# Lines that are shown unchanged: errors, and the results of `rt ci` for a crate, an edit and the whole.
SHOWN = re.compile(r'error|rt: (?!note|rt )|.*(?:NOT PROVED|NOT REFUSED|BAD EDIT|passed)')


def crates(above):
    """A crate and those that it depends on; all crates for '.'."""
    with open(os.path.join(TOP, 'crates.txt'), encoding='utf-8') as lines:
        rows = [line.split('#')[0].split(':') for line in lines]
    uses = {row[0].split()[0]: row[1].split() for row in rows if len(row) == 2}
    found, left = set(), list(uses) if above == '.' else [above]
    while left:
        name = left.pop()
        if name in uses and name not in found:
            found.add(name)
            left += uses[name]
    return found


class Line:
    """The line that shows how far the command is."""

    def __init__(self, name):
        self.begun, self.crates, self.seen = time.monotonic(), crates(name), []
        self.functions, self.shown = '', None

    def take(self, line):
        """Records what a line of rt says."""
        if found := CRATE.match(line):
            name = next(filter(None, found.groups()))
            if name in self.crates and name not in self.seen:
                self.seen.append(name)
                self.functions = ''
        if found := SO_FAR.search(line):
            self.functions = f', {found[1]} functions'

    def show(self):
        """Shows the line; at a terminal, at each call."""
        passed, name = int(time.monotonic() - self.begun), self.seen[-1] if self.seen else ''
        text = (f'{name or "beginning"}, {len(self.seen)} of {len(self.crates)} crates{self.functions}, '
                f'{passed // 60}:{passed % 60:02} so far')
        if sys.stderr.isatty():
            print(f'\r\033[K{text}', end='', file=sys.stderr, flush=True)
        elif name != self.shown:
            print(text, file=sys.stderr, flush=True)
        self.shown = name


def main(crate, *words):
    os.makedirs(os.path.dirname(LOG), exist_ok=True)
    line = Line(crate)
    folder = TOP if crate == '.' else os.path.join(TOP, 'crates', crate)
    with open(LOG, 'w', encoding='utf-8') as log, subprocess.Popen(
            words, cwd=folder, stdin=subprocess.DEVNULL, stdout=subprocess.PIPE,
            stderr=subprocess.STDOUT, text=True, errors='replace') as running:
        for said in running.stdout:
            log.write(said)
            log.flush()
            line.take(said)
            line.show()
            if SHOWN.match(said):
                print(said, end='', flush=True)
    if sys.stderr.isatty():
        print(file=sys.stderr)
    if running.returncode:
        with open(LOG, encoding='utf-8') as log:
            print(log.read(), end='')
    return running.returncode


if __name__ == '__main__':
    sys.exit(main(*sys.argv[1:]))
