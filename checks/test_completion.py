"""Completion in bash, zsh and fish offers exactly the options that a program's help shows, without those already given.
"""
import os
import pty
import re
import select
import subprocess
import tempfile
import time
import unittest

from trac import PROGRAM, TERMINAL, TOP

FOLDER = os.path.join(TOP, 'hosts', 'completion')
SESSION = ['--batch', '--cells', '--check', '--convert', '--help', '--quiet', '--save', '--steps', '--version',
           '--with']
BASH = """source {folder}/trac.bash
COMP_WORDS=("$@") COMP_CWORD=$(($# - 1))
_trac "$1" "${{@: -1}}" "${{@: -2:1}}"
printf '%s\\n' "${{COMPREPLY[@]}}"
"""
# A program whose help has what those of the proved programs have: short options, words in place of a number.
STAND_IN = """#!/bin/sh
[ "$*" = --help ] || exit 3
cat <<'END'
Usage: it [OPTIONS] [FILE]...

Options:
      --cells <N>    Cells of the workspace, --steps are others [default: 65536]
      --save <FILE>  Where to put it
  -q, --no-banner    Say less
      --from <N>     The first
  -h, --help         Print help
END
"""
OPTIONS = ['--cells', '--from', '--help', '--no-banner', '--save']


class Completion(unittest.TestCase):
    def setUp(self):
        room = tempfile.TemporaryDirectory()
        self.addCleanup(room.cleanup)
        self.room = room.name
        for program, path in (('trac', PROGRAM), ('trac_terminal', TERMINAL)):
            os.symlink(path, os.path.join(self.room, program))
        stand_in = os.path.join(self.room, 'trac_trace')
        with open(stand_in, 'w', encoding='utf-8') as file:
            file.write(STAND_IN)
        os.chmod(stand_in, 0o755)
        with open(os.path.join(self.room, 'forms.trac'), 'w', encoding='utf-8'):
            pass
        self.env = {**os.environ, 'PATH': self.room + ':/usr/bin:/bin', 'HOME': self.room, 'LC_ALL': 'C.UTF-8'}

    def said(self, *words):
        done = subprocess.run(words, cwd=self.room, env=self.env, capture_output=True, text=True, timeout=30)
        self.assertEqual((done.stderr, done.returncode), ('', 0))
        return sorted(done.stdout.splitlines())

    def in_bash(self, line):
        return [word for word in self.said('bash', '-c', BASH.format(folder=FOLDER), 'bash', *line.split(' ')) if word]

    def in_fish(self, line):
        source = f'source {FOLDER}/trac.fish; complete -C "{line}"'
        return [row.split('\t')[0] for row in self.said('fish', '-c', source)]

    def in_zsh(self, line):
        """The line as zsh completes it, by the key Tab at a terminal."""
        pid, terminal = pty.fork()
        if pid == 0:
            os.chdir(self.room)
            os.execvpe('zsh', ['zsh', '-f', '-i'], self.env)
        start = f'PROMPT= fpath=({FOLDER} $fpath); autoload -U compinit; compinit -D -u; echo rea""dy\n'
        os.write(terminal, start.encode())
        self.read(terminal, 'ready\r\n')
        os.write(terminal, line.encode() + b'\t\x01echo "<\x05>"\n')
        got = self.read(terminal, '>\r\n')
        os.close(terminal)
        os.waitpid(pid, 0)
        return re.findall(r'^<(.*?) *>\r$', got, re.MULTILINE)[-1]

    def read(self, terminal, end):
        text, until = '', time.monotonic() + 20
        while end not in text:
            ready, _, _ = select.select([terminal], [], [], until - time.monotonic())
            self.assertTrue(ready, text)
            text += os.read(terminal, 4096).decode(errors='replace')
        return text

    def test_options_are_those_of_the_help(self):
        shown = subprocess.run([PROGRAM, '--help'], capture_output=True, text=True, check=True).stdout
        options = sorted(re.findall(r'^ +(?:-\w, )?(--\w+)', shown, re.MULTILINE))
        self.assertGreaterEqual(len(options), 4)
        for program, wanted in (('trac', options), ('trac_trace', OPTIONS), ('trac_terminal', SESSION)):
            for complete in (self.in_bash, self.in_fish):
                with self.subTest(program=program, shell=complete.__name__):
                    self.assertEqual(complete(f'{program} --'), wanted)
                    left = [option for option in wanted if option != '--cells']
                    self.assertEqual(complete(f'{program} --cells 5 --'), left)
                    self.assertEqual(complete(f'{program} --x'), [])

    def test_values_of_options_and_files(self):
        self.assertEqual(self.in_bash('trac --cells '), [])
        self.assertEqual(self.in_bash('trac_terminal --save f'), ['forms.trac'])
        self.assertEqual(self.in_bash('trac_terminal f'), ['forms.trac'])
        self.assertEqual(self.in_bash('trac f'), [])
        self.assertIn('forms.trac', self.in_fish('trac_terminal f'))

    def test_zsh(self):
        for line, rest in (('trac --re', 'port'), ('trac --ce', 'lls'), ('trac_trace --fr', 'om'),
                           ('trac_terminal --qu', 'iet'), ('trac_terminal fo', 'rms.trac'), ('trac --nosuch', '')):
            with self.subTest(line=line):
                self.assertEqual(self.in_zsh(line), line + rest)


if __name__ == '__main__':
    unittest.main()
