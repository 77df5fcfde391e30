"""checks/tools says what it installs and why before it does so, prints nothing if nothing is missing, and, if it can't
install, names only what is missing. Stand-ins for apt-get and dpkg-query leave the machine unchanged."""
import os
import subprocess
import tempfile
import unittest

from trac import TOP

# Of all packages only this one isn't installed.
LACKING = 'codespell'
DPKG_QUERY = f'#!/bin/sh\n[ "$4" = {LACKING} ] || echo "ii "\n'
APT_GET = '#!/bin/sh\necho "$*" >>"$SAID"\n'
MADE = f'[ "$1" = update ] || ln -s /bin/true "${{0%/*}}/{LACKING}"\n'
REFUSED = 'exit 100\n'


class Tools(unittest.TestCase):
    def setUp(self):
        room = tempfile.TemporaryDirectory()
        self.addCleanup(room.cleanup)
        self.path, self.said = os.path.join(room.name, 'path'), os.path.join(room.name, 'said')
        os.mkdir(self.path)
        for folder in reversed(os.environ['PATH'].split(os.pathsep)):
            for name in os.listdir(folder) if os.path.isdir(folder) else ():
                self.link(os.path.join(folder, name))

    def link(self, path):
        to = os.path.join(self.path, os.path.basename(path))
        if os.path.lexists(to):
            os.unlink(to)
        os.symlink(path, to)

    def stand_in(self, name, text):
        if os.path.lexists(os.path.join(self.path, name)):
            os.unlink(os.path.join(self.path, name))
        with open(os.path.join(self.path, name), 'w', encoding='utf-8') as file:
            file.write(text)
        os.chmod(os.path.join(self.path, name), 0o755)

    def told(self, *words, apt_get, lacks=True):
        """What is said, the status, and what apt-get was told to do."""
        self.stand_in('apt-get', APT_GET + apt_get)
        self.stand_in('dpkg-query', DPKG_QUERY)
        if lacks:
            os.unlink(os.path.join(self.path, LACKING))
        done = subprocess.run([os.path.join(TOP, 'checks', 'tools'), *words], capture_output=True, text=True,
                              env={**os.environ, 'PATH': self.path, 'SAID': self.said}, timeout=60, check=False)
        self.assertEqual(done.stdout, '')
        if not os.path.exists(self.said):
            return done.stderr, done.returncode, []
        with open(self.said, encoding='utf-8') as file:
            return done.stderr, done.returncode, file.read().splitlines()

    def test_nothing_is_missing(self):
        self.assertEqual(self.told(apt_get=MADE, lacks=False), ('', 0, []))

    def test_what_is_installed(self):
        self.assertEqual(self.told(apt_get=MADE), (
            "tools: the checks need codespell; installing Debian's packages: codespell\n", 0,
            ['update -qq', 'install -qq -y codespell']))

    def test_what_can_not_be_installed(self):
        self.assertEqual(self.told(apt_get=REFUSED), (
            "tools: the checks need codespell; installing Debian's packages: codespell\n"
            "tools: can't install what the checks need: codespell; packages: codespell\n", 1, ['update -qq']))

    def test_words(self):
        self.assertEqual(self.told('engines', apt_get=MADE), ('tools: give no word, or machines\n', 2, []))


if __name__ == '__main__':
    unittest.main()
