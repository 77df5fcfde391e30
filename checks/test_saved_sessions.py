"""Sessions that `trac_terminal` saves: how a save replaces a file, which files it doesn't change, and what is loaded.

MUTATIONS and KILLS in the environment set how many damaged files are loaded, and how many saves are killed."""
import contextlib
import os
import random
import shutil
import signal
import subprocess
import tempfile
import time
import unittest

from kept_forms import image_of, kept_by, library, script_of, sum_of
from test_terminal import CHECKING, EDITING, FOREVER, Room, Typist, built, piped
from trac import TERMINAL, run

MUTATIONS = int(os.environ.get('MUTATIONS', '3000'))
KILLS = int(os.environ.get('KILLS', '20'))
BATCH = 500
STORES = 60
IS_ROOT = os.geteuid() == 0
# Root may write anywhere.
NOBODY = ['setpriv', '--reuid=65534', '--regid=65534', '--clear-groups'] if IS_ROOT else []
# The meta character of the session, gaps, pointers, and characters that can't be in parentheses.
SCRIPTS = [b"'", b"#(ds,A,b)'", b"#(cm,;)'", b"#(ds,,b)'#(,##(cn,,1))'", b"#(ds,A,b)#(cm,;)'",
           b"#(ds,A,bc)'#(ss,A,c)'#(,##(cc,A))'", b"#(ds,A,##(rs))'('#(ds,B,c)'",
           b"#(ds,A,(';!|`@&$%?:))#(ds,B,##(rc))'\n#(cm,##(cl,B))'"]


def first_and_last(saved):
    """The first line of a saved session, and the last one."""
    lines = saved.splitlines(keepends=True)
    return lines[0], lines[-1]


@contextlib.contextmanager
def small_disk(case, *options):
    """A folder on a file system of some pages; skips the test where none can be mounted."""
    with tempfile.TemporaryDirectory() as folder:
        # by a shell, which reports a missing program
        done = subprocess.run(['sh', '-c', 'mount -t tmpfs -o "$0" tmpfs "$1"', ','.join(options), folder],
                              capture_output=True, text=True, check=False)
        if done.returncode:
            case.skipTest(f'no file system can be mounted here: {done.stderr.strip()}')
        try:
            yield folder
        finally:
            subprocess.run(['umount', folder], check=True)


class Replaced(Room):
    """What a save does to the file: the whole new content replaces the old one, or the file stays as it was."""

    def save(self, name, *before, script=b"#(ds,A,b)'", program=TERMINAL):
        """The messages of a save, and the status."""
        done = subprocess.run([*before, program, '--save', name], input=script, capture_output=True, timeout=60)
        self.assertEqual(done.stdout, b'')
        return done.stderr.decode(), done.returncode

    def limited(self, name, first=':'):
        """The same when no file can grow; the process that becomes the program first does `first`."""
        return self.save(name, 'sh', '-c', f'trap "" XFSZ; {first}; ulimit -f 0; exec "$@"', 'sh')

    def save_as_nobody(self, name, folder_mode):
        """The same as a user who has only the rights that the permissions give."""
        program = shutil.copy(TERMINAL, self.path('program'))
        self.addCleanup(os.chmod, self.folder, 0o700)
        os.chmod(self.folder, folder_mode)
        return self.save(name, *NOBODY, program=program)

    def is_refused(self, said, name, why):
        self.assertEqual(said, (f"trac_terminal: can't save {name}: {why}\n", 5))
        self.assertEqual(self.got('saved'), b'before')

    def is_saved(self, name):
        self.assertEqual(self.save(name), ('', 0))
        self.assertIn(b"#(ds,A,b)'\n", self.got(name))

    def test_where_no_file_can_grow(self):
        saved = self.put('saved', 'before')
        os.symlink('saved', self.path('link'))
        os.symlink(self.path('link'), self.path('further'))
        for name in (saved, self.path('link'), self.path('further')):
            with self.subTest(name=name):
                self.is_refused(self.limited(name), name, 'File too large')
        self.assertEqual(sorted(os.listdir(self.folder)), ['further', 'link', 'saved'])

    def test_beside_files_of_other_saves(self):
        saved = self.put('saved', 'before')
        self.is_refused(self.limited(saved, f': >"{saved}.$$"'), saved, 'File too large')

    def test_a_name_of_any_length(self):
        for length in (252, 255):
            name = self.put('n' * length, 'before')
            self.assertEqual(self.limited(name)[1], 5)
            self.assertEqual(self.got(name), b'before')
            self.is_saved(name)
        self.assertEqual(len(os.listdir(self.folder)), 2)

    def test_a_full_disk(self):
        for how, fill in (('size=16k', b'x' * 16384), ('nr_inodes=3,size=1m', b'')):
            with self.subTest(how=how), small_disk(self, *how.split(',')) as disk:
                saved, link = os.path.join(disk, 'saved'), self.path('link')
                os.symlink(saved, link)
                self.put(saved, 'before')
                with contextlib.suppress(OSError):
                    self.put(os.path.join(disk, 'full'), fill)
                for name in (saved, link):
                    said = self.save(name, script=b"#(ds,A," + b'b' * 9000 + b")'")
                    self.assertEqual(said, (f"trac_terminal: can't save {name}: No space left on device\n", 5))
                    self.assertEqual(self.got(saved), b'before')
                self.assertEqual(sorted(os.listdir(disk)), ['full', 'saved'])
                os.remove(link)

    def test_a_folder_that_may_not_be_written_to(self):
        saved = self.put('saved', 'before')
        os.chmod(saved, 0o666)
        self.is_refused(self.save_as_nobody(saved, 0o555), saved, 'Permission denied')

    def test_a_file_that_may_not_be_written_to(self):
        saved = self.put('saved', 'before')
        os.symlink('saved', self.path('link'))
        os.chmod(saved, 0o444)
        for name in (saved, self.path('link')):
            self.is_refused(self.save(name), name, 'Permission denied')
        if IS_ROOT:
            os.chmod(saved, 0o644)
            self.is_refused(self.save_as_nobody(saved, 0o777), saved, 'Permission denied')

    def test_links(self):
        os.mkdir(self.path('deep'))
        self.put('deep/saved', 'before')
        for name, to in (('link', 'deep/further'), ('deep/further', self.path('deep/saved')), ('new', 'deep/missing'),
                         ('lost', 'no/where'), ('round', 'round')):
            os.symlink(to, self.path(name))
        for link, file in (('link', 'deep/saved'), ('new', 'deep/missing')):
            self.is_saved(self.path(link))
            self.assertIn(b"#(ds,A,b)'\n", self.got(file))
            self.assertTrue(os.path.islink(self.path(link)))
        self.assertTrue(os.path.islink(self.path('deep/further')))
        for link, why in (('lost', 'No such file or directory'), ('round', 'Too many levels of symbolic links')):
            self.assertEqual(self.save(self.path(link)), (f"trac_terminal: can't save {self.path(link)}: {why}\n", 5))

    def test_a_file_that_the_output_goes_to(self):
        script = self.put('script', "#(ds,A,b)#(ps,printed)'")
        for name in (self.path('both'), '/dev/stdout'):
            with open(self.path('both'), 'wb') as both:
                subprocess.run([TERMINAL, '--batch', '--save', name, script], stdout=both, check=True, timeout=60)
            self.assertTrue(self.got('both').startswith(b'printed\n#(,(Session saved by '), self.got('both'))

    @unittest.skipUnless(IS_ROOT, 'only root can give a file away')
    def test_the_owner_stays(self):
        saved = self.put('saved', 'before')
        os.chown(saved, 65534, 65534)
        self.is_saved(saved)
        self.assertEqual((os.stat(saved).st_uid, os.stat(saved).st_gid), (65534, 65534))

    def test_it_is_on_the_disk_before_it_takes_the_place(self):
        calls = self.path('calls')
        self.is_saved(self.path('saved'))
        self.save(self.path('saved'), 'strace', '-o', calls, '-e', 'trace=openat,fsync,rename,write,ftruncate')
        lines = self.got('calls').decode().splitlines()
        at = next(i for i, line in enumerate(lines) if 'O_EXCL' in line)
        self.assertEqual([line.split('(')[0] for line in lines[at:at + 4]], ['openat', 'write', 'fsync', 'rename'])
        self.assertNotIn('O_TRUNC', ''.join(lines))


class Killed(Room):
    """A save that is killed leaves the old file or the new one, even through links."""

    def setUp(self):
        super().setUp()
        self.scripts = [self.put(f'script{name}', b''.join(b"#(ds,%s%d,(%s))'" % (name.encode(), i, b'text ' * 30)
                                                          for i in range(300))) for name in 'AB']
        self.whole = []
        for script in self.scripts:
            self.assertEqual(piped('', '--batch', '--save', self.path('saved'), script), ('', '', 0))
            self.whole.append(self.got('saved'))
        os.symlink('saved', self.path('link'))

    def words(self, turn):
        return [TERMINAL, '--batch', '--save', self.path(('saved', 'link')[turn // 2 % 2]), self.scripts[turn % 2]]

    def test_before_each_call_of_the_system(self):
        for turn, call in enumerate(('write', 'write', 'fsync', 'fsync', 'rename', 'rename') * 2):
            before = self.got('saved')
            subprocess.run(['strace', '-o', '/dev/null', '-e', f'inject={call}:signal=SIGKILL:when=1',
                            *self.words(turn)], stderr=subprocess.DEVNULL, check=False, timeout=60)
            self.assertIn(self.got('saved'), (before, self.whole[turn % 2]), call)

    def test_at_any_time(self):
        chance, start = random.Random(0), time.monotonic()
        subprocess.run(self.words(0), check=True, timeout=60)
        took = time.monotonic() - start
        killed = turn = 0
        # a save that has ended before it is killed doesn't count
        while killed < KILLS and turn < 50 * KILLS:
            session = subprocess.Popen(self.words(turn))
            time.sleep(chance.uniform(0, took))
            session.send_signal(signal.SIGKILL)
            killed += session.wait() == -signal.SIGKILL
            turn += 1
            self.assertIn(self.got('saved'), self.whole)
        self.assertEqual(killed, KILLS)


class InAsManyCells(Room):
    """What a save accepts can be loaded with as many cells and steps."""

    def is_told(self, script, *words):
        """Whether a save reports that something doesn't fit. What fits is loaded as it was, and the rest isn't
        loaded."""
        self.put('again', b"#(ds,never,saved)'")
        said = piped('', '--batch', '--quiet', *words, '--save', self.path('saved'), self.put('script', script))[1]
        is_told = 'trac_terminal: ' in said
        ended = piped('', '--batch', *words, '--save', self.path('again'), self.path('saved'))
        self.assertEqual(ended == ('', '', 0), not is_told)
        if not is_told:
            self.assertEqual(kept_by(library(), self.got('again')), kept_by(library(), self.got('saved')))
        return is_told

    def test_from_few_of_them_on(self):
        for option, counts in (('--cells', range(14, 48)), ('--steps', range(9, 160, 8))):
            told = 0
            for script in SCRIPTS:
                for count in counts:
                    with self.subTest(script=script, option=option, count=count):
                        told += self.is_told(script, option, str(count))
            self.assertGreater(told, 2)

    def test_what_is_no_form_s(self):
        """The forms of a parenthesis and of the meta character take cells, too."""
        file = self.put('script', SCRIPTS[6])
        said = [piped('', '--batch', '--cells', str(cells), '--save', self.path('saved'), file)[1]
                for cells in range(24, 64)]
        self.assertIn(f"trac_terminal: {self.path('saved')}: more cells or steps are needed to load it\n", said)


class Loaded(Room):
    """A saved session is loaded as it was saved, or not at all."""

    BEFORE = b"#(ds,kept,(a-b))'#(ss,kept,-)'#(,##(cc,kept))'"
    # shows what the script before left
    PROBE = b"#(ps,##(ln,;))#(pf,kept)'"
    SHOWN = ';kepta<^><1>b\n'
    CUT = 'the saved session is cut or damaged'

    @classmethod
    def setUpClass(cls):
        made = tempfile.TemporaryDirectory()
        cls.addClassCleanup(made.cleanup)
        cls.checked = built(made.name, 'gcc', *CHECKING, *EDITING)

    def setUp(self):
        super().setUp()
        self.before, self.probe = self.put('before', self.BEFORE), self.put('probe', self.PROBE)

    def saved(self, script, *words):
        piped('', '--batch', '--quiet', '--save', self.path('saved'), *words, self.put('script', script))
        return self.got('saved')

    def is_refused(self, files, why, status, *words):
        """Nothing of the files is defined, and each file is named."""
        ended = piped('', '--batch', *words, self.before, *files, self.probe, program=self.checked)
        lines = ''.join(f'trac_terminal: {file}: {why}; nothing of it is defined\n' for file in files)
        self.assertEqual(ended, (self.SHOWN, lines, status))

    def test_cuts_are_told(self):
        saved = self.saved(SCRIPTS[4])
        files = [self.put(f'cut{length}', saved[:length]) for length in range(1, len(saved))]
        self.is_refused(files, self.CUT, 5)
        self.assertEqual(piped('', '--batch', self.put('empty', ''), self.before, self.probe), (self.SHOWN, '', 0))

    def test_lines_that_are_missing_doubled_or_swapped_are_told(self):
        for script in (SCRIPTS[0], SCRIPTS[5]):
            lines = self.saved(script).splitlines(keepends=True)
            count, files = len(lines), []
            for at in range(count):
                changed = [lines[:at] + lines[at + 1:], lines[:at] + lines[at:at + 1] + lines[at:]]
                changed += [lines[:at] + [lines[to]] + lines[at + 1:to] + [lines[at]] + lines[to + 1:]
                            for to in range(at + 1, count)]
                files += [self.put(f'{len(files) + i}', b''.join(text)) for i, text in enumerate(changed)]
            self.is_refused(files, self.CUT, 5)

    def test_the_last_line(self):
        saved = self.saved(b"#(ds,A,b)#(ds,B,c)'")
        self.assertEqual(first_and_last(saved)[1].decode(), '#(,(End of the session saved by trac_terminal, 2 forms, '
                         f"checksum {sum_of(saved)}))'\n")
        self.assertIn(b' 1 form, ', first_and_last(self.saved(b"#(ds,A,b)'"))[1])

    def test_mutations(self):
        saved = [self.saved(script) for script in (*SCRIPTS, *map(script_of, range(20)))]
        chance = random.Random(0)
        for first in range(0, MUTATIONS, BATCH):
            files = []
            for number in range(first, min(first + BATCH, MUTATIONS)):
                files.append(self.put(f'mutated{number % BATCH}', mutated(chance, chance.choice(saved))))
            with self.subTest(first=first):
                self.is_refused(files, self.CUT, 5)

    def test_whole_ones(self):
        for script in (*SCRIPTS, *map(script_of, range(20))):
            saved = self.saved(script)
            self.assertEqual(piped('', '--batch', '--save', self.path('again'), self.path('saved'),
                                   program=self.checked), ('', '', 0))
            self.assertEqual(self.got('again'), saved)

    def test_trac_runs_it_too(self):
        saved = self.saved(b"#(ds,A,##(rs))'(b'#(ds,B,c)'")
        self.assertEqual(run(saved), (b'', '', 0))
        self.assertEqual(kept_by(library(), saved), kept_by(library(), b"#(ds,A,##(rs))'(b'#(ds,B,c)'"))

    def test_what_is_no_saved_session_is_run_as_it_stands(self):
        older = b"#(,(Forms of a session, saved by trac_terminal 0.10.0))'\n#(ds,A,b)'\n"
        for script, output in ((older, ';A\n'), (b"#(ds,A,b)'#(,(End of it))'", ';A\n')):
            self.assertEqual(piped('', '--batch', self.put('older', script), self.put('list', "#(ln,;)'")),
                             (output, '', 0))
        saved = self.saved(b"#(ds,A,b)'").split(b'\n', 1)[1].rsplit(b'\n', 2)[0]
        self.assertEqual(piped('', '--batch', self.put('edited', saved), self.put('list', "#(cl,A)'")), ('b\n', '', 0))

    def test_behind_a_head(self):
        script = self.put('script', b'#!/usr/bin/trac_terminal\n' + self.saved(b"#(ds,A,b)'"))
        self.assertEqual(piped("#(cl,A)'", script), ('b\n', '', 0))

    def test_in_too_few_cells_or_steps(self):
        text = b'x' * 300
        self.saved(b"#(ds,kept,new)'#(ds,A," + text + b")'")
        saved = [self.path('saved')]
        self.is_refused(saved, 'the saved session needs more cells', 1, '--cells', '300')
        self.is_refused(saved, 'the saved session needs more steps for a string', 3, '--steps', '200')

    def test_where_the_meta_character_is_another(self):
        saved, change = self.saved(b"#(ds,A,b)'"), self.put('change', "#(cm,;)'")
        self.assertEqual(piped("#(ln,(,));", change, self.put('saved', saved))[1:], (
            f"trac_terminal: {self.path('saved')}: a saved session is loaded where the meta character is the "
            'apostrophe; nothing of it is defined\n', 5))

    def test_loading_that_is_stopped(self):
        saved = self.saved(b"#(ds,A,b)'").replace(b"#(ds,A,b)'", b"#(ds,A,(#(cl,A)))'\n#(cl,A)'")
        endless = self.put('endless', saved[:-20] + sum_of(saved).encode() + saved[-4:])
        typist = Typist('--quiet', '--steps', FOREVER, '--save', self.path('new'), endless)
        time.sleep(0.3)
        typist.type('\x03')
        self.assertEqual(typist.wait('> '), f'^C\ntrac_terminal: {endless}: loading was stopped; '
                         'nothing of it is defined\n> ')
        typist.type("#(ps,[##(ln,;)])'\n")
        typist.wait('[]\n> ')
        typist.type('\x04')
        self.assertEqual(os.waitstatus_to_exitcode(typist.status()), 5)
        self.assertFalse(os.path.exists(self.path('new')))

    def test_nothing_in_them_is_suspicious(self):
        for script in SCRIPTS:
            self.saved(script)
            self.assertEqual(piped('', '--check', self.path('saved')), ('', '', 0))

    def test_a_form_whose_name_loading_uses_stays(self):
        own, probe = self.put('own', "#(ds,>,x)#(ds,<,kept)'"), self.put('own_probe', "#(ps,##(ln,;)##(cl,<))'")
        # also where as many forms of such names are there afterwards
        for script in (b"#(ds,A,##(rs))'(b'", b"#(ds,<<,x)#(ds,A,##(rs))'(b'"):
            self.saved(script)
            self.assertEqual(piped('', '--batch', own, self.path('saved'), probe, program=self.checked), (
                ';>;<kept\n', f"trac_terminal: {self.path('saved')}: a form has a name that loading it uses; "
                'nothing of it is defined\n', 5))
        saved = self.saved(b"#(ds,<,new)#(ds,A,##(rs))'(b'")
        self.assertEqual(piped('', '--batch', own, self.put('saved', saved), probe), (';>;<;Anew\n', '', 0))

    def test_nothing_takes_the_place_of_a_session_that_was_not_loaded(self):
        cut = self.put('cut', self.saved(b"#(ds,A,b)'")[:-9])
        for words in ([], ['--batch']):
            _, lines, status = piped("#(ds,new,b)'", *words, cut, '--save', cut)
            self.assertEqual((lines, status), (f'trac_terminal: {cut}: {self.CUT}; nothing of it is defined\n'
                                               "trac_terminal: the forms aren't saved, since a file wasn't read\n", 5))

    def test_what_has_marks_and_no_lines(self):
        """Text without the two lines isn't a saved session, even with a checksum that fits."""
        first, last = first_and_last(self.saved(b"#(ds,A,b)'"))
        for text in (first + last, first.rstrip(b'\n') + last, first * 3 + last, first + b'\n\n' + last):
            text = text[:-20] + sum_of(text).encode() + text[-4:]
            ended = piped('', '--batch', self.put('odd', text), self.before, self.probe, program=self.checked)
            self.assertEqual(ended[0], self.SHOWN)


class Images(Room):
    """`FILE.image` holds the image of the session, which takes the place of all forms and the meta character."""

    # what stood there, and the meta character, are seen by this
    BEFORE, SHOWN = b"#(ds,own,text)'#(cm,!)'", '/own\n'
    CUT = 'the image is cut or damaged'

    @classmethod
    def setUpClass(cls):
        made = tempfile.TemporaryDirectory()
        cls.addClassCleanup(made.cleanup)
        cls.checked = built(made.name, 'gcc', *CHECKING, *EDITING)

    def saved(self, script, name='saved.image', *words):
        """The image of what a script leaves."""
        self.assertEqual(piped(script, '--quiet', '--save', self.path(name), *words, program=self.checked)[1:],
                         ('', 0))
        return self.got(name)

    def is_refused(self, names, why, status, *words):
        """Nothing of these files is taken, and each of them is named."""
        before, probe = self.put('before', self.BEFORE), self.put('probe', '#(ps,##(ln,/))!')
        ended = piped('', '--batch', *words, before, *names, probe, program=self.checked)
        lines = ''.join(f'trac_terminal: {name}: {why}; nothing of it is defined\n' for name in names)
        self.assertEqual(ended, (self.SHOWN, lines, status))

    def test_any_forms_come_back(self):
        for script in (b'', *SCRIPTS[:-1], *map(script_of, range(STORES))):
            with self.subTest(script=script):
                kept = kept_by(library(), script)
                piped('', '--batch', '--quiet', '--save', self.path('saved.image'), self.put('script', script),
                      program=self.checked)
                self.assertEqual(self.got('saved.image'), image_of(*kept))
                again = piped('', '--batch', '--save', self.path('again.image'), self.path('saved.image'),
                              program=self.checked)
                self.assertEqual((again, self.got('again.image')), (('', '', 0), image_of(*kept)))

    def test_all_forms_give_way(self):
        image, before = self.path('saved.image'), self.put('before', self.BEFORE)
        self.saved(b"#(ds,A,a-b)#(ds,B,)#(ss,A,-)#(cm,;)'")
        said = f'trac_terminal: {image}: the image took the place of 1 form\n'
        self.assertEqual(piped('#(ps,##(ln,/))#(pf,A);', before, image), ('/A/B<^>a<1>b\n', said, 0))
        self.assertEqual(piped('#(ln,/);', '--quiet', before, image), ('/A/B\n', '', 0))
        self.assertEqual(piped('', '--batch', image, image)[1], said.replace('1 form', '2 forms'))

    def test_between_strings(self):
        image = self.path('saved.image')
        typist = Typist('--quiet')
        typist.wait('> ')
        for line, shown in (("#(ds,A,b)#(cm,;)'", ''), (f':save {image}', ''), ('#(ds,C,c)#(cm,!);', ''),
                            (f':load {image}', ''), ('#(ps,##(cl,A)##(ln,/));', 'b/A\n'),
                            (f':check {image}', '')):
            typist.type(line + '\n')
            self.assertEqual(typist.wait('\n> '), f'{line}\n{shown}> ')
        typist.type('\x04')
        self.assertEqual(os.waitstatus_to_exitcode(typist.status()), 0)

    def test_damaged_ones(self):
        image = self.saved(b"#(ds,A,a-b)#(ds,B,)#(ss,A,-)'")
        names = [self.put(f'cut{length}.image', image[:length]) for length in range(len(image))]
        names += [self.put(f'flipped{bit}.image', image[:bit // 8] + bytes([image[bit // 8] ^ 1 << bit % 8]) +
                           image[bit // 8 + 1:]) for bit in range(8 * len(image)) if bit // 8 != 4]
        names += [self.put('more.image', image + b'\0'), self.put('text.image', "#(ds,new,)'")]
        self.is_refused(names, self.CUT, 5)

    def test_what_is_known_without_its_name(self):
        image = self.saved(b"#(ds,A,b)#(cm,;)'")
        self.assertEqual(piped('##(cl,A);', self.put('other', image)), ('b\n', '', 0))
        names = [self.put(f'cut{length}', image[:length]) for length in range(1, len(image))]
        self.is_refused(names, self.CUT, 5)
        scripts = [self.put('script', "TRACED#(ps,a)'"), self.put('other', "TRAC\n#(ps,b)'")]
        self.assertEqual(piped('', '--batch', *scripts), ('aTRACED\nbTRAC\n', '', 0))

    def test_other_versions(self):
        image = self.saved(b"#(ds,A,b)'")
        names = [self.put(f'{version}.image', image[:4] + bytes([version]) + image[5:]) for version in (0, 2, 3, 255)]
        self.is_refused([*names, self.put('other', b'TRAC\2')], 'the image is of another version', 5)

    def test_in_too_few_cells(self):
        self.saved(b"#(ds,A," + b'x' * 50 + b")#(ds,B,y)'")
        self.put('list', "#(ps,##(ln,/))'")
        self.assertEqual(piped('', '--batch', '--cells', '100', self.path('saved.image'), self.path('list')),
                         ('/A/B\n', '', 0))
        words = ['--batch', '--save', self.path('again.image')]
        self.assertEqual(piped('', *words, '--cells', '59', self.path('saved.image')), ('', '', 0))
        self.assertEqual(self.got('again.image'), self.got('saved.image'))
        self.is_refused([self.path('saved.image')], 'the image needs more cells', 1, '--cells', '58')

    def test_one_that_was_not_loaded_stays(self):
        cut = self.put('cut.image', self.saved(b"#(ds,A,b)'")[:-1])
        lines, status = piped("#(ds,new,b)'", '--batch', cut, '--save', cut)[1:]
        self.assertEqual((lines, status), (f'trac_terminal: {cut}: {self.CUT}; nothing of it is defined\n'
                                           "trac_terminal: the forms aren't saved, since a file wasn't read\n", 5))
        self.assertEqual(len(self.got('cut.image')), 14 + 16 + 2 - 1)

    def test_it_takes_the_place_at_once(self):
        """An image is written as a script is: what was there stays where it can't be."""
        image, calls = self.path('saved.image'), self.path('calls')
        before = self.saved(b"#(ds,A,b)'")
        words = [TERMINAL, '--save', image]
        done = subprocess.run(['sh', '-c', 'trap "" XFSZ; ulimit -f 0; exec "$@"', 'sh', *words], input=b"#(ds,C,d)'",
                              capture_output=True, check=False)
        self.assertEqual((done.stderr.decode(), done.returncode),
                         (f"trac_terminal: can't save {image}: File too large\n", 5))
        for call in ('write', 'fsync', 'rename'):
            subprocess.run(['strace', '-o', calls, '-e', f'inject={call}:signal=SIGKILL:when=1', *words],
                           input=b"#(ds,C,d)'", stderr=subprocess.DEVNULL, check=False)
            self.assertIn(call + '(', self.got('calls').decode())
            self.assertEqual(self.got('saved.image'), before, call)
        self.assertNotEqual(self.saved(b"#(ds,C,d)'"), before)

    def test_what_they_are_not(self):
        image, script = self.path('saved.image'), self.put('script', "#(xy)'")
        cut = self.put('cut.image', self.saved(b"#(ds,A,b)'")[:-1])
        self.assertEqual(piped('', '--check', image, cut, program=self.checked),
                         ('', f'trac_terminal: {cut}: {self.CUT}; nothing of it is defined\n', 5))
        self.assertEqual(piped('', '--check', self.path('none.image'))[2], 4)
        self.assertEqual(piped('', '--convert', image), ('', f'trac_terminal: {image}: an image is no listing\n', 4))
        self.assertEqual(piped('', '--check', '--with', image, script), ('', (
            f"error: an image can't be run in front of what is checked: '--with {image}'\n\n"
            "For more information, try '--help'.\n"), 2))
        self.assertEqual(piped('##(cl,A)\'', '--quiet', '--with', image, script), ('b\n', '', 0))


def mutated(chance, saved):
    """A saved session that is cut, or in which a bit is flipped, or a line removed, added or swapped with another."""
    text = saved
    while text == saved or not text:
        lines = saved.splitlines(keepends=True)
        one, other = chance.randrange(len(lines)), chance.randrange(len(lines))
        at = chance.randrange(len(saved))
        how = chance.choice(('cut', 'flip', 'remove', 'add', 'swap'))
        if how == 'cut':
            text = saved[:at]
        elif how == 'flip':
            text = saved[:at] + bytes([saved[at] ^ 1 << chance.randrange(8)]) + saved[at + 1:]
        elif how == 'remove':
            text = b''.join(lines[:one] + lines[one + 1:])
        elif how == 'add':
            text = b''.join(lines[:one] + [chance.choice((lines[other], b"#(ds,A,x)'\n", b'\n'))] + lines[one:])
        else:
            lines[one], lines[other] = lines[other], lines[one]
            text = b''.join(lines)
    return text


if __name__ == '__main__':
    unittest.main()
