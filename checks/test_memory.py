"""Each request for memory is refused in turn, by a small library that is loaded before the C library's allocator."""
import os
import subprocess
import tempfile
import unittest

from trac import PROGRAM, TOP, TRACER_IN_C

HELLO = b"#(ps,hello)'"
LONG = (b"#(ds,F,(abcabc))#(ss,F,b)#(ps,#(cl,F,(xyz))#(ad,99,1)#(gr,10,9,a,b))#(pf,F)'"
        b"#(ds,G,#(cc,F)#(in,F,c)#(bu,12,7))#(pf,G)#(dd,F,G)'") * 200
LONG_OUTPUT = b'axyzcaxyzc100a<^>a<1>ca<1>c<^>a17' * 200
WORDS_LINE = b'trac: no memory for the command line\n'
BLOCK_LINE = b'trac: no memory for 18 cells\n'
AMPLE_LINES = b'trac: 8 steps, peak 11 cells\ntrac: workspace of 18 cells full at step 9\n'
CELL = 8
ALLOCATORS = {'malloc', 'calloc', 'realloc', 'memalign', 'aligned_alloc', 'posix_memalign'}
OTHER_WAYS = {'mmap', 'mmap64', 'mremap', 'brk', 'sbrk', 'valloc', 'pvalloc', 'reallocarray',
              'strdup', 'syscall'}


class Refusing(unittest.TestCase):
    """Runs a program whose requests are noted, and one of them refused."""
    PROGRAM = PROGRAM

    @classmethod
    def setUpClass(cls):
        cls.folder = tempfile.TemporaryDirectory()
        cls.library = os.path.join(cls.folder.name, 'refusing.so')
        source = os.path.join(TOP, 'checks', 'refusing.c')
        subprocess.run(
            ['gcc', '-shared', '-fPIC', '-O1', '-fno-builtin', '-o', cls.library, source],
            check=True)

    @classmethod
    def tearDownClass(cls):
        cls.folder.cleanup()

    def run_refusing(self, number, script, *words):
        """The output, the lines, the status, the script that is left, and the sizes of the
        requests."""
        with tempfile.TemporaryFile() as given, tempfile.TemporaryFile() as requests:
            given.write(script)
            given.seek(0)
            environment = dict(os.environ, LD_PRELOAD=self.library, REFUSED=str(number),
                               REQUESTS=str(requests.fileno()))
            done = subprocess.run([self.PROGRAM, *words], stdin=given, capture_output=True, timeout=60,
                                  pass_fds=[requests.fileno()], env=environment)
            left = os.read(given.fileno(), len(script))
            requests.seek(0)
            sizes = [int(line) for line in requests.read().split()]
        return done.stdout, done.stderr, done.returncode, left, sizes


class Refused(Refusing):
    # Of the program in C: the line of a refused request before the last; whether that ends it at once; how many
    # requests there are at the least; and the bytes of the last for each cell, with room for a string beside the block.
    LINE, ENDS_AT_ONCE, FEWEST, BYTES = BLOCK_LINE, False, 2, CELL + 1
    # Its ways to memory.
    WAYS = frozenset({'calloc', 'malloc', 'realloc'})

    def test_each_request_in_turn(self):
        words = ['--cells', '18', '--report']
        *ample, sizes = self.run_refusing(0, HELLO, *words)
        self.assertEqual(ample, [b'', AMPLE_LINES, 1, b''])
        self.assertEqual(self.run_refusing(len(sizes), HELLO, *words)[:4], (b'', BLOCK_LINE, 6, HELLO))
        got_past = []
        for number in range(1, len(sizes)):
            with self.subTest(request=number, of=len(sizes)):
                *ends, made = self.run_refusing(number, HELLO, *words)
                if ends == ample:
                    # the library asks for the same once more
                    self.assertEqual(made[number], sizes[number - 1])
                    got_past.append(number)
                else:
                    self.assertEqual(ends, [b'', self.LINE, 6, HELLO])
                    self.assertEqual(made if self.ENDS_AT_ONCE else made[:number], sizes[:number])
        self.assertLessEqual(len(got_past), 1)
        self.assertGreaterEqual(len(sizes), self.FEWEST)

    def test_a_run_makes_no_request(self):
        words = ['--cells', '65432', '--steps', '100000000']
        *short, sizes = self.run_refusing(0, HELLO, *words)
        self.assertEqual(short, [b'hello', b'', 0, b''])
        *long, long_sizes = self.run_refusing(0, LONG, *words)
        self.assertEqual(long[1:], [b'', 0, b''])
        self.assertEqual(long[0], LONG_OUTPUT)
        self.assertEqual(long_sizes, sizes)
        # the last request is that of the block
        self.assertEqual(sizes[-1] // 65432, self.BYTES)
        if self.BYTES == CELL:
            self.assertEqual(sizes[-1], 65432 * CELL)

    def test_the_program_has_no_other_way_to_memory(self):
        lines = subprocess.run(['nm', '-D', '--undefined-only', PROGRAM], check=True,
                               capture_output=True, text=True).stdout
        names = {line.split()[1].split('@')[0] for line in lines.splitlines()}
        self.assertEqual(names & ALLOCATORS, self.WAYS)
        self.assertEqual(names & OTHER_WAYS, set())


class Tracer(Refusing):
    PROGRAM = TRACER_IN_C

    def test_the_lines_that_are_made_are_written(self):
        """They are written if there is no memory for more of them."""
        script = b"#(ds,A,(%s))#(ps,#(cl,A))'" % (b'x' * 3000)
        ample, *_, sizes = self.run_refusing(0, script)
        few, lines, status, _, _ = self.run_refusing(len(sizes), script)
        self.assertEqual((lines, status), (b'trac_trace: no memory\n', 6))
        self.assertTrue(ample.startswith(few) and few.endswith(b'\n'))
        longest = max(map(len, ample.splitlines(True)))
        self.assertGreater(len(few) + longest, sizes[-2])


class Listing(Refusing):
    PROGRAM = os.path.join(TOP, 'build', 'trac_terminal')

    def test_a_listing_is_made_right_as_a_whole_or_not_at_all(self):
        with tempfile.NamedTemporaryFile() as listing:
            listing.write(b"#(DS,A,b)\r\n#(PS,#(A))'")
            listing.flush()
            words = ['--convert', listing.name]
            ample, *_, sizes = self.run_refusing(0, b'', *words)
            self.assertEqual(ample, b"#(DS,A,b)\n#(PS,#(cl,A))'")
            for number in range(1, len(sizes) + 1):
                with self.subTest(request=number, of=len(sizes)):
                    self.assertIn(self.run_refusing(number, b'', *words)[0], (ample, b''))
