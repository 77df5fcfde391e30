"""examples/exercises/check accepts correct scripts and refuses wrong ones, and shows where the output differs."""
import glob
import os
import shutil
import subprocess
import tempfile
import unittest

from trac import PROGRAM, TOP

FOLDER = os.path.join(TOP, 'examples', 'exercises')
CHECK = os.path.join(FOLDER, 'check')
SOLUTIONS = sorted(glob.glob(os.path.join(FOLDER, '*.trac')))

# A number, a script that looks correct and isn't, and the message about it.
WRONG = [
    (1, "#(ps,Hello, world!)'", 'expected:\nHello, world!\ngot:\nHello\nfirst difference: line 1\n'),
    (2, "#(ps,(f(x), g(y)\n))'", 'expected:\nf(x), g(y)\nh(z)\ngot:\nf(x), g(y)\nfirst difference: line 2\n'),
    (4, "#(ps,(Who are you? Good day, Ada (Countess, too).))#(,##(rs))'",
     "input:\n)( #(ps,x) ,'\nexpected:\nWho are you? Good day, )( #(ps,x) ,.\n"
     'got:\nWho are you? Good day, Ada (Countess, too).\nfirst difference: line 1\n'),
    (8, "#(ds,A,(#(cl,A)))#(cl,A)'",
     'expected:\n12 squared is 144\ngot:\n\ntrac: allowance of 1000000 steps used up\nit ended with status 3\n'
     'first difference: line 1\n'),
    (17, "#(ps,(1 first come,\n2 first served))#(hl)'\n",
     "input:\n), (\n#(ps,x)\n'\n\nexpected:\n1 ), (\n2 #(ps,x)\n3 '\n"
     "got:\n1 first come,\n2 first served\nfirst difference: line 1\n"),
]

# Scripts that print the right output, but not in the way that the task asks for, and the messages about them.
NEEDS_PS, NEEDS_CL, CONSTANT = [f'it prints the right text, but {what}\n' for what in (
    'also without its calls of ps', 'also without its calls of cl', 'it holds all of that text')]
TOASTS = ''.join(f'To {name}, and long may they live!\n' for name in ('Ada', 'Grace', 'the typists'))
FIZZES = '1 2 Fizz 4 Buzz Fizz 7 8 Fizz Buzz 11 Fizz 13 14 FizzBuzz'
CONSTANTS = [
    (1, "(Hello, world!)'", NEEDS_PS),
    (3, "#(ps,(#(ps,hello) prints hello))'",
     'with the second of these for each of the first:\n#(ps,hello)\n#(ps,#(ad,20,22))\n'
     'expected:\n#(ps,#(ad,20,22)) prints 42\ngot:\n#(ps,#(ad,20,22)) prints hello\nfirst difference: line 1\n'),
    (5, f"#(ps,({TOASTS}))'", NEEDS_CL),
    (5, f"#(ds,A,({TOASTS}))#(ps,##(cl,A))'", CONSTANT),
    (6, "#(ps,(Ada is 28 years old.\nCharles is 52 years old.\n))'",
     'with the second of these for each of the first:\n1843\n1853\n'
     'expected:\nAda is 38 years old.\nCharles is 62 years old.\n'
     'got:\nAda is 28 years old.\nCharles is 52 years old.\nfirst difference: line 1\n'),
    (6, "#(ps,(Ada is )#(su,1843,1815)( years old.\nCharles is )#(su,1843,1791)( years old.\n))'", NEEDS_CL),
    (7, "#(ds,put,x)#(ds,ask,(tea: 14\ncake: 30\ngin: none))#(ps,##(cl,ask))'", CONSTANT),
    (8, "#(ps,(12 squared is )#(ml,12,12))'", NEEDS_CL),
    (8, "#(ps,(12 squared is 144))'",
     'with the second of these for each of the first:\n12\n13\nexpected:\n13 squared is 169\n'
     'got:\n13 squared is 144\nfirst difference: line 1\n'),
    (9, "7 7 8'", 'with the second of these for each of the first:\n-4\n-41\nexpected:\n7 7 45\ngot:\n7 7 8\n'
     'first difference: line 1\n'),
    (9, "#(ds,A,7)#(cl,A) #(cl,A) #(su,4,-4)'",
     'with the second of these for each of the first:\n10\n20\nexpected:\n17 17 8\ngot:\n7 7 8\n'
     'first difference: line 1\n'),
    (9, "#(su,10,3) #(su,10,3) #(su,4,-4)'", NEEDS_CL),
    (10, "1 2 3 4 5 6 7 8 9 10'", NEEDS_CL),
    (10, "#(ds,A,(1 2 3 4 5 6 7 8 9 10))#(cl,A)'", CONSTANT),
    (11, "55 5050'", 'with the second of these for each of the first:\n100\n200\nexpected:\n55 20100\n'
     'got:\n55 5050\nfirst difference: line 1\n'),
    (11, "55 #(dv,#(ml,100,#(ad,100,1)),2)'", NEEDS_CL),
    (12, f"{FIZZES}'", NEEDS_CL),
    (12, f"#(ds,A,({FIZZES}))#(cl,A)'", CONSTANT),
]
# Scripts that are right, and look otherwise than the solutions.
RIGHT = [
    (1, "#(ds,G,(Hello, world!))#(PS,##(cl,G))'"),
    (3, "#(ds,C,(#(ps,hello)))#(ps,##(cl,C)( prints ))#(cl,C)'"),
    (5, "#(ds,A,(#(ps,(To X, and long may they live!\n))))#(ss,A,X)#(CL,A,Ada)#(cl,A,Grace)#(cl,A,the typists)#(hl)'"),
    (9, "#(ds,d,(#(ps,#(gr,A,B,(#(su,A,B)),(#(su,B,A))))))#(ss,d,A,B)\n"
     "#(cl,d,3,10)#(ps, )#(cl,d,10,3)#(ps, )#(cl,d,-4,4)#(hl)'\n"),
    (11, "#(ds,s,(#(gr,N,0,(#(ad,N,#(cl,s,#(su,N,1)))),0)))#(ss,s,N)#(ps,#(cl,s,10) #(cl,s,100))"),
    # which has a word of its own for a multiple of both
    (12, "#(ds,m,(#(eq,#(ml,BY,#(dv,N,BY)),N,SAY,(OR))))#(ss,m,BY,N,SAY,OR)"
     "#(ds,w,(#(cl,m,15,N,FizzBuzz,(#(cl,m,3,N,Fizz,(#(cl,m,5,N,Buzz,N)))))))#(ss,w,N)"
     "#(ds,c,(#(cl,w,N)#(gr,15,N,(( )#(cl,c,#(ad,N,1))))))#(ss,c,N)#(cl,c,1)'"),
]


def check(*words, **more):
    """The output, what is printed on standard error, and the status."""
    env = {**os.environ, 'TRAC': PROGRAM, **more.pop('env', {})}
    done = subprocess.run([*more.pop('shell', []), CHECK, *map(str, words)], capture_output=True, text=True, env=env,
                          timeout=60, **more)
    return done.stdout, done.stderr, done.returncode


class Check(unittest.TestCase):
    def setUp(self):
        room = tempfile.TemporaryDirectory()
        self.addCleanup(room.cleanup)
        self.room = room.name

    def write(self, text, name='mine, (1).trac'):
        path = os.path.join(self.room, name)
        with open(path, 'wb') as file:
            file.write(text.encode())
        return path

    def test_solutions_are_right_in_each_shell(self):
        self.assertEqual(len(SOLUTIONS), 20)
        for number, path in enumerate(SOLUTIONS, 1):
            for shell in ('dash', 'bash'):
                with self.subTest(number=number, shell=shell):
                    self.assertEqual(check(number, path, shell=[shell]), ('right\n', '', 0))

    def test_they_are_right_without_the_input_that_is_shown(self):
        for number in (4, *range(13, 21)):
            with self.subTest(number=number), open(SOLUTIONS[number - 1], encoding='utf-8') as file:
                script, apostrophe, _ = file.read().partition("'")
                for end in ('', '\n', '\n\n'):
                    self.assertEqual(check(number, self.write(script + apostrophe + end)), ('right\n', '', 0))

    def test_each_is_wrong_for_the_next_exercise(self):
        for number, path in enumerate(SOLUTIONS[:-1], 2):
            with self.subTest(number=number):
                output, lines, status = check(number, path)
                self.assertEqual((lines, status), ('', 1))
                self.assertIn('\nfirst difference: line ', output)

    def test_what_is_said_of_a_wrong_one(self):
        for number, script, wanted in WRONG:
            with self.subTest(number=number):
                self.assertEqual(check(number, self.write(script)), (wanted, '', 1))

    def test_what_prints_the_same_in_another_way_is_wrong(self):
        for number, script, wanted in CONSTANTS:
            with self.subTest(number=number):
                self.assertEqual(check(number, self.write(script)), (wanted, '', 1))

    def test_other_scripts_that_are_right(self):
        for number, script in RIGHT:
            with self.subTest(number=number):
                self.assertEqual(check(number, self.write(script)), ('right\n', '', 0))

    def test_few_lines_and_characters_are_shown(self):
        long = "#(ds,T,(" + 'xyz ' * 2500 + "))"
        for script, bytes_shown in ((long + "#(ps,##(cl,T))'", 4000),
                                    ('#(ps,(' + ('x' * 99 + '\n') * 60 + "))'", 4000),
                                    ("#(ps,(" + 'x\n' * 60 + "))'", 80)):
            output, lines, status = check(1, self.write(script))
            shown, end = output.split('got:\n')[1].split(' ..\n')
            self.assertEqual((len(shown), end, lines, status), (bytes_shown, 'first difference: line 1\n', '', 1))
        endless = long + "#(ds,L,(#(ps,##(cl,T))#(cl,L)))#(cl,L)'"
        for shell in ('dash', 'bash'):
            output, lines, status = check(1, self.write(endless), shell=[shell], env={'TMPDIR': self.room})
            self.assertEqual((lines, status), ('', 1))
            self.assertIn(' ..\nit was stopped, since it printed 1000000 bytes\nit ended with status ', output)
            self.assertLess(len(output), 4300)

    def test_a_script_that_prints_without_end_is_cut(self):
        output, _, status = check(1, self.write("#(ds,L,(#(ps,x)#(ps,(\n))#(cl,L)))#(cl,L)'"))
        self.assertEqual((status, output.count('x\n')), (1, 40))

    def test_words_that_cannot_be_used(self):
        mine = self.write("'")
        for words, line in (((), 'give the number of an exercise and a file, as in: check 5 toast.trac'),
                            ((5,), 'give the number of an exercise and a file, as in: check 5 toast.trac'),
                            ((0, mine), 'there is no exercise 0'), ((21, mine), 'there is no exercise 21'),
                            (('', mine), ' is no number of an exercise'),
                            (('-1', mine), '-1 is no number of an exercise'),
                            (('.*', mine), '.* is no number of an exercise'),
                            ((5, self.room), f'{self.room} is no file that can be read'),
                            ((5, mine + 'x'), f'{mine}x is no file that can be read')):
            with self.subTest(words=words):
                self.assertEqual(check(*words), ('', f'check: {line}\n', 2))
        self.assertEqual(check(5, mine, env={'TRAC': '/nowhere/trac'}),
                         ('', "check: /nowhere/trac isn't there: TRAC=.. names the program trac\n", 2))

    def test_it_works_from_anywhere_and_leaves_nothing_behind(self):
        shutil.copy(SOLUTIONS[4], os.path.join(self.room, '-mine'))
        self.assertEqual(check(5, '-mine', cwd=self.room, env={'TMPDIR': self.room}), ('right\n', '', 0))
        self.assertEqual(os.listdir(self.room), ['-mine'])


if __name__ == '__main__':
    unittest.main()
