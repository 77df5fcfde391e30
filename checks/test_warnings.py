"""Warnings: for each script of examples/ they are the lines of the file beside it, and there are none if there is no
such file; and a small script for each kind."""
import glob
import os
import resource
import subprocess
import tempfile
import unittest

from trac import TOP, TRACER, instructions, run, trace

FOLDER = os.path.join(TOP, 'examples')
WORDS = ['--warn', '--cells', '1000000', '--steps', '100000000']

# A script, and its warnings.
KINDS = [
    (b"#(ps,hello)'\n", []),
    (b"#(,(a remark))#()'\n\n", []),
    (b"#(zz,x)'", ['line 1, column 1: no function has the name zz']),
    (b"a#(ds,X,(#(\xc3\xa4\x01)))'\n\xc3\xa4 #(cl,X)'",
     ['line 1, column 10: in the value of X, column 1: no function has the name \u00e4\\x01']),
    (b"##(SB,x)#(mo)'", ['line 1, column 1: this processor leaves out the function SB',
                         'line 1, column 9: this processor leaves out the function mo']),
    (b"#(ps,#(cl,none))'", ['line 1, column 6: no form has the name none']),
    (b"#(dd,none)'", []),
    (b"a)b'", ['line 1, column 2: a right parenthesis ends no call of its string']),
    (b"#(ps,a))#(ps,b)'",
     ['line 1, column 8: a right parenthesis ends no call of its string']),
    (b"\n #(ps,#(ad,1,2)'",
     ['line 2, column 2: a call is still open where its string ends']),
    (b"#(ds,A,#(rs))'#(ps,b'",
     ['line 1, column 1: a call is still open where its string ends',
      'line 1, column 15: a call is still open where its string ends']),
    (b"#(ps,(It's here.))'",
     ['line 1, column 9: the meta character ends the string inside parentheses']),
    (b"#(ps,(see (It)'", ['line 1, column 6: a left parenthesis has no match in its string']),
    (b"#(ds,greet,(#(ps,(It's WHO))))\n#(ss,greet,WHO)#(ps,a,b)#(cl,greet,Ada)'",
     ['line 1, column 21: the meta character ends the string inside parentheses']),
    # a meta character between letters, where all calls have ended
    (b"#(rs)'a'b'", []),
    (b"#(ds,F,(#(ps,s)))#(ss,F,s)'",
     ['line 1, column 18: a text of ss also stands in the name of a call: s']),
    (b"#(ds,F,(#(ps,s)))#(ss,F,s)#(cl,F,x)#(px)'",
     ['line 1, column 18: a text of ss also stands in the name of a call: s',
      'line 1, column 36: no function has the name px']),
    (b"#(ds,F,(#(ps,N)))#(ss,F,N)'", []),
    (b"#(ps,a)'\n#(ps,b)\n", ['line 2, column 1: no meta character ends the string']),
    (b"\xef\xbb\xbf#(ps,a)'", ['line 1, column 1: a byte order mark stands before the script']),
    (b"#(ds,L,(#(zz)#(ds,N,#(su,#(cl,N),1))#(gr,#(cl,N),0,(#(cl,L)))))#(ds,N,9)#(cl,L)'",
     ['line 1, column 9: in the value of L, column 1: no function has the name zz (9 times)']),
    # an ignored argument: only one that is written, and none that comes from a value
    (b"#(ps,Hello, world)'",
     ['line 1, column 12: the function takes no notice of the argument  world']),
    (b"#(ds,A,(x,y))#(ps,#(cl,A))'", []),
    (b"#(ps,(x,y),)'", []),
    # the third and fourth arguments of eq are scanned where they were written
    (b"#(eq,a,a,(#(zz)),)'", ['line 1, column 11: no function has the name zz']),
    (b"#(eq,a,b,(no),(#(zz)))'", ['line 1, column 16: no function has the name zz']),
    # a form that isn't there is the usual test of one in eq, with a default value, and by a name that
    # is made as the script runs
    (b"#(ps,#(eq,#(cl,A),,none,some))'", []),
    (b"#(ps,#(cs,A,none))'", []),
    (b"#(ds,N,A)#(ps,#(cl,#(cl,N) 1))'", []),
    (b"#(ps,#(cl,A)#(cl,A))'", ['line 1, column 6: no form has the name A']),
    (b"#(ds,A,x)#(A,1)'",
     ['line 1, column 10: no function has this name, but a form has; write #(cl,A']),
    # no result, and no default value
    (b"#(ps,#(dv,1,0))'", ['line 1, column 6: there is no result, and no default value is given: dv']),
    (b"#(ps,#(dv,1,0,x)##(ml,2,3))'", []),
    (b"#(ds,A,x)#(cc,A)#(cc,A)'",
     ['line 1, column 17: nothing is left, and no default value is given, of the form A']),
    (b"#(ds,A,x)#(cc,A)#(cc,A,z)'", []),
    # in that finds nothing, although something of the form is left
    (b"#(ds,A,(x;y))#(ps,#(in,A,;)#(in,A,;))'",
     ['line 1, column 28: nothing is found, and no default value is given, in the form A']),
    (b"#(ds,A,x-y)#(ss,A,-)##(in,A,xy)'",
     ['line 1, column 21: nothing is found, and no default value is given, in the form A']),
    (b"#(ds,A,xy)#(in,A,z,none)#(in,A)#(in,A,y)#(in,A,x)#(in,A,x)'", []),
    (b"#(ds,A,xy)#(ds,B,b)#(eq,#(in,A,z),,no,yes)#(cl,B,##(in,A,z))'", []),
    # what arithmetic and gr read as a number: digits, and the text before them; one line for each call
    (b"#(ds,N,5)#(ps,#(ad,N,1))'",
     ['line 1, column 15: this text is no number, but a form has the name; write #(cl,N']),
    (b"#(ps,#(ad,two,three))'", ['line 1, column 6: a text without digits stands for the number 0: two']),
    (b"#(ps,#(ad,1,1.5))'", ['line 1, column 6: only the digits at the end of a text are its number: 1.5']),
    (b"#(ps,#(gr,3 ,2,yes,no))'",
     ['line 1, column 6: only the digits at the end of a text are its number: 3 ']),
    (b"#(ps,#(dv,1,x))'", ['line 1, column 6: a text without digits stands for the number 0: x']),
    (b"#(ps,#(ad,,1)#(ad,a1,-2)#(dv,0,7)#(gr,-1,+2,a,b)#(eq,a,b,c,d))'", []),
    # the texts of ss: it is enough if one is found; none need be found if none has a letter, or in the value of a form
    (b"#(ds,G,(Hello Name))#(ss,G,NAMES)#(ps,#(cl,G,Ann))'",
     ['line 1, column 28: this text stands nowhere in the form G']),
    (b"#(ds,G,(Hello Name))#(ss,G,NAME)#(ps,#(cl,G,Ann))'",
     ['line 1, column 28: this text stands only in other letters (capitals or small) in the form G']),
    (b"#(ds,G,(Hi ADA))#(ss,G,Ada,X)'",
     ['line 1, column 24: this text stands only in other letters (capitals or small) in the form G']),
    (b"#(ds,G,(A a))#(ss,G,A)#(ss,G,a,B)#(cl,G)'", []),
    (b"#(ds,G,(a X))#(ss,G,UNUSED,X)#(ps,#(cl,G,a,b))'", []),
    (b"#(ds,G,abc)#(ss,G,-)'", []),
    (b"#(ds,G,abc)#(ds,S,(#(ss,G,X)))#(cl,S)'", []),
    # fewer arguments than gaps, once for each form; not without any argument, nor in a script that also calls the form
    # without any, nor if the pointer was moved
    (b"#(ds,G,(A and B, C))#(ss,G,A,B,C)#(ps,##(cl,G,x,y)##(cl,G,x,y)##(cl,G,x,y,))'",
     ['line 1, column 39: fewer arguments than gaps: G has 3 gaps and got 2 arguments']),
    (b"#(ds,G,(A and B))#(ss,G,A,B)#(ps,##(cl,G,x)#(CL,G))'", []),
    (b"#(ds,G,(A and B))#(ss,G,A,B)#(ps,##(cl,G))'", []),
    (b"#(ds,G,(A and B))#(ss,G,A,B)#(ps,##(cs,G,x)##(cl,G,x))'", []),
    # a call that ends what is printed, if it is the first; what is printed is the argument of ps, or all that a string
    # leaves
    (b"#(ps,(2 and 3 are #(ad,2,3)))'", ['line 1, column 1: a call is printed here and not performed, of ad']),
    (b"#(ps,(#(ps,x)))'", ['line 1, column 1: a call is printed here and not performed, of ps']),
    (b"#(ps,a)' (##(AD,1,(2)) )'", ['line 1, column 9: a call is printed here and not performed, of AD']),
    (b"#(ps,(#(ps,x) prints x))#(ps,(#(zz,x)))#(ps,(#(ps,x)#(ps,y)))#(ps,(# (ps,x)))'", [
        'line 1, column 68: a blank behind a number sign: no call begins here']),
    # CR or LF as the meta character, where lines end with both
    (b"#(cm,(\r\n))'\r\n#(ps,a)\r\n",
     ['line 1, column 1: lines end with CR and LF, of which one becomes the meta character: \\r\\n']),
    (b"#(cm,(\n))'\n#(ps,a)\n", []),
    (b"#(cm,;)'\r\n#(ps,a);\r\n", []),
    # a text of ss inside longer words, if it also stands by itself, in small letters
    (b"#(ds,F,(a cat sat at a mat))#(ss,F,a)#(ps,##(cl,F,the))'",
     ['line 1, column 29: a text of ss also stands inside longer words: a']),
    (b"#(ds,F,(a cat sat at a mat))#(ss,F,at)#(ds,G,(N and NEW))#(ss,G,N)#(ds,H,(i/o))#(ss,H,o)'", [
        'line 1, column 29: a text of ss also stands inside longer words: at']),
    # misspelled names in calls that are never performed: once for each name; capitals and two letters may be gaps
    (b"#(eq,a,a,(#(ps,x)),(#(pss,y)#(pss,z)))'", ['line 1, column 21: no function has the name pss']),
    (b"#(ds,F,(#(sp,x)#(add,1,2)#(zzz)#(plus,1)#(a,1)#(p,s,x)#(sb,x)))'",
     ['line 1, column 9: no function has the name sp', 'line 1, column 16: no function has the name add',
      'line 1, column 26: no function has the name zzz', 'line 1, column 32: no function has the name plus']),
    (b"#(ds,F,(#(FUNC,x)#(PSS,y)#(OP,z)#(zz,1)#(Print,x)#(a-b-c,1)#(say;x)#(say#(ps,x))))'",
     ['line 1, column 18: no function has the name PSS', 'line 1, column 40: no function has the name Print']),
    (b"#(pss,x)#(ds,F,(#(pss,y)))'", ['line 1, column 1: no function has the name pss']),
    # the arguments of cl: the first without a gap, once for each form; not if the pointer was moved, the body is null,
    # or the argument comes from a value
    (b"#(ds,G,(X and Y))#(ss,G,X,Y)#(ps,#(cl,G,a,b,c)#(cl,G,a,b,c))'",
     ['line 1, column 45: no gap is there for this argument in the form G']),
    (b"#(ds,G,(Y X))#(ss,G,X,Y)#(ps,#(cl,G,a,b,)#(cl,G))'", []),
    (b"#(ds,G,)#(ps,#(cl,G,a))'", []),
    (b"#(ds,G,ab)#(ps,#(cc,G)#(cl,G,x))'", []),
    (b"#(ds,G,(XY))#(ss,G,X)#(ds,A,(1,2))#(ps,#(cl,G,#(cl,A)))'", []),
    (b"#(ss,G,X)#(ds,G,(Hi X))#(ps,#(cl,G,Ann))'", ['line 1, column 1: no form has the name G']),
    # cl of a form whose pointer is at its end
    (b"#(ds,L,ab)#(cs,L)#(ps,#(cl,L))'",
     ['line 1, column 23: nothing is left of the form; to begin it again, write #(cr,L']),
    (b"#(ds,L,ab)#(cs,L)#(eq,#(cl,L),,(#(ps,end)),(#(ps,more)))'", []),
    # blanks and line ends around a name and around the texts that eq compares
    (b"#(ds,tea,5)#(ps,#(cl, tea ))'", ['line 1, column 17: no form has this name, but one has it without the '
                                        'blanks or line ends around it:  tea ']),
    (b"#(ds,tea,5)#(ps,#(cl,##(rs)))'tea\n'", ['line 1, column 17: no form has this name, but one has it without '
                                                'the blanks or line ends around it: tea\\n']),
    (b"#(ds,tea,(a X))#(ss, tea,X)#(ps,#(cl,tea,b))'", ['line 1, column 16: no form has this name, but one has it '
                                                        'without the blanks or line ends around it:  tea']),
    (b"#(ds,tea,5)#(ps,#(eq,#(cl,tea ),,a,b))'", []),
    (b"#(ps,#(eq,yes ,yes,a,b))'",
     ['line 1, column 6: the sides of eq differ only by blanks or line ends around them: yes ']),
    (b"#(ps,#(eq, ,,a,b)#(eq,yes,no,a,b)#(eq,a b,ab,a,b))'", []),
    # capitals and small letters of the texts that eq compares
    (b"#(ps,#(eq,Yes,yes,a,b))'",
     ['line 1, column 6: the sides of eq differ only in capitals and small letters: Yes']),
    (b"#(ps,#(eq,Yes ,yes,a,b)#(eq,a1,A2,a,b)#(eq,@,`,a,b)#(eq,[,{,a,b)#(eq,Yes,Yes,a,b))'", []),
    # unprotected calls
    (b"#(ds,A,#(hl))'",
     ['line 1, column 8: hl ends the run before the call around it is performed, which is of ds']),
    (b"#(eq,a,a,(#(hl)))'", []),
    (b"#(ds,A,x)#(ps,#(cc,A,#(rs)))'y'",
     ["line 1, column 22: what isn't protected always reads, here in a default value of cc"]),
    (b"#(ds,A,x)#(ps,#(cc,A,(#(rs))))'", []),
    # branches and default values that print or change forms, and aren't protected; a prompt before an answer is none
    (b"#(eq,a,b,#(ps,x),#(ps,y))'",
     ["line 1, column 10: what isn't protected is always performed, here in an argument of eq",
      "line 1, column 18: what isn't protected is always performed, here in an argument of eq"]),
    (b"#(gr,2,1,(#(ps,x)),(#(ps,y)))#(ds,A,#(ps,Name?)#(rs))'Ann'", []),
    (b"#(ds,L,x)#(ps,#(cc,L,#(ds,L,y))#(cc,L,#(cr,L)))'",
     ["line 1, column 22: what isn't protected is always performed, here in an argument of cc",
      "line 1, column 39: what isn't protected is always performed, here in an argument of cc"]),
    (b"#(eq,#(ds,A,x),,(#(ps,a)),)#(eq,a,a,#(cl,A),)#(eq,a,a,#(cs,A),)'", []),
    # the body of a form, if it is one call that prints or changes forms, and isn't protected
    (b"#(ds,A,#(ps,x))#(ds,B,##(ds,C,y))'",
     ["line 1, column 8: what isn't protected is always performed, here in an argument of ds",
      "line 1, column 23: what isn't protected is always performed, here in an argument of ds"]),
    (b"#(ds,A,#(ps,x)#(ps,y))'",
     ["line 1, column 15: what isn't protected is always performed, here in an argument of ds"]),
    (b"#(ds,A,(#(ps,x)))#(ds,B,a#(ps,x))#(ds,#(ps,x),b)#(ds,C,#(ps,x) )#(ds,D,#(cl,A))#(ds,E,b,#(ps,x))'", []),
    # commas in numbers
    (b"#(ps,#(ad,1,000,5))'", ['line 1, column 6: digits behind a comma are another argument, here of ad']),
    (b"#(ps,#(SU,5,12,500))'", ['line 1, column 6: digits behind a comma are another argument, here of SU']),
    (b"#(ps,#(dv,1,250,500)#(ml,1000,250,5)#(ad,12,34,56)#(ad,1,250)#(ad,1,250,none))'", []),
    # a parenthesis in a value
    (b"#(ds,A,(#(ps,x)))#(ds,B,((y))##(cl,A))'", []),
    (b"#(ds,B,#(ps,(((x)))'",
     ['line 1, column 1: a call is still open where its string ends',
      'line 1, column 8: a call is still open where its string ends']),
    (b"#(ds,B,#(ps,((((x))'",
     ['line 1, column 13: a left parenthesis has no match; characters dropped: 7']),
    # how it is written
    (b":(ps,x)'", ['line 1, column 1: :( begins no call; write #( or ##(']),
    (b"# (cl,x)##\n (rs)'", ['line 1, column 1: a blank behind a number sign: no call begins here',
                            'line 1, column 10: a blank behind a number sign: no call begins here']),
    (b"#[ps,x]'", ['line 1, column 1: #[ begins no call; write #(']),
    (b"#[ds,n,6]#(ps,#(cl,n))'", ['line 1, column 1: #[ begins no call; write #(']),
    (b":(ds,n,6)#(ps,#(cl,n),x)'", ['line 1, column 1: :( begins no call; write #( or ##(',
                                    'line 1, column 23: the function takes no notice of the argument x']),
    (b"(ds,n,6)#(ps,#(cl,n))'",
     ['line 1, column 1: no number sign stands before the parenthesis, so this is no call of ds']),
    (b"#[ps,(a,b)]'(ps,x)", [
        'line 1, column 1: #[ begins no call; write #(',
        'line 1, column 13: no number sign stands before the parenthesis, so this is no call of ps',
        'line 1, column 13: no meta character ends the string']),
    # texts: no function is named
    (b"#(ps,(item # (1), # (see, below), a#[1], #[] and :(a,b)))'", []),
    (b"10 #(ps,a)\n20 #(ps,b)\n30 #(ps,c)'",
     ['line 1, column 1: numbers stand at the heads of lines, and are text here']),
    (b"10 #(ps,a)\n20 #(ps,b)'", []),
    (b"#(ps,a);\n",
     ["line 1, column 8: no apostrophe ends a string; where this byte is to end it, write #(cm,X)' first: ;"]),
    # a typographic apostrophe at the end, unless another byte was made the meta character
    (b"#(ps,a)\xe2\x80\x99\n", ["line 1, column 8: a typographic apostrophe ends no string; write ' for it"]),
    (b"#(ps,a)'#(ps,b)\xe2\x80\x99 \r\n",
     ["line 1, column 16: a typographic apostrophe ends no string; write ' for it"]),
    (b"#(cm,;)'#(ps,b)\xe2\x80\x99\n", ['line 1, column 9: no meta character ends the string']),
    (b"#(ps,a)\xe2\x80\x99\n#(ps,b)'", []),
    (b"", []),
]

# A script that a fault ends, the limits of its run, its lines and its status.
FAULTS = [
    # one form was called 100 times, or 99 times
    (b"#(ds,A,(#(cl,A)))#(cl,A)'", ['--steps', '617'],
     ['line 1, column 9: in the value of A, column 1: the run ended here; the form A was called 100 times',
      'allowance used up: 617 steps, peak 36 cells'], 3),
    (b"#(ds,A,(#(cl,A)))#(cl,A)'", ['--steps', '616'],
     ['line 1, column 9: in the value of A, column 1: this call was open when the run ended',
      'line 1, column 9: in the value of A, column 7: the run ended here',
      'allowance used up: 616 steps, peak 36 cells'], 3),
    # the innermost three of four calls that are open
    (b"#(ps,#(ps,#(ps,#(ps,hello))))'", ['--steps', '30'],
     ['line 1, column 6: this call was open when the run ended',
      'line 1, column 11: this call was open when the run ended',
      'line 1, column 16: this call was open when the run ended',
      'line 1, column 26: the run ended here',
      'allowance used up: 30 steps, peak 37 cells'], 3),
    # a string that finds no room, behind the layout before it
    (b"#(ps,a)'\r\n\n#(ps,long text)'", ['--cells', '20'],
     ['line 3, column 1: the run ended here', 'workspace full: 24 steps, peak 15 cells'], 1),
    (b"#(ps,a)'", ['--cells', '5'], ['line 1, column 1: the run ended here',
                                     'workspace full: 0 steps, peak 0 cells'], 1),
]


def wanted(path):
    """The lines that are kept beside a script."""
    beside = path[:-5] + '.warnings'
    if not os.path.exists(beside):
        return []
    with open(beside, encoding='utf-8') as lines:
        return lines.read().splitlines()


def check(*names):
    """The output of `--check`, what it prints on standard error, and the status."""
    done = subprocess.run([TRACER, '--check', *names], capture_output=True, text=True, timeout=60)
    return done.stdout.splitlines(), done.stderr, done.returncode


class Warnings(unittest.TestCase):
    def test_kinds(self):
        for script, lines in KINDS:
            with self.subTest(script=script):
                self.assertEqual(trace(script, *WORDS), (lines, 7 if lines else 0))

    def test_a_fault_is_told(self):
        lines, status = trace(b"#(zz)'", '--warn', '--steps', '20')
        self.assertEqual((lines, status), (['line 1, column 1: no function has the name zz',
                                            'line 1, column 7: the run ended here',
                                            'allowance used up: 20 steps, peak 13 cells'], 3))

    def test_a_fault_is_told_with_its_place_and_the_open_calls(self):
        for script, words, lines, status in FAULTS:
            with self.subTest(script=script):
                self.assertEqual(trace(script, '--warn', *words), (lines, status))

    def test_examples(self):
        scripts = sorted(glob.glob('**/*.trac', root_dir=FOLDER, recursive=True))
        self.assertGreater(len(scripts), 64)
        kept = 0
        for script in scripts:
            with self.subTest(script=script):
                path = os.path.join(FOLDER, script)
                with open(path, 'rb') as file:
                    text = file.read()
                lines = wanted(path)
                # a fault is told as it comes in a workspace of the usual size
                is_fault = bool(lines) and not lines[-1].startswith('line ')
                self.assertEqual(trace(text, *(WORDS[:1] if is_fault else WORDS)),
                                 (lines, 7 if lines and not is_fault else run(text)[2]))
                kept += os.path.exists(path[:-5] + '.warnings')
        self.assertEqual(kept, len(glob.glob('**/*.warnings', root_dir=FOLDER, recursive=True)))

    def test_little_is_said_of_scripts_that_are_right(self):
        said = [line for path in glob.glob(os.path.join(FOLDER, '**', '*.trac'), recursive=True)
                if os.path.basename(os.path.dirname(path)) != 'broken' for line in wanted(path)]
        self.assertLessEqual(len(said), 5)

    def test_each_broken_script_is_told(self):
        broken = sorted(glob.glob(os.path.join(FOLDER, 'broken', '*.trac')))
        self.assertEqual(len(broken), 46)
        for path in broken:
            with self.subTest(script=path):
                self.assertGreater(len(wanted(path)), 0)

    def test_as_many_warnings_as_time(self):
        costs = []
        for count in (1000, 2000):
            script = b''.join(b'#(z%d)' % n for n in range(count)) + b"'"
            costs.append(instructions([TRACER, *WORDS], script))
        self.assertLess(costs[1], 2.6 * costs[0])

    def test_a_long_base_text_costs_no_time_at_each_call(self):
        for view in ('--warn', '--calls'):
            with self.subTest(view=view):
                costs = [instructions([TRACER, view, *WORDS[1:]], b'#(ds,A,b)' + b'##(cl,A)x' * count + b"'")
                         for count in (2000, 4000)]
                self.assertLess(costs[1], 2.6 * costs[0])

    def test_want_of_memory(self):
        script = b'a' * 40_000_000
        done = subprocess.run(
            [TRACER, '--warn', '--cells', '100'], input=script, capture_output=True, text=False,
            preexec_fn=lambda: resource.setrlimit(resource.RLIMIT_AS, (30_000_000, 30_000_000)))
        self.assertEqual((done.stdout, done.stderr, done.returncode), (b'', b'trac_trace: no memory\n', 6))

    def test_files(self):
        with tempfile.TemporaryDirectory() as folder:
            names = [os.path.join(folder, name) for name in ('well', 'ill', 'loops')]
            for name, text in zip(names, (b"#(ps,a)'", b"#(zz)'\n#(yy)'", b"#(ds,A,(#(cl,A)))#(cl,A)'")):
                with open(name, 'wb') as file:
                    file.write(text)
            well, ill, loops = names
            self.assertEqual(check(well), ([f'{well}: warnings 0; input ended: 25 steps, peak 15 cells'], '', 0))
            lines, said, status = check(well, ill)
            self.assertEqual(lines[1:3], [f'{ill}: line 1, column 1: no function has the name zz',
                                          f'{ill}: line 2, column 1: no function has the name yy'])
            self.assertTrue(lines[3].startswith(f'{ill}: warnings 2; input ended: '))
            self.assertEqual((said, status), ('', 7))
            lines, said, status = check(loops, ill, well)
            self.assertEqual(lines[:2], [
                f'{loops}: line 1, column 9: in the value of A, column 1: this call was open when the run ended',
                f'{loops}: line 1, column 9: in the value of A, column 7: the run ended here; '
                'the form A was called 166663 times'])
            self.assertTrue(lines[2].startswith(f'{loops}: warnings 2; allowance used up: 1000000 steps'))
            self.assertEqual((said, status), ('', 3))
            lines, said, status = check(os.path.join(folder, 'none'), folder, ill)
            self.assertEqual(said.splitlines(), [
                f"trac_trace: can't read {folder}/none: there is no such file",
                f"trac_trace: can't read {folder}: it is a folder"])
            self.assertEqual((len(lines), status), (3, 4))
        self.assertEqual(check(), ([], 'trac_trace: --check needs the name of a file\n', 2))
