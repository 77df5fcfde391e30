"""Scripts for covering.c that make the lists and the trees of the engine long, which hold names, warnings and rows:
many forms and many wrong calls, in several orders, and long names that begin alike. And scripts with what others rarely
have: calls of each function with few arguments and with null ones, and texts that end calls of the text before them."""
from itertools import product
from random import Random

from scripts import FUNCTIONS

# The beginning of names of which more than 64 characters are the same.
ALIKE = b'a name that is long, and of which the first characters are those of others '.replace(b',', b' ')
MANY = 900
# Arguments, which a call has some of.
ARGUMENTS = b'', b'a', b'12', b'ab', b'-3'
# Forms that calls may name: one has the null name.
FORMS = b"#(ds,,ab12ba)#(ds,a,12-3ab)#(ds,12,a(b)c)#(ds,ab,Ab,c)#(ss,a,b)#(ss,,b)"
# Meta characters and characters of names that are shown in their own way.
SHOWN = b'\t', b'\n', b'\r', b'\\', b'\0', b'\x7f', b'\x80', b'\xff', b' '


def orders(count):
    """The numbers below `count`: up, down, from both ends, and in an order that looks random."""
    up = list(range(count))
    ends = [number for pair in zip(up, reversed(up)) for number in pair][:count]
    return up, up[::-1], ends, Random(1).sample(up, count)


def many(text):
    """A text with each of many numbers, in four orders."""
    return [b''.join(text % number for number in order) for order in orders(MANY)]


def long_names():
    """Forms and calls whose names begin alike, of which some are the beginning of others."""
    names = [ALIKE[:length] + end for length in (7, 8, 9, 15, 63, 64, 65, 72) for end in (b'', b'a', b'b', b'ab')]
    calls = [b'#(ds,%b,x)', b'#(cl,%b)', b'#(%b)', b'#(dd,%b)#(ds,%b,y)']
    return [b"'".join(call.replace(b'%b', name) for name in order) + b"'#(cl,%b)'#(da)'" % names[-1]
            for call in calls for order in (names, names[::-1], Random(1).sample(names, len(names)))]


def texts_alike():
    """Calls that stand at one place of a form and whose names differ behind the first characters."""
    call = b"#(ds,f,(%b))#(ds,n,%b)#(cl,f)#(cl,f)#(cl,f)#(cl,f)#(cl,f)#(cl,f)'"
    parts = b'#(cc,n)', b'#(cn,n,2)', b'#(cs,n)', b'##(cc,n)##(cc,n)'
    return [call % (b'#(%b%b%b)' % (function, ALIKE[:length], part), text)
            for function in (b'cl,', b'', b'ps,#(cl,', b'ad,1,') for length in (1, 7, 8, 64, 70) for part in parts
            for text in (b'abcdefgh', b'aabbccdd'[:5])]


def few_arguments():
    """Calls of each function with some arguments, alone and in a call around it."""
    found = []
    for function in FUNCTIONS:
        calls = [b','.join((function.encode(), *some))
                 for count in range(4) for some in product(ARGUMENTS, repeat=count)]
        text = b"".join(b"#(%b)'#(ps,(#(%b)))'" % (call, call) for call in calls[:40])
        found += [FORMS + b"'" + text, FORMS + b''.join(b"##(%b)'" % call for call in calls[40:])]
    return found


def ended_by_others():
    """Strings whose calls are ended by the strings that they read."""
    loop = b"#(ds,A,(#(cl,A)x))#(cl,A)'"
    return [begin + b"#(rs)'" + end + rest for begin in (b'#(ps,', b'#(ps,#(eq,', b'#(cl,#(ps,#(ad,', b'##(')
            for end in (b')', b'a))', b'))))', b',') for rest in (b"'", loop, b'#(rs)' + loop, b"#(hl)'", b"b#(zz)'c'")]


def shown():
    """Meta characters and names that are shown in their own way, where a run ends by a fault."""
    return [b"#(ds,x%b%by,%b%b)#(cm,%b)'%b#(ds,%b,z)%b#(cl,x)#(ds,B,(#(cl,B)%b))#(cl,B)%b" % ((one,) * 10)
            for one in SHOWN]


def null_names():
    """Calls of a form that has the null name and gaps, with fewer arguments than gaps."""
    form = b"#(ds,,a1b2c3)#(ss,,1,2,3)%b#(cl,,x)#(cl,,x,y)'%b"
    calls = b'', b'#(cl,)', b'#(CL,)', b'(cl,', b'#(cl,x)', b'#(ps,(cl,)', b'#(cl', b'#(dx,)'
    return [form % (one, other) for one in calls for other in calls]


def deleted():
    """Calls of `dd` with more than two names: forms of each length stay between those that it deletes."""
    call = b"#(ds,a,x)#(ds,b,x)#(ds,c,%b)#(ds,d,%b)#(ds,e,x)#(ds,f,y)#(dd,a,b,c,e)#(pf,d)#(da)'"
    return [b''.join(call % (b'z' * head, ALIKE[:length]) for length in range(32)) for head in (0, 4, 9, 20)]


def deleted_alike():
    """Calls of `dd` with more than two names that begin alike, of few forms and of many."""
    names = [ALIKE[:length] + end for length in (1, 2, 8, 15, 16, 17, 32, 64) for end in (b'', b'a', b'b', b'ab')]
    call = b"#(dd,q,r,%b,%bz,z%b)#(ds,%b,w)'"
    return [b''.join(b'#(ds,%b,x)' % name for name in names[:count]) + b"'"
            + b''.join(call % (name, name, name[1:], name) for name in names) for count in (7, len(names))]


def written():
    """Texts with many warnings of how they are written, and no call that is performed."""
    texts = b'#(ps ,x\n', b"#( ps,(x)'", b'# (ps,x)) ', b'#[ps,x]\t', b'#(PS,x\xe2\x80\x99', b'##ps,x)\r\n'
    return [text * 60 for text in texts]


def odd_places():
    """A gap at the end of three characters and in the name of a call, a name up to the end of a form, texts of ss that
    a value gave, an argument without a gap that a blank in a name explains, a call in one without a name, numbers of
    characters that one place drops, two forms of one place, many open calls at a fault, and commas at the ends of
    strings: behind which nothing stands, or a left parenthesis, of the script and of a value."""
    return [b"#(ds,f,abc)#(ss,f,c)#(cl,f)'", b"#(ds,f,xyz)#(ds,g,(,abc))#(ss,f#(cl,g))'",
            b"#(ds,f,(#(aXb)))#(ss,f,X)#(ss,f,ab)'", b"#(ds,g,(()))#(ds,f,(#)##(cc,g)abc)#(ss,f,zz)'",
            b"#(ds,A,(#(cl,A)x))#(ps,#(ps,#(ps,#(ps,#(cl,A)'", b"#(#(hl))'", b"#[ps]'",
            b"#(ds,g,(()))#(ds,f,##(cc,g)#(cr,g)##(cc,g)x)'#(cl,f)aaa'#(cl,f)bb'#(cl,f)cccc'",
            b"#(ds,m,(#(ds,N,(#(zz)))))#(ss,m,N)#(cl,m,a)#(cl,m,b)#(cl,b)#(cl,a)#(cl,b)'",
            b"#(ds,f,x)#(cs,f)#(eq,a#(cs,f),b,c,d)'",
            b"#(ds,,abc)#(ss,,a,b)#(cs,)#(cr,)#(cl,,x)'", b"#(ds,abc,xyz)#(ss,abc,x,y)#(cl,abc,1)'(cl,abc",
            b"#(ds,f,abc)#(ss, f,b)#(cl,f,x)'", b"#(ds,f,(a,))'#(rs'#(cl,f)'", b"#(ps,#(rs)(x))'a,'",
            b"#(ds,f,(a,))#(ps,#(rs)(x))'#(cl,f)'"]


def few_given():
    """Calls with fewer arguments than gaps, of forms with names of several lengths and of one with the null name."""
    names = [b'abcdefghijklmnopqrstu'[:length] for length in (5, 10, 20, 21)]
    calls = b'#(ds,%b,abc)#(ss,%b,a,b,c)#(cl,%b,x)#(cl,%b,x,y)'
    return [b''.join(calls.replace(b'%b', name) for name in names), b"#(ds,,abc)#(ss,,a,b)#(cl,,x)'"]


def unknown_calls(count):
    """Calls of so many names that no function has, in strings of ten."""
    numbers = range(100, 100 + count)
    return b"'".join(b''.join(b'#(q%d)' % number for number in numbers[at:at + 10]) for at in range(0, count, 10))


def of_choices():
    """Scripts for parts of memories.c that the last two bytes of their choices ask for: with little memory left at the
    first step, in ample room, in none, and in so little that a string finds none; with lines that end at any place of
    their list; and with all rooms and allowances."""
    marked = [b"#(ds)'", b"#(a,#(b,#(c,#(d,#(e,#(f,#(g,#(h))))))))'", b"#(a,#(b,#(c,#('", b"#(a,b,c,d,'",
              b"#(a,#(b,#(c,#(d,it's x'"]
    tight = [b"#(rs)'", b"#(ds,aaaaaaaa,xxxxxxxxxxxxxxx)#(ds,bbbbbbbb,x)'"]
    twice = b"#(ds,f,(%b))'#(cl,f)#(cl,f)'" % unknown_calls(70).replace(b"'", b'')
    ended = unknown_calls(76) + b"'#(ds,A,(#(cl,A)xxxx))#(cl,A)'"
    return ([b'\0\xff' + one for one in marked] + [b'\0\0' + marked[0]] + [b'\0\x0f' + one for one in tight]
            + [b'\1\xff' + twice, b'\1\x58' + ended, b"\2\x0ax))y'", b"\2\x0a#(rs)'))xy'"])


def long_scripts():
    """All of these scripts, but for those that are run with all memories."""
    found = many(b"#(ds,%03d,)'") + many(b"#(cl,%03d)'") + many(b"#(q%03d)'")
    found += long_names() + texts_alike() + few_arguments() + ended_by_others() + shown() + null_names()
    return found + deleted() + deleted_alike() + odd_places()
