"""Jobs that grow, one for each function and for the rules of scanning, with the bounds of
docs/PERFORMANCE.md, in cells."""
WORDS = ['--cells', '400000', '--steps', '100000000']
GROWS = 4


def text(n):
    return 'a' * n


def digits(n):
    return '12' * (n // 2)


def bits(n):
    return '17' * (n // 2)


def form(n):
    return f'#(ds,F,{text(n)})'


def filled(n):
    """A form of n characters and as many gaps."""
    return f"#(ds,F,{'ab' * n})#(ss,F,b)"


def forms(n):
    return ''.join(f'#(ds,k{i},v)' for i in range(n))


def linear(n):
    return n



# What grows, a length, the script of a length and the bound of its cost.
GROWING = [
    ('plain text', 4000, text, linear),
    ('layout', 4000, lambda n: '\n' * n, linear),
    ('protected text', 4000, lambda n: f'({text(n)})', linear),
    ('nested parentheses', 2000, lambda n: '(' * n + ')' * n, linear),
    ('parentheses without a call', 2000, lambda n: ')' * n, linear),
    ('open calls', 1000, lambda n: '#(zz,' * n + ')' * n, linear),
    ('arguments', 2000, lambda n: '#(zz' + ',a' * n + ')', linear),
    ('neutral values within values', 500, lambda n: '##(zz,a' * n + ')' * n, linear),
    ('rs', 4000, lambda n: f"##(rs)'{text(n)}'", linear),
    ('rc', 500, lambda n: "#(rc)'a" * n, linear),
    ('ps', 4000, lambda n: f'#(ps,{text(n)})', linear),
    ('hl', 4000, lambda n: f'#(hl,{text(n)})', linear),
    ('cm', 4000, lambda n: f"#(cm,!{text(n)})", linear),
    ('ds', 4000, form, linear),
    ('ds of an older form', 4000, lambda n: f'#(ds,A,x){form(n)}#(ds,A,y)', linear),
    ('ss of a body', 2000, filled, linear),
    ('ss of a body by three texts', 2000,
     lambda n: f"#(ds,F,{'abc' * n})#(ss,F,a,b,c)", linear),
    ('ss of a text that nearly stands there', 200,
     lambda n: form(2 * n) + f'#(ss,F,{text(n)}b)', linear),
    ('cl', 2000, lambda n: filled(n) + '##(cl,F,x)', linear),
    ('cl with many arguments', 1000,
     lambda n: form(10) + '##(cl,F' + ',x' * n + ')', linear),
    ('cs', 500, lambda n: filled(n) + '#(cs,F)' * n, linear),
    ('cc', 500, lambda n: form(n) + '#(cc,F)' * n, linear),
    ('cn', 4000, lambda n: form(n) + f'##(cn,F,{n})', linear),
    ('cn backward', 4000, lambda n: form(n) + f'#(cn,F,{n})##(cn,F,-{n})', linear),
    ('in', 4000, lambda n: form(n) + '##(in,F,b)', linear),
    ('in of a text that nearly stands there', 2000,
     lambda n: form(2 * n) + f'##(in,F,{text(n)}b)', linear),
    ('cr', 4000, lambda n: form(n) + '#(cr,F)', linear),
    ('dd from the last', 400,
     lambda n: forms(n) + '#(dd,' + ','.join(f'k{i}' for i in reversed(range(n))) + ')', linear),
    ('dd from the first', 400,
     lambda n: forms(n) + '#(dd,' + ','.join(f'k{i}' for i in range(n)) + ')', linear),
    ('da', 400, lambda n: forms(n) + '#(da)', linear),
    ('ln', 400, lambda n: forms(n) + '##(ln,x)', linear),
    ('pf', 2000, lambda n: filled(n) + '#(pf,F)', linear),
    ('many forms', 400,
     lambda n: forms(n) + ''.join(f'#(cl,k{i * 7919 % n})' for i in range(n)), linear),
    ('eq', 4000, lambda n: f'##(eq,{text(n)},{text(n)},x,y)', linear),
    ('gr', 4000, lambda n: f'##(gr,{text(n)}1,{text(n)}2,x,y)', linear),
    ('ad', 4000, lambda n: f'##(ad,{text(n)}1,{text(n)}2)', linear),
    ('su', 4000, lambda n: f'##(su,{text(n)}1,{text(n)}2)', linear),
    ('ml', 4000, lambda n: f'##(ml,{text(n)}1,{text(n)}2)', linear),
    ('dv', 4000, lambda n: f'##(dv,{text(n)}1,{text(n)}2)', linear),
    ('numbers that are too long', 4000, lambda n: f'##(su,{digits(n)},{digits(n)},x)', linear),
    ('bu', 4000, lambda n: f'##(bu,{bits(n)},{bits(n)})', linear),
    ('bi', 4000, lambda n: f'##(bi,{bits(n)},{bits(n)})', linear),
    ('bc', 4000, lambda n: f'##(bc,{bits(n)})', linear),
    ('bs', 4000, lambda n: f'##(bs,{n},{bits(n)})', linear),
    ('br', 4000, lambda n: f'##(br,{n},{bits(n)})', linear),
]
