"""Finds the forms that a script leaves, through the engine as a shared library, and makes scripts with random forms."""
import ctypes
import functools
import os
import random
import subprocess
import tempfile
import zlib
from struct import pack

from trac import TOP

CELLS, STEPS = 65536, 10**9
INPUT_ENDED = 2
FIRST_GAP = 256
WORDS = ctypes.c_uint64 * 14


class Report(ctypes.Structure):
    _fields_ = [('fate', ctypes.c_uint32), ('peak', ctypes.c_uint32), ('steps', ctypes.c_uint64),
                ('written', ctypes.c_size_t), ('consumed', ctypes.c_size_t), ('wanted', ctypes.c_size_t)]


@functools.cache
def library():
    """The engine, as make built it."""
    with tempfile.TemporaryDirectory() as folder:
        path = os.path.join(folder, 'libtrac.so')
        engine = os.path.join(TOP, 'build', 'libtrac.a')
        subprocess.run(['gcc', '-shared', '-o', path, '-Wl,--whole-archive', engine, '-Wl,--no-whole-archive'],
                       check=True)
        found = ctypes.CDLL(path)
    found.trac_turn.restype = Report
    for name in ('name', 'codes', 'pointer'):
        getattr(found, f'trac_form_{name}').restype = ctypes.c_size_t
    return found


def kept_by(found, script, cells=CELLS):
    """The forms that a script leaves, each with its name, the codes of its body and its pointer; and the meta
    character."""
    machine, block, form = WORDS(), (ctypes.c_uint64 * cells)(), WORDS()
    printed = ctypes.create_string_buffer(1)
    if found.trac_open(machine, block, ctypes.c_size_t(cells), ctypes.c_uint64(STEPS)):
        raise AssertionError('no machine')
    report = found.trac_turn(machine, script, ctypes.c_size_t(len(script)), 1, printed, ctypes.c_size_t(0),
                             ctypes.c_uint64(STEPS))
    if report.fate != INPUT_ENDED:
        raise AssertionError((report.fate, report.peak, report.steps, script))
    forms = []
    while found.trac_next_form(machine, form):
        name = ctypes.create_string_buffer(cells)
        codes = (ctypes.c_uint32 * cells)()
        length = found.trac_form_name(form, name, ctypes.c_size_t(cells))
        count = found.trac_form_codes(form, codes, ctypes.c_size_t(cells))
        forms.append((name.raw[:length], tuple(codes[:count]), found.trac_form_pointer(form)))
    return forms, found.trac_meta(machine)


def sum_of(saved):
    """The checksum of a saved session, FNV-1a with 64 bits over all bytes except the digits of the checksum."""
    total = 0xcbf29ce484222325
    for byte in saved[:-20] + saved[-4:]:
        total = (total ^ byte) * 0x100000001b3 % 2**64
    return f'{total:016x}'


def form_image(name, codes, pointer):
    """A form as it stands in an image, with how many characters stand before each gap, behind the gap before it."""
    characters = bytes(code for code in codes if code < FIRST_GAP)
    gaps, since = b'', 0
    for code in codes:
        gaps += pack('<II', since, code - FIRST_GAP + 1) if code >= FIRST_GAP else b''
        since = since + 1 if code < FIRST_GAP else 0
    return pack('<IIII', len(name), len(codes), len(characters), pointer) + name + characters + gaps


def image_of(forms, meta):
    """The image of forms, as kept_by gives them, and a meta character."""
    image = b'TRAC\1' + pack('<BI', meta, len(forms)) + b''.join(form_image(*form) for form in forms)
    return image + pack('<I', zlib.adler32(image))


def typed(text):
    """Calls that read a number of bytes one by one, and the bytes."""
    return '##(rc)' * len(text), text


class Store:
    """A script that makes random forms. It reads each byte of a name, a body and the text of a gap by `rc`, so the byte
    can be any."""

    def __init__(self, seed, alphabet):
        self.random, self.alphabet, self.script, self.meta = random.Random(seed), alphabet, b'', b"'"

    def text(self, most):
        return bytes(self.random.choice(self.alphabet) for _ in range(self.random.randint(0, most)))

    def call(self, pattern, *texts):
        """Adds a string that reads each text."""
        calls, bytes_read = zip(*map(typed, texts))
        self.script += pattern.format(*calls).encode() + self.meta + b''.join(bytes_read)

    def gap(self, body):
        """The text of a gap: a part of the body, or a null text."""
        at = self.random.randint(0, len(body))
        return body[at:at + self.random.choice((0, 1, 1, 1, 2, 3))]

    def form(self):
        name, body = self.text(3), self.text(self.random.choice((0, 3, 10, 40)))
        self.call('#(ds,{},{})', name, body)
        for _ in range(self.random.randint(0, 2)):
            gaps = [self.gap(body) for _ in range(self.random.choice((1, 2, 3, 12)))]
            self.call('#(ss,{}' + ',{}' * len(gaps) + ')', name, *gaps)
        for _ in range(self.random.randint(0, 3)):
            self.call(self.random.choice(('#(,##(cs,{}))', '#(,##(cc,{}))', f'#(,##(cn,{{}},{len(body) // 2}))')), name)

    def make(self, forms):
        for _ in range(forms):
            self.form()
        meta = bytes([self.random.choice(self.alphabet)])
        if self.random.random() < 0.3:
            self.call('#(cm,{})', meta)
        return self.script


# Bytes for forms: mostly those with a meaning in a script; those of words; all bytes.
ALPHABETS = (b"()'#,;~\r\n\t\xffa0", b"()'", b'abc ~1(),', bytes(range(256)), b"()#,';!|`@&$%?:~^_*+=-/<>\"019\x00\xe9")


def script_of(seed):
    maker = Store(seed, ALPHABETS[seed % len(ALPHABETS)])
    return maker.make(maker.random.randint(0, 12))
