"""function_names.py LIBRARY [--check]: writes the names of the functions, as the engine's table has them, into the
files for editors and into the fuzzers' dictionary. With --check it only says which of these files have other names.
LIBRARY is the shared library that make builds."""
import ctypes
import os
import re
import sys

HERE = os.path.dirname(os.path.abspath(__file__))
WORDS = os.path.join(HERE, 'fuzz', 'words.dict')
FILES = [os.path.join(os.path.dirname(HERE), 'editors', *name) for name in (
    ('gtksourceview', 'trac.lang'), ('nano', 'trac.nanorc'), ('vim', 'syntax', 'trac.vim'))]
ALTERNATIVES = re.compile(r'\b\w\w(?:\|\w\w)+\b')
NAME = 0


def functions(library):
    """The name of each function, and whether a call of it has arguments."""
    engine = ctypes.CDLL(os.path.abspath(library))
    engine.trac_function_count.restype = engine.trac_function_text.restype = ctypes.c_size_t
    engine.trac_function_text.argtypes = [ctypes.c_size_t, ctypes.c_uint32, ctypes.c_char_p, ctypes.c_size_t]
    engine.trac_function.argtypes = [ctypes.c_size_t, ctypes.POINTER(ctypes.c_uint32)]
    for which in range(engine.trac_function_count()):
        name = ctypes.create_string_buffer(64)
        facts = (ctypes.c_uint32 * 11)()
        engine.trac_function_text(which, NAME, name, len(name) - 1)
        engine.trac_function(which, facts)
        yield name.value.decode(), facts[0] != 0


def words_of_fuzzers(text, names):
    """The fuzzers' words, of which those of functions are written anew: with a comma where arguments follow."""
    others = [line for line in text.splitlines() if not re.fullmatch(r'"\w\w,?"', line)]
    return ''.join(f'{line}\n' for line in [f'"{name}{"," * has_arguments}"' for name, has_arguments in names] + others)


def made(path, names):
    """What a file is to hold."""
    with open(path, encoding='utf-8') as file:
        text = file.read()
    if path == WORDS:
        return text, words_of_fuzzers(text, names)
    alternatives = '|'.join(name for name, _ in names)
    return text, ALTERNATIVES.sub(lambda _: alternatives, text, count=1)


def main(library, *words):
    names = list(functions(library))
    status = 0
    for path in [*FILES, WORDS]:
        old, new = made(path, names)
        if old == new:
            continue
        if words == ('--check',):
            print(f'{os.path.relpath(path)}: other names than the table of functions has; run make editors')
            status = 1
            continue
        with open(path + '.new', 'w', encoding='utf-8') as file:
            file.write(new)
        os.replace(path + '.new', path)
    return status


if __name__ == '__main__':
    sys.exit(main(*sys.argv[1:]))
