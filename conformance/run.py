"""Tests a processor with the cases of this folder: python3 run.py [--plain] PROGRAM [WORD ..]"""
import os
import pathlib
import re
import subprocess
import sys
import tty


def cases(path):
    """The cases of a file: for each its keys, with bytes where the value is a text."""
    for block in path.read_text('ascii').strip().split('\n\n'):
        lines = [line.partition(':') for line in block.splitlines() if line[:1] != '#']
        case = {key: value[1:] for key, _, value in lines}
        for key in {'input', 'output'} & set(case):
            case[key] = case[key].encode().decode('unicode_escape').encode('latin-1')
        yield {'cells': '65536', 'allowance': '1000000', 'status': '0', 'line': '', **case}


def answer(words, case):
    """What a program answers; an input that fails is a terminal that hangs up."""
    if 'fails' not in case:
        return subprocess.run(words, input=case['input'], capture_output=True, timeout=60)
    reading, writing = os.openpty()
    tty.setraw(writing)
    os.write(writing, case['input'])
    os.close(writing)
    return subprocess.run(words, stdin=os.fdopen(reading), capture_output=True, timeout=60)


def main(plain, program):
    tried = [case for path in sorted(pathlib.Path(__file__).parent.glob('*.cases'))
             for case in cases(path) if not plain or case['status'] + case['cells'] == '065536']
    missed = set()
    for case in tried:
        options = ['--cells', case['cells'], '--steps', case['allowance'], '--report']
        done = answer(program if plain else program + options, case)
        told = re.match(r'.*: (\d+) steps, peak (\d+) .*\n(?:.*?: (.*)\n)?$', done.stderr.decode())
        got = dict(zip(('steps', 'peak', 'line'), told.groups('') if told else ('', '', '')))
        got.update(output=done.stdout, status=str(done.returncode))
        for key in (key for key in case if got.get(key, case[key]) != case[key]):
            if not plain or key == 'output':
                missed.add(case['name'])
                print(f"{case['name']}: {key} is {got[key]!r} and not {case[key]!r}")
    print(f'{len(tried)} cases, {len(missed)} missed')
    return len(missed) > 0


if __name__ == '__main__':
    sys.exit(main('--plain' in sys.argv, [word for word in sys.argv[1:] if word != '--plain']))
