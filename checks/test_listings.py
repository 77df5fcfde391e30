"""Old listings: a script that was written as on a typewriter, converted by --convert, runs as the original script does,
and everything else in it stays; what --check says about such files; forms that --with defines first."""
import os
import re
import subprocess

import pytest

from trac import TOP

TERMINAL = os.path.join(TOP, 'build', 'trac_terminal')
PROGRAM = os.path.join(TOP, 'build', 'trac')

# Scripts in the style of published ones, and what each prints.
SCRIPTS = {
    'factorial': ("""#(ds,FACT,(#(eq,X,1,1,(#(ml,X,#(cl,FACT,
#(su,X,1)))))))#(ss,FACT,X)'
#(ps,#(cl,FACT,5))'
""", '120'),
    'ackermann': ("""#(ds,ACK,(#(eq,M,0,(#(ad,N,1)),(#(eq,N,0,(#(cl,ACK,#(su,M,1),1)),
(#(cl,ACK,#(su,M,1),#(cl,ACK,M,#(su,N,1)))))))))#(ss,ACK,M,N)'
#(ps,#(cl,ACK,2,2))'
""", '7'),
    'hanoi': ("""#(ds,MOVE,(#(eq,K,0,,(#(cl,MOVE,#(su,K,1),A,C,B)#(ps,A-C;)#(cl,MOVE,#(su,K,1),B,A,C)))))
#(ss,MOVE,K,A,B,C)'
#(cl,MOVE,2,1,2,3)'
""", '1-2;1-3;2-3;'),
    'bottles': ("""#(ds,SING,(#(gr,K,0,(#(ps,(K bottles, ))#(cl,SING,#(su,K,1))))))#(ss,SING,K)'
#(cl,SING,3)'
""", '3 bottles, 2 bottles, 1 bottles, '),
    'greeting': ("""#(ds,GREET,(#(ps,(HELLO, )NAME)))#(ss,GREET,NAME)'
#(cl,GREET,##(rs))'MARY'
""", 'HELLO, MARY'),
}


def in_capitals(script):
    return re.sub(r'#\((\w\w)\b', lambda found: found.group().upper(), script)


def by_bare_names(script):
    return script.replace('#(cl,', '#(')


# How a listing differs, and the message about it.
MANNERS = {
    'carriage returns': (lambda script: script.replace('\n', '\r\n'), 'line end'),
    'rubouts': (lambda script: script.replace('#(ds,', '#(ds,Q\x7f').replace('ss,', 'st\x08s,'), 'rubout'),
    'typographic apostrophes': (lambda script: script.replace("'", '\u2019'), 'apostrophe'),
    'bare names': (by_bare_names, 'bare name'),
    'all of them in capitals': (lambda script: in_capitals(by_bare_names(script)).replace('\n', '\r\n').replace(
        "'", '\u2019').replace('SS,', 'SSX\x7f,'), 'bare name'),
}


def ran(*words, **more):
    return subprocess.run(words, capture_output=True, timeout=60, **more)


@pytest.mark.parametrize('manner', MANNERS)
@pytest.mark.parametrize('name', SCRIPTS)
def test_a_converted_listing_runs_as_the_script_does(tmp_path, name, manner):
    script, output = SCRIPTS[name]
    assert ran(PROGRAM, input=script.encode()).stdout.decode() == output
    change, told = MANNERS[manner]
    listing = tmp_path / 'listing.trac'
    listing.write_bytes(change(script).encode())
    before = listing.read_bytes()
    done = ran(TERMINAL, '--convert', listing)
    assert done.returncode == 0 and listing.read_bytes() == before
    assert f'{listing}: made right: ' in done.stderr.decode() and told in done.stderr.decode()
    assert ran(PROGRAM, input=done.stdout).stdout.decode() == output
    if manner != 'all of them in capitals':
        assert done.stdout.decode() == script
    elif in_capitals(script) != script:
        assert done.stdout.decode() == in_capitals(script).replace('#(CL,', '#(cl,')
    again = tmp_path / 'again.trac'
    again.write_bytes(done.stdout)
    assert ran(TERMINAL, '--convert', again).stdout == done.stdout


def test_what_is_no_listing_stays_and_nothing_is_said(tmp_path):
    for index, script in enumerate([
            b"#(ps,(caf\xc3\xa9 \xe2\x80\x99))'\n", b"#(WORD,X)'", b"#(ds,ps,a)#(ps,ps)'", b'', b'#(', b"#(ds,A",
            b"#(ps,\xff\xfe\x00)'", b"#(ds,(A),x)#((A))'"]):
        path = tmp_path / f'{index}.trac'
        path.write_bytes(script)
        done = ran(TERMINAL, '--convert', path)
        assert (done.stdout, done.returncode) == (script, 0)
        assert b'nothing to make right' in done.stderr
        assert b'looks like' not in ran(TERMINAL, '--check', path).stdout


def test_rubouts_take_whole_characters_and_stop_at_a_line(tmp_path):
    path = tmp_path / 'listing.trac'
    path.write_bytes("a\u00e9\x7fb\n\x7f\x08c\x08".encode())
    assert ran(TERMINAL, '--convert', path).stdout == b'ab\n'
    for listing, script in [(b'ab\xb4\x7f', b'ab'), (b'\xb4\x7fb', b'b'), (b'a\n\xb4\xb4\x7f', b'a\n\xb4'),
                            (b'a\xc3\x7f', b'a'), ('a\u2022\U0001d11e\x7f\x7f'.encode(), b'a')]:
        path.write_bytes(listing)
        assert ran(TERMINAL, '--convert', path).stdout == script


def test_what_is_left_out_is_told_with_its_line(tmp_path):
    path = tmp_path / 'listing.trac'
    path.write_bytes(b"#(ps,a)'\n#(SB,DISK)#(FB,DISK)'\n#(tn)'\n#(fb,DISK)'\n")
    lines = ran(TERMINAL, '--convert', path).stderr.decode().splitlines()
    assert [line.split(f'{path}: ')[1].split(' is left')[0] for line in lines[1:]] == [
        'line 2: sb', 'line 2: fb', 'line 3: tn']
    assert ran(TERMINAL, '--check', path).stdout.decode().splitlines()[0] == f'{path}: it looks like an old listing'
    path.write_bytes(b"#(ds,fb,x)#(fb)'")
    done = ran(TERMINAL, '--convert', path)
    assert done.stdout == b"#(ds,fb,x)#(cl,fb)'" and b'left out' not in done.stderr


def test_check_says_what_a_listing_looks_like(tmp_path):
    path = tmp_path / 'listing.trac'
    path.write_bytes("#(DS,A,(X\x7fY))#(PS,#(A))\u2019\r\n".encode())
    assert ran(TERMINAL, '--check', path).stdout.decode().splitlines()[0] == (
        f'{path}: it looks like an old listing, all in capitals; trac_terminal --convert would make right: '
        '1 line end, 1 rubout, 1 apostrophe, 1 bare name')


def test_forms_stand_in_front(tmp_path):
    front, listing = tmp_path / 'front.trac', tmp_path / 'listing.trac'
    front.write_text("#(ds,LIB,\n(a))'\n#(nope)'\n")
    listing.write_text("\n#(ps,#(cl,LIB)#(cl,LUB))'\n")
    done = ran(TERMINAL, '--check', '--with', front, listing)
    assert done.stdout.decode() == f'{listing}: line 2, column 15: no form has the name LUB\n' and done.returncode == 7
    assert ran(TERMINAL, '--batch', '--quiet', '--with', front, listing).stdout == b'a\n'
    saved = tmp_path / 'saved.trac'
    assert ran(TERMINAL, '--quiet', '--batch', '--save', saved, front).returncode == 0
    assert ran(TERMINAL, '--batch', '--quiet', '--with', saved, listing).stdout == b'a\n'
    clean = tmp_path / 'clean.trac'
    clean.write_text("#(ps,a)'\n")
    done = ran(TERMINAL, '--check', '--with', front, clean)
    assert (done.stdout, done.returncode) == (b'', 0)
    front.write_text("#!/usr/bin/trac_terminal (\n#(ds,LIB,a)'\n#(ds,LUB,a)")
    done = ran(TERMINAL, '--check', '--with', front, listing)
    assert (done.stdout, done.returncode) == (b'', 0)
    front.write_text("#(hl)'")
    assert ran(TERMINAL, '--check', '--with', front, listing).stdout == b''
    missing = ran(TERMINAL, '--check', '--with', tmp_path / 'none', listing)
    assert missing.returncode == 4 and b"can't read" in missing.stderr and not missing.stdout


@pytest.mark.parametrize('words', [['--convert'], ['--convert', '--check', 'a'], ['--convert', '--batch', 'a'],
                                   ['--convert', '--with', 'b', 'a'], ['--convert', '--save', 'b', 'a']])
def test_what_cannot_stand_together(words, tmp_path):
    done = ran(TERMINAL, *words, cwd=tmp_path)
    assert done.returncode == 2 and done.stderr.startswith(b'error: ') and not os.listdir(tmp_path)


def test_a_file_that_is_not_there_and_an_output_that_fails(tmp_path):
    done = ran(TERMINAL, '--convert', tmp_path / 'none')
    assert done.returncode == 4 and b'none' in done.stderr
    path = tmp_path / 'a.trac'
    path.write_bytes(b"#(ps,a)'")
    with open('/dev/full', 'wb') as full:
        assert subprocess.run([TERMINAL, '--convert', path], stdout=full, stderr=subprocess.PIPE,
                              check=False).returncode == 5
