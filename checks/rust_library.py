"""Builds the crate for Rust as a library behind trac.h, for the checks that compare it with other engines."""
import glob
import os
import shutil
import subprocess
import sys

from c_api import HEADERS
from trac import TOP

CRATE = os.path.join(TOP, 'hosts', 'rust')
sys.path.insert(0, CRATE)
from erase import erase  # noqa: E402

# What cargo builds stays in one place, which the checks share.
BUILT = os.path.join(TOP, 'build', 'rust')


def cargo(*words, folder=CRATE, **more):
    """Runs Debian's cargo without a network."""
    environment = {**os.environ, 'CARGO_TARGET_DIR': BUILT, 'CARGO_NET_OFFLINE': 'true', 'CARGO_HOME': BUILT,
                   'PATH': f'/usr/bin:{os.environ["PATH"]}', **more}
    return subprocess.run(['/usr/bin/cargo', *words], cwd=folder, env=environment, capture_output=True, text=True,
                          check=False)


def run_program():
    """The program `trac` over the crate, which is one of its examples."""
    done = cargo('build', '-q', '--release', '--example', 'run')
    if done.returncode:
        raise AssertionError(done.stderr)
    return os.path.join(BUILT, 'release', 'examples', 'run')


def erased(folder):
    """Puts the modules of crates/trac_c, and the one of trac_image that they use, without their contracts beside lib.rs
    in a folder, and names them there."""
    with open(os.path.join(folder, 'lib.rs'), 'a', encoding='utf-8') as root:
        crates = os.path.join(TOP, 'crates')
        for path in (*sorted(glob.glob(os.path.join(crates, 'trac_c', 'src', '*.rt'))),
                     os.path.join(crates, 'trac_image', 'src', 'buffer.rt')):
            name = os.path.basename(path)[:-3]
            if name not in ('lib', 'check', 'source', 'stepping', 'trace'):
                root.write(f'mod {name};\n')
                with open(path, encoding='utf-8') as source, \
                        open(os.path.join(folder, f'{name}.rs'), 'w', encoding='utf-8') as file:
                    file.write(erase(source.read()).replace('use trac_space::', 'use crate::cells::')
                               .replace('use trac_checker::', 'use crate::checker::')
                               .replace('use trac_lent::', 'use crate::lent::')
                               .replace('use trac_image::put', 'use crate::buffer::put')
                               .replace('use itoa::write_digits', 'use crate::digits::write_digits')
                               .replace('use trac_devices::decimal_len', 'use crate::digits::decimal_len'))


def library(folder):
    """An object with the functions of trac.h over the crate, which takes no check of a script and shows no step. A sum
    that is too great ends the program, and so does a panic."""
    place = os.path.join(folder, 'checks', 'rust_library')
    shutil.copytree(os.path.join(TOP, 'checks', 'rust_library'), place)
    shutil.copytree(CRATE, os.path.join(folder, 'hosts', 'rust'), ignore=shutil.ignore_patterns('target'))
    erased(place)
    # The folder's settings of cargo are the crate's.
    shutil.copytree(os.path.join(CRATE, '.cargo'), os.path.join(place, '.cargo'))
    done = cargo('build', '-q', '--release', folder=place)
    if done.returncode:
        raise AssertionError(done.stderr)
    api, made = (os.path.join(folder, name) for name in ('api.o', 'in_rust.o'))
    subprocess.run(['gcc', '-std=c11', '-O2', '-fPIC', '-c', '-o', api, os.path.join(HEADERS, 'proved.c')], check=True)
    subprocess.run(['ld', '-r', '-o', made, api, os.path.join(BUILT, 'release', 'librust_library.a')], check=True)
    subprocess.run(['objcopy', '-w', '--keep-global-symbol=trac_[!e]*', made], check=True)
    return made


def renamed(made):
    """The same object, whose names have c_ in front, as engines.h calls the second engine."""
    api = os.path.join(os.path.dirname(made), 'api.o')
    names = subprocess.run(['nm', '--defined-only', '-g', api], capture_output=True, text=True, check=True).stdout
    other = f'{made[:-2]}_renamed.o'
    subprocess.run(['objcopy', *[f'--redefine-sym={name}=c_{name}' for name in names.split()[2::3]], made, other],
                   check=True)
    return other
