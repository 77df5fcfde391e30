"""Builds the package over the engine in C, which is beside this folder, or inside it in an unpacked archive."""
import os
import re

from setuptools import Extension, setup
from setuptools.command.sdist import sdist

ENGINE = 'c' if os.path.exists('c') else '../c'
FILES = ('trac.h', 'trac_engine.c')


def version():
    """The version in the header."""
    with open(f'{ENGINE}/trac.h', encoding='utf-8') as header:
        return re.search(r'#define TRAC_VERSION "(.*)"', header.read())[1]


class WithEngine(sdist):
    """An archive that has the engine in it."""

    def make_release_tree(self, base_dir, files):
        super().make_release_tree(base_dir, files)
        self.mkpath(f'{base_dir}/c')
        for name in FILES:
            self.copy_file(f'{ENGINE}/{name}', f'{base_dir}/c/{name}')


setup(
    version=version(),
    ext_modules=[Extension(
        'trac_t64._engine',
        ['trac_t64/_engine.c'],
        include_dirs=[ENGINE],
        define_macros=[('Py_LIMITED_API', '0x030B0000')],
        extra_compile_args=[] if os.name == 'nt' else ['-std=c11', '-fvisibility=hidden'],
        py_limited_api=True,
    )],
    cmdclass={'sdist': WithEngine},
    # The engine isn't among the sources, so a change of it wouldn't be seen.
    options={'build_ext': {'force': True}, 'bdist_wheel': {'py_limited_api': 'cp311'}},
)
