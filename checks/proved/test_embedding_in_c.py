"""The programs in C of the page on embedding, in C, in C++ and through Python's ctypes, print with the proved library
what they print with the engine in C."""
import os
import unittest

from test_embedding_c import Embedding
from trac import TOP, make


class ProvedLibrary(Embedding, unittest.TestCase):
    made_of, kind = ['-Wl,--whole-archive', os.path.join(TOP, 'dist', 'libtrac.a'), '-Wl,--no-whole-archive'], b'proved'

    @classmethod
    def setUpClass(cls):
        make('dist/libtrac.a')
        super().setUpClass()


if __name__ == '__main__':
    unittest.main()
