"""Cenotesieve: TRAC T-64, the text language of Calvin Mooers, in a workspace of fixed size.

`run` runs a script to its end, and `check` reports what is suspicious in it. A `Session` keeps one machine: its input
comes in pieces, its steps can be made one by one and shown as lines, and its forms stay from one script to the next.

>>> from trac_t64 import run
>>> run("#(ps,hello)'").text
'hello'
"""
from ._engine import MOST_CELLS, VERSION
from .functions import FUNCTIONS, Function
from .session import (
    ACTIVE_CALL, COMMA_MARK, FIRST_GAP, NEUTRAL_CALL, Check, Fate, Form, Parts, Report, Session, Step, Suspicion,
    Text, Trace, check, run, shown,
)

__version__ = VERSION
__all__ = [
    'ACTIVE_CALL', 'COMMA_MARK', 'FIRST_GAP', 'FUNCTIONS', 'MOST_CELLS', 'NEUTRAL_CALL', 'VERSION', 'Check', 'Fate',
    'Form', 'Function', 'Parts', 'Report', 'Session', 'Step', 'Suspicion', 'Text', 'Trace', 'check', 'run', 'shown',
]
