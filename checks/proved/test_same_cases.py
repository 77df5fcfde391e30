"""The cases of checks/ that need no kit, run with the proved programs."""
import test_memory
from test_conformance import Conformance
from test_examples import Examples, Exercises
from test_growth import FullBlocks
from test_interruptions import Interruptions
from test_manual import Manual
from test_manual_traces import Traces
from test_module import Module
from test_pipes import Closed, Streams
from test_program import Devices, Memory, Program, Stack
from test_rooms import Rows
from test_trace import Costs, Lines, StandardError, Tables, Views
from test_tracer_words import InterruptedTraces, Words
from test_warnings import Warnings

__all__ = ['Closed', 'Conformance', 'Costs', 'Devices', 'Examples', 'Exercises', 'FullBlocks', 'InterruptedTraces',
           'Interruptions', 'Lines', 'Manual', 'Memory', 'Module', 'Program', 'Refused', 'Rows', 'Stack',
           'StandardError', 'Streams', 'Tables', 'Traces', 'Views', 'Warnings', 'Words']


class Refused(test_memory.Refused):
    """The same, with a library of its own in front of the allocator: each refused request for the words ends the
    program at once, and the last is for the block alone. It asks for no zeroed memory."""
    LINE, ENDS_AT_ONCE, FEWEST, BYTES = test_memory.WORDS_LINE, True, 21, test_memory.CELL
    WAYS = frozenset({'malloc', 'realloc'})
