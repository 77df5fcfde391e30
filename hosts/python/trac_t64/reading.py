"""How far a session has read its input, and how it reports that a run ended with a fault."""
from __future__ import annotations

from .session import ACTIVE_CALL, COMMA_MARK, Fate, Session

# The two strings when the idling procedure reads the next string.
IDLE_NEUTRAL = (ACTIVE_CALL, *b'ps', COMMA_MARK, ACTIVE_CALL, *b'rs')
IDLE_ACTIVE = b'))'


def is_idle(session: Session) -> bool:
    """Whether the session waits for the next string, and not for what a script reads."""
    return session.active == IDLE_ACTIVE and session.neutral == IDLE_NEUTRAL


def fault_words(session: Session) -> str:
    """The fault that ended the run, in the words of `trac`; empty if it halted or its input ended."""
    if session.fate is Fate.WORKSPACE:
        return f'workspace of {session.cells} cells full at step {session.steps + 1}'
    if session.fate is Fate.STEPS:
        return f'allowance of {session.steps} steps used up'
    return ''


class Reading:
    """The place of the first byte that a session didn't read, in the text that it is given."""

    def __init__(self, line: int = 1) -> None:
        self._line, self._column = line, 1
        # what was given and not read, and what stands behind it in the text and wasn't given
        self._ahead = self._dropped = b''

    def give(self, session: Session, data: bytes, dropped: bytes = b'') -> None:
        """Gives the session more of the text, and makes no step. Dropped text follows it."""
        self._pass(session.unread)
        self._move_on(self._dropped)
        self._ahead, self._dropped = self._ahead + data, dropped
        session.feed(data, most=0)

    def begin_again(self, session: Session) -> None:
        """Makes the session begin a new run, after everything that it was given."""
        self._pass(b'')
        session.again()

    def place(self, session: Session) -> tuple[int, int]:
        """Line and column, both from 1. A column is a byte of ASCII or a character of UTF-8."""
        self._pass(session.unread)
        return self._line, self._column

    def _pass(self, unread: bytes) -> None:
        """Moves the place to the text that wasn't read."""
        passed = len(self._ahead) - len(unread)
        self._move_on(self._ahead[:passed])
        self._ahead = unread

    def _move_on(self, passed: bytes) -> None:
        if breaks := passed.count(b'\n'):
            self._line, self._column = self._line + breaks, 1
        self._column += sum(byte & 0xC0 != 0x80 for byte in passed[passed.rfind(b'\n') + 1:])
