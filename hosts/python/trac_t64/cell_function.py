"""A function of the host that is written in a cell of a notebook: the body of a function of Python."""
from __future__ import annotations

import ast
import traceback
from collections.abc import Callable
from types import FunctionType
from typing import Any

# Where a traceback says that a line stands.
FILE = '<cell>'


class NotPython(Exception):
    """What is wrong with the Python of a cell, and in which line of the cell."""

    def __init__(self, line: int, reason: str) -> None:
        super().__init__(line, reason)
        self.line, self.reason = line, reason


class CallFailed(Exception):
    """A function raised an error, or its value is no text: its name, a line of its cell, and the error in words."""

    def __init__(self, name: str, line: int, reason: str) -> None:
        super().__init__(name, line, reason)
        self.name, self.line, self.reason = name, line, reason


def _module_of(body: str, line: int) -> ast.Module:
    """A module that defines a function of one parameter, `arguments`, which has this body. It begins in this line."""
    module = ast.parse('def function(arguments): pass')
    made = module.body[0]
    assert isinstance(made, ast.FunctionDef)
    made.body = ast.parse('\n' * (line - 1) + body, FILE).body or made.body
    return module


def _compiled(body: str, line: int, names: dict[str, Any]) -> Callable[[tuple[bytes, ...]], object]:
    """The function that has this body and these global names. Raises NotPython."""
    scope: dict[str, Any] = {}
    try:
        exec(compile(_module_of(body, line), FILE, 'exec'), scope)
    except SyntaxError as error:
        raise NotPython(error.lineno or line, error.msg) from None
    except (ValueError, RecursionError, MemoryError) as error:
        raise NotPython(line, str(error) or type(error).__name__) from None
    return FunctionType(scope['function'].__code__, names)


def _line_of(error: BaseException, first: int) -> int:
    """The line of the cell at which an error was raised, or the first one."""
    lines = [line for frame, line in traceback.walk_tb(error.__traceback__) if frame.f_code.co_filename == FILE]
    return lines[-1] if lines else first


class CellFunction:
    """A function of the host, made of the body of a function of Python: `arguments` are the bytes behind the name in a
    call, and what the body returns is the value, bytes or a str; None is the null value."""

    def __init__(self, name: str, body: str, line: int, names: dict[str, Any]) -> None:
        """A function of this name, whose body begins in this line of its cell, with these global names. Raises
        NotPython."""
        self.name, self.body = name, body
        self._line, self._function = line, _compiled(body, line, names)

    def __call__(self, *arguments: bytes) -> bytes | None:
        """The value of a call. Raises CallFailed for every error but KeyboardInterrupt."""
        try:
            value = self._function(arguments)
        except KeyboardInterrupt:
            raise
        except BaseException as error:
            reason = traceback.format_exception_only(type(error), error)[-1].strip()
            raise CallFailed(self.name, _line_of(error, self._line), reason) from None
        if value is None or isinstance(value, (bytes, bytearray, memoryview)):
            return None if value is None else bytes(value)
        if isinstance(value, str):
            return value.encode(errors='replace')
        raise CallFailed(self.name, self._line, f'the value must be str, bytes or None, not {type(value).__name__}')
