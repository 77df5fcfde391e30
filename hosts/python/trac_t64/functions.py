"""The functions of the language, by name, as the engine's table has them."""
from typing import NamedTuple

from . import _engine

_ALL_ARGUMENTS = 2 ** 32 - 1
_FORMS = ('none', 'first', 'each', 'all')
_GIVES = ('nothing', 'body', 'part')


class Function(NamedTuple):
    """A function: its name, a call, a description, and what is true of all its calls."""
    name: str
    call: str
    """A call of it without the marks, with letters for arguments: `cs,N,Z`."""
    title: str
    """What the name is short for."""
    sentence: str
    """What it does, in one sentence with the letters of its call."""
    group: str
    """The heading under which the manual describes it."""
    uses: int | None
    """How many arguments after its name it uses; None if all."""
    forms: str
    """The forms that a call concerns: `none`, the form that the `first` argument names, those that `each` argument
    names, or `all`."""
    needs_form: bool
    """Whether a call does nothing if its first argument is the name of no form."""
    changes_forms: bool
    """Whether a call can make, change or remove the forms that it concerns."""
    gives: str
    """Which part of a form is its value: `nothing`, its `body` from the pointer on, or a `part` of it."""
    default_argument: int | None
    """Which argument is its default value; None if it has none."""
    chooses: bool
    """Whether its value is its third or its fourth argument."""
    reads: bool
    """Whether it reads."""
    prints: bool
    """Whether it can print."""
    changes_meta: bool
    """Whether it can change the meta character."""
    ends: bool
    """Whether it ends the run."""


def _function(texts: tuple[str, str, str, str, str], facts: tuple[int, ...]) -> Function:
    uses, forms, needs_form, changes_forms, gives, default, chooses, reads, prints, changes_meta, ends = facts
    return Function(
        *texts, uses=None if uses == _ALL_ARGUMENTS else uses, forms=_FORMS[forms], needs_form=bool(needs_form),
        changes_forms=bool(changes_forms), gives=_GIVES[gives], default_argument=default or None, chooses=bool(chooses),
        reads=bool(reads), prints=bool(prints), changes_meta=bool(changes_meta), ends=bool(ends))


FUNCTIONS = {function.name: function for function in (_function(*row) for row in _engine.functions())}
"""Each function by its name in lower case, in the order of the manual."""


def names_a_form(function: str) -> bool:
    """Whether the first argument of a function is the name of a form."""
    known = FUNCTIONS.get(function.lower())
    return known is not None and known.forms in ('first', 'each')
