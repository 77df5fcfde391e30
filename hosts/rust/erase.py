"""Removes the contracts from a Rattle source, so that Rust is left: each line of the Rust is a line of the source.

Whole lines are removed: contracts, ghost code, models and proofs, each with the comment right above it, and attributes
for the prover. Anything else that this doesn't know is an error."""
import re

# Comments, strings and characters, in which nothing is looked for.
TEXTS = re.compile(r'''//[^\n]*|b?"(?:\\.|[^"\\])*"|b?'(?:\\.[^']*|[^'\\\n])\'''', re.DOTALL)
# What begins a line that goes: what ends at a semicolon; an attribute; and what ends with a bracket of its own, with
# which the comment right above it goes.
STATEMENT = re.compile(r'^[ \t]*(?:ghost use\b|use std::marker::Model;)', re.MULTILINE)
ATTRIBUTE = re.compile(r'^[ \t]*#!?\[tactic\(', re.MULTILINE)
GHOST = re.compile(
    r'''^[ \t]*(?:(?:requires|ensures)\*?(?:\ \w+)?\ \{            # a clause of a contract
               |ghost\ \w+(?::|\ =)\ \{                             # a ghost of a type, a trait or a function
               |impl\b[^;{]*\bModel\ for\ [^;{]*\{                  # what contracts see of a type
               |prove\w*!\()                                        # a proof
               ''', re.MULTILINE | re.VERBOSE)
COMMENT = re.compile(r'(?:[ \t]*//(?!!)[^\n]*\n)+\Z')
# The derives that rustc doesn't have: one that the kit drops, and an error that needs std.
DERIVE = re.compile(r'(?<=#\[derive\()([^)]*)(?=\)\])')
FOREIGN = {'Drop', 'thiserror::Error'}
# A function that allocates memory, with the lines right above it. The caller provides the block, so none is needed.
ASKS = re.compile(r'(?:^(?://|#\[)[^\n]*\n)*^(?:pub )?fn \w+\([^{]*\bAllocError\b[^{]*\{', re.MULTILINE)
LEFT = re.compile(r'\b(?:ghost|requires|ensures|invariant|decreases|measure|tactic|lemmas|Model|Rattle|AllocError)\b|'
                  r'\bprove\w*!|[^\x00-\x7f]')


class Unknown(Exception):
    """A place that can't be turned into Rust."""


def masked(text):
    """The text with spaces in place of comments and quotes, with the same length."""
    return TEXTS.sub(lambda found: re.sub(r'[^\n]', ' ', found[0]), text)


def line_of(text, place):
    return text.count('\n', 0, place) + 1


def closing(code, place):
    """The place after the bracket that closes the one at `place`."""
    depth = 0
    for at in range(place, len(code)):
        depth += (code[at] in '([{') - (code[at] in ')]}')
        if not depth:
            return at + 1
    raise Unknown(f'line {line_of(code, place)}: nothing closes this')


def end_of(code, found):
    """The place after what begins there."""
    if found.re is STATEMENT:
        return (code + ';').index(';', found.start()) + 1
    if found.re is ATTRIBUTE:
        return closing(code, code.index('[', found.start()))
    end, first = closing(code, found.end() - 1), found[0].lstrip()
    behind = ',;' if first.startswith('ghost') else ';' if first.startswith('prove') else ''
    return end + (code[end:end + 1] in list(behind))


def without(text, pattern):
    """The text without the lines that a pattern finds. A semicolon after the last clause of a head stays."""
    code, kept, place = masked(text), '', 0
    for found in pattern.finditer(code):
        begin, end = found.start(), end_of(code, found)
        if begin < place:
            continue
        rest, line_end, _ = code[end:].partition('\n')
        if rest.strip() not in ('', ';') or not line_end:
            raise Unknown(f'line {line_of(text, end)}: not the end of a line')
        comment = pattern is GHOST and COMMENT.search(text, place, begin)
        kept += text[place:comment.start() if comment else begin]
        kept = kept[:-1] + ';\n' if rest.strip() else kept
        place = end + len(rest) + 1
    return kept + text[place:]


def without_memory(text):
    text = re.sub(r'^use std::alloc::[^;]*;\n', '', text, flags=re.MULTILINE)
    while found := ASKS.search(text):
        text = text[:found.start()] + text[closing(masked(text), found.end() - 1):].lstrip('\n')
    return text


def derived(found):
    """The derives that Rust has, and `Debug` beside others."""
    names = [name for name in found[1].split(', ') if name not in FOREIGN]
    return ', '.join(names + ['Debug'] * ('Debug' not in names and len(names) > 0))


def erase(text):
    """The Rust of a source. Raises `Unknown` if something for the prover is left."""
    for pattern in (STATEMENT, ATTRIBUTE, GHOST):
        text = without(text, pattern)
    text = DERIVE.sub(derived, without_memory(text))
    text = re.sub(r'^[ \t]*(?:#\[derive\(\)\]|#\[error\("[^"]*"\)\])\n', '', text, flags=re.MULTILINE)
    # No two empty lines in a row, none at the end, and none after an opening bracket or before a closing one.
    text = re.sub(r'\n{3,}', '\n\n', text).rstrip('\n') + '\n'
    text = re.sub(r'\{\n\n', '{\n', re.sub(r'\n\n([ \t]*\})', r'\n\1', text))
    left = LEFT.search(masked(text))
    if left:
        raise Unknown(f'"{left[0]}" is left: {text[text.rfind(chr(10), 0, left.start()) + 1:].splitlines()[0].strip()}')
    return text
