"""A kind of branches of the engine in C, told by the text of their condition, and names and texts that several kinds
share."""
import typing

# A variable of the generated C, and an address in a comparison of two.
VARIABLE = r'[a-z]\d+'
ADDRESS = rf'(?:{VARIABLE}|\(TABLES \+ \d+u\)|bytes|text|name)'
# The address of a cell.
CELL = r'(no_address\()?(\(word\))?(p\d+|w\d+|cells|name|value|a5)'
# The code by which lists and nodes take memory. That of trees stands in two more functions as a part of them.
LISTS = 'core_alloc_|std_alloc_vec_Vec_grow|std_collections_btree_node_'
# The exports that have lists.
SHOWING = 'engine_(check|trace_step)|c_check_'
# Functions that go to an argument by its number, which is one of those that they counted.
COUNTING = 'warnings_(watch_Watch_given_argument|performed_(look_at_call|warn_of_nesting)|arguments_|segmented_)'
TREES = 'std_collections_btree_|std_alloc_vec_(Vec_remove|lodged_)|warnings_findings_'
# An argument in functions that count the arguments, or find one that they name, before they go to it.
COUNTED = 'warnings_(performed_look_at_function|segmented|arguments|watch_Watch_place_of_default)'


class Kind(typing.NamedTuple):
    """A kind of branches: what they are, or what excludes them; the functions and the text of the condition that have
    it; texts in front of it, where @ is one of the compared variables, and in the next line; further branches that
    have it; and texts of the first line of the block around it, and anywhere in front of it in its function."""
    what: str
    functions: str = ''
    condition: str = ''
    before: str = ''
    after: str = ''
    also: tuple = ()
    within: str = ''
    behind: str = ''


def having(functions='', condition='', before='', after='', within='', behind=''):
    """Further branches of a kind."""
    return Kind('', functions, condition, before, after, (), within, behind)


# Functions of the checker and of its warnings.
WATCHED, ENDING = 'checker_run_watched', 'warnings_watch_Watch_look_at_end_of_call'
GIVEN, CALLING = 'warnings_arguments_look_at_arguments', 'warnings_performed_look_at_function'
KEEPING = 'warnings_watch_Watch_keep_definition'
# Functions whose arguments were counted, and texts of them.
NESTED, PARTS = 'warnings_performed_warn_of_nesting', 'warnings_operands_parts_number'
CHOSEN, TEXTS = 'warnings_watch_Watch_place_of_chosen', 'warnings_segmented_look_for_texts'
PLACES, END = r'load_word\(ending \+ 48u\)', r'^if \((w\d+) == (w\d+)\) {$'
