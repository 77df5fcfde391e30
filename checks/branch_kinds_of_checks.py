"""The kinds of branches of the check and of its warnings, for branch_kinds.py: what excludes them."""
from branch_kind import (CALLING, CHOSEN, COUNTED, END, ENDING, GIVEN, KEEPING, Kind, NESTED, PARTS, PLACES, TEXTS,
                         WATCHED, having)

# Branches of searches for an argument that is there.
ARGUMENT = (
    having(COUNTED, r'^if \((w\d+) != 0u\) {$', r'\b@ = w\d+;$', r'^word p\d+ = p\d+;$'),
    having(COUNTED, END, r'\b@ = w\d+;\n *if \(@ != 0u\) {'),
    having(COUNTED, r'(n\d+) \? (w\d+( - w\d+)?|\(word\)w\d+) : (0u|\(word\)w\d+)', r'do {\n(.*\n){10,22}.*u32 @ = w'),
    having(CALLING, r'^if \((w\d+) != 0u\) {$', r'\b@ = n\d+ \? w', '^word p',
           r'^{$'),
    having(CALLING, END, r'parts_number\(.*\n(.*\n){1,14}.*$'),
    having(TEXTS, r'^if \(n\d+ == 0u\) {$', '', r'^(word p\d+ = p|const u64 w)\d+'),
    having(NESTED, r'^if \(n\d+ == 0u\) {$|n\d+ \? (\(?\(word\)|w\d+ : 0u)'),
    having(NESTED, r'^if \((w\d+) != 0u\) {$', r'@ = n\d+ \? w\d+ : 0u;$'),
    having(NESTED, r'^if \(w\d+ == w\d+\) {$', within='^while'),
    having(NESTED, r'^if \(load8\(p\d+\) != 2u\) {$', within='^for'),
    having(PARTS, r'== arguments_len\) {$|^if \(n\d+ == 0u\) {$'),
    having(PARTS, r'(n\d+) \? ', r'const u32 @ = (w\d+ (<|>=) arguments_len|w\d+ >= w\d+);'),
    having(PARTS, r'^if \((w\d+) != 0u\) {$',
           r'u64 w\d+ = arguments_len - w\d+;\n *@ = n\d+ \?|const u64 @ = (arguments_len|w\d+) - .*;$'),
    having(PARTS, END, r'const u64 @ = arguments_len - |const u64 @ = w\d+ - w\d+;\n *if \(@ != 0u\) {'),
    having(PARTS, END, r'@ = n\d+ \? w\d+ : 0u;', behind=r'while \(w\d+ != 0u\);'),
    having(CHOSEN, END, r'u64 @ = 0u;|>= 4u\) {\n(.*\n){0,14}.*@ = 0u;\n *word p\d+ = p\d+;\n *while'),
    having(CHOSEN, r'\(n\d+ \? \(word\)|^w\d+ = n\d+ \? w\d+ : 0u;'),
    having(CHOSEN, r'^const u64 w\d+ = n\d+ \? w\d+ : 0u;$', '', r'^u64 w\d+ = w\d+;$'),
    having(CHOSEN, r'^(} else )?if \((w\d+) [!=]= 0u\) {$'),
    having('warnings_watch_Watch_place_of_default', r'^if \(w\d+ == 0u\) {$|^} while \(w\d+ != w\d+\);$'),
    having(TEXTS, END, r'if \((n\d+ == 0u|w\d+ != 0u)\) {\n *word p\d+ = p\d+;\n *while.*\n(.*\n){1,4}.*$',
           behind=PLACES),
    having(TEXTS, r'^if \(w\d+ >= 2u\) {$', '', PLACES),
    having(TEXTS, r'n\d+ \? |^if \(n\d+\) {$', behind=PLACES),
    having(TEXTS, r'^if \((w\d+) != 0u\) {$', r'@ = n\d+ \? w\d+ : 0u;$|@ = w\d+ - w\d+;$', behind=PLACES),
    having(TEXTS, r'^if \(w\d+ != 0u\) {$', '', r'^w\d+ = 0u - w\d+;$'),
    having(TEXTS, r'^if \(w\d+ (== 0u|< 2u)\) {$', '', r'^return n\d+;$', behind=PLACES),
)
# Kinds of the check and of its warnings.
OF_CHECKS = {
    'begun': Kind(
        'a list of the watch without memory, where memory runs out behind the idling procedure: this puts an origin, '
        'calls, an argument and a call\'s cells into the lists before it reads the first string, and the watch warns '
        'of nothing before that',
        functions=WATCHED, condition=r'^if \((w\d+) != 0u\) {$',
        before=r'u64 @ = load64\(frame \+ 1104u\);$', within='^do {$',
        also=(having(WATCHED, r'^if \((w\d+) != 0u\) {$',
                     r'u64 @ = load64\(frame \+ (1104|1168|1200)u\);$', '', r'^if \(\(n\d+ & 255u\) != 0u\) {$'),
              having(WATCHED, r'^if \((w\d+) != 0u\) {$',
                     r'u64 @ = load64\(frame \+ (1104|1136|1168|1200|1296)u\);$', '', r'Findings_add\('))),
    'not begun': Kind(
        'a list or a tree that has something before the first step: `watched` of trac_checker makes the watch right '
        'before it looks at how the script is written, and no warning of that is of a name (`is_noted`)',
        functions=WATCHED, condition=r'^if \((w\d+) != 0u\) {$', before=r'\n {4}(const )?u64 @ = load64\(',
        also=(having(WATCHED, r'^if \((n\d+) == 1u\) {$', r'\n {4}const u32 @ = load8\('),
              having('checker_run_of_script', r'^if \((n\d+) == 1u\) {$', r'@ = load8\(frame \+ 72u\);'),
              having('checker_run_of_script', r'^if \((n\d+) == 1u\) {$',
                     r'@ = load8\(frame \+ 40u\);\n *store64\(frame \+ 200u, alloc\);$'))),
    'first warning': Kind(
        'a list of warnings without memory, where those of how a script is written find too little: an arena has a '
        'page at least, which has room for the first few; or one that has memory before the first',
        functions='checker_run_of_script', condition=r'^if \((w\d+) != 0u\) {$', after=r'^(word p\d+ = \(word\)w\d+ \+ '
        r'72u|if \(load64\(\(word\)w\d+ \+ 32u\) == 1u\) {$)',
        also=(having('warnings_written_look_at_lines', r'grow_amortized4\(warnings\) == 0u'),
              having('warnings_written_look_at_script', r'^if \(load64\(warnings \+ 16u\) == w\d+\) {$'),
              having('warnings_written_look_at_script', r'^if \((n\d+) == 0u\) {$', r'@ = std_alloc_vec_Vec_grow'),
              having('warnings_written_look_at_script', r'^if \((n\d+) & 255u\) {$',
                     r'@ = warnings_written_(look_at_lines|warn_at)')
              )),
    'last warnings': Kind(
        'a list of the warnings of a fault that has memory before the first, or that finds too little behind it: the '
        'first takes it for the place and for the open calls (`MOST_CALLS` of trac_warnings)',
        functions='checker_run_add_fault', condition=r'^if \(w\d+ [!=]= 0u\) {$',
        also=(having('warnings_watch_Watch_warn_of_fault', r'^if \(load64\(warnings \+ 16u\) == w\d+\) {$|'
                     r'warnings_performed_warn\('),)),
    'stopped': Kind(
        'a machine that stopped before: the loop of `watched` of trac_checker ends with the first fate',
        functions='checker_run_', condition=r'^if \(load8\((frame \+ 1452u|p\d+)\) [!=]= 1u\) {$',
        before=r'', after=r'^(w\d+ = load64\(frame \+ 1440u\);|return n\d+;)$'),
    'whole input': Kind(
        'an input that fails: `check_over` of trac_c gives all of it', functions=WATCHED,
        condition=r'^if \(load8\(source \+ 16u\)\) {$|^switch \(\(core_streaming_read_text\(|'
        r'^load8\(frame \+ \d+u\), source\) & 255u\)'),
    'freed': Kind(
        'a byte that finds no cell: the right parenthesis of the call that reads it has left one',
        functions=WATCHED, condition=r'^if \(load32\(frame \+ 1396u\) == n\d+\) {$'),
    'all printed': Kind(
        'a device that fails: what a watched run prints goes to one that takes all (`NullSink` of trac_checker)',
        functions=WATCHED, condition=r'^(n\d+|\(u32\)p\d+)\) & 255u\) == 0u\)|core_display_show_items\(|'
        r'^switch \(\(u32\)\(\(word\)n\d+ & 255u\) - 1u\) {$'),
    'some cells': Kind(
        'a part of fewer than seventeen cells or more than twenty-four, in code for any length that copies those',
        functions=WATCHED, condition=r'^if \(\(\(word\)w\d+ & 8u\) == 0u\) {$|^} while \(w\d+ > 8u\);$',
        also=(having(WATCHED, r'^if \((w\d+) >= 8u\) {$', r'\b@ = w\d+ - 9u;'),)),
    'reading': Kind(
        'a call of another function than one that reads, although it was just found to be of one (`awaited` of '
        'trac_events)', functions=WATCHED, condition=r'^if \(n\d+ - 2u < 23u\)$'),
    'protected': Kind(
        'an active string that begins with another character than a left parenthesis, although the rule for one comes '
        'next (`next_rule` of trac_core)',
        functions=WATCHED, condition=r'^if \((n\d+)\) {$', before=r'@ = load32\(frame \+ 1392u\);$',
        also=(having(WATCHED, r'\+ 1u\) != 40u\)$'),)),
    'origin': Kind(
        'a character of the active string without an origin, or a row of steps without an origin to remove: the runs '
        'have those of all (`move_on` of trac_warnings follows each step), and each step of a row takes a character',
        functions=WATCHED, condition=r'^if \((w\d+) == 0u\)$',
        before=r'@ = load64\(frame \+ 1096u\);', after='^break;$',
        also=(having(WATCHED, r'^if \((w\d+) == 0u\) {$', r'@ = load64\(frame \+ 1096u\);', r'^n\d+ = 0u;$'),
              having(WATCHED, r'^if \((w\d+) != 0u\) {$', r'@ = load64\(frame \+ 1096u\);$',
                     r'^const word p\d+ = \(word\)w\d+ \* 40u;$'),
              having('warnings_watch_Watch_follow_row', r'^if \((w\d+) == 0u\)( {)?$',
                     behind=r'u64 @ = load64\(self \+ 56u\);'),
              having('warnings_watch_Watch_follow_row', r'^if \((w\d+) == 0u\) {$',
                     r'return;\n *}\n *if \(@ == 0u\) {\n.*\n.*\n *return;\n *}\n *if \(@|return;\n *}$',
                     r'^store64\(result \+ 8u, w\d+\);$'),
              having('warnings_watch_Watch_(look_at_end_of_call|follow_row|warn_of_fault)', r'^if \((w\d+) [!=]= 0u\)',
                     r'@ = load64\((\w+|\(word\)self) \+ 56u\);'))),
    'idle': Kind(
        'an origin, or a string that is scanned, where the idling procedure is loaded: nothing is active then; or this '
        'procedure without a character',
        functions=WATCHED, condition=r'^if \(load64\(frame \+ (1096|1128)u\) != 0u\) {$',
        also=(having(WATCHED, r'^if \((n\d+) == 0u\)$', r'@ = load32\(frame \+ 1392u\);$'),)),
    'ending': Kind(
        'a string that is scanned although none of it is active (`warn_of_ends` of trac_warnings takes away those that '
        'end), or that doesn\'t end with a step that was just found to end it; or a longer run of origins than the '
        'character that was its last: a run has those of one value',
        functions=WATCHED, condition=r'^if \(w\d+ == 0u\)$|< w\d+\)$', within=r'- 16u\) >= w\d+\) {$',
        also=(having(ENDING, r'^if \(load64\(p\d+ - 16u\) < before\) {$'),
              having(WATCHED, r'^if \(w\d+ <= w\d+\) {$', '', r'^word p\d+ = p\d+ - 40u;$',
                     r'^} else {$'),)),
    'value': Kind(
        'a value with more characters than the active string that it stands in front of',
        functions=WATCHED, condition=r'^if \((n\d+) == 0u\) {$', before=r'const u32 @ = w\d+ > w\d+;$',
        also=(having(WATCHED, r'(n\d+) \? 0u : (w\d+|p\d+);$', r'const u32 @ = w\d+ > w\d+;'),)),
    'plain': Kind(
        'a step that only takes a character, where the watch looks at others: `judge_step` of trac_warnings asks '
        '`is_plain` first', functions=WATCHED, condition=r'^switch \(n\d+ - 1u\) {$', after='^case 6:$',
        also=(having(WATCHED, r'^if \(n\d+ != 7u\)$'),)),
    'places': Kind(
        'an argument of which the watch has no place: it keeps one of each comma mark, and `close_call` of '
        'trac_warnings takes away those of a call',
        functions=WATCHED, condition=r'^if \(w\d+ - w\d+ > w\d+\) {$',
        also=(having('warnings_watch_Watch_(look_at_end_of_call|keep_definition)', r'(w\d+) < (w\d+) \? 0u : w\d+;',
                     r'@ = w\d+ - load64\(self \+ 272u\);'),)),
    'named form': Kind(
        'an origin in the value of a form whose name the watch doesn\'t have: `define` of trac_warnings keeps the name '
        'of each number', functions='checker_run_WatchedRun_push_line',
        condition=r'^if \(load64\(a1 \+ 184u\) > w\d+\) {$'),
    'in order': Kind(
        'a warning that stands in front of the one before it: they are told in the order of their places',
        functions='checker_run_WatchedRun_push_warnings', condition=r'^if \(w\d+ < w\d+\) {$',
        after='events_place_Place_behind_bytes'),
    'words': Kind(
        'a text without a character: a sentence of a warning, the words of a fate, or a misspelled name',
        functions='checker_run_WatchedRun_push_line|c_check_', condition=r'^} else if \((w\d+) != 0u\) {$',
        before=r'\bw\d+ - w\d+ < @\) {',
        also=(having('checker_run_add_names', r'^if \((w\d+) != 0u\) {$', r'@ = load64\(p\d+ - 8u\);$'),
              having('warnings_written_warn_at', r'^(?:} else )?if \((n\d+) == 0u\) {$', behind='@ = bytes_len == 0u;'),
              having('warnings_written_warn_at', r'^if \(w\d+ == 0u\) {$', r'\(warnings\) == 0u\) {\n *n\d+ = 1u;$'))),
    'plain numbers': Kind(
        'a call of arithmetic or of `gr` that has no comma behind its name, or nothing behind that: '
        '`has_plain_numbers` of trac_warnings takes it before',
        functions='warnings_operands_look_at_numbers', condition=r'^if \((w\d+) == (w\d+)\) {$',
        before=r'@ = load64\(a4 \+ 8u\);',
        also=(having('warnings_operands_look_at_numbers', r'(n\d+) \? |^if \((n\d+) == 0u\) {$',
                     r'load64\(a4 \+ 8u\);\n(.*\n){10,16}.*const u32 @ = '),
              having('warnings_operands_look_at_numbers', r'^if \((w\d+) != 0u\) {$',
                     r'load64\(a4 \+ 8u\);\n(.*\n){0,25}.*$'))),
    'notice': Kind(
        'a function that takes notice of 2^32 - 1 arguments (`most < 2 ^ 32 - 1` of trac_warnings)',
        functions=CALLING, condition=r'^if \(n\d+ != 4294967295u\) {$'),
    'open call': Kind(
        'a call that ends, and of which the watch has no place: it keeps one of each open call, in `calls`',
        functions='warnings_watch_Watch_(look_at_end_of_call|warn_of_result)',
        condition=r'^if \((n\d+)( == 0u)?\) {$', before=r'const u32 @ = w\d+ == 0u;',
        also=(having('warnings_watch_Watch_warn_of_result', r'^if \((w\d+) == 0u\) {$',
                     r'@ = load64\(self \+ 120u\);'),)),
    'two calls': Kind(
        'fewer than two open calls, where more than one was just found to be open in the string', functions=ENDING,
        condition=r'w\d+ > w\d+ \? 0u : w\d+;|^if \(w\d+ < w\d+\) {$', behind=r'w\d+ = w\d+ - 2u;'),
    'all there': Kind(
        'a list that isn\'t the last piece of its arena, or has no memory, while it is made or right after: nothing '
        'else takes memory meanwhile',
        functions='c_check_', condition=r'^if \(load64\((p\d+)\) \+ w\d+ == (?:load64\(frame \+ 432u\)|w\d+)\) {$',
        before=r'load64\(frame \+ 448u\);\n(.*\n){0,6}.*$',
        also=(having('warnings_performed_warn(_of)?$|warnings_watch_Watch_(warn_of_fault|origin_of_body|keep_call)',
                     r'^if \(load64\(p\d+\) \+ w\d+ == w\d+\) {$'),
              having('warnings_performed_warn_of$', r'^if \(w\d+ != 0u\) {$'),
              having('warnings_bodies_look_at_body',
                     r'^if \(load64\(p\d+\) \+ w\d+ != (load64\(frame \+ 40u\)|w\d+)\) {$'),
              having('warnings_bodies_look_at_body', r'^if \(w\d+ == 0u\) {$', r'look_at_texts\(.*\n *n\d+ = 1u;$'),
              having(KEEPING, r'^if \(load64\(p\d+\) \+ w\d+ != (w\d+)\) {$',
                     behind=r'const u64 @ = load64\(frame \+ 32u\);'),
              having(KEEPING, r'^if \(load64\(p\d+\) \+ w\d+ == (w\d+)\) {$',
                     behind=r'\b@ = load64\(frame \+ 176u\);'),
              having('warnings_written_warn_at',
                     r'^if \(load64\(p\d+\) \+ w\d+ [!=]= (load64\(frame \+ 8u\)|w\d+)\) {$'),
              having('warnings_printed_look_at_printed', r'^if \(load64\(p\d+\) \+ w\d+ [!=]= w\d+\) {$'),
              having('warnings_printed_look_at_printed', r'^if \((w\d+) == 0u\) {$',
                     behind=r'\b@ = load64\(frame \+ 104u\);'),
              having(TEXTS, r'^if \(load64\(p\d+\) \+ w\d+ [!=]= (load64\(frame \+ 40u\)|w\d+)\) {$|'
                     r'^if \(w\d+ == 0u\) {$', behind='std_alloc_vec_Vec_grow_amortized'),
              having(TEXTS, r'^if \(w\d+ [!=]= 0u\) {$', behind='grow_amortized6(.*\n)*.*while'),
              having(GIVEN,
                     r'^if \(load64\(p\d+\) \+ w\d+ [!=]= (load64\(frame \+ 40u\)|w\d+)\) {$'),
              having(GIVEN, r'^if \(w\d+ == 0u\) {$', after=r'^n\d+ = 1u;$|^return n\d+;$',
                     behind='std_alloc_vec_Vec_grow_amortized.*\n.*\n.*\n(.*\n)*.*std_alloc_vec_Vec_grow_amortized'),
              having(GIVEN, r'^if \(w\d+ - w\d+ <= 4u\) {$'))),
    'form called': Kind(
        'a form without an item: `look_at_called` of trac_warnings tests that before',
        functions=GIVEN, condition=r'^if \(n\d+ != 0u\) {$'),
    'given': Kind(
        'a call of `cl` without an argument behind the form\'s name, which `look_at_arguments` of trac_warnings leaves '
        'out, as the watch has as many places as the call has commas; or a call with two commas and fewer than four '
        'cells',
        functions=GIVEN, condition=r'^if \(w\d+ (<|>=) 2u\) {$',
        also=(having(GIVEN, r'^if \(w\d+ >= 4u\) {$', behind=r'\) == 3u\) {'),
              having(NESTED, r'^if \(w\d+ >= 4u\) {$'),
              having(GIVEN, r'^if \((w\d+) == 0u\) {$', r'@ = load64\(ending \+ 8u\);$'))),
    'script read': Kind(
        'an input without a byte, although a call that stands in it is performed', functions='warnings_names_is_',
        condition=r'^if \(input_len [!=]= 0u\) {$',
        also=(having('warnings_printed_look_at_new_meta', r'^if \((w\d+) == 0u\) {$', r'@ = load64\(a3 \+ 88u\);$'),)),
    'copied name': Kind(
        'a name that is the last piece of its arena: its copy was made behind it',
        functions=KEEPING,
        condition=r'^if \(load64\(p\d+\) \+ w\d+ == (w\d+)\) {$', behind=r'const u64 @ = load64\(frame \+ 32u\);'),
    'no blanks': Kind(
        'a text of blanks alone: `behind_blanks` of trac_warnings leaves another character at its head',
        functions='warnings_blanks_before_last_blanks', condition=r'^} while \(cells_len != 0u\);$',
        also=(having('warnings_blanks_trimmed', r'^if \(cells_len == 0u\) {$'),)),
    'counted': Kind(
        'fewer strings than were just counted, or none where one was just found to end',
        functions='warnings_watch_Watch_warn_of_each_end',
        condition=r'^if \(w\d+ == 0u\) {$'),
    'suspicious name': Kind(
        'a null name, in which nothing is suspicious (`suspicion_of_name` of trac_warnings)',
        functions='warnings_performed_suspicion_of_call', condition=r'^if \(name_len != 0u\) {$|n\d+ \? n\d+ : 0u;$'),
    'empty body': Kind(
        'a text of `ss` in a body without an item, of which a warning would take memory',
        functions='warnings_bodies_look_at_body', condition=r'look_at_texts\(.*, 0u, ending\)'),
    'beyond': Kind(
        'no call beyond the depth of a string that ends, although one was just found there',
        functions='warnings_watch_Watch_warn_of_each_end',
        condition=r'w\d+ > w\d+ \? load_word\(self|w\d+ < w\d+ \? 0u : w\d+;|^if \(load64\(self \+ 120u\) > w\d+\)$'),
    'default place': Kind(
        'a default value that is the name of the function (`traits` of trac_language)',
        functions='warnings_(bodies_provides|performed_look_at_missing)', condition=r'^if \((n\d+)\) {$',
        before=r'@ = load32\(frame \+ \d+u\);$',
        also=(having('warnings_watch_Watch_place_of_default', r'^if \(default_\) {$'),)),
    'null value': Kind(
        'a null value, where the watch asks which argument it was (`origin_of_value` of trac_warnings gets one with '
        'characters), or where arithmetic has a default value, which is its value then',
        functions='warnings_watch_Watch_place_of_', condition=r'^if \(value_len [!=]= 0u\) {$',
        also=(having('warnings_watch_Watch_warn_of_result', r'^if \(load8\(p\d+\) != 2u\) {$', within='^for'),
              having('warnings_watch_Watch_warn_of_result', r'^if \(w\d+ != 0u\) {$', after=r'^return n\d+;$'))),
    'mark': Kind(
        'a place of the input without the character that was looked for there (`count_before` of trac_events), or '
        'letters and blanks up to its end, although another character was just found behind them',
        functions='warnings_misspelled_look_at_names', condition=r'== 35u\) {$',
        also=(having('warnings_misspelled_look_at_names', r'^if \(w\d+ == w\d+\)$', r'continue;\n *break;\n *}$'),
              having('warnings_written_look_at_mark', r'^if \(text_len == 0u\) {$|^switch \(n\d+ - 35u\) {$|'
                     r'^if \(n\d+ != 40u\) {$', after=r'^(store8|case 5:$|n\d+ = 0u;$)'),
              having('warnings_written_look_at_mark', r'^if \(w\d+ == w\d+\)$'))),
    'string end': Kind(
        'a string that ends in the input without the meta character', functions='warnings_watch_Watch_warn_of_string',
        condition=r'^if \(load8\(p\d+\) == load8\(p\d+\)\) {$'),
    'reach': Kind(
        'a row of more steps than may be followed (`steps` of `follow_next` of trac_warnings)',
        functions='warnings_watch_Watch_follow_row', condition=r'^if \(w\d+ < w\d+\)$', after=r'^goto L\d+;$'),
    'line of none': Kind(
        'a run without a warning whose lines find too little memory: each line is of a warning, or of a fault, which '
        'gives one', functions='c_check_', condition=r'^if \((n\d+) == 1u\) {$',
        before=r'\n {28,32}const u32 @ = load8\(frame \+ 792u\);'),
    'in input': Kind(
        'a column of a place in the input, which is 0 (`in_input` of trac_warnings), or another number of characters '
        'of the same place there: each character of the input is scanned once',
        functions='warnings_findings_count', condition=r'^if \(w\d+ != w\d+\) {$',
        before=r'\+ 16u\) == 1u\)\n *break;\n(.*\n){0,14}.*$'),
    'no bytes': Kind(
        'a place of no bytes: `has_address` of the engine in C tests that before', functions='is_in_row',
        condition=r'^\(count && offset \+ \(count - 1\) - (8088|8480|8872|8936)u '),
    'function found': Kind(
        'a call of no function, although its function was just found', functions=ENDING,
        condition=r'(n\d+) \? n\d+ : 0u;$', behind=r'const u32 @ = n\d+ == 1u;'),
    'null copy': Kind(
        'a null name whose copy finds too little memory: it needs none', functions=KEEPING,
        condition=r'^if \((w\d+) == 0u\) {$', after=r'^return n\d+;$', behind=r'const u64 @ = load64\(frame \+ 48u\);'),
}
