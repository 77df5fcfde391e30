"""The kinds of branches of the engine in C that no compared run takes, for untaken.py: what excludes them, told by the
text of their condition; and those of which nobody has examined whether they can be taken."""
from branch_kind import (ADDRESS, CALLING, CELL, COUNTING, ENDING, GIVEN, KEEPING, Kind, LISTS, SHOWING, TREES,
                         VARIABLE, WATCHED, having)
from branch_kinds_of_checks import ARGUMENT, OF_CHECKS

# None of the branches of these kinds that aren't taken can be taken.
EXCLUDED = {
    'trap': Kind(
        'a place that the proofs exclude, as a divisor that is 0, or a cell in an index that is no number and no comma '
        '(`IsSound` of trac_forms)',
        condition=r'\btrap\(\)', also=(having(KEEPING, r'^if \(load8\(p\d+\) == 1u\)$', '', r'^goto L\d+;$'),)),
    'null': Kind('a null pointer: `api.c` hands the exports pointers that are never null',
                 condition=r' == 0u \? 4096u : 0u[);]'),
    'one chunk': Kind(
        'an arena whose first chunk is missing, is not whole pages, or is not the only one: `arena_over` of trac_lent '
        'takes all whole pages as that one, `Lent` refuses all blocks after it, and no function sets a limit',
        condition=r'load64\((\(word\))?\w+ \+ 32u\) [=!]= [01]u',
        also=(having('c_check_', r'^if \(\(w\d+ >> 4\) <= count\) {$'),
              having(LISTS, rf'\(({VARIABLE}) [=!]= [01]u\)', r'\b@ = load64\((\(word\))?\w+ \+ 32u\);'),
              having('std_collections_btree_node_parts_Parts_new', r'^if \((w\d+) != 0u\) {$',
                     behind=r'\b@ = load64\((\(word\))?\w+ \+ 32u\);'),
              having('bumpalo_', rf'\((n\d+ == [01]u|\(i64\){VARIABLE} < 0)\)|& n\d+\) == 0u\)|\(w\d+ == 0u\)$'),
              having('bumpalo_', rf'\({VARIABLE} <?>?=? 4611686018427387904ull\)'),
              having(SHOWING, r'units < 1152921504606846976ull|<?>?=? 4611686018427387904ull'),
              having(SHOWING, r'18446744073709547520ull|& 9223372036854775823ull|>> 4\) <?>?=? units'),
              having(SHOWING, r' == 0u \? 0u : \(u64\)(16|4096)u - '))),
    'new list': Kind(
        'memory of a list that is just made: it has none before it reserves the first',
        functions='std_alloc_vec_Vec_with_capacity', condition=r'\(w\d+ != 0u\)',
        also=(having('warnings_written_warn_at', r'^if \(w\d+ == 0u\) {$', r'if \(n\d+ == 0u\) {\n *n\d+ = 1u;$'),)),
    'doubled': Kind(
        'a list that grows by fewer items than it has: it doubles at least (`grow_amortized`)',
        functions='std_alloc_vec_Vec_grow_amortized|core_alloc_RefAllocator_grow',
        condition=rf'\(({VARIABLE}) >= {VARIABLE}\)', before=rf'\b@ = {VARIABLE} - {VARIABLE};'),
    'full': Kind(
        'a list without items that has memory and grows: a list grows by one item where it is full',
        functions='std_alloc_vec_Vec_grow_amortized', condition=rf'else if \({VARIABLE} != 0u\)'),
    'row': Kind(
        'a row of a node of a tree with more than the 15 items that `CAPACITY` of std_collections allows, which code '
        'for rows of any length would move in pieces or mirror by another function',
        functions=TREES, condition=rf'\({VARIABLE} (>=? (15|26|43|65|257)u|<=? (15|65)u)\)',
        also=(having('core_slice_edits_mirror'),)),
    'no row': Kind(
        'a node of a tree without an item, or one of its rows without: a tree that has an item has none in its nodes, '
        'and nothing is removed from a tree but when it ends',
        functions='std_collections_btree_node_Node_destroy',
        condition=r'^if \(n\d+\) {$', after='^(?!if )',
        also=(having('std_collections_btree_node_Node_destroy', rf'\({VARIABLE} != {VARIABLE}\)',
                     after=rf'^const u64 {VARIABLE} = {VARIABLE} << 3;$'),
              having(TREES, rf'\(({VARIABLE}) != 0u\)', r'\b@ = .*(<< [35]|\* (48|80)u);$'),
              having(TREES, r'\(load16\(\(word\)w\d+\) == 0u\)'),
              having('std_collections_btree_map_BTreeMap_get|warnings_watch_Watch_origin_of_body',
                     r'\((p\d+) [!=]= 0u\)', r'\b@ = load16\('))),
    'height': Kind(
        'a node of another height than the one that was just seen, or a tree of more than 2^37 items',
        functions='std_collections_btree_node_Node_destroy', condition=r'load16\(\(word\)\w+ \+ 2u\)( == 0u)?\) {$',
        also=(having(TREES + '|warnings_watch_Watch_keep_definition', r'\(n\d+ > 10u\)'),)),
    'level': Kind(
        'a leaf with edges, into which an item is put, or a node without edges above a node that is split',
        functions=TREES, condition=r'n\d+ \? 16u : 0u\)', after=r'n\d+ \? p\d+ \+ 1u : 0u\)',
        also=(having(TREES, r'(n)\d+ \? p\d+ \+ 1u : 0u\)', r'@\d+ \? 16u : 0u\);$'),
              having(KEEPING, r'n(\d+) \? 16u : 0u\)', '', r'n\d+ \? p\d+ \+ 1u : 0u\)'),
              having(KEEPING, r'n(\d+) \? p\d+ \+ 1u : 0u\)', r'n@ \? 16u : 0u\);$'))),
    'middle': Kind(
        'the middle item of a row that is mirrored: the places that are exchanged there are two',
        functions='std_collections_btree_row_Row_reverse', condition=rf'\(({VARIABLE}) (!= 0u|<= [1-6]u)\)',
        before=rf'\b@ = {VARIABLE} - [1-7]u;'),
    'table': Kind('a constant text that overlaps what it is copied to: the tables of the engine are never written',
                  condition=rf'\({VARIABLE} - \(TABLES \+ \d+u\) (<|<=|>) ({VARIABLE}|\d+u)\)',
                  also=(having('views_', r'^if \(w\d+ - (w\d+) >= p\d+\) {$',
                               r'const u64 @ = n\d+ \? TABLES \+ \d+u : TABLES \+ \d+u;$'),
                        having('views_', r'^if \(w\d+ - (w\d+) <= \d+u\) {$', r'const u64 @ = table64\((.*\n)*'))),
    'part': Kind(
        'a part that is empty, stays where it is, overlaps its copy or is copied the other way: `copy_long` of '
        'trac_space first tests `end - start < BLOCK`, `start.abs_diff(to) < BLOCK` and `start < to`, and '
        '`copy_disjoint` `requires apart`',
        functions='space_copies_copy_(long|higher_by_parts|lower_by_parts)'),
    'eights': Kind(
        'a copy to a higher place of 17 to 24 cells that takes another number of blocks of eight than two before the '
        'first block, or one of more cells that takes fewer (`copy_higher_by_blocks` of trac_space)',
        functions='forms_work_Work_load_other_part|core_call_answer|core_machine_advancing_go_on$|'
        'store_item_copies_load_items_over_index',
        condition=rf'^if \(\(\(word\)({VARIABLE}) & 8u\) == 0u\) {{$|^if \(({VARIABLE}) >= 8u\) {{$',
        before=r'>= 25u\) {\n(.*\n){1,4}.*>= 17u\) {\n.*\b@ = w\d+ - 9u;',
        also=(having('forms_work_Work_load_other_part|core_call_answer|core_machine_advancing_go_on$|'
                     'store_item_copies_load_items_over_index', r'^} while \((w\d+) > 8u\);$',
                     r'(p\d+) = \1 - 128u;\n *@ = @ - 16u;$'),
              having('space_filling_put_untagged', r'^if \((w\d+) >= 8u\) {$', r'\b@ = to - 9u;'))),
    'count': Kind(
        'a count of bytes, cells, items or lines, or a place among them, that reaches 2^60: there are fewer',
        condition=rf'{VARIABLE} (== 0u|[<>] {VARIABLE}) \? 18446744073709551615ull : {VARIABLE}',
        also=(having('std_alloc_|core_alloc_|std_collections_btree_(map|node)|warnings_findings_',
                     rf'\({VARIABLE} == 18446744073709551615ull\)|\^ 18446744073709551615ull\) < {VARIABLE}\)'),
              having('std_alloc_', rf'\(\(i64\){VARIABLE} < 0\)|{VARIABLE} < 4611686018427387904ull \?'),
              having('std_alloc_', rf'\({VARIABLE} > \d{{18,19}}ull\)'),
              having(TREES, r'load64\(\w+ \+ 16u\) <?>?=? 9223372036854775806ull'),
              having('warnings_(watch_|findings_)', r'load64\(self \+ \d+u\) <= 9223372036854775806ull|'
                     r'\(w\d+ == 18446744073709551615ull\)$'),
              having('warnings_watch_Watch_warn_of_string', r'w\d+ < len \? 18446744073709551615ull : w\d+;'))),
    'overlap': Kind(
        'a copy that overlaps itself: it is made from a shared slice to an exclusive one, or to a new place of a list',
        condition=rf'\({ADDRESS} - {ADDRESS} < ({VARIABLE}|\w+_len)\)',
        after=rf'& (3u|18446744073709551612ull);$|^if \({VARIABLE} [!=]= 0u\)( \{{)?$',
        also=(having('c_check_', r'^if \(to - w\d+ < w\d+\) {$'),)),
    'order': Kind(
        'a copy to cells in front of those that are copied: the store, neutral and active stand in this order '
        '(`IsLaidOut` of trac_space)',
        functions='space_space_Space_copy_store|forms_work_Work_neutral_to_active|functions_arguments_put_part|'
        'engine_define|engine_load',
        condition=rf'\((\(u64\))?{VARIABLE} \+ 8u <= {VARIABLE}\)'),
    'few': Kind('a search among fewer than 8 forms: `Work::find` of trac_forms calls it where `count >= FEW_FORMS`',
                functions='forms_work_Work_find_among_more', condition=rf'\({VARIABLE} <= 7u\)'),
    'held': Kind(
        'a character that is read and fits: `take_held` of trac_devices `ensures taken` that it took all that fit, so '
        'what is left meets a full neutral',
        functions='c_turn_take_turn|core_input_output_read_string', condition='space_space_Space_push_over_index'),
    'room': Kind(
        'a byte that a turn prints behind the end of the output: `go_on` of trac_c `ensures fits`',
        functions='core_display_show_items4|c_devices_OverflowSinkSink_put_all|c_turn_take_turn',
        condition=rf'load64\(sink \+ 8u\) (<=|>) |\({VARIABLE} (<|<=|>=) w\d+\)'),
    'innermost': Kind(
        'a call with another one open behind it: only the innermost call is performed (`IsCall` of trac_functions)',
        condition=rf'\(({VARIABLE}|\w+ \+ 1u) == ({VARIABLE})\)',
        before=r'\b@ = load32\((\w+ \+ 32u|frame \+ 1248u)\);',
        also=(having(WATCHED, r'\((n\d+) == n\d+\)', r'\b@ = load32\(frame \+ 1400u\);'),)),
    'head': Kind(
        'a cell of a form\'s head that is no number, or stands behind the store: each form begins with three numbers '
        '(`AreForms` of trac_store), and so does each entry of an index (`IsSound` of trac_forms)',
        functions='forms_|functions_form_|engine_find_form|core_machine_Machine_form_named',
        condition=r'(load8\(p\d+\)|n\d+) == 4u \?',
        also=(having('forms_|engine_find_form', rf'\({VARIABLE} [<>] ({VARIABLE}|form_start|first_start)\)|'
                     rf'\((first_start|form_start) [<>] {VARIABLE}\)',
                     after=r'^(const word )?(p|n)\d+ = (\(\(word\)\w+ << 3\) \+ |load8\(p\d+\) == 4u \?)'),)),
    'character': Kind(
        'a cell that is no character, in a text that has nothing else: the active string (`IsSound` of trac_forms), '
        'the name of a form (`AreForms` of trac_store), and an argument (`IsTextPart`), which has no mark',
        functions='values_|functions_bit_strings_|functions_form_parts_call_number|store_borders_tag_borders|'
        'forms_work_Work_delete_by_name|c_forms_lay_string|engine_(form_name|active_part|argument|find_form)$|'
        'warnings_(blanks|bodies|misspelled|names|operands|performed|printed|watch)_|'
        'views_(deleted|escapes_push_name)|tracer_',
        condition=rf'\(load8\({CELL}( \+ p\d+)?( [-+] (1|8|17)u)?(, 1u\))?\)( [!=]= 0u)?\)( {{)?$',
        also=(having('warnings_segmented_', rf'load8\(no_address\({CELL}, 1u\)\)( == 0u)?\)'),
              having('engine_save', r'load8\(p\d+ - 1u\) == 0u'),
              having(WATCHED, r'^if \(load8\(p\d+\)\) {$'),
              having('warnings_segmented_', r'\(load8\(p\d+\) == 0u\) {$', '',
                     r'^n\d+ = load8\(p\d+ \+ 1u\);$|& 223u\) - 65u\)'),
              having('warnings_segmented_look_at_texts', r'^if \(load8\(p\d+\)\)$', '', r'^goto L\d+;$'),
              having(CALLING, r'^if \(n\d+ != 2u\)$'),
              having('warnings_watch_Watch_warn_of_result', r'\(load8\(p\d+ - 9u\) == 0u\) {$'))),
    'image': Kind(
        'a part of a form in an image that begins or ends behind the image: `has_room` of trac_image was asked of that '
        'form before, its heads have 16 bytes and each gap 8',
        functions='image_|engine_load$', condition=r'\? 0u :|TABLES \+ 5032u',
        also=(having('engine_load$', r'\(w\d+ (==|!=|<|>=) [0135]u\)',
                     after=r"^(n\d+ = (0u|\(?load8)|const u64 w\d+ = w\d+ - 4u|n\d+ = \(load8)"),)),
    'cells': Kind(
        'a sum of cells, of marks or of an ordinal and 255 that reaches 2^32: a block has at most 16777216 cells '
        '(`bounded` of `IsLaidOut`), and so great an ordinal is the greatest',
        condition=r'[^(](n\d+) \? \1 : 4294967295u|n\d+ [<>] n\d+ \? 4294967295u : n\d+',
        also=(having('warnings_(arguments|performed)', r'\(w\d+ < 4294967295u \?'),
              having('warnings_(operands|performed_(is|look)|printed|segmented|watch)',
                     r'\((n\d+) \? \1 : 4294967295u'),)),
    'gap': Kind(
        'a cell of a body that is no gap: its kind was just seen',
        functions='space_filling_fill_each|store_item_copies_',
        condition=r'(load8\(p\d+\)|n\d+) == 3u \? load32\(p\d+ \+ 4u\) - 1u : 4294967295u'),
    'rest': Kind(
        'an input of which more was consumed than there is: what is left of it is its end (`TurnedOrOver` of trac_c)',
        functions='c_turn_take_turn|engine_(run|run_zeroed|trace_step)$',
        condition=rf'(input_len|script_len) < ({VARIABLE}) \? 0u|({VARIABLE}) > (input_len|script_len) \? 0u'),
    'laid out': Kind(
        'a part of the block that ends in front of where it begins: the store, neutral and active stand in this order '
        '(`IsLaidOut` of trac_space)', functions='engine_part$', condition=r'\? 0u : w\d+;',
        also=(having('views_faults_push_fault$', r'w\d+ > p\d+ \? 0u : w\d+|p\d+ < w\d+ \? 0u : w\d+|'
                     r'^const u64 w\d+ = w\d+ < w\d+ \? 0u : w\d+;'),)),
    'asked before': Kind(
        'what `api.c` refuses, or asks for only within the bounds: more cells than there can be, a form or a fact that '
        'is none', functions='engine_(open|open_zeroed|turn_to_form|function_fact)$',
        condition=r'<= (16777216|4294967295)u|^switch \(which\)',
        also=(having('engine_function_fact$', r'^if \(load8\(frame \+ \d+u\) != 1u\) {$'),)),
    'popped': Kind(
        'a list that has no room for an item, although one was just taken from it',
        functions='checker_|warnings_watch_',
        condition=r'load64\(\w+ \+ \d+u\) \+ 1u [=!]= w\d+\)',
        also=(having('warnings_watch_Watch_(close_call|warn_of_each_end)', r'\(load64\(self \+ \d+u\) == w\d+\)'),
              having(WATCHED, r'^if \((w\d+) != 0u\) {$', r'u64 @ = load64\(frame \+ 1064u\);', '',
                     r'Findings_add\('))),
    'fitting': Kind(
        'a list that was made with room for all that is put into it, and is full before',
        functions='warnings_performed_characters_of', condition=r'\(load64\(frame \+ \d+u\) == w\d+\)'),
    'known name': Kind(
        'memory for a name in a tree that has this name: what is known of it is replaced',
        functions='warnings_watch_Watch_count_call', condition=r'\(load8\(frame \+ \d+u\) == 0u\)'),
    'word': Kind(
        'a null text, or one with another character than small letters, inside longer words: `stands_in_words` of '
        'trac_warnings and its caller test that before', functions='warnings_inside_', condition=r'\(text_len != 0u\)',
        also=(having('warnings_inside_', r'load8\((p\d+)\) == 0u\)', r'\b@ = text;'),)),
    'argument': Kind(
        'an argument that is missing, although the arguments were just counted, or this one was just found, or '
        '`has_plain_numbers` of trac_warnings takes the calls without it',
        functions='warnings_', condition=r'(n\d+) \? (?:\(?\(word\)|TABLES \+ 5032u :)', before=r'if \(@( == 0u)?\) {',
        also=ARGUMENT + tuple(having(COUNTING, *one) for one in (
            (rf'\(({VARIABLE}) == {VARIABLE}\)', r'do {\n.*\bu64 \w+ = 0u;\n.*{\n.*if \(@ != 0u\) {\n.*\n.*\n.*\n.*$',
             r'^w\d+ = w\d+;$'),
            (rf'\(({VARIABLE}) != 0u\)', r'do {\n.*\bu64 \w+ = 0u;\n *{$', r'^word p\d+ ='),
            (r'^w\d+ = n\d+ \? w\d+( - w\d+)? : 0u;', '', r'^(w|p)\d+ = n\d+ \? .* : TABLES \+ 5032u;'),
            (r'^(p|w)\d+ = n\d+ \? .* : TABLES \+ 5032u;', '', r'^n\d+ = (1u|n\d+ \+ 1u);')))),
    'outcome': Kind(
        'another outcome of a step than the one that was just told', functions='core_scan_scan_once',
        condition=r'store32\(result \+ [48]u, n\d+ \?'),
    'arm': Kind(
        'a cell of a kind that does not stand there: a body has characters and gaps (`AreForms` of trac_store), a '
        'string characters and marks (`IsStringCell`), a text that is searched for no gap, and where tags are removed '
        'each cell has one; or a kind that was just tested',
        functions='core_display_|warnings_bodies_look_at_body|engine_(form_codes|neutral_part|save)$|'
        'views_(escapes_push_cells_cut|lines_push_cells)',
        condition=r'^switch \((load8\((\(word\))?(\w+)\) - 1u|\(u32\)\(\(word\)n\d+ & 255u\) - 1u)\)',
        also=(having('store_borders_tag_borders|space_filling_put_untagged|functions_form_(calls_segment_string|'
                     'parts_initial_part)', r'^switch \(\(u32\)\(\(word\)n\d+ & 255u\) - 3u\)'),
              having('store_borders_tag_borders|functions_form_(calls_segment_string|parts_initial_part)',
                     r'\(n\d+ & 255u\) \? 0u : load8\(p\d+ \+ 1u\);'),
              having('forms_work_Work_find_among_more|functions_form_calls_|core_machine_Machine_form_named',
                     r'^switch \(n\d+ - 1u\)'),
              having('core_call_answer|checker_run_watched', r'^switch \(n\d+ - 5u\)'),
              having(WATCHED, r'^switch \(n\d+ - 3u\)'),
              having(GIVEN, r'^if \(load8\(p\d+\) == 3u\) {$'))),
    'place': Kind(
        'a digit behind the end of a bit string: its place was computed from the number of digits',
        functions='values_bit_string_', condition=r'\(p\d+ < digits_len\)',
        also=(having('values_bit_string_', r'\((w\d+) < digits_len\)',
                     r'= (w\d+ - p\d+|digits_len \* 18446744073709551613ull \+ w\d+);\n *const u64 @ = w\d+ / 3u;\n'
                     r'.*= 0u;$'),
              having('values_bit_string_', r'\((w\d+) < digits_len\)',
                     r'= (w\d+ - p\d+|digits_len \* 18446744073709551613ull \+ w\d+);\n *const u64 @ = w\d+ / 3u;$'))),
    'taken away': Kind(
        'a difference that is less than 0: what a step took from a string, what a call has of all arguments, and what '
        'stands behind a string is a part of what there was',
        functions='checker_run_watched|tracer_shown_Shown_add_lines|'
        'warnings_watch_Watch_(look_at_call|warn_of_(protection|result)|origin|define|follow)',
        condition=rf'({VARIABLE}) (?:<|>) ({VARIABLE}) \? 0u : ', before=rf'\b@ = {VARIABLE} - '),
    'named': Kind(
        'a call without a cell, although its name was just found to be that of a function',
        functions='warnings_(operands|performed_look_at_named|performed_warn_of_nesting|printed_look|segmented|'
        'bodies_look|arguments)',
        condition=rf'\(({VARIABLE}) != 0u\)', before=r'\b@ = load64\((ending|a\d+) \+ 8u\);(\n.*){0,6}$',
        also=(having('warnings_watch_Watch_', r'^if \((w\d+) != 0u\) {$', r'@ = load64\(self \+ 248u\);$'),
              having(CALLING, r'^if \((w\d+) != 0u\) {$', r'@ = load64\(ending \+ 8u\);'),
              having('warnings_watch_Watch_warn_of_result', r'^if \((n\d+) == 0u\) {$', behind=r'\b@ = w\d+ == 0u;'),
              having('warnings_operands_look_at_both', r'^if \((n\d+) == 0u\) {$',
                     behind=r'\+ 8u\);\n *@ = w\d+ == 0u;'),
              having('warnings_(operands_(look_at_numbers|parts_number)|segmented|performed_look|'
                     'watch_Watch_warn_of_result)', r'\((n\d+) == 0u\)',
                     rf'\b@ = ({VARIABLE}|arguments_len) == 0u;'),)),
    'tested': Kind(
        'a loop whose condition was just tested, or tested at the end of its last turn',
        functions='checker_run_watched|warnings_watch_Watch_follow_row', condition=r'^while \((w\d+) != 0u\) {$',
        before=r'(if|while) \(@ == 0u\)|@ = w\d+;$',
        also=(having(WATCHED, r'^while \((w\d+) != 0u\) {$', r'if \(@ != 0u\) {'),)),
    'device': Kind(
        'a step that performs no call, or a call of no function: `advance` of trac_core makes each step that needs no '
        'device, and these make only the one before which it stopped (`next_function`), the trace one that prints',
        functions='c_turn_take_turn|engine_trace_step$',
        condition=r'^if \(load8\((p\d+) \+ 16u\) [=!]= 2u\)$|^if \((w\d+) >= 2u\) {$',
        before=r'\b@ = (\(u64\)n\d+ - p\d+;|\(p\d+ << 3\) \+ )',
        also=(having('c_turn_take_turn|engine_trace_step$', r'^if \(load8\(frame \+ \d+u\) [!=]= 1u\) {$',
                     after=r'^(n\d+ = 0u;|n\d+ = n\d+ == 0u;|u32 n\d+;)$'),
              having('c_turn_take_turn|engine_trace_step$', r'^if \(load8\(frame \+ \d+u\) == 0u\) {$',
                     after=r'^store64\(machine \+ 32u, 0u\);$'),
              having('engine_trace_step$', r'^switch \(load8\(frame \+ \d+u\) - 1u\) {$'))),
    'kept': Kind(
        'warnings that the watch still has when a run is over, or before a row of steps: `keep_warnings` of '
        'trac_checker took them all (`none`)', functions='engine_check|c_check_', condition=r'\(w\d+ != 0u\)',
        after=r'^word p\d+ = \(word\)w\d+ \+ 72u;$',
        also=(having(WATCHED, r'\((w)\d+ != 0u\)', r'checker_run_pass_row\(.*\n.*$'),
              having(WATCHED, r'^if \((w\d+) != 0u\) {$', r'u64 @ = load64\(frame \+ 1056u\);$', '',
                     '^do {$'),
              having(WATCHED, r'\((w)\d+ != 0u\)', r'copy\(result \+ 8u, frame \+ \d+u, \d+u\);',
                     r'^word p\d+ = \(word\)w\d+ \+ 72u;$'),
              having('std_alloc_vec_Vec_drop$', r'\(w\d+ != 0u\)', after=r'^word p\d+ = \(word\)w\d+ \+ 72u;$'))),
    'gone through': Kind(
        'warnings that begin at the front of their list again: `add_all` of trac_checker goes through a list from its '
        'front, and puts nothing into it', functions='std_alloc_vec_deque_VecDeque_drop',
        condition=rf'\({VARIABLE} \+ ({VARIABLE}) > \1\)',
        also=(having('std_alloc_vec_deque_VecDeque_drop', r'\(w\d+ != 0u\)',
                     after=r'^word p\d+ = \(word\)w\d+ \+ 72u;$'),)),
    'quotient': Kind(
        'a quotient that is -2^127, or a dividend that is: the numbers that are divided are greater (`in_range` of '
        'trac_language)',
        functions='values_number_result_of', condition=r'= (n)\d+ \? w\d+ : 0u;',
        before=r'(\(i64\)w\d+ >> 63\)|0u - \(\(u32\)\(w\d+ != 0u\) \+ w\d+\)|w\d+ = w\d+ - w\d+);(\n.*){1,3}$',
        also=(having('values_number_result_of', r'\^ 9223372036854775808ull\) \| w\d+\) != 0u\) {$'),
              having('functions_arithmetic_arithmetic', r'\(w\d+ != 9223372036854775808ull\) {$'))),
    'division': Kind(
        'a quotient of 128 binary digits, or of a dividend that has fewer than the divisor: the dividend is less than '
        '2^127 (`in_range` of trac_language), a divisor with more digits was tested before, and `parted` of '
        'trac_functions divides by 10^19',
        functions='values_number_result_of|functions_arithmetic_long_arithmetic',
        condition=rf'\(\(\({VARIABLE} \^ 127u\) \| {VARIABLE}\) == 0u\)|'
        rf'^if \(\({VARIABLE} \| {VARIABLE}\) == 0u\) {{$'),
    'long text': Kind(
        'no character in front of the last nineteen of a number that is longer: its text has twenty at least '
        '(`may_be_long` and `short_number` of trac_values)',
        functions='functions_arithmetic_long_arithmetic', condition=r'^if \((w\d+) [<>] (w\d+)\) {$',
        before=r'const u64 @ = w\d+ < w\d+ \? 0u : w\d+;$'),
    'longest number': Kind(
        'a value of digits that is less than 0, or of no digit: it grows from 0 and ends where it leaves the range '
        '(`long_value` of trac_values), and there are more than 38 digits (`number_in_two_parts`)',
        functions='values_number_longest_tail', condition=r'n\d+ \? 0u - (w\d+ :|\(\(u32\))',
        also=(having('values_number_longest_tail', r'^if \(w\d+ == 0u\) {$'),)),
    'no digits': Kind(
        'a digit of a number that is compared with none: as many are compared as it has (`compare_digits` of '
        'trac_values)',
        functions='values_comparing_long_greater', condition=r'w\d+ < w\d+ \? 0u : 208u|n\d+ > n\d+ \? 0u : 2u',
        also=(having('values_comparing_long_greater', r'^if \(w\d+ <= (w\d+)\) {$', r'const u64 @ = w\d+ - 1u;'),)),
    'prefix': Kind(
        'a prefix of a number without a character: that it has some was just tested (`load_prefix` of trac_functions)',
        functions='functions_arithmetic_', condition=r'^if \(([np]\d+) != 1u\) {$',
        before=r'store32\(work \+ 24u, n\d+\);\n *n\d+ = n\d+;\n *store8\(.*\n.*\n.*\n *return;\n *}$'),
    'item': Kind(
        'an item behind the end of a body, a run of characters without one, or a number without a digit, where a form '
        'is displayed or copied: places are counted up to its length',
        functions='core_display_',
        condition=r'\((load64\(form \+ 24u\)|w\d+) > p\d+\)|\(p\d+ >= w\d+\)|^if \(w\d+ [!=]= 40u\)',
        also=(having('core_display_', r'^} else if \(w\d+ != 0u\) {$'),
              having('warnings_bodies_look_at_body', r'^if \(load64\(form \+ 24u\) > w\d+\) {$'),
              having('functions_form_parts_take_part', r'^if \(n\d+ <= n\d+\)$'))),
    'innermost mark': Kind(
        'a mark of an open call that stands behind the neutral string, or is none: the marks are linked (`IsLinked` of '
        'trac_space)', functions='engine_calls$', condition=r'<= n\d+\)|!= 1u\)',
        also=(having(WATCHED, r'(n\d+) \? (w\d+ - p\d+ : 0u|p\d+ : \(word\)w\d+)',
                     r'const u32 @ = n\d+ - 1u < w\d+;'),
              having(WATCHED, r'^if \((n\d+) == 0u\)$', r'@ = load32\(frame \+ 1400u\);$', r'^goto L\d+;$'),
              having(ENDING, r'(n\d+) \? ', r'const u32 @ = (w\d+ > p\d+|p\d+ < w\d+);'),
              having(ENDING, r'^if \((n\d+) != 0u\) {$', r'@ = load32\(machine \+ 32u\);$'),
              having(ENDING, r'^if \(n\d+ != n\d+\) {$'),
              having(WATCHED, r'^if \(load32\(frame \+ 1388u\) > n\d+\) {$|'
                     r'load8\(p\d+\) == 1u \? load8\(p\d+ \+ 1u\) : 0u'),
              having('engine_trace_step$', r'(n\d+) \? w\d+ - p\d+ : 0u;|(n\d+) \? p\d+ : \(word\)w\d+\) << 3\)',
                     r'\b@ = n\d+ - 1u < w\d+;'),
              having('engine_trace_step$', r'^if \(load32\(machine \+ 20u\) > (n\d+)\) {$', r'\b@ = n\d+ - 1u;$'),
              having('engine_trace_step$', r'load8\(p\d+\) == 1u \? load8\(p\d+ \+ 1u\) : 0u\)'),
              having('tracer_shown_Shown_look_at_call$', r'= (n\d+) \? w\d+ : 0u;|\(\((n\d+) \? w\d+ : w\d+\) << 3',
                     r'\b@ = w\d+ > call;'))),
    'argument found': Kind(
        'an argument of a step that performs none, or behind the last one: `trac_argument` asks for the number of '
        'arguments first, and the next step for those of its call',
        functions='core_machine_Machine_argument$',
        condition=r'== 1u\)|>= load64\(self|\(n\d+ != 0u\)|!= 41u\)|> load32\(frame'),
    'long number': Kind(
        'a number of more than 64 bits that is written at once: one of more than nineteen digits is written in two '
        'parts (`give_long_number` of trac_functions)',
        functions='itoa_Buffer_format2', condition=r'^if \(w\d+ != 0u\) {$'),
    'ordinal': Kind(
        'an ordinal of nine digits: the greatest is 16777216, `trac_define` refuses others, and `ss` has fewer texts',
        functions='core_display_', condition=r'100000000u|99999999u'),
    'other character': Kind(
        'a character of one byte, or a second one: `character_len` of trac_views asks of bytes that begin with another '
        'one, and of the fewest bytes first', functions='views_escapes_is_whole',
        condition=r'\(\(i32\)n\d+ >= 0\)|\(w\d+ < 2u\)|while \(w\d+ < len\)'),
    'failed reading': Kind(
        'a step that is not made, performs no call that reads, or ends in another way, where reading fails: the turn '
        'before it waited for input (`one_step` of trac_c)', functions='engine_trace_step$',
        condition=r'^if \(load8\(machine \+ 84u\) == 1u\) {$|^if \(load64\(machine \+ 64u\) == w\d+\) {$|'
        r'^if \(\(?n\d+ & (3u|12u)\)',
        also=(having('engine_trace_step$', r'^if \(load8\(frame \+ \d+u\) == 1u\) {$',
                     after=r'^n\d+ = load8\(frame \+ \d+u\);$'),
              having('engine_trace_step$', r'^if \(n\d+\) {$', after=r'^core_call_answer\('),
              having('engine_trace_step$', r'^if \(\((n\d+) & 255u\) == 0u\) {$', r'n\d+ = load32\(p\d+\);$',
                     r'^n\d+ = 0u;$'))),
    'slice': Kind(
        'an output that fails: what a step prints fits in its bytes, or the step is not made (`step_on` of trac_c)',
        functions='engine_trace_step$', condition=r'^switch \(n\d+ - 1u\)',
        after='^case 0:$'),
    'later': Kind(
        'lines or a form before their step is made, and names of deleted forms where a step waits: only `dd` and `da` '
        'delete forms, and wait for nothing', functions='engine_trace_step$', condition=r'^if \((w\d+) != 0u\) {$',
        before=r'= load32\(trace \+ 48u\);\n(.*load64\(p\d+\);\n)?.*\b@ = load64\(frame \+ 208u\);$',
        also=(having('engine_trace_step$', r'^if \((w\d+) != 0u\) {$',
                     r'case 10:\n(.*\n)*.*\b@ = load64\(frame \+ 288u\);$'),
              having('engine_trace_step$', r'^if \((w\d+) == 0u\) {$',
                     r'w\d+ = 0u;\n *n\d+ = 10u;\n.*\b@ = load64\(frame \+ 320u\);$'),
              having('engine_trace_step$', r'^if \((w\d+) == 0u\) {$', r'frame \+ 192u\)\) {\n *store64\(p\d+ \+ '
                     r'32u(.*\n)*.*}\n.*\b@ = load64\(frame \+ 320u\);$'))),
    'newest': Kind(
        'a list that ends and is not the last of its arena: it is the newest, as those that were made after it ended '
        'before it: the lines, their copy, names of deleted forms and arguments where no call is made, and a text that '
        'finds no more memory', functions='engine_trace_step$',
        condition=r'^if \(load64\(p\d+\) \+ w\d+ == (load64\(frame \+ (192|464)u\))\) {$',
        also=(having('engine_trace_step$', r'^if \(load64\(p\d+\) \+ (w\d+) == w\d+\) {$',
                     r'= load64\(frame \+ 480u\);(\n.*){5}$'),
              having('engine_trace_step$', r'^if \(load64\(p\d+\) \+ (w\d+) == load64\(frame \+ 224u\)\) {$',
                     r'case 10:\n'),
              having('engine_trace_step$', r'^if \(load64\(p\d+\) \+ (w\d+) == load64\(frame \+ 272u\)\) {$',
                     r'= load32\(trace \+ 48u\);\n *w\d+ = load64\(p\d+\);\n'),
              having('views_escapes_push_(cells_cut|name)$',
                     r'^if \(load64\(p\d+\) \+ (w\d+) == load64\(frame \+ 8u\)\) {$'),
              having('views_forms_push_form$', r'^if \(load64\(p\d+\) \+ w\d+ != load64\(frame\)\) {$'))),
    'marked form': Kind(
        'the text of a form that is shown, if it has nothing: it has the mark of the pointer at least (`show_form` of '
        'trac_core)', functions='views_forms_push_form$', condition=r'^if \((w\d+) == 0u\) {$',
        before=r'views_escapes_push_cut\(.*\n.*\b@ = load64\(frame \+ 16u\);$'),
    'reserved': Kind(
        'cells for a part of a number that are not there: that all of it fits was tested before (`give_decimal` and '
        '`give_digits` of trac_functions)', functions='functions_arithmetic_',
        condition=r'try_reserve_without_index\(work, w\d+\) == 0u\)',
        also=(having('functions_arithmetic_', r'^if \((n\d+) == 0u\)$',
                     r'@ = space_space_Space_try_reserve_without_index\(work, w\d+\);(\n.*){1,4}$'),)),
    'one cell': Kind(
        'a character that doesn\'t fit in front of an index: the right parenthesis of the call that gives it left a '
        'cell', functions='functions_form_parts_call_character$|core_call_answer$',
        condition=rf'^if \(load32\((work|{VARIABLE}) \+ 24u\) \+ (n\d+) != load32\((work|{VARIABLE}) \+ 28u\)\) {{$',
        after=r'= \(\(word\)n\d+ << 3\) \+ '),
    'long forms': Kind(
        'one cell, where a form or a call of `ds` is moved, or fewer than nine where a form of eight is made: a form '
        'has three numbers, and the call has a mark, the name of its function, a comma, and all that the form has',
        functions='functions_form_calls_delete_definition$', condition=r'^if \((w\d+) == 1u\) {$',
        before=r'\b@ = \(u64\)p\d+ - p\d+;',
        also=(having('functions_form_calls_define_string$', r'^if \(w\d+ == 1u\) {$'),
              having('functions_form_calls_define_string$', r'^if \((w\d+) >= 9u\) {$',
                     r'if \(n\d+ >= 8u\) {\n *if \(@ - 8u <= 40u\) {$'))),
    'null name': Kind(
        'a name without a character, of which the last character was just compared (`find_between` of trac_store)',
        functions='store_form_cells_find_|forms_work_Work_find_among_few$', condition=r'^if \((n\d+) == 0u\)( {)?$',
        before=r'if \(p\d+ == \w+\) {\n(.*load8.*\n)?.*\) {$'),
    'cut': Kind(
        'a place behind the end of a text, or in one that has nothing: a text is cut where it is longer than its '
        'width, and looked at from one of its bytes on (`push_cut` and `push_text` of trac_views)',
        functions='views_escapes_(push_cut|left_at)$',
        condition=r'^if \(\(u32\)\(word\)bytes_len - 1u\) {$',
        also=(having('views_escapes_push_cut$', r'^if \((w\d+) < bytes_len\) {$', r'u64 @ = \(u64\)p\d+ - p\d+;'),)),
    'emptied': Kind(
        'a list that is emptied and has something: all lists are made anew for each step (`show_in` of trac_c)',
        functions='tracer_shown_Shown_(look_at_call|add_call)$', condition=r'^if \(load64\(p\d+\) != 0u\) {$'),
    'index': Kind(
        'an index without cells, which has room for another form: it has four cells for each', condition=r'^} else if '
        r'\((n\d+) != n\d+\) {$', functions='engine_define|functions_form_calls_define_string$|forms_index_index_from$',
        before=r'forms_index_grow_index\(\w+, n\d+ \+ 1u\);\n *}$',
        also=(having('engine_define|functions_form_calls_define_string$|forms_index_index_from$',
                     r'^if \((w\d+) != 0u\) {$', r'\b@ = \(\(w\d+ - p\d+\) >> 1\) & 9223372036854775806ull;$'),)),
    'listed': Kind(
        'a form that is none, or a call in the view of steps: names are listed of as many forms as there are (`forms` '
        'of trac_forms), and `add_call` of trac_tracer shows calls in other views',
        functions='functions_form_calls_list_names$', condition=r'^if \(load8\(frame\) == 1u\) {$',
        also=(having('views_events_push_event$', r'^if \(load8\(views \+ 33u\) != 1u\) {$'),)),
    'next rule': Kind(
        'an active string that is empty or begins with another character, although the next rule was just told to be '
        'that of a left parenthesis (`next_rule` of trac_core)', functions='engine_trace_step$',
        condition=r'^if \(load8\(\(\(word\)n\d+ << 3\) \+ p\d+ \+ 1u\) == 40u\) {$',
        also=(having('engine_trace_step$', r'^if \((n\d+) != 0u\) {$',
                     r'case 0:\n *{\n.*@ = load32\(machine \+ 24u\);$'),)),
    'opening': Kind(
        'the characters that open a call, if they are none: they are two or three (`opening` of trac_views)',
        functions='views_(calls_push_call|faults_push_fault)$', condition=r'^if \((p\d+) != 0u\) {$',
        before=r'const u64 (w\d+) = n\d+ \? TABLES \+ \d+u : TABLES \+ \d+u;\n *if \(w\d+ - \1 >= @\) {$'),
    'digits': Kind(
        'a number without a digit', condition=rf'if \(({VARIABLE}) != 0u\)', before=r'\b@ = 40u - ',
        also=(having('functions_arithmetic_', r'^if \((w\d+) [!=]= 0u\) {$', r'if \(@ <= 7u\) {$'),
              having('functions_arithmetic_', r'^if \(w\d+ [!=]= 40u\)'))),
    'printing': Kind(
        'a step that performs no call, or a call of another function, although the next step was just found to perform '
        'one that prints (`next_function` of trac_core)',
        functions='c_turn_take_turn|engine_skip_print$', condition=r'\+ 1u\) == 41u\) {$',
        also=(having('engine_skip_print$', r'^if \(n\d+ != 0u\) {$'),
              having('c_turn_take_turn', r'^if \(n\d+ != 0u\) {$', after=r'^const word p\d+ = load_word\(machine\);$'),
              having('core_machine_printing_call_len', r'33553399u|== 2u\) {$|^if \(n\d+\) {$'))),
    'walk': Kind(
        'a walk to a form from the one used last, or from the first: `Work::find` and `Work::form` of trac_forms make '
        'the form that they give the one used last (`last`), and these functions ask only for that one',
        functions='functions_form_(calls|parts)_|'
        'forms_work_Work_(copy_body|set_pointer|next_char|place_of|body_len|pointer)$',
        condition=rf'\(({VARIABLE}|form|k) (?:[=!]=|[<>]=?) ({VARIABLE}|form|k)\)',
        before=r'\b@ = load32\(\w+ \+ 44u\);| = \w+ \+ 44u;\n.*\b@ = load32\(\w+\);'),
    **OF_CHECKS,
}
# Some of these can be taken, or nobody has examined whether they can.
OTHERS = {
    'deep line': Kind(
        'more memory for the number of the calls around a call: its line has room for sixty bytes there, so the number '
        'of the step would have more than twelve digits', functions='views_calls_push_call$',
        condition=r'^if \((w\d+) == w\d+\) {$', before=r'store64\(line, w\d+\);$',
        also=(having('views_calls_push_call$', r'^if \((w\d+) - w\d+ <= 1u\) {$', r'} while \(w\d+ != 0u\);$'),
              having('views_calls_push_call$', r'^if \(w\d+ - w\d+ < (w\d+)\) {$', r'@ = 40u - '))),
    'first bytes': Kind(
        'the first bytes of a step, if there is no memory for them, or if its rule needs no more: the lines have '
        'nothing yet in the view of steps, so the number of the step would have more than sixteen digits',
        functions='views_lines_push_step$',
        condition=r'^if \(views_lines_push_column\(|^if \(views_lines_push\(line, TABLES \+ \d+u, 2u\)',
        also=(having('views_lines_push_step$', r'grow_amortized\(line, (2u|13u)\)'),
              having('views_lines_push_step$', r'^if \(w\d+ - w\d+ <= 12u\) {$',
                     after=r'grow_amortized\(line, 13u\)'))),
    'memory': Kind('a list that finds no more memory',
                   condition=r'grow_amortized|alloc_layout_slow|insert_reserved|\w+\(.*& 255u\)'),
    'too short': Kind('a list or a part of the block that is too short, or long enough',
                      condition=rf'\({ADDRESS} - {ADDRESS} (<|<=|>) ({VARIABLE}|\d+u|\w+_len)\)'),
    'empty list': Kind('whether a list that ends had memory', condition=rf'\({VARIABLE} [!=]= 0u\)',
                       after=r'load64\((\(word\))?\w+ \+ 32u\) == 1u|= load_word\(\w+ \+ \d+u\);$'),
    'last piece': Kind('whether a list that ends is the last of its arena',
                       condition=rf'load64\({VARIABLE}\) \+ {VARIABLE} =='),
    'limit': Kind('a sum or a difference at its limit, or a slice that begins behind the end',
                  condition=r'5032u|18446744073709551615ull|4294967295u|\? 0u : |65521u'),
    'tag': Kind('whether a cell of an argument is a character',
                condition=r'load8\(no_address\(\w+( \+ \d+u)?, 1u\)\)'),
    'switch': Kind('an arm of a switch', condition='^switch'),
    'library': Kind('another branch of a function of the libraries of the compiler',
                    functions='std_|core_slice_|bumpalo_|itoa_'),
    'other': Kind('any other branch'),
}
