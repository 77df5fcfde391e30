"""The kernel for Jupyter, used through Jupyter's own client, and the lesson, a notebook that it runs from start to end.
"""
import json
import os
import subprocess
import sys

import pytest

import python_package
from trac import TOP, trace

LESSON = os.path.join(TOP, 'examples', 'lesson.ipynb')
FOREVER = "#(ds,L,(#(cl,L)))#(cl,L)'"


@pytest.fixture(scope='module')
def installed(python_site, tmp_path_factory):
    """The environment of a Jupyter that finds the kernel."""
    prefix = tmp_path_factory.mktemp('kernel')
    python_package.call([sys.executable, '-m', 'trac_t64.kernel', '--install', '--prefix', prefix],
                        env=python_package.environment(python_site))
    own = {name: str(tmp_path_factory.mktemp('jupyter'))
           for name in ('JUPYTER_CONFIG_DIR', 'JUPYTER_RUNTIME_DIR', 'IPYTHONDIR')}
    return python_package.environment(python_site, JUPYTER_PATH=str(prefix / 'share' / 'jupyter'), **own)


@pytest.fixture(scope='module')
def kernel(installed):
    """A kernel that runs, and its client."""
    with pytest.MonkeyPatch.context() as patch:
        for name, value in installed.items():
            patch.setenv(name, value)
        from jupyter_client.manager import start_new_kernel
        manager, client = start_new_kernel(kernel_name='trac_t64', stderr=subprocess.DEVNULL)
    yield manager, client
    client.stop_channels()
    manager.shutdown_kernel(now=True)


SHOWN = {'display_data': lambda content: ('table', content['data']['text/plain']),
         'stream': lambda content: ('stream', content['text']),
         'error': lambda content: ('error', content['traceback'])}


def run(kernel, code, answers=None):
    """What a cell shows, and how it ended. What it asks for is answered in turn."""
    _, client = kernel
    seen, left = [], list(answers or ())

    def see(message):
        if show := SHOWN.get(message['msg_type']):
            seen.append(show(message['content']))

    reply = client.execute_interactive(code, timeout=30, allow_stdin=answers is not None, stop_on_error=False,
                                       stdin_hook=lambda _: client.input(left.pop(0)), output_hook=see)
    assert not left
    return seen, reply['content']['status']


def red(line):
    return [('error', [f'\x1b[31m{line}\x1b[0m'])], 'error'


def test_cells_of_a_session(kernel):
    assert run(kernel, '%reset\n') == ([], 'ok')
    assert run(kernel, "#(ds,greet,(Hello, X!))#(ss,greet,X)'") == ([], 'ok')
    assert run(kernel, "#(ps,##(cl,greet,\u00c9va))'\n") == ([('stream', 'Hello, \u00c9va!')], 'ok')
    assert run(kernel, '##(cl,greet,no apostrophe)') == ([('stream', 'Hello, no apostrophe!')], 'ok')
    assert run(kernel, "#(hl)'#(ps,x)'") == ([], 'ok') and run(kernel, '') == ([], 'ok')
    assert run(kernel, '%forms') == ([('table', 'name   form            pointer\ngreet  <^>Hello, <1>!  0')], 'ok')
    # a character whose two bytes are printed apart
    halves = "#(ds,A,\u00e9)#(ps,#(cn,A,1))#(ps,#(cn,A,1))#(cr,A)#(ps,#(cn,A,1))'"
    assert run(kernel, halves)[0] == [('stream', '\u00e9'), ('stream', '\ufffd')]


def test_what_a_script_reads(kernel):
    assert run(kernel, "#(ps,[##(rs)][##(rs)])'one'", answers=['t,w', "o'"]) == ([('stream', '[one][t,w\no]')], 'ok')
    # if nobody can be asked, the input ends
    assert run(kernel, "#(ps,[##(rs)])'") == ([], 'ok')


def test_faults(kernel):
    assert run(kernel, "%reset\n%steps 100\n\n#(ps,\u00e9)'" + FOREVER) == (
        [('stream', '\u00e9')] + red('line 4, column 34: allowance of 100 steps used up')[0], 'error')
    assert run(kernel, "%steps 1000000\n#(ln,/)'") == ([('stream', '/L')], 'ok')
    assert run(kernel, "%cells 18\n#(ps,hello)'") == red('line 2, column 12: workspace of 18 cells full at step 9')
    assert run(kernel, '%cells 65536') == ([], 'ok')


def test_commands_that_are_refused(kernel):
    for code in ('%nothing', '%cells', '%cells 0', '%cells 16777217', '%cells 1 2', '%steps x', '%reset now', '%',
                 '%trace -1'):
        seen, status = run(kernel, code + "\n#(ps,never)'")
        assert status == 'error' and len(seen) == 1 and seen[0][0] == 'error', code
    for words in ('form', 'calls forms', 'calls 0'):
        assert run(kernel, f"%trace {words}\n#(ps,never)'") == red(
            '%trace, behind which calls or forms may stand, wants one number, from 1 to 18446744073709551615')
    assert run(kernel, '%help')[1] == 'ok'


def test_the_steps_of_a_script(kernel):
    seen, _ = run(kernel, "%trace 3\n#(ps,hello)'")
    assert seen == [('stream', 'hello'), ('table', '\n'.join(trace(b"#(ps,hello)'", '--to', '3')[0][:4]))]
    for view in ('calls', 'forms'):
        seen, _ = run(kernel, f"%reset\n%trace {view}\n#(ds,A,a\\\n)#(ps,b)'")
        script = trace(b"#(ds,A,a\\\n)#(ps,b)'", f'--{view}')[0]
        assert seen == [('stream', 'b'), ('table', '\n'.join(script))]
    assert run(kernel, "%trace calls 0\n#(ps,never)'")[1] == 'error'


def test_what_is_suspicious(kernel):
    run(kernel, "%reset\n#(ds,A,kept)'")
    seen, status = run(kernel, "%check\n#(ps,never)'\n#(pss,a)#(ds,A,lost)'")
    assert (seen, status) == ([('table', 'line  column  what is suspicious\n'
                                         '3     1       no function has the name pss')], 'ok')
    assert run(kernel, "%check\n#(ps,a)'") == ([('stream', 'nothing is suspicious\n')], 'ok')
    assert run(kernel, '%steps 9\n%check\n' + FOREVER) == (
        [('table', 'line  column  what is suspicious\n3     1       the run ended here'),
         ('stream', 'allowance used up: 9 steps, peak 32 cells\n')], 'ok')
    run(kernel, '%steps 1000000')
    assert run(kernel, "#(ps,#(cl,A))'") == ([('stream', 'kept')], 'ok')


TEMPERATURE = """%function temperature
places = {b'indoors': '21', b'outdoors': b'4'}

return places.get(arguments[0])"""
WEATHER = "#(ps,In: #(temperature,indoors); out: #(temperature,outdoors); [#(temperature,\u00e9)].)'"


def function_fault(kernel, code):
    """The line that a cell shows of a fault, which ends it, and what it showed before."""
    seen, status = run(kernel, code)
    assert status == 'error' and seen[-1][0] == 'error'
    return seen[-1][1][0][5:-4], seen[:-1]


def test_functions_that_a_cell_makes(kernel):
    assert run(kernel, '%reset\n' + TEMPERATURE) == ([], 'ok')
    assert run(kernel, WEATHER) == ([('stream', 'In: 21; out: 4; [].')], 'ok')
    assert run(kernel, "%function pair\nreturn '#(ad,' + ','.join(map(bytes.decode, arguments)) + ')'") == ([], 'ok')
    assert run(kernel, "#(ps,#(pair,1,2)##(pair,1,2))'") == ([('stream', '3#(ad,1,2)')], 'ok')
    assert run(kernel, '%function') == ([('table', TEMPERATURE + '\n%function pair\n'
                                          "return '#(ad,' + ','.join(map(bytes.decode, arguments)) + ')'")], 'ok')
    # a later one takes the place of an earlier one, and they share their global names
    assert run(kernel, "%function pair\nglobal count\ncount = 5\nreturn '%d' % count") == ([], 'ok')
    assert run(kernel, "%function more\nglobal count\ncount += 1\nreturn str(count)") == ([], 'ok')
    assert run(kernel, "#(ps,#(pair)#(more)#(more))'") == ([('stream', '567')], 'ok')
    seen, _ = run(kernel, "%trace calls\n#(ps,#(more))'")
    assert seen[0] == ('stream', '8') and '#(ps<,>8) prints 8' in seen[1][1]
    assert run(kernel, '%function pair\n\n') == ([], 'ok')
    assert run(kernel, "#(ps,[#(pair)#(more)])'") == ([('stream', '[9]')], 'ok')
    assert run(kernel, "%reset\n#(ps,[#(more)])'") == ([('stream', '[]')], 'ok')
    assert run(kernel, '%function') == ([('table', '')], 'ok')


def test_errors_in_a_function_lose_nothing(kernel):
    assert run(kernel, '%reset\n' + TEMPERATURE) == ([], 'ok')
    for body, line, reason in (
            ('return 1 +', 3, 'invalid syntax'), ('x = 1\nreturn (x', 4, "'(' was never closed"),
            ('x = 1\nbreak', 4, "'break' outside loop"), ('\0', 3, 'source code string cannot contain null bytes')):
        told, _ = function_fault(kernel, f'%steps 1000000\n%function temperature\n{body}')
        assert told == f'line {line}: function temperature: {reason}'
    assert run(kernel, WEATHER) == ([('stream', 'In: 21; out: 4; [].')], 'ok')
    assert run(kernel, "#(ds,A,kept)'") == ([], 'ok')
    for body, line, reason in (
            ('x = 1\nreturn 1 / 0', 3, 'ZeroDivisionError: division by zero'),
            ('raise SystemExit', 2, 'SystemExit'), ('raise GeneratorExit', 2, 'GeneratorExit'),
            ('def inner():\n    return lost\nreturn inner()', 3, "NameError: name 'lost' is not defined"),
            ('return 7', 2, 'the value must be str, bytes or None, not int'),
            ("class Own(Exception):\n  def __str__(self): return 1 / 0\nraise Own", 4,
             "__main__.Own: <exception str() failed>")):
        assert run(kernel, f'%function wrong\n{body}') == ([], 'ok')
        told, before = function_fault(kernel, "#(ds,B,new)'#(ps,before)\n#(ps,#(wrong))'#(ps,never)'")
        assert told.split(': ', 2)[1] == f'function wrong, line {line} of its cell', body
        assert told.startswith('line 2, column 16: ') and told.split(': ', 2)[2].endswith(reason.split('.')[-1]), told
        assert before == [('stream', 'before')]
    assert run(kernel, "#(ps,#(cl,A)#(cl,B)#(temperature,indoors))'") == ([('stream', 'keptnew21')], 'ok')
    for code in ('%function ps\nreturn 1', '%function CL\nreturn 1', '%function a b\nreturn 1', '%function nobody',
                 '%functions'):
        assert len(run(kernel, code)[0]) == 1 and run(kernel, code)[1] == 'error', code


def test_an_interrupt_in_a_function(kernel):
    manager, client = kernel
    run(kernel, "%reset\n#(ds,A,kept)'")
    run(kernel, '%function forever\nimport time\nwhile True: time.sleep(.01)')
    asked = client.execute("#(ps,begun)#(forever)'", stop_on_error=False)
    while client.get_iopub_msg(timeout=20)['msg_type'] != 'stream':
        pass
    manager.interrupt_kernel()
    while (reply := client.get_shell_msg(timeout=20))['parent_header']['msg_id'] != asked:
        pass
    assert (reply['content']['status'], reply['content']['ename']) == ('error', 'interrupted')
    assert run(kernel, "#(cl,A)'") == ([('stream', 'kept')], 'ok')


def test_an_interrupt(kernel):
    manager, client = kernel
    run(kernel, "%reset\n%steps 1000000000000\n#(ds,A,kept)'")
    asked = client.execute("#(ps,begun)'" + FOREVER, stop_on_error=False)
    while client.get_iopub_msg(timeout=20)['msg_type'] != 'stream':
        pass
    manager.interrupt_kernel()
    while (reply := client.get_shell_msg(timeout=20))['parent_header']['msg_id'] != asked:
        pass
    assert (reply['content']['status'], reply['content']['ename']) == ('error', 'interrupted')
    assert run(kernel, "%steps 1000000\n#(cl,A)'") == ([('stream', 'kept')], 'ok')


def test_what_can_stand_at_the_cursor(kernel, trac_t64):
    _, client = kernel
    from trac_t64.functions import FUNCTIONS as functions
    run(kernel, "%reset\n#(ds,north,x)#(ds,nine,x)#(ds,south,x)'")

    def matches(code, end=''):
        told = client.complete(code + end, len(code), reply=True, timeout=10)['content']
        return told['matches'], told['cursor_start']

    assert matches('#(c', ')') == (['cc', 'cl', 'cm', 'cn', 'cr', 'cs'], 2)
    assert matches('\u20ac##(', 'x') == (sorted(functions), 4)
    assert matches('#(cl,n') == (['nine', 'north'], 5) and matches('#(DD,s') == (['south'], 5)
    assert matches('#(ps,n') == ([], 6) and matches('#(cl,north,n') == ([], 12) and matches('n') == ([], 1)
    assert matches('%t') == (['%trace'], 0) and matches('%c') == (['%cells', '%check'], 0)
    run(kernel, "%function celsius\nreturn '21'")
    assert matches('#(c') == (['cc', 'celsius', 'cl', 'cm', 'cn', 'cr', 'cs'], 2)
    assert matches('%fu') == (['%function'], 0)
    told = client.inspect('#(ps,#(cl,north))', 9, reply=True, timeout=10)['content']
    sentence = 'The value is form N from its pointer on, with X1, X2, .. in its gaps.'
    assert told['data'] == {'text/plain': f'#(cl,N,X1,X2,..): call. {sentence}'}
    for code, status in (("#(ps,a)'", 'complete'), ("#(ps,a)'\n", 'complete'), ('#(ps,a)', 'incomplete'),
                         ('%forms', 'complete'), ('%function', 'complete'), ('%function f', 'incomplete'),
                         ("%function f\nreturn '1'", 'incomplete'), ("%function f\nreturn '1'\n", 'complete')):
        assert client.is_complete(code) and client.get_shell_msg(timeout=10)['content']['status'] == status


def test_a_python_without_ipykernel(python_site):
    script = "import sys\nsys.modules['ipykernel'] = None\n" \
        'try: import trac_t64.kernel\nexcept ImportError as error: print(error)'
    assert python_package.python(python_site, script).startswith('the kernel needs ipykernel')


def outputs(path):
    """The sources and the outputs of the cells of a notebook."""
    with open(path, encoding='utf-8') as file:
        cells = json.load(file)['cells']
    return [(cell['source'], [{key: value for key, value in output.items() if key != 'execution_count'}
                              for output in cell.get('outputs', ())]) for cell in cells]


def test_the_lesson(installed, tmp_path):
    python_package.call(['jupyter', 'nbconvert', '--execute', '--to', 'notebook', '--output-dir', tmp_path, LESSON],
                        env=installed)
    wanted = outputs(LESSON)
    assert sum(len(shown) for _, shown in wanted) >= 15
    for got, cell in zip(outputs(tmp_path / 'lesson.ipynb'), wanted, strict=True):
        assert got == cell
