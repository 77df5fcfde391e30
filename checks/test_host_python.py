"""Functions of the host and forms defined from outside in the package for Python: values, errors, what is refused, and
that nothing is lost."""
import copy
import pickle

import pytest


def told(session):
    return session.fate.value, session.steps, session.peak


def test_a_function_gives_the_value_of_its_call(trac_t64):
    session = trac_t64.Session(1000, 10000)
    asked = []

    def temperature(*arguments):
        asked.append(arguments)
        return b'21'

    session.functions['temperature'] = temperature
    assert session.feed("#(ps,It is #(temperature,in,#(ad,1,1)).)'") == b'It is 21.'
    assert asked == [(b'in', b'2')]
    session.functions['none'] = lambda: None
    session.functions['call'] = lambda *arguments: '#(ad,1,2)'
    assert session.feed("#(ps,[#(none)#(call)##(call)#(other)])'") == b'[3#(ad,1,2)]'


def test_null_values_are_what_the_language_gives(trac_t64):
    script = "#(ps,a#(zz,#(yy,1),(2))b)#(ds,x,#(xx))#(ps,##(cl,x)##(nn))'"
    plain = trac_t64.run(script, 1000, 1000)
    with trac_t64.Session(1000, 1000) as session:
        session.functions = {name: lambda *arguments: b'' for name in ('zz', 'yy', 'xx', 'nn')}
        assert session.feed(script) + session.end() == plain.output
        assert (session.fate, session.steps, session.peak) == (plain.fate, plain.steps, plain.peak)


def test_each_way_to_make_steps_calls_it(trac_t64):
    script = "#(ps,1)#(ps,#(f))#(ps,3)'"
    ways = {
        'at once': lambda session: [session.feed(script)],
        'step by step': lambda session: [session.feed(script, 0)] + [step.output for step in session],
        'print by print': lambda session: [session.feed(script, 0), *session.outputs()],
        'by turns': lambda session: [session.feed(script, 0)] + [session.feed(most=3) for _ in range(30)],
    }
    accounts = set()
    for name, way in ways.items():
        session = trac_t64.Session(1000, 1000)
        session.functions['f'] = lambda: b'2'
        assert b''.join(way(session)) == b'123', name
        accounts.add(session.steps)
    assert len(accounts) == 1
    session = trac_t64.Session(1000, 1000)
    session.functions['f'] = lambda: b'2'
    session.feed(script, 0)
    lines = list(session.trace())
    assert session.steps in accounts and session.end() == b'123'
    assert any('prints' in line or 'ps' in line for line in lines)


def test_an_error_stays_what_it_is_and_nothing_is_lost(trac_t64):
    class Own(Exception):
        pass

    session = trac_t64.Session(1000, 10000)

    def fails(*arguments):
        raise Own('no sensor')

    session.functions['f'] = fails
    with pytest.raises(Own, match='no sensor'):
        session.feed("#(ps,before)#(ps,<#(f)>)#(ps,behind)'")
    assert session.arguments == (b'f',)
    session.functions['f'] = lambda: 'mended'
    assert session.feed() == b'before<mended>behind'
    session.functions['f'] = lambda: 7
    with pytest.raises(TypeError, match='the value of a function must be str or bytes'):
        session.feed("#(ps,#(f))'")
    del session.functions['f']
    assert session.feed() == b''


def test_a_function_may_not_use_the_session_that_calls_it(trac_t64):
    session = trac_t64.Session(1000, 10000)
    uses = [session.feed, session.forms, session.again, session.copy, session.close, session.delete_all,
            lambda: session.define('a', 'b'), lambda: session.steps]

    def use(*arguments):
        for each in uses:
            with pytest.raises(RuntimeError, match='in the middle'):
                each()
        return b'refused'

    session.functions['use'] = use
    assert session.feed("#(ps,#(use))'") == b'refused'


def test_forms_from_outside(trac_t64):
    session = trac_t64.Session(40, 1000)
    session.define('f', [97, 256, 98], 1)
    session.define(b't', 'xyz')
    assert [(form.name, form.text, form.items, form.pointer) for form in session.forms()] == [
        (b'f', b'a<^><1>b', (97, 256, 98), 1), (b't', b'<^>xyz', (120, 121, 122), 0)]
    with pytest.raises(TypeError, match='body must be str, bytes or items, not int'):
        session.define('w', 5)
    for wrong in (lambda: session.define('w', [2**24 + 256]), lambda: session.define('w', 'ab', 3),
                  lambda: session.define('w', 'a' * 40), lambda: session.define('w', [-1])):
        with pytest.raises(ValueError):
            wrong()
        assert len(session.forms()) == 2
    assert session.delete('f') and not session.delete('f')
    twin = copy.copy(session)
    session.delete_all()
    assert not session.forms() and len(twin.forms()) == 1
    session.meta = ord('!')
    assert session.feed('#(ps,hello)!') == b'hello'
    with pytest.raises(ValueError, match='meta must be from 0 to 255'):
        session.meta = 256


def test_a_full_block_is_given_room_by_the_host(trac_t64):
    session = trac_t64.Session(256, 10000)
    session.define('hog', 'x' * 240)
    assert session.feed("#(ps,hello)'") == b'' and session.fate.value == 'workspace'
    assert session.delete('hog')
    session.again()
    assert session.feed("#(ps,hello)'") == b'hello'


def test_a_copy_has_the_functions_too(trac_t64):
    session = trac_t64.Session(1000, 1000)
    session.functions['f'] = lambda: b'1'
    twin = session.copy()
    twin.functions['f'] = lambda: b'2'
    assert (session.feed("#(ps,#(f))'"), twin.feed("#(ps,#(f))'")) == (b'1', b'2')


WORKED = bytes([84, 82, 65, 67, 1, 59, 1, 0, 0, 0, 1, 0, 0, 0, 3, 0, 0, 0, 2, 0, 0, 0, 2, 0, 0, 0, 70, 97, 98,
                1, 0, 0, 0, 1, 0, 0, 0, 123, 2, 40, 60])


def test_an_image_holds_the_forms_and_the_meta_character(trac_t64):
    session = trac_t64.Session(1000, 10000)
    session.define('F', [97, 256, 98], 2)
    session.meta = ord(';')
    assert session.save() == WORKED
    other = trac_t64.Session(100, 10000)
    assert other.feed("#(ds,gone,x)'#(ps,(half ") == b''
    place = other.steps, other.peak, other.fate, other.neutral
    other.load(bytearray(WORKED))
    assert other.forms() == session.forms() and other.meta == ord(';') and other.save() == WORKED
    assert (other.steps, other.peak, other.fate, other.neutral) == place
    assert other.feed('a string));#(ps,#(cl,F,-));') == b'half a stringb'


@pytest.mark.parametrize('image', [b'', WORKED[:-1], WORKED + b'!', b't' + WORKED[1:], WORKED[:5] + b':' + WORKED[6:]])
def test_what_is_no_image_is_refused(trac_t64, image):
    session = trac_t64.Session(20, 100)
    session.define('own', 'text')
    with pytest.raises(ValueError, match='image'):
        session.load(image)
    assert [form.name for form in session.forms()] == [b'own'] and session.meta == ord("'")


def test_an_image_that_does_not_fit_is_refused(trac_t64):
    session = trac_t64.Session(6, 100)
    with pytest.raises(ValueError, match='fit'):
        session.load(WORKED)
    assert session.forms() == []
    for wrong in ('TRAC', None, 7, [84]):
        with pytest.raises(TypeError, match='image'):
            session.load(wrong)
    session.close()
    for call in (session.save, lambda: session.load(WORKED)):
        with pytest.raises(ValueError, match='closed'):
            call()


def double(text):
    return text + text


def test_a_session_is_pickled_by_its_image(trac_t64):
    session = trac_t64.Session(500, 2000)
    assert pickle.loads(pickle.dumps(session)).forms() == []
    session.functions['double'] = double
    session.feed("#(ds,x,(a-b-))#(ss,x,-)#(cs,x)'#(cm,;)'")
    for protocol in range(2, pickle.HIGHEST_PROTOCOL + 1):
        twin = pickle.loads(pickle.dumps(session, protocol))
        assert (twin.forms(), twin.meta, twin.cells, twin.steps) == (session.forms(), session.meta, 500, 0)
        assert twin.feed('#(ps,#(double,ab)##(cl,x,+));') == b'ababb+' and session.feed('#(ps,1);') == b'1'
    session.feed('#(ps,(half')
    with pytest.raises(ValueError, match='middle of a string'):
        pickle.dumps(session)
    assert session.feed('));') == b'half'
    session.feed('#(hl);')
    assert pickle.loads(pickle.dumps(session)).forms() == session.forms()
    session.functions['local'] = lambda: None
    with pytest.raises((pickle.PicklingError, AttributeError)):
        pickle.dumps(session)
    session.close()
    with pytest.raises(ValueError, match='closed'):
        pickle.dumps(session)
