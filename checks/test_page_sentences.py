"""What the page says about a call is what the call does, as the strings, the forms and the output show it: in the
lesson, in the examples, and in random scripts. What is shown belongs to the run that is shown."""
import glob
import os
import re
import sys
import unittest
from collections import Counter
from random import Random

import page
from page import LARGE, By, Lecture, example
from trac import TOP

sys.path.insert(0, os.path.join(TOP, 'hosts', 'page'))
import make  # noqa: E402

ARITHMETIC = {'ad': lambda a, b: a + b, 'su': lambda a, b: a - b, 'ml': lambda a, b: a * b,
              'dv': lambda a, b: (abs(a) // abs(b)) * (1 if (a < 0) == (b < 0) else -1)}
GREATEST = 2 ** 127 - 1
OF_FORMS = {'ss', 'pf', 'cl', 'cs', 'cc', 'cn', 'in', 'cr'}
NAMES = set('rs rc cm ps hl ds ss dd da ln pf cl cs cc cn in cr eq gr ad su ml dv bu bi bc bs br'.split())
# The place of the default value of each function that gives it when its pointer has to stay.
DEFAULTS = {'cs': 2, 'cc': 2, 'cn': 3, 'in': 3}
CHANGES = re.compile(r'It defines (?!.*, as it was\.)|It removes |becomes gap|goes to the start|It sets the pointer'
                     r'|It takes (?!no )|A gap stands at')

# Runs a script, and goes from call to call. For each call it gives the sentence, and, before and after the step, the
# arguments, the forms, the delivered value, and how much is printed. Null replaces what is cut because it is long.
WALK = """
    const [script, input, most, done] = arguments;
    const find = (id) => document.getElementById(id);
    const codes = (node, found) => {
        if (node.nodeType === 3) found.push(...new TextEncoder().encode(node.data));
        else if (node.matches('.cut, button')) found.push(null);
        else if (node.matches('.pointer')) found.push(-1);
        else if (node.matches('.gap')) found.push(255 + Number(node.lastChild.data));
        else if (node.matches('.depth, .nothing, .unseen, small')) return found;
        else if (node.dataset.code) found.push(Number(node.dataset.code));
        else node.childNodes.forEach((child) => codes(child, found));
        return found;
    };
    const landed = (id) => [...document.querySelectorAll(`#${id} .landed`)].flatMap((node) => codes(node, []));
    const look = () => ({
        says: find('rule-says').textContent,
        call: codes(find('neutral').lastChild, []),
        names: [...find('forms').querySelectorAll('dt')].filter((node) => node.nextSibling)
            .map((node) => codes(node, []).slice(0, -1)),
        bodies: [...find('forms').querySelectorAll('dd')].map((node) => codes(node, [])),
        neutral: landed('neutral'), active: landed('active'),
        printed: find('output').textContent.length - (find('output').querySelector('.later')?.textContent ?? '').length,
        over: find('rule-name').hidden, gave: find('gave').textContent,
    });
    const found = [];
    const rest = () => new Promise((resolve) => {
        const isBusy = () => ['main', 'machine'].some((id) => find(id).ariaBusy === 'true');
        const wait = () => (isBusy() ? setTimeout(wait) : resolve());
        wait();
    });
    (async () => {
        for (const [id, text] of Object.entries({ script, input })) {
            find(id).value = text;
            find(id).dispatchEvent(new Event('input'));
        }
        find('through').click();
        await rest();
        find('first').click();
        while (find('calls').dataset.listed !== 'all') await new Promise((resolve) => setTimeout(resolve));
        while (found.length < most && find('step').ariaDisabled !== 'true') {
            if (find('rule-name').textContent !== 'end of call.') {
                find('call-step').click();
                await rest();
            }
            const before = look();
            find('step').click();
            await rest();
            if (before.call[0] > 255) found.push([before, look()]);
        }
        done(found);
    })();
"""


def setUpModule():
    global browser
    browser = page.start()


def text_of(codes):
    """Codes as bytes, or None if they are cut."""
    return None if None in codes else bytes(codes)


def forms_of(look):
    """The forms by their names: for each its items and its pointer, or None if it is cut."""
    found = {}
    for name, body in zip(look['names'], look['bodies']):
        cut = None in body
        found[bytes(name)] = None if cut else (tuple(code for code in body if code >= 0), body.index(-1))
    return found


def number(text):
    """The number at the right end of an argument."""
    return int((re.search(rb'[-+]?\d+$', text) or [b'0'])[0])


class Call:
    """A call that was performed, and what was visible before and after its step."""

    def __init__(self, before, after):
        self.says, self.is_over = before['says'], after['over']
        codes = before['call'][1:]
        self.is_neutral = before['call'][0] == 257
        self.is_whole = None not in codes and None not in after['active'] + after['neutral']
        self.arguments = [b'']
        for code in codes if self.is_whole else []:
            if code == 258:
                self.arguments.append(b'')
            else:
                self.arguments[-1] += bytes([code])
        self.name = self.arguments[0].decode('latin1').lower()
        self.forms, self.later = forms_of(before), forms_of(after)
        self.value = text_of(after['neutral'] + after['active']) if self.is_whole else None
        self.is_active = bool(after['active'])
        self.prints = after['printed'] > before['printed']

    def argument(self, which):
        return self.arguments[which] if which < len(self.arguments) else b''

    @property
    def form(self):
        return self.forms.get(self.argument(1))

    def took_default(self):
        """Whether the value is the default one; None if a function that moves a pointer leaves that open."""
        if self.name in ARITHMETIC:
            one, other = number(self.argument(1)), number(self.argument(2))
            if max(abs(one), abs(other)) > GREATEST or (self.name == 'dv' and not other):
                return True
            return abs(ARITHMETIC[self.name](one, other)) > GREATEST
        if self.name not in DEFAULTS or self.argument(1) not in self.forms:
            return False
        items, pointer = self.form
        if self.name == 'cs':
            return pointer == len(items)
        if self.name == 'cn' and not number(self.argument(2)) or self.name == 'in' and not self.argument(2):
            return False
        return self.later[self.argument(1)][1] == pointer


class Sentences(Lecture):
    def faults(self, call):
        """What is false in a sentence."""
        says, name = call.says, call.name
        claims = {
            'counted': f' with {len(call.arguments) - 1} argument' in says or len(call.arguments) == 1,
            'no function': ('No function has this name' in says) == (name not in NAMES and name != ''),
            'no form': self.has_no_form(call) == ('There is no form' in says),
            'changed': bool(CHANGES.search(says)) == (call.forms != call.later),
            'null': not re.search('value is null|which is null|so is the value', says) or call.value == b'',
            'default': self.is_default_said(call),
            'branch': self.is_branch_said(call),
            'printed': ('It prints “' in says or 'It prints the form' in says) == call.prints,
            'end': ('the run' in says and 'end' in says) == call.is_over,
            'gaps': self.are_gaps_said(call),
        }
        return [kind for kind, is_so in claims.items() if not is_so]

    def has_no_form(self, call):
        if call.name in ('da', 'ln'):
            return not call.forms
        if call.name == 'dd':
            return len(call.arguments) > 1 and not set(call.arguments[1:]) & set(call.forms)
        return call.name in OF_FORMS and call.argument(1) not in call.forms

    def is_default_said(self, call):
        if 'or else' in call.says:
            return call.name in ARITHMETIC and call.value == call.argument(3) and not call.is_neutral
        said, taken = 'the default' in call.says, call.took_default()
        # a null default, and a count of 0, both give the null text
        return said == taken or (call.name == 'cn' and taken and not call.argument(3))

    def is_branch_said(self, call):
        if call.name not in ('eq', 'gr'):
            return 'the third' not in call.says and 'the fourth' not in call.says
        holds = call.argument(1) == call.argument(2) if call.name == 'eq' else (
            number(call.argument(1)) > number(call.argument(2)))
        if call.argument(3) == call.argument(4):
            return 'The third and the fourth argument are' in call.says
        return f"so the value is the {'third' if holds else 'fourth'} argument" in call.says and (
            (' not ' in call.says.split('performed')[1].split(', so')[0]) != holds)

    def are_gaps_said(self, call):
        if call.name not in ('ss', 'cl') or not call.form:
            return ' gap ' not in call.says or call.name == 'cs'
        items, pointer = call.form
        if call.name == 'ss':
            made = {int(gap) for gap in re.findall(r'becomes gap (\d+)', call.says)}
            later = call.later[call.argument(1)][0]
            return made == {gap for gap in range(1, len(call.arguments)) if (
                later.count(255 + gap) > items.count(255 + gap))}
        gaps = {item - 255 for item in items[pointer:] if item > 255}
        filled, _, unused = call.says.partition('; it has no')
        return {int(gap) for gap in re.findall(r'in gap (\d+)', filled)} == gaps and not (
            {int(gap) for gap in re.findall(r'gap (\d+) for', unused)} & gaps)

    def looked_at(self, script, more, most):
        """The calls of a script, the first ones."""
        return [Call(*looks) for looks in browser.execute_async_script(WALK, script, more, most)]

    def check(self, script, more='', most=40):
        calls = [call for call in self.looked_at(script, more, most) if call.is_whole]
        for call in calls:
            if None in call.forms.values() or None in call.later.values():
                continue
            faults = self.faults(call)
            self.assertEqual(faults, [], (script, call.arguments, call.forms, call.later, call.value, call.says))
        return Counter(call.name for call in calls)

    def test_the_lesson(self):
        for each in make.lesson():
            self.assertGreater(self.check(each['script']).total(), 3)

    def test_the_examples(self):
        names = glob.glob('*.trac', root_dir=os.path.join(TOP, 'examples'))
        for name in sorted(names):
            self.assertGreater(self.check(example(name).decode()).total(), 3, name)

    def test_scripts_that_are_made_up(self):
        made, seen = Maker(1966), Counter()
        for _ in range(200):
            seen += self.check(made.script(), more="x,(y)'z")
        self.assertEqual({name for name in NAMES if seen[name] < 3}, set())


class Maker:
    """Makes up scripts of calls, most of them of forms that are there."""

    def __init__(self, seed):
        self.random = Random(seed)

    def text(self):
        return self.random.choice(['', 'a', 'b', 'x', ' ', 'ab', 'aXb', 'bab', '0', '1', '-1', '2', '7', 'a12', '12a',
                                   str(GREATEST), f'-{GREATEST}', '9' * 45, '(a,b)', '(\t)', 'é', 'X', '(#(ps,q))'])

    def name(self):
        return self.random.choice(['f', 'g', 'f', 'g', '', ' f', 'h'])

    def argument(self, depth):
        return self.call(depth - 1) if depth and self.random.random() < 0.2 else self.text()

    def call(self, depth=2):
        name = self.random.choice(['ds', 'ss', 'ds', 'ss', *sorted(NAMES - {'hl'}), 'zz', ' ps', '', 'PS'])
        given = [self.argument(depth) for _ in range(self.random.randrange(5))]
        if name in OF_FORMS | {'ds', 'dd'} and given:
            given[0] = self.name()
        if name == 'rs' and self.random.random() < 0.8:
            name = 'eq'
        return self.random.choice(['#(', '#(', '##(']) + ','.join([name, *given]) + ')'

    def script(self):
        calls = [self.call() for _ in range(self.random.randrange(2, 9))]
        end = self.random.choice(['', '', '#(hl)'])
        return f"#(ds,f,aXbYa)#(ss,f,X,Y)#(ds,g,(b,(a)))#(ds,{self.name()},a)" + ''.join(calls) + end + "'"


class LargeBlocks(Lecture):
    def test_what_a_call_comes_to_is_left_open(self):
        calls = '#(cs,f)#(cc,f,z)#(cn,f,1)#(in,f,b,z)#(gr,1,2,x)#(ad,1,2)#(dd,f,g)#(rs)'
        self.run_script(f"{LARGE}#(ds,f,aXbcd)#(ss,f,X,Q){calls}'", cells=2 ** 24)
        said = self.walk("find('rule-name').textContent === 'end of call.' ? find('rule-says').textContent : ''")
        for words in ('In the form “f”, each “X” and “Q” that is found becomes a gap.',
                      'up to the next gap, or to its end.',
                      'It takes the next character of the form “f”, or else its default.',
                      'as many as “1” says, or else its default.',
                      'up to the next “b”, or else its default.',
                      'It chooses between its third argument and its fourth.',
                      'It adds “1” and “2”, or else gives its default.',
                      'It removes the form “f”; of its other name there is no form.'):
            self.assertTrue(any(words in each for each in said), words)


class Names(Lecture):
    def test_blanks_of_names(self):
        self.through("#( ps,hi)#(x  y)#(ds,a )##(cl, f  g)'")
        for name, said in ((' ps', '“ ps” with 1 argument. No function has this name'), ('x  y', '“x  y”. No function'),
                           ('ds', 'the form “a ” as the null text'), ('cl', 'There is no form “ f  g”')):
            self.jump('name', name)
            self.assertIn(said, self.text('rule-says'))
            self.assertIn(said, self.find('rule-says').text.replace('\n', ' '))
            self.assertEqual(self.script("return document.querySelectorAll('#rule-says .blank').length"),
                             sum(len(blanks) for blanks in re.findall(r'(?<=“) +| +(?=”)| {2,}', said)))
        self.press('first')
        self.jump('name', ' ps')
        self.press('step')
        self.assertEqual(self.text('gave'), '“ ps” gave the null text.')

    def test_blanks_of_names_in_suspicious_places(self):
        self.run_script("#( ps,hi)#(cl,no  form )'")
        self.wait(lambda: self.is_shown('suspicions'))
        quotes = browser.find_elements(By.CSS_SELECTOR, '#warnings q')
        self.assertEqual([self.script('return arguments[0].textContent', quote) for quote in quotes],
                         [' ps', 'no  form '])
        self.assertEqual([len(quote.find_elements(By.CLASS_NAME, 'blank')) for quote in quotes], [1, 3])


class Kept(Lecture):
    FORMS = "find('forms').textContent + find('meta').textContent"
    SCRIPTS = ("#(ds,word,cat)#(cc,word)#(ds,other,x)'", "#(ps,a)#(ds,word,dog)#(cm,;)'#(ps,b);")

    def test_forms_of_one_run_after_another(self):
        fresh = []
        for script in self.SCRIPTS:
            self.open(page.PLACE)
            self.through(script)
            fresh.append(self.walk(self.FORMS))
        for script in self.SCRIPTS[1], self.SCRIPTS[0], self.SCRIPTS[1]:
            self.through(script)
            self.press('last')
            self.through(script)
            self.assertEqual(self.walk(self.FORMS), fresh[self.SCRIPTS.index(script)])

    def test_parts_of_the_lesson_one_after_another(self):
        self.choose('9. A pointer')
        self.press('through')
        self.press('last')
        self.choose('10. What memory is')
        self.press('through')
        self.assertEqual(self.text('forms'), 'none')
        self.choose('20', 'speed')
        self.choose('calls', 'pace')
        self.choose('change', 'stop-at')
        self.press('play')
        self.wait(lambda: self.text('play') == 'Play')
        self.assertEqual(self.text('gave'), 'ds gave the null text.')

    def test_places_of_an_older_script(self):
        # the list takes a while
        self.script("""
            const soon = WebAssembly.instantiate;
            WebAssembly.instantiate = async (...words) => {
                await new Promise((resolve) => setTimeout(resolve, 400));
                return soon(...words);
            };
        """)
        self.run_script("#(zz)'")
        self.wait(lambda: self.text('fate').startswith('Ended'))
        self.put('script', 'x')
        self.wait(lambda: self.is_shown('suspicions'))
        self.assertEqual(self.script("return document.querySelectorAll('#warnings button').length"), 0)
        self.assertIn('no function has the name zz', self.text('warnings'))


if __name__ == '__main__':
    unittest.main()
