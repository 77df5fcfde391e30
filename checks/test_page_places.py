"""The page marks where the characters that a step scans were written: in the script, in the further input, in the body
of a form, or nowhere."""
import glob
import os
import re
import sys
import unittest

import page
from page import LARGE, LOOP, Lecture, example
from test_page_sentences import Maker
from trac import TOP

sys.path.insert(0, os.path.join(TOP, 'hosts', 'page'))
import make  # noqa: E402

# Goes through a number of steps of a script, in several parts of its run. For each step it gives the rule, what the
# step scans, the message about that, and what is marked: in which box, after how many characters or items, and which
# text.
WALK = """
    const [script, more, starts, most, done] = arguments;
    const find = (id) => document.getElementById(id);
    const pause = () => new Promise((resolve) => { setTimeout(resolve); });
    const rest = async () => {
        const ids = ['main', 'machine', 'whence'];
        while (ids.some((id) => find(id).ariaBusy === 'true')) await pause();
    };
    const items = (node) => {
        if (node.nodeType === 3) return new TextEncoder().encode(node.data).length;
        if (node.matches?.('.pointer, .unseen, button')) return 0;
        if (node.matches?.('.gap') || node.dataset?.code) return 1;
        return [...node.childNodes].reduce((sum, each) => sum + items(each), 0);
    };
    const marked = () => [
        ...[...CSS.highlights.get('here')].map((range) => {
            const sheet = range.startContainer.parentNode.closest('pre');
            const before = document.createRange();
            before.selectNodeContents(sheet);
            before.setEnd(range.startContainer, range.startOffset);
            return { box: sheet.id.split('-')[0], isForm: false, at: before.toString().length, text: range.toString() };
        }),
        ...[...document.querySelectorAll('.here')].map((node) => {
            const body = node.closest('dd');
            const range = document.createRange();
            range.selectNodeContents(body);
            range.setEndBefore(node);
            return { box: body.previousElementSibling.firstChild.textContent, isForm: true,
                at: items(range.cloneContents()), text: node.textContent };
        })];
    const look = () => ({
        step: Number(find('count').textContent.split(' ')[0].replaceAll(',', '')),
        rule: find('rule-name').textContent, says: find('whence').textContent,
        scanned: find('active').querySelector('.scanned')?.textContent ?? '', marked: marked() });
    (async () => {
        for (const [id, value] of [['script', script], ['input', more]]) {
            find(id).value = value;
            find(id).dispatchEvent(new Event('input'));
        }
        find('through').click();
        await rest();
        const found = [];
        for (const start of starts) {
            find('slider').value = Math.floor(start * find('slider').max);
            find('slider').dispatchEvent(new Event('input'));
            await rest();
            found.push(look());
            for (let left = most; left && find('step').ariaDisabled !== 'true'; left -= 1) {
                find('step').click();
                await rest();
                found.push(look());
            }
        }
        done(found);
    })();
"""
# Scripts in which each letter is scanned at one place only, and that place: in the script or the further input, after
# how many characters; in a form, after how many items; or in the value of a function.
WRITTEN = (
    ("#(ps,ab)'", '', {'p': ('script', 2), 'a': ('script', 5), 'b': ('script', 6)}),
    # protected text goes to the form at once, and is scanned from there; a gap is filled with text of the script
    ("#(ds,F,(uXv))#(ss,F,X)#(cl,F,w)'", '', {
        'd': ('script', 2), 'w': ('script', 29), 'u': ('F', 0), 'v': ('F', 2)}),
    # an argument is scanned in the script, and again when it is the value
    ("#(eq,x,x,(##(y)),(#(z)))'", '', {'x': None, 'y': ('script', 13)}),
    ("#(gr,1,2,(##(y)),(#(z)))'", '', {'z': ('script', 20)}),
    # a default is written in the script; a computed value is written nowhere
    ("#(cs,(none),(a))#(ad,4,5)'", '', {'d': ('script', 19), '9': ('ad', None)}),
    ("#(ds,F,(pXqr))#(ss,F,X)#(cc,F,(h))#(cs,F,(i))#(cs,F,(j))#(cs,F,(k))'", '', {
        'q': ('F', 2), 'r': ('F', 3), 'k': ('script', 64)}),
    ("#(ds,F,(abcd))#(cn,F,3,(e))#(cn,F,-1,(f))'", '', {'b': ('F', 1), 'd': ('script', 2)}),
    ("#(ds,F,(abXcd))#(in,F,X,(e))'", '', {'a': ('F', 0), 'b': ('F', 1)}),
    ("#(dv,1,0,(over))'", '', {'o': ('script', 10), 'r': ('script', 13)}),
    ("##(dv,1,0,(7))'", '', {'7': ('script', 11)}),
    # a text that is read in the middle of a string is in the further input
    ("#(rs)'", "#(ad,3,4)'", {'r': ('script', 2), 'a': ('input', 2), '7': ('ad', None)}),
    ("#(ds,E,(ü#(rc)))'#(cl,E)'", 'w', {'\\xc3': ('E', 0), '\\xbc': ('E', 0), 'w': ('input', 0)}),
    # a form that is deleted, and one that has been replaced
    ("#(ds,F,(#(dd,F)vw))#(cl,F)'", '', {'v': ('F', None)}),
    # of two equal arguments one is chosen, and a result isn't the default that is equal to it
    ("#(eq,1,1,(##(v)),(##(v)))#(gr,1,1,(##(w)),(##(w)))#(ad,1,2,(3))'", '', {
        'v': ('script', 13), 'w': ('script', 46), '3': ('ad', None)}),
    # a part of a form isn't the default that is equal to it
    ("#(ds,F,(azb))#(in,F,z,(a))#(cn,F,-1,(b))#(cs,F,(b))'", '', {'a': ('F', 0), 'b': ('F', 2)}),
    ("#(ds,F,(z))#(cs,F,(z))'", '', {'z': ('F', 0)}),
    # the argument of a call that was a value itself
    ("#(ds,F,(kX))#(ss,F,X)#(ds,G,(m))#(cl,F,#(cl,G))'", '', {'k': ('F', 0)}),
)


def setUpModule():
    global browser
    browser = page.start()


def unescaped(text):
    """The bytes of a text that is shown."""
    names = {'t': b'\t', 'n': b'\n', 'r': b'\r'}
    return b''.join(names.get(name) or (bytes([int(name[1:], 16)]) if name else other.encode())
                    for name, other in re.findall(r'\\([tnr]|x..)|(.)', text, re.DOTALL))


class Places(Lecture):
    def walk_places(self, script, more='', starts=(0,), most=500):
        return browser.execute_async_script(WALK, script, more, starts, most)

    def check(self, script, more='', starts=(0,), most=500):
        """What is marked is what is scanned, and if nothing is marked, the page says why."""
        kinds = set()
        texts = {'script': script, 'input': more}
        for look in self.walk_places(script, more, starts, most):
            with self.subTest(script=script, **look):
                self.assertLessEqual(len(look['marked']), 1)
                kinds.add(self.kind_of(look, texts))
        return kinds

    def kind_of(self, look, texts):
        """The kind of the marked place, or the reason why no place is marked."""
        says, scanned = look['says'], look['scanned']
        if not look['marked']:
            if not scanned or not look['rule']:
                return 'nothing'
            # characters from forms and from the input are always written somewhere
            reason = re.fullmatch(r'from (the idling procedure|the value of (?!cl|cs|cc|cn|in|rs|rc).*|'
                                  r'the form .* as it was then, at [\d,]+ of [\d,]+)', says)
            self.assertTrue(reason, says)
            return reason[1].split()[1]
        here, = look['marked']
        found, wanted = unescaped(here['text']), unescaped(scanned)
        # of a character of several bytes each is scanned by itself, and the whole is marked
        is_here = wanted in found if wanted[0] > 127 else wanted.startswith(found)
        self.assertTrue(found and is_here, (here, scanned))
        if here['isForm']:
            self.assertRegex(says, rf'^from the form [^,]*, at {here["at"]:,} of [\d,]+$')
            return 'marked in a form'
        text = texts[here['box']]
        self.assertEqual(text[here['at']:here['at'] + len(here['text'])], here['text'])
        front = text[:here['at']]
        column = len(front) - (front.rfind('\n') + 1) + 1
        where = f'from line {front.count(chr(10)) + 1:,}, column {column:,}'
        self.assertEqual(says, where + (' of the further input' if here['box'] == 'input' else ''))
        return f'marked in the {here["box"]}'

    def test_where_each_letter_was_written(self):
        for script, more, wanted in WRITTEN:
            with self.subTest(script=script):
                looks = self.walk_places(script, more)
                for letter, place in wanted.items():
                    found = {self.place_of(look) for look in looks if look['scanned'] == letter}
                    self.assertEqual(found, {place} if place else found, letter)
                    self.assertTrue(found, letter)

    def place_of(self, look):
        """What is marked, or what made a text that isn't written anywhere."""
        if look['marked']:
            here, = look['marked']
            return here['box'], here['at']
        by = re.fullmatch(r'from the (?:value of (.*)|form “(.*)” as it was then.*)', look['says'])
        return by[1] or by[2], None

    def test_the_lesson(self):
        kinds = set()
        for each in make.lesson():
            kinds |= self.check(each['script'])
        self.assertEqual(kinds, {'marked in the script', 'marked in a form', 'nothing', 'idling', 'value'})

    def test_the_examples(self):
        for name in sorted(glob.glob('*.trac', root_dir=os.path.join(TOP, 'examples'))):
            self.check(example(name).decode(), "a b, c(d)'", (0, 0.9, 0.5, 0.2), 40)

    def test_scripts_that_are_made_up(self):
        made, kinds = Maker(1972), set()
        for _ in range(25):
            kinds |= self.check(made.script(), "x,(y)'z")
        self.assertLessEqual({'marked in the script', 'marked in the input', 'marked in a form', 'nothing', 'idling',
                              'value'}, kinds)

    def selected(self):
        """What is selected in the box that has the focus, and in front of it."""
        return self.script('const { value, selectionStart, selectionEnd } = document.activeElement;'
                           'return [value.slice(0, selectionStart), value.slice(selectionStart, selectionEnd)]')

    def test_a_fault_in_the_script(self):
        script = "#(ps,one)'\n#(ds,f,(abcdefghij))'"
        for limits, front in ((dict(steps=32), "#(ps,one)'\n#(ds,"), (dict(cells=34), script[:-2])):
            self.run_script(script, **limits)
            line = self.find('fate').text
            column = len(front) - front.rindex('\n')
            self.assertIn('begins in line 2, column 1.', line)
            self.assertIn(f'The character that was being scanned is from line 2, column {column}.', line)
            self.press('first')
            self.press('place')
            before, text = self.selected()
            self.assertEqual((before, self.steps()[0]), (front, self.steps()[1]))
            self.assertTrue(script[len(front):].startswith(text))

    def test_a_fault_in_a_form(self):
        script = "#(ds,é,(#(cl,é)#(cl,é)))'#(cl,é)'"
        self.run_script(script, cells=60)
        self.assertRegex(self.text('fate'), 'The character that was being scanned is from the form “é”, at 7 of 16.')
        self.find('place').click()
        self.assertEqual(self.selected()[1], "#(cl,é)'")

    def test_a_far_step(self):
        """One that is not followed at once."""
        self.run_script(LOOP.format(3000))
        self.go(self.steps()[1] - 1000)
        self.wait(lambda: self.find('whence').get_attribute('aria-busy') == 'false')
        self.assertRegex(self.text('whence'), '^from the form “loop”|^from the value of')

    def test_a_large_block_is_not_followed(self):
        self.run_script(f"{LARGE}#(ps,a)'", cells=2 ** 24)
        self.go(12)
        self.assertEqual(self.text('whence'), '')
        self.assertEqual(self.script("return CSS.highlights.get('here').size"), 0)


if __name__ == '__main__':
    unittest.main()
