"""The page in a lecture: what is shown belongs to the script, nothing typed is lost, long runs and long texts are as
quick as short ones, and a user can jump, play, link, save and do exercises."""
import base64
import os
import re
import sys
import time
import unittest
from pathlib import Path

import page
import pytest
from page import LOOP, PLACE, By, Lecture, Saving, example
from selenium.webdriver.common.keys import Keys
from test_exercise_check import CONSTANTS, RIGHT, WRONG
from trac import TOP, run, traced, whole_trace

sys.path.insert(0, os.path.join(TOP, 'hosts', 'page'))
import make  # noqa: E402

FAULTY = ''.join(f"#(ds,row {k},(line {k}))'\n" for k in range(300)) + "#(ds,a,(#(cl,a)b))#(cl,a)'\n"
ENDLESS = "#(ds,a,(#(cl,a)))#(cl,a)'"


def setUpModule():
    global browser
    browser = page.start()


class States(Lecture):
    def test_an_edit_outdates_what_is_shown(self):
        self.run_script("#(ps,one)'")
        self.assertFalse(self.is_shown('stale'))
        self.type('x')
        self.assertTrue(self.is_shown('stale'))
        self.run_it()
        self.assertFalse(self.is_shown('stale'))
        self.choose('6. Gaps')
        self.assertTrue(self.is_shown('stale'))
        self.assertEqual(self.text('output'), 'onex')
        self.press('first')
        self.assertEqual(self.steps()[0], 0)
        self.assertEqual(self.script("return document.querySelectorAll('.sheet mark').length"), 0)

    def test_an_edit_while_it_runs(self):
        self.put('steps', '1000000000000')
        self.put('script', ENDLESS)
        self.find('run').click()
        self.type('x')
        self.find('stop').click()
        self.wait(self.is_at_rest)
        self.assertTrue(self.is_shown('stale'))

    def test_a_run_that_fails_takes_old_output_away(self):
        self.run_script("#(ps,old output)'")
        self.script('WebAssembly.instantiate = () => Promise.reject(new RangeError());')
        self.press('run')
        self.assertIn('can’t give the memory', self.text('fate'))
        self.assertEqual(self.text('output'), '')
        self.assertFalse(self.is_shown('machine'))

    def test_a_stop_at_once_is_not_lost(self):
        self.put('steps', '1000000000000')
        self.put('script', ENDLESS)
        self.script("document.getElementById('run').click(); document.getElementById('stop').click()")
        self.wait(self.is_at_rest, 10)
        self.assertTrue(self.text('fate').startswith('Stopped by you.'))

    def test_no_webassembly(self):
        self.open_without('delete window.WebAssembly')
        self.assertIn('has no WebAssembly', self.text('fate'))
        self.assertFalse(self.find('run').is_enabled())
        self.choose('6. Gaps')
        self.script("document.getElementById('settings').open = true")
        self.find('link').click()
        self.wait(lambda: 'carries the script' in self.text('told'))


class Places(Lecture):
    def test_far_down_in_a_long_script(self):
        self.run_script(FAULTY, '', 8000)
        self.assertIn('line 301, column 1', self.text('fate'))
        for before in (0, 3000):
            self.script("document.getElementById('script').scrollTop = arguments[0]", before)
            self.find('place').click()
            box, mark = self.script(
                "return [document.getElementById('script'), document.querySelector('#script-marks mark.fault')]"
                '.map((node) => { const { top, bottom } = node.getBoundingClientRect(); return [top, bottom]; })')
            self.assertLessEqual(box[0], mark[0])
            self.assertLessEqual(mark[1], box[1])
            self.assertEqual(self.script(
                "const box = document.getElementById('script');"
                'return box.value.slice(box.selectionStart, box.selectionEnd)'), "#(ds,a,(#(cl,a)b))#(cl,a)'")
        self.find('script').send_keys(Keys.HOME, 'x')
        self.assertEqual(self.script("return document.querySelectorAll('.sheet mark').length"), 0)
        self.assertFalse(self.is_shown('place'))

    def test_the_script_follows_the_step(self):
        self.run_script(FAULTY, '', 8000)
        self.go(15)
        self.assertEqual(self.script("return document.getElementById('script').scrollTop"), 0)
        self.go(self.steps()[1] - 40)
        self.assertGreater(self.script("return document.getElementById('script').scrollTop"), 3000)


class Suspicious(Lecture):
    def warnings(self):
        return self.script("return Array.from(document.querySelectorAll('#warnings li'), (item) => item.textContent)")

    def listed(self, script, more='', **limits):
        self.run_script(script, more, **limits)
        self.wait(lambda: self.is_shown('suspicions'))
        return self.warnings()

    def test_the_scripts_with_mistakes(self):
        folder = os.path.join(TOP, 'examples', 'broken')
        # a box has no carriage returns
        scripts = sorted(name for name in os.listdir(folder)
                         if name.endswith('.trac') and b'\r' not in Path(folder, name).read_bytes())
        self.assertGreater(len(scripts), 30)
        for name in scripts:
            with self.subTest(script=name):
                told, script = (Path(folder, name[:-4] + end).read_text('utf-8') for end in ('warnings', 'trac'))
                wanted = re.sub(r'^line (\d+, column \d+):', r'Line \1', told, flags=re.MULTILINE).splitlines()
                # the line on how the run ended is above the list
                wanted = [line for line in wanted if line.startswith('Line ')]
                self.assertEqual(self.listed(script), wanted)

    def test_a_place(self):
        more = 'x#(nothing)'
        self.assertEqual(self.listed("#(ds,ü😀,a)\n#(zz)#(rs)'", more),
                         ['Line 2, column 1 no function has the name zz',
                          'Line 2, column 12 no meta character ends the string',
                          'Line 2, column 13 no function has the name nothing'])
        buttons = browser.find_elements(By.CSS_SELECTOR, '#warnings button')
        for button, box, place in zip(buttons, ('script', 'input', 'input'), (12, 0, 1)):
            button.click()
            self.assertEqual(self.script(
                'const box = document.getElementById(arguments[0]);'
                'return [document.activeElement.id, box.selectionStart, box.selectionEnd]', box),
                [box, place, place + 1])
        self.find('script').send_keys('x')
        self.assertEqual(self.script("return document.querySelectorAll('#warnings button').length"), 0)
        self.run_script("#(ps,a)'")
        self.assertFalse(self.is_shown('suspicions'))

    def test_a_long_run_is_looked_at_in_part(self):
        self.listed("#(zz)#(ds,L,(#(cl,L)))#(cl,L)'", steps=3000000)
        self.assertRegex(self.text('suspicions-told'), r'^The first [\d,]+ steps were looked at\.$')


class Kept(Lecture):
    def test_an_example_keeps_what_was_typed(self):
        self.type('typed')
        text = self.value('script')
        self.choose('6. Gaps')
        self.assertNotEqual(self.value('script'), text)
        self.find('bring-back').click()
        self.assertEqual(self.value('script'), text)
        self.assertFalse(self.is_shown('bring-back'))

    def test_undo(self):
        self.type('typed')
        text = self.value('script')
        self.choose('6. Gaps')
        self.find('script').send_keys(Keys.CONTROL, 'z')
        self.assertEqual(self.value('script'), text)

    def test_reload(self):
        self.choose('6. Gaps')
        self.open(PLACE, keeps=True)
        self.assertEqual(self.value('example'), '6. Gaps')
        self.assertTrue(self.text('says').startswith('ss makes'))
        self.type('typed')
        self.put('input', "more'")
        texts = self.value('script'), self.value('input')
        self.open(PLACE, keeps=True)
        self.assertEqual((self.value('script'), self.value('input')), texts)
        self.choose('6. Gaps')
        self.open(PLACE, keeps=True)
        self.find('bring-back').click()
        self.assertEqual((self.value('script'), self.value('input')), texts)

    def test_a_link_and_back(self):
        self.type('typed')
        text = self.value('script')
        self.open(f'{PLACE}#script=YQ', keeps=True)
        self.assertEqual(self.value('script'), 'a')
        self.find('bring-back').click()
        self.assertEqual(self.value('script'), text)
        self.script("window.location.hash = 'script=Yg'")
        self.wait(lambda: self.value('script') == 'b')
        self.type('c')
        browser.back()
        self.wait(lambda: self.value('script') == 'a')
        self.find('bring-back').click()
        self.assertEqual(self.value('script'), 'bc')
        self.find('bring-back').click()
        self.assertEqual(self.value('script'), text)

    def test_no_storage(self):
        self.open_without("Object.defineProperty(window, 'localStorage', { get() { throw new Error(); } })")
        self.type('x')
        self.run_it()
        self.assertEqual(self.text('output'), 'hellox')


# Clicks a button so often; gives what each took until the page stood at the step, and the longest time in
# which the page did nothing else.
TIMES = """
    const [name, count, done] = arguments;
    const find = (id) => document.getElementById(id);
    const times = [];
    let [gap, last, isOver] = [0, performance.now(), false];
    const tick = () => {
        const now = performance.now();
        [gap, last] = [Math.max(gap, now - last), now];
        if (!isOver) setTimeout(tick);
    };
    const press = () => {
        if (times.length === count) {
            isOver = true;
            done([times.sort((a, b) => a - b)[count >> 1], gap]);
            return;
        }
        const start = performance.now();
        find(name).click();
        const wait = () => {
            if (find('machine').ariaBusy !== 'false') return setTimeout(wait);
            document.body.getBoundingClientRect();
            times.push(performance.now() - start);
            return setTimeout(press);
        };
        wait();
    };
    tick();
    press();
"""


@pytest.mark.timed
class Long(Lecture):
    def quick(self, name, most, longest=None, count=9, place=None, rounds=6):
        """The median of some clicks takes less, and the page is never blocked for long, in one of several rounds: one
        that other programs don't disturb. If a place is given, each round begins there."""
        found = []
        for _ in range(rounds):
            if place is not None:
                self.go(place)
            slow = page.slowness()
            middle, gap = browser.execute_async_script(TIMES, name, count)
            found.append((middle, gap, slow))
            if middle < most * slow and (longest is None or gap < longest * slow):
                return
        self.fail(f'{name}: {found} ms, and how slow the machine was')

    def test_sixty_million_steps(self):
        self.run_script(LOOP.format(3000000), '', 65536, 60000000)
        self.assertEqual(self.steps(), (60000000, 60000000))
        for place in (59999990, 31234567):
            self.go(place)
            for name in ('back', 'call-back', 'call-step', 'step'):
                with self.subTest(place=place, name=name):
                    self.quick(name, 300, 100)
        self.go(31234567)
        self.press('call-step')
        self.assertEqual(self.rule(), 'end of call')
        there = self.steps()[0]
        self.press('call-step')
        self.assertEqual(self.rule(), 'end of call')
        self.press('call-back')
        self.assertEqual(self.steps()[0], there)

    def test_the_largest_block(self):
        self.run_script(LOOP.format(3000000), '', 16777216, 60000000)
        for place in (59999999, 31234567):
            self.go(place)
            for name in ('back', 'call-back'):
                with self.subTest(place=place, name=name):
                    self.quick(name, 300, 150, count=3)

    GAP = """
        const done = arguments[0];
        let [gap, last, until] = [0, performance.now(), Infinity];
        const tick = () => {
            const now = performance.now();
            [gap, last] = [Math.max(gap, now - last), now];
            // the list of suspicious places is made behind the run
            if (document.getElementById('main').ariaBusy !== 'true') until = Math.min(until, now + 500);
            if (now < until) setTimeout(tick);
            else done(gap);
        };
        document.getElementById('run').click();
        tick();
    """

    HEAVY = "#(ds,f,({}))#(ds,m,(#(eq,##(cl,f),##(cl,f))#(gr,N,0,(#(cl,m,#(su,N,1))))))#(ss,m,N)#(cl,m,1000)'".format(
        'x' * 200000)

    def gap_of(self, script):
        """For how long a run of a script holds the page, in milliseconds of a machine that isn't slow: the shortest of
        several rounds, up to one that other programs leave alone."""
        for name, value in (('script', script), ('cells', 1000000), ('steps', 100000000)):
            self.put(name, value)
        gaps = []
        while len(gaps) < 8 and not (gaps and gaps[-1] < 100):
            slow = page.slowness()
            gaps.append(browser.execute_async_script(self.GAP) / slow)
        return min(gaps)

    def test_steps_that_take_long_behind_quick_ones(self):
        self.assertLess(self.gap_of(LOOP.format(50000)[:-1] + self.HEAVY), 100)
        self.wait(self.is_at_rest)
        self.assertEqual(self.steps()[1], 2066483)

    def test_steps_that_take_long_from_the_first_on(self):
        self.assertLess(self.gap_of(self.HEAVY), 100)
        self.wait(self.is_at_rest)
        self.assertEqual(self.steps()[1], 49758)

    TASKS = """
        const done = arguments[0];
        const find = (id) => document.getElementById(id);
        let longest = 0;
        new PerformanceObserver((list) => {
            for (const { duration } of list.getEntries()) longest = Math.max(longest, duration);
        }).observe({ entryTypes: ['longtask'] });
        const ids = ['run', 'first', 'last'];
        const press = () => {
            if (['main', 'machine'].some((id) => find(id).ariaBusy === 'true')) return setTimeout(press, 20);
            if (!ids.length) return setTimeout(() => done(longest), 800);
            find(ids.shift()).click();
            return setTimeout(press, 400);
        };
        press();
    """

    def test_no_task_is_long(self):
        lines = "#(ds,l,(#(ps,(0123456789 0123456789 0123456789 012345678\n))#(gr,N,0,(#(cl,l,#(su,N,1))))))" \
            "#(ss,l,N)#(cl,l,24999)'"
        for script, cells in ((lines, 65536), (LOOP.format(30000), 16777216)):
            found = []
            while len(found) < 8 and not (found and found[-1] < 100):
                self.open(PLACE)
                for name, value in (('script', script), ('cells', cells), ('steps', 10000000)):
                    self.put(name, value)
                slow = page.slowness()
                found.append(browser.execute_async_script(self.TASKS) / slow)
            self.assertLess(found[-1], 100, found)

    def test_the_same_at_a_step_from_either_side(self):
        self.run_script(LOOP.format(3000000), '', 65536, 20000000)
        for step in (12345678, 19000001):
            self.go(step)
            before = self.strings(), self.rule(), self.text('output')
            for other in (0, 20000000, step + 1):
                self.go(other)
                self.go(step)
                self.assertEqual((self.strings(), self.rule(), self.text('output')), before)

    def test_a_hundred_thousand_characters(self):
        text = 'x' * 100000
        for script in (f"#(ps,abcdefghijklmnop)#(ps,({text}))'", f"#(ps,({text})abcdefghijklmnop)'",
                       f"#(ds,f,({text}))#(ps,##(cl,f))#(ps,done)'"):
            self.run_script(script, '', 400000)
            last = self.steps()[1]
            for place in (12, 17, last - 16):
                self.quick('step', 16, place=place)
                self.quick('back', 32, place=place + 9)
            # the steps at which the text is read, taken, kept and printed too; a single click is less even
            for place in range(last):
                self.quick('step', 24, count=1, place=place, rounds=20)
                self.quick('back', 48, count=1, place=place + 1, rounds=20)

    def test_a_long_output(self):
        script = "#(ds,l,(#(ps,(0123456789 0123456789 0123456789 012345678\n))#(gr,N,0,(#(cl,l,#(su,N,1))))))" \
            "#(ss,l,N)#(cl,l,2499)'"
        self.run_script(script)
        wanted = run(script)[0].decode()
        self.assertEqual(len(wanted), 107500)
        for step in (20000, 60000, self.steps()[1]):
            self.go(step)
            self.quick('back', 16)
            self.assertTrue(self.script(
                "const box = document.getElementById('output');"
                "const later = box.querySelector('.later');"
                'const place = later ? later.getBoundingClientRect().top : box.lastChild && '
                'box.getBoundingClientRect().bottom;'
                'const { top, bottom } = box.getBoundingClientRect();'
                'return top <= place && place <= bottom'), 'what was printed last is in view')
        found = [self.text('output')]
        while self.is_on('output-before'):
            self.press('output-before')
            found.insert(0, self.text('output'))
        self.assertGreater(len(found), 1)
        self.assertTrue(wanted.startswith(found[0]) and wanted.endswith(found[-1]))
        self.assertIn(found[0], wanted)

    def test_two_thousand_forms(self):
        self.run_script("#(ds,l,(#(ds,form N,(the body of N))#(gr,N,1,(#(cl,l,#(su,N,1))))))#(ss,l,N)#(cl,l,2000)'")
        self.assertIn('of 2,001 forms', self.text('forms-where'))
        self.go(self.steps()[1] - 3000)
        self.jump('change')
        shown = self.script("return [...document.querySelectorAll('#forms .changed')].map((node) => {"
                            'const { top } = node.getBoundingClientRect();'
                            "const box = document.getElementById('forms').getBoundingClientRect();"
                            'return [node.textContent, box.top <= top && top <= box.bottom]; })')
        self.assertRegex(shown[0][0], r'^form \d+ ')
        self.assertTrue(all(is_seen for _, is_seen in shown), shown)
        self.put('forms-find', 'form 1234')
        self.assertIn('the body of 1234', self.text('forms'))
        names = set()
        while self.is_on('forms-before'):
            self.press('forms-before')
        while True:
            names.update(self.script("return [...document.querySelectorAll('#forms dt')].map((dt) => dt.textContent)"))
            if not self.is_on('forms-after'):
                break
            self.press('forms-after')
        self.assertGreater(len(names), 1700)
        self.quick('step', 16)

    def test_a_long_body(self):
        self.run_script("#(ds,f,({}))'".format('x' * 5000 + 'y'))
        while buttons := browser.find_elements(By.CSS_SELECTOR, '#forms button'):
            buttons[0].click()
        self.assertIn('xy', self.text('forms'))
        self.assertEqual(self.script('return document.activeElement.id'), 'forms')


class Steps(Lecture):
    def test_step_through(self):
        self.find('through').click()
        self.wait(self.is_at_rest)
        self.assertEqual(self.steps()[0], 9)
        printed = next(step for step, text in enumerate(self.walk("find('output').textContent")) if text)
        read = next(step for step, text in enumerate(self.walk("find('script-marks').querySelector('mark') ? 1 : 0"))
                    if text)
        self.assertLessEqual(printed - read, 10)

    def test_the_lesson(self):
        lesson = list(make.lesson())
        self.assertEqual(len(lesson), 10)
        options = self.find('example').find_elements(By.CSS_SELECTOR, 'optgroup:nth-child(2) option')
        self.assertEqual([option.text for option in options], [each['name'] for each in lesson])
        for each in lesson:
            self.choose(each['name'])
            self.assertEqual(self.text('says'), each['says'])
            self.run_it()
            self.assertEqual(self.text('output'), each['output'])
            self.assertEqual(run(each['script'])[0].decode(), each['output'])

    def landed(self):
        return self.script("return ['neutral', 'active'].map((id) => [...document.querySelectorAll("
                           "`#${id} .landed`)].map((mark) => mark.textContent).join(''))")

    def test_what_a_call_gave(self):
        self.through("#(ds,f,(a,b))#(ps,##(cl,f)#(cl,f))'")
        self.jump('name', 'cl')
        self.assertEqual(self.landed(), ['', ''])
        self.press('step')
        self.assertEqual(self.text('gave'), 'cl gave “a,b”: neutral, not scanned again.')
        self.assertEqual(self.landed(), ['a,b', ''])
        self.press('step')
        self.assertEqual(self.landed(), ['', ''])
        self.assertEqual(self.text('gave'), '')
        self.jump('name', 'cl')
        self.press('step')
        self.assertEqual(self.text('gave'), 'cl gave “a,b”: active, to be scanned again.')
        self.assertEqual(self.landed(), ['', 'a,b'])
        self.press('first')
        self.jump('name', 'ds')
        self.press('step')
        self.assertEqual(self.text('gave'), 'ds gave the null text.')

    def test_calls_in_words(self):
        for script, words in (
                ("#(gr,3,2,x,y)'", '3 is greater than 2, so the value is the third argument.'),
                ("#(gr,2,3,x,y)'", '2 is not greater than 3, so the value is the fourth argument.'),
                ("#(gr,99999999999999999999,2,x)'", 'so the value is the third argument.'),
                ("#(eq,a,b,x,y)'", '“a” and “b” are not the same, so the value is the fourth argument.'),
                ("#(eq,a,b,x,x)'", 'The third and the fourth argument are the same'),
                ("#(eq,a,b,x)'", 'are not the same, so the value is the fourth argument, which is null.'),
                ("#(gr,12a,b,x,y)'", 'The number of “12a” is not greater than the number of “b”'),
                ("#(ss,f,a,b)#(ds,f,ab)'", 'There is no form “f”, so the value is null and nothing changes.'),
                ("##(ds,f,ab)#(ss,f,a,b)'", 'each “a” becomes gap 1 and each “b” becomes gap 2'),
                ("#(cl,nope,a)'", 'There is no form “nope”, so the value is null.'),
                ("##(ds,f,a)#(cl,f,a)'", 'It calls the form “f” from its pointer on; it has no gap 1 for “a”.'),
                ("##(ds,f,abc)#(cn,f,-1,z)'", 'No character is there in the form “f”, so the value is the default'),
                ("##(ds,f,abc)#(cn,f,2)#(cr,f)'", 'It takes the next 2 characters of the form “f”.'),
                ("#(nosuch,f)'", 'No function has this name, so the value is null.')):
            with self.subTest(script=script):
                self.through(script)
                self.jump('name', re.search(r'(?<!#)#\((\w+)', script)[1])
                self.assertIn(words, self.text('rule-says'))

    def test_a_change_right_behind_a_call_that_changes_nothing(self):
        self.through("#(ds,a,y)#(ds,b,#(ds,a,y))'")
        for name in ('a', 'b'):
            self.jump('change')
            self.assertEqual(self.script("return document.querySelector('#forms .changed').textContent[0]"), name)

    def test_the_end_of_a_call(self):
        self.through("#(ps,#(ad,1,#(su,5,3)))'")
        self.jump('name', 'su')
        self.jump('end')
        self.assertIn('ad with 2 arguments', self.text('rule-says'))
        self.jump('end')
        self.assertIn('ps with 1 argument', self.text('rule-says'))
        self.assertIn('“3”', self.text('rule-says'))

    def test_a_far_printing(self):
        script = LOOP.format(100000)[:-1] + "#(ps,far)'"
        self.through(script)
        self.put('steps', '100000000')
        self.press('through')
        self.jump('printing')
        self.assertIn('ps gave', self.text('gave'))
        self.assertGreater(self.steps()[0], 2000000)

    def test_play(self):
        self.through("#(ds,a,x)#(ps,#(cl,a))'")
        self.choose('20', 'speed')
        self.press('play')
        self.assertEqual(self.text('play'), 'Pause')
        self.wait(lambda: self.steps()[0] > 3)
        self.press('play')
        here = self.steps()[0]
        self.choose('calls', 'pace')
        self.choose('change', 'stop-at')
        self.press('play')
        self.wait(lambda: self.text('play') == 'Play')
        self.assertGreater(self.steps()[0], here)
        # On a busy machine the words of a step come behind it.
        self.wait(lambda: self.text('gave'))
        self.assertEqual(self.text('gave'), 'ds gave the null text.')
        self.choose('name', 'stop-at')
        self.put('stop-name', 'cl')
        self.press('play')
        self.wait(lambda: self.text('play') == 'Play')
        self.wait(lambda: self.text('gave'))
        self.assertIn('cl gave “x”', self.text('gave'))
        self.choose('', 'stop-at')
        self.press('play')
        self.wait(lambda: self.text('play') == 'Play')
        self.assertEqual(*self.steps())

    def test_the_tree_of_calls(self):
        self.run_script("#(ps,#(ad,1,##(su,5,3)))'")
        self.wait_for_calls()
        self.script("document.getElementById('tree-part').open = true")
        self.wait(lambda: self.find('tree').text)
        labels = [label.text for label in browser.find_elements(By.CSS_SELECTOR, '#tree .call')]
        self.assertIn('#(ad,1,2) → 3', labels)
        inner = self.script("return [...document.querySelectorAll('#tree li')].find((item) => "
                            "item.firstChild.textContent.startsWith('#(ad')).querySelector('ul').textContent")
        self.assertEqual(inner, '##(su,5,3) → 2')
        self.find('tree').find_elements(By.XPATH, ".//button[starts-with(., '##(su')]")[0].click()
        self.assertIn('su with 2 arguments', self.text('rule-says'))
        self.assertEqual(self.script("return document.activeElement.textContent"), '##(su,5,3) → 2')

    def test_parentheses(self):
        self.put('script', "#(ps,(a))'")
        self.find('script').click()
        self.find('script').send_keys(Keys.CONTROL, Keys.HOME)
        self.find('script').send_keys(Keys.ARROW_RIGHT)
        self.wait(lambda: self.script("return document.querySelectorAll('#script-marks .pair').length") == 2)
        self.find('script').send_keys(Keys.CONTROL, Keys.END)
        self.find('script').send_keys('(')
        self.wait(lambda: self.script("return document.querySelectorAll('#script-marks .single').length") == 1)
        self.assertEqual(self.text('script-marks'), "#(ps,(a))'(\n")
        depths = self.script("return [...document.querySelectorAll('#script-marks .paren')]"
                             '.map((node) => node.className)')
        self.assertEqual([re.search(r'depth-(\d)', name)[1] for name in depths], ['1', '2', '2', '1', '1'])


class Files(Saving):
    def open_file(self, script):
        """Opens a file that holds this script."""
        path = os.path.join(self.folder.name, 'odd.trac')
        with open(path, 'wb') as file:
            file.write(script)
        self.find('file').send_keys(path)
        self.wait(lambda: 'opened' in self.text('told'))

    def test_any_bytes(self):
        script = b"#(ps,(\xff\xc3(\r\n\xe9t\xc3\xa9\t\x00\xf0\x9f\x98\x80)))'"
        self.open_file(script)
        self.assertEqual(self.saved('save', 'script.trac'), script)
        self.run_it()
        self.assertEqual(self.saved('save-output', 'output.txt'), run(script)[0])
        self.script("document.getElementById('settings').open = true")
        self.find('link').click()
        self.wait(lambda: '#' in browser.current_url)
        link = browser.current_url
        self.open(link)
        self.wait(self.is_at_rest)
        self.assertEqual(self.saved('save', 'script.trac'), script)

    def test_many_odd_bytes(self):
        script = b"#(ps,(" + bytes(byte for byte in range(256) if byte not in b"'()") * 40 + b"))'"
        self.open_file(script)
        self.assertEqual(self.saved('save', 'script.trac'), script)

    def test_a_link_with_a_step(self):
        self.run_script("#(ps,a)'")
        self.go(12)
        self.script("document.getElementById('settings').open = true")
        self.find('link').click()
        self.wait(lambda: 'carries the script and the step' in self.text('told'))
        link = browser.current_url
        self.assertIn('step=12', link)
        for place in (link, link.replace('#', '?embed#')):
            self.open(place)
            self.wait(self.is_at_rest)
            self.assertEqual(self.steps()[0], 12)
        self.assertFalse(self.is_shown('script'))
        self.assertTrue(self.is_shown('step'))
        browser.find_element(By.TAG_NAME, 'body').send_keys(Keys.ARROW_RIGHT)
        self.assertEqual(self.steps()[0], 13)

    def trace(self):
        return self.saved('save-trace', 'trace.txt').decode().splitlines()

    def test_the_end_of_a_trace(self):
        for script, more, cells, steps in (
                ("#(ps,a)#(hl)#(ps,b)'", '', 65536, 1000000), ("#(ps,a)'", '', 65536, 12), ("#(ps,a)'", '', 14, 1000),
                ("#(ps,#(rs))#(ps,#(rc))'", "one'\ntwo", 65536, 1000000), (LOOP.format(100000), '', 65536, 20000)):
            with self.subTest(script=script, cells=cells, steps=steps):
                self.run_script(script, more, cells, steps)
                lines, _ = whole_trace((script + more).encode(), '--cells', str(cells), '--steps', str(steps))
                self.assertEqual(self.trace(), lines)

    def test_the_trace_of_a_long_run(self):
        script = LOOP.format(100000)
        self.run_script(script, '', 65536, 20001)
        lines = self.trace()
        self.assertEqual(lines.pop(), '.. 1 more step; trac_trace writes all steps')
        self.assertEqual(lines, whole_trace(script.encode(), '--steps', '20001')[0][:len(lines)])
        self.assertEqual(traced(lines)[-1][0], 20000)

    def test_the_trace_of_a_run_that_was_stopped(self):
        self.script("""
            const { now } = performance;
            let ahead = 0;
            performance.now = () => { ahead += 10; return now.call(performance) + ahead; };
        """)
        self.put('script', ENDLESS)
        self.put('steps', '1000000000000')
        self.find('run').click()
        self.wait(lambda: re.match('Running: [1-9]', self.text('fate')))
        self.find('stop').click()
        self.wait(self.is_at_rest)
        self.script('delete performance.now')
        last = self.steps()[1]
        self.assertLess(last, 20000)
        lines = self.trace()
        self.assertEqual(traced(lines)[-1][0], last)
        self.assertEqual(lines, whole_trace(ENDLESS.encode(), '--steps', str(last))[0][:len(lines)])

    @pytest.mark.timed
    def test_a_trace_in_front_of_much_input_takes_little_time(self):
        for script, size in ((LOOP.format(1000), 1000000),
                             ("#(ds,loop,(#(ps,##(rc))#(cl,loop)))#(cl,loop)'", 6000000)):
            with self.subTest(script=script):
                self.run_script(script, 'x' * size, 65536, 20000)
                slow = page.slowness()
                start = time.monotonic()
                self.trace()
                self.assertLess(time.monotonic() - start, 6 * slow)

    def test_a_trace_that_finds_no_memory(self):
        self.run_script("#(ps,a)'")
        self.script("WebAssembly.instantiate = async () => { throw new RangeError('no memory'); }")
        self.press('save-trace')
        self.wait(lambda: 'Writing' not in self.text('told'), 5)
        self.assertEqual(self.text('told'), 'This browser can’t give the memory for so many cells.')

    def test_code_to_embed(self):
        self.run_script("#(ps,a&b<\"c)'")
        self.go(12)
        self.script("""
            Object.defineProperty(navigator, 'clipboard', { value: { writeText: async (text) => {
                document.body.insertAdjacentHTML('beforeend', text);
            } } });
            document.getElementById('embed').click();
        """)
        self.wait(lambda: 'copied' in self.text('told'))
        self.open(self.script("return document.querySelector('iframe').src"))
        self.wait(self.is_at_rest)
        self.assertEqual((self.value('script'), self.steps()[0]), ("#(ps,a&b<\"c)'", 12))
        self.assertFalse(self.is_shown('script'))

    def embedded(self, *panels):
        """The place and the height of the steps as they are embedded, with some parts of the page."""
        self.script("""
            for (const each of document.getElementsByName('panel')) each.checked = arguments[0].includes(each.value);
            Object.defineProperty(navigator, 'clipboard', { configurable: true, value: { writeText: async (text) => {
                document.querySelector('iframe')?.remove();
                document.body.insertAdjacentHTML('beforeend', text);
            } } });
            document.getElementById('told').textContent = '';
            document.getElementById('embed').click();
        """, panels)
        self.wait(lambda: 'copied' in self.text('told'))
        return self.script("const { src, height } = document.querySelector('iframe'); return [src, Number(height)]")

    def test_what_is_embedded(self):
        self.run_script(example('hanoi.trac').decode())
        self.go(1500)
        chosen = [(), ('script',), ('output',), ('play',), ('script', 'output', 'play')]
        places = [self.embedded(*panels) for panels in chosen]
        self.addCleanup(browser.execute_cdp_cmd, 'Emulation.clearDeviceMetricsOverride', {})
        for panels, (place, height) in zip(chosen, places):
            for width in (700, 900):
                with self.subTest(panels=panels, width=width):
                    browser.execute_cdp_cmd('Emulation.setDeviceMetricsOverride', {
                        'width': width, 'height': height, 'deviceScaleFactor': 1, 'mobile': False})
                    self.open(place)
                    self.wait(lambda: self.is_shown('step') and self.is_at_rest())
                    self.assertEqual([name for name, part in (('script', 'script'), ('output', 'output'), (
                        'play', 'play')) if self.is_shown(part)], list(panels))
                    self.assertLessEqual(self.script('return document.documentElement.scrollHeight'), height)

    def test_a_link_brings_back_what_is_seen(self):
        ids = {'tree-part': 'open', 'fold': 'checked', 'show-all': 'checked'}
        look = 'const ids = arguments[0]; return Object.fromEntries(Object.entries(ids).map(([id, name]) => ' \
            '[id, document.getElementById(id)[name]]))'
        self.run_script("#(ps,#(ad,1,2))'")
        self.go(12)
        links = []
        for change in ('', 'tree-part', 'fold', 'show-all'):
            if change:
                self.script('const [id, ids] = arguments; const part = document.getElementById(id);'
                            'part[ids[id]] = !part[ids[id]]', change, ids)
            self.press('link')
            self.wait(lambda: browser.current_url not in [link for link, _ in links])
            links.append((browser.current_url, self.script(look, ids)))
        self.assertEqual(links[-1][1], {'tree-part': True, 'fold': False, 'show-all': True})
        for link, seen in reversed(links):
            self.open(link)
            self.wait(lambda: self.is_shown('step') and self.is_at_rest())
            self.assertEqual((self.script(look, ids), self.steps()[0]), (seen, 12))
        self.script("document.getElementById('fold').checked = false")
        self.script('window.location = arguments[0]', links[1][0])
        self.wait(lambda: self.script(look, ids) == links[1][1])
        self.wait(lambda: self.find('tree').text)

    def test_a_link_to_a_part_of_the_lesson(self):
        self.open(f'{PLACE}?lesson=4')
        self.assertEqual(self.value('example'), '4. Active and neutral')
        self.type('typed')
        text = self.value('script')
        self.open(f'{PLACE}?lesson=10', keeps=True)
        self.assertEqual(self.value('example'), '10. What memory is')
        self.find('bring-back').click()
        self.assertEqual(self.value('script'), text)
        self.open(f'{PLACE}?lesson=10', keeps=True)
        self.assertEqual(self.value('script'), text)
        self.open(f'{PLACE}?lesson=11')
        self.assertEqual(self.value('example'), '1. A call prints')
        self.open(f'{PLACE}?lesson=4#script=YQ')
        self.assertEqual(self.value('script'), 'a')

    def test_a_link_alone_runs_no_trillion_steps(self):
        packed = base64.urlsafe_b64encode(ENDLESS.encode()).decode().rstrip('=')
        for end in ('', '?embed'):
            self.open(f'{PLACE}{end}#script={packed}&cells=1000&steps=1000000000000&step=12')
            self.wait(lambda: self.is_shown('step') and self.is_at_rest())
            self.assertEqual(self.steps(), (12, 10000000))
            self.assertIn('a link alone runs no further', self.text('fate').lower())
            self.press('last')
            self.assertTrue(self.text('rule-says').endswith('a link alone runs no further.'))
        self.script("document.getElementById('run').click()")
        self.wait(lambda: self.text('fate').startswith('Running') and '1,' in self.text('fate'))
        self.script("document.getElementById('stop').click()")
        self.wait(lambda: self.text('fate').startswith('Stopped by you.'))

    def test_a_long_link(self):
        self.put('script', "#(ps,({}))'".format('long ' * 4000))
        self.script("document.getElementById('settings').open = true")
        self.find('link').click()
        self.wait(lambda: 'It is long' in self.text('told'))


class Study(Lecture):
    def verdict(self):
        """The message about a run, when no more inputs are tried."""
        self.wait(lambda: 'Trying' not in self.text('verdict'))
        return self.text('verdict')

    def tried(self, number, script):
        """The message about a script for an exercise."""
        name = self.script("return document.getElementById('exercise').options[arguments[0]].text", number)
        self.choose(name, 'exercise')
        self.put('script', script)
        self.run_it()
        return self.verdict()

    def test_scripts_as_the_command_judges_them(self):
        for number, script, _ in WRONG:
            with self.subTest(number=number, script=script):
                self.assertTrue(self.tried(number, script).startswith('Not yet'))
        for number, script, said in CONSTANTS:
            with self.subTest(number=number, script=script):
                verdict = self.tried(number, script)
                if said.startswith('it prints'):
                    self.assertEqual(verdict, said.strip().replace('it prints', 'Not yet: this prints').replace(
                        'but also', 'also').replace('text, also', 'text also') + '.')
                else:
                    old, new = said.splitlines()[1:3]
                    self.assertTrue(verdict.startswith(f'Not yet with “{new}” for each “{old}” in the script. Yours'))
                    self.assertTrue(self.is_shown('difference'))
        for number, script in RIGHT:
            with self.subTest(number=number, script=script):
                self.assertEqual(self.tried(number, script), 'Done: this prints what is wanted.')

    def test_an_input_that_is_not_shown(self):
        verdict = self.tried(4, "#(ps,(Who are you? Good day, Ada (Countess, too).))#(,##(rs))'")
        self.assertEqual(verdict, 'Not yet with another input. Yours has “Ada (Countess, too)” in place of '
                         '“)( #(ps,x) ,” in line 1, column 24.')
        self.assertEqual(self.text('tried'), ")( #(ps,x) ,'\n")
        self.tried(4, "#(ps,x)'")
        self.assertTrue(self.is_shown('wanted'))
        self.assertFalse(self.is_shown('tried'))

    def test_what_runs_without_end_is_wrong(self):
        self.put('steps', '5000')
        self.assertEqual(self.tried(1, "#(ps,(Hello, world!))#(ds,a,(#(cl,a)))#(cl,a)'"),
                         'Not yet: yours prints what is wanted, but doesn’t end by itself.')

    def test_a_hint_and_then_a_solution(self):
        exercises = list(make.exercises())
        for number, each in enumerate(exercises, 1):
            self.choose(each['name'], 'exercise')
            self.script("document.querySelector('#study details').open = true")
            self.assertEqual((self.value('script'), self.is_shown('solution')), (each['script'], False))
            self.press('hint')
            self.assertEqual(self.text('hint-words'), each['hint'].replace('`', ''))
            self.press('solution')
            self.assertEqual(self.text('solution-script'), each['solution'])
            self.assertEqual(self.text('solution-why'), each['why'].replace('`', ''))
            self.press('use-solution')
            self.run_it()
            self.assertEqual(self.verdict(), 'Done: this prints what is wanted.')
        self.assertTrue(exercises[7]['script'].startswith('#(ds,square,(#(ps,(s squared is )'))

    def test_exercises(self):
        self.choose('1. A greeting', 'exercise')
        self.assertEqual(self.value('script'), '')
        self.assertIn('The comma is part of the line.', self.text('task-words'))
        self.put('script', "#(ps,Hello)'")
        self.run_it()
        self.assertEqual(self.text('verdict'), 'Not yet: yours lacks “, world!” at the end of line 1, column 6.')
        names = self.script("return [...document.getElementById('exercise').options].slice(1)"
                            '.map(({ text }) => text)')
        self.assertEqual(len(names), 20)
        for name in names:
            with self.subTest(exercise=name):
                self.choose(name, 'exercise')
                path, = [each for each in os.listdir(os.path.join(TOP, 'examples', 'exercises'))
                         if each.startswith(f'{int(name.split(".")[0]):02}') and each.endswith('.trac')]
                solution = example(os.path.join('exercises', path)).decode().strip('\n')
                given = self.value('input').strip('\n')
                self.assertTrue(solution.endswith(given))
                self.put('script', solution[:len(solution) - len(given)])
                self.run_it()
                self.assertEqual(self.verdict(), 'Done: this prints what is wanted.')

    def test_differences(self):
        for name, printed, words, yours, wanted in (
                ('1. A greeting', 'Hello, world! ', 'has a blank more at the end of line 1, column 14', ' ', ''),
                ('1. A greeting', 'Hello,  world!', 'has a blank more in line 1, column 8', ' ', ''),
                ('1. A greeting', 'Hello,  world! ', 'has a blank more in line 1, column 8', ' ', ''),
                ('1. A greeting', 'Hello,world', 'lacks a blank in line 1, column 7', '', ' '),
                ('1. A greeting', 'Hallo, world!', 'has “a” in place of “e” in line 1, column 2', 'a', 'e'),
                ('1. A greeting', 'Hello,\tworld!', 'has “\\t” in place of a blank in line 1, column 7', '\\t', ' '),
                ('1. A greeting', '\n\nHello, world!', 'lacks “Hello, world!” at the end of line 1, column 1',
                 '', 'Hello, world!'),
                ('1. A greeting', 'Hello, world!\n\nx', 'has more lines than are wanted, from line 2 on', '', ''),
                ('1. A greeting', '', 'prints nothing', '', 'Hello, world!'),
                ('2. Parentheses and lines', 'f(x), g(y)', 'ends behind line 1, and another line is wanted',
                 '', 'h(z)'),
                ('2. Parentheses and lines', 'f(x), g(y) h(z)', 'has “ h(z)” more at the end of line 1, column 11',
                 ' h(z)', '')):
            with self.subTest(printed=printed):
                self.choose(name, 'exercise')
                self.put('script', f"#(ps,({printed}))'")
                self.run_it()
                self.assertEqual(self.text('verdict'), f'Not yet: yours {words}.')
                self.assertTrue(self.is_shown('difference'))
                for part, text in (('yours', yours), ('wanted', wanted)):
                    self.assertEqual(self.script(
                        "return document.querySelector(`#${arguments[0]} mark`)?.textContent ?? ''", part), text)
                    # each blank is drawn
                    self.assertEqual(*self.script(
                        'const box = document.getElementById(arguments[0]);'
                        "return [box.querySelectorAll('.blank').length,"
                        "box.querySelector('.nothing') ? 0 : box.textContent.split(' ').length - 1]", part))
        self.assertTrue(self.text('wanted').endswith('↵'))
        self.put('script', "#(ps,(f(x), g(y)\nh(z)))'")
        self.run_it()
        self.assertEqual(self.verdict(), 'Done: this prints what is wanted.')
        self.assertFalse(self.is_shown('difference'))

    def test_functions(self):
        rows = browser.find_elements(By.CSS_SELECTOR, '#functions tr')
        self.assertEqual(len(rows), 22)
        for index in (0, 10, 21):
            self.script("document.querySelectorAll('#functions button')[arguments[0]].click()", index)
            self.run_it()
            script = self.value('script')
            self.assertEqual(self.text('output').rstrip('\n'), run(script)[0].decode().rstrip('\n'))


class Eyes(Lecture):
    def tearDown(self):
        browser.execute_cdp_cmd('Emulation.setEmulatedMedia', {'features': [], 'media': ''})
        browser.execute_cdp_cmd('Emulation.clearDeviceMetricsOverride', {})

    def emulate(self, **features):
        browser.execute_cdp_cmd('Emulation.setEmulatedMedia', {'features': [
            {'name': name.replace('_', '-'), 'value': value} for name, value in features.items()]})

    def look(self, selector, name):
        return self.script(
            'return getComputedStyle(document.querySelector(arguments[0]))[arguments[1]]', selector, name)

    def test_contrast_of_marks(self):
        for scheme in ('light', 'dark'):
            self.emulate(prefers_color_scheme=scheme, prefers_reduced_motion='reduce')
            self.through("#(ds,f,a)#(ps,#(cl,f))'")
            self.jump('name', 'cl')
            self.press('step')
            sheet = self.look('.sheet', 'backgroundColor')
            for selector, name in (('#script-marks mark', 'boxShadow'), ('#active .landed', 'borderBottomColor'),
                                   ('#neutral .mark', 'borderTopColor'), ('#script-marks .paren', 'color'),
                                   ('#active .scanned', 'outlineColor')):
                colour = re.search(r'rgba?\([^)]*\)', self.look(selector, name))[0]
                against = self.look('#active .scanned', 'backgroundColor') if name == 'outlineColor' else sheet
                self.assertGreaterEqual(ratio(colour, against), 3, (scheme, selector, colour, against))

    def test_forced_colours(self):
        self.emulate(forced_colors='active')
        self.through("#(ds,f,a)#(ps,#(cl,f))'")
        self.jump('name', 'cl')
        self.press('step')
        self.assertNotEqual(self.look('#script', 'color'), 'rgba(0, 0, 0, 0)')
        self.assertNotEqual(self.look('#script-marks mark', 'boxShadow'), 'none')
        self.assertNotEqual(self.look('#block .part-store', 'backgroundColor'), self.look('#block', 'backgroundColor'))
        self.assertNotEqual(self.look('#active .landed', 'color'), self.look('#active .landed', 'backgroundColor'))

    def test_black_on_white(self):
        self.choose('dark', 'scheme')
        self.choose('huge', 'size')
        self.choose('10. What memory is')
        self.through(self.value('script'))
        self.choose('10. What memory is')
        self.run_it()
        self.go(60)
        browser.execute_cdp_cmd('Emulation.setEmulatedMedia', {
            'media': 'print', 'features': [{'name': 'prefers-color-scheme', 'value': 'dark'}]})
        self.script("window.dispatchEvent(new Event('beforeprint'))")
        for part, name, colour in (('body', 'color', 'rgb(0, 0, 0)'), ('body', 'backgroundColor', 'rgb(255, 255, 255)'),
                                   ('#neutral', 'backgroundColor', 'rgb(255, 255, 255)'),
                                   ('#script-marks', 'color', 'rgb(0, 0, 0)')):
            self.assertEqual(self.look(part, name), colour)
        for part in ('#neutral .mark', '#script-marks .paren', '#forms .gap'):
            self.assertGreaterEqual(ratio(self.look(part, 'color'), 'rgb(255, 255, 255)'), 4.5, part)
        self.assertEqual(self.text('caption'), f'10. What memory is: a script in TRAC T-64, 60 of {self.steps()[1]} '
                         'steps done in 65,536 cells.')
        captions = self.script("return [...document.querySelectorAll('h2')].filter((node) => node.offsetParent)"
                               '.map((node) => node.firstChild.data.trim())')
        self.assertEqual(captions, ['Script', 'Output', 'Steps', 'Neutral string', 'Active string', 'Forms',
                                    'Cells'])
        self.assertTrue(self.is_shown('caption') and self.is_shown('scale'))
        self.script("window.dispatchEvent(new Event('afterprint'))")

    def test_on_paper(self):
        self.choose('huge', 'size')
        script = "#(ds,l,(#(ps,(line N of the output\n))#(gr,N,1,(#(cl,l,#(su,N,1))))))#(ss,l,N)#(cl,l,4000)'" \
            + '\n' * 300 + "#(ps,the end)'" + ' ' * 20000
        self.run_script(script)
        browser.execute_cdp_cmd('Emulation.setEmulatedMedia', {'media': 'print'})
        self.script("window.dispatchEvent(new Event('beforeprint'))")
        self.assertEqual(len(self.text('output')), len(run(script)[0]))
        for name in ('script-marks', 'output', 'neutral', 'active', 'forms'):
            self.assertLessEqual(*self.script(
                'const box = document.getElementById(arguments[0]); return [box.scrollHeight, box.clientHeight + 1]',
                name))
        self.assertIn('the end', self.text('script-marks'))
        for name in ('script', 'step', 'run', 'slider', 'example', 'size', 'lesson', 'live', 'fold'):
            self.assertFalse(self.is_shown(name), name)
        self.script("window.dispatchEvent(new Event('afterprint'))")
        self.assertLess(len(self.text('output')), len(run(script)[0]))
        paper = browser.execute_cdp_cmd('Page.printToPDF', {})
        self.assertTrue(base64.b64decode(paper['data']).startswith(b'%PDF'))

    def test_the_focus_is_never_lost(self):
        self.through("#(ps,a)'")
        for name, keys in (('back', Keys.ENTER), ('last', Keys.ENTER), ('step', Keys.ENTER), ('call-step', Keys.ENTER),
                           ('first', Keys.ENTER), ('call-back', Keys.ENTER), ('run', Keys.ENTER)):
            self.find(name).send_keys(keys)
            self.wait(self.is_at_rest)
            self.assertEqual(self.script('return document.activeElement.id'), name)
        self.put('script', ENDLESS)
        self.put('steps', '1000000000000')
        self.find('run').send_keys(Keys.ENTER)
        self.wait(lambda: self.is_shown('stop'))
        self.find('stop').send_keys(Keys.ENTER)
        self.wait(self.is_at_rest)
        self.assertEqual(self.script('return document.activeElement.id'), 'run')

    def test_one_thing_is_said_at_a_step(self):
        self.through("#(ps,#(ad,1,2))'")
        said = self.script("""
            const regions = [...document.querySelectorAll('[role=status], [aria-live]')];
            const look = () => regions.map((region) => region.textContent);
            const counts = [];
            while (document.getElementById('step').ariaDisabled !== 'true') {
                const before = look();
                document.getElementById('step').click();
                counts.push(look().filter((text, i) => text !== before[i]).length);
            }
            return counts;
        """)
        self.assertLessEqual(max(said), 1)

    def test_targets_on_a_phone(self):
        browser.execute_cdp_cmd('Emulation.setDeviceMetricsOverride', {
            'width': 390, 'height': 844, 'deviceScaleFactor': 1, 'mobile': True})
        self.through("#(ps,#(ad,1,2))'")
        self.script("document.querySelectorAll('details').forEach((part) => { part.open = true; })")
        self.choose('4. Who is there?', 'exercise')
        self.wait_for_calls()
        small = self.script("""
            return [...document.querySelectorAll('button, select, input, summary, textarea')]
                .filter((node) => node.offsetParent)
                .map((node) => [node, (node.type === 'checkbox' ? node.parentNode : node).getBoundingClientRect()])
                .filter(([, { width, height }]) => width < 44 || height < 44)
                .map(([node, { width, height }]) => `${node.id || node.textContent} ${width} ${height}`);
        """)
        self.assertEqual(small, [])

    def test_controls_stay_in_view(self):
        for width, height in ((1280, 720), (390, 844)):
            browser.execute_cdp_cmd('Emulation.setDeviceMetricsOverride', {
                'width': width, 'height': height, 'deviceScaleFactor': 1, 'mobile': width < 500})
            for size in ('normal', 'large', 'huge'):
                self.open(PLACE)
                self.choose(size, 'size')
                self.through(example('hanoi.trac').decode())
                for selector in ('#neutral', '#forms', '#block'):
                    with self.subTest(width=width, size=size, selector=selector):
                        self.script("document.querySelector(arguments[0]).scrollIntoView({ block: 'end' })", selector)
                        top, bottom, right = self.script(
                            "const { top, bottom, right } = document.getElementById('step').getBoundingClientRect();"
                            'return [top, bottom, right]')
                        self.assertTrue(0 <= top and bottom <= height and right <= width, (top, bottom, right))
                self.assertLessEqual(*self.script(
                    'const page = document.documentElement; return [page.scrollWidth, page.clientWidth]'))

    def test_big_type_and_colours_stay(self):
        sizes = []
        for size in ('normal', 'large', 'huge'):
            self.choose(size, 'size')
            sizes.append(float(self.look('#says', 'fontSize')[:-2]))
        self.assertEqual(sizes, sorted(set(sizes)))
        self.choose('dark', 'scheme')
        dark = self.look('body', 'backgroundColor')
        self.open(PLACE, keeps=True)
        self.assertEqual((self.look('body', 'backgroundColor'), float(self.look('#says', 'fontSize')[:-2])),
                         (dark, sizes[2]))
        self.choose('light', 'scheme')
        self.assertNotEqual(self.look('body', 'backgroundColor'), dark)


def ratio(one, other):
    """The contrast of two colours."""
    lights = []
    for colour in (one, other):
        parts = [float(part) / 255 for part in re.findall(r'[\d.]+', colour)[:3]]
        parts = [part / 12.92 if part <= 0.04045 else ((part + 0.055) / 1.055) ** 2.4 for part in parts]
        lights.append(sum(part * weight for part, weight in zip(parts, (0.2126, 0.7152, 0.0722))))
    return (max(lights) + 0.05) / (min(lights) + 0.05)


if __name__ == '__main__':
    unittest.main()
