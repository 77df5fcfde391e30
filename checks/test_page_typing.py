"""The page while a user types: results and suspicious places appear, the step stays, and a key is handled quickly in a
long script."""
import time
import unittest

import page
import pytest
from page import LOOP, Lecture, example
from selenium.webdriver.common.keys import Keys

DEFINED = "#(ds,f,(#(ps,(abc),#(ad,1,2))))\n"
LINES = DEFINED * (19900 // len(DEFINED))
NESTED = '(' * 5000 + ')' * 5000


def setUpModule():
    global browser
    browser = page.start()


class Results(Lecture):
    def settle(self):
        """Waits until the page has examined what was typed."""
        self.script('window.done = false; setTimeout(() => { window.done = true; }, 350)')
        self.wait(lambda: self.script('return window.done') and self.is_at_rest())

    def retype(self, text):
        self.find('script').send_keys(Keys.CONTROL, 'a')
        self.find('script').send_keys(text)

    def test_what_is_printed(self):
        self.retype("#(ps,one)'")
        self.wait(lambda: self.text('output') == 'one')
        self.assertTrue(self.text('fate').startswith('Ended: all input is read.'))
        self.assertEqual(self.find('fate').get_attribute('aria-live'), 'off')
        self.assertFalse(self.is_shown('machine'))
        self.type('#')
        self.assertIn('stale', self.find('printed').get_attribute('class'))
        self.type("(ps,two)'")
        self.wait(lambda: self.text('output') == 'onetwo')
        self.assertNotIn('stale', self.find('printed').get_attribute('class'))
        self.assertEqual(self.script('return document.activeElement.id'), 'script')

    def test_what_is_shown_stands_at_the_same_step(self):
        self.through("#(ps,one)#(ds,a,b)#(ps,two)'")
        self.jump('change')
        here, strings = self.steps()[0], self.strings()
        self.find('script').send_keys(Keys.CONTROL, Keys.END)
        self.find('script').send_keys(Keys.ARROW_LEFT, '#(ps,three)')
        self.assertTrue(self.is_shown('stale'))
        self.wait(lambda: not self.is_shown('stale'))
        self.assertEqual((self.steps()[0], self.strings()[0], self.text('output')), (here, strings[0], 'one'))
        self.assertEqual(self.strings()[1], '#(ps,two)#(ps,three))')
        self.assertEqual(self.script('return document.activeElement.id'), 'script')
        self.press('last')
        self.assertEqual(self.text('output'), 'onetwothree')
        self.type("#(ps,four)'")
        self.wait(lambda: self.text('output') == 'onetwothreefour')
        self.assertEqual(*self.steps())

    def test_where_something_else_was_done_the_script_begins(self):
        for typed in ('#(ps,zero)', '#(ds,x,y)', '##(ps,(', '\n'):
            with self.subTest(typed=typed):
                self.through("#(ps,one)#(ds,a,b)#(ps,two)'")
                self.jump('change')
                self.find('script').send_keys(Keys.CONTROL, Keys.HOME)
                self.find('script').send_keys(typed)
                self.settle()
                self.assertEqual((self.steps()[0], self.is_shown('stale')), (9, False))

    def test_what_takes_many_steps_is_not_run(self):
        self.through("#(ps,one)'")
        self.retype("#(zz)" + LOOP.format(100000))
        self.wait(lambda: self.is_shown('suspicions'))
        self.settle()
        self.assertTrue(self.is_shown('stale'))
        self.run_it()
        self.assertFalse(self.is_shown('stale'))

    def test_the_switch(self):
        self.script("document.getElementById('live').click()")
        self.open(page.PLACE, keeps=True)
        self.retype("#(ps,one)#(zz)'")
        self.wait(lambda: self.is_shown('suspicions'))
        self.settle()
        self.assertEqual((self.text('output'), self.text('fate')), ('', 'Not run yet.'))

    def test_where_there_is_no_memory_only_a_run_says_so(self):
        self.script("WebAssembly.instantiate = async () => { throw new RangeError('no memory'); }")
        browser.get_log('browser')
        self.retype("#(ps,one)'")
        self.settle()
        self.assertEqual((browser.get_log('browser'), self.text('fate')), ([], 'Not run yet.'))
        self.run_it()
        self.assertEqual(self.text('fate'), 'This browser can’t give the memory for so many cells.')

    def test_nothing_moves(self):
        self.put('script', LINES[:6000] + "#(ps,(one))'")
        self.press('through')
        self.type('x')
        box = "const box = document.getElementById('script'); return [box.scrollTop, box.selectionStart]"
        before = self.script(box)
        self.assertGreater(before[0], 1000)
        self.settle()
        self.assertFalse(self.is_shown('stale'))
        self.assertEqual(self.script(box), before)

    def test_a_link_has_no_step_of_what_nobody_asked_for(self):
        self.retype("#(ps,one)'")
        self.wait(lambda: self.text('output') == 'one')
        self.press('link')
        self.wait(lambda: '#' in browser.current_url)
        self.assertNotIn('step=', browser.current_url)


class Suspicions(Lecture):
    SPOTS = ("return [...document.querySelectorAll('.sheet .spot')].map((node) => {"
             ' const front = document.createRange(); const sheet = node.closest("pre");'
             ' front.selectNodeContents(sheet); front.setEndBefore(node);'
             ' return [sheet.id, front.toString().length, node.textContent]; })')

    def test_places_in_the_boxes(self):
        self.put('script', "#(ds,ü😀,a)\n#(zz)#(cl,none)#(rs)'")
        self.put('input', 'x#(nothing)')
        self.wait(lambda: self.is_shown('suspicions'))
        self.assertEqual(self.script(self.SPOTS), [
            ['script-marks', 12, '#'], ['script-marks', 17, '#'], ['input-marks', 0, 'x'], ['input-marks', 1, '#']])
        self.assertEqual(len(browser.find_elements('css selector', '#warnings button')), 4)
        self.find('script').send_keys(Keys.CONTROL, 'a')
        self.find('script').send_keys("#(ps,a)'")
        self.assertEqual(self.script("return document.querySelectorAll('#script-marks .spot').length"), 0)
        self.put('input', '')
        self.wait(lambda: not self.is_shown('suspicions'))
        self.assertEqual(self.script(self.SPOTS), [])

    def test_a_parenthesis(self):
        self.put('script', "#(ps,a))'")
        self.wait(lambda: self.script(self.SPOTS) == [['script-marks', 7, ')']])
        self.put('script', "#(ps,(a'")
        self.wait(lambda: self.script(self.SPOTS) == [['script-marks', 5, '(']])
        self.put('script', "#(ps,(a'b'")
        self.wait(lambda: self.script(self.SPOTS) == [['script-marks', 7, "'"]])

    def sheet(self):
        return self.script("return document.getElementById('script-marks').textContent")

    def test_two_warnings_at_one_place_are_one_mark(self):
        self.find('script').send_keys(Keys.CONTROL, 'a')
        self.find('script').send_keys('#(ps,hello')
        self.wait(lambda: self.is_shown('suspicions'))
        self.assertEqual(len(browser.find_elements('css selector', '#warnings button')), 2)
        self.assertEqual(self.script(self.SPOTS), [['script-marks', 0, '#']])
        self.assertEqual(self.sheet(), self.value('script') + '\n')

    def test_places_in_the_order_of_the_text(self):
        self.put('script', "#(zz)#(ps,😀(a)\nü#(zz))'\n'#(yy)")
        self.wait(lambda: self.is_shown('suspicions'))
        places = [place for _, place, _ in self.script(self.SPOTS)]
        self.assertEqual(places, sorted(set(places)))
        self.assertEqual(self.sheet(), self.value('script') + '\n')

    @pytest.mark.timed
    def test_many_warnings_in_a_long_line_take_little_time(self):
        slow = page.slowness()
        self.put('script', ')' * 20000 + "'" + 'x' * 200000)
        start = time.monotonic()
        self.wait(lambda: self.is_shown('suspicions'))
        self.assertIn('The first 200 of ', self.text('suspicions-told'))
        self.assertLess(time.monotonic() - start, 8 * slow)

    def test_what_is_filled_in_has_no_marks_of_the_former_text(self):
        for fill in (lambda: self.script("document.getElementById('functions').querySelector('button').click()"),
                     lambda: self.press('bring-back'), lambda: self.choose('6. Gaps')):
            self.type('abc#(zz)')
            self.wait(lambda: self.script(self.SPOTS))
            before = self.value('script')
            fill()
            self.assertNotEqual(self.value('script'), before)
            self.assertEqual(self.script(self.SPOTS), [])
            self.assertEqual(self.sheet(), self.value('script') + '\n')

    def test_the_place_of_what_was_clicked_is_marked_too(self):
        self.put('script', "#(zz)#(yy)'")
        self.wait(lambda: self.is_shown('suspicions'))
        browser.find_elements('css selector', '#warnings button')[1].click()
        self.assertEqual(self.script("return document.querySelector('#script-marks mark').textContent"), '#')
        self.assertEqual([place for _, place, _ in self.script(self.SPOTS)], [0, 5])


class Colours(Lecture):
    # the parentheses of the box that are in view: of each its place and whether it is coloured
    SEEN = """
        const [box, sheet] = ['script', 'script-marks'].map((id) => document.getElementById(id));
        const { top } = box.getBoundingClientRect();
        const walk = document.createTreeWalker(sheet, NodeFilter.SHOW_TEXT);
        const found = [];
        while (walk.nextNode()) {
            const node = walk.currentNode;
            for (let at = 0; at < node.length; at += 1) {
                if (!'()'.includes(node.data[at])) continue;
                const one = document.createRange();
                one.setStart(node, at);
                one.setEnd(node, at + 1);
                const rect = one.getBoundingClientRect();
                if (rect.bottom > top && rect.top < top + box.clientHeight) {
                    found.push(node.parentNode.classList.contains('paren'));
                }
            }
        }
        return found;
    """

    def all_coloured(self):
        seen = self.script(self.SEEN)
        return len(seen) > 20 and all(seen)

    def test_what_is_in_view_of_a_long_script(self):
        for text in (LINES, LINES.replace('\n', ''), NESTED):
            self.put('script', text)
            for part in (0.5, 1, 0.1):
                self.script("const box = document.getElementById('script');"
                            'box.scrollTop = box.scrollHeight * arguments[0]', part)
                self.wait(self.all_coloured, 5)
            self.assertLess(self.script("return document.querySelectorAll('#script-marks .paren').length"), 2500)
            self.type('(')
            self.assertTrue(self.all_coloured())
            self.script("document.getElementById('script').style.height = '600px'")
            self.wait(self.all_coloured, 5)
            self.script("document.getElementById('script').style.height = ''")

    def test_a_file_is_coloured_from_its_begin(self):
        self.put('script', LINES)
        self.type('x')
        self.script("const box = document.getElementById('functions').querySelector('button').click()")
        self.press('bring-back')
        self.assertEqual(self.value('script'), LINES + 'x')
        self.assertTrue(self.all_coloured())

    def test_depths_in_a_long_script(self):
        self.put('script', '(' * 4 + '()' * 3 + 'x' * 18000 + '))))')
        self.type('x')
        classes = self.script("return [...document.querySelectorAll('#script-marks .paren')]"
                              '.map((node) => node.className)')
        self.assertEqual([each[-1] for each in classes], ['4', '3', '2', '1'])


@pytest.mark.timed
class Keystrokes(Lecture):
    KEYS = """
        const [text, isPutCounted, done] = arguments;
        const box = document.getElementById('script');
        box.focus();
        box.value = text;
        box.dispatchEvent(new Event('input'));
        box.setSelectionRange(text.length >> 1, text.length >> 1);
        const times = [];
        let longest = 0;
        const watch = () => new PerformanceObserver((list) => {
            for (const { duration } of list.getEntries()) longest = Math.max(longest, duration);
        }).observe({ entryTypes: ['longtask'] });
        if (isPutCounted) watch();
        const key = () => {
            if (times.length === 20) {
                setTimeout(() => done([times.sort((a, b) => a - b)[10], longest]), 1500);
                return;
            }
            const start = performance.now();
            document.execCommand('insertText', false, 'x');
            box.getBoundingClientRect();
            times.push(performance.now() - start);
            setTimeout(key, 20);
        };
        setTimeout(() => { if (!isPutCounted) watch(); key(); }, 2000);
    """
    # the behaviour of a box that does nothing by itself
    PLAIN = ('data:text/html,<textarea id=script rows=6 style="width: 600px; font: 15px/1.5 monospace; '
             'white-space: pre-wrap; overflow-wrap: anywhere"></textarea>')

    def keys(self, text, is_put_counted):
        """What a key takes and the longest task, in milliseconds of a machine that isn't slow."""
        slow = page.slowness()
        return [each / slow for each in browser.execute_async_script(self.KEYS, text, is_put_counted)]

    def test_a_long_script(self):
        for name, text in (('lines', LINES), ('one line', LINES.replace('\n', '')), ('nested', NESTED),
                           ('hanoi', example('hanoi.trac').decode() * 70)):
            with self.subTest(name=name):
                found = []
                while len(found) < 6 and not (found and found[-1][0] < 30 and found[-1][1] < 100):
                    browser.set_window_size(1280, 820)
                    self.open(page.PLACE)
                    found.append(self.keys(text, True))
                self.assertTrue(found[-1][0] < 30 and found[-1][1] < 100, found)

    def test_ten_times_as_long_a_script(self):
        """A key takes hardly longer than in a box that does nothing by itself, and no task of the page is long."""
        text = LINES * 10
        for name, text in (('lines', text), ('one line', text.replace('\n', '')), ('nested', NESTED * 10)):
            with self.subTest(name=name):
                found = []
                while len(found) < 6 and not (found and found[-1][0] < found[-1][2] * 1.3 + 5 and found[-1][1] < 100):
                    browser.set_window_size(1280, 820)
                    browser.get(self.PLAIN)
                    plain, _ = self.keys(text, False)
                    self.open(page.PLACE)
                    found.append([*self.keys(text, False), plain])
                self.assertTrue(found[-1][0] < found[-1][2] * 1.3 + 5 and found[-1][1] < 100, found)


if __name__ == '__main__':
    unittest.main()
