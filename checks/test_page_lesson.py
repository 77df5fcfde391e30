"""The lesson in the page: everything that belongs to a step is on one screen, and each part leads to the next."""
import os
import sys
import unittest

import page
from page import PLACE, Lecture
from selenium.webdriver.common.keys import Keys
from trac import TOP

sys.path.insert(0, os.path.join(TOP, 'hosts', 'page'))
import make  # noqa: E402

DEEP = "#(ds,sum,(#(gr,N,0,(#(ad,N,#(cl,sum,#(su,N,1)))),0)))#(ss,sum,N)#(ps,#(cl,sum,4))'"
# Goes through the steps of a run; for each gives what is out of view, if anything is. In a low frame the end of the
# neutral string, where the next character goes, must be visible, and the rule may be scrolled.
UNSEEN = """
    const find = (id) => document.getElementById(id);
    const isInside = (part, box) => {
        const [inner, outer] = [part.getBoundingClientRect(), box.getBoundingClientRect()];
        return inner.width > 0 && inner.top >= Math.max(0, outer.top) - 1 && inner.left >= -1
            && inner.bottom <= Math.min(window.innerHeight, outer.bottom) + 1 && inner.right <= window.innerWidth + 1;
    };
    const isLineSeen = (part, box) => {
        const line = document.createRange();
        line.selectNodeContents(part);
        const rects = [...line.getClientRects()];
        const outer = box.getBoundingClientRect();
        return rects.some(({ top, bottom }) => top >= Math.max(0, outer.top) - 1
            && bottom <= Math.min(window.innerHeight, outer.bottom) + 1);
    };
    const look = (names) => {
        const found = [];
        for (const id of ['first', 'call-back', 'back', 'step', 'over', 'call-step', 'last', 'rule-says']) {
            if (!isInside(find(id), find(id))) found.push(id);
        }
        const isLow = names.includes('low');
        if (!isLow && find('rule').scrollHeight > find('rule').clientHeight + 1) found.push('the whole rule');
        const neutral = find('neutral');
        const calls = [...neutral.children].slice(-3);
        const isAtEnd = neutral.scrollHeight - neutral.scrollTop - neutral.clientHeight <= 1;
        if (!(isLow ? isInside(neutral, neutral) && isAtEnd : calls.every((call) => isInside(call, neutral)))) {
            found.push('neutral');
        }
        const next = find('active').querySelector('.scanned') ?? find('active').firstChild;
        if (!isInside(next, find('active'))) found.push('active');
        if (names.includes('forms') && !isLineSeen(find('forms').firstChild, find('forms'))) found.push('forms');
        const box = find('output');
        if (!isInside(box, box) || (box.textContent
            && box.scrollHeight - box.scrollTop - box.clientHeight > 24)) found.push('output');
        const string = find('script-marks').querySelector('mark');
        if (names.includes('script') && string && !isLineSeen(string, find('script'))) found.push('script');
        return found;
    };
    const found = [];
    find('first').click();
    for (;;) {
        const unseen = look(arguments[0]);
        if (unseen.length) found.push([find('count').textContent, ...unseen]);
        if (find('step').ariaDisabled === 'true') return found;
        find('step').click();
    }
"""


def setUpModule():
    global browser
    browser = page.start()


class OneScreen(Lecture):
    def tearDown(self):
        browser.execute_cdp_cmd('Emulation.clearDeviceMetricsOverride', {})

    def size(self, width, height):
        browser.execute_cdp_cmd('Emulation.setDeviceMetricsOverride', {
            'width': width, 'height': height, 'deviceScaleFactor': 1, 'mobile': width < 500})

    def link(self, script):
        """A link to the first step of a script."""
        self.put('script', script)
        self.press('run')
        self.press('first')
        self.press('link')
        self.wait(lambda: 'step=0' in browser.current_url)
        return browser.current_url

    def test_nothing_is_out_of_view_on_a_projector(self):
        for width, height in ((1280, 720), (1024, 768)):
            self.size(width, height)
            for part in (1, 8, 10):
                with self.subTest(width=width, part=part):
                    self.open(f'{PLACE}?lesson={part}')
                    self.choose('huge', 'size')
                    for cue in ('Show', 'Try'):
                        self.script('[...document.querySelectorAll("#cues button")].find('
                                    '(button) => button.textContent === arguments[0]).click()', cue)
                        self.assertEqual(self.script(UNSEEN, ['forms', 'script']), [])
                        self.assertEqual(self.script('return window.scrollY'), 0)

    def test_what_is_opened_lies_over_the_rest(self):
        self.size(1280, 720)
        self.open(f'{PLACE}?lesson=10')
        self.choose('huge', 'size')
        self.wait(self.is_at_rest)
        seen = """
            return arguments[0].map((id) => document.getElementById(id)).filter((node) => {
                const { left, top, width, height } = node.getBoundingClientRect();
                return !node.contains(document.elementFromPoint(left + width / 2, top + height / 2));
            }).map((node) => node.id);
        """
        before = self.script("return document.getElementById('step').getBoundingClientRect().top")
        for part, names in (('more', ['input']), ('settings', [
                'cells', 'steps', 'link', 'embed', 'open', 'save', 'live', 'save-output', 'save-trace'])):
            summary = browser.find_element('css selector', f'#{part} summary')
            summary.click()
            self.assertEqual(self.script(seen, ['script', *names]), [])
            self.assertEqual(self.script("return document.getElementById('step').getBoundingClientRect().top"), before)
            if part == 'settings':
                self.put('cells', 90)
            self.find(names[0]).send_keys(Keys.ESCAPE)
            self.assertFalse(self.script('return document.getElementById(arguments[0]).open', part))
            self.assertEqual(self.script('return document.activeElement.parentNode.id'), part)
        self.find('through').click()
        self.wait(self.is_at_rest)
        self.press('last')
        self.assertIn('Not done, for want of cells.', self.text('rule-says'))
        self.assertEqual(self.script('return window.scrollY'), 0)

    def test_deep_calls_on_each_screen(self):
        link = self.link(DEEP)
        for width, height, size, kind, names in (
                (1280, 720, 'huge', '', ['forms', 'script']), (1024, 768, 'huge', '', ['forms', 'script']),
                (900, 420, 'normal', '?embed=output', ['forms']), (390, 844, 'normal', '', ['script'])):
            with self.subTest(width=width):
                self.size(width, height)
                self.open(PLACE)
                self.choose(size, 'size')
                self.open(link.replace('#', f'{kind}#'), keeps=True)
                self.wait(lambda: self.is_shown('step') and self.is_at_rest())
                self.assertEqual(self.script(UNSEEN, names), [])
                self.assertLessEqual(*self.script(
                    'const page = document.documentElement; return [page.scrollWidth, page.clientWidth]'))

    def test_frames_of_another_page(self):
        link = self.link(DEEP)
        for width, height, panels, names in (
                (900, 420, 'output', ['forms']), (900, 260, 'output', ['low', 'forms']), (600, 300, 'output', ['low']),
                (540, 480, 'output', []), (480, 480, 'output', []), (480, 300, 'output', ['low']),
                (360, 480, 'output', []), (320, 480, 'output', ['low']), (480, 660, 'script,output', ['script'])):
            with self.subTest(width=width, height=height):
                self.size(width, height)
                self.open(link.replace('#', f'?embed={panels}#'))
                self.wait(lambda: self.is_shown('step') and self.is_at_rest())
                self.assertEqual(self.script(UNSEEN, names), [])
                self.assertEqual(self.script('return window.scrollY'), 0)
                self.assertLessEqual(*self.script(
                    'const page = document.documentElement; return [page.scrollWidth, page.clientWidth]'))

    def test_what_is_suspicious_takes_a_line_on_a_projector(self):
        self.size(1280, 720)
        self.open(PLACE)
        self.choose('huge', 'size')
        self.put('script', DEEP[:-1] + "#(zz)#(cl,none)'")
        self.press('through')
        self.wait(lambda: self.is_shown('suspicions'))
        self.assertEqual(self.script(UNSEEN, ['forms', 'script']), [])

    def test_the_head_at_two_hundred_percent(self):
        self.size(640, 360)
        self.open(PLACE)
        self.assertLessEqual(self.script("return document.querySelector('header').offsetHeight"), 90)
        for part in range(1, 11):
            self.open(f'{PLACE}?lesson={part}')
            self.wait(self.is_at_rest)
            self.assertLessEqual(self.script("return document.querySelector('header').offsetHeight"), 90)
            self.assertTrue(all(self.is_shown(name) for name in ('lesson', 'size', 'scheme', 'part-after', 'notes')))
        self.open(PLACE)
        self.through(DEEP)
        self.script("document.getElementById('forms').scrollIntoView({ block: 'end' })")
        top, bottom = self.script(
            "const { top, bottom } = document.getElementById('step').getBoundingClientRect(); return [top, bottom]")
        self.assertTrue(0 <= top and bottom <= 90, (top, bottom))

    def test_another_size_keeps_the_innermost_call_in_view(self):
        self.size(1280, 1000)
        self.open(PLACE)
        self.through(DEEP.replace('sum,4', 'sum,9'))
        self.jump('printing')
        self.go(self.steps()[0] - 60)
        self.assertGreater(self.script("return document.getElementById('neutral').children.length"), 7)
        for change in (lambda: self.choose('huge', 'size'), lambda: self.size(1280, 720)):
            change()
            self.wait(lambda: self.script("""
                const [box, call] = [document.getElementById('neutral'), document.getElementById('neutral').lastChild];
                return call.getBoundingClientRect().bottom <= box.getBoundingClientRect().bottom + 1;
            """), 5)


class Parts(Lecture):
    def part(self):
        """The part that is shown, and the step."""
        return int(self.value('part').split('.')[0]), self.steps()[0]

    def test_one_click_to_the_script(self):
        self.press('lesson')
        self.assertEqual(self.part(), (1, 9))
        for number, each in enumerate(make.lesson(), 1):
            self.assertEqual((self.value('part'), self.value('script')), (each['name'], each['script']))
            self.assertEqual(self.part(), (number, 9))
            self.assertEqual(self.text('part-says'), each['says'])
            self.assertEqual(self.text('output'), '')
            self.find('part-after').send_keys(Keys.ENTER)
            self.wait(self.is_at_rest)
            self.assertEqual(self.script('return document.activeElement.id'), 'part-after')
        self.assertEqual(self.part(), (10, 9))
        self.press('part-before')
        self.assertEqual(self.part(), (9, 9))
        self.choose('3. A call in a call', 'part')
        self.wait(self.is_at_rest)
        self.assertEqual(self.part(), (3, 9))

    def test_what_runs_is_stopped(self):
        self.put('steps', '1000000000000')
        self.put('script', "#(ds,a,(#(cl,a)))#(cl,a)'")
        self.find('run').click()
        self.wait(lambda: self.is_shown('stop'))
        self.script("document.getElementById('lesson').click()")
        self.wait(self.is_at_rest, 10)
        self.assertEqual((self.part(), self.text('stale') and self.is_shown('stale')), ((1, 9), False))

    def test_notes_one_after_another(self):
        self.press('lesson')
        for each in make.lesson():
            buttons = browser.find_elements('css selector', '#cues button')
            self.assertEqual([button.text for button in buttons], [cue['kind'] for cue in each['cues']])
            for button, cue in zip(buttons, each['cues']):
                button.click()
                words = cue['words'].replace('`', '').replace('**', '')
                self.assertEqual(self.text('cue'), cue['kind'] + (words if words[0] == ':' else f' {words}'))
                self.assertEqual([each.get_attribute('aria-pressed') for each in buttons].count('true'), 1)
            buttons[-1].click()
            self.assertEqual(self.text('cue'), '')
            self.press('part-after')

    def test_a_note_stays_while_one_types(self):
        self.open(f'{PLACE}?lesson=2')
        self.wait(self.is_at_rest)
        browser.find_elements('css selector', '#cues button')[-1].click()
        note = self.text('cue')
        self.type('typed')
        self.assertEqual((self.text('cue'), self.is_shown('cue'), self.value('part')[0]), (note, True, '2'))
        text = self.value('script')
        self.open(f'{PLACE}?lesson=2', keeps=True)
        self.assertEqual((self.value('script'), self.value('part')[0], self.is_shown('guide')), (text, '2', True))

    def test_the_address(self):
        self.press('lesson')
        self.press('part-after')
        self.assertTrue(browser.current_url.endswith('?lesson=2'))
        browser.refresh()
        self.assertEqual((self.value('part')[0], self.is_shown('guide')), ('2', True))
        self.press('lesson')
        self.assertEqual((browser.current_url, self.is_shown('guide')), (PLACE, False))
        self.choose('6. Gaps')
        self.press('lesson')
        self.assertEqual(self.value('part'), '6. Gaps')

    def test_a_link_from_the_lesson(self):
        self.open(f'{PLACE}?lesson=4')
        self.wait(self.is_at_rest)
        self.find('script').send_keys(Keys.CONTROL, 'a')
        self.find('script').send_keys("#(ps,mine)'")
        self.press('link')
        self.wait(lambda: '#' in browser.current_url)
        link = browser.current_url
        for keeps in (False, True):
            self.open(link, keeps)
            self.wait(self.is_at_rest)
            self.assertEqual((self.value('script'), self.is_shown('guide')), ("#(ps,mine)'", False))
            self.assertEqual(browser.current_url, link)
        self.press('lesson')
        self.assertEqual((browser.current_url, self.value('part')[0]), (f'{PLACE}?lesson=1', '1'))

    def test_a_reload_behind_a_link_comes_back_to_the_lesson(self):
        self.open(f'{PLACE}?lesson=4')
        self.wait(self.is_at_rest)
        self.type('#(ps,mine)')
        text = self.value('script')
        self.press('link')
        self.wait(lambda: '#' in browser.current_url)
        browser.refresh()
        self.assertEqual((self.value('script'), self.is_shown('guide'), self.value('part')[0]), (text, True, '4'))
        browser.refresh()
        self.assertEqual((self.value('script'), self.is_shown('guide')), (text, True))
        self.press('lesson')
        self.press('link')
        self.wait(lambda: '#' in browser.current_url)
        browser.refresh()
        self.assertEqual((self.value('script'), self.is_shown('guide')), (text, False))

    def test_a_part_is_not_called_suspicious(self):
        self.choose('2. A comma parts, parentheses protect')
        self.run_it()
        self.wait(lambda: self.is_shown('suspicions'))
        self.press('lesson')
        self.assertEqual(self.value('part')[0], '2')
        self.script('window.done = false; setTimeout(() => { window.done = true; }, 500)')
        self.wait(lambda: self.script('return window.done'))
        self.assertFalse(self.is_shown('suspicions'))
        self.assertEqual(self.script("return document.querySelectorAll('.spot').length"), 0)
        self.type('#(zz)')
        self.wait(lambda: self.is_shown('suspicions'))

    def test_a_part_that_was_typed_has_no_marks_when_it_is_chosen_again(self):
        spots = "return document.querySelectorAll('.spot').length"
        self.open(f'{PLACE}?lesson=2')
        self.wait(self.is_at_rest)
        self.type('x')
        self.find('script').send_keys(Keys.BACKSPACE)
        self.wait(lambda: self.script(spots))
        self.press('first')
        self.choose('2. A comma parts, parentheses protect', 'part')
        self.wait(self.is_at_rest)
        self.assertEqual((self.script(spots), self.is_shown('suspicions')), (0, False))

    def test_a_part_on_a_phone(self):
        browser.execute_cdp_cmd('Emulation.setDeviceMetricsOverride', {
            'width': 390, 'height': 844, 'deviceScaleFactor': 1, 'mobile': True})
        self.addCleanup(browser.execute_cdp_cmd, 'Emulation.clearDeviceMetricsOverride', {})
        self.open(f'{PLACE}?lesson=8')
        for _ in range(2):
            self.wait(lambda: self.is_shown('step') and self.is_at_rest())
            self.assertEqual(self.script('return window.scrollY'), 0)
            self.press('part-after')
        self.press('through')
        self.assertGreater(self.script('return window.scrollY'), 100)

    def test_an_example_of_another_part(self):
        self.press('lesson')
        self.choose('6. Gaps')
        self.assertEqual(self.value('part'), '6. Gaps')

    def test_all_notes_in_a_window(self):
        self.press('lesson')
        first = browser.current_window_handle
        self.find('notes').click()
        self.wait(lambda: len(browser.window_handles) == 2)
        other, = set(browser.window_handles) - {first}
        current = "return document.querySelector('[aria-current] h2')?.textContent"
        try:
            browser.switch_to.window(other)
            for each in make.lesson():
                self.assertIn(each['says'], self.script('return document.body.textContent'))
                self.assertIn(each['script'], self.script('return document.body.textContent'))
            self.assertEqual(len(browser.find_elements('css selector', 'li')),
                             sum(len(each['cues']) for each in make.lesson()))
            self.assertEqual(self.script(current), '1. A call prints')
            self.assertNotEqual(self.script('return getComputedStyle(document.querySelector("pre")).fontFamily'),
                                'monospace')
            browser.switch_to.window(first)
            self.press('part-after')
            browser.switch_to.window(other)
            self.assertEqual(self.script(current), '2. A comma parts, parentheses protect')
        finally:
            browser.switch_to.window(other)
            browser.close()
            browser.switch_to.window(first)


if __name__ == '__main__':
    unittest.main()
