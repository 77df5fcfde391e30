"""The page shows the steps that trac_trace shows, with both strings, the rule and the cells of each, and saves them as
a trace."""
import re
import unittest

import page
from page import Page, Saving, example
from trac import traced, whole_trace


def setUpModule():
    page.start()


class Steps(Page):
    def test_strings_of_steps(self):
        for script in (example('factorial.trac').decode(), "#(ps,(é\t,)##(ps,(\\)))x'"):
            lines = traced(whole_trace(script.encode(), '--steps', '1000000')[0])
            self.run_script(script)
            last = len(lines)
            self.assertEqual(self.steps(), (last, last))
            chosen = sorted({1 + last * k // 13 for k in range(13)} | {last - 1})
            for step in chosen[::2] + chosen[1::2]:
                with self.subTest(script=script, step=step):
                    self.go(step)
                    self.assertEqual(self.strings(), lines[step - 1][4:])
                    if step < last:
                        self.assertEqual(self.rule(), lines[step][1])

    def test_strings_at_the_end(self):
        for script, cells, steps in (("#(ps,a)#(hl)#(ps,b)'", 65536, 1000000), ("#(ps,a)'", 65536, 12),
                                     ("#(ps,a)'", 14, 1000), ("#(ps,a)'", 14, 12)):
            with self.subTest(script=script, cells=cells, steps=steps):
                self.run_script(script, '', cells, steps)
                lines, _ = whole_trace(script.encode(), '--cells', str(cells), '--steps', str(steps))
                self.assertEqual(self.strings(), traced(lines)[-1][4:])

    def test_buttons(self):
        script = example('factorial.trac')
        lines = traced(whole_trace(script, '--steps', '1000000')[0])
        calls = [number - 1 for number, rule, *_ in lines if rule == 'end of call']
        self.run_script(script.decode())
        self.wait_for_calls()
        self.assertEqual(self.text('listed'), f'{len(calls):,}')
        last = len(lines)
        self.find('fold').click()
        for name, step in (('first', 0), ('step', 1), ('step', 2), ('back', 1),
                           ('call-step', calls[0]), ('call-step', calls[1]), ('call-back', calls[0]),
                           ('last', last), ('back', last - 1), ('call-back', calls[-2])):
            self.find(name).click()
            self.assertEqual(self.steps(), (step, last), name)
            if step:
                self.assertEqual(self.strings(), lines[step - 1][4:])
        for index in (0, len(calls) // 2, len(calls) - 1):
            self.put('calls', index)
            self.assertEqual((self.steps()[0], self.rule()), (calls[index], 'end of call'))
        self.find('first').click()
        self.assertFalse(self.is_on('back') or self.is_on('call-back'))

    def test_block(self):
        script = "#(ds,a,bcd)#(ps,x)'"
        self.run_script(script, '', 100)
        lines = traced(whole_trace(script.encode(), '--cells', '100')[0])
        for step in (8, 20, len(lines) - 1):
            self.go(step)
            told = self.find('block').get_attribute('aria-label')
            found = dict(re.findall(r'(forms|neutral string|free|active string|peak) (\d+)', told))
            parts = {name: int(number) for name, number in found.items()}
            size = lines[step][2]
            self.assertEqual(sum(parts.values()) - parts['peak'], 100)
            self.assertEqual(100 - parts['free'], size)
            self.assertEqual(parts['peak'], max(line[3] for line in lines[:step]))
            widths = self.script("return [...document.querySelectorAll('#block i')]"
                                 '.map((part) => part.getBoundingClientRect().width)')
            whole = self.script("return document.getElementById('block').clientWidth")
            for width, name in zip(widths, ('forms', 'neutral string', 'free', 'active string')):
                self.assertAlmostEqual(width, whole * parts[name] / 100, delta=1)


class Traces(Saving):
    def test_jumps(self):
        script = "#(ds,a,x)'#(ps,one)#(cl,a)'#(ds,a,y)#(ps,two)#(ds,a,y)'"
        lines = traced(whole_trace(script.encode())[0])
        self.through(script)
        self.find('show-all').click()
        self.jump('change')
        self.assertEqual(self.rule(), 'end of call')
        self.assertEqual(self.text('gave'), 'ds gave the null text.')
        self.jump('printing')
        self.assertIn('ps gave', self.text('gave'))
        self.assertEqual(self.script("return document.querySelector('#output .later').textContent"), 'xtwo')
        here = self.steps()[0]
        self.jump('string')
        self.assertGreater(self.steps()[0], here)
        self.assertEqual(self.strings()[1], lines[self.steps()[0] - 1][5])
        self.jump('change')
        self.assertEqual(self.script("return document.querySelector('#forms .changed + dd').textContent.trim()"),
                         'pointer y')
        self.jump('printing')
        self.assertIsNone(self.script("return document.querySelector('#output .later')"))
        here = self.steps()[0]
        for kind, none in (('printing', 'Nothing more is printed.'), ('change', 'No form changes'),
                           ('string', 'No more strings')):
            self.jump(kind)
            self.assertIn(none, self.text('jump-told'))
            self.assertEqual(self.steps()[0], here)
        self.jump('step', '17')
        self.assertEqual(self.steps()[0], 17)

    def test_the_trace(self):
        script = example('factorial.trac')
        self.run_script(script.decode())
        lines = self.saved('save-trace', 'trace.txt').decode().splitlines()
        wanted = whole_trace(script, '--steps', '1000000')[0]
        self.assertEqual(lines, wanted)


if __name__ == '__main__':
    unittest.main()
