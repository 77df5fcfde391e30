"""trac_trace prints the traces, the warnings and the names of rules that the manual shows."""
import re
import unittest

from test_manual import LINES, TRACE, read
from trac import trace

SUSPICIOUS = 'When a script prints nothing, or the wrong thing'
WARNINGS = re.compile(rf'^```warnings\n{LINES}```$', re.MULTILINE)


class Traces(unittest.TestCase):
    def test_traces(self):
        traces = TRACE.findall(read())
        self.assertGreater(len(traces), 5)
        for script, words, shown in traces:
            with self.subTest(script=script):
                lines, _ = trace(script[:-1].encode(), *words.split())
                self.assertTrue(shows(shown.splitlines(), lines), lines)

    def test_warnings(self):
        part = read().split(f'\n## {SUSPICIOUS}\n')[1].split('\n## ')[0]
        scripts = part.split('```trac\n')[1:]
        self.assertGreater(len(scripts), 4)
        for text in scripts:
            script, behind = text.split('```\n', 1)
            with self.subTest(script=script):
                wanted = ''.join(WARNINGS.findall(behind)).splitlines()
                self.assertEqual(trace(script[:-1].encode(), '--warn'), (wanted, 7 if wanted else 0))

    def test_names_of_rules(self):
        head = '| The active string begins with | Name | What happens |\n|---|---|---|\n'
        table = read().split(head)[1].split('\n\n')[0]
        names = [row.split(' | ')[1] for row in table.split('\n')]
        lines, _ = trace(b"\t(a),#(ps,##(zz)#)'", '--steps', '100')
        self.assertEqual(len(names), 9)
        shown = {line[8:21].rstrip() for line in lines[1:-1] if line[5].isdigit()}
        self.assertEqual(set(names), shown)


def shows(shown, lines):
    """Whether the lines shown are all of the lines, but for those that a line of two full stops
    leaves out."""
    pattern = ''.join(r'(?:.*\n)*' if line == '..' else re.escape(line + '\n') for line in shown)
    return re.fullmatch(pattern, ''.join(line + '\n' for line in lines)) is not None
