"""picture.py: makes docs/page.png again, in Chromium. The page stands at a step that scans a character of a form, so
that this character is marked in the active string and in the form."""
import os
import unittest

import page
from trac import TOP

SCRIPT = "#(ds,greet,(#(ps,(Hello, NAME!))))\n#(ss,greet,NAME)\n#(cl,greet,Ada)'"
STEP = 56
SIZE = {'width': 1280, 'height': 820, 'deviceScaleFactor': 1, 'mobile': False}


def setUpModule():
    page.start()


class Picture(page.Lecture):
    def test_picture(self):
        page.browser.execute_cdp_cmd('Emulation.setDeviceMetricsOverride', SIZE)
        self.through(SCRIPT)
        self.go(STEP)
        self.assertIn('from the form “greet”', page.browser.page_source)
        self.assertTrue(page.browser.save_screenshot(os.path.join(TOP, 'docs', 'page.png')))


if __name__ == '__main__':
    unittest.main()
