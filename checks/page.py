"""Opens build/trac.html in Chromium for the checks of the page, and does what a user of the page does."""
import os
import re
import sys
import tempfile
import unittest

from trac import TOP, make

# Where Debian installs packages for its own Python.
sys.path.append('/usr/lib/python3/dist-packages')
from selenium import webdriver  # noqa: E402
from selenium.webdriver.common.by import By  # noqa: E402
from selenium.webdriver.common.keys import Keys  # noqa: E402
from selenium.webdriver.support.ui import WebDriverWait  # noqa: E402

PAGE = os.path.join(TOP, 'build', 'trac.html')
PLACE = 'file://' + PAGE
MARKS = {256: '<#>', 257: '<##>', 258: '<,>'}
ESCAPES = {9: '\\t', 10: '\\n', 13: '\\r', 92: '\\\\'}
# A script that needs more than 2 ** 20 cells, and leaves no form: the page takes so large a block for no other run.
LARGE = "#(ds,A,0123456789abcdef)#(ds,D,(#(ds,A,##(cl,A)##(cl,A))))" + 16 * '#(cl,D)' + '#(dd,A,D)'
LOOP = "#(ds,loop,(#(gr,N,0,(#(cl,loop,#(su,N,1))))))#(ss,loop,N)#(cl,loop,{})'"

# The content of a box, as codes: marks and escaped bytes have their own codes, text is UTF-8.
CODES = """
    const found = [];
    const walk = (node) => {
        if (node.nodeType === 3) found.push(...new TextEncoder().encode(node.data));
        else if (node.matches('.depth, .nothing, .unseen')) return;
        else if (node.dataset.code) found.push(Number(node.dataset.code));
        else node.childNodes.forEach(walk);
    };
    document.getElementById(arguments[0]).childNodes.forEach(walk);
    return found;
"""

# A fixed piece of work of the kinds that the page does: a loop, and a text of many parts that is laid out. Gives the
# median of nine times, in milliseconds.
REFERENCE = """
    const times = [];
    while (times.length < 9) {
        const start = performance.now();
        const box = document.createElement('div');
        box.style.cssText = 'position: absolute; visibility: hidden; width: 600px';
        let sum = 1;
        for (let turn = 0; turn < 2000000; turn += 1) sum = (sum * 31 + turn) % 1000003;
        for (let part = 0; part < 400; part += 1) {
            const mark = document.createElement('span');
            mark.textContent = `part ${part + sum} `;
            box.append(mark);
        }
        document.body.append(box);
        box.getBoundingClientRect();
        box.remove();
        times.push(performance.now() - start);
    }
    return times.sort((one, other) => one - other)[4];
"""
# What it takes on the machine for which the limits of the timed checks were chosen, when that machine is idle.
REFERENCE_TIME = 18


def slowness():
    """How many times as long as on that machine the page takes now, at least 1. A limit is multiplied by it, so that a
    slow or a busy machine fails no check, and a page that became slower does."""
    return max(1, browser.execute_script(REFERENCE) / REFERENCE_TIME)


def start(watches=False):
    """Opens a browser for the tests of a file; a watched browser logs its requests."""
    global browser
    make('page')
    options = webdriver.ChromeOptions()
    options.binary_location = '/usr/bin/chromium'
    for word in ('--headless=new', '--no-sandbox', '--disable-gpu', '--disable-dev-shm-usage'):
        options.add_argument(word)
    logs = {'browser': 'ALL', 'performance': 'ALL'} if watches else {'browser': 'ALL'}
    options.set_capability('goog:loggingPrefs', logs)
    service = webdriver.chrome.service.Service('/usr/bin/chromedriver')
    browser = webdriver.Chrome(service=service, options=options)
    browser.set_script_timeout(300)
    unittest.addModuleCleanup(browser.quit)
    return browser


def shown(codes):
    """Codes as trac_trace shows them."""
    return ''.join(MARKS.get(code) or ESCAPES.get(code) or (
        chr(code) if 32 <= code < 127 else f'\\x{code:02x}') for code in codes)


def example(name):
    with open(os.path.join(TOP, 'examples', name), 'rb') as file:
        return file.read()


class Page(unittest.TestCase):
    """A page that was just opened."""

    def setUp(self):
        self.open(PLACE)

    def open(self, place, keeps=False):
        """Opens the page, as at a first visit unless `keeps` says to keep what was typed."""
        browser.get('about:blank')
        if not keeps:
            browser.execute_cdp_cmd('Storage.clearDataForOrigin', {
                'origin': 'file://', 'storageTypes': 'local_storage'})
        browser.get(place)
        self.wait(lambda: self.script('return document.readyState') == 'complete')
        self.assertGreater(self.script("return document.getElementById('example').length"), 1)

    def open_without(self, before):
        """Opens the page after a script that removes something from the browser."""
        made = browser.execute_cdp_cmd('Page.addScriptToEvaluateOnNewDocument', {'source': before})
        try:
            self.open(PLACE)
        finally:
            browser.execute_cdp_cmd('Page.removeScriptToEvaluateOnNewDocument', made)

    def script(self, text, *words):
        return browser.execute_script(text, *words)

    def wait(self, condition, seconds=120):
        WebDriverWait(browser, seconds, poll_frequency=0.02).until(lambda _: condition())

    def find(self, name):
        return browser.find_element(By.ID, name)

    def text(self, name):
        return self.script('return document.getElementById(arguments[0]).textContent', name)

    def put(self, name, text):
        self.script('const box = document.getElementById(arguments[0]); box.value = arguments[1];'
                    "box.dispatchEvent(new Event('input'))", name, text)

    def run_script(self, script, more='', cells=65536, steps=1000000):
        for name, value in (('script', script), ('input', more), ('cells', cells),
                            ('steps', steps)):
            self.put(name, value)
        self.run_it()

    def run_it(self):
        self.find('run').click()
        self.wait(self.is_at_rest)

    def is_at_rest(self):
        """Whether the page runs nothing and goes to no step."""
        return self.script("return ['main', 'machine'].every("
                           "(id) => document.getElementById(id).ariaBusy !== 'true')")

    def is_on(self, name):
        """Whether a control can be used now."""
        return self.find(name).get_attribute('aria-disabled') != 'true'

    def wait_for_calls(self):
        self.wait(lambda: self.script(
            "return document.getElementById('calls').dataset.listed") == 'all')

    def steps(self):
        """The number of steps done, and the number of steps of the whole run."""
        return tuple(int(number.replace(',', ''))
                     for number in re.findall(r'[\d,]+', self.text('count')))

    def go(self, step):
        self.put('slider', step)
        self.wait(self.is_at_rest)
        self.assertEqual(self.steps()[0], step)

    def walk(self, text):
        """The value of a piece of JavaScript at each step, from the first to the last."""
        return self.script("""
            const find = (id) => document.getElementById(id);
            const look = new Function('find', `return ${arguments[0]}`);
            find('first').click();
            const found = [look(find)];
            while (find('step').ariaDisabled !== 'true') {
                find('step').click();
                found.push(look(find));
            }
            return found;
        """, text)

    def strings(self):
        return tuple(shown(self.script(CODES, name)) for name in ('neutral', 'active'))

    def rule(self):
        return self.text('rule-name').rstrip('.')


class Lecture(Page):
    """A page with methods for more of its controls."""

    def choose(self, name, control='example'):
        self.script('const choice = document.getElementById(arguments[0]); choice.value = arguments[1];'
                    "choice.dispatchEvent(new Event('change'))", control, name)

    def value(self, name):
        return self.find(name).get_property('value')

    def type(self, text):
        """Types after the text in the script's box."""
        self.find('script').send_keys(Keys.CONTROL, Keys.END)
        self.find('script').send_keys(text)

    def through(self, script, more=''):
        self.put('script', script)
        self.put('input', more)
        self.find('through').click()
        self.wait(self.is_at_rest)

    def press(self, name):
        self.script('document.getElementById(arguments[0]).click()', name)
        self.wait(self.is_at_rest)

    def jump(self, kind, text=None):
        self.choose(kind, 'jump')
        if text is not None:
            self.put('jump-name' if kind == 'name' else 'jump-step', text)
        self.press('jump-go')

    def is_shown(self, name):
        return self.script('return document.getElementById(arguments[0]).offsetParent !== null', name)


class Saving(Lecture):
    """A page that saves files, into its own folder."""

    def setUp(self):
        super().setUp()
        self.folder = tempfile.TemporaryDirectory()
        self.addCleanup(self.folder.cleanup)
        browser.execute_cdp_cmd('Browser.setDownloadBehavior', {
            'behavior': 'allow', 'downloadPath': self.folder.name})

    def saved(self, control, name):
        path = os.path.join(self.folder.name, name)
        self.press(control)
        # the browser may make an empty file first, and then puts the whole one in its place
        self.wait(lambda: os.path.exists(path) and os.path.getsize(path))
        with open(path, 'rb') as file:
            content = file.read()
        os.remove(path)
        return content
