"""The page in a browser: what is counted, how it is driven, and what is read from it."""
import base64
import os
import shutil
import sys

from selenium import webdriver
from selenium.webdriver.chrome.service import Service
from selenium.webdriver.common.by import By
from selenium.webdriver.common.keys import Keys
from selenium.webdriver.support.ui import WebDriverWait

URL, ANSWERS, FOLDER = sys.argv[1:4]
NAMES = ['glyph', 'width', 'tab', 'spacing', 'paragraph', 'base', 'height', 'top', 'alignment', 'vertical', 'leading', 'trailing', 'wrap']
AT_FIRST = dict(zip(NAMES, [6, 72, 24, 10, 0, 8, 64, 0, 0, 0, 1, 0, 1]))
CLUE = 'Who lied?\n            not the baker, not his wife.'
PATIENCE = 120  # seconds
counts = {'passed': 0, 'failed': 0}


def holds(what, held):
    counts['passed' if held else 'failed'] += 1
    if not held:
        print(f'failed: {what}', file=sys.stderr)


def same(what, expected, got):
    holds(what if got == expected else f'{what}: expected\n{expected}\ngot\n{got}', got == expected)


# Nothing of its own that a browser does besides showing a page.
QUIET = [
    '--headless=new',
    '--disable-gpu',
    '--disable-dev-shm-usage',
    '--disable-background-networking',
    '--disable-component-update',
    '--disable-extensions',
    '--no-first-run',
    '--hide-scrollbars',
    '--window-size=1280,1000',
]


def start(*words):
    options = webdriver.ChromeOptions()
    root = ['--no-sandbox'] if os.geteuid() == 0 else []
    for word in [*QUIET, *root, *words]:
        options.add_argument(word)
    options.set_capability('goog:loggingPrefs', {'browser': 'ALL'})
    driver = webdriver.Chrome(service=Service(shutil.which('chromedriver')), options=options)
    driver.execute_cdp_cmd('Browser.setDownloadBehavior', {'behavior': 'allow', 'downloadPath': FOLDER})
    return driver


def size(driver, width, height, dense=1):
    driver.execute_cdp_cmd(
        'Emulation.setDeviceMetricsOverride', {'width': width, 'height': height, 'deviceScaleFactor': dense, 'mobile': width < 600}
    )


def scheme(driver, name):
    driver.execute_cdp_cmd('Emulation.setEmulatedMedia', {'features': [{'name': 'prefers-color-scheme', 'value': name}]})


def picture(driver, name, whole=True):
    width, height = driver.execute_script('return [innerWidth, arguments[0] ? document.documentElement.scrollHeight : innerHeight]', whole)
    clip = {'x': 0, 'y': 0, 'width': width, 'height': height, 'scale': 1}
    shot = driver.execute_cdp_cmd('Page.captureScreenshot', {'captureBeyondViewport': whole, 'clip': clip})
    with open(os.path.join(FOLDER, f'{name}.png'), 'wb') as file:
        file.write(base64.b64decode(shot['data']))


# The page lays and draws while it goes on: what it shows is looked at when it has done all.
def settled(driver):
    driver.execute_async_script(
        '''const [done] = arguments;
           const look = () => (document.documentElement.dataset.busy ? setTimeout(look, 5) : done());
           look();'''
    )


def find(driver, css):
    settled(driver)
    return driver.find_element(By.CSS_SELECTOR, css)


def text_of(driver, css):
    settled(driver)
    return driver.execute_script('return document.querySelector(arguments[0])?.textContent ?? null', css)


def is_hidden(driver, css):
    settled(driver)
    return driver.execute_script('return document.querySelector(arguments[0]).hidden', css)


def choose(driver, name, value):
    find(driver, f'#{name}-{value}').click()


def fill(driver, css, words):
    field = find(driver, css)
    field.send_keys(Keys.CONTROL, 'a')
    field.send_keys(words)


# What the page shows of a clue is asked for by the address, as a link does it.
def go(driver, text, settings=AT_FIRST, **rest):
    words = {'t': text, **settings, **rest}
    driver.execute_async_script(
        '''const [words, done] = arguments;
           const hash = `#${new URLSearchParams(words)}`;
           if (hash === location.hash) { done(); return; }
           window.addEventListener('hashchange', () => done(), { once: true });
           location.hash = hash;''',
        words,
    )
    settled(driver)


def write(driver, text):
    driver.execute_script(
        '''const box = document.getElementById('clue');
           box.value = arguments[0];
           box.dispatchEvent(new InputEvent('input', { bubbles: true }));''',
        text,
    )
    settled(driver)


# The eleven numbers of each line that the page shows.
def table(driver):
    settled(driver)
    return driver.execute_script(
        '''const numbers = (row) => [...row.querySelectorAll('td[data-column]')].map((cell) => Number(cell.textContent));
           return [...document.querySelectorAll('#lines tbody tr')].map(numbers);'''
    )


def wait_until(driver, condition):
    WebDriverWait(driver, PATIENCE).until(condition)


def wait_for_lines(driver):
    wait_until(driver, table)


def visit(driver, address):
    driver.get('about:blank')
    driver.get(address)
    wait_for_lines(driver)


# How many dots of the picture have a colour of the style sheet: in the box, or right of it.
def dots(driver, colour, wrap, outside=False):
    settled(driver)
    return driver.execute_script(
        '''const [colour, wrap, outside] = arguments;
           const figure = document.querySelector(`figure[data-wrap="${wrap}"]`);
           const canvas = figure.querySelector('canvas');
           const edge = Math.round((parseFloat(figure.querySelector('.edge').style.left) + 2) * devicePixelRatio);
           const value = getComputedStyle(document.documentElement).getPropertyValue(`--${colour}`).trim();
           const wanted = [1, 3, 5].map((at) => parseInt(value.slice(at, at + 2), 16));
           const from = outside ? edge : 0;
           const data = canvas.getContext('2d').getImageData(from, 0, outside ? canvas.width - from : edge, canvas.height).data;
           let found = 0;
           for (let at = 0; at < data.length; at += 4) found += wanted.every((part, k) => data[at + k] === part) && data[at + 3] === 255;
           return found;''',
        colour,
        wrap,
        outside,
    )
