"""What is too large for a browser or takes long: it is refused, drawn smaller, told, and stopped; and never is all well where it is not."""
import time

from selenium.webdriver.common.by import By

from driving import AT_FIRST, CLUE, URL, choose, dots, fill, find, go, holds, is_hidden, picture, same, settled, table, text_of, visit, wait_until, write
from native import tables

WHOLE = 'The whole clue is on the screen'
LONG = 'the quick brown fox ' * 2620


# What stands over the picture at this moment, and when all is done.
def verdict_now(driver):
    return driver.execute_script("const found = document.querySelector('.verdict'); return [found.className.trim(), found.textContent]")


def verdict(driver):
    settled(driver)
    return verdict_now(driver)


def test_wrap(driver):
    go(driver, CLUE)
    go(driver, 'x', {**AT_FIRST, 'wrap': 9}, compare=1)
    same(
        'a link with a bad wrap is refused, also where both are shown',
        'The link: Wrap is 9, and may be 0 to 1. (Refusal 1, SETTING_OUT_OF_RANGE.)',
        text_of(driver, '#refusal'),
    )
    same('what was there stays', tables([(AT_FIRST, CLUE)])[0], table(driver))
    write(driver, 'ab cd')
    same('and the page goes on', tables([(AT_FIRST, 'ab cd')])[0], table(driver))
    go(driver, 'x', {**AT_FIRST, 'wrap': 0}, compare=1)
    same('a good one is shown', 'x', driver.execute_script("return document.getElementById('clue').value"))


def test_refused_text(driver):
    go(driver, CLUE)
    write(driver, 'y' * 65536)
    kind, words = verdict(driver)
    holds(f'under a refused text the picture is told to be the old one: {kind}, {words}', kind == 'verdict warn' and 'is not laid' in words)
    choose(driver, 'alignment', 1)
    same('after another change too', 'verdict warn', verdict(driver)[0])
    write(driver, 'short')
    same('a good text ends that', ['verdict', WHOLE], verdict(driver))


# ---- the picture

DRAWN = '''
const canvas = document.querySelector('canvas.picture');
const [x, y] = [canvas.width >> 1, canvas.height >> 1];
return canvas.getContext('2d').getImageData(x, y, 1, 1).data[3] === 255;
'''


def test_canvas(driver):
    for zoom in (4, 8):
        go(driver, CLUE, {**AT_FIRST, 'width': 4096, 'height': 4096}, zoom=zoom)
        holds(f'the largest box is drawn at zoom {zoom}', driver.execute_script(DRAWN))
        holds(f'so is the clue at zoom {zoom}', dots(driver, 'screen-ink', 1) > 100)
        same(f'the picture has its size at zoom {zoom}', 44 + 4096 * zoom + 26, find(driver, 'canvas.picture').size['width'])
        same(f'and nothing is wrong at zoom {zoom}', ['verdict', WHOLE], verdict(driver))


# A browser that gives no canvas, or none that draws.
def test_no_canvas(driver):
    for what, broken in [('no canvas', 'return null;'), ('a canvas on which nothing is drawn', 'return lame;')]:
        go(driver, CLUE)
        driver.execute_script(
            'const of = HTMLCanvasElement.prototype.getContext; window.good = of;'
            'const lame = new Proxy({}, { get: (parts, name) => (name in parts ? parts[name] : () => {}) });'
            f"HTMLCanvasElement.prototype.getContext = function (...words) {{ if (this.className === 'picture') {{ {broken} }}"
            'return of.apply(this, words); };'
        )
        fill(driver, '#height', '96')
        kind, words = verdict(driver)
        holds(f'{what}: the verdict says so, and is not good: {kind}, {words}', 'warn' in kind and 'The picture cannot be drawn' in words)
        holds(f'{what}: it does not say that all is well', WHOLE not in words)
        picture(driver, 'no-canvas')
        driver.execute_script('HTMLCanvasElement.prototype.getContext = window.good;')
        fill(driver, '#height', '97')
        same(f'{what}: when there is one again all is well', ['verdict', WHOLE], verdict(driver))


# Canvases made from now on: how many dots those have that keep their memory.
COUNT = '''
const made = [];
const create = Document.prototype.createElement;
document.createElement = (tag) => {
    const element = create.call(document, tag);
    if (tag === 'canvas') { made.push(element); }
    return element;
};
window.keptDots = () => made.reduce((dots, canvas) => dots + canvas.width * canvas.height, 0);
'''


def test_glyphs(driver):
    go(driver, 'a')
    driver.execute_script(COUNT)
    text = ''.join(chr(0x4E00 + k) for k in range(600))
    go(driver, text, {**AT_FIRST, 'glyph': 64, 'base': 64, 'spacing': 64, 'width': 1600, 'height': 1600}, zoom=8)
    kept = driver.execute_script('return window.keptDots()')
    driver.execute_script('delete document.createElement;')
    holds(f'of 600 large characters few are kept: {kept} dots', 0 < kept < 5e6)


# ---- what takes long

# The longest time for which the page did not answer. Where it drew all at once it was sixteen seconds; on a busy machine one slice takes
# some seconds too.
STALL = '''
window.longest = 0;
let last = performance.now();
setInterval(() => {
    const now = performance.now();
    window.longest = Math.max(window.longest, now - last);
    last = now;
}, 5);
'''


def is_told(driver):
    return driver.execute_script("return [!document.getElementById('working').hidden, document.querySelector('#working span').textContent]")


# That something takes long is said after a second; on a busy machine something else may be said before.
def says(driver, what, words):
    until = time.monotonic() + 30
    while is_told(driver) != [True, words] and time.monotonic() < until:
        time.sleep(0.05)
    same(what, [True, words], is_told(driver))


# A thousand lines at one place, of characters that are drawn large.
def test_long_link(driver):
    go(driver, 'a')
    driver.execute_script(STALL)
    settings = {**AT_FIRST, 'glyph': 64, 'base': 64, 'width': 64, 'height': 64, 'spacing': 0}
    driver.execute_script('location.hash = new URLSearchParams(arguments[0]);', {'t': LONG, **settings, 'zoom': 8})
    says(driver, 'a long drawing says that it takes long', 'The picture is being drawn.')
    kind, words = verdict_now(driver)
    holds(f'meanwhile nothing is said to be well: {kind}, {words}', 'warn' in kind and 'The picture is being drawn' in words)
    longest = driver.execute_script('return window.longest')
    holds(f'the page answers meanwhile: it did not for {longest} ms', longest < 5000)
    picture(driver, 'drawing', whole=False)
    driver.execute_script("document.getElementById('stop').click()")
    kind, words = verdict_now(driver)
    holds(f'a stopped drawing is no whole picture: {kind}, {words}', 'warn' in kind and 'The picture is not whole' in words)
    same('then nothing is at work', [True, [False, '']], [is_hidden(driver, '#working'), is_told(driver)])
    go(driver, CLUE)
    same('and the next clue is drawn', ['verdict', WHOLE], verdict(driver))
    driver.execute_script('location.hash = new URLSearchParams(arguments[0]);', {'t': LONG, **settings, 'zoom': 8, 'compare': 1})
    says(driver, 'so do two', 'The picture is being drawn.')
    driver.execute_script("document.getElementById('compare').click()")
    wait_until(driver, lambda one: len(one.find_elements(By.CSS_SELECTOR, 'figure')) == 1)
    says(driver, 'and the one that is left', 'The picture is being drawn.')
    driver.execute_script("document.getElementById('stop').click()")
    same('a picture that is no longer shown is not drawn on', '', driver.execute_script('return document.documentElement.dataset.busy'))
    both = {**AT_FIRST, 'width': 0, 'height': 4096, 'spacing': 8}
    go(driver, 'a ' * 26000, both, compare=1)
    longest = driver.execute_script('return window.longest')
    holds(f'a link to 52,000 lines does not hold the page up: {longest} ms', longest < 5000)


def test_typed_numbers(driver):
    go(driver, LONG)
    fill(driver, '#width', '144')
    same('digits that are typed fast stay', '144', find(driver, '#width').get_attribute('value'))
    same('and are what is set', '144', find(driver, '.edge').get_attribute('aria-valuenow'))
    go(driver, CLUE)
    driver.execute_script(
        "const field = document.getElementById('width');"
        "for (const words of ['7', '78', '780', '7800']) { field.value = words; field.dispatchEvent(new InputEvent('input')); }"
    )
    same('where the last of many is refused', 'Width is 7800, and may be 0 to 4,096. (Refusal 1, SETTING_OUT_OF_RANGE.)', text_of(driver, '#refusal'))
    choose(driver, 'alignment', 1)
    same('the next change is not', True, is_hidden(driver, '#refusal'))


# A Worker that gets what it is asked three seconds late, where the page says so.
LATE = '''
window.Worker = class extends Worker {
    postMessage(message) {
        setTimeout(() => super.postMessage(message), window.late && message.call ? 3000 : 0);
    }
};
'''


def visit_late(driver):
    added = driver.execute_cdp_cmd('Page.addScriptToEvaluateOnNewDocument', {'source': LATE})
    visit(driver, URL)
    go(driver, 'first')
    driver.execute_script('window.late = true;')
    return added['identifier']


def write_and_go_on(driver, text):
    driver.execute_script(
        "const box = document.getElementById('clue'); box.value = arguments[0];"
        "box.dispatchEvent(new InputEvent('input', { bubbles: true }));",
        text,
    )


def test_slow(driver):
    added = visit_late(driver)
    write_and_go_on(driver, 'second')
    says(driver, 'what is laid for long says so', 'The clue is being laid.')
    kind, words = verdict_now(driver)
    holds(f'the picture is told to be the old one: {kind}, {words}', kind == 'verdict warn' and words.startswith('This is the clue as it was'))
    same('then it is laid', tables([(AT_FIRST, 'second')])[0], table(driver))
    same('and all is well', [['verdict', WHOLE], [False, '']], [verdict(driver), is_told(driver)])
    find(driver, '#plan').click()
    says(driver, 'so does a proposal', 'A width is being looked for.')
    holds('it comes', 'is the smallest width' in text_of(driver, '#planned'))
    driver.execute_cdp_cmd('Page.removeScriptToEvaluateOnNewDocument', {'identifier': added})


def test_stopped(driver):
    added = visit_late(driver)
    write_and_go_on(driver, 'second')
    says(driver, 'what is laid for long can be stopped', 'The clue is being laid.')
    driver.execute_script("window.late = false; document.getElementById('stop').click()")
    same('what is stopped is told', 'It was stopped, and what was there stays.', text_of(driver, '#refusal'))
    same('nothing is at work', [False, ''], is_told(driver))
    same('what was there stays', tables([(AT_FIRST, 'first')])[0], table(driver))
    kind, words = verdict(driver)
    holds(f'the picture is told to be of another text: {kind}, {words}', kind == 'verdict warn' and 'is not laid' in words)
    write(driver, 'second third')
    same('the next edit is laid by another Worker', tables([(AT_FIRST, 'second third')])[0], table(driver))
    same('as an edit of what is shown', True, text_of(driver, '#edited').startswith('The last edit: '))
    same('and all is well', ['verdict', WHOLE], verdict(driver))
    driver.execute_script('window.late = true;')
    find(driver, '#plan').click()
    says(driver, 'so can a proposal', 'A width is being looked for.')
    driver.execute_script("window.late = false; document.getElementById('stop').click()")
    same('a proposal is stopped too', 'No width is proposed: it was stopped.', text_of(driver, '#refusal'))
    find(driver, '#plan').click()
    holds('and can be asked for again', 'is the smallest width' in text_of(driver, '#planned'))
    driver.execute_cdp_cmd('Page.removeScriptToEvaluateOnNewDocument', {'identifier': added})
