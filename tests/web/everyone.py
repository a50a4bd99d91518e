"""Links, keyboards, screen readers, narrow screens, dark ones, and browsers without WebAssembly."""
from selenium.webdriver.common.action_chains import ActionChains
from selenium.webdriver.common.by import By
from selenium.webdriver.common.keys import Keys

from driving import AT_FIRST, URL, dots, find, go, holds, picture, same, scheme, size, start, table, text_of, visit, wait_until, write


def test_link(driver):
    settings = {**AT_FIRST, 'width': 90, 'alignment': 2, 'wrap': 0}
    go(driver, 'caf\u00e9 & more\n\u00a0\t100 % sure', settings, h=2, compare=1)
    write(driver, 'caf\u00e9 & more\n\u00a0\t100 % sure?')
    before = table(driver)
    wait_until(driver, lambda one: one.current_url.endswith('sure%3F') or 'sure%3F&' in one.current_url)
    address = driver.current_url
    visit(driver, address)
    same('a link brings the lines back', before, table(driver))
    same(
        'and the rest',
        ['90', '2', True, 2],
        [
            find(driver, '#width').get_attribute('value'),
            find(driver, '#h').get_attribute('value'),
            find(driver, '#alignment-2').is_selected(),
            len(driver.find_elements(By.CSS_SELECTOR, 'figure')),
        ],
    )
    visit(driver, f'{URL}#t=a&width=99999')
    holds('a bad link is refused in words', text_of(driver, '#refusal').startswith('The link: Width is 99999, and may be 0 to 4,096.'))
    go(driver, 'b', {**AT_FIRST, 'width': 'wide'})
    same('so is a word where a number is wanted', 'The link: Width is “wide”, and has to be a whole number.', text_of(driver, '#refusal'))


ROLES = {'textbox', 'slider', 'spinbutton', 'button', 'checkbox', 'radio', 'combobox', 'image', 'region'}


def test_names(driver):
    driver.execute_cdp_cmd('Accessibility.enable', {})
    nodes = driver.execute_cdp_cmd('Accessibility.getFullAXTree', {})['nodes']
    named = [
        (node['role']['value'], node.get('name', {}).get('value', ''))
        for node in nodes
        if not node.get('ignored') and node.get('role', {}).get('value') in ROLES
    ]
    holds('there are controls', len(named) > 40)
    same('every control has a name for screen readers', [], [role for role, name in named if name.strip() == ''])
    images = [name for role, name in named if role == 'image']
    holds('the picture says its lines', any('Line 0: Who lied?' in name for name in images))


def test_widths(driver):
    for name, width, height, dense, look in [
        ('phone-light', 360, 740, 2, 'light'),
        ('phone-dark', 360, 740, 2, 'dark'),
        ('desk-dark', 1280, 1000, 1, 'dark'),
        ('tablet', 800, 1000, 1, 'light'),
    ]:
        size(driver, width, height, dense)
        scheme(driver, look)
        visit(driver, URL)
        holds(f'nothing juts out at {width} pixels', driver.execute_script('return document.documentElement.scrollWidth <= innerWidth'))
        holds(f'the lost word is seen at {width} pixels in {look}', dots(driver, 'lost', 0, outside=True) > 20)
        picture(driver, name)
    size(driver, 1280, 1000)
    scheme(driver, 'light')


def test_keyboard(driver):
    visit(driver, URL)
    seen = []
    for _ in range(60):
        ActionChains(driver).send_keys(Keys.TAB).perform()
        seen.append(
            driver.execute_script('return document.activeElement.id || document.activeElement.className || document.activeElement.name')
        )
    for wanted in [
        'link',
        'clue',
        'open-text',
        'open-layout',
        'save',
        'compare',
        'colour',
        'zoom',
        'picture',
        'edge',
        'width',
        'width-slider',
        'wrap-1',
        'h',
        'plan',
    ]:
        holds(f'the tab key comes to {wanted}', wanted in seen)


def test_without_wasm():
    driver = start('--js-flags=--jitless')
    try:
        driver.get(URL)
        wait_until(driver, lambda one: text_of(one, '#refusal'))
        holds('a browser without WebAssembly is told so', text_of(driver, '#refusal').startswith('This browser has no WebAssembly'))
        picture(driver, 'without-wasm')
    finally:
        driver.quit()
