"""A clue is typed and loses a word, is edited, set, pointed at, and given a width."""
from selenium.webdriver.common.action_chains import ActionChains
from selenium.webdriver.common.by import By
from selenium.webdriver.common.keys import Keys

from driving import (
    AT_FIRST,
    CLUE,
    NAMES,
    choose,
    dots,
    fill,
    find,
    go,
    holds,
    is_hidden,
    picture,
    same,
    size,
    table,
    text_of,
    wait_until,
)
from native import answer, tables


def test_opened(driver):
    same('the clue that it opens with', CLUE, driver.execute_script("return document.getElementById('clue').value"))
    same('nothing is refused', True, is_hidden(driver, '#refusal'))
    asked = driver.execute_script("return performance.getEntriesByType('resource').map((entry) => entry.name)")
    same('the page is one file, and asks for no other', [], [name for name in asked if not name.startswith('data:')])
    same('both wraps stand side by side', 2, len(driver.find_elements(By.CSS_SELECTOR, 'figure')))
    picture(driver, 'opened')
    size(driver, 1280, 620)
    driver.execute_script('document.activeElement.blur()')
    picture(driver, 'page', whole=False)
    size(driver, 1280, 1000)


def test_lost_word(driver):
    find(driver, '#compare').click()
    choose(driver, 'wrap', 0)
    box = find(driver, '#clue')
    box.send_keys(Keys.CONTROL, 'a')
    box.send_keys('The thief was', Keys.ENTER, ' ' * 12 + 'never in the cellar.')
    same('the words of what is lost', 'Line 2: 5 characters are not on the screen: “never”', text_of(driver, '.verdict .lost'))
    holds('the verdict', text_of(driver, '.verdict').startswith('Part of the clue is not on the screen'))
    holds('the lost word is red, right of the box', dots(driver, 'lost', 0, outside=True) > 50)
    same("the line's row says so", '5', text_of(driver, '#lines tr.lost td[data-column="dropped"]'))
    picture(driver, 'lost')
    find(driver, '#compare').click()
    same(
        'one click shows both wraps',
        ['0', '1'],
        [figure.get_attribute('data-wrap') for figure in driver.find_elements(By.CSS_SELECTOR, 'figure')],
    )
    same('nothing is red where words wait', 0, dots(driver, 'lost', 1, outside=True))
    same('there the whole clue is shown', 'The whole clue is on the screen', text_of(driver, 'figure[data-wrap="1"] .verdict'))
    picture(driver, 'both')
    find(driver, '#compare').click()
    choose(driver, 'wrap', 1)
    same('where words wait nothing is said to be lost', None, text_of(driver, '.verdict .lost'))


def test_edited(driver):
    go(driver, 'one two\nthree four\nfive six', {**AT_FIRST, 'width': 60})
    same('before an edit nothing is coloured', 0, dots(driver, 'laid', 1))
    find(driver, '#colour').click()
    box = find(driver, '#clue')
    box.send_keys(Keys.CONTROL, Keys.HOME)
    box.send_keys(Keys.CONTROL, Keys.ARROW_DOWN)
    driver.execute_script("const box = document.getElementById('clue'); box.setSelectionRange(9, 9);")
    box.send_keys('x')
    same('the edit is in the text', 'one two\ntxhree four\nfive six', box.get_attribute('value'))
    same('what was laid, moved and left', 'The last edit: 1 line untouched, 2 laid, 1 moved.', text_of(driver, '#edited'))
    holds('laid lines are coloured', dots(driver, 'laid', 1) > 500)
    holds('moved lines are coloured', dots(driver, 'moved', 1) > 500)
    same(
        'so are their rows',
        ['untouched', 'laid', 'laid', 'moved'],
        [row.get_attribute('class').split()[0] for row in driver.find_elements(By.CSS_SELECTOR, '#lines tbody tr')],
    )
    same('the table is that of the new text', tables([({**AT_FIRST, 'width': 60}, 'one two\ntxhree four\nfive six')])[0], table(driver))
    picture(driver, 'edited')
    find(driver, '#colour').click()


def width_now(driver):
    return int(find(driver, '.edge').get_attribute('aria-valuenow'))


def test_edge(driver):
    go(driver, CLUE, zoom=3)
    edge = find(driver, '.edge')
    ActionChains(driver).click_and_hold(edge).move_by_offset(18, 0).move_by_offset(18, 0).release().perform()
    same('the edge is dragged to a wider box', 84, width_now(driver))
    same('the field has the width', '84', find(driver, '#width').get_attribute('value'))
    same('the lines are those of that box', tables([({**AT_FIRST, 'width': 84}, CLUE)])[0], table(driver))
    picture(driver, 'dragged')
    edge.send_keys(Keys.ARROW_RIGHT)
    same('an arrow key moves it by a pixel', 85, width_now(driver))
    edge.send_keys(Keys.PAGE_DOWN)
    same('page down by a character', 79, width_now(driver))
    find(driver, '#width-slider').send_keys(Keys.ARROW_LEFT)
    same('the slider changes it too', 78, width_now(driver))


def test_settings(driver):
    go(driver, CLUE)
    before = tables([({**AT_FIRST, 'width': 500}, CLUE)])[0]
    fill(driver, '#width', '5000')
    same(
        'a width out of range is refused in words',
        'Width is 5000, and may be 0 to 4,096. (Refusal 1, SETTING_OUT_OF_RANGE.)',
        text_of(driver, '#refusal'),
    )
    same('the field is marked', 'true', find(driver, '#width').get_attribute('aria-invalid'))
    same('what was there before the last digit stays', before, table(driver))
    picture(driver, 'refused')
    find(driver, '#clue').click()
    same(
        'leaving the field brings that width back',
        ['500', True],
        [find(driver, '#width').get_attribute('value'), is_hidden(driver, '#refusal')],
    )
    for name in NAMES:
        holds(
            f'there is a control for {name}',
            driver.execute_script('return document.querySelectorAll(`#${arguments[0]}, [name="${arguments[0]}"]`).length', name) > 0,
        )
    for name in NAMES[:8]:
        holds(f'there is a slider for {name}', find(driver, f'#{name}-slider').is_displayed())
    choose(driver, 'alignment', 3)
    same('an alignment is set', tables([({**AT_FIRST, 'width': 500, 'alignment': 3}, CLUE)])[0], table(driver))
    go(driver, CLUE, {**AT_FIRST, 'height': 20})
    holds('lines below the box are told', 'lines do not show: the box is too low' in text_of(driver, '.verdict'))
    picture(driver, 'hidden')


def test_pointed(driver):
    go(driver, CLUE, zoom=3)
    canvas = find(driver, 'canvas.picture')
    top = -canvas.size['height'] / 2 + 10
    ActionChains(driver).move_to_element_with_offset(canvas, 0, int(top + 3 * (2 * 10 + 4))).perform()
    same('the line under the pointer', '2', find(driver, '#lines tr.pointed').get_attribute('data-line'))
    holds('it is read out', text_of(driver, '#pointed').startswith('Line 2: “not the·”, from byte 22, ends by a line break'))
    mark, line = find(driver, '.mark'), {'width': 72 * 3 + 4, 'height': 8 * 3 + 4}
    same('it is marked in the picture', [True, line], [mark.is_displayed(), mark.size])
    same('where it stands', 10 + 3 * 2 * 10 - 2, round(mark.rect['y'] - canvas.rect['y']))
    picture(driver, 'pointed', whole=False)
    ActionChains(driver).move_to_element(find(driver, '#lines tr[data-line="1"] th')).perform()
    holds('a row of the table points at its line too', text_of(driver, '#pointed').startswith('Line 1: '))
    ActionChains(driver).move_to_element(find(driver, '#lines thead th')).perform()
    holds('the heading points at none', text_of(driver, '#pointed').startswith('Point at a line'))
    canvas.send_keys(Keys.ESCAPE, Keys.ARROW_DOWN, Keys.ARROW_DOWN, Keys.ARROW_DOWN, Keys.ARROW_DOWN, Keys.ARROW_UP)
    same('arrow keys go from line to line', '2', find(driver, '#lines tr.pointed').get_attribute('data-line'))


def test_lists(driver):
    go(driver, CLUE)
    fill(driver, '#h', '3')
    holds('three lines are too few', 'does not do' in text_of(driver, '#fits'))
    find(driver, '#plan').click()
    planned = answer(AT_FIRST, CLUE, 3, 'columns_plan')[1]
    wait_until(driver, lambda one: text_of(one, '#planned') != '')
    same(
        'the width that is proposed', f'{planned} pixels is the smallest width for 3 lines with nothing lost.', text_of(driver, '#planned')
    )
    pages = driver.execute_script(
        "return [...document.querySelectorAll('#pages tbody tr')].map((row) => [...row.cells].slice(0, 3).map((cell) => cell.textContent))"
    )
    same('the pages', [['1', '0 to 2', '0 to 30'], ['2', '3 to 4', '30 to 50']], pages)
    picture(driver, 'proposed')
    find(driver, '#use').click()
    same('the width is used', int(planned), width_now(driver))
    holds('then three lines are enough', 'loses nothing' in text_of(driver, '#fits'))
    fill(driver, '#h', '0')
    same(
        'no lines are refused',
        'The number of lines is 0, and has to be 1 at least. (Refusal 1, SETTING_OUT_OF_RANGE.)',
        text_of(driver, '#refusal'),
    )
    find(driver, '#h').send_keys(Keys.BACKSPACE)
    same('so is an empty field', 'The number of lines is “”, and has to be a whole number.', text_of(driver, '#refusal'))


def test_keys(driver):
    go(driver, 'ab')
    driver.execute_script("document.getElementById('clue').setSelectionRange(1, 1);")
    find(driver, 'summary').click()
    find(driver, '#keys').find_elements(By.TAG_NAME, 'button')[1].click()
    same('a carriage return is put in', tables([(AT_FIRST, 'a\rb')])[0], table(driver))
    find(driver, '#keys').find_elements(By.TAG_NAME, 'button')[3].click()
    same('a soft hyphen is put behind it', tables([(AT_FIRST, 'a\r\u00adb')])[0], table(driver))
    find(driver, 'summary').click()
