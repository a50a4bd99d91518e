"""Layout files saved and opened, texts opened, and those that are refused."""
import os

from driving import AT_FIRST, CLUE, FOLDER, find, go, holds, picture, same, table, text_of, wait_for_lines, wait_until, write
from native import answer, tables


def put_file(name, data):
    path = os.path.join(FOLDER, name)
    with open(path, 'wb') as file:
        file.write(data)
    return path


def opened(driver, css, path):
    driver.execute_script("document.getElementById('news').textContent = ''; document.getElementById('refusal').textContent = '';")
    find(driver, css).send_keys(path)
    wait_until(driver, lambda one: text_of(one, '#news') or text_of(one, '#refusal'))
    return text_of(driver, '#refusal') or text_of(driver, '#news')


def saved(driver):
    path = os.path.join(FOLDER, 'clue.layout')
    if os.path.exists(path):
        os.remove(path)
    find(driver, '#save').click()
    wait_until(driver, lambda one: os.path.exists(path) and os.path.getsize(path) > 0)
    with open(path, 'rb') as file:
        return path, file.read()


def test_layout_files(driver):
    settings = {**AT_FIRST, 'width': 65, 'top': -7, 'wrap': 0}
    go(driver, CLUE, settings)
    path, data = saved(driver)
    same('the file is the one that the library writes', [int(byte) for byte in answer(settings, CLUE, 1, 'write_file')[2:]], list(data))
    before = table(driver)
    driver.refresh()
    wait_for_lines(driver)
    same('what was shown is there after a reload', before, table(driver))
    find(driver, '#reset').click()
    same('the saved file is opened', 'clue.layout is the layout of this clue.', opened(driver, '#open-layout', path))
    same(
        'its settings are taken',
        ['65', '-7', before],
        [find(driver, '#width').get_attribute('value'), find(driver, '#top').get_attribute('value'), table(driver)],
    )
    write(driver, 'another clue')
    holds(
        'another clue is told',
        'of a text of 50 bytes, which is not this clue: its settings are taken.' in opened(driver, '#open-layout', path),
    )
    before = table(driver)
    spoiled = put_file('spoiled.layout', data[:55] + b'\x07' + data[56:])
    same(
        'a bad file is refused by name',
        'spoiled.layout is not opened. The layout file has a bad field at byte 55. (Refusal 9, BAD_FIELD.)',
        opened(driver, '#open-layout', spoiled),
    )
    picture(driver, 'bad-file')
    same('what was there stays after a bad file', before, table(driver))
    retired = put_file('retired.layout', data[:47] + b'\x01' + data[48:])
    holds('a retired setting is told', 'RETIRED_SETTING' in opened(driver, '#open-layout', retired))


def test_text_files(driver):
    go(driver, CLUE)
    before = table(driver)
    for name, data, words in [
        (
            'long.txt',
            b'x' * 65536,
            'long.txt is not opened. The text has 65,536 bytes, and may have 65,535 at most. (Refusal 3, TEXT_TOO_LONG.)',
        ),
        (
            'latin.txt',
            b'caf\xe9',
            'latin.txt is not opened. The text is not UTF-8: it goes wrong after its first 3 bytes. (Refusal 4, NOT_UTF8.)',
        ),
    ]:
        same(f'{name} is refused', words, opened(driver, '#open-text', put_file(name, data)))
        same(f'what was there stays after {name}', [before, CLUE], [table(driver), find(driver, '#clue').get_attribute('value')])
    returns = 'one\r\ntwo\r\nthr\u00e9\u00e9'
    same('a text is opened', 'returns.txt is opened.', opened(driver, '#open-text', put_file('returns.txt', returns.encode())))
    same('its carriage returns are kept', tables([(AT_FIRST, returns)])[0], table(driver))
    write(driver, 'y' * 65536)
    same(
        'a long text in the box is refused',
        'The text has 65,536 bytes, and may have 65,535 at most. (Refusal 3, TEXT_TOO_LONG.)',
        text_of(driver, '#refusal'),
    )
    same('the picture stays', tables([(AT_FIRST, returns)])[0], table(driver))
    write(driver, 'short')
    same('and goes on from there', tables([(AT_FIRST, 'short')])[0], table(driver))
