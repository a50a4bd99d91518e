"""Drives the page in a real browser and looks at what it shows.

usage: browser.py URL ANSWERS FOLDER

URL is where the page is served, ANSWERS the program of tests/js/answers.c for this machine, FOLDER where pictures of what was seen
are put. The last line is 'N passed, M failed'.
"""
import sys

import clues
import everyone
import files
import limits
import writing
from driving import URL, counts, same, scheme, size, start, visit

TESTS = [
    writing.test_opened,
    writing.test_lost_word,
    writing.test_edited,
    writing.test_edge,
    writing.test_settings,
    writing.test_pointed,
    writing.test_lists,
    writing.test_keys,
    files.test_layout_files,
    files.test_text_files,
    clues.test_chance,
    limits.test_wrap,
    limits.test_refused_text,
    limits.test_canvas,
    limits.test_no_canvas,
    limits.test_glyphs,
    limits.test_long_link,
    limits.test_typed_numbers,
    limits.test_slow,
    limits.test_stopped,
    everyone.test_link,
    everyone.test_widths,
    everyone.test_keyboard,
    everyone.test_names,
]


def main():
    driver = start()
    try:
        driver.set_script_timeout(120)
        size(driver, 1280, 1000)
        scheme(driver, 'light')
        visit(driver, URL)
        for test in TESTS:
            test(driver)
        same('nothing is wrong in the console', [], [entry['message'] for entry in driver.get_log('browser') if entry['level'] == 'SEVERE'])
    finally:
        driver.quit()
    everyone.test_without_wasm()
    print(f"{counts['passed']} passed, {counts['failed']} failed")
    return 0 if counts['failed'] == 0 else 1


if __name__ == '__main__':
    sys.exit(main())
