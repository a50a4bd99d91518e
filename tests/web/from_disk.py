"""The page as one file, opened from a disk as by a double click: it works as the one that is served, and runs nothing but its own script.

usage: from_disk.py URL ANSWERS FOLDER

URL is the file's address, ANSWERS the program of tests/js/answers.c for this machine, FOLDER where pictures of what was seen are put.
The last line is 'N passed, M failed'.
"""
import sys

import everyone
import files
import limits
import writing
from driving import URL, counts, holds, same, scheme, size, start, visit


def test_policy(driver):
    policy = driver.execute_script("return document.querySelector('meta[http-equiv]').content")
    holds('the policy names the script by its hash', "script-src 'sha256-" in policy and "'unsafe-inline'" not in policy)
    run = driver.execute_script(
        '''const script = document.createElement('script');
           script.textContent = 'window.other = true';
           document.body.append(script);
           return window.other ?? false;'''
    )
    same('another script does not run', False, run)


TESTS = [
    writing.test_opened,
    writing.test_lost_word,
    files.test_layout_files,
    everyone.test_link,
    limits.test_wrap,
    limits.test_slow,
    limits.test_stopped,
]


def severe(driver):
    return [entry['message'] for entry in driver.get_log('browser') if entry['level'] == 'SEVERE']


def main():
    driver = start()
    try:
        driver.set_script_timeout(120)
        size(driver, 1280, 1000)
        scheme(driver, 'light')
        visit(driver, URL)
        for test in TESTS:
            test(driver)
        same('nothing is wrong in the console', [], severe(driver))
        test_policy(driver)
        holds('the browser says that it refused the other script', any('Content Security Policy' in words for words in severe(driver)))
    finally:
        driver.quit()
    print(f"{counts['passed']} passed, {counts['failed']} failed")
    return 0 if counts['failed'] == 0 else 1


if __name__ == '__main__':
    sys.exit(main())
