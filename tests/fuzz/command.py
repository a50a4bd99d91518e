"""Runs the command on cases by chance, and looks at how it ends and at what it prints.

usage: command.py PROGRAM SEED CASES SECONDS FOLDER
       command.py PROGRAM --replay FILE..

PROGRAM is the command with the compilers' sanitizers, which end it by status 99. Each case follows from the seed and its number. The
first form makes so many cases, or as many as it can in so many seconds if they are not 0, and keeps each in which something is wrong in
a file of FOLDER; the second runs such files. The last line is 'N passed, M failed'.
"""
import itertools
import json
import os
import random
import subprocess
import sys
import tempfile
import time
from concurrent.futures import ThreadPoolExecutor

import mutated

SECONDS_OF_A_CASE = 30
# what a terminal acts upon
ACTED_UPON = [(0x00, 0x09), (0x0B, 0x1F), (0x7F, 0x9F), (0x202A, 0x202E), (0x2066, 0x2069)]
ENVIRONMENT = dict(os.environ, ASAN_OPTIONS='exitcode=99:detect_leaks=0', UBSAN_OPTIONS='exitcode=99:print_stacktrace=1', LC_ALL='C')


def acted_upon(printed):
    """The first character that a terminal acts upon, or None. A byte of no character counts as the one of its number."""
    for character in printed.decode('utf-8', 'surrogateescape'):
        number = ord(character)
        if 0xDC80 <= number <= 0xDCFF:
            number -= 0xDC00
        if any(first <= number <= last for first, last in ACTED_UPON):
            return f'U+{number:04X}'
    return None


def wrong_in(case, status, said, errors):
    """What is wrong with how a case ended, or None."""
    words = case['words']
    if status not in (0, 1, 2):
        return f'the status is {status}: {errors[-2000:].decode("utf-8", "replace")}'
    if status == 2 and not errors:
        return 'it says nothing of why it is refused'
    for stream, printed in [('output', said), ('error', errors)]:
        found = acted_upon(printed)
        # a layout file is no text, and begins with this field
        if found and not (words[:1] == [b'file'] and stream == 'output' and said.startswith(b'\1\64\0')):
            return f'standard {stream} has {found}'
    if words[:1] == [b'check'] and said.startswith(b'{'):
        return wrong_in_json(said)
    return None


def wrong_in_json(said):
    """What is wrong with a document of check --json, or None."""
    try:
        document = json.loads(said.decode('utf-8'))
    except ValueError as error:
        return f'it prints no JSON: {error}'
    if document['lose'] + document['refused'] > document['files']:
        return 'more files are found than there are'
    return None


def run(program, case):
    """Runs a case in a folder of its own. Answers what is wrong, or None."""
    with tempfile.TemporaryDirectory() as folder:
        folder = os.fsencode(folder)
        for path, content in case['files'].items():
            place = os.path.join(folder, path)
            try:
                os.makedirs(os.path.dirname(place), exist_ok=True)
                with open(place, 'wb') as file:
                    file.write(content)
            except OSError:
                pass  # one name for a file and for a folder
        try:
            ended = subprocess.run([os.fsencode(program), *case['words']], cwd=folder, input=case['input'], capture_output=True,
                                   env=ENVIRONMENT, timeout=SECONDS_OF_A_CASE, check=False)
        except subprocess.TimeoutExpired:
            return 'it came to no end'
    return wrong_in(case, ended.returncode, ended.stdout, ended.stderr)


# ---- files of cases: JSON, where a byte is the character of its number


def as_text(case):
    return json.dumps({
        'words': [word.decode('latin-1') for word in case['words']],
        'input': case['input'].decode('latin-1'),
        'files': {path.decode('latin-1'): content.decode('latin-1') for path, content in case['files'].items()},
    }, indent=1)


def from_text(text):
    case = json.loads(text)
    return {
        'words': [word.encode('latin-1') for word in case['words']],
        'input': case['input'].encode('latin-1'),
        'files': {path.encode('latin-1'): content.encode('latin-1') for path, content in case['files'].items()},
    }


def layouts(program):
    """Good layout files, to be lent as they are or spoiled."""
    made = []
    for words, text in [([], b''), (['--columns', '4'], b'ab cd\n    not\rx'), (['--wrap', 'wait', '--align', 'centre'], b'a b ' * 40)]:
        made.append(subprocess.run([program, 'file', 'write', '-o', '-', *words, '-'], input=text, capture_output=True, env=ENVIRONMENT,
                                   check=False).stdout)
    return made


def by_chance(program, seed, cases, seconds, folder):
    """Cases side by side, until there are enough or the time is over. Answers how many passed, and how many failed."""
    good = layouts(program)
    end = time.monotonic() + seconds
    counts = [0, 0]

    def one(number):
        if seconds and time.monotonic() > end:
            return
        case = mutated.case(random.Random(f'{seed} {number}'), good)
        wrong = run(program, case)
        counts[bool(wrong)] += 1
        if wrong:
            path = os.path.join(folder, f'command-{seed}-{number}.json')
            print(f'command: {wrong}; the case is kept in {path}', file=sys.stderr)
            with open(path, 'w', encoding='utf-8') as file:
                file.write(as_text(case) + '\n')

    with ThreadPoolExecutor(os.cpu_count()) as lanes:
        if not seconds:
            list(lanes.map(one, range(cases)))
        for first in itertools.count(0, 1000) if seconds else []:
            if time.monotonic() > end:
                break
            list(lanes.map(one, range(first, first + 1000)))
    return counts


def replay(program, paths):
    counts = [0, 0]
    for path in paths:
        with open(path, encoding='utf-8') as file:
            wrong = run(program, from_text(file.read()))
        counts[bool(wrong)] += 1
        if wrong:
            print(f'command: {path}: {wrong}', file=sys.stderr)
    return counts


def main():
    program = os.path.abspath(sys.argv[1])
    if sys.argv[2] == '--replay':
        passed, failed = replay(program, sys.argv[3:])
    else:
        seed, cases, seconds = map(int, sys.argv[2:5])
        passed, failed = by_chance(program, seed, cases, seconds, sys.argv[5])
    print(f'{passed} passed, {failed} failed')
    sys.exit(failed > 0)


main()
