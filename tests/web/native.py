"""What the library for this machine answers: the program of tests/js/answers.c."""
import subprocess

from driving import ANSWERS, NAMES


def case_line(settings, text, h=1):
    numbers = [settings[name] for name in NAMES] + [h, 0, 0, 0, 0, 0, 0]
    return ' '.join(map(str, numbers)) + f' .{text.encode().hex()}; .; .;\n'


def answers(cases, *words):
    run = subprocess.run([ANSWERS, *words], input=''.join(cases), capture_output=True, text=True, check=True)
    return [line.split() for line in run.stdout.splitlines()]


def tables(cases):
    found = []
    for call, number, lines, *numbers in answers([case_line(*case) for case in cases], 'table'):
        assert call == 'layout' and number == '0'
        found.append([[int(one) for one in numbers[11 * k : 11 * k + 11]] for k in range(int(lines))])
    return found


def answer(settings, text, h, call):
    return next(line[1:] for line in answers([case_line(settings, text, h)]) if line[0] == call)
