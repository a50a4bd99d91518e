#!/usr/bin/env python3
"""Counts the places of the design pass (docs/DESIGN-PASS.md) in the sources of a commit, or of the files that are there.

usage: tools/places.py [--list POINT] [COMMIT]

For each point of the page: what is looked for, how many places there are, and in which crates most. What it finds is told by
the form alone: whether a place is one of the point's, and why it stays, is said in the page.

  --list POINT   the places of that point, a line each, as FILE:LINE: TEXT
  COMMIT         the sources of that commit; without it, those that are there
"""
import collections
import os
import re
import subprocess
import sys

ROOT = os.path.dirname(os.path.dirname(os.path.abspath(__file__)))


def sources(commit):
    """Each source of crates/*/src with its lines."""
    if commit is None:
        for folder, _, names in os.walk(os.path.join(ROOT, 'crates')):
            if os.sep + 'src' not in folder or os.sep + 'out' in folder:
                continue
            for name in names:
                if name.endswith('.rt'):
                    path = os.path.join(folder, name)
                    with open(path, encoding='utf-8') as file:
                        yield os.path.relpath(path, ROOT), file.read().split('\n')
        return
    run = lambda *words: subprocess.run(('git', '-C', ROOT) + words, check=True, capture_output=True, text=True).stdout
    for path in run('ls-tree', '-r', '--name-only', commit, 'crates').split('\n'):
        if '/src/' in path and path.endswith('.rt'):
            yield path, run('show', '%s:%s' % (commit, path)).split('\n')


def functions(lines):
    """Each function: its number of line, its name, what stands before its body, and its body."""
    at = 0
    while at < len(lines):
        head = re.match(r'\s*(?:pub(?:\([^)]*\))? )?fn (\w+)', lines[at])
        if not head:
            at += 1
            continue
        body = at
        while body < len(lines) and not re.match(r'\s*\{$', lines[body]) and not lines[body].rstrip().endswith('{'):
            body += 1
        end = body
        while end < len(lines) and not re.match(r'\}', lines[end]) and not re.match(r'    \}$', lines[end]):
            end += 1
        yield at, head.group(1), lines[at:body + 1], lines[body + 1:end]
        at = body + 1


def by_line(what, pattern):
    """Looks for each line in which a pattern is found."""
    def look(path, lines):
        return [(at, line) for at, line in enumerate(lines) if re.search(pattern, line)]
    look.__doc__ = what
    return look


zeros = by_line('1: a contract by which an answer of 0 says nothing.', r'ensures[^{]*\{ (0 < result|Found result)')
loops = by_line('3: loops that are no `for`.', r'^\s*(while |loop \{)')
copies = by_line('4: a field taken out under its own name, as to copy a struct by hand.', r'^\s*let (\w+) = (?:\w+\.)+\1;')
helpers = by_line('4: calls of own helpers that std has.', r'\b(lesser|greater|less|less_wide)\(')

OPTION_NAMES = r'(None|Nothing|Not|End|Ended|No\w+|OutOfPlace|Refused|Bad|Malformed|Failed|Unread)\b'


def enums(path, lines):
    """1: own enums with a case that says that there is nothing, or why not."""
    for at, line in enumerate(lines):
        if re.match(r'(pub )?enum ', line):
            body = []
            for other in lines[at + 1:]:
                if other.startswith('}'):
                    break
                body.append(other)
            if any(re.match(r'\s+' + OPTION_NAMES, other) for other in body):
                yield at, line


def flags(path, lines):
    """1: a flag in a struct, with values beside it."""
    inside = False
    for at, line in enumerate(lines):
        inside = bool(re.match(r'(pub )?struct ', line)) or (inside and not line.startswith('}'))
        if inside and re.match(r'\s+(pub )?\w+: bool,', line):
            yield at, line


def numbers(path, lines):
    """1 and 4: a case of an enum turned into a number, or a number into one, by hand."""
    for at, name, head, body in functions(lines):
        arms = [line for line in body if re.match(r'\s+(\w+::\w+.* => \d+,|\d+ => \w+::\w+)', line)]
        if len(arms) > 1:
            yield at, lines[at]


def counted(path, lines):
    """3: those among them that count by hand."""
    for at, line in enumerate(lines):
        if not re.match(r'\s*while ', line):
            continue
        depth = len(line) - len(line.lstrip())
        for other in lines[at + 1:]:
            if other.strip() and len(other) - len(other.lstrip()) <= depth:
                break
            if re.match(r'\s*\w+ [+-]= 1;', other):
                yield at, line
                break


def handed(path, lines):
    """1: a refusal handed on by hand."""
    text = '\n'.join(lines)
    for found in re.finditer(r'(Refused|Err)\((\w+)\) => (?:\w+::)?(Refused|Err)\(\2\)|if let (?:\w+::)?(Refused|Err)\((\w+)\) = [^{]*\{\s*return', text):
        yield text.count('\n', 0, found.start()), found.group(0).split('\n')[0]


def buffers(path, lines):
    """6: a table or a list lent with the number of its lines beside it."""
    for at, name, head, body in functions(lines):
        if re.search(r'(table|file): &(mut )?\[u\d+\],?\s+(\w+: \w+,\s+)?lines: usize', '\n'.join(head)):
            yield at, lines[at]


def repeated(files):
    """5: a fact that stands in what three or more functions require."""
    facts = collections.defaultdict(set)
    for path, lines in files:
        for at, name, head, body in functions(lines):
            for line in head:
                found = re.search(r'requires[^{]*\{ (.*) \}', line)
                for fact in re.split(' × ', found.group(1)) if found else ():
                    fact = fact.strip()
                    while fact.startswith('(') and fact.endswith(')'):
                        fact = fact[1:-1].strip()
                    facts[fact].add((path, at, name))
    for fact, where in sorted(facts.items(), key=lambda each: -len(each[1])):
        if len(where) > 2:
            for path, at, name in sorted(where):
                yield path, at, '%s requires %s' % (name, fact)


def twins(files):
    """2: functions whose text is the same but for names, numbers and types."""
    shapes = collections.defaultdict(list)
    for path, lines in files:
        for at, name, head, body in functions(lines):
            text = re.sub(r'//.*', '', '\n'.join(head + body))
            text = re.sub(r'(requires|ensures)[^\n]*', '', text)
            shape = re.sub(r'\s+', ' ', re.sub(r'\b\d\w*\b', '0', re.sub(r'\b[A-Za-z_]\w*\b', 'x', text)))
            if len(shape) > 60:
                shapes[shape].append((path, at, lines[at]))
    for each in shapes.values():
        if len(each) > 1:
            for path, at, line in each:
                yield path, at, line


BY_FILE = [('1-enums', enums), ('1-flags', flags), ('1-zeros', zeros), ('1-numbers', numbers), ('1-handed', handed), ('3-loops', loops),
           ('3-counted', counted), ('4-copies', copies), ('4-helpers', helpers), ('6-buffers', buffers)]
BY_ALL = [('2-twins', twins), ('5-repeated', repeated)]


def places(commit):
    """Of each point, what is looked for and its places."""
    files = sorted(sources(commit))
    found = {}
    for name, look in BY_FILE:
        found[name] = (look.__doc__, [(path, at, text) for path, lines in files for at, text in look(path, lines)])
    for name, look in BY_ALL:
        found[name] = (look.__doc__, list(look(files)))
    return dict(sorted(found.items()))


def main():
    words = sys.argv[1:]
    point = None
    if words[:1] == ['--list'] and len(words) > 1:
        point, words = words[1], words[2:]
    if len(words) > 1 or (words and words[0].startswith('-')):
        sys.exit(__doc__.strip())
    found = places(words[0] if words else None)
    if point is not None:
        if point not in found:
            sys.exit('%s is none of %s' % (point, ', '.join(found)))
        for path, at, text in found[point][1]:
            print('%s:%d: %s' % (path, at + 1, text.strip()))
        return
    for name, (what, where) in found.items():
        crates = collections.Counter(path.split('/')[1] for path, _, _ in where)
        most = ', '.join('%s %d' % each for each in crates.most_common(6))
        print('%-10s %4d  %s  (%s)' % (name, len(where), what.split(': ', 1)[1].rstrip('.'), most))


if __name__ == '__main__':
    main()
