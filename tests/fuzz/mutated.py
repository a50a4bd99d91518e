"""Cases for the command by chance: words, texts, names, layout files and lists, good ones and spoiled ones.

A case is a dict: 'words', the words behind the command's name; 'input', what stands on standard input; and 'files', what is in the
folder that it is run in, by paths. All are bytes.
"""

HOSTILE = [
    b'\x1b]0;title\x07', b'\x1b[31m', b'\xc2\x9b31m', b'\x9b31m', b'\x80\x81\x9f', b'\xe2\x80\xae', b'\xe2\x81\xa6', b'\xf3\xa0\x80\x81',
    b'\xff\xfe', b'\xc3', b'\xe2\x80', b'\xed\xa0\x80', b'\xf5\x80\x80\x80', b'\r\n', b'\n', b'\b\b\b', b'\x7f', b'%s%n%99999d', b'"\\', b'{',
    b'\xe2\x80\xa8', b'\xef\xbb\xbf', b'\xf0\x9f\x9e\x80', b'fianc\xc3\xa9e', b'caf\xe9', b'\x01', b'-', b'--', b'=', b',', b'/',
]
NUMBERS = [
    b'0', b'1', b'3', b'5', b'6', b'12', b'24', b'63', b'64', b'65', b'72', b'120', b'4095', b'4096', b'4097', b'65536', b'65537', b'-1', b'-4096',
    b'-4097', b'999999999', b'9999999999', b'2147483648', b'4294967296', b'18446744073709551616', b'', b'-', b'+1', b' 1', b'1x', b'0x10', b'1e3',
]
NUMBERED = [
    b'--columns', b'--width', b'--glyph', b'--tab', b'--base', b'--spacing', b'--paragraph', b'--height', b'--top', b'--lines',
]
CHOSEN = {
    b'--align': [b'left', b'centre', b'right', b'justified'],
    b'--leading': [b'on', b'off'],
    b'--wrap': [b'drop', b'wait', b'both'],
    b'--vertical': [b'top', b'middle', b'bottom'],
}
ALONE = [b'--chomp', b'--json', b'--numbers', b'--help', b'-h', b'--', b'-', b'--jsn', b'-x']
CHARACTERS = [b'a', b'b', b'not', b' ', b' ', b'  ', b'\t', b'\n', b'\r', b'\xc2\xad', b'\xc2\xa0', b'\xc3\xa9', b'\xe2\x80\x8b', b'\xe2\x80\xaf']
NAMES = [b'a.txt', b'b.txt', b'-', b'--help', b'x y', b'"q\\"', b'.hidden', b'caf\xe9', b'fianc\xc3\xa9e', b'empty']


def spoiled(chance, some):
    """Some bytes with a change or a few: put in, taken out, changed, doubled."""
    for _ in range(chance.randrange(1, 4)):
        at = chance.randrange(len(some) + 1)
        some = chance.choice([
            lambda: some[:at] + chance.choice(HOSTILE) + some[at:],
            lambda: some[:at] + bytes([chance.randrange(256)]) + some[at + 1:],
            lambda: some[:at] + some[at + chance.randrange(1, 9):],
            lambda: some[:at] + some[:at][-20:] * chance.randrange(1, 4) + some[at:],
        ])()
    return some


def text(chance):
    """A text: mostly a short one, and now and then one that is about as long as any, or spoiled."""
    made = b''.join(chance.choice(CHARACTERS) for _ in range(chance.randrange(60)))
    if chance.random() < 0.05:
        made = (made + b'a') * (65537 // (len(made) + 1) + chance.randrange(2))
    if chance.random() < 0.03:
        made = b'a' * chance.randrange(65534, 65538) + chance.choice([b'', b'\n'])
    return spoiled(chance, made) if chance.random() < 0.4 else made


def name(chance):
    """The name of a file: no slash and no 0 in it, and not too long."""
    some = chance.choice(NAMES)
    if chance.random() < 0.5:
        some = spoiled(chance, some)
    some = some.replace(b'/', b'').replace(b'\0', b'')[:200]
    return b'n' if some in (b'', b'.', b'..') else some


def value(chance):
    """A value of an option, which suits it or does not."""
    some = chance.choice(NUMBERS)
    if chance.random() < 0.2:
        some = chance.choice(HOSTILE)
    return some.replace(b'\0', b'')


def widths(chance):
    """A list of widths."""
    return b','.join(value(chance) for _ in range(chance.choice([1, 1, 2, 3, 3, 63, 64, 65])))


def option(chance):
    """An option with its value, behind it or behind an equals sign."""
    kind = chance.randrange(10)
    if kind == 0:
        return [chance.choice(ALONE)]
    if kind == 1:
        return [chance.choice([b'--widths', b'--columns']), widths(chance)]
    if kind < 4:
        known = chance.choice(list(CHOSEN))
        pair = [known, chance.choice(CHOSEN[known])]
    else:
        pair = [chance.choice(NUMBERED), chance.choice(NUMBERS[:15])]
    if chance.random() < 0.15:
        pair[1] = value(chance)
    return [b'='.join(pair)] if chance.random() < 0.5 else pair


def subcommand(chance, out):
    """The first words, so that many cases get beyond them."""
    return list(chance.choice([
        [b'show'], [b'show', b'--columns', b'12'], [b'fit', b'--lines', b'3'], [b'fit'], [b'pages', b'--lines', b'2'], [b'pages'], [b'check'],
        [b'check', b'--json'], [b'check', b'--json', b'--widths', b'6,24,72'], [b'file', b'write', b'-o', out], [b'file', b'write', b'-o', b'-'],
        [b'file', b'read'], [b'file', b'dump'], [b'file'], [b'help'], [b'--version'], [],
    ]))


def good_words(chance, out, files, layout_files):
    """Words that are taken: each subcommand on files of its own kind, with options that it has."""
    settings = []
    for known in chance.sample(sorted(CHOSEN), chance.randrange(3)):
        settings += [known, chance.choice([some for some in CHOSEN[known] if some != b'both'])]
    for known in chance.sample([b'--glyph', b'--tab', b'--base', b'--height', b'--top'], chance.randrange(3)):
        settings += [known + b'=' + chance.choice([b'1', b'5', b'6', b'24', b'64'])]
    box = chance.choice([[], [b'--columns', b'4'], [b'--width=72'], [b'--columns', b'0'], [b'--chomp', b'--columns=12']])
    boxes = chance.choice([[], [b'--columns', b'4,12'], [b'--widths=0,24,72'], [b'--json', b'--widths', b'6,4096'], [b'--json']])
    some_file = chance.choice([b'-', *files])
    return chance.choice([
        [b'show', *box, *settings, b'--', some_file],
        [b'fit', b'--lines', chance.choice([b'1', b'3', b'65536']), *settings, b'--', some_file],
        [b'pages', b'--lines', chance.choice([b'1', b'2', b'65536']), *box, *settings, *chance.choice([[], [b'--numbers']]), b'--', some_file],
        [b'file', b'write', b'-o', out, *box, *settings, b'--', some_file],
        [b'file', chance.choice([b'read', b'dump']), b'--', chance.choice(layout_files or [b'-'])],
        [b'check', *boxes, *settings, b'--', *chance.sample([b'.', *files], 1)],
        [b'check', *boxes, *settings, b'--', b'in', *files],
    ])


def files_of(chance, layouts):
    """Some files, in folders and beside them, and those of them that were layout files."""
    files, layout_files = {}, []
    for _ in range(chance.randrange(1, 4)):
        path = chance.choice([b'', b'', b'in/', b'in/' + name(chance) + b'/']) + name(chance)
        files[path] = text(chance)
        if chance.random() < 0.3:
            files[path] = chance.choice(layouts)
            layout_files.append(path)
            if chance.random() < 0.7:
                files[path] = spoiled(chance, files[path])
    return files, layout_files


def case(chance, layouts):
    """A whole case; `layouts` are good layout files."""
    files, layout_files = files_of(chance, layouts)
    if chance.random() < 0.6:
        words = good_words(chance, name(chance), list(files), layout_files)
        return {'words': words, 'input': chance.choice([text(chance), chance.choice(layouts)]), 'files': files}
    words = subcommand(chance, name(chance))
    for _ in range(chance.choice([0, 0, 1, 1, 2, 3])):
        words += option(chance)
    words += chance.sample([b'-', b'.', b'in', b'nowhere' + chance.choice(HOSTILE), *files], chance.choice([1, 1, 1, 2]))
    if chance.random() < 0.4:
        at = chance.randrange(len(words))
        words[at] = spoiled(chance, words[at]).replace(b'\0', b'')
    if chance.random() < 0.1:
        chance.shuffle(words)
    return {'words': words, 'input': text(chance), 'files': files}
