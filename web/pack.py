"""Packs the page into one file: style, script, font and the library stand in it, and it opens from a disk as from a server.

usage: pack.py LIBRARY.wasm PAGE.html

It is run in the repository's folder. The page may run and show what its own hashes name, and nothing else: it asks for no other file.
"""
import base64
import hashlib
import re
import sys


def read(path):
    with open(path, encoding='utf-8', newline='') as file:
        return file.read()


# ---- the modules of the script

# The pictures of the letters, of C made JavaScript.
def font():
    rows = re.search(r'^static const struct font_part font.*?^};$', read('examples/font.h'), re.M | re.S)[0].split('\n')[1:-1]
    changed = [re.sub(r'^    \}\},$', '    ]],', re.sub(r'", \{$', '", [', re.sub(r'^    \{"', '    ["', row))) for row in rows]
    return 'export const font = [\n' + '\n'.join(changed).replace('\\1', '\\u0001') + '\n];\n'


def library(wasm):
    text = base64.b64encode(wasm).decode()
    return f"export const wasm = Uint8Array.from(atob('{text}'), (letter) => letter.charCodeAt(0));\n"


# What a module takes from another one.
def taken(source):
    return re.sub(r"^import (\{.*\}) from ('.*');$", r'const \1 = modules[\2];', source, flags=re.M)


# A module as a function: its names are its own, and what it exports are the parts of what it returns.
def as_function(path, source):
    exported = re.findall(r'^export (?:const|class|function|async function) (\w+)', source, re.M)
    body = re.sub(r'^export ', '', taken(source), flags=re.M)
    return f"sources['{path}'] = (modules) => {{\n{body}return {{ {', '.join(exported)} }};\n}};\n"


# The script of the Worker: the same functions, as text, so that no module stands in the page twice. It is no module itself: from a page
# on a disk a browser runs none, and what a module would know of its place is the place of the script.
WORKER = """modules['./working.mjs'] = { script: ['./bisquemop.mjs', './worker.mjs']
    .map((path) => `modules['${path}'] = (${sources[path]})(modules);\\n`.replaceAll('import.' + 'meta.url', 'location.href'))
    .reduce((all, one) => all + one, "'use strict';\\nconst modules = {};\\n") + "modules['./worker.mjs'].listen(self);\\n" };
"""


# The page's own script over these. What only the Worker runs is not run here.
def script(wasm):
    beside = {'./bisquemop.mjs': read('bindings/js/bisquemop.mjs'), './worker.mjs': read('web/worker.mjs')}
    here = {'./font.mjs': font(), './wasm.mjs': library(wasm)}
    here |= {f'./{name}': read(f'web/{name}') for name in ('asking.mjs', 'laid.mjs')}
    functions = ''.join(as_function(path, source) for path, source in (beside | here).items())
    values = ''.join(f"modules['{path}'] = sources['{path}'](modules);\n" for path in ['./bisquemop.mjs', *here])
    return f'const [sources, modules] = [{{}}, {{}}];\n{functions}{values}{WORKER}{taken(read("web/page.js"))}'


# ---- the page

def hashed(text):
    return "'sha256-" + base64.b64encode(hashlib.sha256(text.encode()).digest()).decode() + "'"


# Puts a text where another one stands, which has to stand there once.
def replaced(page, old, new):
    if page.count(old) != 1:
        sys.exit(f'pack.py: the page has {page.count(old)} times: {old}')
    return page.replace(old, new)


def allowed(style, code):
    return (
        f"default-src 'none'; script-src {hashed(code)} 'wasm-unsafe-eval'; style-src {hashed(style)}; img-src data:; "
        "worker-src blob:; base-uri 'none'; form-action 'none'"
    )


def page(wasm):
    style, code = '\n' + read('web/style.css'), '\n' + script(wasm)
    for text, end in [(style, '</style'), (code, '</script'), (code, '<!--')]:
        if end in text.lower():
            sys.exit(f'pack.py: {end} stands where it would end the text')
    whole = replaced(read('web/index.html'), '<link rel="stylesheet" href="style.css">', f'<style>{style}</style>')
    whole = replaced(whole, '<script type="module" src="page.js"></script>', f'<script type="module">{code}</script>')
    whole = re.sub(r'(Content-Security-Policy" content=")[^"]*', lambda found: found[1] + allowed(style, code), whole)
    return f'{whole}<!--\n{read("LICENSE")}\n{read("NOTICE")}-->\n'


def main():
    if len(sys.argv) != 3:
        sys.exit(__doc__)
    with open(sys.argv[1], 'rb') as file:
        wasm = file.read()
    with open(sys.argv[2], 'w', encoding='utf-8', newline='') as file:
        file.write(page(wasm))


if __name__ == '__main__':
    main()
