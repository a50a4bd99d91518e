#!/usr/bin/env python3
"""Brings the repository's own definitions and lemmas to the spelling of the kit's library, once.

usage: tools/respell.py            at the top of the repository, after the kit's port.py: writes crates/, crates.txt and the table of names
       tools/respell.py --check    says what it would rename, and what would fall together; writes nothing

A definition in camel case is in snake case afterwards. Of a lemma's dashes those stay that join two names of definitions, all others are
underscores. A lemma that would then have its definition's name ends in _lem. Functions of src/, exported names, strings, inputs and outputs
keep their names. The crate `unicode`, which the kit has a library of that name, is `utf8`; the module `Contracts`, which the kit makes
in each crate, is `CallContracts`.
"""
import collections
import os
import re
import sys

ROOT = os.path.dirname(os.path.dirname(os.path.realpath(__file__)))
CRATES = os.path.join(ROOT, "crates")
WORD = re.compile(r"[^\s(){}.;,@\"«»|\[\]\\`]+")
DECLARES = re.compile(r"^( *)(?:(?:pub|abbrev|unfoldable|unfolding|ruleset) )*([^\s(){}.;,@\"«»:]+)(?: \{[^{}\n]*\})*(?: \([^()\n]*\))* : ")
RULESET = re.compile(r"^(?:pub )?ruleset ([^\s=]+) =")
CRATE = [("unicode", "utf8")]
MODULE = [("promises", "Contracts", "CallContracts")]
# The library has a word that is spelled so.
CHOSEN = {"countBy": "count_where"}


def files(*kinds):
    for folder, inside, names in os.walk(CRATES):
        inside[:] = sorted(d for d in inside if d != "out")
        for name in sorted(names):
            if name.endswith(kinds):
                yield os.path.join(folder, name)


def read(path):
    with open(path, encoding="utf-8") as f:
        return f.read()


def is_goals(path):
    return os.path.basename(path) in ("Proof.antt", "Answers.antt", "Invariants.antt")


def snake(name):
    return re.sub(r"(?<=[a-z0-9'])[A-Z]", lambda m: "_" + m[0].lower(), name)


def declared():
    """Names declared in files of definitions and lemmas: name -> is it a field anywhere; and those of proofs of functions."""
    own, fields, local = {}, set(), set()
    for path in files(".antt"):
        for line in read(path).split("\n"):
            m = DECLARES.match(line) or RULESET.match(line)
            if not m or line.lstrip().startswith("--"):
                continue
            name = m.group(m.lastindex) if m.re is RULESET else m.group(2)
            if is_goals(path):
                local.add(name)
                continue
            own[name] = True
            if m.re is DECLARES and m.group(1):
                fields.add(name)
    return own, fields, local


def table():
    own, fields, local = declared()
    imported = set()
    for path in files(".antt", ".rt"):
        for m in re.finditer(r"use Rattle\.(?:std|core|std_alloc)\.[\w.]*\.\{([^}]*)\}", read(path)):
            imported.update(WORD.findall(m.group(1)))
    turned = {n: snake(n) for n in own if re.match(r"[a-z]", n) and re.search(r"[a-z0-9'][A-Z]", n) and "-" not in n}
    turned.update(CHOSEN)
    plain = {turned.get(n, n) for n in own if "-" not in n} | {n for n in imported if "-" not in n}
    taken = collections.Counter(turned.get(n, n) for n in own)
    # a lemma gives way to the definition
    for old, new in list(turned.items()):
        if new in own and new not in turned and old not in CHOSEN:
            turned[new] = new + "_lem"
    for name in sorted(own):
        if "-" not in name or not re.match(r"[a-z]", name):
            continue
        parts = name.split("-")
        out = snake(parts[0])
        for i, part in enumerate(parts[1:], 1):
            before = [snake("_".join(parts[j:i])) for j in range(i)]
            after = [snake("_".join(parts[i:j])) for j in range(i + 1, len(parts) + 1)]
            joins = any(b in plain for b in before) and any(a in plain for a in after)
            out += ("-" if joins else "_") + snake(part)
        if out != name:
            turned[name] = out
    done = collections.defaultdict(list)
    for n in own:
        done[turned.get(n, n)].append(n)
    for new, olds in done.items():
        if len(olds) > 1:
            for old in olds:
                if "-" in old:
                    turned[old] = new + "_lem"
    return {o: n for o, n in turned.items() if o != n}, fields, own, local


def spell(text, names, fields):
    """Turns the words of a text. A word behind a dot turns if a field is so called, or if a module stands before the dot; a module does not."""
    def word(m):
        w = m.group(0)
        if w not in names:
            return w
        before = text[:m.start()][-200:]
        in_path = re.search(r"\bRattle[\w.]*\.$", before) and text[m.end():m.end() + 1] == "."
        if in_path:
            return w
        if before.endswith("."):
            head = re.search(r"([^\s(){}.;,@\"«»]+)\.$", before)
            of_module = head and head.group(1)[:1].isupper()
            return names[w] if of_module or w in fields else w
        return names[w]
    return WORD.sub(word, text)


def spell_rt(text, names, fields):
    """A source names no lemma: what is in snake case there is a function or a field of its own, and stays."""
    camel = {o: n for o, n in names.items() if not re.fullmatch(r"[a-z_0-9]+", o)}
    return spell(text, camel, fields)


def main():
    names, fields, own, local = table()
    if "--check" in sys.argv:
        for o, n in sorted(names.items()):
            print(o, n)
        done = collections.defaultdict(list)
        for n in own:
            done[names.get(n, n)].append(n)
        for new, olds in sorted(done.items()):
            if len(olds) > 1:
                print("TOGETHER", new, olds)
        for path in files(".antt", ".rt"):
            words = set(re.findall(r"(?<![.\w'-])" + WORD.pattern, read(path)))
            for o, n in names.items():
                if o in words and n in words and n not in names:
                    print("MEETS", os.path.relpath(path, ROOT), o, n)
        return
    for path in list(files(".antt", ".rt", ".edit")):
        text = read(path)
        new = spell_rt(text, names, fields) if path.endswith(".rt") else spell(text, names, fields)
        for a, b in CRATE:
            new = re.sub(rf"\bRattle\.{a}\b", f"Rattle.{b}", new)
            new = re.sub(rf"\b{a}::", f"{b}::", new)
        for crate, a, b in MODULE:
            new = re.sub(rf"\bRattle\.{crate}\.specs\.{a}\b", f"Rattle.{crate}.specs.{b}", new)
            if f"/crates/{crate}/specs/Lib.antt" in path:
                new = re.sub(rf"\bmod {a}\b", f"mod {b}", new)
        if new != text:
            with open(path, "w", encoding="utf-8") as f:
                f.write(new)
    listed = os.path.join(ROOT, "crates.txt")
    text = read(listed)
    for a, b in CRATE:
        text = "\n".join(l if l.startswith("#") else re.sub(rf"\b{a}\b", b, l) for l in text.split("\n"))
        os.rename(os.path.join(CRATES, a), os.path.join(CRATES, b))
    with open(listed, "w", encoding="utf-8") as f:
        f.write(text)
    for crate, a, b in MODULE:
        os.rename(os.path.join(CRATES, crate, "specs", a + ".antt"), os.path.join(CRATES, crate, "specs", b + ".antt"))
    with open(os.path.join(ROOT, "tools", "respelled.tsv"), "w", encoding="utf-8") as f:
        for o, n in sorted(names.items()):
            f.write(f"{o}\t{n}\n")


main()
