#!/usr/bin/env python3
"""Spells the repository's own definitions, lemmas and variables in snake case: turnOf becomes turn_of, natAbs-negℤ becomes nat_abs-neg_ℤ.

usage: tools/snake_case.py [FOLDER]

Run once, in the checkout that port.py has turned. In .antt files every word that begins with a small letter and has a capital behind a small letter
or a figure is turned, but for those in quotes; in .rt and .edit files only the words that the .antt files have, outside strings; in .md files the
same words between backticks. Types and modules begin with a capital and stay. It stops, and writes nothing, where a turned name would meet one that
an .antt file declares. A definition may get the name of the function of src/ whose answer it says: no clause names a function.
"""
import os
import pathlib
import re
import sys

WORD = re.compile(r'[^\s(){}\[\].;,@"«»`⌜⌝⟨⟩]+')
DECLARED = re.compile(r"^\s*(?:(?:unfoldable|abbrev|pub) )*([^\s(){}\[\].;,@\"«»`]+(?: [^\s(){}\[\].;,@\"«»`:]+)*) : ", re.M)
HUMP = re.compile(r"(?<=[^\W\d_A-Z])([A-Z])|(?<=[0-9])([A-Z])")
QUOTED = re.compile(r'"(?:[^"\\\n]|\\.)*"')
SPAN = re.compile(r"`[^`\n]+`")
LINE = re.compile(r"^(\s*--|\s*//).*$", re.M)
# Words of the formats and of mathematics that comments have.
STAY = re.compile(r"^[0-9\\/]|^Σ|^oE$|/")
# What a turned name would meet: the name that it gets in place of it.
OTHER = {
    "atPosition": "panel_at_position",
    "digitsFrom": "digits_onward",
    "eachIn": "is_each_in",
    "entryPlace": "place_of_entry",
}


def turned(word):
    if word in OTHER:
        return OTHER[word]
    return HUMP.sub(lambda m: "_" + m.group(0).lower(), word).replace("negℤ", "neg_ℤ")


def camel(word):
    return re.match(r"^[^A-Z]", word) and HUMP.search(word) and not STAY.search(word)


def unquoted(text, change):
    out, at = [], 0
    for m in QUOTED.finditer(text):
        out += [change(text[at : m.start()]), m.group(0)]
        at = m.end()
    return "".join(out + [change(text[at:])])


def main():
    root = pathlib.Path(sys.argv[1] if len(sys.argv) > 1 else ".")
    files = sorted(p for p in root.glob("crates/**/*") if p.suffix in (".antt", ".rt", ".edit") and "out" not in p.parts)
    texts = {p: p.read_text(encoding="utf-8") for p in files}
    names, declared = set(), set()
    for p, text in texts.items():
        found = set()
        unquoted(text, lambda t: (found.update(WORD.findall(t)), t)[1])
        if p.suffix == ".antt":
            declared |= {w for names_of in DECLARED.findall(text) for w in names_of.split()}
            names |= {w for w in found if camel(w)}
    table = {w: turned(w) for w in names}
    meets = sorted(f"{w} {n}" for w, n in table.items() if n in declared or [v for v in names if v != w and table[v] == n])
    if meets:
        print("a turned name meets another:", *meets, sep="\n")
        return 1

    def change(text):
        return WORD.sub(lambda m: table.get(m.group(0), m.group(0)), text)

    for p, text in texts.items():
        new = unquoted(text, change)
        if new != text:
            p.write_text(new, encoding="utf-8")
    for p in sorted(root.glob("*.md")) + sorted(root.glob("docs/*.md")):
        text = p.read_text(encoding="utf-8")
        new = SPAN.sub(lambda m: change(m.group(0)), text)
        if new != text:
            p.write_text(new, encoding="utf-8")
    print(f"{len(table)} names turned")
    return 0


sys.exit(main())
