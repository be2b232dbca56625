#!/usr/bin/env python3
"""Respells the repository's own names as today's Rattle spells them: words in snake case, types and modules in camel case.

usage: python3 tools/names.py [FOLDER]     at the top of a checkout, after port.py: rewrites the files in place, once
       python3 tools/names.py --list       prints each name it would change, and each that would fall together with another

It changes names in specs/, proofs/, must-fail/ and the clauses of src/ that begin with a small letter and go on with a
capital one, as `groupSize`, and the same names in README.md and docs/. Functions of src/, exported C names, strings, inputs
and outputs have no such names and stay.
"""

import os
import re
import sys

# A word of a name, up to a hyphen, a dot, a bracket or a space.
WORD = re.compile(r"(?<![A-Za-z0-9_'\u2080-\u2089])[a-z][a-z0-9_]*(?:[A-Z][a-z0-9_\u2080-\u2089]*)+'*(?![A-Za-z0-9_])")
# Words that a script before this one left, and that the library spells in its own way.
OTHER = {"getD": "get_or", "nonNeg": "non_neg"}
# Lemmas of which port.py made the name that a definition of theirs now has: they end in _lem.
LEMMAS = {"is_member": r"proofs/(?:Equal|FirstRows|Completion|Bare|Accepted|Arranging|Making|Keeping|Firsts)\.antt", "chain_fits": r"windows/proofs/", "split_text": r"answers/proofs/"}


def respelled(word):
    if word in OTHER:
        return OTHER[word]
    return re.sub(r"(?<=[a-z0-9])[A-Z]|(?<=[A-Z])[A-Z](?=[a-z])", lambda m: "_" + m.group(0).lower(), word)


def crate_files(root):
    for folder, dirs, files in os.walk(os.path.join(root, "crates")):
        dirs[:] = sorted(d for d in dirs if d != "out")
        for name in sorted(files):
            if name.endswith((".rt", ".antt", ".edit")):
                yield os.path.join(folder, name)


def pages(root):
    for folder, dirs, files in os.walk(os.path.join(root, "docs")):
        dirs[:] = sorted(dirs)
        for name in sorted(files):
            if name.endswith(".md") and not name.startswith("PORT"):
                yield os.path.join(folder, name)
    yield os.path.join(root, "README.md")


def text_of(path):
    with open(path, encoding="utf-8") as f:
        return f.read()


def main():
    args = [a for a in sys.argv[1:] if a != "--list"]
    root = args[0] if args else "."
    renamed = {}
    kept = set()
    for path in crate_files(root):
        text = text_of(path)
        for m in WORD.finditer(text):
            renamed[m.group(0)] = respelled(m.group(0))
        kept.update(re.findall(r"[a-z][a-z0-9]*(?:_[a-z0-9]+)+'*", text))
    if "--list" in sys.argv:
        for old, new in sorted(renamed.items()):
            print(old, new, "FALLS TOGETHER" if new in kept else "")
        for new in {n for n in renamed.values() if list(renamed.values()).count(n) > 1}:
            print("TWO", new, [o for o, n in renamed.items() if n == new])
        return
    for path in crate_files(root):
        text = text_of(path)
        for name, where in LEMMAS.items():
            if re.search(where, path):
                text = re.sub(r"(?<![\w'.-])" + name + r"(?![\w'-])", name + "_lem", text)
        turned = WORD.sub(lambda m: renamed[m.group(0)], text)
        if turned != text_of(path):
            with open(path, "w", encoding="utf-8") as f:
                f.write(turned)
    for path in pages(root):
        text = text_of(path)
        turned = WORD.sub(lambda m: renamed.get(m.group(0), m.group(0)), text)
        if turned != text:
            with open(path, "w", encoding="utf-8") as f:
                f.write(turned)


main()
