#!/usr/bin/env python3
"""Spells what respell.py passed over in snake case: names that an import gives (`step as stepRule`), and words of comments.

usage: python3 tools/respell_rest.py        at the top of the repository, once, some time after respell.py

A word turns if it begins with a small letter and has a capital in it, in a file of specs/ or proofs/, in a clause or a
`ghost use` of a source file, and in the texts of must-fail/*.edit where it has turned elsewhere.
"""

import os
import re
import sys

sys.dont_write_bytecode = True
sys.path.insert(0, os.path.dirname(os.path.realpath(__file__)))

import respell

CAMEL = re.compile(r"(?<![\w.'-])[a-z][a-z0-9]*[A-Z][A-Za-z0-9]*(?![\w'-])")
ALIAS = re.compile(r" as ([a-z][a-z0-9]*[A-Z]\w*)")


def found():
    """The words that turn, with their new spelling."""
    words = set()
    for path in respell.texts("crates", ".antt"):
        words.update(CAMEL.findall(respell.QUIET.sub(" ", respell.read(path))))
    for path in respell.texts("crates", ".rt"):
        for use in re.findall(r"ghost use[^;]*;", respell.read(path)):
            words.update(ALIAS.findall(use))
    return {it: respell.snake(it) for it in words}


def main():
    names, count = found(), 0
    turn = lambda text: CAMEL.sub(lambda m: names.get(m[0], m[0]), text)
    for end in (".antt", ".rt", ".edit"):
        for path in respell.texts("crates", end):
            text = respell.read(path)
            used = set(re.findall(r"[\w']+", text))
            for old in sorted(set(CAMEL.findall(text)) & names.keys()):
                if names[old] in used:
                    print(f"look: {path}: {old} and {names[old]}")
            new = respell.turned_rt(text, names) if end == ".rt" else turn(text)
            if new != text:
                count += 1
                with open(path, "w", encoding="utf-8") as f:
                    f.write(new)
    print(f"respell: {', '.join(sorted(names))}; {count} files")


main()
