#!/usr/bin/env python3
"""Takes `if◌then◌else◌` from the library's Prelude in every file, in place of the crate search's own, which said the same.

usage: python3 tools/library_words.py        at the top of the repository, once
"""

import os
import re
import sys

sys.dont_write_bytecode = True
sys.path.insert(0, os.path.dirname(os.path.realpath(__file__)))

import respell

WORD = "if◌then◌else◌"
OURS = re.compile(r"((?:ghost )?use) Rattle\.search\.specs\.Words\.\{([^}]*)\}(;?)\n")
PRELUDE = re.compile(r"(use Rattle\.std\.(?:specs\.Prelude|proofs\.Common)\.\{)([^}]*)\}")


def turned(text):
    m = OURS.search(text)
    if not m or WORD not in m[2]:
        return text
    names = [it for it in m[2].split(", ") if it != WORD]
    line = f"{m[1]} Rattle.search.specs.Words.{{{', '.join(names)}}}{m[3]}\n" if names else ""
    text = text[: m.start()] + line + text[m.end() :]
    prelude = PRELUDE.search(text)
    if prelude and "specs.Prelude" in prelude[1]:
        return text[: prelude.end() - 1] + ", " + WORD + text[prelude.end() - 1 :]
    return text[: m.start()] + f"{m[1]} Rattle.std.specs.Prelude.{{{WORD}}}{m[3]}\n" + text[m.start() :]


def main():
    count = 0
    for end in (".antt", ".rt"):
        for path in respell.texts("crates", end):
            text = respell.read(path)
            new = turned(text)
            if path.endswith("search/specs/Words.antt"):
                new = re.sub(r"infixr 4 if◌then◌else◌\n", "", new)
                new = re.sub(r"abbrev pub if◌then◌else◌.*\n.*\n\n", "", new)
            if new != text:
                count += 1
                with open(path, "w", encoding="utf-8") as f:
                    f.write(new)
    print(f"library words: {count} files")


main()
