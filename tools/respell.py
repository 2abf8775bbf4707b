#!/usr/bin/env python3
"""Spells the repository's own definitions and lemmas in snake case, as port.py leaves them for hand.

usage: python3 tools/respell.py            at the top of the repository, once, right after port.py
       python3 tools/respell.py --list     prints the table, old and new, and writes nothing

A name turns if a file of specs/ or proofs/ declares it and it does not begin with a capital: a definition, a lemma, a
field of a record, a constructor, a helper under `where`. `placeOf` becomes `place_of`, `first-of` `first_of`. Types and
modules keep their names, and so do the functions, fields and constants of src/, strings, and the goals and steps that
Rattle names itself, which are known by their heads or stand behind a dot in a function's own proof files.
It stops, and writes nothing, where two names would fall together or a new name stands in a file already.
"""

import os
import re
import sys

WORD = r"[^\s(){}.;,@\"«»]+"
NAMED = re.compile(rf"(?<![^\s(){{}}.;,@\"«»]){WORD}")
BARE = re.compile(rf"(?<![^\s(){{}},;@«»]){WORD}")
DECLARED = re.compile(r"(?m)^ *(?:(?:abbrev|unfoldable|pub|mutual) +)*([^\s(){}]+)((?: \{[^{}\n]*\})*) :(?= |$)")
FOR_GOALS = re.compile(r"/(Proof|Answers|Invariants)\.antt$")
# what a proof file of a function declares for Rattle: its type is one of the function's goals, or the whole statement
OF_GOAL = re.compile(r"(?m)^ *(?:(?:abbrev|pub) +)*([^\s(){}]+) : (?:tie|goal)\.|^pub (\S+-spec) :")
QUIET = re.compile(r'"(?:[^"\\\n]|\\.)*"')
CLAUSE = re.compile(r"(?:requires|ensures)\s*\*?\s*(?:\w+\s*)?\{|ghost\s*(?:\w+\s*(?::\s*)?|=\s*)?\{|ghost\s+use\b")
SPAN = re.compile(r"\x60[^\x60\n]*\x60")
# A name with dashes whose words are those of another name gets an ending; a label of the statements on the numbers of
# the list a beginning, since each of them names a number in its type.
ENDING = "_lem"
LABELS = "for_"
LABELLED = re.compile(r"/specs/Numbers\.antt$")
# What port.py has respelled already, and what would fall together with a name that turns now.
OWN = {"not_sound": "for_not_sound", "first-of": "first_of_lem", "step_by": "step_by_lem", "start-in": "start_in_lem"}


def texts(folder, ends):
    for where, folders, names in os.walk(folder):
        folders[:] = sorted(it for it in folders if it not in ("out", ".git"))
        for name in sorted(names):
            if name.endswith(ends):
                yield os.path.join(where, name)


def read(path):
    with open(path, encoding="utf-8") as f:
        return f.read()


def snake(name):
    words = re.sub(r"(?<=[a-z0-9])([A-Z])", lambda m: "_" + m[1].lower(), name)
    return words.replace("-", "_")


def table():
    """Each name that turns, with its new spelling."""
    names, labels = {}, set()
    for path in texts("crates", ".antt"):
        text = read(path)
        made = {it for m in OF_GOAL.finditer(text) for it in m.groups() if it} if FOR_GOALS.search(path) else set()
        for m in DECLARED.finditer(text):
            old = m[1]
            if old in made or old[0].isupper() or not re.match(r"[a-z]", old):
                continue
            if LABELLED.search(path) and m[0].startswith("  "):
                labels.add(old)
            if snake(old) != old:
                names[old] = snake(old)
    taken = {new for old, new in names.items() if "-" not in old}
    for old, new in names.items():
        if "-" in old and new in taken:
            names[old] = LABELS + new if old in labels else new + ENDING
    return names | OWN


def turned(text, names, made):
    """The text of antt with each word of the table turned; a word that Rattle made in this file stays."""

    def one(m):
        word = m[0]
        bare = word.rstrip("'")
        if word in made:
            return word
        return names.get(word) or (names[bare] + word[len(bare) :] if bare in names else word)

    out, at = [], 0
    for m in QUIET.finditer(text):
        out += [NAMED.sub(one, text[at : m.start()]), m[0]]
        at = m.end()
    return "".join(out + [NAMED.sub(one, text[at:])])


def clause_end(text, at):
    """Where what begins before `at` ends: at the brace that closes it, or a `use` at its semicolon."""
    if text[at - 1] != "{":
        return text.index(";", at)
    depth = 1
    while depth:
        depth += {"{": 1, "}": -1}.get(text[at], 0)
        at += 1
    return at


def turned_rt(text, names):
    """The text of a source file with the words of its clauses turned, and those in the code spans of its comments."""
    out, at = [], 0
    parts = re.compile(rf"//[^\n]*|{QUIET.pattern}|{CLAUSE.pattern}")
    while True:
        m = parts.search(text, at)
        if not m:
            return "".join(out + [text[at:]])
        out.append(text[at : m.start()])
        if m[0].startswith("//"):
            out.append(SPAN.sub(lambda s: "\x60" + turned(s[0][1:-1], names, ()) + "\x60", m[0]))
            at = m.end()
        elif m[0].startswith('"'):
            out.append(m[0])
            at = m.end()
        else:
            at = clause_end(text, m.end())
            out.append(turned(text[m.start() : at], names, ()))


def made_in(path, text):
    """The words of a function's proof file that Rattle made: the goals, and what stands behind a head of steps."""
    if not FOR_GOALS.search(path):
        return set()
    made = {it for m in OF_GOAL.finditer(text) for it in m.groups() if it}
    made |= set(re.findall(r"(?:tie|goal)\.(" + WORD + ")", text))
    return made


def main(args):
    names = table()
    if args == ["--list"]:
        print("\n".join(f"{old}\t{new}" for old, new in sorted(names.items())))
        return 0
    if args:
        print(__doc__)
        return 2
    olds = {}
    for old, new in names.items():
        olds.setdefault(new, []).append(old)
    bad = [f"{new}: {' and '.join(sorted(it))}" for new, it in sorted(olds.items()) if len(it) > 1]
    after, count = {}, 0
    for path in list(texts("crates", ".antt")) + list(texts("crates", ".rt")):
        text = read(path)
        used = set(BARE.findall(QUIET.sub(" ", text)))
        if path.endswith(".antt"):
            bad += [f"{path}: {old} and {names[old]}" for old in sorted(used) if names.get(old) in used - names.keys()]
        made = made_in(path, text)
        new = turned_rt(text, names) if path.endswith(".rt") else turned(text, names, made)
        if new != text:
            after[path] = new
    if bad and not os.environ.get("RESPELL_SHOW"):
        print("\n".join(bad))
        return 1
    print("\n".join(bad))
    for path, text in after.items():
        with open(path, "w", encoding="utf-8") as f:
            f.write(text)
    print(f"respell: {len(names)} names, {len(after)} files")
    return 0


if __name__ == "__main__":
    raise SystemExit(main(sys.argv[1:]))
