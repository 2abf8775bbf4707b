"""Counts, in the code of every crate, the places that docs/DESIGN-PASS.md speaks of: python3 tools/places.py [FOLDER] [-v].

It goes by the text alone. With -v it prints each place."""
import collections
import pathlib
import re
import sys

args = [a for a in sys.argv[1:] if a != '-v']
root = pathlib.Path(args[0] if args else '.')
loud = '-v' in sys.argv
files = {p: re.sub(r'//[^\n]*', '', p.read_text()) for p in sorted(root.glob('crates/*/src/*.rt'))}
name = lambda p: f'{p.parts[-3]}/{p.stem}'
functions = []
for path, text in files.items():
    for m in re.finditer(r'\n *(?:pub )?fn (\w+)(<[^(]*>)?\((.*?)\n( *)\}\n', text + '\n', re.S):
        head, _, body = m.group(0).partition('{\n' if ' requires' not in m.group(0) and ' ensures' not in m.group(0) else '\n{\n')
        functions.append((name(path), m.group(1), head, body))


def show(title, places):
    print(f'{title}: {len(places)}')
    if loud:
        for place in places:
            print('   ', place)


# 1: sets of numbers for kinds; types with a flag or a number of the list beside a value; functions that give a number.
sets = []
for path, text in files.items():
    runs = re.findall(r'(?:^ *(?:pub )?const \w+: (?:u8|usize) = \d+;\n(?: *\n)*)+', text, re.M)
    sets += [f'{name(path)}: ' + ', '.join(re.findall(r'const (\w+)', run)) for run in runs if run.count('const') > 1]
show('1 numbers in a row under names', sets)
flags = r'\b(answer|number|right|passes|refused|over|sized|started|arrived)\b: (?:u8|bool)'
shapes = []
for path, text in files.items():
    for m in re.finditer(r'(struct|enum) (\w+)[^{;]*\{(.*?)\n\}', text, re.S):
        if re.search(flags, m.group(3)) or re.search(r'\b(Refused|Wrong|Faulty)\(', m.group(3)):
            shapes.append(f'{name(path)}: {m.group(2)}')
show('1 types with a flag or a number beside a value', shapes)
gives = [f'{f}: {n}' for f, n, head, body in functions if re.search(r'-> u8', head)
         and re.search(r'judge|refusal|write_|number_of|rows?$|misfit|judge_', n)]
show('1 functions that return a refusal as a number', gives)
tests = [f'{name(p)}: {m}' for p, t in files.items() for m in re.findall(r'.*\b(?:answer|refusal|number|wrong)\b (?:==|!=) 0.*', t)]
show('1 tests of such a number against 0', [' '.join(t.split()) for t in tests])
chains = [f'{name(p)}: {" ".join(m.split())}' for p, t in files.items() for m in re.findall(r'^.*if \w+(?:\.\w+)? == [A-Z]\w*(?:::)?[A-Z_]* \{', t, re.M)]
show('1 tests of a kind by its number', chains)

# 2: bodies that are the same but for names of things, types and numbers.
keep = {'if', 'else', 'for', 'in', 'let', 'mut', 'while', 'match', 'return', 'as', 'len', 'true', 'false', 'Ok', 'Err', 'Some', 'None'}
bare = collections.defaultdict(list)
for f, n, head, body in functions:
    if f.startswith(('edges', 'timing')) or len(body.split()) < 6:
        continue
    skeleton = re.sub(r'\w+', lambda m: m.group(0) if m.group(0) in keep else 'x', re.sub(r'(\w+::)+', '', body))
    bare[re.sub(r'\s+', ' ', skeleton)].append(f'{f}: {n}')
show('2 groups of functions with one skeleton', [' | '.join(g) for g in bare.values() if len(g) > 1])

# 3: loops.
loops = [(name(p), m.start(), m.group(0).strip(), t) for p, t in files.items() for m in re.finditer(r'^ *(?:for|while) .*\{$', t, re.M)]
show('3 while loops', [f'{f}: {line}' for f, _, line, _ in loops if line.startswith('while')])
show('3 for loops over a range', [f'{f}: {line}' for f, _, line, _ in loops if re.search(r' in .*\.\.', line)])
show('3 .. that count down by hand', [f'{name(p)}: {m.strip()}' for p, t in files.items() for m in re.findall(r'.*- 1 - n\b.*', t)])
show('3 .. that keep one truth value', [f'{name(p)}: {m.strip()}' for p, t in files.items() for m in re.findall(r'^ *(?:ok = ok|some = some|same = same|empty = empty)\b.*', t, re.M)])

# 4: equality, conversion and printing by hand.
show('4 comparisons written out', [f'{f}: {n}' for f, n, h, b in functions if re.search(r'^(is_same|same\w*|are_same|is_word)$', n)])
show('4 conversions by remainder, and of truth values', [f'{name(p)}: {m.strip()}' for p, t in files.items() for m in re.findall(r'.*(?:% 256\) as u8|% 65536\) as u16|256 \* \(|65536 \* \(|\{ 1 \} else \{ 0 \}).*', t)])
show('4 printing written out', [f'{f}: {n}' for f, n, h, b in functions if re.search(r'^(put_digit|put_digits|put_number|say_reason|say_refused|say_line)$', n)])

# 5: a fact in three or more contracts of a crate; parameters that travel together in three or more functions.
facts = collections.defaultdict(set)
for f, n, head, body in functions:
    for m in re.findall(r'requires \{(.*?)\}\n', head, re.S):
        for fact in re.split(r'×', m):
            facts[f.split('/')[0], re.sub(r'[()\s]+', ' ', fact).strip()].add(n)
show('5 facts required by three or more functions', [f'{c}: {fact} ({len(ns)})' for (c, fact), ns in facts.items() if len(ns) > 2])
pairs = collections.defaultdict(set)
for f, n, head, body in functions:
    params = sorted(set(re.findall(r'(\w+): (?!\{)', head.split(')\n')[0].split(') ->')[0].split('\n    requires')[0])) - {'rt', 'out', 'from'})
    for i, a in enumerate(params):
        for b in params[i + 1:]:
            pairs[f.split('/')[0], a, b].add(n)
show('5 pairs of parameters in four or more functions', [f'{c}: {a}, {b} ({len(ns)})' for (c, a, b), ns in pairs.items() if len(ns) > 3])

# 6: an array with a count beside it; 7: a flag that chooses what is done.
show('6 arrays with a count beside them', [f'{name(p)}: {s}' for p, t in files.items() for s, b in re.findall(r'struct (\w+)[^{;]*\{(.*?)\n\}', t, re.S)
     if re.search(r'\[.*;', b) and re.search(r'\b(len|depth|pending|count|processors|pairs): usize', b)])
show('6 parameters: an array and its depth or count', [f'{f}: {n}' for f, n, h, b in functions if re.search(r'\b(depth|count|len): usize', h) and re.search(r': &?(\'a )?\[.*;', h)])
show('7 parameters that choose what is done', [f'{f}: {n}' for f, n, h, b in functions if re.search(r'\b(first|plain|past|sound|lost|won|bars|applies|passes): bool|turn: u8|side: usize|which: u64', h)])

# 8: proofs.
proofs = [p for p in root.glob('crates/*/proofs/**/*.antt')]
print(f'8 proof files: {len(proofs)}, lines: {sum(len(p.read_text().splitlines()) for p in proofs)}')
