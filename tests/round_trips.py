#!/usr/bin/env python3
"""Holds bin/make and bin/text together with tests/scenario.py.

    python3 tests/round_trips.py [N [SEED]]    N random scenarios (200) and twice as many mutated texts
    python3 tests/round_trips.py last          the last block index, 999,999, and the one above it

Every text is given to bin/make, and what it says, what it writes and its exit
status are compared with what tests/scenario.py expects. MAKE names another
command that does the same, such as 'python3 tests/scenario.py'.
"""

import os
import random
import shlex
import shutil
import subprocess
import sys
import tempfile
import time
from itertools import zip_longest
from pathlib import Path

sys.dont_write_bytecode = True

from bad_texts import ONE, by_hand
from blocks import blocks_of, setup_of
from cases import CASES, output_of
from dump import dump_of
from model import BLOCK, LAST_BLOCK, LAST_CLOCK, LONG, MOST_RECORDS, SHORT, verdict
from scenario import MOST, WORDS, Bad, file_of, text_of

ROOT = Path(__file__).resolve().parent.parent
MAKE = shlex.split(os.environ.get('MAKE') or shlex.quote(str(ROOT / 'bin/make')))
TEXT = [str(ROOT / 'bin/text')]
LARGE = 80_000


# ---- comparing ----

class Differs(Exception):
    """What was called, and how its outcome is not the one expected."""


def outcome(command, data):
    """What a command says, what it writes, and its exit status."""
    ended = subprocess.run(command, input=data, capture_output=True, check=False)
    return ended.stderr, ended.stdout, ended.returncode


def made(text, name='standard input'):
    """The outcome that bin/make should have."""
    try:
        return b'', file_of(text), 0
    except Bad as bad:
        return f'make: {name}: '.encode() + bad.message + b'\n', b'', 1


def compare(title, command, data, expected):
    """The input and both outputs of a difference are left behind as files."""
    got = outcome(command, data)
    if got == expected:
        return
    place = Path(tempfile.mkdtemp(prefix='round_trips.'))
    for name, content in [('input', data), ('output', got[1]), ('expected', expected[1])]:
        (place / name).write_bytes(content)
    rows = [f'{title}: {shlex.join(command)}', f'  input, output and expected output are in {place}']
    if len(data) < 4000:
        rows.append(f'  the input is {data}')
    told = zip(['says', 'writes', 'ends with'], got, expected)
    for what, came, wanted in [one for one in told if one[1] != one[2]]:
        if what == 'writes':
            came, wanted = first_other(came, wanted)
        rows += [f'  it {what} {came}', f'  expected: {wanted}']
    raise Differs('\n'.join(rows))


def first_other(came, wanted):
    """The first two lines that differ in the dumps of two files, with the sizes."""
    pairs = zip_longest(dump_of(came), dump_of(wanted), fillvalue='nothing')
    one, other = next(pair for pair in pairs if pair[0] != pair[1])
    return f'{len(came)} bytes: {one}', f'{len(wanted)} bytes: {other}'


def check_file(title, data):
    """The text of a file gives the file again."""
    text = text_of(data).encode()
    compare(title, MAKE, text, (b'', data, 0))
    return text


# ---- the cases ----

def case_files():
    """Each accepted case, by its file's text and by the text that it was written as."""
    count = 0
    for one in CASES:
        if 'refused' in output_of(one.data)[-1]:
            continue
        check_file(one.title, one.data)
        count += 1
        if one.text is not None:
            compare(f'{one.title}, as written', MAKE, one.text, (b'', one.data, 0))
            count += 1
    return f'{count} texts of accepted cases'


def refused_files():
    """Of each refused case bin/text says what the stepping program says, and why."""
    count = 0
    for one in CASES:
        line = output_of(one.data)[-1]
        if 'refused' in line:
            reason = WORDS[int(line.split()[-1])]
            said = f"text: standard input: {line.replace('setup', 'set-up')}: {reason}\n"
            compare(one.title, TEXT, one.data, (said.encode(), b'', 1))
            count += 1
    return f'{count} refused cases without a text'


def calls():
    """With the name of a file, and with what cannot be read."""
    with tempfile.TemporaryDirectory() as folder:
        good, bad, none = (f'{folder}/{name}' for name in ['good', 'bad', 'none'])
        Path(good).write_bytes(ONE)
        Path(bad).write_bytes(ONE + b'pass 3\n')
        compare('a name', [*MAKE, good], b'', made(ONE))
        compare('the name of a bad text', [*MAKE, bad], b'', made(ONE + b'pass 3\n', bad))
        compare('a file as a text', TEXT, file_of(ONE), (b'', text_of(file_of(ONE)).encode(), 0))
        wrong = [[*command, *names] for command in [MAKE, TEXT] for names in [[good, bad], [none], [folder]]]
        for command in wrong:
            said, written, status = outcome(command, b'')
            if not said or written or status != 2:
                raise Differs(f'{shlex.join(command)}: ends with {status}, says {said}, writes {written}')
    return f'{3 + len(wrong)} calls, {len(wrong)} of them wrong'


# ---- random scenarios ----

def number_in(rng, least, most):
    """A number within limits, often at one of them."""
    return rng.choice([least, most, rng.randint(least, most), rng.randint(least, most)])


def random_pair(rng, kinds):
    """Two resources, no long inside a short."""
    outer, inner = rng.sample(range(len(kinds)), 2)
    return (inner, outer) if (kinds[outer], kinds[inner]) == (SHORT, LONG) else (outer, inner)


def random_setup(rng):
    periods = [number_in(rng, 1, 65_535) for _ in range(number_in(rng, 1, 32))]
    kinds = [rng.choice([SHORT, LONG]) for _ in range(number_in(rng, 0, 32))]
    pairs = [random_pair(rng, kinds) for _ in range(number_in(rng, 0, 64) if len(kinds) > 1 else 0)]
    return setup_of(number_in(rng, 1, 8), number_in(rng, 0, LAST_CLOCK), periods, kinds, pairs)


def random_event(rng):
    """Of any content, but often of a known kind, with fields of 0."""
    kind = rng.choice([rng.randint(0, 6), number_in(rng, 0, 255)])
    task, resource = (rng.choice([0, number_in(rng, 0, 255)]) for _ in range(2))
    return kind, task, resource, number_in(rng, 0, 65_535)


def random_file(rng, most):
    """A set-up and up to so many blocks, each with any number of events."""
    groups = [[random_event(rng) for _ in range(number_in(rng, 1, MOST_RECORDS))]
              for _ in range(rng.randint(0, most))]
    return b''.join(blocks_of(random_setup(rng), groups))


REMARKS = [b'#', b'# remark', b'#block', b'#\xff\x00\x0b', b'## processors 1']


def spaces(rng, least):
    return bytes(rng.choice(b' \t') for _ in range(rng.choice([least, least, rng.randint(least, 4)])))


def loose_word(rng, word):
    """The same word, now and then with zeros in front of its number."""
    sign = word[:1] if word.startswith(b'@') else b''
    digits = word.removeprefix(sign)
    zeros = rng.choice([0, 0, 0, 1, 5, 300]) if digits.isdigit() else 0
    return sign + b'0' * zeros + digits


def loose_line(rng, line):
    """The same item with other spaces, zeros, remarks and ends."""
    first, *others = [loose_word(rng, word) for word in line.split()]
    item = spaces(rng, 0) + first + b''.join(spaces(rng, 1) + word for word in others)
    remark = rng.choice(REMARKS) if rng.random() < 0.2 else b''
    return item + spaces(rng, 0) + remark + rng.choice([b'\n', b'\n', b'\r\n'])


def shuffled(rng, lines):
    """The set-up's lines in another order, tasks, resources and pairs each as they came."""
    words = [line.split()[0] for line in lines]
    queues = {word: [line for line in lines if line.split()[0] == word] for word in words}
    rng.shuffle(words)
    return [queues[word].pop(0) for word in words]


def loosely(rng, text):
    """Another text of the same file."""
    lines = text.splitlines()
    setup = [line for line in lines if line.split()[0].decode() in MOST]
    events = lines[len(setup):]
    if b'start 0' in setup and rng.random() < 0.5:
        setup.remove(b'start 0')
    parts = []
    for line in [*shuffled(rng, setup), *[b'block'] * rng.randint(0, 2), *events]:
        parts += [loose_line(rng, line)] * (rng.randint(1, 3) if line == b'block' else 1)
        if rng.random() < 0.1:
            parts.append(spaces(rng, 0) + rng.choice([b'', *REMARKS]) + b'\n')
    whole = b''.join(parts)
    return whole if rng.random() < 0.5 else whole.removesuffix(b'\n')


def random_files(rng, count):
    for n in range(1, count + 1):
        title, data = f'random scenario {n}', random_file(rng, 4)
        text = check_file(title, data)
        other = loosely(rng, text)
        if (made(text), made(other)) != ((b'', data, 0),) * 2:
            raise Differs(f'{title}: tests/scenario.py differs, without bin/make')
        compare(f'{title}, loosely written', MAKE, other, (b'', data, 0))
    return f'{2 * count} texts of random scenarios'


# ---- bad texts, and good ones close to them ----

def texts_by_hand():
    """tests/scenario.py is held to what stands there by hand, then bin/make to both."""
    texts = list(by_hand())
    for n, (text, beginning) in enumerate(texts, 1):
        expected = made(text)
        said = expected[0].removeprefix(b'make: standard input: ')
        if bool(said) != bool(beginning) or not said.startswith(beginning):
            raise Differs(f'text by hand {n}, ..{text[-300:]}: tests/scenario.py says {said} for {beginning}')
        compare(f'text by hand {n}', MAKE, text, expected)
    return f'{len(texts)} texts by hand, {sum(bool(told) for _, told in texts)} of them bad'


OTHER_WORDS = [b'', b'0', b'255', b'256', b'65535', b'65536', b'4294967295', b'4294967296', b'@0', b'@65536', b'@',
               b'short', b'long', b'x', b'block', b'task', b'processors', b'#', b'-1', b'1 1', b'\r', b'\n']


def other_bytes(rng, text):
    """One to two bytes left out, or one in their place, or one put in."""
    at = rng.randrange(len(text))
    new = rng.choice([b'', bytes([rng.randrange(256)]), bytes([rng.choice(b' \t\r\n#@0123456789')])])
    return text[:at] + new + text[at + rng.randint(0, 2):]


def other_word(rng, text):
    lines = text.split(b'\n')
    n = rng.randrange(len(lines))
    words = lines[n].split(b' ')
    words[rng.randrange(len(words))] = rng.choice(OTHER_WORDS)
    lines[n] = b' '.join(words)
    return b'\n'.join(lines)


def other_lines(rng, text):
    """Two swapped, one doubled elsewhere, or one left out."""
    lines = text.split(b'\n')
    one, other = rng.randrange(len(lines)), rng.randrange(len(lines))
    change = rng.randrange(3)
    if change == 0:
        lines[one], lines[other] = lines[other], lines[one]
    elif change == 1:
        lines.insert(other, lines[one])
    else:
        del lines[one]
    return b'\n'.join(lines)


def mutated(rng):
    """A good text with one to three changes, some only in its beginning, the set-up."""
    text = text_of(random_file(rng, 1)).encode()
    text = rng.choice([text, text, loosely(rng, text)])
    text = text[:rng.choice([len(text), 400])]
    for _ in range(rng.randint(1, 3)):
        if text:
            text = rng.choice([other_bytes, other_word, other_lines])(rng, text)
    return text


def mutated_texts(rng, count):
    bad = 0
    for n in range(1, count + 1):
        text = mutated(rng)
        expected = made(text)
        bad += expected[2]
        compare(f'mutated text {n}', MAKE, text, expected)
    return f'{count} mutated texts, {bad} of them bad'


# ---- large ones ----

def large(rng):
    events = [random_event(rng) for _ in range(LARGE)]
    groups = [events[at:at + MOST_RECORDS] for at in range(0, LARGE, MOST_RECORDS)]
    data = b''.join(blocks_of(random_setup(rng), groups))
    text = text_of(data).encode()
    before = time.monotonic()
    compare('a large scenario', MAKE, text, (b'', data, 0))
    spent = time.monotonic() - before
    return f'{LARGE} events in {len(text)} bytes of text, made in {spent:.2f} seconds'


def last_block():
    """Blocks of one event each: as many as there may be, and one more."""
    text = ONE + b'pass @7\nblock\n' * LAST_BLOCK
    with tempfile.TemporaryFile() as file:
        ended = subprocess.run(MAKE, input=text, stdout=file, stderr=subprocess.PIPE, check=False)
        size = file.seek(0, os.SEEK_END)
        if ended.stderr or ended.returncode or size != BLOCK * (LAST_BLOCK + 1):
            raise Differs(f'{LAST_BLOCK} blocks of events: {size} bytes, says {ended.stderr}')
        for index in [0, 1, 255, 256, 65_535, 65_536, LAST_BLOCK]:
            file.seek(BLOCK * index)
            if verdict(file.read(BLOCK), index):
                raise Differs(f'{LAST_BLOCK} blocks of events: block {index} is refused')
    compare('a block too many', MAKE, text + b'pass @7\n', made(text + b'pass @7\n'))
    return f'{LAST_BLOCK} blocks of events made, one more refused'


def tell(parts):
    """Each part's count, up to the first difference; the exit status."""
    print(shlex.join(MAKE))
    for part, *arguments in parts:
        try:
            print(part(*arguments), flush=True)
        except Differs as differs:
            print(differs)
            return 1
    print('no difference')
    return 0


def is_built():
    """A first call may build the program, and says so; later ones say nothing more."""
    return subprocess.run(MAKE, input=ONE, stdout=subprocess.DEVNULL, check=False).returncode == 0


def main(words):
    if shutil.which(MAKE[0]) is None:
        print(f'there is no command {MAKE[0]}; MAKE may name another', file=sys.stderr)
        return 2
    if words != ['last'] and (len(words) > 2 or not all(word.isdecimal() for word in words)):
        print(__doc__, file=sys.stderr)
        return 2
    if not is_built():
        return 2
    if words == ['last']:
        return tell([(last_block,)])
    count, seed = [int(word) for word in words] + [200, 1][len(words):]
    rng = random.Random(seed)
    print(f'seed {seed}')
    return tell([(case_files,), (refused_files,), (calls,), (texts_by_hand,), (random_files, rng, count),
                 (mutated_texts, rng, 2 * count), (large, rng)])


if __name__ == '__main__':
    sys.exit(main(sys.argv[1:]))
