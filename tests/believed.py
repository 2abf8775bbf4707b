#!/usr/bin/env python3
"""How much has to be believed: the lines of the definitions under specs/, imports, comments and blank lines apart.

    python3 tests/believed.py          each part with its files, and the sums
    python3 tests/believed.py check    whether README.md and docs/TOUR.md give these sums, every file is in a part, and
                                       the believed ones rest on each other alone

Whoever believes the rules and the bytes and texts knows what the stepping program prints of a file: the theorems say
so; who believes the scenarios and their blocks besides knows what bin/make makes of a text. The statements are what the
theorems promise; the calls are what a caller of the library must read besides. Private definitions are cited by
contracts that no other crate can see, or by laws alone: nothing of them has to be believed.
"""

import re
import signal
import sys
from pathlib import Path

ROOT = Path(__file__).resolve().parent.parent

PARTS = {
    'rules': {
        'search': 'Words Below First Best Table',
        'numbers': 'Limits Refusals Rows Answers',
        'queue': 'Limits Waiting',
        'processors': 'Modes Words',
        'scheduler': 'Arriving Leaving PlacedTest',
        'input': 'Words Kinds',
        'setups': 'Refusals Naming Clearing',
        'protocol': 'Records Words Replies Ranks Situations Sound Refusals Locks Events',
    },
    'bytes and texts': {
        'search': 'Texts',
        'input': 'Layout',
        'blocks': 'Sizes Check Verdicts Files',
        'lines': 'Texts',
        'pages': 'Files',
    },
    'scenarios and their blocks': {
        'writer': 'Sealed Written SetupBlocks EventBlocks',
        'scenario': 'Words Arguments Items SetupItems Outcomes Drafts',
    },
    'statements': {
        'search': 'Views',
        'numbers': 'Numbered',
        'queue': 'Tidy',
        'scheduler': 'Placed',
        'setups': 'Accepted Groups Unread Numbers',
        'soundness': 'Parts',
        'protocol': 'Numbers Demands Cases Impostors',
        'blocks': 'CheckCases OneByte Numbers',
        'writer': 'RoundTrip Numbers',
        'scenario': 'Made',
        'lines': 'Values Numbers',
        'plain': 'Agreement',
        'pages': 'Program',
        'step': 'PrintedCases',
    },
    'calls': {
        'priorities': 'Bounds',
        'states': 'Holders Writing',
        'protocol': 'Edited',
        'locking': 'Playing',
        'plain': 'Orders Engine',
        'scenario': 'Faults Takings',
        'blocks': 'Kinds',
        'lines': 'Lines Buffers StateLines',
        'pages': 'Pages',
    },
    'private': {
        'scheduler': 'Changes',
        'setups': 'Sized',
        'soundness': 'Opens',
        'locking': 'Acting Edits Holding Keeping Ranking Steps Totals',
        'plain': 'Reading',
        'lines': 'Pens',
        'scenario': 'Named Reads',
    },
}
BELIEVED = ('rules', 'bytes and texts', 'scenarios and their blocks')
NO_DEFINITION = re.compile(r'(use|pub mod|unfolding|infix[lr]?) ')
IMPORT = re.compile(r'^use Rattle[.](\w+)[.]specs[.](\w+)\b', re.MULTILINE)


def lines_of(path):
    """The lines of a file of definitions that say something."""
    bare = (line.split('--')[0].strip() for line in path.read_text(encoding='utf-8').splitlines())
    return sum(1 for line in bare if line and not NO_DEFINITION.match(line))


def files_of(part):
    for crate, names in PARTS[part].items():
        for name in names.split():
            yield f'crates/{crate}/specs/{name}.antt'


def rests_on(name):
    """The files of definitions that a file of definitions imports from."""
    text = (ROOT / name).read_text(encoding='utf-8')
    for crate, module in IMPORT.findall(text):
        name = f'crates/{crate}/specs/{module}.antt'
        if module != 'declared' and (ROOT / name).is_file():    # what is not here is the toolchain's
            yield name


def total(part):
    return sum(lines_of(ROOT / name) for name in files_of(part))


def show():
    for part in PARTS:
        print(f'{part}: {total(part)}')
        for name in files_of(part):
            print(f'  {lines_of(ROOT / name):4} {name}')


def check():
    listed = [name for part in PARTS for name in files_of(part)]
    there = [str(path.relative_to(ROOT)) for path in ROOT.glob('crates/*/specs/*.antt') if path.name != 'Lib.antt']
    faults = [f'{name} is in no part' for name in sorted(set(there) - set(listed))]
    faults += [f'{name} is not there' for name in sorted(set(listed) - set(there))]
    believed = {name for part in BELIEVED for name in files_of(part)}
    faults += [f'{name} rests on {other}' for name in sorted(believed) for other in rests_on(name) if other not in believed]
    for page in ('README.md', 'docs/TOUR.md'):
        text = ' '.join((ROOT / page).read_text(encoding='utf-8').split())
        for part in BELIEVED:
            if f'{total(part)} lines of {part}' not in text:
                faults.append(f'{page} does not say {total(part)} lines of {part}')
    print('\n'.join(faults) if faults else 'the figures are right')
    return 1 if faults else 0


if __name__ == '__main__':
    signal.signal(signal.SIGPIPE, signal.SIG_DFL)   # a reader that stops early is no fault
    if sys.argv[1:] == ['check']:
        sys.exit(check())
    if sys.argv[1:]:
        sys.exit(__doc__)
    show()
