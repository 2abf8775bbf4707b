#!/usr/bin/env python3
"""The edge cases of document 01 and of tickets 2 and 3, with what is expected of each.

    python3 tests/cases.py list     number and title of each case
    python3 tests/cases.py write    write the programs' inputs and outputs
    python3 tests/cases.py check    compare them with what would be written

Each case is checked three ways: the lines written here by hand, the model of
tests/model.py, and, where it names a slip, that the slip's line first differs at the
event or the task named. The written files hold the model's output once these agree.

A play is the part of a scenario behind the set-up, as tests/scenario.py reads it
and bin/make too. What is expected by hand stands in remarks that begin with `#=`:
behind an event its answer and places, on a line of its own a line of the output
as it stands. Another remark may follow behind `#`.
"""

import io
import sys
from pathlib import Path

sys.dont_write_bytecode = True

import calls
import slips
import timing
from blocks import block_of, blocks_of, record, setup
from model import (BLOCK, CHECK_AT, HEAD, KINDS_AT, PAIRS_AT, PASS, PERIODS_AT, SETUP_BYTES, Session,
                   check_of, printed, verdict)
from scenario import EVENT_KINDS, Reader, file_of, setup_lines

ROOT = Path(__file__).resolve().parent.parent

# Places in a block, for faults.
NUMBER, KIND, COUNT = 0, 2, 3
PROCESSORS, TASKS, RESOURCES, PAIR_COUNT = HEAD, HEAD + 1, HEAD + 2, HEAD + 3
PERIODS, KINDS, PAIRS, REST = HEAD + PERIODS_AT, HEAD + KINDS_AT, HEAD + PAIRS_AT, HEAD + SETUP_BYTES


# ---- faults, applied to the blocks in the order given ----

def put(n, at, *values):
    """Other bytes in block n, and a check that is right for them."""
    def fault(blocks):
        block = bytearray(blocks[n])
        block[at:at + len(values)] = bytes(values)
        blocks[n] = bytes(block[:CHECK_AT]) + check_of(block)
    return fault


def spoil(n, at, *values):
    """Other bytes in block n, and the check left as it was."""
    def fault(blocks):
        block = bytearray(blocks[n])
        block[at:at + len(values)] = bytes(values)
        blocks[n] = bytes(block)
    return fault


def cut(n, length):
    """The input ends after so many bytes of block n."""
    def fault(blocks):
        blocks[n:] = [blocks[n][:length]]
    return fault


def extra(*values):
    """So many bytes more at the end of the input."""
    def fault(blocks):
        blocks.append(bytes(values))
    return fault


# ---- cases ----

class Case:
    def __init__(self, title, given, play, faults, moved, told):
        self.title = title
        self.moved = moved      # kinds of event in which a link moves from q to k
        self.slips = told       # slip: where its line first differs, an event's number or 'task T'
        groups, self.places, self.lines = parsed(given, play)
        blocks = blocks_of(given, groups)
        for fault in faults:
            fault(blocks)
        self.data = b''.join(blocks)
        self.text = None        # of an accepted file as it was meant
        if not faults and given.refusal() == 0:
            self.text = '\n'.join([*setup_lines(given), play]).encode()
            assert file_of(self.text) == self.data, title


def parsed(given, play):
    """The events by block, the expected places by event number, the expected lines."""
    reader, places, lines, number = Reader(given), {}, [], 0
    for line in play.splitlines():
        item = reader.take(line.encode())
        number += item not in (None, 'block')
        expected = expected_in(line)
        if expected and item:
            places[number] = f'{number} {expected}'
        elif expected:
            lines.append(expected)
    reader.end()
    return reader.groups, places, lines


def expected_in(line):
    """What stands behind `#=` in a line's remark, up to a further one."""
    remark = line.partition('#')[2]
    return ' '.join(remark[1:].partition('#')[0].split()) if remark.startswith('=') else ''


CASES = []


def case(title, given, play, faults=(), moved=None, told=None):
    CASES.append(Case(title, given, play, faults, moved, told or {}))


def output_of(data, session_of=Session):
    return list(printed(io.BytesIO(data), session_of))


def named_lines(lines):
    """The event lines by event number, then the task lines by 'task T'."""
    named = {}
    for line in lines:
        first, second = line.split()[:2]
        if first.isdigit():
            named[int(first)] = line
        elif first == 'task':
            named[f'task {second}'] = line
    return named


def judged(one):
    """The output of a case, once all that is written of it by hand agrees."""
    sessions = []

    def kept(payload):
        sessions.append(Session(payload))
        return sessions[0]
    output = output_of(one.data, kept)
    got = named_lines(output)
    for number, line in one.places.items():
        assert got.get(number) == line, f'{one.title}: {got.get(number)} for {line}'
    for line in one.lines:
        assert line in output, f'{one.title}: no line {line}'
    refused = [line for line in output if 'refused' in line]
    assert refused == [line for line in one.lines if 'refused' in line], one.title
    assert refused in ([], output[-1:]), f'{one.title}: a refusal is the last line'
    if one.moved is not None:
        assert sessions[0].moved_by == [EVENT_KINDS[word] for word in one.moved.split()], one.title
    for slip, place in one.slips.items():
        other = named_lines(output_of(one.data, slip))
        first = next((name for name in got if other.get(name) != got[name]), None)
        assert first == place, f'{one.title}: {slip.__name__} first differs at {first}'
    return output


def stored():
    """The files to store, by their place under the root."""
    stdin, stdout = b'', ''
    for n, one in enumerate(CASES, 1):
        stdin += len(one.data).to_bytes(4, 'little') + one.data
        lines = judged(one)
        events = sum(line.split()[0].isdigit() for line in lines)
        stdout += '\n'.join([f'case {n}', *lines, calls.written_again(one.data), calls.alike(one.data, events)]) + '\n'
    assert judged(CASES[0]) == PRINTED.split('\n')[1:-1]
    return {
        'crates/edges/stdin': stdin,
        'crates/edges/stdout': (stdout + calls.expected()).encode(),
        'crates/step/stdin': CASES[0].data,
        'crates/step/stdout': PRINTED[1:].encode(),
        'crates/timing/stdin': timing.given(timed_blocks(), ORDERS),
        'crates/timing/stdout': timing.expected(timed_blocks(), ORDERS).encode(),
        'crates/make/stdin': EVERY_ITEM,
        'crates/make/stdout': file_of(EVERY_ITEM),
    }


# What crates/timing calls: each of its calls, nothing, and a call no times.
ORDERS = [(timing.STEPS, 1), (timing.TESTS, 1), (timing.CHECKS, 1), (timing.VERDICTS, 1), (b'n', 1),
          (timing.STEPS, 0)]


def timed_blocks():
    """The printed case in two blocks, so late that the clock can go on by 91 ticks after the first."""
    play = '''
    arrive 0      @65436  #= 0 0/0 -/-
    arrive 1      @65438  #= 0 0/0 1/1
    request 1 0   @65441  #= 0 0/0 1/1
    arrive 2      @65444  #= 0 0/0 2/1
    block
    request 0 0   @65446  #= 0 0/0 2/1
    complete 1 0  @65451  #= 0 0/0 2/2
    finish 1      @65451  #= 19 0/0 2/2
    finish 2      @65454  #= 0 0/0 1/1
    '''
    one = Case('timing', setup(2, [100, 200, 50], 'short', start=4294967196), play, (), None, {})
    judged(one)
    return [one.data[at:at + BLOCK] for at in range(0, len(one.data), BLOCK)]


# A scenario with every item, lines of both ends, tabs, remarks, and an event that the rules would refuse.
EVERY_ITEM = b'''\
# The set-up.
processors 2
start 65530\r
task 100
\ttask\t200
task 0050      # leading zeros count for nothing
resource short
resource short#a remark needs no space before it
resource long
pair 0 1

arrive 0 @65530
request 1 0 @65535
complete 1 0 @9
finish 2 @12
block
pass @20
event 7 1 2 @5
block
block'''


def judge_indexes():
    """Places that no short file reaches: the number's wrap and the last index."""
    def event_block(number):
        return block_of(number, 2, 1, record(PASS, 0, 0, 0))
    assert verdict(event_block(65_535), 65_535) == 0
    assert verdict(event_block(0), 65_536) == 0
    assert verdict(event_block(1), 65_536) == 32
    assert verdict(event_block(999_999), 999_999) == 0
    assert verdict(event_block(1_000_000), 1_000_000) == 32
    assert verdict(event_block(1_000_000)[:-1], 1_000_000) == 30


def judge_printed():
    """The scenario in docs/ is that of the printed case, and README.md shows it."""
    text = (ROOT / 'docs/printed.scenario').read_bytes()
    assert file_of(text) == CASES[0].data
    shown = ''.join(f'    {line}'.rstrip() + '\n' for line in text.decode().splitlines())
    assert shown in (ROOT / 'README.md').read_text(encoding='utf-8')


def main(command):
    judge_indexes()
    judge_printed()
    files = stored()
    differing = 0
    if command == 'list':
        for n, one in enumerate(CASES, 1):
            print(n, one.title)
        return 0
    for place, content in files.items():
        path = ROOT / place
        if command == 'write':
            path.parent.mkdir(parents=True, exist_ok=True)
            path.write_bytes(content)
        elif not path.is_file() or path.read_bytes() != content:
            print(f'{place} differs')
            differing += 1
    print(f'{len(CASES)} cases, {differing} of {len(files)} files differ')
    return 1 if differing else 0


# =====================================================================
# The worked cases P1 to P12
# =====================================================================

# Copied by hand from document 01's section Printing; by ticket 2 each task line ends in one more 0.
PRINTED = '''
processors 2 tasks 3 start 65530
1 0 0/0 -/-
2 0 0/0 1/1
3 0 0/0 1/1
4 0 0/0 2/1
5 0 0/0 2/1
6 0 0/0 2/2
7 19 0/0 2/2
8 0 0/0 1/1
task 0 13 5 0 0 0 0
task 1 13 0 0 3 0 0
task 2 3 0 7 0 0 0
'''

case('P1 to P8: the printed case',
     setup(2, [100, 200, 50], 'short', start=65530), '''
     arrive 0      @65530
     arrive 1      @65532
     request 1 0   @65535
     arrive 2      @2
     request 0 0   @4
     complete 1 0  @9
     finish 1      @9
     finish 2      @12
     ''', told={slips.PreemptsRunning: 4, slips.TellsAllSuspended: 7})

case('P9: a finish moves the link of the job linked to q, after step 4 of the printed case',
     setup(2, [100, 200, 50], 'short', start=65530), '''
     arrive 0      @65530  #= 0 0/0 -/-
     arrive 1      @65532  #= 0 0/0 1/1
     request 1 0   @65535  #= 0 0/0 1/1
     arrive 2      @2      #= 0 0/0 2/1
     finish 0      @4      #= 0 2/2 1/1
     #= task 0 10 0 0 0 0 0
     #= task 1 8 0 0 0 0 0
     #= task 2 0 0 2 0 0 0
     ''', moved='finish', told={slips.StaysOnQ: 5})

case('P10: the holder of a long inherits, and the lock passes on with its completion',
     setup(1, [300, 100, 200], 'long'), '''
     arrive 0      @0   #= 0 0/0
     request 0 0   @0   #= 0 0/0
     arrive 1      @10  #= 0 1/1
     request 1 0   @10  #= 0 0/0
     arrive 2      @20  #= 0 0/0
     complete 0 0  @25  #= 0 1/1
     #= task 0 25 0 0 0 0 0
     #= task 1 0 0 0 0 15 0
     #= task 2 0 0 0 5 0 0
     ''')

# As docs/RULES.md has it. Task 1's deadline is the earliest throughout, so that all its wait is direct blocking.
case('P10: the same, completed at the tick of the last arrival',
     setup(1, [300, 100, 200], 'long'), '''
     arrive 0      @0   #= 0 0/0
     request 0 0   @0   #= 0 0/0
     arrive 1      @10  #= 0 1/1
     request 1 0   @10  #= 0 0/0
     arrive 2      @20  #= 0 0/0
     complete 0 0  @20  #= 0 1/1
     #= task 0 20 0 0 0 0 0
     #= task 1 0 0 0 0 10 0
     #= task 2 0 0 0 0 0 0
     ''')

case('P11: a step of 32,767 is accepted',
     setup(1, [10]), '''
     pass  @32767  #= 0 -/-
     pass  @65534  #= 0 -/-
     ''')

case('P11: a step of 32,768 gives 14 and moves nothing, the clock included',
     setup(1, [10]), '''
     pass  @32768  #= 14 -/-
     pass  @32767  #= 0 -/-
     pass  @65535  #= 14 -/-
     ''')

case('P12: pairs (2,1) and (1,0), all short, make one group',
     setup(2, [100, 200], 'short short short', [(2, 1), (1, 0)]), '''
     arrive 0      @0  #= 0 0/0 -/-
     arrive 1      @0  #= 0 0/0 1/1
     request 0 2   @1  #= 0 0/0 1/1
     request 0 0   @1  #= 0 0/0 1/1   # same group: granted at once, not 23
     request 1 1   @2  #= 0 0/0 1/1   # the same lock: spins
     complete 1 1  @3  #= 20 0/0 1/1
     complete 0 0  @4  #= 0 0/0 1/1   # inner: the lock is kept
     complete 1 1  @5  #= 20 0/0 1/1
     complete 0 2  @6  #= 0 0/0 1/1
     complete 1 1  @7  #= 0 0/0 1/1
     #= task 0 7 0 0 0 0 0
     #= task 1 3 4 0 0 0 0
     ''')

# =====================================================================
# Groups
# =====================================================================

case('groups: without pairs the same resources are groups alone',
     setup(2, [100, 200], 'short short short'), '''
     arrive 0      @0  #= 0 0/0 -/-
     arrive 1      @0  #= 0 0/0 1/1
     request 0 2   @1  #= 0 0/0 1/1
     request 0 0   @1  #= 23 0/0 1/1
     request 1 1   @2  #= 0 0/0 1/1
     complete 1 1  @3  #= 0 0/0 1/1
     ''')

case('groups: pairs of a long outer and a short inner join nothing',
     setup(1, [100], 'long short short', [(0, 1), (0, 2)]), '''
     arrive 0      @0  #= 0 0/0
     request 0 0   @0  #= 0 0/0
     request 0 1   @0  #= 0 0/0
     request 0 2   @0  #= 23 0/0
     ''')

case('groups: one outer joins its inner resources to each other',
     setup(1, [100], 'short short short', [(0, 1), (0, 2)]), '''
     arrive 0      @0  #= 0 0/0
     request 0 1   @0  #= 0 0/0
     request 0 2   @0  #= 0 0/0
     ''')

case('groups: two chains meet in a later pair, and a pair may stand twice',
     setup(1, [100], 'long long long long', [(3, 2), (3, 2), (1, 0), (2, 1)]), '''
     arrive 0      @0  #= 0 0/0
     request 0 3   @0  #= 0 0/0
     request 0 0   @0  #= 0 0/0
     request 0 1   @0  #= 0 0/0
     ''')

# =====================================================================
# Set-ups, and the block 0 that carries them
# =====================================================================

WIDE = [1000 + t for t in range(32)]

case('set-up: block 0 alone prints the first line and the task lines',
     setup(3, [5, 6], start=4294967295), '''
     #= processors 3 tasks 2 start 4294967295
     #= task 0 0 0 0 0 0 0
     #= task 1 0 0 0 0 0 0
     ''')

case('set-up: one processor, one task, no resource',
     setup(1, [1]), '''
     arrive 0     @0  #= 0 0/0
     request 0 0  @0  #= 12 0/0
     finish 0     @1  #= 0 -/-
     arrive 0     @1  #= 0 0/0
     finish 0     @3  #= 0 -/-
     #= task 0 3 0 0 0 0 0
     ''')

case('set-up: counts at their upper limits are accepted',
     setup(8, WIDE, 'short ' * 32, [(1, 0)] * 64), '''
     #= processors 8 tasks 32 start 0
     arrive 31      @0  #= 0 31/31 -/- -/- -/- -/- -/- -/- -/-
     request 31 31  @0  #= 0 31/31 -/- -/- -/- -/- -/- -/- -/-
     ''')

for name, place, count in [
        ('processors 0', PROCESSORS, 0), ('processors 9', PROCESSORS, 9),
        ('tasks 33', TASKS, 33), ('tasks 255', TASKS, 255),
        ('resources 33', RESOURCES, 33), ('pairs 65', PAIR_COUNT, 65)]:
    case(f'set-up: {name}, all else right, gives 1',
         setup(8, WIDE, 'short ' * 32, [(1, 0)] * 64), '#= setup refused 1',
         faults=[put(0, place, count)])

case('set-up: tasks 0 gives 1',
     setup(1, []), '#= setup refused 1')

case('set-up: a period of 0 gives 2',
     setup(1, [5, 0, 5]), '#= setup refused 2')

case('set-up: a kind of 2 gives 3',
     setup(1, [5], 'short long'), '#= setup refused 3', faults=[put(0, KINDS + 1, 2)])

case('set-up: an outer resource not in the table gives 4',
     setup(1, [5], 'short long', [(2, 1)]), '#= setup refused 4')

case('set-up: an inner resource not in the table gives 4',
     setup(1, [5], 'short long', [(1, 0), (1, 2)]), '#= setup refused 4')

case('set-up: a pair that names one resource twice gives 4',
     setup(1, [5], 'short long', [(1, 1)]), '#= setup refused 4')

case('set-up: a pair without any resource in the table gives 4',
     setup(1, [5], '', [(0, 1)]), '#= setup refused 4')

case('set-up: a pair that puts a long inside a short gives 5',
     setup(1, [5], 'short long', [(0, 1)]), '#= setup refused 5')

case('set-up: 1 to 5 at once give 1',
     setup(9, [0], 'short long short', [(0, 1), (1, 1)]), '#= setup refused 1',
     faults=[put(0, KINDS + 2, 255)])

case('set-up: 2 to 5 at once give 2',
     setup(1, [5, 0], 'short long short', [(0, 1), (1, 1)]), '#= setup refused 2',
     faults=[put(0, KINDS + 2, 255)])

case('set-up: 3 to 5 at once give 3',
     setup(1, [5, 5], 'short long short', [(0, 1), (1, 1)]), '#= setup refused 3',
     faults=[put(0, KINDS + 2, 255)])

case('set-up: 4 and 5 at once give 4, though the pair for 5 stands first',
     setup(1, [5], 'short long', [(0, 1), (1, 1)]), '#= setup refused 4')

case('set-up: a refused one is the whole output, blocks after it unread',
     setup(1, [0]), '''
     arrive 0  @0
     #= setup refused 2
     ''', faults=[spoil(1, KIND, 9)])

# =====================================================================
# The reader
# =====================================================================

ONE = setup(1, [10, 20], 'short short', [(1, 0)])
PASSES = '''
     pass  @1
     pass  @2
'''

case('reader: empty input', ONE, '#= block 0 refused 30', faults=[cut(0, 0)])
case('reader: a block 0 of 511 bytes', ONE, '#= block 0 refused 30', faults=[cut(0, 511)])
case('reader: a block 0 of 1 byte', ONE, '#= block 0 refused 30', faults=[cut(0, 1)])

case('reader: a block 1 of 511 bytes', ONE, '''
     #= processors 1 tasks 2 start 0
     #= block 1 refused 30
     ''' + PASSES, faults=[cut(1, 511)])

case('reader: bytes after a whole block', ONE, PASSES + '''
     #= block 2 refused 30
     ''', faults=[extra(0)])

case('reader: the input\'s end between blocks is the normal end', ONE, '''
     pass  @1  #= 0 -/-
     block
     pass  @2  #= 0 -/-
     #= task 1 0 0 0 0 0 0
     ''')

case('reader: 31 for a byte of block 0 changed', ONE, '#= block 0 refused 31',
     faults=[spoil(0, PERIODS, 11)])
case('reader: 31 for the last byte of the payload changed', ONE, '#= block 0 refused 31',
     faults=[spoil(0, CHECK_AT - 1, 1)])
case('reader: 31 for a byte of the first sum changed', ONE, '#= block 0 refused 31',
     faults=[spoil(0, CHECK_AT + 1, 255)])
case('reader: 31 for a byte of the second sum changed', ONE, '#= block 0 refused 31',
     faults=[spoil(0, CHECK_AT + 3, 255)])

# Two words changed places leave the first sum as it was.
case('reader: 31 for two words that changed places', ONE, '#= block 0 refused 31',
     faults=[spoil(0, PERIODS, 20, 0, 10, 0)])

# A word of 65,535 counts as 0 in both sums: two bytes have changed here, not one.
case('reader: a period of 65,535 changed to 0 leaves the check right', setup(1, [65535]),
     '#= setup refused 2', faults=[spoil(0, PERIODS, 0, 0)])

# Both starts are chosen so that one sum of block 0 is 0.
FIRST_IS_0 = setup(1, [10], start=65011)
SECOND_IS_0 = setup(1, [10], start=7073)

case('reader: a first sum of 0 is stored as 0', FIRST_IS_0, '#= processors 1 tasks 1 start 65011',
     faults=[spoil(0, CHECK_AT, 0, 0)])
case('reader: a first sum of 0 stored as 65,535 is wrong', FIRST_IS_0, '#= block 0 refused 31',
     faults=[spoil(0, CHECK_AT, 255, 255)])
case('reader: a second sum of 0 is stored as 0', SECOND_IS_0, '#= processors 1 tasks 1 start 7073',
     faults=[spoil(0, CHECK_AT + 2, 0, 0)])
case('reader: a second sum of 0 stored as 65,535 is wrong', SECOND_IS_0, '#= block 0 refused 31',
     faults=[spoil(0, CHECK_AT + 2, 255, 255)])

# Words 257, 257, 63,746, 1,265 and 10 at places 1, 2, 4, 5 and 6: together 65,535; and 253 * 257 + 252 * 257 +
# 250 * 63,746 + 249 * 1,265 + 248 * 10 = 250 * 65,535.
case('reader: two sums of 0 are stored as 0', setup(1, [10], start=1265 * 65536 + 63746),
     '#= processors 1 tasks 1 start 82966786', faults=[spoil(0, CHECK_AT, 0, 0, 0, 0)])

# The largest sums there are, 254 * 65,535 and 127 * 255 * 65,535: both are 0 modulo 65,535, so the number is looked at.
case('reader: all words 65,535 and a check of 0 give 32', ONE, '#= block 0 refused 32',
     faults=[spoil(0, 0, *[255] * CHECK_AT, 0, 0, 0, 0)])
case('reader: all words 65,535 and a check of 65,535 give 31', ONE, '#= block 0 refused 31',
     faults=[spoil(0, 0, *[255] * BLOCK)])
case('reader: all words 0 and a check of 0 give 33', ONE, '#= block 0 refused 33',
     faults=[spoil(0, 0, *[0] * BLOCK)])
case('reader: all words 0 and a check of 65,535 give 31', ONE, '#= block 0 refused 31',
     faults=[spoil(0, 0, *[0] * CHECK_AT, 255, 255, 255, 255)])

case('reader: number 1 in block 0', ONE, '#= block 0 refused 32', faults=[put(0, NUMBER, 1)])
case('reader: number 256 in block 0', ONE, '#= block 0 refused 32', faults=[put(0, NUMBER, 0, 1)])
case('reader: number 0 in block 1', ONE, PASSES + '#= block 1 refused 32',
     faults=[put(1, NUMBER, 0)])
case('reader: number 2 in block 1', ONE, PASSES + '#= block 1 refused 32',
     faults=[put(1, NUMBER, 2)])

case('reader: kind 2 in block 0', ONE, '#= block 0 refused 33', faults=[put(0, KIND, 2)])
case('reader: kind 0 in block 0', ONE, '#= block 0 refused 33', faults=[put(0, KIND, 0)])
case('reader: kind 1 in block 1', ONE, PASSES + '#= block 1 refused 33', faults=[put(1, KIND, 1)])
case('reader: kind 3 in block 1', ONE, PASSES + '#= block 1 refused 33', faults=[put(1, KIND, 3)])

case('reader: count 0 in block 0', ONE, '#= block 0 refused 34', faults=[put(0, COUNT, 0)])
case('reader: count 2 in block 0', ONE, '#= block 0 refused 34', faults=[put(0, COUNT, 2)])
case('reader: count 0 in block 1', ONE, PASSES + '#= block 1 refused 34', faults=[put(1, COUNT, 0)])
case('reader: count 85 in block 1', ONE, PASSES + '#= block 1 refused 34',
     faults=[put(1, COUNT, 85)])
case('reader: count 84 in block 1', ONE,
     '     pass @1  #= 0 -/-\n' + '     event 0 0 0 @0  #= 10 -/-\n' * 83)

# The largest sums of a block that is accepted.
case('reader: 84 records of the largest numbers', ONE, '     event 255 255 255 @65535  #= 10 -/-\n' * 84)

for what, place in [
        ('the first period past the count', PERIODS + 4), ('the last period', PERIODS + 63),
        ('the first kind past the count', KINDS + 2), ('the last kind', KINDS + 31),
        ('the first pair past the count', PAIRS + 2), ('the last pair', PAIRS + 127),
        ('the first byte after the tables', REST), ('the last byte of the payload', CHECK_AT - 1)]:
    case(f'reader: filler of block 0 not 0: {what}', ONE, '#= block 0 refused 35',
         faults=[put(0, place, 1)])

case('reader: a reserve byte not 0', ONE, PASSES + '#= block 1 refused 35',
     faults=[put(1, HEAD + 6 + 3, 1)])
case('reader: filler of block 1 not 0: the first byte after the records', ONE,
     PASSES + '#= block 1 refused 35', faults=[put(1, HEAD + 12, 1)])
case('reader: filler of block 1 not 0: the last byte of the payload', ONE,
     PASSES + '#= block 1 refused 35', faults=[put(1, CHECK_AT - 1, 128)])

case('reader: 30 and 31 at once give 30', ONE, '#= block 0 refused 30',
     faults=[spoil(0, PERIODS, 11), cut(0, 511)])
case('reader: 31 and 32 at once give 31', ONE, '#= block 0 refused 31',
     faults=[spoil(0, NUMBER, 1)])
case('reader: 32 and 33 at once give 32', ONE, PASSES + '#= block 1 refused 32',
     faults=[put(1, NUMBER, 2), put(1, KIND, 1)])
case('reader: 33 and 34 at once give 33', ONE, PASSES + '#= block 1 refused 33',
     faults=[put(1, KIND, 1), put(1, COUNT, 85)])
case('reader: 34 and 35 at once give 34', ONE, PASSES + '#= block 1 refused 34',
     faults=[put(1, COUNT, 85), put(1, HEAD + 3, 1)])
case('reader: 30 to 35 come before 1 to 5', setup(9, [0]), '#= block 0 refused 35',
     faults=[put(0, REST, 1)])

case('reader: a block refused after good blocks ends the output without task lines', ONE, '''
     #= processors 1 tasks 2 start 0
     arrive 0  @1  #= 0 0/0
     block
     finish 1  @2  #= 18 0/0
     block
     finish 0  @3
     block
     arrive 1  @4
     #= block 3 refused 33
     ''', faults=[put(3, KIND, 7)])

# =====================================================================
# Refusals of events
# =====================================================================

case('10: an event kind not 1 to 5, before 14',
     setup(1, [10], 'short'), '''
     event 0 0 0      @0      #= 10 -/-
     event 6 0 0      @0      #= 10 -/-
     event 255 255 9  @40000  #= 10 -/-
     arrive 0         @0      #= 0 0/0
     ''')

case('11: a task not in the table, before 12, 13 and 14',
     setup(1, [10, 20], 'short'), '''
     arrive 2       @0      #= 11 -/-
     finish 255     @0      #= 11 -/-
     request 2 1    @0      #= 11 -/-
     complete 2 1   @0      #= 11 -/-
     event 1 2 1    @0      #= 11 -/-
     finish 2       @40000  #= 11 -/-
     arrive 1       @0      #= 0 1/1
     ''')

case('12: a resource not in the table, before 14 and 18',
     setup(1, [10], 'short short'), '''
     request 0 2     @40000  #= 12 -/-
     complete 0 255  @0      #= 12 -/-
     arrive 0        @0      #= 0 0/0
     request 0 2     @0      #= 12 0/0
     request 0 1     @0      #= 0 0/0
     ''')

case('13: a field that the kind does not use is not 0, before 14; kind 5 never gives 11 or 12',
     setup(1, [10], 'short short'), '''
     event 1 0 1      @0      #= 13 -/-
     event 2 0 255    @0      #= 13 -/-
     event 5 0 1      @0      #= 13 -/-
     event 5 1 0      @0      #= 13 -/-
     event 5 255 255  @0      #= 13 -/-
     event 2 0 1      @40000  #= 13 -/-
     ''')

case('14: a step back, before 15, 16 and 18',
     setup(1, [10, 10], start=4294967295), '''
     arrive 0  @65535  #= 0 0/0
     arrive 0  @65534  #= 14 0/0
     finish 1  @65534  #= 14 0/0
     pass      @32767  #= 14 0/0   # 32,768: would also pass the clock's end
     pass      @32766  #= 15 0/0   # 32,767
     ''')

case('15: the clock at 4,294,967,295 takes a step of 0 and no step of 1, before 16 and 18',
     setup(1, [10, 10], start=4294967294), '''
     arrive 0  @65534  #= 0 0/0
     pass      @65535  #= 0 0/0
     pass      @65535  #= 0 0/0
     pass      @0      #= 15 0/0
     arrive 0  @0      #= 15 0/0
     finish 1  @0      #= 15 0/0
     finish 0  @65535  #= 0 -/-
     #= task 0 1 0 0 0 0 0
     ''')

case('16: an arrival while the job is pending, before 17 and alone',
     setup(1, [10]), '''
     arrive 0  @0   #= 0 0/0
     arrive 0  @0   #= 16 0/0
     arrive 0  @10  #= 16 0/0
     arrive 0  @11  #= 16 0/0
     ''')

case('17: one tick sooner than one period is refused, exactly one period is accepted',
     setup(1, [100]), '''
     arrive 0  @50   #= 0 0/0
     finish 0  @60   #= 0 -/-
     arrive 0  @60   #= 17 -/-
     arrive 0  @149  #= 17 -/-
     arrive 0  @150  #= 0 0/0
     finish 0  @150  #= 0 -/-
     arrive 0  @150  #= 17 -/-
     #= task 0 10 0 0 0 0 0
     ''')

case('17: a period of 65,535 is counted on the exact clock',
     setup(1, [65535]), '''
     arrive 0  @0      #= 0 0/0
     finish 0  @1      #= 0 -/-
     pass      @32000  #= 0 -/-
     arrive 0  @64000  #= 17 -/-
     pass      @64000  #= 0 -/-
     arrive 0  @65534  #= 17 -/-
     arrive 0  @65535  #= 0 0/0
     ''')

case('17: the first arrival has none before it, at any start',
     setup(1, [65535], start=3), '''
     arrive 0  @3  #= 0 0/0
     ''')

case('18: no pending job, before 25, never arrived or finished',
     setup(1, [10], 'short'), '''
     finish 0      @0  #= 18 -/-
     request 0 0   @0  #= 18 -/-
     complete 0 0  @0  #= 18 -/-
     arrive 0      @0  #= 0 0/0
     finish 0      @1  #= 0 -/-
     finish 0      @1  #= 18 -/-
     complete 0 0  @1  #= 18 -/-
     ''')

case('19: a ready job is on no processor, before 21, 22 and 25',
     setup(1, [200, 100], 'long'), '''
     arrive 0      @0  #= 0 0/0
     request 0 0   @0  #= 0 0/0
     arrive 1      @1  #= 0 1/1
     finish 0      @2  #= 19 1/1
     request 0 0   @2  #= 19 1/1
     complete 0 0  @2  #= 19 1/1
     #= task 0 1 0 0 0 0 0
     ''')

case('19: a linked job that does not run is on no processor',
     setup(1, [200, 100], 'short'), '''
     arrive 0      @0  #= 0 0/0
     request 0 0   @0  #= 0 0/0
     arrive 1      @1  #= 0 1/0
     finish 1      @2  #= 19 1/0
     request 1 0   @2  #= 19 1/0
     complete 1 0  @2  #= 19 1/0
     ''', told={slips.TellsAllSuspended: 4})

case('19: a job that resumed below every link, and 26 until it resumed',
     setup(2, [100, 200, 150], 'long'), '''
     arrive 0      @0   #= 0 0/0 -/-
     request 0 0   @0   #= 0 0/0 -/-
     arrive 1      @1   #= 0 0/0 1/1
     request 1 0   @2   #= 0 0/0 -/-
     finish 1      @3   #= 26 0/0 -/-
     arrive 2      @4   #= 0 0/0 2/2
     finish 1      @5   #= 26 0/0 2/2
     complete 0 0  @6   #= 0 0/0 2/2   # 1 holds, below 0 and 2
     finish 1      @7   #= 19 0/0 2/2
     request 1 0   @7   #= 19 0/0 2/2
     complete 1 0  @7   #= 19 0/0 2/2
     finish 2      @8   #= 0 0/0 1/1
     finish 1      @9   #= 21 0/0 1/1
     complete 1 0  @10  #= 0 0/0 1/1
     finish 1      @11  #= 0 0/0 -/-
     #= task 1 4 0 0 2 2 2
     ''', told={slips.TellsNoneApart: 5, slips.TellsAllSuspended: 9, slips.TellsSuspendedUntilRun: 9})

case('19: a job that resumed linked, behind a non-preemptable one, and 26 until it resumed',
     setup(2, [200, 100, 300], 'long short'), '''
     arrive 0      @0  #= 0 0/0 -/-
     request 0 0   @0  #= 0 0/0 -/-
     arrive 1      @0  #= 0 0/0 1/1
     request 1 0   @1  #= 0 0/0 -/-
     arrive 2      @2  #= 0 0/0 2/2
     request 2 1   @2  #= 0 0/0 2/2
     finish 1      @3  #= 26 0/0 2/2
     complete 0 0  @3  #= 0 0/0 1/2   # 1 takes the link of 2, which holds a short
     finish 1      @4  #= 19 0/0 1/2
     complete 1 0  @4  #= 19 0/0 1/2
     complete 2 1  @5  #= 0 0/0 1/1
     complete 1 0  @6  #= 0 0/0 1/1
     ''', told={slips.TellsNoneApart: 7, slips.TellsAllSuspended: 9, slips.TellsSuspendedUntilRun: 9})

# A suspended job has nothing open, so of 21 to 25 only 25 could apply to it. It asked for a resource, but that is not
# open: 22 is not in question.
case('26: a suspended job, before 25; its arrival is still 16',
     setup(2, [200, 100], 'long'), '''
     arrive 0      @0    #= 0 0/0 -/-
     request 0 0   @0    #= 0 0/0 -/-
     arrive 1      @1    #= 0 0/0 1/1
     request 1 0   @1    #= 0 0/0 -/-
     finish 1      @2    #= 26 0/0 -/-
     request 1 0   @2    #= 26 0/0 -/-
     complete 1 0  @2    #= 26 0/0 -/-
     arrive 1      @2    #= 16 0/0 -/-
     arrive 1      @101  #= 16 0/0 -/-   # a period later, too
     ''', told={slips.TellsNoneApart: 5, slips.TellsSuspendedLast: 7, slips.TellsSuspendedFirst: 8})

case('26: after 10 to 15, up to the last tick',
     setup(2, [200, 100], 'long', start=4294967285), '''
     arrive 0       @65525  #= 0 0/0 -/-
     request 0 0    @65525  #= 0 0/0 -/-
     arrive 1       @65526  #= 0 0/0 1/1
     request 1 0    @65527  #= 0 0/0 -/-
     event 6 1 0    @65528  #= 10 0/0 -/-
     finish 2       @65528  #= 11 0/0 -/-
     request 1 1    @65528  #= 12 0/0 -/-
     event 2 1 1    @65528  #= 13 0/0 -/-
     finish 1       @65526  #= 14 0/0 -/-
     finish 1       @0      #= 15 0/0 -/-
     finish 1       @65535  #= 26 0/0 -/-
     pass           @65535  #= 0 0/0 -/-
     finish 1       @65535  #= 26 0/0 -/-
     ''', told={slips.TellsSuspendedBeforeTime: 9})

case('26: a job that waits for a holder that itself spins',
     setup(3, [300, 200, 100], 'long short'), '''
     arrive 0      @0   #= 0 0/0 -/- -/-
     arrive 1      @1   #= 0 0/0 1/1 -/-
     arrive 2      @2   #= 0 0/0 1/1 2/2
     request 1 0   @3   #= 0 0/0 1/1 2/2
     request 2 1   @4   #= 0 0/0 1/1 2/2
     request 0 0   @5   #= 0 -/- 1/1 2/2
     request 1 1   @6   #= 0 -/- 1/1 2/2
     finish 0      @7   #= 26 -/- 1/1 2/2
     request 0 1   @7   #= 26 -/- 1/1 2/2
     complete 0 0  @7   #= 26 -/- 1/1 2/2
     finish 1      @7   #= 20 -/- 1/1 2/2
     complete 2 1  @8   #= 0 -/- 1/1 2/2
     finish 0      @8   #= 26 -/- 1/1 2/2
     complete 1 1  @9   #= 0 -/- 1/1 2/2
     finish 0      @9   #= 26 -/- 1/1 2/2
     complete 1 0  @10  #= 0 0/0 1/1 2/2
     finish 0      @10  #= 21 0/0 1/1 2/2
     ''', told={slips.TellsNoneApart: 8, slips.TellsSuspendedLast: 10})

case('26 and 19 beside each other, on one processor',
     setup(1, [300, 100, 200], 'long'), '''
     arrive 0     @0   #= 0 0/0
     request 0 0  @0   #= 0 0/0
     arrive 1     @10  #= 0 1/1
     request 1 0  @10  #= 0 0/0
     arrive 2     @20  #= 0 0/0
     finish 0     @21  #= 21 0/0   # runs, and holds
     finish 1     @21  #= 26 0/0   # sleeps on the lock
     finish 2     @21  #= 19 0/0   # could run, and has no processor
     ''', told={slips.TellsNoneApart: 7, slips.TellsAllSuspended: 8})

case('26: each job of a long queue until its turn, in later blocks too',
     setup(4, [400, 300, 200, 100], 'long'), '''
     arrive 0      @0  #= 0 0/0 -/- -/- -/-
     request 0 0   @0  #= 0 0/0 -/- -/- -/-
     arrive 1      @1  #= 0 0/0 1/1 -/- -/-
     request 1 0   @1  #= 0 0/0 -/- -/- -/-
     arrive 2      @2  #= 0 0/0 2/2 -/- -/-
     request 2 0   @2  #= 0 0/0 -/- -/- -/-
     arrive 3      @3  #= 0 0/0 3/3 -/- -/-
     request 3 0   @3  #= 0 0/0 -/- -/- -/-
     block
     finish 1      @4  #= 26 0/0 -/- -/- -/-
     finish 2      @4  #= 26 0/0 -/- -/- -/-
     finish 3      @4  #= 26 0/0 -/- -/- -/-
     complete 0 0  @5  #= 0 0/0 1/1 -/- -/-
     block
     finish 1      @5  #= 21 0/0 1/1 -/- -/-
     finish 2      @5  #= 26 0/0 1/1 -/- -/-
     finish 3      @5  #= 26 0/0 1/1 -/- -/-
     complete 1 0  @6  #= 0 0/0 1/1 2/2 -/-
     finish 3      @6  #= 26 0/0 1/1 2/2 -/-
     complete 2 0  @7  #= 0 0/0 1/1 2/2 3/3
     finish 3      @7  #= 21 0/0 1/1 2/2 3/3
     ''', told={slips.TellsNoneApart: 9})

case('20: a spinning job, before 21, 22 and 25',
     setup(2, [200, 100], 'long short'), '''
     arrive 0      @0  #= 0 0/0 -/-
     request 0 1   @0  #= 0 0/0 -/-
     arrive 1      @0  #= 0 0/0 1/1
     request 1 0   @0  #= 0 0/0 1/1
     request 1 1   @0  #= 0 0/0 1/1   # spins, with a long open
     finish 1      @1  #= 20 0/0 1/1
     request 1 0   @1  #= 20 0/0 1/1
     request 1 1   @1  #= 20 0/0 1/1
     complete 1 1  @1  #= 20 0/0 1/1
     complete 1 0  @1  #= 20 0/0 1/1
     ''')

case('21: a finish with a long open, and with a short open',
     setup(1, [10], 'long short'), '''
     arrive 0      @0  #= 0 0/0
     request 0 0   @0  #= 0 0/0
     finish 0      @0  #= 21 0/0
     complete 0 0  @1  #= 0 0/0
     request 0 1   @1  #= 0 0/0
     finish 0      @1  #= 21 0/0
     complete 0 1  @2  #= 0 0/0
     finish 0      @2  #= 0 -/-
     ''')

case('22: a request already open for that resource, before 23',
     setup(1, [10], 'long short'), '''
     arrive 0     @0  #= 0 0/0
     request 0 0  @0  #= 0 0/0
     request 0 0  @0  #= 22 0/0
     request 0 1  @0  #= 0 0/0
     request 0 1  @0  #= 22 0/0
     request 0 0  @0  #= 22 0/0   # a long while a short is open, too
     ''')

case('23: a long while a short is open',
     setup(1, [10], 'long short'), '''
     arrive 0     @0  #= 0 0/0
     request 0 1  @0  #= 0 0/0
     request 0 0  @0  #= 23 0/0
     ''')

# The pair joins the two longs: it is the open short that refuses.
case('23: a long of the group held, while a short is open',
     setup(1, [10], 'long short long', [(0, 2)]), '''
     arrive 0      @0  #= 0 0/0
     request 0 0   @0  #= 0 0/0
     request 0 1   @0  #= 0 0/0
     request 0 2   @0  #= 23 0/0
     complete 0 1  @0  #= 0 0/0
     request 0 2   @0  #= 0 0/0
     ''')

case('23: a short open in another group',
     setup(1, [10], 'short short'), '''
     arrive 0     @0  #= 0 0/0
     request 0 0  @0  #= 0 0/0
     request 0 1  @0  #= 23 0/0
     ''')

case('23: a long open in another group',
     setup(1, [10], 'long long'), '''
     arrive 0     @0  #= 0 0/0
     request 0 1  @0  #= 0 0/0
     request 0 0  @0  #= 23 0/0
     ''')

# Resources 0 to 8 are one short group, 9 is a group alone.
NINE = [(n, n + 1) for n in range(8)]
EIGHT_OPEN = '     arrive 0 @0  #= 0 0/0\n' + ''.join(
    f'     request 0 {n} @0  #= 0 0/0\n' for n in range(8))

case('24: a ninth open request, after 22 and 23',
     setup(1, [10], 'short ' * 10, NINE), EIGHT_OPEN + '''
     request 0 8   @0  #= 24 0/0
     request 0 7   @0  #= 22 0/0
     request 0 9   @0  #= 23 0/0
     complete 0 7  @1  #= 0 0/0
     request 0 8   @1  #= 0 0/0
     request 0 7   @1  #= 24 0/0
     ''')

# Resources 0 to 2 are one long group, 3 to 8 one short group.
case('24: longs and shorts count together',
     setup(1, [10], 'long ' * 3 + 'short ' * 6,
           [(0, 1), (1, 2), (3, 4), (4, 5), (5, 6), (6, 7), (7, 8)]), EIGHT_OPEN + '''
     request 0 8   @0  #= 24 0/0
     ''')

case('25: not the newest open request, or nothing open',
     setup(1, [10], 'short short short', [(0, 1)]), '''
     arrive 0      @0  #= 0 0/0
     complete 0 0  @0  #= 25 0/0
     request 0 0   @0  #= 0 0/0
     request 0 1   @0  #= 0 0/0
     complete 0 0  @0  #= 25 0/0
     complete 0 2  @0  #= 25 0/0
     complete 0 1  @0  #= 0 0/0
     complete 0 1  @0  #= 25 0/0
     complete 0 0  @0  #= 0 0/0
     complete 0 0  @0  #= 25 0/0
     ''')

# =====================================================================
# Links and placements
# =====================================================================

case('arrive: to the lowest-numbered unlinked processor',
     setup(3, [10, 20, 30, 40]), '''
     arrive 3  @0  #= 0 3/3 -/- -/-
     arrive 2  @0  #= 0 3/3 2/2 -/-
     arrive 1  @0  #= 0 3/3 2/2 1/1
     finish 3  @1  #= 0 -/- 2/2 1/1
     finish 2  @1  #= 0 -/- -/- 1/1
     arrive 0  @1  #= 0 0/0 -/- 1/1
     ''')

case('arrive: of equal deadlines the lower task number is higher',
     setup(1, [100, 100, 100]), '''
     arrive 1  @0  #= 0 1/1
     arrive 2  @0  #= 0 1/1
     arrive 0  @0  #= 0 0/0
     finish 0  @1  #= 0 1/1
     finish 1  @1  #= 0 2/2
     #= task 0 1 0 0 0 0 0
     #= task 1 0 0 0 1 0 0
     #= task 2 0 0 0 1 0 0
     ''')

case('arrive: the lowest-priority linked job is displaced, not the running preemptable one',
     setup(2, [100, 300, 50], 'short'), '''
     arrive 0      @0  #= 0 0/0 -/-
     arrive 1      @0  #= 0 0/0 1/1
     request 1 0   @0  #= 0 0/0 1/1
     arrive 2      @1  #= 0 0/0 2/1   # the slip preempts 0
     complete 1 0  @3  #= 0 0/0 2/2
     #= task 0 3 0 0 0 0 0
     #= task 1 3 0 0 0 0 0
     #= task 2 0 0 2 0 0 0
     ''', told={slips.PreemptsRunning: 4})

case('arrive: the displaced job is linked but not running, so the comer does not run',
     setup(1, [300, 200, 100], 'short'), '''
     arrive 0      @0  #= 0 0/0
     request 0 0   @0  #= 0 0/0
     arrive 1      @1  #= 0 1/0
     arrive 2      @2  #= 0 2/0   # 1 is preemptable, but does not run
     complete 0 0  @4  #= 0 2/2
     finish 2      @5  #= 0 1/1
     #= task 0 4 0 0 1 0 0
     #= task 1 0 0 1 3 0 0
     #= task 2 1 0 2 0 0 0
     ''', told={slips.RunsDisplacing: 4})

case('deadlines: 32,760 and 32,770 compare wrongly as signed 16-bit numbers',
     setup(1, [32760, 32770]), '''
     arrive 0  @0  #= 0 0/0
     arrive 1  @0  #= 0 0/0   # the slip gives 1/1
     ''', told={slips.SignedDeadlines: 2})

case('deadlines: 1 and 65,535 compare wrongly by a signed 16-bit difference',
     setup(1, [65535, 1]), '''
     arrive 0  @0  #= 0 0/0
     arrive 1  @0  #= 0 1/1   # the slip leaves 0/0
     ''', told={slips.SignedDifference: 2})

case('deadlines: past 4,294,967,295 they are held wider',
     setup(1, [100, 5, 50], start=4294967290), '''
     arrive 0  @65530  #= 0 0/0
     arrive 1  @65530  #= 0 1/1   # deadline 4,294,967,295; held in 32 bits, 0's would be 94
     arrive 2  @65531  #= 0 1/1
     finish 1  @65533  #= 0 2/2   # both deadlines past the end: 2's is the earlier
     finish 2  @65535  #= 0 0/0
     #= task 0 0 0 0 5 0 0
     #= task 1 3 0 0 0 0 0
     #= task 2 2 0 0 2 0 0
     ''', told={slips.NarrowDeadlines: 2})

case('finish: the highest-priority unlinked job is linked to k and runs there',
     setup(2, [100, 200, 400, 300]), '''
     arrive 0  @0  #= 0 0/0 -/-
     arrive 1  @0  #= 0 0/0 1/1
     arrive 2  @0  #= 0 0/0 1/1
     arrive 3  @0  #= 0 0/0 1/1
     finish 1  @2  #= 0 0/0 3/3
     finish 0  @5  #= 0 2/2 3/3
     #= task 2 0 0 0 5 0 0
     #= task 3 3 0 0 2 0 0
     ''')

case('totals: a job on a processor is running or spinning, linked or not',
     setup(2, [400, 300, 200, 100], 'short'), '''
     arrive 0      @0   #= 0 0/0 -/-
     arrive 1      @0   #= 0 0/0 1/1
     request 0 0   @0   #= 0 0/0 1/1
     request 1 0   @0   #= 0 0/0 1/1
     arrive 2      @1   #= 0 2/0 1/1
     arrive 3      @2   #= 0 2/0 3/1
     pass          @9   #= 0 2/0 3/1
     complete 0 0  @10  #= 0 2/2 3/1
     complete 1 0  @12  #= 0 2/2 3/3
     #= task 0 10 0 0 2 0 0
     #= task 1 2 10 0 0 0 0
     #= task 2 2 0 9 0 0 0
     #= task 3 0 0 10 0 0 0
     ''')

case('refused events: counted in the numbers, moving neither clock nor totals',
     setup(1, [10]), '''
     arrive 0  @5   #= 0 0/0
     arrive 0  @9   #= 16 0/0
     pass      @4   #= 14 0/0
     finish 0  @10  #= 0 -/-
     finish 0  @11  #= 18 -/-
     #= task 0 5 0 0 0 0 0
     ''')

# =====================================================================
# Short requests
# =====================================================================

case('short: a spinner is granted by a completion',
     setup(2, [100, 200], 'short'), '''
     arrive 0      @0  #= 0 0/0 -/-
     arrive 1      @0  #= 0 0/0 1/1
     request 1 0   @1  #= 0 0/0 1/1
     request 0 0   @2  #= 0 0/0 1/1
     complete 0 0  @3  #= 20 0/0 1/1
     complete 1 0  @5  #= 0 0/0 1/1
     complete 0 0  @6  #= 0 0/0 1/1
     #= task 0 3 3 0 0 0 0
     #= task 1 6 0 0 0 0 0
     ''')

case('short: spinners are granted in the order they asked, not by priority',
     setup(3, [100, 200, 300], 'short'), '''
     arrive 0      @0  #= 0 0/0 -/- -/-
     arrive 1      @0  #= 0 0/0 1/1 -/-
     arrive 2      @0  #= 0 0/0 1/1 2/2
     request 1 0   @0  #= 0 0/0 1/1 2/2
     request 2 0   @1  #= 0 0/0 1/1 2/2
     request 0 0   @2  #= 0 0/0 1/1 2/2
     complete 1 0  @4  #= 0 0/0 1/1 2/2
     complete 0 0  @5  #= 20 0/0 1/1 2/2
     complete 2 0  @7  #= 0 0/0 1/1 2/2
     complete 0 0  @9  #= 0 0/0 1/1 2/2
     #= task 0 4 5 0 0 0 0
     #= task 2 6 3 0 0 0 0
     ''')

case('short: an inner completion is no more than closed',
     setup(1, [200, 100], 'short short', [(0, 1)]), '''
     arrive 0      @0  #= 0 0/0
     request 0 0   @0  #= 0 0/0
     request 0 1   @0  #= 0 0/0
     arrive 1      @1  #= 0 1/0
     complete 0 1  @2  #= 0 1/0   # still non-preemptable
     complete 0 0  @3  #= 0 1/1
     ''')

case('short: a spinner that becomes holder stays non-preemptable though another is linked',
     setup(2, [200, 300, 100], 'short'), '''
     arrive 0      @0  #= 0 0/0 -/-
     arrive 1      @0  #= 0 0/0 1/1
     request 0 0   @0  #= 0 0/0 1/1
     request 1 0   @1  #= 0 0/0 1/1
     arrive 2      @2  #= 0 0/0 2/1
     complete 0 0  @4  #= 0 0/0 2/1
     complete 1 0  @5  #= 0 0/0 2/2
     #= task 1 2 3 0 0 0 0
     #= task 2 0 0 3 0 0 0
     ''')

# =====================================================================
# Long requests
# =====================================================================

case('long: an inner completion is no more than closed',
     setup(2, [100, 200], 'long long', [(0, 1)]), '''
     arrive 0      @0  #= 0 0/0 -/-
     arrive 1      @0  #= 0 0/0 1/1
     request 1 1   @1  #= 0 0/0 1/1
     request 1 0   @1  #= 0 0/0 1/1   # granted at once, though the pair has it as the outer
     request 0 0   @2  #= 0 -/- 1/1
     complete 1 0  @4  #= 0 -/- 1/1   # 0 is not resumed
     complete 1 1  @5  #= 0 0/0 1/1
     complete 0 0  @6  #= 0 0/0 1/1
     #= task 0 3 0 0 0 3 0
     #= task 1 6 0 0 0 0 0
     ''')

case('long: a short inside a long makes the holder non-preemptable while it is open',
     setup(1, [200, 100], 'long short', [(0, 1)]), '''
     arrive 0      @0  #= 0 0/0
     request 0 0   @0  #= 0 0/0
     request 0 1   @0  #= 0 0/0
     arrive 1      @1  #= 0 1/0
     complete 0 1  @2  #= 0 1/1
     finish 1      @3  #= 0 0/0
     complete 0 0  @4  #= 0 0/0
     #= task 0 3 0 0 1 0 0
     #= task 1 1 0 1 0 0 0
     ''')

case('long: the holder inherits before the waiter suspends',
     setup(1, [300, 100, 200], 'long'), '''
     arrive 0      @0  #= 0 0/0
     request 0 0   @0  #= 0 0/0
     arrive 2      @1  #= 0 2/2
     arrive 1      @2  #= 0 1/1
     request 1 0   @3  #= 0 0/0   # the slip links 2
     complete 0 0  @5  #= 0 1/1
     #= task 0 3 0 0 2 0 0
     #= task 1 1 0 0 0 2 0
     #= task 2 1 0 0 3 0 0
     ''', told={slips.SuspendsFirst: 5})

# Queue 1, 3, 2; at the completion by 0 two are still queued behind 1.
case('long: the inheritance is kept when the lock passes on with two still queued',
     setup(1, [400, 300, 100, 250, 200], 'long'), '''
     arrive 0      @0  #= 0 0/0
     request 0 0   @0  #= 0 0/0
     arrive 1      @0  #= 0 1/1
     request 1 0   @0  #= 0 0/0
     arrive 3      @0  #= 0 3/3
     request 3 0   @0  #= 0 0/0
     arrive 2      @0  #= 0 2/2
     request 2 0   @0  #= 0 0/0
     arrive 4      @0  #= 0 0/0
     complete 0 0  @1  #= 0 1/1   # without 2's priority counted 1 is below 4: 4/4
     complete 1 0  @2  #= 0 3/3   # likewise 3
     complete 3 0  @4  #= 0 2/2
     complete 2 0  @7  #= 0 2/2
     finish 2      @8  #= 0 4/4
     #= task 0 1 0 0 7 0 0
     #= task 1 1 0 0 6 0 1
     #= task 2 4 0 0 0 4 0
     #= task 3 2 0 0 4 0 2
     #= task 4 0 0 0 8 0 0
     ''', told={slips.DropsInheritance: 10})

case('long: a completer that no unlinked job is above keeps its link',
     setup(1, [100, 200, 50], 'long'), '''
     arrive 0      @0  #= 0 0/0
     request 0 0   @0  #= 0 0/0
     arrive 1      @0  #= 0 0/0
     complete 0 0  @1  #= 0 0/0
     finish 0      @2  #= 0 1/1
     #= task 0 2 0 0 0 0 0
     #= task 1 0 0 0 2 0 0
     ''')

case('long: a resumed job below every linked one stays unlinked',
     setup(2, [50, 300, 100], 'long'), '''
     arrive 0      @0  #= 0 0/0 -/-
     request 0 0   @0  #= 0 0/0 -/-
     arrive 1      @0  #= 0 0/0 1/1
     request 1 0   @1  #= 0 0/0 -/-
     arrive 2      @1  #= 0 0/0 2/2
     complete 0 0  @3  #= 0 0/0 2/2
     finish 0      @5  #= 0 1/1 2/2
     #= task 1 1 0 0 2 0 2
     ''')

case('long: a resumed job goes to an unlinked processor',
     setup(2, [200, 100], 'long'), '''
     arrive 0      @0  #= 0 0/0 -/-
     request 0 0   @0  #= 0 0/0 -/-
     arrive 1      @0  #= 0 0/0 1/1
     request 1 0   @1  #= 0 0/0 -/-
     complete 0 0  @3  #= 0 0/0 1/1
     complete 1 0  @4  #= 0 0/0 1/1
     #= task 1 2 0 0 0 2 0
     ''')

case('long: a resumed job takes the link of a non-preemptable one and does not run',
     setup(2, [200, 100, 300], 'long short'), '''
     arrive 0      @0  #= 0 0/0 -/-
     request 0 0   @0  #= 0 0/0 -/-
     arrive 1      @0  #= 0 0/0 1/1
     request 1 0   @1  #= 0 0/0 -/-
     arrive 2      @1  #= 0 0/0 2/2
     request 2 1   @1  #= 0 0/0 2/2
     complete 0 0  @2  #= 0 0/0 1/2
     complete 2 1  @4  #= 0 0/0 1/1
     #= task 0 4 0 0 0 0 0
     #= task 1 1 0 2 0 1 0
     #= task 2 3 0 0 0 0 0
     ''')

case('long: a job suspended on a holder that itself spins',
     setup(2, [300, 200, 100], 'long short'), '''
     arrive 0      @0  #= 0 0/0 -/-
     request 0 0   @0  #= 0 0/0 -/-
     arrive 2      @0  #= 0 0/0 2/2
     request 2 0   @1  #= 0 0/0 -/-   # waits for 0
     arrive 1      @1  #= 0 0/0 1/1
     request 1 1   @1  #= 0 0/0 1/1
     request 0 1   @2  #= 0 0/0 1/1   # waits for 1
     complete 0 1  @3  #= 20 0/0 1/1
     complete 1 1  @5  #= 0 0/0 1/1
     complete 0 1  @6  #= 0 0/0 1/1
     complete 0 0  @7  #= 0 2/2 1/1
     #= task 0 4 3 0 0 0 0
     #= task 1 6 0 0 0 0 0
     #= task 2 1 0 0 0 6 0
     ''')

case('runs non-preemptably on q: in two finishes, the higher of two such jobs first',
     setup(3, [100, 200, 300, 50, 60], 'short'), '''
     arrive 0      @0  #= 0 0/0 -/- -/-
     arrive 1      @0  #= 0 0/0 1/1 -/-
     arrive 2      @0  #= 0 0/0 1/1 2/2
     request 2 0   @0  #= 0 0/0 1/1 2/2
     request 1 0   @0  #= 0 0/0 1/1 2/2
     arrive 3      @1  #= 0 0/0 1/1 3/2
     arrive 4      @1  #= 0 0/0 4/1 3/2
     finish 0      @2  #= 0 4/4 1/1 3/2   # 1 is the higher of 1 and 2; it spins
     finish 4      @3  #= 0 3/3 1/1 2/2
     #= task 1 0 3 0 0 0 0
     #= task 2 3 0 0 0 0 0
     #= task 3 0 0 2 0 0 0
     #= task 4 1 0 1 0 0 0
     ''', moved='finish finish', told={slips.StaysOnQ: 8})

case('runs non-preemptably on q: in a suspension, by the holder itself',
     setup(2, [100, 300, 50], 'long short'), '''
     arrive 1     @0  #= 0 1/1 -/-
     request 1 0  @0  #= 0 1/1 -/-
     request 1 1  @0  #= 0 1/1 -/-
     arrive 0     @0  #= 0 1/1 0/0
     arrive 2     @1  #= 0 2/1 0/0
     request 0 0  @2  #= 0 1/1 2/2
     #= task 0 2 0 0 0 0 0
     #= task 1 2 0 0 0 0 0
     #= task 2 0 0 1 0 0 0
     ''', moved='request', told={slips.StaysOnQ: 6})

case('runs non-preemptably on q: in a suspension, by another than the holder',
     setup(3, [100, 300, 50, 40], 'long short'), '''
     arrive 0     @0  #= 0 0/0 -/- -/-
     arrive 1     @0  #= 0 0/0 1/1 -/-
     request 1 1  @0  #= 0 0/0 1/1 -/-
     arrive 3     @0  #= 0 0/0 1/1 3/3
     request 3 0  @0  #= 0 0/0 1/1 3/3
     arrive 2     @1  #= 0 0/0 2/1 3/3
     request 0 0  @2  #= 0 2/2 1/1 3/3
     ''', moved='request', told={slips.StaysOnQ: 7})

case('runs non-preemptably on q: in a long completion',
     setup(2, [400, 100, 200, 50], 'long short'), '''
     arrive 0      @0  #= 0 0/0 -/-
     request 0 0   @0  #= 0 0/0 -/-
     arrive 1      @0  #= 0 0/0 1/1
     request 1 0   @0  #= 0 0/0 -/-
     arrive 2      @0  #= 0 0/0 2/2
     request 2 1   @0  #= 0 0/0 2/2
     arrive 3      @0  #= 0 0/0 3/2
     complete 0 0  @1  #= 0 3/3 1/2   # 2 is linked to q, 3 moves to k; then 1 resumes over 2
     complete 2 1  @2  #= 0 3/3 1/1
     #= task 0 1 0 0 1 0 0
     #= task 1 0 0 1 0 1 0
     #= task 2 2 0 0 0 0 0
     #= task 3 1 0 1 0 0 0
     ''', moved='complete', told={slips.StaysOnQ: 8})

# =====================================================================
# Direct blocking, as ticket 2 asks
# =====================================================================

# A rival of a suspended job is a pending job with a higher own priority. On m processors the job's ticks are direct
# blocking while it has fewer than m rivals, else they are suspended otherwise.
case('direct blocking: the second of the pending jobs on two processors',
     setup(2, [300, 200, 100], 'long'), '''
     arrive 0      @0  #= 0 0/0 -/-
     request 0 0   @0  #= 0 0/0 -/-
     arrive 1      @0  #= 0 0/0 1/1
     request 1 0   @0  #= 0 0/0 -/-
     arrive 2      @0  #= 0 0/0 2/2   # the one rival of 1
     pass          @5  #= 0 0/0 2/2
     complete 0 0  @7  #= 0 1/1 2/2
     finish 2      @8  #= 0 1/1 0/0
     #= task 0 7 0 0 1 0 0
     #= task 1 1 0 0 0 7 0
     #= task 2 8 0 0 0 0 0
     ''', told={slips.SwapsTotals: 'task 1'})

case('direct blocking: none for the third of the pending jobs on two processors',
     setup(2, [200, 300, 100], 'long'), '''
     arrive 0      @0  #= 0 0/0 -/-
     request 0 0   @0  #= 0 0/0 -/-
     arrive 1      @0  #= 0 0/0 1/1
     request 1 0   @0  #= 0 0/0 -/-
     arrive 2      @0  #= 0 0/0 2/2   # rivals of 1: the holder and 2
     pass          @5  #= 0 0/0 2/2
     complete 0 0  @7  #= 0 0/0 2/2   # 1 resumes, and does not run even so
     finish 2      @8  #= 0 0/0 1/1
     #= task 0 8 0 0 0 0 0
     #= task 1 0 0 0 1 0 7
     #= task 2 8 0 0 0 0 0
     ''', told={slips.AllowsMRivals: 'task 1', slips.SwapsTotals: 'task 1'})

case('direct blocking: it ends in mid-wait with a rival\'s arrival',
     setup(2, [300, 200, 100, 150], 'long'), '''
     arrive 0      @0   #= 0 0/0 -/-
     request 0 0   @0   #= 0 0/0 -/-
     arrive 1      @0   #= 0 0/0 1/1
     request 1 0   @1   #= 0 0/0 -/-
     arrive 2      @2   #= 0 0/0 2/2   # deadline 102: the first rival of 1
     pass          @4   #= 0 0/0 2/2
     arrive 3      @7   #= 0 3/3 2/2   # deadline 157: the second
     pass          @12  #= 0 3/3 2/2
     #= task 0 7 0 0 5 0 0
     #= task 1 1 0 0 0 6 5
     #= task 2 10 0 0 0 0 0
     #= task 3 5 0 0 0 0 0
     ''', told={slips.RanksOnce: 'task 1', slips.RanksAfter: 'task 1'})

case('direct blocking: it begins in mid-wait with a rival\'s finish',
     setup(2, [100, 200, 300], 'long'), '''
     arrive 0      @0  #= 0 0/0 -/-
     request 0 0   @0  #= 0 0/0 -/-
     arrive 2      @0  #= 0 0/0 2/2
     request 2 0   @0  #= 0 0/0 -/-
     arrive 1      @0  #= 0 0/0 1/1   # rivals of 2: the holder and 1
     pass          @3  #= 0 0/0 1/1
     finish 1      @5  #= 0 0/0 -/-
     pass          @6  #= 0 0/0 -/-
     complete 0 0  @9  #= 0 0/0 2/2
     #= task 0 9 0 0 0 0 0
     #= task 1 5 0 0 0 0 0
     #= task 2 0 0 0 0 4 5
     ''', told={slips.RanksOnce: 'task 2', slips.RanksAfter: 'task 2'})

case('direct blocking: the next job of a rival\'s task is no rival where its deadline is later',
     setup(1, [300, 100, 60], 'long'), '''
     arrive 0      @0   #= 0 0/0
     request 0 0   @0   #= 0 0/0
     arrive 1      @0   #= 0 1/1   # deadline 100
     request 1 0   @0   #= 0 0/0
     arrive 2      @10  #= 0 2/2   # deadline 70
     finish 2      @15  #= 0 0/0
     arrive 2      @70  #= 0 0/0   # deadline 130
     pass          @80  #= 0 0/0
     #= task 0 75 0 0 5 0 0
     #= task 1 0 0 0 0 75 5
     #= task 2 5 0 0 10 0 0
     ''')

case('direct blocking: of equal deadlines the lower task number is a rival',
     setup(1, [98, 100, 300], 'long'), '''
     arrive 2      @0  #= 0 2/2
     request 2 0   @0  #= 0 2/2
     arrive 1      @0  #= 0 1/1
     request 1 0   @0  #= 0 2/2
     arrive 0      @2  #= 0 0/0   # deadline 100, as 1's
     pass          @6  #= 0 0/0
     #= task 0 4 0 0 0 0 0
     #= task 1 0 0 0 0 2 4
     #= task 2 2 0 0 4 0 0
     ''', told={slips.RanksByDeadline: 'task 1'})

case('direct blocking: of equal deadlines the higher task number is no rival',
     setup(1, [100, 98, 300], 'long'), '''
     arrive 2      @0  #= 0 2/2
     request 2 0   @0  #= 0 2/2
     arrive 0      @0  #= 0 0/0
     request 0 0   @0  #= 0 2/2
     arrive 1      @2  #= 0 2/2   # deadline 100, as 0's
     pass          @6  #= 0 2/2
     #= task 0 0 0 0 0 6 0
     #= task 1 0 0 0 4 0 0
     #= task 2 6 0 0 0 0 0
     ''', told={slips.EqualIsHigher: 'task 0'})

case('direct blocking: always, with more processors than jobs',
     setup(4, [100, 200, 300], 'long'), '''
     arrive 0      @0  #= 0 0/0 -/- -/- -/-
     request 0 0   @0  #= 0 0/0 -/- -/- -/-
     arrive 2      @0  #= 0 0/0 2/2 -/- -/-
     request 2 0   @1  #= 0 0/0 -/- -/- -/-
     arrive 1      @2  #= 0 0/0 1/1 -/- -/-
     pass          @5  #= 0 0/0 1/1 -/- -/-   # 2 is the lowest of all
     complete 0 0  @8  #= 0 0/0 1/1 2/2 -/-
     #= task 0 8 0 0 0 0 0
     #= task 1 6 0 0 0 0 0
     #= task 2 1 0 0 0 7 0
     ''')

# With the rivals 0 to 6 task 8 is the eighth, with 7 besides the ninth.
SEVEN = '0/0 1/1 2/2 3/3 4/4 5/5 6/6'

case('direct blocking: the eighth of the pending jobs on eight processors, then the ninth',
     setup(8, [100] * 8 + [200, 300], 'long'), f'''
     arrive 9      @0  #= 0 9/9 -/- -/- -/- -/- -/- -/- -/-
     request 9 0   @0  #= 0 9/9 -/- -/- -/- -/- -/- -/- -/-
     arrive 8      @0  #= 0 9/9 8/8 -/- -/- -/- -/- -/- -/-
     request 8 0   @0  #= 0 9/9 -/- -/- -/- -/- -/- -/- -/-
     arrive 0      @0  #= 0 9/9 0/0 -/- -/- -/- -/- -/- -/-
     arrive 1      @0  #= 0 9/9 0/0 1/1 -/- -/- -/- -/- -/-
     arrive 2      @0  #= 0 9/9 0/0 1/1 2/2 -/- -/- -/- -/-
     arrive 3      @0  #= 0 9/9 0/0 1/1 2/2 3/3 -/- -/- -/-
     arrive 4      @0  #= 0 9/9 0/0 1/1 2/2 3/3 4/4 -/- -/-
     arrive 5      @0  #= 0 9/9 0/0 1/1 2/2 3/3 4/4 5/5 -/-
     arrive 6      @0  #= 0 9/9 {SEVEN}
     pass          @3  #= 0 9/9 {SEVEN}
     arrive 7      @5  #= 0 7/7 {SEVEN}
     pass          @9  #= 0 7/7 {SEVEN}
     ''' + ''.join(f'#= task {n} 9 0 0 0 0 0\n' for n in range(7)) + '''
     #= task 7 4 0 0 0 0 0
     #= task 8 0 0 0 0 5 4
     #= task 9 5 0 0 4 0 0
     ''', told={slips.AllowsMRivals: 'task 8'})

# Over [3, 8) task 0 alone is runnable. Over [8, 11) the holder 1 has 2's priority, and by its own is no rival of 2.
case('direct blocking: a rival that is suspended itself counts, on the same lock',
     setup(1, [300, 200, 100], 'long'), '''
     arrive 0      @0   #= 0 0/0
     request 0 0   @0   #= 0 0/0
     arrive 1      @0   #= 0 1/1
     request 1 0   @0   #= 0 0/0
     arrive 2      @3   #= 0 2/2
     request 2 0   @3   #= 0 0/0
     pass          @7   #= 0 0/0
     complete 0 0  @8   #= 0 1/1
     complete 1 0  @11  #= 0 2/2
     #= task 0 8 0 0 3 0 0
     #= task 1 3 0 0 0 3 5
     #= task 2 0 0 0 0 8 0
     ''', told={slips.RanksRunnable: 'task 1'})

# Task 4 has the rival 2, and from tick 2 on 3 as well; neither is runnable. Task 3 has the rival 2 alone: the holder 0
# is raised to 2's priority, and by its own is the lowest of all.
case('direct blocking: rivals that are suspended themselves count, on another lock',
     setup(2, [500, 400, 100, 200, 300], 'long long'), '''
     arrive 0      @0  #= 0 0/0 -/-
     request 0 0   @0  #= 0 0/0 -/-
     arrive 1      @0  #= 0 0/0 1/1
     request 1 1   @0  #= 0 0/0 1/1
     arrive 2      @0  #= 0 2/2 1/1
     request 2 0   @0  #= 0 0/0 1/1
     arrive 4      @0  #= 0 0/0 4/4
     request 4 1   @0  #= 0 0/0 1/1
     arrive 3      @2  #= 0 0/0 3/3
     request 3 0   @2  #= 0 0/0 1/1
     pass          @5  #= 0 0/0 1/1
     complete 1 1  @6  #= 0 0/0 4/4
     #= task 0 6 0 0 0 0 0
     #= task 1 6 0 0 0 0 0
     #= task 2 0 0 0 0 6 0
     #= task 3 0 0 0 0 4 0
     #= task 4 0 0 0 0 2 4
     ''', told={slips.RanksRunnable: 'task 4', slips.RanksByEffective: 'task 3'})

# From tick 1 on the holder 0 has 2's priority, which is above 1's; its own deadline is the latest.
case('direct blocking: a holder that is raised above the waiter is no rival',
     setup(2, [400, 200, 100], 'long'), '''
     arrive 0      @0  #= 0 0/0 -/-
     request 0 0   @0  #= 0 0/0 -/-
     arrive 1      @0  #= 0 0/0 1/1
     request 1 0   @0  #= 0 0/0 -/-
     arrive 2      @0  #= 0 0/0 2/2
     request 2 0   @1  #= 0 0/0 -/-
     pass          @5  #= 0 0/0 -/-
     complete 0 0  @6  #= 0 0/0 1/1
     complete 1 0  @8  #= 0 2/2 1/1
     #= task 0 8 0 0 0 0 0
     #= task 1 2 0 0 0 6 0
     #= task 2 1 0 0 0 7 0
     ''', told={slips.RanksByEffective: 'task 1'})

case('direct blocking: a rival that is linked but not running counts',
     setup(1, [300, 200, 100], 'long short'), '''
     arrive 0      @0  #= 0 0/0
     request 0 0   @0  #= 0 0/0
     arrive 1      @0  #= 0 1/1
     request 1 0   @0  #= 0 0/0
     request 0 1   @0  #= 0 0/0   # a short inside the long: non-preemptable
     arrive 2      @3  #= 0 2/0
     pass          @7  #= 0 2/0
     complete 0 1  @8  #= 0 2/2
     pass          @9  #= 0 2/2
     #= task 0 8 0 0 1 0 0
     #= task 1 0 0 0 0 3 6
     #= task 2 1 0 5 0 0 0
     ''')

case('direct blocking: a rival that spins counts',
     setup(2, [400, 300, 100, 200], 'long short'), '''
     arrive 0      @0  #= 0 0/0 -/-
     request 0 0   @0  #= 0 0/0 -/-
     arrive 1      @0  #= 0 0/0 1/1
     request 1 0   @0  #= 0 0/0 -/-
     arrive 2      @0  #= 0 0/0 2/2
     request 2 1   @0  #= 0 0/0 2/2
     arrive 3      @2  #= 0 3/3 2/2
     request 3 1   @2  #= 0 3/3 2/2
     pass          @6  #= 0 3/3 2/2
     #= task 0 2 0 0 4 0 0
     #= task 1 0 0 0 0 2 4
     #= task 2 6 0 0 0 0 0
     #= task 3 0 4 0 0 0 0
     ''')

case('direct blocking: the ticks go by the state before the event, and a rival gone in the same tick takes none',
     setup(2, [400, 300, 100, 200], 'long'), '''
     arrive 0      @0  #= 0 0/0 -/-
     request 0 0   @0  #= 0 0/0 -/-
     arrive 1      @0  #= 0 0/0 1/1
     request 1 0   @0  #= 0 0/0 -/-
     arrive 2      @2  #= 0 0/0 2/2   # the first rival of 1
     arrive 3      @5  #= 0 3/3 2/2   # the second
     finish 3      @5  #= 0 0/0 2/2
     complete 0 0  @8  #= 0 1/1 2/2
     #= task 0 8 0 0 0 0 0
     #= task 1 0 0 0 0 8 0
     #= task 2 6 0 0 0 0 0
     #= task 3 0 0 0 0 0 0
     ''', told={slips.RanksAfter: 'task 1'})

case('direct blocking: rivals that arrive at the very ticks at which the wait begins and ends',
     setup(2, [100, 400, 200, 300], 'long'), '''
     arrive 0      @0   #= 0 0/0 -/-
     request 0 0   @0   #= 0 0/0 -/-
     arrive 1      @0   #= 0 0/0 1/1
     request 1 0   @3   #= 0 0/0 -/-
     arrive 2      @3   #= 0 0/0 2/2   # rivals of 1: the holder and 2
     finish 2      @7   #= 0 0/0 -/-
     arrive 3      @9   #= 0 0/0 3/3   # the holder and 3, for no tick
     complete 0 0  @9   #= 0 0/0 3/3
     pass          @10  #= 0 0/0 3/3
     #= task 0 10 0 0 0 0 0
     #= task 1 3 0 0 1 2 4
     #= task 2 4 0 0 0 0 0
     #= task 3 1 0 0 0 0 0
     ''', told={slips.RanksAfter: 'task 1'})

case('direct blocking: refused events in mid-wait charge nothing',
     setup(1, [300, 200, 100], 'long'), '''
     arrive 0      @0   #= 0 0/0
     request 0 0   @0   #= 0 0/0
     arrive 1      @0   #= 0 1/1
     request 1 0   @0   #= 0 0/0
     finish 1      @3   #= 26 0/0
     arrive 2      @5   #= 0 2/2
     arrive 2      @7   #= 16 2/2
     pass          @4   #= 14 2/2
     finish 2      @10  #= 0 0/0
     finish 2      @12  #= 18 0/0
     complete 0 0  @13  #= 0 1/1
     #= task 0 8 0 0 5 0 0
     #= task 1 0 0 0 0 8 5
     #= task 2 5 0 0 0 0 0
     ''')

# Task 1's first job waits over [0, 3), its second over [21, 25), from 22 on with a rival.
case('direct blocking: both totals add up over the jobs of a task',
     setup(1, [300, 20, 10], 'long'), '''
     arrive 0      @0   #= 0 0/0
     request 0 0   @0   #= 0 0/0
     arrive 1      @0   #= 0 1/1
     request 1 0   @0   #= 0 0/0
     complete 0 0  @3   #= 0 1/1
     complete 1 0  @4   #= 0 1/1
     finish 1      @4   #= 0 0/0
     request 0 0   @5   #= 0 0/0
     arrive 1      @20  #= 0 1/1
     request 1 0   @21  #= 0 0/0
     arrive 2      @22  #= 0 2/2
     pass          @25  #= 0 2/2
     #= task 0 20 0 0 5 0 0
     #= task 1 2 0 0 0 4 3
     #= task 2 3 0 0 0 0 0
     ''')

# No more jobs are runnable than there are processors, so that these deadlines bear on the rank alone.
case('direct blocking: deadlines 1, 10 and 65,535 compare wrongly as signed numbers and by signed differences',
     setup(2, [1, 65535, 10], 'long'), '''
     arrive 0      @0  #= 0 0/0 -/-
     request 0 0   @0  #= 0 0/0 -/-
     arrive 1      @0  #= 0 0/0 1/1
     request 1 0   @0  #= 0 0/0 -/-
     arrive 2      @0  #= 0 0/0 2/2
     pass          @5  #= 0 0/0 2/2
     #= task 0 5 0 0 0 0 0
     #= task 1 0 0 0 0 0 5
     #= task 2 5 0 0 0 0 0
     ''', told={slips.SignedDeadlines: 'task 1', slips.SignedDifference: 'task 1'})

case('direct blocking: the 16-bit tick wraps in mid-wait, and the waiter\'s deadline is past 65,535',
     setup(1, [100, 50, 4], 'long', start=65530), '''
     arrive 0      @65530  #= 0 0/0
     request 0 0   @65530  #= 0 0/0
     arrive 1      @65530  #= 0 1/1   # deadline 65,580
     request 1 0   @65530  #= 0 0/0
     arrive 2      @65531  #= 0 2/2   # deadline 65,535
     pass          @5      #= 0 2/2
     finish 2      @6      #= 0 0/0
     pass          @8      #= 0 0/0
     #= task 0 3 0 0 11 0 0
     #= task 1 0 0 0 0 3 11
     #= task 2 11 0 0 0 0 0
     ''')

case('direct blocking: deadlines past 4,294,967,295 are held wider',
     setup(2, [5, 100, 50], 'long', start=4294967290), '''
     arrive 0      @65530  #= 0 0/0 -/-   # deadline 4,294,967,295
     request 0 0   @65530  #= 0 0/0 -/-
     arrive 1      @65530  #= 0 0/0 1/1   # held in 32 bits, its deadline would be 94
     request 1 0   @65530  #= 0 0/0 -/-
     arrive 2      @65531  #= 0 0/0 2/2   # likewise 45
     pass          @65535  #= 0 0/0 2/2
     #= task 0 5 0 0 0 0 0
     #= task 1 0 0 0 0 1 4
     #= task 2 4 0 0 0 0 0
     ''', told={slips.NarrowDeadlines: 'task 1'})

# =====================================================================
# Long sessions and full tables
# =====================================================================

case('clock: a session that wraps the 16-bit tick three times',
     setup(1, [65535], start=65000), '''
     arrive 0  @65000  #= 0 0/0
     pass      @20000  #= 0 0/0
     pass      @50000  #= 0 0/0
     pass      @10000  #= 0 0/0
     pass      @40000  #= 0 0/0
     finish 0  @1000   #= 0 -/-
     #= task 0 132608 0 0 0 0 0
     ''')

case('blocks: event numbers run on over three blocks and count refused events',
     setup(1, [10]), '''
     arrive 0  @0  #= 0 0/0
     arrive 0  @1  #= 16 0/0
     block
     finish 1  @1  #= 11 0/0
     block
     finish 0  @9  #= 0 -/-
     pass      @9  #= 0 -/-
     #= task 0 9 0 0 0 0 0
     ''')

# 250 steps of 32,767 in three full blocks.
case('totals: large, over three full blocks',
     setup(1, [5, 6]), '     arrive 0 @0  #= 0 0/0\n     arrive 1 @0  #= 0 0/0\n' + ''.join(
         f'     pass @{32767 * n % 65536}  #= 0 0/0\n' for n in range(1, 251)) + '''
     #= task 0 8191750 0 0 0 0 0
     #= task 1 0 0 0 8191750 0 0
     ''')


def full_house():
    """Every task pending on eight processors, told processor by processor.

    Tasks 0 to 7 take the long locks. Tasks 8 to 15 ask for the same ones, each
    displacing the holder of the one it asks for, and suspend. Tasks 16 to 23
    displace the raised holders and take the short locks. Tasks 24 to 31 take
    their links and wait for them.
    """
    places, play = ['-/-'] * 8, []

    def told(event, tick, k=0, place=None):
        places[k] = place or places[k]
        play.append(f"{event} @{tick}  #= 0 {' '.join(places)}")
    for n in range(8):
        told(f'arrive {n}', 0, n, f'{n}/{n}')
        told(f'request {n} {16 + 2 * n}', 0)
    for n in range(8, 16):
        k = 15 - n              # the lowest-priority holder not yet raised
        told(f'arrive {n}', 1, k, f'{n}/{n}')
        told(f'request {n} {17 + 2 * k}', 1, k, f'{k}/{k}')
    for n in range(16, 24):
        k = n - 16              # the holder raised by the lowest of 8 to 15
        told(f'arrive {n}', 2, k, f'{n}/{n}')
        told(f'request {n} {2 * k + 1}', 2)
        told(f'request {n} {2 * k}', 2)
    for n in range(24, 32):
        k = 31 - n              # the lowest of 16 to 23
        told(f'arrive {n}', 3, k, f'{n}/{k + 16}')
    told('pass', 10)
    for k in range(8):
        told(f'complete {k + 16} {2 * k}', 11)
        told(f'complete {k + 16} {2 * k + 1}', 11, k, f'{31 - k}/{31 - k}')
    for n in range(8):          # until 16 to 23 came, 0 to 7 ran, and 8 to 15 were the eight highest
        play += [f'#= task {n} 2 0 0 9 0 0', f'#= task {n + 8} 0 0 0 0 1 9',
                 f'#= task {n + 16} 9 0 0 0 0 0', f'#= task {n + 24} 0 0 8 0 0 0']
    return '\n'.join(play)


case('8 processors, 32 tasks, 32 resources and 64 pairs, all busy',
     setup(8, [2000 + n if n < 8 else 1000 + n if n < 16 else 500 + n if n < 24 else 100 + n
               for n in range(32)],
           'short ' * 16 + 'long ' * 16,
           [(2 * n + 1, 2 * n) for n in range(16)]
           + [(16 + n, (n + m) % 16) for n in range(16) for m in range(3)]),
     full_house())

# =====================================================================
# Source document 002, Figures 3 and 4, as its text tells them
# =====================================================================

# Time is doubled to whole ticks; T1 is task 0, Processor 1 is processor 0.
#
# Figure 3. The text of section 2.3 fixes: two processors; T3 is released at 1
# and takes the link of T2 on Processor 2, the lowest-priority linked job; T2 is
# non-preemptable until 2.5, when T3 is scheduled; T1 is pending and of the two
# highest throughout, so it keeps running where the naive algorithm has it
# blocked over [1, 2.5) and [4, 5.5), the times of a higher-priority release
# while T2 and T4 are non-preemptable; none is non-preemptable for more than 2.5.
# Chosen: T1 and T2 are released at 0; non-preemptable by a short resource over
# [0, 2.5) and [3, 5.5); T3 finishes and T4 is released at 3; the job released
# at 4 is called T5; periods that give T3 and T5 above T1 above T4 above T2.
# The text's 'T2 is non-preemptively blocked over [1, 2.5)' is read as T3.
case('source 002, Figure 3: a job is blocked at its release only, T1 never',
     setup(2, [40, 100, 20, 50, 20], 'short'), '''
     arrive 0      @0   #= 0 0/0 -/-
     arrive 1      @0   #= 0 0/0 1/1
     request 1 0   @0   #= 0 0/0 1/1
     arrive 2      @2   #= 0 0/0 2/1   # time 1: T3 linked to Processor 2, T1 not preempted
     complete 1 0  @5   #= 0 0/0 2/2   # time 2.5
     finish 2      @6   #= 0 0/0 1/1
     arrive 3      @6   #= 0 0/0 3/3
     request 3 0   @6   #= 0 0/0 3/3
     arrive 4      @8   #= 0 0/0 4/3   # time 4: T1 again not preempted
     complete 3 0  @11  #= 0 0/0 4/4   # time 5.5
     #= task 0 11 0 0 0 0 0
     #= task 2 1 0 3 0 0 0
     #= task 4 0 0 3 0 0 0
     ''', told={slips.PreemptsRunning: 4})

# Figure 4. The text of sections 3.1 and 3.2 and the caption fix: two processors;
# A, B, C short, X, Y, Z long; groups {A, B}, {Z, X}, {C}, {Y}; at 1 T2 asks for B
# and spins until T1 lets go of the group at 2.5; T3 is released at 1.5, linked to
# Processor 1 and scheduled there at 2.5; at 5 T4 asks for Z, held by T2, suspends,
# and T2 is scheduled with T4's priority until it lets go of Z at 6; at 7.5 T3 asks
# for Z, held by T4, suspends, and T2 is scheduled on Processor 2 and takes C; at 8.5
# T3 resumes, linked to Processor 2, and is scheduled at 9.5 when T2 lets go of C;
# T3's link to Processor 2 ends at 10.
# Left open: all other times, who asks for Y and X, and how T3 comes from Processor 1
# at 2.5 to Processor 2 at 7.5. By the rules it has to suspend in between, as no two
# of the other three jobs are ever above it at once.
# Chosen: T1 takes Y at 0 and A at 0.5; T2 is released at 0.5, takes Z at once, asks
# for B inside it, for A inside B at 2.5, and lets go of both at 3.5; T3 asks for Y at
# 3; at 3.5, in this order, T4 is released, T1 lets go of Y and T2 of A and B, so that
# T4's link moves to Processor 1 and T3 resumes on Processor 2; T3 lets go of Y at 4;
# T2 takes X inside Z at 5.5; T3 lets go of Z and finishes at 10; priorities T4, T3, T2, T1 downward.
# Section 3.2's second range for T3, [7.5, 8.5), is read as [8.5, 9.5) with section
# 3.1 and the caption; over [7.5, 8.5) T3 is suspended.
# Every wait is direct blocking, by a job that is one of the two highest pending: T4 over
# [5, 6) is the highest of all; T3 over [3, 3.5) is so before T4 is released, and over
# [7.5, 8.5) the second, below T4 alone.
case('source 002, Figure 4: short and long resources on two processors',
     setup(2, [200, 100, 60, 50], 'short short short long long long',
           [(1, 0), (5, 3), (5, 1), (4, 0)]), '''
     arrive 0      @0   #= 0 0/0 -/-
     request 0 4   @0   #= 0 0/0 -/-   # Y
     arrive 1      @1   #= 0 0/0 1/1
     request 1 5   @1   #= 0 0/0 1/1   # Z
     request 0 0   @1   #= 0 0/0 1/1   # A
     request 1 1   @2   #= 0 0/0 1/1   # time 1: B, spins
     arrive 2      @3   #= 0 2/0 1/1   # time 1.5: T3 linked to Processor 1
     complete 0 0  @5   #= 0 2/2 1/1   # time 2.5: T3 scheduled on Processor 1
     request 1 0   @5   #= 0 2/2 1/1   # A inside B
     request 2 4   @6   #= 0 0/0 1/1   # Y
     arrive 3      @7   #= 0 0/0 3/1
     complete 0 4  @7   #= 0 3/3 2/1
     complete 1 0  @7   #= 0 3/3 2/1
     complete 1 1  @7   #= 0 3/3 2/2
     complete 2 4  @8   #= 0 3/3 2/2
     request 3 5   @10  #= 0 1/1 2/2   # time 5: T4 suspends, T2 is scheduled
     request 1 3   @11  #= 0 1/1 2/2   # X inside Z
     complete 1 3  @11  #= 0 1/1 2/2
     complete 1 5  @12  #= 0 3/3 2/2   # time 6: T4 resumes
     request 2 5   @15  #= 0 3/3 1/1   # time 7.5: T3 suspends, T2 on Processor 2
     request 1 2   @15  #= 0 3/3 1/1   # C
     complete 3 5  @17  #= 0 3/3 2/1   # time 8.5: T3 linked, not scheduled
     complete 1 2  @19  #= 0 3/3 2/2   # time 9.5
     complete 2 5  @20  #= 0 3/3 2/2
     finish 2      @20  #= 0 3/3 1/1   # time 10
     #= task 0 6 0 0 14 0 0
     #= task 1 9 3 0 7 0 0             # T2 spins over [1, 2.5)
     #= task 2 10 0 4 0 3 0            # T3 is blocked over [1.5, 2.5) and [8.5, 9.5), direct-blocked as above
     #= task 3 11 0 0 0 2 0            # T4 is direct-blocked over [5, 6)
     ''', moved='complete')


if __name__ == '__main__':
    if len(sys.argv) != 2 or sys.argv[1] not in ('list', 'write', 'check'):
        sys.exit(__doc__)
    sys.exit(main(sys.argv[1]))
