"""What is expected of the calls that crates/edges makes behind its files, worked out by hand from document 01.

Of a line: its number from the list, its length, and how many bytes of the buffer were written: all of the line, or,
refused, none. Of a block or an event: its number alone. Behind them stand rows of hostile states, of pages, of parts
and of written blocks, whose columns are explained below.
"""

from dataclasses import dataclass

from blocks import block_of, payload_of, record, setup
from model import BLOCK, CHECK_AT, HEAD, setup_in, verdict


def line(text):
    return f'0 {len(text) + 1} {len(text) + 1}'


def refused(number):
    return f'{number} 0 0'


CALLS = [
    # The printed case's state on two processors, a buffer of 96 bytes: first line, event 1 answered 0, task 2.
    line('processors 2 tasks 3 start 65530'),
    line('1 0 -/- -/-'),
    line('task 2 0 0 0 0 0 0'),
    # A buffer of 95 bytes.
    refused(36), refused(36), refused(36),
    # Task 3 is not in the table: 11, and 11 comes before 36.
    line('processors 2 tasks 3 start 65530'),
    line('1 0 -/- -/-'),
    refused(11),
    refused(36), refused(36), refused(11),
    # The empty state of a refused set-up is not sound: 9, and 9 comes before 11 and 36.
    refused(9), refused(9), refused(9),
    refused(9), refused(9), refused(9),
    # Lines that need no state, in 96 bytes, and in 95.
    line('block 1000000 refused 32'),
    line('setup refused 5'),
    line('12 19 0/0 2/-'),
    line('task 31 4294967295 4294967295 4294967295 4294967295 4294967295 4294967295'),
    refused(36), refused(36), refused(36), refused(36),
    # A block's number at an index: 65,535 at 65,535; 0 and 1 at 65,536; the last index; one above it.
    '0', '0', '32', '0', '32',
    # Event kind 0, judged, stepped, and played twice: on a sound state 10, on the empty one 9.
    '10', '10', '10', '10',
    '9', '9', '9', '9',
]


# ---- hostile states, numbered as in crates/edges/src/hostile.rt ----

# The printed case after its fifth event, at clock 65,540, with a long resource 1 and a pair (1, 0) besides, which joins
# nothing. The printed fifth line has the places. By 'Tick totals' task 0 has run from 65,530 on, task 1 from 65,532 on,
# and task 2 has been linked but not running from 65,538 on.
PLACES = '0/0 2/1'
TOTALS = [(10, 0, 0, 0, 0, 0), (8, 0, 0, 0, 0, 0), (0, 0, 2, 0, 0, 0)]
MOST_32 = 2 ** 32 - 1
MOST_64 = 2 ** 64 - 1


def totals_text(totals):
    """Last, per task its six totals."""
    return ''.join(f"task {t} {' '.join(map(str, six))}\n" for t, six in enumerate(totals))


def page(text, index, events, over, kept, number=0):
    """A page's number; the session after it: index, events, whether the output is over, whether the state is as before;
    the text's length, how many bytes were written, and the text's first line."""
    first = text.partition('\n')[0]
    return f'{number} {index} {events} {over} {kept} {len(text)} {len(text)} "{first}"'


@dataclass
class Hostile:
    """The clause of 'A sound state' that a hostile number breaks, and what of it is seen: its places, its totals."""
    clause: str
    places: str = PLACES
    totals: tuple = tuple(TOTALS)


# Jobs seen: the document leaves open what they are in a state that is not sound. Three are pending and none is
# suspended, so three are runnable, whatever else is hostile. Places and totals: the document has at most 8 processors and
# 32 tasks.
RUNNABLE = 3
NEVER = ((0,) * 6,) * 29
HOSTILE = [
    Hostile('processors: set-up within the limits', places=PLACES + ' -/-' * 6),
    Hostile('tasks: set-up within the limits', totals=(*TOTALS, *NEVER)),
    Hostile('resources: set-up within the limits'),
    Hostile('pairs: set-up within the limits'),
    Hostile('start: at most the clock'),
    Hostile("period of task 0: a pending job's deadline is its last arrival plus its period"),
    Hostile('kind of resource 0: free of 3'),
    Hostile('outer of pair 0: free of 4'),
    Hostile('inner of pair 0: free of 4'),
    Hostile('clock and start: last arrivals between them'),
    Hostile('deadline of task 0: its last arrival plus its period'),
    Hostile('last arrival of task 0: at most the clock'),
    Hostile('a total of task 0: sum at most clock minus start', totals=((MOST_32, 0, 0, 0, 0, 0), *TOTALS[1:])),
    Hostile('totals of task 0: sum at most clock minus start', totals=((MOST_32,) * 6, *TOTALS[1:])),
    Hostile('resource that task 0 waits for: waiting jobs stand in the queue of what they asked'),
    Hostile('open requests of task 1: at most 8'),
    Hostile('request 255 of task 1: within a group of which the job is holder'),
    Hostile('request 254 of task 1: within a group of which the job is holder'),
    Hostile('holder 255 of group 0: the job with the request is holder; only held groups have queues'),
    Hostile('holder 254 of group 0: groups have no other holder'),
    Hostile('length of the queue of group 0: waiting jobs stand once'),
    Hostile('waiter 255 of group 0: queues hold waiting jobs only'),
    Hostile('waiter 254 of group 0: queues hold waiting jobs only'),
    Hostile('count beside the links: the processors are those of the set-up'),
    Hostile('link 255 of processor 0: one without a link is idle', places='-/0 2/1'),
    Hostile('link 254 of processor 0: linked jobs as demand 3 says', places='254/0 2/1'),
    Hostile('running 255 on processor 0: one with a link is not idle', places='0/- 2/1'),
    Hostile('running 254 on processor 0: only runnable jobs run', places='0/254 2/1'),
    Hostile('link 254 of processor 7: places beyond the counts are empty'),
    Hostile('running 254 on processor 7: places beyond the counts are empty'),
    Hostile('holder 254 of group 31: places beyond the counts are empty'),
    Hostile('request 254 of task 31: places beyond the counts are empty'),
    Hostile('all at once', places='254/254 2/1' + ' -/-' * 5 + ' 254/254',
            totals=((MOST_32,) * 6, *TOTALS[1:], *NEVER)),
]


def sound_rows():
    """State 0 is the busy one itself, which is sound: what the other rows are to be held against.

    Time passes to tick 9: accepted, and the state is another. The second event played has kind 255: 10.
    """
    first, event, task = 'processors 2 tasks 3 start 65530', f'6 0 {PLACES}', 'task 0 10 0 0 0 0 0'
    return ['events 1 0 0 0 0 10 2 0', 'plain 0 0 0 10 2 0', f'state 1 {RUNNABLE} {line(first)} {line(event)} {line(task)}',
            'block ' + page(f'{event}\n', 2, 6, 0, 0), 'end ' + page(totals_text(TOTALS), 1, 5, 1, 1)]


def hostile_rows(one):
    """'The state is not sound' comes first of 9 to 26, and 'a refused event hands back the same state'.

    events: whether it is the busy state: no. Judged: 9. Stepped: 9, and the state as before: 1. Both events played: 9,
    9, how many: 2, and the state as before: 1.
    plain: stepped by the plain engine, and both events played by it: the same.
    state: whether it is sound: no. The jobs. The three lines: each refused with 9, length 0, nothing written.
    block: a good block is accepted, whatever the state, so the session goes on; the sixth event has the answer 9, and
    the places are those of the same state.
    end: the normal end, so the output is over; the totals of each task.
    """
    return ['events 0 9 9 1 9 9 2 1', 'plain 9 1 9 9 2 1', f'state 0 {RUNNABLE} {refused(9)} {refused(9)} {refused(9)}',
            'block ' + page(f'6 9 {one.places}\n', 2, 6, 0, 1), 'end ' + page(totals_text(one.totals), 1, 5, 1, 1)]


# ---- pages of sessions by call, on the busy state: a block of number 65,535 with one event, and the input's end ----

PAGES = [
    # Index and events at their largest: the number is the index modulo 65,536, but the index is above 999,999, so 32,
    # which ends the output. At the end the totals, as the index is not 0.
    page(f'block {MOST_64} refused 32\n', MOST_64, MOST_64, 1, 1),
    page(totals_text(TOTALS), MOST_64, MOST_64, 1, 1),
    # Events alone at their largest. No input has so many, and the document says nothing: by the crate `stepping` the
    # next number is 0.
    page(f'0 0 {PLACES}\n', 65536, 0, 0, 0),
    page(totals_text(TOTALS), 65535, MOST_64, 1, 1),
    # The output has ended: nothing is printed.
    page('', 65535, 5, 1, 1),
    page('', 65535, 5, 1, 1),
    # One byte less than the 84 lines of 96 bytes that a block can give: 36, nothing is written, and nothing goes on.
    page('', 65535, 5, 0, 1, 36),
    page('', 65535, 5, 0, 1, 36),
    # The same where the output has ended, with the largest numbers.
    page('', MOST_64, MOST_64, 1, 1, 36),
    page('', MOST_64, MOST_64, 1, 1, 36),
]


# ---- parts of events, played on the busy state: time passes to tick 9, to tick 10, and a byte more ----

# An event is 6 bytes, and 17 are written of each: the answer, and a link and a placement for 8 processors. The part's
# length, and the buffer's; how many whole events have room; the clock after so many: 65,540, 65,545 or 65,546; how many
# bytes were written, 17 for each, and how many of them behind those: none.
PARTS = [
    '13 51 2 65546 34 0',
    '12 34 2 65546 34 0',
    '12 33 1 65545 17 0',
    '12 16 0 65540 0 0',
    '5 51 0 65540 0 0',
    '0 51 0 65540 0 0',
]


# ---- blocks that are written ----

def is_written_again(block, index):
    """'What the reader accepts, a set-up being free of 1 to 5 too, the writer reproduces byte for byte.'"""
    return verdict(block, index) == 0 and (index > 0 or setup_in(block).refusal() == 0)


def written_again(data):
    """Behind each file: how many of its blocks, each at its own place, behind a refused one too."""
    blocks = [data[at:at + BLOCK] for at in range(0, len(data), BLOCK)]
    return f'written again {sum(is_written_again(block, index) for index, block in enumerate(blocks))}'


# What a block is lent with.
LENT = 7


def wrote(block):
    """Answer 0, how many bytes are not as lent, the head, the check, and 1: read, it is written again."""
    ends = block[:HEAD] + block[CHECK_AT:]
    return f"0 {sum(byte != LENT for byte in block)} {' '.join(map(str, ends))} 1"


def kept(number):
    """'On refusal the block stays as lent.'"""
    return f'{number} 0'


def set_up_block(*parts):
    return block_of(0, 1, 1, payload_of(setup(*parts)))


# The printed case's set-up with a long resource 1 and a pair (1, 0) besides.
BUSY = set_up_block(2, [100, 200, 50], 'short long', [(1, 0)], 65_530)

SET_UPS_WRITTEN = [
    # As it is, and with a 9 in the first and the last place of each table past its count: written 0.
    wrote(BUSY), wrote(BUSY),
    # Every place in use. The start is 4, 3, 2, 1 in bytes, and each period 6, 5.
    wrote(set_up_block(8, [0x0506] * 32, 'long ' * 32, [(8, 9)] * 64, 0x01020304)),
    # Processors outside the limit; a period 0; a kind 2; a resource 2 in a pair; the pair's kinds the other way round.
    kept(1), kept(2), kept(3), kept(4), kept(5),
    # Blocks of 511, 513 and 0 bytes: 37 comes before 1. Of 511 and 513, where nothing else is wrong.
    kept(37), kept(37), kept(37),
    kept(37), kept(37),
]

# What is read of the first 9s in the block written: the answer, and a place of periods, kinds, outer and inner.
PAST_COUNTS = '0 0 0 0 0'

# An event of which each byte is another; behind it events of kind 0, or with 255 in all bytes but the reserve.
MIXED = record(1, 2, 3, 0x0504)
NONE = record(0, 0, 0, 0)
LARGEST = record(255, 255, 255, 65_535)

EVENTS_WRITTEN = [
    # Two events, the second of kind 0; and one, where the places past the count are not empty: written 0.
    wrote(block_of(1, 2, 2, MIXED + NONE)),
    wrote(block_of(1, 2, 1, MIXED)),
    # 84 events at index 65,536, whose number is 0, and at the last index.
    wrote(block_of(0, 2, 84, MIXED + LARGEST * 83)),
    wrote(block_of(999_999, 2, 84, MIXED + LARGEST * 83)),
    # Counts 0, 85 and the largest.
    kept(34), kept(34), kept(34),
    # Index 0, 1,000,000 and the largest.
    kept(32), kept(32), kept(32),
    # Both wrong: 34 comes before 32. In blocks of 511, 513 and 0 bytes 37 comes before both.
    kept(34), kept(34),
    kept(37), kept(37), kept(37),
]

# What becomes of a scenario's line, and whether a block is written. A faulty line has its reason, as docs/DECISIONS.md
# and crates/scenario/src/faults.rt number them: 1 unknown; 2 a word too many; 3 no byte, 4 no period, 5 no clock, 6 no
# tick, 7 no kind; 8 behind the set-up's end, 9 twice, 11 the processors missing.
KEPT, WRITTEN = 'kept 0', 'written 1'


def faulty(reason):
    return f'faulty {reason} 0'


SCENARIO_LINES = [
    # Words: an unknown name; a period too large, and one in a remark; a second period; a start too large; a kind, a
    # byte, a tick without its sign and one too large; a sign; a fifth word behind `event`.
    faulty(1), faulty(4), faulty(4), faulty(2), faulty(5), faulty(7), faulty(3), faulty(6), faulty(6), faulty(3), faulty(2),
    # An event and `block` before the processors; these, and again; start, and again; a blank line, a remark, a task.
    faulty(11), faulty(11), KEPT, faulty(9), KEPT, faulty(9), KEPT, KEPT, KEPT,
    # The first event ends the set-up: block 0. A task and a start behind it. An event, `block`, and `block` again.
    WRITTEN, faulty(8), faulty(8), KEPT, WRITTEN, KEPT,
    # An event, and the end.
    KEPT, WRITTEN,
    # A set-up that is refused with 4 at an event, at `block` and at the end.
    KEPT, KEPT, KEPT, 'refused 4 0', 'refused 4 0', 'refused 4 0',
]


# ---- sessions of the plain engine by call: the busy one, in its order and in others ----

# 'The pending jobs by effective priority': task 2 is due at 65,588, task 0 at 65,630, task 1 at 65,732, and nobody
# inherits, as the resource is short. A row has the order before (how many, and the first four places; 255 is nobody), the
# answer, whether the state is as before, and the order after. Where the order is not that of the state, 9 comes first of
# 9 to 26, and the session is handed back.
BUSY_ORDER = '3 2 0 1 255'


def out_of_order(order):
    return f'{order} 9 1 {order}'


ORDERS = [
    # Time passes: accepted, and the order is as before. An event of no kind: 10.
    f'{BUSY_ORDER} 0 0 {BUSY_ORDER}', f'{BUSY_ORDER} 10 1 {BUSY_ORDER}',
    # The first two exchanged: time passes, and an event of no kind.
    out_of_order('3 0 2 1 255'), out_of_order('3 0 2 1 255'),
    # One counted too few; a task behind the last; nobody at all, and the largest count.
    out_of_order('2 2 0 1 255'), out_of_order('3 2 0 1 3'), out_of_order(f'{MOST_64} 255 255 255 255'),
]


def alike(data, events):
    """Behind each file: both engines agree after each event of its accepted blocks, and in each page: one for each
    read of 512 bytes, the last of them short or empty, and one more."""
    pages = len(data) // BLOCK + 2
    return f'alike {events} of {events} events, {pages} of {pages} pages'


def expected():
    rows = [f'call {n} {told}' for n, told in enumerate(CALLS, 1)]
    for n, told in enumerate([sound_rows(), *map(hostile_rows, HOSTILE)]):
        rows += [f'hostile {n} {row}' for row in told]
    rows += [f"page {('block', 'end')[n % 2]} {told}" for n, told in enumerate(PAGES)]
    rows += [f'part {told}' for told in PARTS]
    rows += [f'write set-up {told}' for told in SET_UPS_WRITTEN]
    rows += [f'past counts {PAST_COUNTS}']
    rows += [f'write events {told}' for told in EVENTS_WRITTEN]
    rows += [f'line {told}' for told in SCENARIO_LINES]
    rows += [f'order {told}' for told in ORDERS]
    return ''.join(f'{row}\n' for row in rows)
