#!/usr/bin/env python3
"""An annotated hex dump of a block file, for people: bin/text --bytes.

    python3 tests/dump.py [FILE]

Per field its place in the file, its bytes and what they mean, with the reader's
verdict on each block; refused blocks are shown as well, with the reason in words.
Runs of filler are one line.
"""

import sys

sys.dont_write_bytecode = True

import scenario
from model import (BLOCK, CHECK_AT, HEAD, KINDS_AT, LAST_BLOCK, MOST_PAIRS, MOST_RECORDS, MOST_RESOURCES,
                   MOST_TASKS, PAIRS_AT, PERIODS_AT, RECORD, check_of, number_at, setup_in, verdict)

EVENTS = {1: 'arrives', 2: 'finishes', 3: 'requests', 4: 'completes', 5: 'time passes'}
KINDS = {0: 'short', 1: 'long'}


def fields_of_setup(payload):
    """(place, size, meaning) of each used field of a set-up's payload."""
    for at, name in enumerate(['processors', 'tasks', 'resources', 'pairs']):
        yield at, 1, f'{name} {payload[at]}'
    yield 4, 4, f'start {number_at(payload, 4, 4)}'
    for t in range(min(payload[1], MOST_TASKS)):
        at = PERIODS_AT + 2 * t
        yield at, 2, f'task {t}: period {number_at(payload, at, 2)}'
    for r in range(min(payload[2], MOST_RESOURCES)):
        kind = payload[KINDS_AT + r]
        yield KINDS_AT + r, 1, f'resource {r}: {KINDS.get(kind, f"kind {kind}")}'
    for n in range(min(payload[3], MOST_PAIRS)):
        at = PAIRS_AT + 2 * n
        yield at, 2, f'pair {n}: outer {payload[at]}, inner {payload[at + 1]}'


def fields_of_events(payload, count):
    """(place, size, meaning) of each record of a block of events."""
    for n in range(min(count, MOST_RECORDS)):
        kind, task, resource, reserve, low, high = payload[RECORD * n:RECORD * n + RECORD]
        what = EVENTS.get(kind, f'kind {kind}')
        if kind != 5 or task:
            what = f'task {task} {what}'
        if kind in (3, 4) or resource:
            what += f' resource {resource}'
        if reserve:
            what += f', reserve {reserve}'
        yield RECORD * n, RECORD, f'tick {low + 256 * high}: {what}'


def fields_of(block, index):
    """(place, size, meaning) of every byte of a whole block."""
    kinds = {1: 'set-up', 2: 'events'}
    yield 0, 2, f'number {number_at(block, 0, 2)}'
    yield 2, 1, f'kind {block[2]}, {kinds.get(block[2], "unknown")}'
    yield 3, 1, f'records {block[3]}'
    payload, end = block[HEAD:CHECK_AT], HEAD
    used = fields_of_setup(payload) if index == 0 else fields_of_events(payload, block[3])
    for at, size, meaning in used:
        if HEAD + at > end:
            yield end, HEAD + at - end, 'filler'
        yield HEAD + at, size, meaning
        end = HEAD + at + size
    if end < CHECK_AT:
        yield end, CHECK_AT - end, 'filler'
    right = check_of(block)
    for at, name in [(0, 'first sum'), (2, 'second sum')]:
        stored, sum_ = number_at(block, CHECK_AT + at, 2), number_at(right, at, 2)
        yield CHECK_AT + at, 2, f'{name} {stored}' + ('' if stored == sum_ else f', should be {sum_}')


def shown(data):
    """Bytes in hex; a long run in short, with a count of those that are not 0."""
    if len(data) <= 6:
        return data.hex(' ')
    others = len(data) - data.count(0)
    return f'{len(data)} bytes' + (f', {others} not 0' if others else ' of 00')


def detail_of(refused, block, index):
    """What a refused block has, or should have, where a few words can say it."""
    if refused == 30:
        return f'; it has {len(block)}'
    if refused == 31:
        return f'; it should be {check_of(block).hex(" ")}'
    if refused == 32 and index <= LAST_BLOCK:
        return f'; it should be {index % 65_536}'
    if refused == 33:
        return f'; it should be {1 if index == 0 else 2}'
    if refused == 34:
        return f'; it should be {"1" if index == 0 else f"1 to {MOST_RECORDS}"}'
    return ''


def told_of(block, index):
    """The reader's verdict on a block, and on the set-up in it."""
    refused = verdict(block, index)
    if refused:
        return scenario.refused_text(refused) + detail_of(refused, block, index)
    refused = setup_in(block).refusal() if index == 0 else 0
    return 'accepted' + (f'; set-up {scenario.refused_text(refused)}' if refused else '')


def dump_of(data):
    """The lines of the dump."""
    for at in range(0, max(len(data), 1), BLOCK):
        block, index = data[at:at + BLOCK], at // BLOCK
        yield f'block {index}: {told_of(block, index)}'
        fields = fields_of(block, index) if len(block) == BLOCK else [(0, len(block), 'too short')]
        for place, size, meaning in fields:
            yield f'  {at + place:06x}  {shown(block[place:place + size]):26}  {meaning}'


# ---- as a command ----

def bytes_of(data):
    """The dump as it is printed."""
    return ''.join(f'{line}\n' for line in dump_of(data)).encode()


if __name__ == '__main__':
    sys.exit(scenario.call('dump', __doc__, {None: bytes_of}, sys.argv[1:]))
