"""Blocks, made of a set-up and of events."""

from model import (CHECK_AT, HEAD, KINDS_AT, LONG, PAIRS_AT, PERIODS_AT, SETUP_BYTES, SHORT, START_AT, SetUp,
                   check_of)

LOCK_KINDS = {'short': SHORT, 'long': LONG}


def setup_of(processors, start, periods, kinds, pairs):
    return SetUp(processors, len(periods), len(kinds), len(pairs), start, periods, kinds, pairs)


def setup(processors, periods, kinds='', pairs=(), start=0):
    """A set-up: periods, then kinds as words, then pairs (outer, inner)."""
    kinds = [LOCK_KINDS[word] for word in kinds.split()]
    return setup_of(processors, start, periods, kinds, pairs)


def block_of(index, kind, count, payload):
    head = (index % 65_536).to_bytes(2, 'little') + bytes([kind, count])
    body = head + payload.ljust(CHECK_AT - HEAD, b'\0')
    return body + check_of(body)


def payload_of(setup):
    payload = bytearray(SETUP_BYTES)
    payload[:4] = bytes([setup.processors, setup.tasks, setup.resources, setup.pair_count])
    payload[START_AT:START_AT + 4] = setup.start.to_bytes(4, 'little')
    for t, period in enumerate(setup.periods):
        payload[PERIODS_AT + 2 * t:PERIODS_AT + 2 * t + 2] = period.to_bytes(2, 'little')
    payload[KINDS_AT:KINDS_AT + setup.resources] = bytes(setup.kinds)
    for n, pair in enumerate(setup.pairs):
        payload[PAIRS_AT + 2 * n:PAIRS_AT + 2 * n + 2] = bytes(pair)
    return bytes(payload)


def record(kind, task, resource, tick):
    return bytes([kind, task, resource, 0]) + tick.to_bytes(2, 'little')


def blocks_of(setup, groups):
    """The blocks of a set-up and of the groups of events behind it, each of 1 to 84."""
    blocks = [block_of(0, 1, 1, payload_of(setup))]
    for index, group in enumerate(groups, 1):
        records = b''.join(record(*event) for event in group)
        blocks.append(block_of(index, 2, len(group), records))
    return blocks
