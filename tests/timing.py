"""What crates/timing prints of the calls that its orders ask for, by the model.

Its input: how many blocks of events are played first, the blocks of a file, and orders: what is called, and how many
hundred times. The calls are about the file's last block, and the state before it.
"""

from copy import deepcopy
from itertools import cycle, islice

from model import Session, check_of, events_in, setup_in, verdict

STEPS, TESTS, CHECKS, VERDICTS = b's', b't', b'c', b'v'
CALLS = 100


def given(blocks, orders):
    asked = b''.join(what + hundreds.to_bytes(2, 'little') for what, hundreds in orders)
    return bytes([len(blocks) - 2]) + b''.join(blocks) + asked


def expected(blocks, orders):
    session = Session(setup_in(blocks[0]))
    for block in blocks[1:-1]:
        for event in events_in(block):
            session.event(*event)
    told = {STEPS: steps, TESTS: tests, CHECKS: checks, VERDICTS: verdicts}
    rows = [told.get(what, nothing)(session, blocks, CALLS * hundreds) for what, hundreds in orders]
    return ''.join(f'{row}\n' for row in rows)


def nothing(_session, _blocks, _calls):
    return 0


def steps(begun, blocks, calls):
    """How many events are accepted: those of the last block in turn, each time from the state before it."""
    accepted, events = 0, list(events_in(blocks[-1]))
    for number, event in enumerate(islice(cycle(events), calls)):
        if number % len(events) == 0:
            session = deepcopy(begun)
        accepted += session.event(*event) == 0
    return accepted


def tests(begun, _blocks, calls):
    """How many tests pass: the clock of a sound state goes on by a tick before each, and at its end to 0."""
    begun.assert_sound()
    clocks = [(begun.clock + n) % 2 ** 32 for n in range(1, calls + 1)]
    return sum(begun.clock < clock for clock in clocks)


def in_turn(block, calls):
    """The block, and in every second call with another first byte."""
    spoilt = bytes([255 - block[0]]) + block[1:]
    return ((block, spoilt)[n % 2] for n in range(calls))


def checks(_session, blocks, calls):
    """How often the check is that of the last block."""
    return sum(check_of(block) == check_of(blocks[-1]) for block in in_turn(blocks[-1], calls))


def verdicts(_session, blocks, calls):
    """How often the last block is accepted."""
    return sum(verdict(block, len(blocks) - 1) == 0 for block in in_turn(blocks[-1], calls))
