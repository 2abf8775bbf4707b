#!/usr/bin/env python3
"""Scenarios: block files as texts, from the documents alone.

    python3 tests/scenario.py [SCENARIO]

does what bin/make does: it writes the block file of a scenario, or of standard
input, to standard output. A bad text has no file: its first fault is told on
standard error, and the exit status is 1; it is 2 where the call is wrong, or the
scenario cannot be read or the file written.

A text has an item a line:

    processors COUNT      start CLOCK           task PERIOD
    resource short        resource long         pair OUTER INNER
    arrive T @tick        finish T @tick        pass @tick
    request T R @tick     complete T R @tick    event KIND T R @tick
    block

The first five make the set-up and stand before the rest; `block` begins the next
block, which otherwise begins after 84 events; `#` begins a remark.

Texts are bytes here where they are read, since a line may hold any bytes.
"""

import os
import signal
import sys

sys.dont_write_bytecode = True

from blocks import LOCK_KINDS, blocks_of, setup_of
from model import (ARRIVE, BLOCK, COMPLETE, FINISH, LAST_BLOCK, LAST_CLOCK, MOST_PAIRS, MOST_RECORDS,
                   MOST_RESOURCES, MOST_TASKS, PASS, REQUEST, USES, events_in, setup_in, verdict)

# Document 01's list of the numbers handed back, as far as a text or a file can give them.
WORDS = {
    1: 'a set-up count is outside its limits',
    2: 'a period is 0',
    3: 'a kind is neither 0 nor 1',
    4: 'a pair names a resource not in the table, or one resource twice',
    5: 'a pair puts a long inside a short',
    30: 'block is not 512 bytes',
    31: "block's check is wrong",
    32: "block's number is not the one expected, or its index is above 999,999",
    33: "block's kind is wrong for its place",
    34: 'record count wrong',
    35: 'reserve or filler byte not 0',
}

EVENT_KINDS = {'arrive': ARRIVE, 'finish': FINISH, 'request': REQUEST, 'complete': COMPLETE, 'pass': PASS}
EVENT_WORDS = {kind: word for word, kind in EVENT_KINDS.items()}
LOCK_WORDS = {kind: word for word, kind in LOCK_KINDS.items()}

MOST_LINE = 65_535

# What is wrong with a line, beside the reasons that its arguments have.
TOO_LONG = f'a line has at most {MOST_LINE} bytes'
UNKNOWN = 'unknown item'
TOO_MANY = 'a word too many'
TOO_LATE = 'it must come before the first event'
TWICE = 'it comes a second time'
FULL = 'there is no room for more: 32 tasks, 32 resources, 64 pairs'
NO_PROCESSORS = 'processors must come before the first event'


class Wrong(Exception):
    """The reason why a line is bad."""


class Bad(Exception):
    """A text without a file, or a file without a text, and what is said of it, in bytes."""

    def __init__(self, message):
        super().__init__(message)
        self.message = message


def refused_text(number):
    """A refusal with its reason, by a number of the list."""
    return f'refused {number}: {WORDS[number]}'


def refusal(what, number):
    """Bad, by a number of the list."""
    return Bad(f'{what} {refused_text(number)}'.encode())


# ---- an item: its word and its arguments ----

def value_of(digits, most):
    """The number that these digits stand for; None if there is none, or it is above the limit."""
    if not digits.isdigit():
        return None
    significant = digits.lstrip(b'0')
    if len(significant) > len(str(most)) or int(significant or b'0') > most:
        return None
    return int(significant or b'0')


def number(most):
    """An argument: a function from a word to its value, None if it has none, and the reason then."""
    return lambda word: value_of(word, most), f'a number from 0 to {most} is expected'


def tick_of(word):
    return value_of(word[1:], 65_535) if word[:1] == b'@' else None


def lock_of(word):
    return LOCK_KINDS.get(word.decode('latin-1'))


BYTE, PERIOD, WIDE = number(255), number(65_535), number(LAST_CLOCK)
TICK = tick_of, 'a tick is expected, as @20: from 0 to 65535'
LOCK = lock_of, 'short or long is expected'

ITEMS = {
    'processors': [WIDE], 'start': [WIDE], 'task': [PERIOD], 'resource': [LOCK], 'pair': [BYTE, BYTE],
    'arrive': [BYTE, TICK], 'finish': [BYTE, TICK], 'pass': [TICK],
    'request': [BYTE, BYTE, TICK], 'complete': [BYTE, BYTE, TICK],
    'event': [BYTE, BYTE, BYTE, TICK], 'block': [],
}

# The items of a set-up, and how often each may stand.
MOST = {'processors': 1, 'start': 1, 'task': MOST_TASKS, 'resource': MOST_RESOURCES, 'pair': MOST_PAIRS}


def item_of(line):
    """The word of a line's item and its arguments; None if the line has none."""
    words = [word for word in line.split(b'#')[0].replace(b'\t', b' ').split(b' ') if word]
    if not words:
        return None
    item = words.pop(0).decode('latin-1')
    if item not in ITEMS:
        raise Wrong(UNKNOWN)
    arguments = []
    for read, reason in ITEMS[item]:
        value = read(words.pop(0)) if words else None
        if value is None:
            raise Wrong(reason)
        arguments.append(value)
    if words:
        raise Wrong(TOO_MANY)
    return item, arguments


def event_of(item, arguments):
    """Kind, task, resource and tick of an item that is an event."""
    *fields, tick = arguments
    if item != 'event':
        fields.insert(0, EVENT_KINDS[item])
    kind, task, resource = (fields + [0, 0])[:3]
    return kind, task, resource, tick


# ---- from a text to a file ----

class Reader:
    """What the lines so far have told; a set-up that is given is closed already."""

    def __init__(self, setup=None):
        self.items = {item: [] for item in MOST}    # arguments, as they came
        self.setup = setup                          # once it is closed
        self.groups = []                            # events by block
        self.filling = []                           # events of the block being filled

    def take(self, line):
        """One line, without its LF; the word of its item, None if it has none."""
        if len(line) > MOST_LINE:
            raise Wrong(TOO_LONG)
        told = item_of(line.removesuffix(b'\r'))
        if told is None:
            return None
        item, arguments = told
        if item in MOST:
            self.add(item, arguments)
            return item
        self.close_setup()
        if item == 'block' or len(self.filling) == MOST_RECORDS:
            self.close_block()
        if item != 'block':
            self.filling.append(event_of(item, arguments))
        return item

    def add(self, item, arguments):
        """One item of the set-up."""
        if self.setup is not None:
            raise Wrong(TOO_LATE)
        if len(self.items[item]) == MOST[item]:
            raise Wrong(TWICE if MOST[item] == 1 else FULL)
        self.items[item].append(arguments)

    def close_setup(self):
        """The set-up is judged as soon as it is closed."""
        if self.setup is not None:
            return
        if not self.items['processors']:
            raise Wrong(NO_PROCESSORS)
        [[processors]], [[start]] = self.items['processors'], self.items['start'] or [[0]]
        self.setup = setup_of(processors, start, [period for [period] in self.items['task']],
                              [kind for [kind] in self.items['resource']], self.items['pair'])
        refused = self.setup.refusal()
        if refused:
            raise refusal('set-up', refused)

    def close_block(self):
        """A block without events is none."""
        if self.filling:
            self.groups.append(self.filling)
            self.filling = []
        if len(self.groups) > LAST_BLOCK:
            raise refusal('block', 32)

    def end(self):
        """The text's end is as if `block` stood there."""
        self.close_setup()
        self.close_block()


def file_of(text):
    """The block file of a text, or Bad."""
    reader = Reader()
    for count, line in enumerate(text.split(b'\n'), 1):
        try:
            reader.take(line)
        except Wrong as wrong:
            told = b'' if len(line) > MOST_LINE else b': ' + line.removesuffix(b'\r')
            raise Bad(f'line {count}: {wrong}'.encode() + told) from None
    try:
        reader.end()
    except Wrong as wrong:
        raise Bad(f'at the end: {wrong}'.encode()) from None
    return b''.join(blocks_of(reader.setup, reader.groups))


# ---- from a file to a text ----

def setup_lines(setup):
    yield f'processors {setup.processors}'
    yield f'start {setup.start}'
    yield from (f'task {period}' for period in setup.periods)
    yield from (f'resource {LOCK_WORDS[kind]}' for kind in setup.kinds)
    yield from (f'pair {outer} {inner}' for outer, inner in setup.pairs)


def event_line(kind, task, resource, tick):
    """By the kind's own word, where there is one and the fields that it does not use are 0."""
    uses_task, uses_resource = USES.get(kind, (False, False))
    if kind not in USES or (task and not uses_task) or (resource and not uses_resource):
        return f'event {kind} {task} {resource} @{tick}'
    fields = [str(task)] * uses_task + [str(resource)] * uses_resource
    return ' '.join([EVENT_WORDS[kind], *fields, f'@{tick}'])


def lines_of(data):
    """The lines of a block file's text, or Bad."""
    last = max(len(data) - 1, 0) // BLOCK
    for index in range(last + 1):
        block = data[BLOCK * index:BLOCK * (index + 1)]
        refused = verdict(block, index)
        if refused:
            raise refusal(f'block {index}', refused)
        if index > 0:
            yield from (event_line(*event) for event in events_in(block))
            if index < last and block[3] < MOST_RECORDS:
                yield 'block'
            continue
        setup = setup_in(block)
        refused = setup.refusal()
        if refused:
            raise refusal('set-up', refused)
        yield from setup_lines(setup)


def text_of(data):
    """A block file as a text, in one way only: file_of gives the same file again."""
    return ''.join(f'{line}\n' for line in lines_of(data))


# ---- as commands ----

def tell(program, message):
    """A message on standard error, in bytes, since a name may hold any."""
    sys.stderr.buffer.write(program.encode() + b': ' + message + b'\n')


def write(program, output):
    """Writes the output; the exit status. A reader that stops early ends the program, without a message."""
    signal.signal(signal.SIGPIPE, signal.SIG_DFL)
    try:
        with open(1, 'wb', closefd=False) as file:
            file.write(output)
    except OSError as error:
        tell(program, f'the output could not be written: {error.strerror}'.encode())
        return 2
    return 0


def run(program, output_of, names):
    """Writes the output for the file named, or for standard input; the exit status."""
    name = os.fsencode(names[0]) if names else b'standard input'
    try:
        with open(names[0] if names else 0, 'rb') as file:
            output = output_of(file.read())
    except OSError as error:
        tell(program, b'cannot read ' + name + f': {error.strerror}'.encode())
        return 2
    except Bad as bad:
        tell(program, name + b': ' + bad.message)
        return 1
    return write(program, output)


def call(program, help_text, outputs, words):
    """Runs by the words of a call: an option of `outputs`, None if there is none, and a name; the exit status."""
    output_of, names = outputs[None], list(words)
    while names and names[0].startswith('-') and names[0] != '-':
        word = names.pop(0)
        if word == '--':
            break
        if word in ('-h', '--help'):
            return write(program, help_text.encode())
        if word not in outputs:
            tell(program, b'unknown option ' + os.fsencode(word) + b'; see --help')
            return 2
        output_of = outputs[word]
    if len(names) > 1:
        tell(program, b'one file at most; see --help')
        return 2
    return run(program, output_of, names)


if __name__ == '__main__':
    sys.exit(call('make', __doc__, {None: file_of}, sys.argv[1:]))
