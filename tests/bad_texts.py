"""Bad scenarios by hand, and good ones close to them.

Each is a text with the beginning of what has to be said of it, b'' of a good one. The
reasons stand here as the documents have them, so that tests/scenario.py is held to them too.
"""

BYTE = b'a number from 0 to 255 is expected'
PERIOD = b'a number from 0 to 65535 is expected'
WIDE = b'a number from 0 to 4294967295 is expected'
TICK = b'a tick is expected, as @20: from 0 to 65535'
LOCK = b'short or long is expected'
UNKNOWN = b'unknown item'
TOO_MANY = b'a word too many'
TWICE = b'it comes a second time'
TOO_LATE = b'it must come before the first event'
FULL = b'there is no room for more: 32 tasks, 32 resources, 64 pairs'
FIRST = b'processors must come before the first event'
AT_THE_END = b'at the end: processors must come before the first event\n'
REFUSED_1 = b'set-up refused 1: a set-up count is outside its limits\n'
REFUSED_2 = b'set-up refused 2: a period is 0\n'
REFUSED_4 = b'set-up refused 4: a pair names a resource not in the table, or one resource twice\n'
REFUSED_5 = b'set-up refused 5: a pair puts a long inside a short\n'

ONE = b'processors 1\ntask 5\n'
PAIRED = b'processors 2\ntask 5\ntask 6\nresource short\nresource long\npair 1 0\n'


def last_line(before, reason, *lines):
    """Texts whose last line is bad, each for the same reason."""
    number = before.count(b'\n') + 1
    for line in lines:
        yield before + line, b'line %d: %s: %s\n' % (number, reason, line)


def whole_texts():
    for text in [b'', b'\n', b'\r\n\t \r\n', b'# processors 1\n  # task 5', b'start 5', b'task 5\nresource short\n']:
        yield text, AT_THE_END
    yield ONE, b''
    yield ONE.removesuffix(b'\n'), b''
    yield b'\n \t\n#\n' + ONE + b'\n\n', b''
    yield b'task 5\nprocessors 1\n', b''
    yield b'pair 1 0\nresource short\nresource long\ntask 5\nprocessors 1\n', b''
    yield b'\tprocessors\t\t1 \t\ntask \t5\t# x\n  pass\t@2#\n', b''
    yield b'processors 1#\ntask 5#6\npass @2#3\n', b''
    yield b'processors#1\n', b'line 1: ' + WIDE + b': processors#1\n'


def line_ends():
    """One CR belongs to the end of a line; others are part of a word."""
    yield ONE.replace(b'\n', b'\r\n'), b''
    yield ONE + b'\r', b''
    yield ONE + b'pass @1\r', b''
    yield ONE + b'pass @1 # x\r\r\n', b''
    yield ONE + b'pass @1\r\r\n', b'line 3: ' + TICK + b': pass @1\r\n'
    yield ONE + b'pass @1 \r\r\n', b'line 3: ' + TOO_MANY + b': pass @1 \r\n'
    yield ONE + b'what\r\npass', b'line 3: ' + UNKNOWN + b': what\n'
    yield from last_line(ONE, UNKNOWN, b'pass\r@1', b'\rpass @1', b'\r \t')


def words():
    yield from last_line(
        ONE, UNKNOWN, b'proc 1', b'Processors 1', b'PASS @1', b'7', b'@7', b'tasks 5', b'arrives 0 @1', b'---', b'\0',
        b'pass\0 @1', b'\x0cpass @1', b'\x0bpass @1', b'\xc2\xa0pass @1', b'\xffpass @1', b'pass\xff', b'pas',
        b'passe @1', b'blocks', b'block,', b'\xef\xbb\xbfprocessors 1', b'processors=1', b'short', b'x # remark',
        b'  \t what now  ', b'pass@1')
    yield from last_line(
        b'', TOO_MANY, b'processors 1 1', b'start 1 x', b'task 5 5', b'resource short long', b'pair 0 0 0',
        b'arrive 0 @1 @1', b'finish 0 @1 0', b'pass @1 1', b'request 0 0 @1 x', b'complete 0 0 @1 \0',
        b'event 0 0 0 @1 0', b'block 1', b'block block', b'block @1', b'block \x0b')


def numbers():
    yield from last_line(
        b'task 5\n', WIDE, b'processors', b'start', b'processors x', b'processors 4294967296', b'start 4294967296',
        b'start 4294967300', b'start 9999999999', b'start 42949672950', b'start 18446744073709551616', b'start -1',
        b'start +1', b'start 0x1', b'start 1.0', b'start 1,000', b'start 1_0', b'start @1', b'start 1\0',
        b'start \xd9\xa1', b'start ' + b'9' * 5000, b'start x y z')
    yield from last_line(
        b'processors 1\n', PERIOD, b'task', b'task 65536', b'task 99999', b'task -5', b'task 5x', b'task x 5',
        b'task 4294967301', b'task 18446744073709551621', b'task @5', b'task 655350', b'task short')
    yield from last_line(
        b'processors 1\n', LOCK, b'resource', b'resource 0', b'resource Short', b'resource shorts', b'resource lon',
        b'resource s l', b'resource \xff')
    yield ONE + b'start 4294967295\nevent 255 255 255 @65535\npass @0\n', b''
    yield ONE + b'start ' + b'0' * 60000 + b'4294967295\npass @' + b'0' * 30000 + b'\n', b''
    yield (b'processors 0008\ntask 00065535\nresource short\nresource long\npair 001 000\n'
           b'finish 0000255 @0065535'), b''


def fields():
    yield from last_line(
        b'processors 1\n', BYTE, b'pair', b'pair 0', b'pair 256 0', b'pair 0 256', b'pair x', b'pair 0 @1', b'pair 0,1',
        b'arrive', b'arrive @1', b'arrive 256 @1', b'arrive x 256 @1', b'finish', b'finish @5', b'finish 999 @5',
        b'request', b'request 1', b'request 1 @5', b'request 256 0 @5', b'request 0 256 @5', b'complete',
        b'complete 1', b'complete 0 x @5', b'event', b'event 7', b'event 7 1', b'event 7 1 @5', b'event 256 0 0 @5',
        b'event 0 256 0 @5', b'event 0 0 256 @5', b'event pass 0 0 @5', b'arrive 4294967296 @5')
    yield from last_line(
        b'', TICK, b'pass', b'pass 5', b'pass @', b'pass @ 5', b'pass @65536', b'pass @65540', b'pass @-1', b'pass @@5',
        b'pass @5x', b'pass 5@', b'pass @' + b'7' * 20000, b'pass @0x5', b'arrive 0', b'arrive 0 1 @5',
        b'arrive 0 @65536', b'finish 0', b'finish 0 5', b'request 0 0', b'request 0 0 0 @5', b'complete 0 0 @655350',
        b'event 1 2 3', b'event 1 2 3 4 @5', b'event 1 2 3 @4294967296', b'pass @ # 5', b'pass #@5')


def order():
    setup = [b'processors 1', b'start 0', b'task 5', b'resource short', b'pair 1 0']
    yield from last_line(ONE + b'pass @1\n', TOO_LATE, *setup)
    yield from last_line(ONE + b'start 7\nblock\n', TOO_LATE, *setup, b'task 5 # x')
    yield from last_line(ONE + b'task 5\n' * 31 + b'block\n', TOO_LATE, b'task 5', b'task 65535')
    yield from last_line(ONE + b'block\n', TOO_MANY, *(line + b' x' for line in setup))
    yield from last_line(ONE, TWICE, b'processors 1', b'processors 0')
    yield from last_line(b'start 0\n', TWICE, b'start 0', b'  start 00 # x')
    yield from last_line(b'processors 1\n', WIDE, b'processors')
    yield from last_line(b'start 0\n', TOO_MANY, b'start 0 0')
    yield from last_line(b'task 5\n', FIRST, b'pass @1', b'block', b'event 0 0 0 @0', b'finish 0 @0 # x')
    yield b'pass @1\nprocessors 1\n', b'line 1: ' + FIRST + b': pass @1\n'
    yield b'task 0\n\n\r\n  arrive 0 @0  # x\r\n', b'line 4: ' + FIRST + b':   arrive 0 @0  # x\n'


def tables():
    yield ONE + b'task 5\n' * 31, b''
    yield ONE + b'resource long\n' * 32, b''
    yield PAIRED + b'pair 1 0\n' * 63, b''
    yield from last_line(ONE + b'task 5\n' * 31, FULL, b'task 5', b'task 0')
    yield from last_line(ONE + b'resource long\n' * 32, FULL, b'resource long', b'resource short # x')
    yield from last_line(PAIRED + b'pair 1 0\n' * 63, FULL, b'pair 1 0', b'pair 255 255')
    yield from last_line(PAIRED + b'pair 1 0\n' * 63, TOO_MANY, b'pair 1 0 0')
    yield ONE + b'task 0\n' * 31 + b'task 5\npass @1\nwhat', b'line 34: ' + FULL + b': task 5\n'


def setups():
    for text in [b'processors 1', b'processors 0\ntask 5', b'processors 9\ntask 5', b'processors 256\ntask 5',
                 b'processors 257\ntask 5', b'processors 65537\ntask 5', b'processors 4294967295\ntask 5',
                 b'processors 1\nstart 5', b'processors 0\ntask 0\npair 0 0\npass @1\nwhat',
                 b'processors 1\nblock\nwhat', b'processors 0\ntask 5\npass @1\npass\n']:
        yield text, REFUSED_1
    yield b'processors 8\ntask 1\ntask 0\n', REFUSED_2
    yield b'processors 8\ntask 0\npair 0 0\nblock\nblock\n', REFUSED_2
    for pair in [b'2 0', b'1 2', b'0 0', b'255 255', b'0 1\npair 1 1']:
        yield PAIRED + b'pair ' + pair, REFUSED_4
    yield ONE + b'pair 1 0\n', REFUSED_4
    yield PAIRED + b'pair 0 1\n', REFUSED_5
    yield PAIRED + b'pair 0 1\npass @1\npass\n', REFUSED_5
    yield from last_line(b'processors 0\ntask 5\n', TICK, b'pass')
    yield from last_line(b'processors 0\ntask 5\n', UNKNOWN, b'what')


def blocks():
    yield ONE + b'block\n', b''
    yield ONE + b'block', b''
    yield ONE + b'block\n' * 5 + b'pass @1\nblock\r\n\nblock\npass @2\nblock\nblock # x\n', b''
    for events in [83, 84, 85, 168, 169]:
        yield ONE + b'pass @1\n' * events, b''
        yield ONE + b'pass @1\n' * events + b'block\npass @2\nblock', b''


def padded(length, end=b'\n'):
    """A line of so many bytes, its end apart."""
    return b'pass @7 #'.ljust(length, b'x') + end


def lengths():
    for line in [padded(65_535), padded(65_535, b''), padded(65_534, b'\r\n'), b' ' * 65_528 + b'pass @7',
                 b'pass @' + b'0' * 65_528 + b'7\n', (b'#' * 60_000 + b'\n') * 5]:
        yield ONE + line, b''
    yield from last_line(ONE, UNKNOWN, b'what'.ljust(65_535, b'x'), b'what'.ljust(65_535))
    for line in [padded(65_536), padded(65_536, b''), padded(65_535, b'\r\n'), b' ' * 65_536 + b'\npass @1\n',
                 b'#'.ljust(200_000), b'what'.ljust(200_000) + b'\n']:
        yield ONE + line, b'line 3: '
    yield b'processors 0\ntask 5\npass @1\n' + padded(65_536), REFUSED_1


def by_hand():
    """All of them."""
    for part in [whole_texts, line_ends, words, numbers, fields, order, tables, setups, blocks, lengths]:
        yield from part()
