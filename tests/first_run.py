#!/usr/bin/env python3
"""Runs bin/step, bin/make, bin/text and bench/run as a newcomer does, good calls and bad ones.

    python3 tests/first_run.py

What each says, what it writes and its exit status are held to what its --help says. bin/step
and bin/make build their programs first, where they are not built yet. How a build is shown,
and what bench/run does where a compiler is missing, is tried with stand-ins for the tools.
Prints a line for each check that failed, and last how many there were.
"""

import os
import pty
import select
import shutil
import subprocess
import sys
import tempfile
from pathlib import Path

sys.dont_write_bytecode = True

from blocks import block_of, blocks_of, setup
from model import ARRIVE, PASS, check_of

ROOT = Path(__file__).resolve().parent.parent
STEP, MAKE, TEXT, BENCH = (str(ROOT / name) for name in ['bin/step', 'bin/make', 'bin/text', 'bench/run'])
DUMP = [sys.executable, str(ROOT / 'tests/dump.py')]

PRINTED = ROOT / 'crates/step/stdin'
LINES = (ROOT / 'crates/step/stdout').read_bytes()
SCENARIO = ROOT / 'docs/printed.scenario'

# A process whose output nobody reads any more ends by the signal PIPE; a shell that ran it says 128 more.
STOPPED = (-13, 141)

count = failed = 0


def check(title, was, expected):
    """Holds one thing to what is expected of it."""
    global count, failed
    count += 1
    if was != expected:
        failed += 1
        print(f'{title}: {was!r}, expected: {expected!r}')


def run(command, data=b'', **how):
    return subprocess.run([str(word) for word in command], input=None if 'stdin' in how else data,
                          stdout=how.pop('stdout', subprocess.PIPE), stderr=subprocess.PIPE, **how)


def expect(command, status, said, out=b'', data=b'', **how):
    """A call by its exit status, what it says on standard error, and what it writes."""
    done = run(command, data, **how)
    title = ' '.join(Path(word).name for word in map(str, command))
    check(f'{title}: exit status', done.returncode, status)
    check(f'{title}: standard error', done.stderr.decode(errors='replace'), said)
    if done.stdout is not None:
        check(f'{title}: standard output', done.stdout, out)


def expect_unread(command, folder, said):
    """A call whose input is opened, and every read of it fails."""
    directory = os.open(folder, os.O_RDONLY)
    expect([command], 2, said, stdin=directory)
    os.close(directory)


def expect_unwritten(command, said):
    """A call whose output cannot be written."""
    with open('/dev/full', 'wb') as full:
        expect(command, 2, said, stdout=full)


def expect_stopped(command):
    """A call whose output is read no further than its first byte."""
    process = subprocess.Popen([str(word) for word in command], stdin=subprocess.DEVNULL,
                               stdout=subprocess.PIPE, stderr=subprocess.PIPE)
    process.stdout.read(1)
    process.stdout.close()
    said = process.stderr.read()
    title = f'{Path(command[0]).name}, its output not read to the end'
    check(f'{title}: exit status in {STOPPED}', process.wait() in STOPPED, True)
    check(f'{title}: standard error', said, b'')


# ---- files ----

ONE = setup(1, [5])
EVENTS = [[(ARRIVE, 0, 0, 1)], [(PASS, 0, 0, 2)], [(PASS, 0, 0, 3)]]


def spoiled(blocks, index, at, value):
    """A byte of a block changed, its check not."""
    block = bytearray(blocks[index])
    block[at] = value
    return [*blocks[:index], bytes(block), *blocks[index + 1:]]


def files():
    """Refused files: the last line that is printed of each, and what is told of the block by its bytes."""
    good = blocks_of(ONE, EVENTS)
    right = check_of(spoiled(good, 3, 4, 9)[3]).hex(' ')
    wrong_count = bytes([1, 0, 2, 85]) + bytes(504)
    return {
        'empty': (b'', 'block 0 refused 30', 'block 0: refused 30: block is not 512 bytes; it has 0'),
        'short': (b''.join(good)[:-1], 'block 3 refused 30', 'block 3: refused 30: block is not 512 bytes; it has 511'),
        'check': (b''.join(spoiled(good, 3, 4, 9)), 'block 3 refused 31',
                  f"block 3: refused 31: block's check is wrong; it should be {right}"),
        'number': (b''.join([*good[:2], good[3]]), 'block 2 refused 32',
                   "block 2: refused 32: block's number is not the one expected, or its index is above 999,999;"
                   ' it should be 2'),
        'kind': (b''.join([good[0], block_of(1, 1, 1, b'')]), 'block 1 refused 33',
                 "block 1: refused 33: block's kind is wrong for its place; it should be 2"),
        'count': (b''.join([good[0], wrong_count + check_of(wrong_count)]), 'block 1 refused 34',
                  'block 1: refused 34: record count wrong; it should be 1 to 84'),
        'filler': (b''.join([good[0], block_of(1, 2, 1, bytes(503) + b'\1')]), 'block 1 refused 35',
                   'block 1: refused 35: reserve or filler byte not 0'),
        'set-up': (b''.join(blocks_of(setup(1, [5, 0]), [])), 'setup refused 2',
                   'block 0: accepted; set-up refused 2: a period is 0'),
    }


# ---- the programs ----

def build():
    """Builds both programs; the progress goes to the terminal."""
    for command in [[STEP, PRINTED], [MAKE, SCENARIO]]:
        if subprocess.run([str(word) for word in command], stdout=subprocess.DEVNULL).returncode != 0:
            sys.exit(f'{Path(command[0]).name} does not run')


def try_calls(command, missing, folder):
    """What is the same of every command: --help, unknown options, files that cannot be read."""
    name = Path(command[-1]).name.removesuffix('.py')
    for option in ['-h', '--help']:
        done = run([*command, option])
        check(f'{name} {option}: exit status', done.returncode, 0)
        check(f'{name} {option}: standard error', done.stderr, b'')
        if name != 'dump':
            check(f'{name} {option}: its first words', done.stdout.split(b' [')[0], b'usage: bin/' + name.encode())
    with open('/dev/full', 'wb') as full:
        check(f'{name} --help, not written', run([*command, '--help'], stdout=full).returncode, 2)
    for option in ['--unknown', '-u', '--help=yes']:
        expect([*command, option], 2, f'{name}: unknown option {option}; see --help\n')
    expect([*command, missing, missing], 2, f'{name}: one file at most; see --help\n')
    reasons = {missing: 'there is no such file', folder: 'it is a directory'}
    if name not in ('step', 'make'):
        reasons = {missing: 'No such file or directory', folder: 'Is a directory'}
    for file, reason in reasons.items():
        expect([*command, file], 2, f'{name}: cannot read {file}: {reason}\n')
        expect([*command, '--', file], 2, f'{name}: cannot read {file}: {reason}\n')


def try_step(folder, large):
    expect([STEP, PRINTED], 0, '', LINES)
    expect([STEP], 0, '', LINES, PRINTED.read_bytes())
    shutil.copy(PRINTED, folder / '-good')
    expect([STEP, '--', '-good'], 0, '', LINES, cwd=folder)
    # The plain engine, of a file that is named and of standard input; its option comes first, and once.
    expect([STEP, '--plain', PRINTED], 0, '', LINES)
    expect([STEP, '--plain'], 0, '', LINES, PRINTED.read_bytes())
    expect([STEP, '--plain', '--', '-good'], 0, '', LINES, cwd=folder)
    expect([STEP, '--plain', '--plain'], 2, 'step: unknown option --plain; see --help\n')
    expect([STEP, PRINTED, '--plain'], 2, 'step: one file at most; see --help\n')
    shutil.copy(PRINTED, folder / '--plain')
    expect([STEP, '--', '--plain'], 0, '', LINES, cwd=folder)
    check('step and step --plain print the same of a large file', run([STEP, '--plain', large]).stdout, run([STEP, large]).stdout)
    for name, (data, line, _) in files().items():
        (folder / name).write_bytes(data)
        done = run([STEP, folder / name])
        check(f'step --plain on {name}: the same', [(again.returncode, again.stdout, again.stderr)
              for again in [run([STEP, '--plain', folder / name])]], [(done.returncode, done.stdout, done.stderr)])
        said = f'step: {folder / name}: a block or the set-up was refused: see the last line\n'
        check(f'step on {name}: exit status', done.returncode, 1)
        check(f'step on {name}: last line', done.stdout.decode().splitlines()[-1:], [line])
        check(f'step on {name}: standard error', done.stderr.decode(), said)
    expect_unwritten([STEP, PRINTED], 'step: the output could not be written\n')
    expect_unwritten([STEP, folder / 'check'], 'step: the output could not be written\n')
    expect_stopped([STEP, large])
    expect_unread(STEP, folder, 'step: cannot read standard input: a read failed\n')
    # A block's lines are there before the next block is.
    process = subprocess.Popen([STEP], stdin=subprocess.PIPE, stdout=subprocess.PIPE)
    process.stdin.write(PRINTED.read_bytes()[:512])
    process.stdin.flush()
    there = bool(select.select([process.stdout], [], [], 60)[0])
    check('step: a line of each block as it comes', there and process.stdout.readline(), LINES.splitlines(True)[0])
    process.communicate(PRINTED.read_bytes()[512:])
    check('step: exit status behind that', process.returncode, 0)


def try_make(folder):
    expect([MAKE, SCENARIO], 0, '', PRINTED.read_bytes())
    expect([MAKE], 0, '', PRINTED.read_bytes(), SCENARIO.read_bytes())
    bad = folder / 'bad.scenario'
    bad.write_text('processors 1\nperiod 3\n')
    expect([MAKE, bad], 1, f'make: {bad}: line 2: unknown item: period 3\n')
    expect([MAKE], 1, 'make: standard input: at the end: processors must come before the first event\n')
    expect_unwritten([MAKE, SCENARIO], 'make: the output could not be written\n')
    expect_unread(MAKE, folder, 'make: standard input: the scenario could not be read\n')
    many = folder / 'many.scenario'
    many.write_text('processors 1\ntask 5\n' + 'pass @1\nblock\n' * 3000)
    expect_stopped([MAKE, many])


def try_text(folder, large):
    text = run([TEXT, PRINTED])
    check('text: exit status', text.returncode, 0)
    check('text: made a file of again', run([MAKE], text.stdout).stdout, PRINTED.read_bytes())
    for command in [[TEXT, '--bytes'], DUMP]:
        done = run([*command, PRINTED])
        check('text --bytes: exit status', done.returncode, 0)
        check('text --bytes: first line', done.stdout.splitlines()[0], b'block 0: accepted')
        for name, (data, _, told) in files().items():
            done = run(command, data)
            blocks = [line for line in done.stdout.decode().splitlines() if line.startswith('block ')]
            check(f'text --bytes on {name}: exit status', done.returncode, 0)
            check(f'text --bytes on {name}: standard error', done.stderr, b'')
            check(f'text --bytes on {name}: last block', blocks[-1], told)
        name = 'text' if command[0] == TEXT else 'dump'
        expect_unwritten([*command, PRINTED], f'{name}: the output could not be written: No space left on device\n')
        expect_stopped([*command, large])
    expect([TEXT, folder / 'check'], 1, f"text: {folder / 'check'}: block 3 refused 31: block's check is wrong\n")
    expect_unwritten([TEXT, PRINTED], 'text: the output could not be written: No space left on device\n')
    expect_stopped([TEXT, large])


# ---- stand-ins for the toolchain, for a program, for a compiler and for apt-get ----

CRATES = """\
step: mid high thiserror
mid: low     # a remark: with a colon
high: mid
other: low
low:
"""

# A library is built in its folder, behind those that it uses, and says nothing where it was built before.
RT = """\
#!/bin/sh
crate=${PWD##*/}
[ -d src ] || exit 2
case "$1 $crate" in
'lib low') exit ;;
'lib mid' | 'lib high' | 'run step') ;;
*) exit 2 ;;
esac
{
    echo "rt: chose --jobs 2 for $crate"
    echo "fn $crate::error: proved"
    if [ "$crate" = "${FAULTY-}" ]; then
        echo 'src/main.rt:1:1: error[unknown-name]: not so'
        echo '    a hint'
        echo "fn $crate::main: not proved"
        echo 'library low: modules loaded=1 checked=0'
        echo 'rattle build: nothing was built'
        exit 1
    fi
    if [ "$crate" = "${STUCK-}" ]; then
        echo 'no room'
        exit 2
    fi
    echo 'logic=proved functions=1'
} >&2
mkdir -p out
[ "$1" = run ] || exit 0
cp "$PROGRAM" out/step
exec out/step
"""

PROGRAM = """\
#!/bin/sh
echo a line
[ -z "${SAYS-}" ] || echo "$SAYS" >&2
exit "${ENDS-0}"
"""


def script(path, text):
    path.parent.mkdir(parents=True, exist_ok=True)
    path.write_text(text)
    path.chmod(0o755)


def on_terminal(command, answer=b'', **how):
    """The exit status of a call with a terminal, and what the terminal showed."""
    ours, theirs = pty.openpty()
    process = subprocess.Popen([str(word) for word in command], stdin=theirs, stdout=subprocess.DEVNULL,
                               stderr=theirs, **how)
    os.close(theirs)
    os.write(ours, answer)
    shown = b''
    while True:
        try:
            part = os.read(ours, 4096)
        except OSError:     # the other side is closed
            break
        if not part:
            break
        shown += part
    os.close(ours)
    return process.wait(), shown.decode(errors='replace').replace('\r\n', '\n')


def try_build(folder):
    """The build as it is shown, and what becomes of what a program says."""
    root, tools = folder / 'root', folder / 'tools'
    for crate in ['low', 'mid', 'high', 'other', 'step']:
        (root / 'crates' / crate / 'src').mkdir(parents=True)
    source = root / 'crates/low/src/lib.rt'
    for file in [source, root / 'crates/step/stdin']:
        file.write_text('')
    shutil.copytree(ROOT / 'bin', root / 'bin')
    (root / 'crates.txt').write_text(CRATES)
    script(tools / 'bin/rt', RT)
    script(tools / 'program', PROGRAM)
    step, log, built = root / 'bin/step', root / 'target/step.log', root / 'target/step.built'
    env = {**os.environ, 'PATH': f"{tools / 'bin'}:{os.environ['PATH']}", 'PROGRAM': str(tools / 'program')}
    begins = 'step: building the program: the 4 crates that it is made of are proved first, which takes some minutes\n'
    lines = [f'step: {n} of 4 crates proved' for n in range(5)]
    shown = begins + ''.join(f'{line}\n' for line in lines[1:])

    ends = f'step: the program was not built; all that the prover said is in {log}\n'
    why = ('== step\nsrc/main.rt:1:1: error[unknown-name]: not so\nfn step::main: not proved\n'
           f'rattle build: nothing was built\n{ends}')
    faulty = {**env, 'FAULTY': 'step'}
    expect([step], 2, begins + ''.join(f'{line}\n' for line in lines[1:4]) + why, env=faulty)
    check('a build that failed: it is not taken for built', built.exists(), False)
    check('a build that failed: its log', 'fn mid::error: proved' in log.read_text(), True)
    told = on_terminal([step], env=faulty)
    check('a build that failed, on a terminal', told,
          (2, begins + '\r'.join(lines[:4]) + '\n' + why))
    # A library that failed, by its name; and what says nothing of why it did is shown as it ends.
    expect([step], 2, f'{begins}{lines[1]}\n' + why.replace('== step', '== mid').replace('step::', 'mid::'),
           env={**env, 'FAULTY': 'mid'})
    expect([step], 2, f'{begins}{lines[1]}\n{lines[2]}\n== high\nno room\n{ends}', env={**env, 'STUCK': 'high'})
    expect([step], 0, shown, b'a line\n', env=env)
    check('a build: its log', log.read_text().count('logic=proved'), 3)
    expect([step], 0, '', b'a line\n', env=env)
    # What the toolchain keeps beside the sources is none of them, and the program is there without it.
    shutil.rmtree(root / 'crates/step/out')
    (root / 'crates/other/out').mkdir()
    (root / 'crates/high/out/kept').write_text('')
    expect([step], 0, '', b'a line\n', env=env)
    # A source that is changed, and one that is gone.
    source.write_text('changed')
    expect([step], 0, shown, b'a line\n', env=env)
    source.unlink()
    expect([step], 0, shown, b'a line\n', env=env)
    (root / 'crates.txt').write_text(CRATES)
    expect([step], 0, shown, b'a line\n', env=env)
    expect([step], 0, '', b'a line\n', env=env)
    built.unlink()
    told = on_terminal([step], env=env)
    check('a build on a terminal', told, (0, begins + '\r'.join(lines) + '\n'))

    refused = 'step: standard input: a block or the set-up was refused: see the last line\n'
    for says, ends, status, said in [
            ('refused', 0, 1, refused),
            ('not written', 0, 2, 'step: the output could not be written\n'),
            ('not read', 0, 2, 'step: cannot read standard input: a read failed\n'),
            ('', 3, 2, 'step: the program ended with status 3\n'),
            ('oh', 139, 2, 'oh\nstep: the program ended with status 139\n'),
            ('', 141, 141, ''),
    ]:
        expect([step], status, said, b'a line\n', env={**env, 'SAYS': says, 'ENDS': str(ends)})

    # The toolchain is needed to build the program alone.
    without = {**env, 'PATH': '/usr/bin:/bin'}
    expect([step], 0, '', b'a line\n', env=without)
    (root / 'crates.txt').write_text('low:\n')
    expect([step], 2, 'step: crates.txt lists no crate step\n', env=env)
    expect([step], 2, 'step: rt is not on the path: the Rattle toolchain is needed to build the program\n', env=without)


def try_bench(folder):
    """Calls that end before anything is timed: nothing is installed without leave."""
    for option in ['-h', '--help']:
        done = run([BENCH, option])
        check(f'bench/run {option}: exit status', done.returncode, 0)
        check(f'bench/run {option}: first words', done.stdout.startswith(b'usage: bench/run '), True)
    for words, why in [
            (['--unknown'], 'unknown option --unknown'), (['--seeds'], '--seeds needs a number'),
            (['--compare'], '--compare needs a number'), (['1', '2', '3'], 'too many words'),
            (['--table', '--seeds', '2'], 'one of --seeds, --table and --compare at most'),
            (['--seeds', '0'], 'a number above 0 is expected: 0'), (['many'], 'a number above 0 is expected: many'),
            (['--', '--table'], 'a number above 0 is expected: --table'),
    ]:
        expect([BENCH, *words], 2, f'bench/run: {why}; see --help\n')

    tools, called = folder / 'none', folder / 'called'
    script(tools / 'cc', '#!/bin/sh\nexit 1\n')
    script(tools / 'apt-get', f'#!/bin/sh\necho "$*" >>"{called}"\necho no network\nexit 1\n')
    env = {**os.environ, 'PATH': f"{tools}:{os.environ['PATH']}"}
    missing = 'gcc libc6-dev'
    expect([BENCH], 2, f'bench/run: missing: {missing}; install these packages, or call bench/run --yes\n', env=env)
    asked = f'These packages are missing: {missing}. Install them by apt-get? [y/N] '
    for answer in ['n', '']:
        status, shown = on_terminal([BENCH], f'{answer}\n'.encode(), env=env)
        check(f'bench/run, answered {answer!r}: exit status', status, 2)
        check(f'bench/run, answered {answer!r}: it asks', asked in shown, True)
        check(f'bench/run, answered {answer!r}: it stops', shown.endswith('; nothing was installed\n'), True)
    check('bench/run: nothing is installed without leave', called.exists(), False)
    status, shown = on_terminal([BENCH], b'y\n', env=env)
    check('bench/run, answered y: exit status', status, 2)
    why = f'no network\nbench/run: apt-get could not install {missing}\n'
    check('bench/run, answered y: it tells', shown.endswith(why), True)
    check('bench/run, answered y: apt-get is called', called.exists() and called.read_text().splitlines()[0],
          f'install -y {missing}')
    expect([BENCH, '--yes'], 2, why, f'installing {missing}\n'.encode(), env=env)


def main():
    build()
    with tempfile.TemporaryDirectory() as name:
        folder = Path(name)
        large = folder / 'large'
        large.write_bytes(b''.join(blocks_of(ONE, [[(PASS, 0, 0, 1)] * 84] * 500)))
        for command in [[STEP], [MAKE], [TEXT], DUMP]:
            try_calls(command, folder / 'missing', folder)
        try_step(folder, large)
        try_make(folder)
        try_text(folder, large)
        try_build(folder)
        try_bench(folder)
    print(f'{count} checks, {failed} failed')
    return 1 if failed else 0


if __name__ == '__main__':
    sys.exit(main())
