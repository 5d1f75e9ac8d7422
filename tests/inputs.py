#!/usr/bin/env python3
"""The program `lines` on whole inputs, which is run and not proved: python3 tests/inputs.py, where ./lines has been run.

What it must print is worked out by tests/lines.py, and with --gpx by tests/waypoints.py. The checks are of what lies outside the
proofs: how an input comes in pieces and ends, how much of it is read, outputs and inputs that fail, arguments, stack and heap; and
of the script ./lines, what it says, its exit status, and what it does where there is no toolchain. Prints a line for each, and ends
with an error where one fails.
"""
import os
import random
import re
import resource
import select
import shutil
import subprocess
import sys
import tempfile
from concurrent.futures import ThreadPoolExecutor

import lines
import program
import waypoints
from lines import GOOD, INPUT, OUTPUT

LIMIT = 100_000_000            # bytes that are read of an input
STACK = 256                    # KiB that are enough
WAIT = 600                     # seconds after which a run that has not ended is a failure
MANY = 1_000_000
AT_ONCE = 6                    # runs of ./lines
SEED = 1989

COMMAND = program.proved('lines')
GPX = COMMAND + ['--gpx']
SCRIPT_GPX = ['./lines', '--gpx']

# What is said on standard error, by the program and by ./lines.
AT_LIMIT = b'lines: 100,000,000 bytes were read, which is the most; any bytes that follow are not answered\n'
UNREAD = b'lines: standard input could not be read\n'
UNWRITTEN = b'lines: standard output could not be written\n'
FULL = b'lines: standard output could not be written: No space left on device\n'
CUT = b'lines: only the first 100,000,000 bytes were read and answered; docs/LINES.md says how to answer a larger input\n'
OTHER_WORDS = b'lines: it takes no argument but --gpx\n'
REFUSED_WORDS = b'lines: it takes no arguments but --gpx and reads standard input; ./lines --help says more\n'
FIRST = b'lines: the first run proves and builds the program, which takes a few minutes\n'
CLOSED = b'lines: standard input or standard output is closed\n'
GONE = b'lines: crates/lines/out/lines is gone; remove the folder crates/lines/out, and run ./lines again\n'
UNPROVED = b'lines: the program could not be proved and built\n'
UNBUILT = b'lines: the program has not been built, and rt, of the Rattle toolchain, which builds it, is not on the path\n'
NO_LIBRARY = b'lines: rt is not on the path, and on this machine its C library is needed\nlines: the program ended with status 2\n'


def printed(given, command=COMMAND):
    """What the program makes of an input that comes through a pipe; none where it does not end as it should, and say nothing."""
    done = subprocess.run(command, input=given, stdout=subprocess.PIPE, stderr=subprocess.PIPE, timeout=WAIT)
    return done.stdout if (done.returncode, done.stderr) == (0, b'') else None


def worked(command):
    """What works out what a command must print."""
    return waypoints.printed if command[-1] == '--gpx' else lines.printed


def is_right(given, command=COMMAND):
    return printed(given, command) == worked(command)(given)


def is_right_in_pieces(given, size, command=COMMAND):
    """In packet mode a pipe gives each read what one write had."""
    reading, writing = os.pipe2(os.O_DIRECT | os.O_CLOEXEC)
    with tempfile.TemporaryFile() as out:
        child = subprocess.Popen(command, stdin=reading, stdout=out)
        os.close(reading)
        for at in range(0, len(given), size):
            os.write(writing, given[at:at + size])
        os.close(writing)
        status = child.wait(timeout=WAIT)
        out.seek(0)
        return status == 0 and out.read() == worked(command)(given)


def is_right_at_limit(before, after, ended=(0, AT_LIMIT), command=COMMAND, end=LIMIT, taken=LIMIT):
    """A line of zero bytes, longer than any that is answered, then what ends at the limit, and what is beyond it, which is not
    read: that it ended so is said."""
    with tempfile.TemporaryFile() as f:
        f.truncate(end - len(before))
        f.seek(0, os.SEEK_END)
        f.write(before + after)
        f.seek(0)
        done = subprocess.run(command, stdin=f, stdout=subprocess.PIPE, stderr=subprocess.PIPE, timeout=WAIT)
        is_taken = os.lseek(f.fileno(), 0, os.SEEK_CUR) == taken
    is_answered = done.stdout == worked(command)(b'overlong' + before)
    return is_taken and is_answered and (done.returncode, done.stderr) == ended


def refuses_words(*words):
    """Other arguments than --gpx: a message, and nothing is printed or read."""
    with tempfile.TemporaryFile() as f:
        f.write(INPUT)
        f.seek(0)
        done = subprocess.run([*COMMAND, *words], stdin=f, stdout=subprocess.PIPE, stderr=subprocess.PIPE, timeout=WAIT)
        taken = os.lseek(f.fileno(), 0, os.SEEK_CUR)
    return (done.returncode, done.stdout, done.stderr, taken) == (0, b'', OTHER_WORDS, 0)


def ends_at_closed_output(is_ignored):
    """A write that no one can read fails, and ends the program: the signal of it is ignored from the start, as by every program of
    the toolchain, where it was not before too. Its input has been read from once."""
    reading, writing = os.pipe()
    os.close(reading)
    with tempfile.TemporaryFile() as f:
        f.write(INPUT * 100_000)
        f.seek(0)
        done = subprocess.run(COMMAND, stdin=f, stdout=writing, stderr=subprocess.PIPE, restore_signals=not is_ignored, timeout=WAIT)
        os.close(writing)
        taken = os.lseek(f.fileno(), 0, os.SEEK_CUR)
    return (done.returncode, done.stderr) == (0, UNWRITTEN) and taken <= lines.READ


def ends_unread(unread, answered=b'', command=COMMAND):
    """An input that cannot be read any further is the end, with nothing printed for it but a word of it on standard error."""
    done = subprocess.run(command, stdin=unread, stdout=subprocess.PIPE, stderr=subprocess.PIPE, timeout=WAIT)
    os.close(unread)
    return (done.returncode, done.stdout, done.stderr) == (0, answered, UNREAD)


def ends_at_later_read():
    """The first read gives what the pipe has, and the next, which would have to wait for more, fails. The line that is begun by then
    is not answered."""
    reading, writing = os.pipe2(os.O_NONBLOCK | os.O_CLOEXEC)
    os.write(writing, INPUT + GOOD)
    right = ends_unread(reading, OUTPUT)
    os.close(writing)
    return right


def is_right_on_stack():
    """With so much stack all goes as it should, and with half of it nothing: so the limit is one."""
    return all([printed(EVERY, program.with_stack(size, command)) for size in (STACK, STACK // 2)] == [worked(command)(EVERY), None]
               for command in (COMMAND, GPX))


def has_no_heap():
    """Of the C library the program takes what starts and ends every program, and these, none of which allocates. It makes no
    system call itself. The toolchain's library asks the last why a call failed."""
    objdump = ['x86_64-linux-gnu-objdump', '--no-show-raw-insn', '-T', '-d', COMMAND[-1]]
    listing = subprocess.run(objdump, capture_output=True, text=True, check=True).stdout
    imported = set(re.findall(r'\*UND\*.* (\w+)$', listing, re.M))
    taken = {'read', 'write', 'memcpy', 'memmove', 'memset', '__errno_location'}
    return {'read', 'write'} <= imported <= STARTING | taken and 'syscall' not in listing


def through(given, *words, script='./lines', stdout=subprocess.PIPE, **more):
    """What becomes of some bytes, or of a file, through ./lines: its exit status, what it prints, and what it says."""
    source = {'input': given} if isinstance(given, bytes) else {'stdin': given}
    done = subprocess.run([script, *words], stdout=stdout, stderr=subprocess.PIPE, timeout=WAIT, **source, **more)
    return done.returncode, done.stdout or b'', done.stderr


def alone(given, *words, others=None):
    """The same, where the path has nothing but the tools that ./lines calls; with others, which are scripts by their places, of a
    copy of it in a folder that has nothing but these."""
    with tempfile.TemporaryDirectory() as room:
        for folder in ('bin', 'tests', 'crates/lines/out'):
            os.makedirs(os.path.join(room, folder))
        for tool in TOOLS:
            os.symlink(shutil.which(tool), os.path.join(room, 'bin', tool))
        for place, body in (others or {}).items():
            with open(os.path.join(room, place), 'w', encoding='ascii') as f:
                f.write(f'#!/bin/sh\n{body}\n')
            os.chmod(f.name, 0o755)
        script = './lines' if others is None else shutil.copy('lines', room)
        return through(given, *words, script=script, env={'PATH': os.path.join(room, 'bin')})


def helps():
    """Where there is no toolchain and no program."""
    long, short = alone(b'', '--help', others={}), alone(b'', '-h', others={})
    told = (GOOD, OUTPUT.split(b'\n')[0], b'./lines --gpx', b'Exit status:', b'crates/lines/out/lines', b'100,000,000', b'docs/LINES.md')
    return long == short == (0, long[1], b'') and all(words in long[1] for words in told)


def refuses(*words):
    return alone(INPUT, *words, others={}) == (2, b'', REFUSED_WORDS)


def ends_unwritten(path, said, *words):
    """An output that cannot be written."""
    with open(path, 'wb') as out:
        return through(INPUT, *words, stdout=out) == (2, b'', said)


def ends_at_closed_pipe(is_ignored):
    """Where no one reads what ./lines prints, it ends, as other programs do: with no word, or where the signal is ignored with one."""
    reading, writing = os.pipe()
    os.close(reading)
    ended = through(INPUT * 10_000, stdout=writing, restore_signals=not is_ignored)
    os.close(writing)
    return ended == (2, b'', UNWRITTEN if is_ignored else b'')


def ends_closed(which):
    """A descriptor that is not open at all."""
    return through(INPUT, '-c', f'exec ./lines {which}', script='sh') == (2, b'', CLOSED)


def answers_at_once(words, answer):
    """An answer comes while the input is still open."""
    with subprocess.Popen(['./lines', *words], stdin=subprocess.PIPE, stdout=subprocess.PIPE, bufsize=0) as child:
        child.stdin.write(GOOD + b'\n')
        came = b''
        while len(came) < len(answer) and select.select([child.stdout], [], [], WAIT)[0]:
            more = child.stdout.read(1000)
            came += more
            if not more:
                break
        child.stdin.close()
        return child.wait(timeout=WAIT) == 0 and came == answer


def is_right_without_rt():
    """On x86-64 the program that was built is run as it is; on another processor it needs the toolchain's C library."""
    ends = [(2, b'', NO_LIBRARY)] * 2 if program.emulator() else [(1, OUTPUT, b''), (1, FILE, b'')]
    return [alone(INPUT), alone(INPUT, '--gpx')] == ends


def is_each_refused():
    """A line of each refusal by itself, through ./lines: its comment, and exit status 1."""
    found = []
    for number, line in waypoints.REFUSED.items():
        comment = b'<!-- refused %d -->\n' % number
        found.append(through(line, '--gpx') == (1, waypoints.HEAD.encode() + comment + waypoints.FOOT.encode(), b''))
    return found == [True] * 6


def is_right_at_once():
    """Several at once, each of which asks rt whether the program is proved: these wait for each other."""
    with ThreadPoolExecutor(AT_ONCE) as pool:
        return list(pool.map(through, [INPUT] * AT_ONCE)) == [(1, OUTPUT, b'')] * AT_ONCE


def ends_by_signal():
    """A program that is ended by a signal, of which the shell may say a word of its own."""
    status, out, said = alone(INPUT, others={PROGRAM: '', 'tests/run': 'kill -KILL $$'})
    return (status, out) == (2, b'') and said.endswith(b'lines: the program ended with status 137\n')


def proves_first(rt, ended):
    """A first run, with a script for rt, and one for tests/run that prints an output."""
    return alone(OUTPUT, others={'bin/rt': rt, 'tests/run': 'cat'}) == ended


def is_as_in_readme():
    """The first command of README.md, as it stands there, prints what README.md shows."""
    text = program.content('README.md')
    command = re.search(r'^    (\./lines [^#\n]*)', text, re.M)[1]
    shown = re.findall(r'^    \d \S{11} \S{12} +(.*)$', text, re.M)
    return through(b'', '-c', command, script='sh') == (1, '\n'.join(shown + ['']).encode(), b'')


PROGRAM = 'crates/lines/out/lines'
TOOLS = ('cat', 'dd', 'dirname', 'grep', 'readlink', 'sed', 'sh', 'tee', 'uname')    # that ./lines and tests/run call
# What rt run says of a proof, in the crate's folder.
SAYS = [
    'rt: whole: begins with what a check kept in /elsewhere/crates/whole', 'rt: chose --jobs 2 for whole', 'struct whole::Parts: proved',
    'fn whole::nearest: proved', 'note: src/main.rt:1:1: what it is', 'logic /kit/antt-project.json: libraries=16', 'crate whole: checked=0',
    'statements core: modules loaded=222 checked=0', 'logic=proved functions=6', 'rt: chose --jobs 2 for lines', 'fn lines::main: proved',
    'library whole: modules loaded=0 checked=0', 'axioms libc: none reached of the 128 declared', 'logic=proved functions=1 axioms=2',
    'linked target=x86_64-unknown-linux-gnu', 'rt: running out/lines; to give it other input, run that file yourself',
]
SAID = b'lines: proving whole\nlines: proving lines\n'
UNCHANGED = 'rt: nothing has changed since the last proved build, by out/lines.stamp, so nothing is checked now'
PROVES = '; '.join([': >out/lines', *(f'echo "{line}" >&2' for line in SAYS)])
# What the C compiler's own files of a program's start and end name; and the toolchain's start, which has SIGPIPE ignored, and looks
# whether the processor is one that the program is compiled for.
STARTING = {'__libc_start_main', '__cxa_finalize', '__gmon_start__', '_ITM_deregisterTMCloneTable', '_ITM_registerTMCloneTable',
            '__sysv_signal', '__x86_get_cpuid_feature_leaf', '__write'}
REST = INPUT[len(GOOD):]
# The file that --gpx makes of document 01's example, and of nothing, in document 02's form.
FILE = b'''\
<?xml version="1.0" encoding="UTF-8"?>
<gpx version="1.1" creator="Buckettin" xmlns="http://www.topografix.com/GPX/1/1">
<wpt lat="34.998932533" lon="32.999693628"/>
<!-- refused 5 -->
<!-- refused 6 -->
</gpx>
'''
ALONE = b'''\
<?xml version="1.0" encoding="UTF-8"?>
<gpx version="1.1" creator="Buckettin" xmlns="http://www.topografix.com/GPX/1/1">
</gpx>
'''
EVERY = lines.given()
DISTINCT = [line for line in dict.fromkeys(EVERY.split(b'\n')) if len(line) < 100]
CHECKS = {
    'the example of document 01': lambda: printed(INPUT) == lines.printed(INPUT) == OUTPUT,
    'lines of every kind': lambda: is_right(EVERY),
    'CR LF': lambda: is_right(INPUT.replace(b'\n', b'\r\n')),
    'no last line feed': lambda: printed(INPUT[:-1]) == OUTPUT,
    'a last line of one byte': lambda: is_right(INPUT + b'1'),
    'an empty input': lambda: printed(b'') == b'',
    'line feeds alone': lambda: printed(b'\n' * 70_000) == b'refused 1\n' * 70_000,
    'the example, a byte at a time': lambda: is_right_in_pieces(INPUT, 1),
    'lines of every kind, in pieces': lambda: all(is_right_in_pieces(EVERY, size) for size in (1, 7, 26, 27, 28, 60)),
    f'{MANY:,} lines': lambda: is_right(b'\n'.join(random.Random(SEED).choices(DISTINCT, k=MANY))),
    '--gpx: the example of document 01': lambda: printed(INPUT, GPX) == waypoints.printed(INPUT) == FILE,
    '--gpx: lines of every kind': lambda: is_right(EVERY, GPX),
    '--gpx: no last line feed': lambda: printed(INPUT[:-1], GPX) == FILE,
    '--gpx: an empty input': lambda: printed(b'', GPX) == ALONE,
    '--gpx: the example, in pieces': lambda: all(is_right_in_pieces(INPUT, size, GPX) for size in (1, 7, 26, 27, 28, 60)),
    '--gpx: lines of every kind, in pieces': lambda: all(is_right_in_pieces(EVERY, size, GPX) for size in (1, 7, 26, 27, 28, 60)),
    f'--gpx: {MANY:,} lines': lambda: is_right(b'\n'.join(random.Random(SEED).choices(DISTINCT, k=MANY)), GPX),
    '--gpx: line feeds alone': lambda: is_right(b'\n' * 70_000, GPX),
    '--gpx: the limit': lambda: is_right_at_limit(b'\n' + INPUT, b'', command=GPX),
    '--gpx: past the limit, in a line': lambda: is_right_at_limit(b'\n' + INPUT + GOOD[:20], GOOD[20:] + REST, command=GPX),
    '--gpx: a folder as input': lambda: ends_unread(os.open('/', os.O_RDONLY), waypoints.HEAD.encode(), GPX),
    'other arguments': lambda: all(map(refuses_words, ('-x', '', '--gp', '--gpx ', '--help'))) and refuses_words('--gpx', '--gpx'),
    'a line after one of 5,000,000 bytes': lambda: is_right(b'1' * 5_000_000 + b'\n' + INPUT),
    'the limit, after a line feed': lambda: is_right_at_limit(b'\n' + INPUT, b''),
    'the limit, with no line feed': lambda: is_right_at_limit(b'\n' + INPUT + GOOD, b''),
    'past the limit, after a line feed': lambda: is_right_at_limit(b'\n' + INPUT, INPUT),
    'past the limit, before a line feed': lambda: is_right_at_limit(b'\n' + INPUT + GOOD, REST),
    'past the limit, in a line': lambda: is_right_at_limit(b'\n' + INPUT + GOOD[:20], GOOD[20:] + REST),
    'past the limit, in a longer line': lambda: is_right_at_limit(b'\n' + INPUT + GOOD, b'0' + REST),
    'a byte before the limit': lambda: is_right_at_limit(b'\n' + INPUT, b'', (0, b''), end=LIMIT - 1, taken=LIMIT - 1),
    'a line to the limit': lambda: is_right_at_limit(b'', b''),
    'a line past the limit': lambda: is_right_at_limit(b'', INPUT),
    'a closed output': lambda: ends_at_closed_output(False),
    'a closed output, SIGPIPE ignored': lambda: ends_at_closed_output(True),
    'a folder as input': lambda: ends_unread(os.open('/', os.O_RDONLY)),
    'an input open for writing alone': lambda: ends_unread(os.open(os.devnull, os.O_WRONLY)),
    'an input that fails at a later read': ends_at_later_read,
    f'{STACK} KiB of stack': is_right_on_stack,
    'no heap': has_no_heap,
    './lines: as README.md has it': is_as_in_readme,
    './lines: help': helps,
    './lines: other arguments': lambda: refuses('-x') and refuses('--help', '-x') and refuses('') and refuses('--gpx', '--gpx'),
    './lines: all answered': lambda: through(GOOD) == (0, lines.printed(GOOD), b''),
    './lines: a line refused': lambda: through(INPUT) == (1, OUTPUT, b''),
    './lines --gpx: all answered': lambda: through(GOOD, '--gpx') == (0, waypoints.printed(GOOD), b''),
    './lines --gpx: an empty input': lambda: through(b'', '--gpx') == (0, ALONE, b''),
    './lines --gpx: a line refused': lambda: through(INPUT, '--gpx') == (1, FILE, b''),
    './lines --gpx: a line of each refusal': is_each_refused,
    './lines --gpx: lines of every kind': lambda: through(EVERY, '--gpx') == (1, waypoints.printed(EVERY), b''),
    './lines --gpx: a full output': lambda: ends_unwritten('/dev/full', FULL, '--gpx'),
    f'./lines: {AT_ONCE} at once': is_right_at_once,
    './lines: an answer at once': lambda: answers_at_once([], lines.printed(GOOD)),
    './lines --gpx: an answer at once': lambda: answers_at_once(['--gpx'], waypoints.printed(GOOD).removesuffix(b'</gpx>\n')),
    './lines: the limit': lambda: is_right_at_limit(b'\n' + INPUT, b'', (1, b''), './lines'),
    './lines --gpx: past the limit': lambda: is_right_at_limit(b'\n' + INPUT, INPUT, (2, CUT), SCRIPT_GPX, taken=LIMIT + 1),
    './lines: past the limit': lambda: is_right_at_limit(b'\n' + INPUT, INPUT, (2, CUT), './lines', taken=LIMIT + 1),
    './lines: a folder as input': lambda: through(os.open('/', os.O_RDONLY)) == (2, b'', UNREAD),
    './lines: a full output': lambda: ends_unwritten('/dev/full', FULL),
    './lines: a closed output': lambda: ends_at_closed_pipe(False),
    './lines: a closed output, SIGPIPE ignored': lambda: ends_at_closed_pipe(True),
    './lines: no input or no output at all': lambda: ends_closed('<&-') and ends_closed('>&-'),
    './lines: ended by a signal': ends_by_signal,
    './lines: no toolchain': is_right_without_rt,
    './lines: no toolchain and no program': lambda: alone(INPUT, others={}) == (2, b'', UNBUILT),
    './lines: a first run': lambda: proves_first(PROVES, (1, OUTPUT, FIRST + SAID)),
    './lines: nothing has changed': lambda: proves_first(f': >out/lines; echo "{UNCHANGED}" >&2', (1, OUTPUT, FIRST)),
    './lines: a program that is gone': lambda: proves_first(f'echo "{UNCHANGED}"', (2, b'', FIRST + GONE)),
    './lines: a proof that fails': lambda: proves_first('echo no; exit 1', (2, b'', FIRST + b'no\n' + UNPROVED)),
}

if __name__ == '__main__':
    resource.setrlimit(resource.RLIMIT_CORE, (0, resource.getrlimit(resource.RLIMIT_CORE)[1]))
    failed = 0
    for name, is_passed in CHECKS.items():
        right = is_passed()
        failed += not right
        print(f'{"ok" if right else "FAILED"}: {name}', flush=True)
    sys.exit(1 if failed else 0)
