#!/usr/bin/env python3
"""Coverage-guided fuzzing of the C interface: python3 tests/fuzz.py MINUTES [FOLDER], where tests/archive has been run.

Needs clang 14 with libFuzzer (Debian: clang-14, libclang-rt-14-dev). One process fuzzes tests/hostile/fuzz.c for so many minutes,
half of them with a value profile, from the inputs below and from what an earlier run left in the folder. On x86-64 each execution
compares the archive with the independent implementation. On another processor the archive does not run beside the fuzzer: there
the independent implementation is fuzzed alone. In both cases every input that was kept is then played through the archive and
compared, with guard pages, and short ones again with each bit changed. With 0 minutes nothing is fuzzed, and what an earlier run
kept is played. Ends with an error where the fuzzer finds something or where the two differ.
"""
import os
import platform
import re
import struct
import subprocess
import sys

import hostile
import program

CLANG = ['clang-14', '-g', '-O1', '-fsanitize=fuzzer,address,undefined', '-fno-sanitize-recover=all', '-rtlib=compiler-rt', '-Wall',
         '-Wextra', '-Werror', '-I', hostile.HEADERS]
# In the order of tests/hostile/call.h.
(SHIFT, GEOID, FIRST, SECOND, THIRD, REFUSAL, READ_LATITUDE, READ_LONGITUDE, WRITE_LATITUDE, WRITE_LONGITUDE, SHEET, LINE,
 WAYPOINT) = range(13)
LONGEST = 600                  # bytes of an input: a sheet of 60 points and more
CENTRES = {1: (35, 33), 2: (10, 8), 3: (62, 208), 4: (25, 51), 5: (7, 80), 6: (23, 57)}
WORDS = [b'N', b'S', b'E', b'.', b' ', b'000000.000S', b'900000.000N', b'3595959.999E', struct.pack('>i', 324_000_000),
         struct.pack('>i', -324_000_000), struct.pack('>I', 1_295_999_999), struct.pack('>q', -324_000_000), struct.pack('>H', 500),
         struct.pack('>q', -2**63), struct.pack('>q', 2**63 - 1)]


def call(function, room=0, numbers=(), given=b''):
    """An input, as take_call of tests/hostile/call.c reads it."""
    return struct.pack('>BH', function, room) + b''.join(struct.pack('>q', number) for number in numbers) + given


def sheet(serial, codes, count):
    points = b''
    for i in range(count):
        latitude, longitude = CENTRES[codes[i % len(codes)]]
        points += struct.pack('>BiI', codes[i % len(codes)], latitude * 3_600_000 + i, longitude * 3_600_000 + i)
    return struct.pack('>IB', serial, len(codes)) + bytes(codes) + struct.pack('>H', count) + points


def seeds():
    """Inputs to start from, of every function, all of them answered."""
    for code, (latitude, longitude) in CENTRES.items():
        numbers = (code, latitude * 3_600_000, longitude * 3_600_000)
        for function in (SHIFT if code < 5 else GEOID, FIRST, SECOND, THIRD, REFUSAL):
            yield call(function, numbers=numbers)
        if code < 5:
            yield call(WAYPOINT, 47, numbers)
        texts = f'{latitude:02}0000.000N', f'{longitude:03}0000.000E'
        yield call(READ_LATITUDE, given=texts[0].encode())
        yield call(READ_LONGITUDE, given=texts[1].encode())
        yield call(WRITE_LATITUDE, 11, numbers[1:2])
        yield call(WRITE_LONGITUDE, 12, numbers[2:])
        yield call(LINE, 36, given=' '.join((str(code),) + texts).encode())
    for codes, count in (((), 0), ((4,), 1), ((1, 6), 3), ((1, 2, 3, 4, 5, 6), 12), ((2, 3, 5), 60)):
        yield call(SHEET, 6 + 13 * count, (7,), sheet(7, codes, count))


def put(path, data):
    os.makedirs(os.path.dirname(path), exist_ok=True)
    with open(path, 'wb') as f:
        f.write(data)


def built(folder):
    """The fuzzer, for this machine, with the archive in it where it runs here."""
    path = os.path.join(folder, 'fuzz')
    beside = [] if program.emulator() else ['-DARCHIVE', program.archive()]
    subprocess.run(CLANG + ['-o', path, hostile.source('fuzz')] + hostile.SHARED + beside, check=True)
    return path


def prepare(folder):
    """Puts what the fuzzer starts from into the folder."""
    for number, seed in enumerate(seeds()):
        put(os.path.join(folder, 'seeds', str(number)), seed)
    words = ''.join('"' + ''.join(f'\\x{byte:02x}' for byte in word) + '"\n' for word in WORDS)
    put(os.path.join(folder, 'words'), words.encode())
    os.makedirs(os.path.join(folder, 'corpus'), exist_ok=True)


def is_fuzzed(folder, fuzzer, minutes, profile):
    """Whether the fuzzer ran for its time and found nothing. With a value profile it keeps an input that comes nearer to passing
    a comparison, too."""
    log_path = os.path.join(folder, f'log-{profile}')
    command = [fuzzer, f'-max_total_time={round(60 * minutes)}', f'-max_len={LONGEST}', f'-use_value_profile={profile}',
               '-print_final_stats=1', f'-dict={folder}/words', f'-artifact_prefix={folder}/found-', f'{folder}/corpus',
               f'{folder}/seeds']
    with open(log_path, 'wb') as log:
        is_right = subprocess.run(command, stdout=log, stderr=log).returncode == 0
    print(f'fuzzed: {figures(log_path)}, {"nothing found" if is_right else f"see {log_path}"}', flush=True)
    return is_right


def is_all_fuzzed(folder, minutes):
    prepare(folder)
    fuzzer = built(folder)
    return all([is_fuzzed(folder, fuzzer, minutes / 2, profile) for profile in (0, 1)])


def figures(log_path):
    """What the fuzzer said of its run."""
    with open(log_path, errors='replace') as f:
        log = f.read()
    done = re.search(r'Done (\d+) runs in (\d+) second', log)
    last = re.findall(r'cov: (\d+) ft: (\d+) corp: (\d+)/', log)
    runs = f'{int(done[1]):,} executions in {int(done[2]):,} s' if done else 'not ended'
    return runs + (', coverage {} edges, {} features, {} inputs'.format(*last[-1]) if last else '')


def kept(folder):
    """Every input that the fuzzer started from, kept or found."""
    names = [os.path.join(folder, name) for name in sorted(os.listdir(folder)) if name.startswith('found-')]
    for part in ('seeds', 'corpus'):
        names += [os.path.join(folder, part, name) for name in sorted(os.listdir(os.path.join(folder, part)))]
    for name in names:
        with open(name, 'rb') as f:
            yield f.read()


def is_played(folder):
    """Whether the archive does as the independent implementation on every input."""
    command = program.compiled(hostile.sources('replay') + [program.archive()], folder, [hostile.HEADERS], 'replay')
    inputs = list(kept(folder))
    packed = b''.join(struct.pack('>I', len(data)) + data for data in inputs)
    said = subprocess.run(command, input=packed, stdout=subprocess.PIPE)
    print(said.stdout.decode(), end='', flush=True)
    return said.returncode == 0 and said.stdout.endswith(b'%d inputs played through the archive\n' % len(inputs))


def main():
    minutes, folder = float(sys.argv[1]), sys.argv[2] if len(sys.argv) > 2 else 'target/fuzz'
    os.makedirs(folder, exist_ok=True)
    sides = 'the independent implementation alone' if program.emulator() else 'both implementations'
    print(f'{platform.machine()}, {sides}', flush=True)
    is_right = minutes == 0 or is_all_fuzzed(folder, minutes)
    is_right = is_played(folder) and is_right
    print('no difference' if is_right else 'FOUND SOMETHING')
    sys.exit(0 if is_right else 1)


if __name__ == '__main__':
    main()
