"""How a program that was built is run, as tests/run runs it: programs are compiled for x86-64, and on another processor Debian's
qemu-x86_64 runs them. And how a test program is asked, and what it must print."""
import os
import platform
import subprocess
import sys

ARCHIVE = 'target/staticlib/libbuckettin.a'
EMULATOR = 'qemu-x86_64'       # of Debian's package qemu-user


def content(path):
    with open(path, encoding='utf-8') as f:
        return f.read()


def tools():
    """The toolchain's compiled parts."""
    told = subprocess.run(['rt', 'doc'], capture_output=True, text=True, check=True).stdout
    return os.path.join(os.path.dirname(told.strip()), 'toolchain')


def emulator():
    """The first words of a command that runs x86-64 code here."""
    return [] if platform.machine() == 'x86_64' else [EMULATOR]


def proved(name):
    """The command that runs a program of this repository, which rt has proved and built."""
    path = os.path.abspath(f'crates/{name}/out/{name}')
    if not os.path.exists(path):
        raise SystemExit(f'{path} is not there: rt run, in crates/{name}, makes it')
    return loaded(path)


def loaded(path):
    """The command that runs a program that the machine's own loader starts; under the emulator the toolchain's does, with its own C
    library."""
    if not emulator():
        return [path]
    library = os.path.join(tools(), 'lib')
    return emulator() + [os.path.join(library, 'ld-linux-x86-64.so.2'), '--library-path', library, path]


# A question on standard input, as crates/test_ask reads it, is a letter, and then its parts.
def number(n):
    return n.to_bytes(8, 'big', signed=True)


def count(n):
    return n.to_bytes(2, 'big')


def text(given):
    return count(len(given)) + given


def label(words):
    """What a case is called, which the program prints as it stands."""
    assert len(words) <= 64
    return b'=' + text(words.encode())


def spaced(answers):
    return ''.join(f' {answer}' for answer in answers)


def of_cases(name, cases):
    """The program's files stdin and stdout. A case is a line: its label, the questions, and what must be printed after the label."""
    given, printed = b'', ''
    for words, questions, answers in cases:
        given += label(words) + questions + label('\n')
        printed += words + answers + '\n'
    return {f'crates/{name}/stdin': given, f'crates/{name}/stdout': printed.encode()}


def held(files):
    """Makes the files, with --write. What is wrong with them."""
    if '--write' in sys.argv:
        for name, content in files.items():
            with open(name, 'wb') as f:
                f.write(content)
    wrong = []
    for name, content in files.items():
        with open(name, 'rb') as f:
            if f.read() != content:
                wrong.append(f'{name} is not what this script works out')
    return wrong


def ended(wrong, words):
    """Says what is wrong, or that all is well, and ends."""
    print('\n'.join(wrong) or words)
    sys.exit(1 if wrong else 0)


def with_stack(size, command):
    """The command, with so many KiB of stack."""
    if emulator():
        return [command[0], '-s', str(size * 1024)] + command[1:]
    return ['sh', '-c', f'ulimit -s {size} && exec "$@"', 'sh'] + command


def archive():
    """The library that C programs link."""
    if not os.path.exists(ARCHIVE):
        raise SystemExit(f'{ARCHIVE} is not there: tests/archive makes it')
    return ARCHIVE


def made(sources, room, headers=(), name='compiled', words=()):
    """What gcc makes of C sources for x86-64, in a folder, where a header of its own may be too; other headers are in the
    folders that are named. Each source is compiled by itself at -O2, and may be an object or an archive. Further words for the
    compiler stand before the sources: -c makes an object of one source, and another level is taken instead of -O2."""
    path = os.path.join(room, name)
    folders = [word for folder in (room, *headers) for word in ('-I', folder)]
    command = ['x86_64-linux-gnu-gcc', '-O2', '-static', '-Wall', '-Wextra', '-Werror', *folders, '-o', path, *words]
    subprocess.run(command + sources, check=True)
    return path


def compiled(sources, room, headers=(), name='compiled', words=()):
    """The command that runs a C program that is so made."""
    return emulator() + [made(sources, room, headers, name, words)]


# the files of the toolchain that rt links a program with, before its own and after them; the program's own loader is the machine's
STARTS = ['Scrt1.o', 'crti.o', 'crtbeginS.o']
ENDS = ['libc.so.6', 'ld-linux-x86-64.so.2', 'libc_nonshared.a', 'libgcc.a', 'crtendS.o', 'crtn.o']


def linked(source, room):
    """The command that runs a C program as one of this repository is run, compiled for x86-64 at -O2 into a folder, where a header of
    its own may be, and linked with the same files."""
    path = os.path.join(room, 'linked')
    before, after = ([os.path.join(tools(), 'lib', name) for name in names] for names in (STARTS, ENDS))
    words = ['-O2', '-fPIE', '-pie', '-nostdlib', '-Wall', '-Wextra', '-Werror', '-I', room, '-o', path]
    subprocess.run(['x86_64-linux-gnu-gcc', *words, *before, source, *after], check=True)
    return loaded(path)
