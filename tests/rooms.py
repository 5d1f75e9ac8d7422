"""Copies of crates, each in a folder with a crates.txt of its own, in which a test changes a source and has rt check it while the
repository stays as it is; and tests side by side, each with such a folder."""
import os
import queue
import shutil
import tempfile
from concurrent.futures import ThreadPoolExecutor

PARTS = ('src', 'specs', 'proofs')
LIBRARY, CHECKED = 'out/rlib', 'out/incremental'    # what rt makes of a crate: for those above it, and for the next check of it
EACH = 3_000_000_000           # bytes of memory that a check may take


def known():
    """The line of crates.txt of each crate, and the crates that it knows."""
    with open('crates.txt', encoding='utf-8') as f:
        lines = [line.strip() for line in f if ':' in line and not line.startswith('#')]
    return {line.split(':')[0].split()[0]: (line, line.split(':')[1].split()) for line in lines}


def below(crate):
    """All that a crate stands on."""
    deps = known()[crate][1]
    return set(deps).union(*map(below, deps))


def place(room, crate):
    return os.path.join(room, 'crates', crate)


def link(path, to):
    """A second name is a copy where rt replaces a file and never writes into it; not on another disk."""
    try:
        if path.endswith('.oantt') or '/rlib/' in path:
            return os.link(path, to)
    except OSError:
        pass
    return shutil.copy2(path, to)


def copy(crate, room, root, *made):
    """The sources of a crate, and of what rt has made of it these parts."""
    to, there = place(room, crate), place(root, crate)
    shutil.rmtree(to, ignore_errors=True)
    for part in PARTS:
        if os.path.isdir(f'{there}/{part}'):
            shutil.copytree(f'{there}/{part}', f'{to}/{part}')
    for part in made:
        if os.path.isdir(f'{there}/{part}'):
            shutil.copytree(f'{there}/{part}', f'{to}/{part}', copy_function=link)


def fill(room, crates, root, *made):
    """A repository of these crates."""
    shutil.rmtree(os.path.join(room, 'crates'), ignore_errors=True)
    lines = known()
    with open(os.path.join(room, 'crates.txt'), 'w', encoding='utf-8') as f:
        f.writelines(lines[crate][0] + '\n' for crate in lines if crate in crates)
    for crate in crates:
        copy(crate, room, root, *made)


def most():
    """How many checks this machine does at a time."""
    memory = os.sysconf('SC_PAGE_SIZE') * os.sysconf('SC_PHYS_PAGES')
    return max(1, min(os.cpu_count(), memory // EACH))


def each(work, tasks, at_once=0):
    """What work(room, task) gives of each task, in their order. A room is a folder that no other task has at the same time, as the
    task before left it."""
    free, count = queue.SimpleQueue(), at_once or most()

    def one(task):
        room = free.get()
        try:
            return work(room, task)
        finally:
            free.put(room)

    with tempfile.TemporaryDirectory() as folder, ThreadPoolExecutor(count) as pool:
        for k in range(count):
            os.mkdir(os.path.join(folder, str(k)))
            free.put(os.path.join(folder, str(k)))
        yield from pool.map(one, tasks)
