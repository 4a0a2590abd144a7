#!/usr/bin/env python3
"""Times `venti buildindex CONF` and `venti checkarenas CONF` over stores on files, beside `sha1sum` of the same bytes.

A store is written of 10^5 blocks of 1,024 bytes, and one of 10^4 of 8,192. Its index is rebuilt, and then its arenas
are checked, each the best of three runs. Beside that `sha1sum` reads the same bytes from files of 64 blocks each, in as
many processes as there are processors. Run it as bench/rebuild.py [FOLDER], at the top of the repository; the files are
made in FOLDER, on whose disk the times depend, or else in /var/tmp. It needs Python 3.
"""
import os
import shutil
import subprocess
import sys
import tempfile
import time

import session
import store

RUNS = 3


def block_of(n, size):
    """Block n, of so many bytes."""
    return (store.block_of(n) * (size // store.BLOCK + 1))[:size]


def writes(count, size):
    yield session.HELLO
    for n in range(count):
        yield session.write_of(block_of(n, size))
    yield session.frame(16, b"")
    yield session.frame(6, b"")


def make(folder, count, size):
    """A store of so many blocks, in whose buckets half of what they have room for is used."""
    arenas = count * (size + 63) // store.MIB + 128
    store.make_store(folder, arenas // 64 * 64, count // 128 + 1)
    path = os.path.join(folder, "input")
    store.put(path, writes(count, size))
    store.run([store.PROGRAM, "session", "v.conf"], folder, path)


def best(folder, command):
    """The least seconds by the clock of some runs, with those of the processor and the memory."""
    return min(store.run(command, folder, os.devnull) for _ in range(RUNS))


def scored(folder, count, size):
    """`sha1sum` of the same bytes, in as many processes as there are processors."""
    names = []
    for first in range(0, count, 64):
        names.append(os.path.join(folder, f"blocks{first}"))
        store.put(names[-1], (block_of(n, size) for n in range(first, min(first + 64, count))))
    many = os.cpu_count() or 1
    seconds = []
    for _ in range(RUNS):
        began = time.perf_counter()
        runs = [subprocess.Popen(["sha1sum", *names[i::many]], stdout=subprocess.DEVNULL)
                for i in range(many) if names[i::many]]
        if any([run.wait() for run in runs]):
            sys.exit("sha1sum failed")
        seconds.append(time.perf_counter() - began)
    return min(seconds), 0, 0


def measure(folder, count, size):
    make(folder, count, size)
    name = f"blocks of {size:,} bytes"
    store.row(f"`buildindex`, {name}", count, best(folder, [store.PROGRAM, "buildindex", "v.conf"]))
    store.row(f"`checkarenas`, {name}", count, best(folder, [store.PROGRAM, "checkarenas", "v.conf"]))
    store.row(f"`sha1sum`, {os.cpu_count()} at a time, {name}", count, scored(folder, count, size))


def main():
    subprocess.run([store.VENTI, "--version"], stdout=subprocess.DEVNULL, check=True)
    print("| work | blocks | seconds | processor seconds | blocks per second | microseconds per block | memory, MiB |")
    print("|---|---|---|---|---|---|---|")
    for count, size in [(100_000, 1024), (10_000, 8192)]:
        folder = tempfile.mkdtemp(dir=sys.argv[1] if len(sys.argv) > 1 else "/var/tmp")
        try:
            measure(folder, count, size)
        finally:
            shutil.rmtree(folder)


if __name__ == "__main__":
    main()
