#!/usr/bin/env python3
"""Times `venti vacfs` over a store on files: folders of 1,000 to 100,000 items that are listed by messages of at most
8,192 bytes, folders of 10,000 and 100,000 small files of which each is walked to and read, and a file of 64 MiB and one
of 1 GiB that are read in order and at random, beside `cat` of the same file, and the same blocks asked of `venti
session`; and `read_range` alone over blocks in memory.

Run it as bench/view.py [FOLDER], at the top of the repository; the files are made in FOLDER, on whose disk the times
depend, or else in /var/tmp. It needs Python 3, and `rt` for `read_range` alone, which is timed by a program that is
made, and proved, in a folder of its own. A run that fails, or that shows less than was archived, ends the script.
"""
import hashlib
import os
import random
import struct
import subprocess
import sys
import tempfile
import time
import zlib

import session
import store
import tree

sys.path.insert(0, os.path.join(store.TOP, "tools"))
import unvac

MIB = store.MIB
SIZE, SIZES = 64, (64, 1_024)
BLOCK = 8_192
LONGEST, SHORT = 65_536, 8_192


def archive_of(folder, name):
    """What the archive of this folder is found by."""
    command = [store.VENTI, "vac", "v.conf", name]
    return subprocess.run(command, cwd=folder, stdout=subprocess.PIPE, check=True).stdout.decode().strip()


def view(folder, score, msize, work):
    """What the work on a view gives; the seconds by the clock and of the processor that the whole run took, and its
    most memory in MiB."""
    command = [store.PROGRAM, "vacfs", "v.conf", score]
    began = time.perf_counter()
    child = subprocess.Popen(command, cwd=folder, stdin=subprocess.PIPE, stdout=subprocess.PIPE)
    unvac.LONGEST = msize
    done = work(unvac.View(child.stdout, child.stdin))
    memory = store.peak(child.pid)
    child.stdin.close()
    _, status, usage = os.wait4(child.pid, 0)
    child.stdout.close()
    if status != 0:
        sys.exit(f"{command}: status {status}")
    return done, time.perf_counter() - began, usage.ru_utime + usage.ru_stime, memory / 1024


def row(work, amount, seconds, processor, each, memory):
    memory = f"{memory:.0f}" if memory else ""
    print(f"| {work} | {amount} | {seconds} | {processor:.3f} | {each} | {memory} |", flush=True)


def folders(folder):
    """Listing folders of many items, each folder three times over, by a run for each."""
    for count in (0, 1_000, 10_000, 100_000):
        name = f"items{count}"
        os.mkdir(os.path.join(folder, name))
        for n in range(count):
            with open(os.path.join(folder, name, f"item {n:05}"), "wb"):
                pass
        score = archive_of(folder, name)
        best = None
        for _ in range(3):
            items, *measured = view(folder, score, SHORT, lambda shown: len(shown.items_of([])))
            if items != count:
                sys.exit(f"{items} items are shown of {count}")
            best = min(best or measured, measured, key=lambda m: m[1])
        seconds, processor, memory = best
        if count == 0:
            beginning = processor
        each = f"{(processor - beginning) / count * 1e6:.1f} µs an item" if count else ""
        row("a folder is listed, messages of 8,192 bytes", f"{count:,} items", f"{seconds:.2f}", processor, each, memory)


def walked(folder):
    """Listing a folder of many small files, and walking to each and reading it."""
    for count in (10_000, 100_000):
        name = f"files{count}"
        os.mkdir(os.path.join(folder, name))
        for n in range(count):
            with open(os.path.join(folder, name, f"file {n:06}"), "wb") as item:
                item.write(b"%06d" % n)
        score = archive_of(folder, name)

        def read(shown):
            return sum(len(piece) for item in shown.items_of([]) for piece in shown.bytes_of(item.path))

        for msize in (SHORT, LONGEST):
            found, seconds, processor, memory = view(folder, score, msize, read)
            if found != 6 * count:
                sys.exit(f"{found} bytes are shown of {6 * count}")
            each = f"{processor / count * 1e6:.1f} µs a file"
            work = f"each file is walked to and read, messages of {msize:,} bytes"
            row(work, f"{count:,} files", f"{seconds:.2f}", processor, each, memory)


def rate(size, processor):
    return f"{size / processor:,.0f} MiB a second"


def in_order(shown):
    """The SHA-1 of a file, read from its start to its end."""
    found = hashlib.sha1()
    for piece in shown.bytes_of([b"f"]):
        found.update(piece)
    return found.digest()


def at_random(size):
    """What reads a file in parts as long as a message has room for, in an order that is the same in each run, and sums
    up each part, with its place."""

    def read(shown):
        shown.opened([b"f"])
        places = list(range(0, size * MIB, shown.most))
        random.Random(1).shuffle(places)
        return sum(part_sum(at, shown.ask(unvac.READ, struct.pack("<IQI", unvac.HERE, at, shown.most))[4:])
                   for at in places)

    return read


def part_sum(at, part):
    return zlib.crc32(part, at & 0xFFFFFFFF)


def sum_of(path, each):
    """What `at_random` is to find in a file."""
    with open(path, "rb") as source:
        return sum(part_sum(n * each, part) for n, part in enumerate(iter(lambda: source.read(each), b"")))


def file(size):
    """What reads a file of so many MiB, beside others that do."""

    def work(folder):
        name = f"file{size}"
        os.mkdir(os.path.join(folder, name))
        path = os.path.join(folder, name, "f")
        tree.write_input(path, size)
        with open(path, "rb") as source:
            wanted = hashlib.sha1()
            while part := source.read(MIB):
                wanted.update(part)
        score = archive_of(folder, name)
        for msize in (SHORT, LONGEST):
            for order, read, right in (
                ("in order", in_order, wanted.digest()),
                ("at random", at_random(size), sum_of(path, msize - 24)),
            ):
                found, seconds, processor, memory = view(folder, score, msize, read)
                if found != right:
                    sys.exit("what is shown isn't what was archived")
                row(f"a file is read {order}, messages of {msize:,} bytes", f"{size} MiB", f"{seconds:.2f}", processor,
                    rate(size, processor), memory)
        seconds, processor, memory = store.run(["cat", path], folder, os.devnull)
        row("`cat` of the file", f"{size} MiB", f"{seconds:.2f}", processor, "", memory)
        asked = os.path.join(folder, "asked")
        with open(path, "rb") as source:
            # A block ends behind its last byte that isn't zero.
            blocks = (block.rstrip(b"\0") for block in iter(lambda: source.read(BLOCK), b""))
            store.put(asked, [session.HELLO, *map(session.read_of, blocks), session.frame(6, b"")])
        seconds, processor, memory = store.run([store.PROGRAM, "session", "v.conf"], folder, asked)
        row("its blocks are asked of `session`", f"{size} MiB", f"{seconds:.2f}", processor, rate(size, processor), memory)

    return work


def alone(folder):
    """`read_range` alone, in parts as long as a message has room for, over blocks in memory."""
    part = LONGEST - 24
    tree.TREE = tree.TREE.replace(f"{tree.BLOCK:_}", f"{BLOCK:_}").replace("1 << 20", f"{part:_}")
    tree.BLOCK = BLOCK
    _, program = tree.make(folder)
    path = os.path.join(folder, "input")
    tree.write_input(path, SIZE)
    writing, _ = tree.timed([program], path, SIZE * MIB)
    read = SIZE * MIB // part * part
    both, memory = tree.timed([program, "read"], path, tree.PASSES * read)
    processor = (both - writing) / tree.PASSES
    row("`read_range` alone, blocks in memory", f"{SIZE} MiB", "", processor, rate(SIZE, processor), memory)


def main():
    where = sys.argv[1] if len(sys.argv) > 1 else "/var/tmp"
    subprocess.run([store.VENTI, "session", ":memory:"], stdin=subprocess.DEVNULL, stdout=subprocess.DEVNULL, check=True)
    print("| work | amount | seconds | processor seconds | behind the beginning | memory, MiB |")
    print("|---|---|---|---|---|---|")
    store.in_store(where, 256, 8_192, folders)
    store.in_store(where, 256, 8_192, walked)
    for size in SIZES:
        store.in_store(where, 4 * size, 8_192 * size // 64, file(size))
    with tempfile.TemporaryDirectory(dir=where) as folder:
        alone(folder)


if __name__ == "__main__":
    main()
