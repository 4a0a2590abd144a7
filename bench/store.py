#!/usr/bin/env python3
"""Times `venti session CONF` over a store on files, beside the crate sha1 alone and a plain loop of writes and syncs.

Blocks of 8,192 bytes are written with a sync behind every 64: new ones, the same again, and reads of them, by a process
that begins and by one that wrote them; and over so many buckets that nearly each entry has one of its own. Beside that
the crate `sha1` scores the same blocks, and a plain loop writes them to a file and calls fdatasync behind every 64. Where
strace is there, runs of their own count the calls on each file and the time that they took. Run it as
bench/store.py [FOLDER], at the top of the repository; the files are made in FOLDER, on whose disk the times depend, or
else in /var/tmp. It needs Python 3.
"""
import hashlib
import os
import re
import shutil
import subprocess
import sys
import tempfile
import time

import session

TOP = session.TOP
BLOCK = 8192
SYNC_EVERY = 64
VENTI = os.path.join(TOP, "venti")
PROGRAM = os.path.join(TOP, "crates", "vt_prog", "out", "vt_prog")
MIB = 1 << 20


def block_of(n):
    """Block n: its number, and bytes that no other has."""
    return (hashlib.sha1(b"%d" % n).digest() * (BLOCK // 20 + 1))[:BLOCK]


def writes(first, count):
    yield session.HELLO
    for n in range(first, first + count):
        yield session.write_of(block_of(n))
        if (n - first) % SYNC_EVERY == SYNC_EVERY - 1:
            yield session.frame(16, b"")
    yield session.frame(16, b"")
    yield session.frame(6, b"")


def reads(first, count):
    yield session.HELLO
    for n in range(first, first + count):
        yield session.read_of(block_of(n))
    yield session.frame(6, b"")


def writes_and_reads(first, count):
    parts = list(writes(first, count))
    yield from parts[:-1]
    yield from list(reads(first, count))[1:]


def make_store(folder, arenas, buckets):
    """A store of so many MiB of log and so many buckets."""
    words = [
        ["fmtarenas", "a.part", "a", str((arenas + 1) * MIB), str(64 * MIB)],
        ["fmtisect", "i.part", "i", str(24576 + buckets * 16896)],
        ["fmtbloom", "b.part", str(MIB), "8"],
        ["fmtindex", "v.conf"],
    ]
    with open(os.path.join(folder, "v.conf"), "w", encoding="utf-8") as conf:
        conf.write("index main\narenas a.part\nisect i.part\nbloom b.part\nmem 64m\nicmem 64m\n")
    for command in words:
        subprocess.run([VENTI, *command], cwd=folder, stdout=subprocess.DEVNULL, check=True)


def put(path, pieces):
    with open(path, "wb") as out:
        out.writelines(pieces)


def peak(pid):
    """The most memory that a process has had yet, in KiB. What wait4 tells of it begins with this script's own."""
    try:
        with open(f"/proc/{pid}/status", encoding="ascii", errors="replace") as lines:
            return next((int(line.split()[1]) for line in lines if line.startswith("VmHWM")), 0)
    except OSError:
        return 0


def run(command, folder, path):
    """Seconds by the clock and of the processor, and the most memory in MiB."""
    with open(path, "rb") as source, open(os.devnull, "wb") as sink:
        began = time.perf_counter()
        child = subprocess.Popen(command, cwd=folder, stdin=source, stdout=sink)
        most, pid = 0, 0
        while pid == 0:
            most = max(most, peak(child.pid))
            time.sleep(0.005)
            pid, status, usage = os.wait4(child.pid, os.WNOHANG)
        seconds = time.perf_counter() - began
    if status != 0:
        sys.exit(f"{command}: status {status}")
    return seconds, usage.ru_utime + usage.ru_stime, most / 1024


def row(name, blocks, measured):
    seconds, processor, memory = measured
    memory = f"{memory:.0f}" if memory else ""
    print(f"| {name} | {blocks:,} | {seconds:.2f} | {processor:.2f} | {blocks / seconds:,.0f} | "
          f"{seconds / blocks * 1e6:,.0f} | {memory} |", flush=True)


def plain(folder, count):
    """A loop that writes the blocks to a file, one behind another, with an fdatasync behind every 64."""
    blocks = [block_of(n) for n in range(count)]
    used = time.process_time()
    began = time.perf_counter()
    file = os.open(os.path.join(folder, "plain"), os.O_CREAT | os.O_WRONLY)
    for n, block in enumerate(blocks):
        os.write(file, block)
        if n % SYNC_EVERY == SYNC_EVERY - 1:
            os.fdatasync(file)
    os.fdatasync(file)
    os.close(file)
    return time.perf_counter() - began, time.process_time() - used, 0


def counted(name, folder, path, count):
    """The calls of a run on each file, and the seconds that they took."""
    log = os.path.join(folder, "log")
    traced = ["strace", "-f", "-y", "-T", "-e", "trace=pread64,pwrite64,fsync,fdatasync", "-s", "0", "-o", log]
    run([*traced, PROGRAM, "session", "v.conf"], folder, path)
    calls = {}
    print(f"\n{name}:\n")
    with open(log, encoding="utf-8", errors="replace") as lines:
        for line in lines:
            if found := re.match(r"\d+ +(\w+)\(\d+<([^>]*)>.*<([\d.]+)>$", line):
                kind, file, seconds = found[1], os.path.basename(found[2]), float(found[3])
                kind = "syncs" if "sync" in kind else "reads" if "read" in kind else "writes"
                many, took = calls.get((file, kind), (0, 0.0))
                calls[file, kind] = many + 1, took + seconds
    print("| file | calls | count | a block | seconds |\n|---|---|---|---|---|")
    for (file, kind), (many, took) in sorted(calls.items()):
        print(f"| `{file}` | {kind} | {many:,} | {many / count:.3f} | {took:.2f} |", flush=True)


def in_store(where, arenas, buckets, work):
    with tempfile.TemporaryDirectory(dir=where) as folder:
        make_store(folder, arenas, buckets)
        work(folder)


def main():
    where = sys.argv[1] if len(sys.argv) > 1 else "/var/tmp"
    subprocess.run([VENTI, "session", ":memory:"], stdin=subprocess.DEVNULL, stdout=subprocess.DEVNULL, check=True)
    serve = [PROGRAM, "session", "v.conf"]
    count = 20_000
    print("| work | blocks | seconds | processor seconds | blocks a second | microseconds a block | memory, MiB |")
    print("|---|---|---|---|---|---|---|")

    def twenty_thousand(folder):
        path = os.path.join(folder, "input")
        put(path, writes(0, count))
        row("new blocks", count, run(serve, folder, path))
        row("the same blocks again", count, run(serve, folder, path))
        put(path, reads(0, count))
        row("reads, by a process that begins", count, run(serve, folder, path))
        put(path, [session.HELLO, session.frame(6, b"")])
        row("line, hello and goodbye alone", 1, run(serve, folder, path))

    def warm(folder):
        path = os.path.join(folder, "input")
        put(path, writes_and_reads(0, 4_000))
        row("new blocks, and reads of them by the same process", 8_000, run(serve, folder, path))

    in_store(where, 256, 8_192, twenty_thousand)
    in_store(where, 256, 8_192, warm)
    with tempfile.TemporaryDirectory(dir=where) as folder:
        path = os.path.join(folder, "input")
        put(path, (block_of(n) for n in range(count)))
        row("scored, crate `sha1` alone", count, run([session.make_rate(folder)], folder, path))
        row("written by a plain loop, with an fdatasync every 64", count, plain(folder, count))
    for many in (1_000, 10_000, 100_000):
        def grown(folder):
            path = os.path.join(folder, "input")
            put(path, writes(0, many))
            row(f"new blocks, a store of {many:,}", many, run(serve, folder, path))
        in_store(where, 1_024, 8_192, grown)

    def wide(folder):
        path = os.path.join(folder, "input")
        put(path, writes(0, 5 * count))
        row("new blocks, over 60,000 buckets", 5 * count, run(serve, folder, path))
        put(path, reads(0, count))
        row("reads there, by a process that begins", count, run(serve, folder, path))

    def calls(buckets):
        def work(folder):
            path = os.path.join(folder, "input")
            put(path, writes(0, count))
            counted(f"{count:,} new blocks, over {buckets:,} buckets", folder, path, count)
            put(path, reads(0, count))
            counted("Reads of them, by a process that begins", folder, path, count)
        return work

    in_store(where, 1_024, 60_000, wide)
    if shutil.which("strace"):
        for buckets in (8_192, 60_000):
            in_store(where, 256, buckets, calls(buckets))


if __name__ == "__main__":
    main()
