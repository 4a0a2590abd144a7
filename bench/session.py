#!/usr/bin/env python3
"""Times `venti session :memory:` on inputs of 16 and 64 MiB, beside the crate sha1 alone and sha1sum.

Each input is a client's line, a hello, and then the same message again and again: pings, reads of a held block,
writes of a held block of 8,192 bytes. Run it as bench/session.py, at the top of the repository. It needs Python 3.
"""
import hashlib
import os
import subprocess
import sys
import tempfile
import time

TOP = os.path.dirname(os.path.dirname(os.path.abspath(__file__)))
MIB = 1 << 20


def frame(kind, parameters):
    body = bytes([kind, 7]) + parameters
    return len(body).to_bytes(2, "big") + body


def write_of(block):
    return frame(14, b"\x0d\0\0\0" + block)


def read_of(block):
    return frame(12, hashlib.sha1(block).digest() + b"\x0d\0\xff\xff")


# A program that scores its input in blocks of 8,192 bytes with the crate sha1 alone. It is made in a folder of its own,
# since the gate reads each source file of this repository as part of what it proves.
RATE = """//! Scores its input in blocks of 8,192 bytes, with the crate `sha1` alone, and prints how many there were.
#![tactic(auto)]

use sha1::Sha1;
use std::io::{self, Read};

/// How many bytes a block has.
const BLOCK: usize = 8_192;

fn main(rt: HostRuntime) -> io::Result<()> {
    let mut input = Vec::new(rt.alloc());
    rt.stdin().read_to_end(&mut input)?;
    let mut blocks = 0u64;
    let mut last = 0u8;
    for block in input.chunks(BLOCK) {
        last = Sha1::digest(block)[19];
        blocks = blocks.saturating_add(1);
    }
    println!(rt; "{blocks} blocks, the last score ends in {last}")
}
"""

HELLO = b"venti-02-bench\n" + frame(4, b"\0\x0202\0\0\0\0\0")
SMALL = bytes(range(64))
BLOCK = bytes(i * i % 251 for i in range(8192))


def repeated(first, message, size):
    """Pieces of an input: no run is charged with the memory of this script."""
    yield HELLO + first
    left = (size - len(HELLO) - len(first)) // len(message)
    while left > 0:
        many = min(left, max(1, MIB // len(message)))
        yield message * many
        left -= many


WORK = [
    ("pings", lambda size: repeated(b"", frame(2, b""), size)),
    ("reads of a held block of 64 bytes", lambda size: repeated(write_of(SMALL), read_of(SMALL), size)),
    ("writes of a held block of 8,192 bytes", lambda size: repeated(b"", write_of(BLOCK), size)),
    ("line and hello only", lambda size: [HELLO]),
]


def run(command, path):
    """Seconds of one run, by the clock and of the processor, and the most memory that it had, in MiB."""
    with open(path, "rb") as source, open(os.devnull, "wb") as sink:
        began = time.perf_counter()
        child = subprocess.Popen(command, stdin=source, stdout=sink)
        _, status, usage = os.wait4(child.pid, 0)
        seconds = time.perf_counter() - began
    if status != 0:
        sys.exit(f"{command}: status {status}")
    return seconds, usage.ru_utime + usage.ru_stime, usage.ru_maxrss / 1024


def best(command, path):
    runs = [run(command, path) for _ in range(3)]
    return min(seconds for seconds, _, _ in runs), max(memory for _, _, memory in runs)


def least(command, path):
    """The same of five runs, by the processor's seconds, which other work on the machine changes less."""
    runs = [run(command, path) for _ in range(5)]
    return min(seconds for _, seconds, _ in runs), max(memory for _, _, memory in runs)


def make_rate(folder):
    """Builds the program that scores alone, and gives its path."""
    crate = os.path.join(folder, "crates", "sha1_rate")
    os.makedirs(os.path.join(crate, "src"))
    with open(os.path.join(folder, "crates.txt"), "w") as out:
        out.write("sha1_rate: sha1\n")
    with open(os.path.join(crate, "src", "main.rt"), "w") as out:
        out.write(RATE)
    subprocess.run(["rt", "run"], cwd=crate, stdin=subprocess.DEVNULL, stdout=subprocess.DEVNULL,
                   stderr=subprocess.DEVNULL, check=True)
    return os.path.join(crate, "out", "sha1_rate")


def main():
    venti = [os.path.join(TOP, "venti"), "session", ":memory:"]
    subprocess.run(venti, stdin=subprocess.DEVNULL, stdout=subprocess.DEVNULL, check=True)
    print("| input | size | seconds | MiB per second | memory, MiB |")
    print("|---|---|---|---|---|")
    with tempfile.TemporaryDirectory() as folder:
        path = os.path.join(folder, "input")
        rate = make_rate(folder)

        def row(name, command, pieces):
            with open(path, "wb") as out:
                out.writelines(pieces)
            seconds, memory = best(command, path)
            size = os.path.getsize(path) / MIB
            print(f"| {name} | {size:.0f} MiB | {seconds:.3f} | {size / seconds:.0f} | {memory:.0f} |", flush=True)

        for name, make in WORK[:3]:
            for size in (16 * MIB, 64 * MIB):
                row(name, venti, make(size))
        blocks = [BLOCK] * (64 * MIB // len(BLOCK))
        row("the same blocks, crate `sha1` alone", [rate], blocks)
        row("the same bytes, `sha1sum`", ["sha1sum"], blocks)
        row(WORK[3][0], venti, WORK[3][1](0))


if __name__ == "__main__":
    main()
