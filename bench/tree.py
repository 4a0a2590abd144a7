#!/usr/bin/env python3
"""Times trees of blocks: 64 MiB are written as a tree over a store of blocks in memory, and read back in parts of one
MiB, beside the crate sha1 alone on blocks of the same size.

Run it as bench/tree.py, at the top of the repository; numbers of MiB may follow, 16 and 64 if none do. It needs
Python 3. The program that it times is made, and proved, in a folder of its own, from copies of this repository's
crates. A run that fails, or that does less than it is asked, ends the script.
"""
import os
import shutil
import subprocess
import sys
import tempfile

from session import MIB, RATE, TOP, least

BLOCK = 57_344
PASSES = 16

TREE = """//! Writes its input as a tree of blocks in memory. With an argument it then reads the file back
//! sixteen times, in parts of one MiB. It prints how many bytes the file has, or how many were read.
#![tactic(auto)]

use std::alloc::Global;
use std::env;
use std::io::{self, ErrorKind, Read};
use vt_base::Sha1Scorer;
use vt_out::MemSource;
use vt_tree::{Blocks, Entry, MemBlocks, read_range, write_stream};

/// How many bytes a leaf and a pointer block have.
const BLOCK: u16 = 57_344;

/// How many bytes are read at a time.
const PART: u32 = 1 << 20;

/// How often the file is read.
const PASSES: u8 = 16;

fn main(rt: HostRuntime) -> io::Result<()> {
    let mut input = Vec::new(rt.alloc());
    rt.stdin().read_to_end(&mut input)?;
    let reads = env::args(&rt)?.count() > 1;
    match work(rt.alloc(), input, reads) {
        Some(bytes) => println!(rt; "{bytes}"),
        None => Err(ErrorKind::Other.into()),
    }
}

/// Writes the input, and may read it back.
fn work(alloc: Global, input: Vec<u8>, reads: bool) -> Option<u64> {
    let mut blocks = MemBlocks::new(alloc, Sha1Scorer);
    let mut source = MemSource::new(alloc, input);
    let entry = write_stream(alloc, &mut blocks, &mut source, BLOCK, BLOCK, false).ok()?;
    if !reads {
        return Some(entry.size);
    }
    let mut bytes = 0u64;
    for _ in 0..PASSES {
        bytes = bytes.checked_add(read(alloc, &mut blocks, &entry)?)?;
    }
    Some(bytes)
}

/// Reads the file part by part.
fn read<B: Blocks>(alloc: Global, blocks: &mut B, entry: &Entry) -> Option<u64> {
    if entry.depth >= 8 || entry.size >= 1 << 48 {
        return None;
    }
    let mut at = 0u64;
    for _ in 0..entry.size / u64::from(PART) {
        let part = read_range(alloc, blocks, entry, at, PART).ok()?;
        at = at.checked_add(part.len() as u64)?;
    }
    Some(at)
}
"""


def make(folder):
    """Builds both programs, and gives their paths."""
    crates = os.path.join(folder, "crates")
    skip = shutil.ignore_patterns("out", "vt_prog")
    shutil.copytree(os.path.join(TOP, "crates"), crates, ignore=skip)
    with open(os.path.join(TOP, "crates.txt")) as source, open(os.path.join(folder, "crates.txt"), "w") as out:
        out.writelines(line for line in source if not line.startswith("vt_prog:"))
        out.write("sha1_rate: sha1\ntree_rate: vt_base vt_out vt_tree\n")
    programs = {"sha1_rate": RATE.replace("8_192", f"{BLOCK:_}"), "tree_rate": TREE}
    for name, text in programs.items():
        source = os.path.join(crates, name, "src")
        os.makedirs(source)
        with open(os.path.join(source, "main.rt"), "w") as out:
            out.write(text)
    for name in programs:
        subprocess.run(["rt", "run"], cwd=os.path.join(crates, name), stdin=subprocess.DEVNULL,
                       stdout=subprocess.DEVNULL, stderr=subprocess.DEVNULL, check=True)
    return [os.path.join(crates, name, "out", name) for name in programs]


def write_input(path, size):
    """So many MiB, in which no two leaves are equal."""
    with open(path, "wb") as out:
        for number in range(size * MIB // 1_024):
            out.write((number + 1).to_bytes(4, "big") * 256)


def timed(command, path, expected):
    """Processor seconds and memory of the best run. The first one must print how much it did."""
    with open(path, "rb") as source:
        printed = subprocess.run(command, stdin=source, stdout=subprocess.PIPE, check=True).stdout
    if int(printed.split()[0]) != expected:
        sys.exit(f"{command}: {printed} of {expected}")
    return least(command, path)


def main():
    sizes = [int(size) for size in sys.argv[1:]] or [16, 64]
    with tempfile.TemporaryDirectory() as folder:
        rate, tree = make(folder)
        path = os.path.join(folder, "input")
        print("| work | size | processor seconds | MiB per second, behind what comes before | memory, MiB |")
        print("|---|---|---|---|---|")

        def row(name, size, seconds, before, memory):
            per_second = size / (seconds - before)
            print(f"| {name} | {size} MiB | {seconds:.3f} | {per_second:,.0f} | {memory:.0f} |", flush=True)

        for size in sizes:
            write_input(path, size)
            writing, memory = timed([tree], path, size * MIB)
            row("write a tree", size, writing, 0, memory)
            seconds, memory = timed([tree, "read"], path, PASSES * size * MIB)
            row(f"write a tree, and read it back {PASSES} times", PASSES * size, seconds, writing, memory)
            seconds, memory = timed([rate], path, -(-size * MIB // BLOCK))
            row("score alone, crate `sha1`", size, seconds, 0, memory)


if __name__ == "__main__":
    sys.exit(main())
