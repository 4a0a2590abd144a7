#!/usr/bin/env python3
"""Times the log: blocks of 1,024 bytes are appended and committed on a disk in memory, and then each is read once, in
another order, beside the crate sha1 alone.

Run it as bench/log.py, at the top of the repository; numbers of blocks may follow, 10,000 and 100,000 if none do. It
needs Python 3. The program that it times is made, and proved, in a folder of its own, from copies of this repository's
crates. A run that fails, or that does less than it is asked, ends the script.
"""
import os
import shutil
import subprocess
import sys
import tempfile

from session import RATE, TOP, best

BLOCK = 1024

# Its only arena has room for 120,000 such blocks.
LOG = """//! Appends its input to a log on a disk in memory, in blocks of 1,024 bytes, and commits
//! them. With an argument it then reads each of them once, in another order. It prints how many
//! there are, or ends with status 1.
#![tactic(auto)]

ghost use Rattle.std.specs.Prelude.{◌≡◌, ◌<◌};

use std::alloc::Global;
use std::env;
use std::io::{self, ErrorKind, Read};
use std::marker::Brand;
use std::sync::ledger::{Blank, Ledger};
use vt_base::{Key, Kind, Place, Scorer, Sha1Scorer, Steps, Text};
use vt_clump::pack;
use vt_log::Log;
use vt_memdisk::{MemDisk, Never};

/// How many bytes a block has.
const BLOCK: usize = 1_024;

/// How many bytes the one arena has.
const ARENA_LEN: u64 = 134_217_728;

/// How many blocks lie between two that are read one after the other. It is prime, so each is read
/// once where their count is no multiple of it.
const STRIDE: usize = 7_919;

type MemLog = Log<MemDisk<Never>, Sha1Scorer>;

fn main(rt: HostRuntime) -> io::Result<()> {
    let mut input = Vec::new(rt.alloc());
    rt.stdin().read_to_end(&mut input)?;
    let reads = env::args(&rt)?.count() > 1;
    match work::<Brand>(rt.alloc(), &input, reads, Blank::new(1)) {
        Some(blocks) => println!(rt; "{blocks}"),
        None => Err(ErrorKind::Other.into()),
    }
}

/// Commits the blocks, and may read them. It gives how many there are.
fn work<L: Ledger>(alloc: Global, input: &[u8], reads: bool, blank: Blank) -> Option<u64>
    requires name { blank.name ≡ L.name }
    requires parts { blank.parts ≡ L.parts }
    requires some { 0 < L.parts }
{
    let mut log = make(alloc)?;
    let blocks = commit(alloc, &mut log, input)?;
    if reads {
        let mut steps = Steps::<L>::new(blank);
        read_all(alloc, &mut log, &blocks, &mut steps)?;
    }
    Some(log.durable())
}

/// A log without blocks.
fn make(alloc: Global) -> Option<MemLog> {
    let mut disk = MemDisk::new(alloc, 8_192 + ARENA_LEN).ok()?;
    let name = Text::copy_of(alloc, b"log").ok()?;
    if !vt_part::is_name(name.as_slice()) {
        return None;
    }
    vt_part::format(&mut disk, &name, ARENA_LEN).ok()?;
    let part = vt_part::mount(disk).ok()?;
    let mut parts = Vec::new(alloc);
    parts.push(part).ok()?;
    vt_log::format(&mut parts).ok()?;
    vt_log::mount(alloc, parts, Sha1Scorer).ok()
}

/// Appends and commits the blocks. It gives the place and the key of each.
fn commit(alloc: Global, log: &mut MemLog, input: &[u8]) -> Option<Vec<(Place, Key)>> {
    let kind = Kind::from_wire(13)?;
    let mut blocks = Vec::new(alloc);
    for block in input.chunks(BLOCK) {
        if block.is_empty() || block.len() > BLOCK {
            return None;
        }
        let score = Sha1Scorer.score(block);
        let packed = pack(alloc, kind, block, score, 0).ok()?;
        for _ in 0..log.owed() {
            if !log.queue_full() {
                break;
            }
            log.advance().ok()?;
        }
        if log.queue_full() {
            return None;
        }
        let place = log.append(packed).ok()?;
        blocks.push((place, Key { score, kind })).ok()?;
    }
    for _ in 0..log.owed() {
        log.advance().ok()?;
    }
    Some(blocks)
}

/// Reads each of the blocks once.
fn read_all<L: Ledger>(
    alloc: Global,
    log: &mut MemLog,
    blocks: &[(Place, Key)],
    steps: &mut Steps<L>,
) -> Option<()> {
    let mut at = 0;
    for _ in 0..blocks.len() {
        let (place, key) = blocks.get(at)?;
        log.read(alloc, *place, key, steps).ok()?;
        at = at.checked_add(STRIDE)?.checked_rem(blocks.len())?;
    }
    Some(())
}
"""

# A proof of it names the ghosts of a call.
GHOSTS = """use Rattle.log_rate.proofs.main.Given as goal

abbrev pub ghosts-work : goal.ghosts-work
ghosts-work a = record { name = a.blank.name; parts = a.blank.parts }
"""


def make(folder):
    """Builds both programs, and gives their paths."""
    crates = os.path.join(folder, "crates")
    skip = shutil.ignore_patterns("out", "vt_prog")
    shutil.copytree(os.path.join(TOP, "crates"), crates, ignore=skip)
    with open(os.path.join(TOP, "crates.txt")) as source, open(os.path.join(folder, "crates.txt"), "w") as out:
        out.writelines(line for line in source if not line.startswith("vt_prog:"))
        out.write("sha1_rate: sha1\nlog_rate: vt_base vt_clump vt_disk vt_memdisk vt_part vt_arena vt_log\n")
    programs = {"sha1_rate": RATE.replace("8_192", "1_024"), "log_rate": LOG}
    for name, text in programs.items():
        os.makedirs(os.path.join(crates, name, "src"))
        with open(os.path.join(crates, name, "src", "main.rt"), "w") as out:
            out.write(text)
    proof = os.path.join(crates, "log_rate", "proofs", "main")
    os.makedirs(proof)
    with open(os.path.join(proof, "Invariants.antt"), "w") as out:
        out.write(GHOSTS)
    for name in programs:
        crate = os.path.join(crates, name)
        subprocess.run(["rt", "run"], cwd=crate, stdin=subprocess.DEVNULL, stdout=subprocess.DEVNULL,
                       stderr=subprocess.DEVNULL, check=True)
    return [os.path.join(crates, name, "out", name) for name in programs]


def timed(command, path, blocks):
    """Seconds and memory of the best run on so many blocks. The first one must print how many there were."""
    with open(path, "wb") as out:
        for number in range(blocks):
            out.write(number.to_bytes(4, "big") * (BLOCK // 4))
    with open(path, "rb") as source:
        printed = subprocess.run(command, stdin=source, stdout=subprocess.PIPE, check=True).stdout
    if int(printed.split()[0]) != blocks:
        sys.exit(f"{command}: {printed} of {blocks} blocks")
    return best(command, path)


def main():
    sizes = [int(size) for size in sys.argv[1:]] or [10_000, 100_000]
    with tempfile.TemporaryDirectory() as folder:
        rate, log = make(folder)
        path = os.path.join(folder, "input")
        print("| work | blocks | seconds | blocks per second, behind what comes before | memory, MiB |")
        print("|---|---|---|---|---|")

        def row(name, command, blocks, before):
            seconds, memory = timed(command, path, blocks)
            per_second = blocks / (seconds - before) if blocks > 0 else 0
            print(f"| {name} | {blocks} | {seconds:.3f} | {per_second:,.0f} | {memory:.0f} |", flush=True)
            return seconds

        making = row("making the disk and the log", [log], 0, 0)
        appending = [row("append and commit", [log], size, making) for size in sizes]
        for size, before in zip(sizes, appending):
            row("append and commit, and read each once in another order", [log, "read"], size, before)
        row("score alone, crate `sha1`", [rate], sizes[-1], 0)


if __name__ == "__main__":
    sys.exit(main())
