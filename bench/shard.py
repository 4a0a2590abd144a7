#!/usr/bin/env python3
"""Times a shard over an index section of 2,048 buckets on a disk in memory: calls that find what they need in memory,
among 10 dirty entries and among 1,024, look-ups that read a bucket, and writebacks of 10 entries and of 1,024; and
beside them look-ups in Python's dict.

Run it as bench/shard.py, at the top of the repository. It needs Python 3. The program that it times is made, and
proved, in a folder of its own, from copies of this repository's crates. A run that fails, or that does less than it is
asked, ends the script.
"""
import os
import shutil
import subprocess
import sys
import tempfile
import time

from session import TOP, least

SHARD = """//! Works on a shard over an index section of 2,048 buckets on a disk in memory. Its input of seven
//! bytes says what to do, with how many entries at a time, and how often. It prints how often it
//! did that, or ends with status 1.
#![tactic(auto)]

ghost use Rattle.std.specs.Prelude.{◌≡◌, ◌<◌};

use std::alloc::Global;
use std::io::{self, ErrorKind, Read};
use std::marker::Brand;
use std::sync::ledger::{Blank, Ledger};
use vt_base::{Info, Key, Kind, Place, Score, Steps, Text};
use vt_disk::Disk;
use vt_icache::IndexCache;
use vt_isect::Section;
use vt_memdisk::{MemDisk, Never};
use vt_shard::{Shard, Sizes};

/// How long a section of 2,048 buckets is.
const LEN: u64 = 24_576 + 2_048 * 16_896;

/// How many clean entries are kept.
const CLEAN: u32 = 2_048;

/// One more than the calls that a writeback takes at most.
const CALLS: u16 = 6_149;

/// What is done.
#[derive(Clone, Copy)]
enum Work {
    /// Look-ups by key, among so many dirty entries.
    Lookups,
    /// Look-ups by score.
    Others,
    /// Counts of a bucket's blocks.
    Crowds,
    /// Look-ups that read a bucket.
    Reads,
    /// Entries are put in, so many at a time, and settled.
    Settles,
    /// Entries are put in, so many at a time, and written back.
    Writebacks,
}

fn work_of(byte: u8) -> Option<Work> {
    match byte {
        b'l' => Some(Work::Lookups),
        b'o' => Some(Work::Others),
        b'c' => Some(Work::Crowds),
        b'r' => Some(Work::Reads),
        b's' => Some(Work::Settles),
        b'w' => Some(Work::Writebacks),
        _ => None,
    }
}

fn main(rt: HostRuntime) -> io::Result<()> {
    let mut input = Vec::new(rt.alloc());
    rt.stdin().read_to_end(&mut input)?;
    match run::<Brand>(rt.alloc(), &input, Blank::new(1)) {
        Some(times) => println!(rt; "{times}"),
        None => Err(ErrorKind::Other.into()),
    }
}

/// Does what the input says.
fn run<L: Ledger>(alloc: Global, input: &[u8], blank: Blank) -> Option<u64>
    requires name { blank.name ≡ L.name }
    requires parts { blank.parts ≡ L.parts }
    requires some { 0 < L.parts }
{
    let work = work_of(*input.first()?)?;
    let entries = number_at(input, 1)?;
    let rounds = number_at(input, 4)?;
    let mut steps = Steps::<L>::new(blank);
    if matches!(work, Work::Settles) {
        return settle(alloc, entries, rounds);
    }
    let disk = make(alloc, MemDisk::<Never>::new(alloc, LEN).ok()?)?;
    on_disk(alloc, disk, work, entries, rounds, &mut steps)
}

/// Three bytes as a number.
fn number_at(input: &[u8], at: usize) -> Option<u64> {
    let rest = input.get(at..)?;
    let high = u64::from(*rest.get(0)?);
    let middle = u64::from(*rest.get(1)?);
    let low = u64::from(*rest.get(2)?);
    Some(high * 65_536 + middle * 256 + low)
}

/// The directory entry of a block. The scores of near ones begin with zeros, and those of others
/// are spread over the buckets.
fn info_of(number: u64, near: bool) -> Info {
    let mut score = [0; 20];
    if !near {
        let spread = number.wrapping_mul(2_654_435_761);
        score[0] = (spread / 16_777_216 % 256) as u8;
        score[1] = (spread / 65_536 % 256) as u8;
    }
    score[2] = (number / 65_536 % 256) as u8;
    score[3] = (number / 256 % 256) as u8;
    score[4] = (number % 256) as u8;
    Info {
        key: Key {
            score: Score(score),
            kind: Kind::DATA,
        },
        size: 3,
        place: Place {
            arena: 0,
            offset: 0,
        },
        number,
    }
}

// ---- the entries in memory alone

/// Puts so many entries in, which aren't there, and settles them, again and again.
fn settle(alloc: Global, entries: u64, rounds: u64) -> Option<u64> {
    let mut index = IndexCache::new(alloc, 1_024, CLEAN).ok()?;
    settle_in(&mut index, entries, rounds)
}

fn settle_in(index: &mut IndexCache, entries: u64, rounds: u64) -> Option<u64> {
    let mut first = 0u64;
    for _ in 0..rounds {
        let end = first.checked_add(entries)?;
        for number in first..end {
            put_dirty(index, info_of(number, false))?;
        }
        for number in first..end {
            if !index.settle(&info_of(number, false).key, end) {
                return None;
            }
        }
        first = end;
    }
    Some(first)
}

fn put_dirty(index: &mut IndexCache, info: Info) -> Option<()> {
    let None = index.find(&info.key) else {
        return None;
    };
    if index.spare() == 0 {
        return None;
    }
    index.put_dirty(info);
    Some(())
}

// ---- shards

/// The disk of a shard without blocks.
fn make<D: Disk + Drop>(alloc: Global, mut disk: D) -> Option<D> {
    let name = Text::copy_of(alloc, b"index.0").ok()?;
    if name.len() > 64 {
        return None;
    }
    vt_isect::format(&mut disk, &name).ok()?;
    let mut section = vt_isect::mount(alloc, disk).ok()?;
    put_to_use(&mut section)?;
    Some(section.into_devices())
}

fn put_to_use<D: Disk>(section: &mut Section<D>) -> Option<()> {
    for state in [2, 1] {
        let buckets = section.buckets();
        if section.is_changing() {
            return None;
        }
        section.begin_head(state, 0, buckets, 0);
        change_head(section)?;
        if state == 2 {
            if section.is_changing() || section.head().first != 0 || section.buckets() < buckets {
                return None;
            }
            section.clear(0, buckets).ok()?;
        }
    }
    Some(())
}

fn change_head<D: Disk>(section: &mut Section<D>) -> Option<()> {
    for _ in 0..4u8 {
        if !section.is_changing() {
            return None;
        }
        section.advance().ok()?;
    }
    Some(())
}

fn shard_of<D: Disk + Drop>(alloc: Global, disk: D) -> Option<Shard<D>> {
    let section = vt_isect::mount(alloc, disk).ok()?;
    if section.is_changing() {
        return None;
    }
    let sizes = Sizes {
        lumps: 64,
        clean: CLEAN,
    };
    vt_shard::mount(alloc, section, sizes).ok()
}

/// Works on the shard of a disk.
fn on_disk<D: Disk + Drop, L: Ledger>(
    alloc: Global,
    disk: D,
    work: Work,
    entries: u64,
    rounds: u64,
    steps: &mut Steps<L>,
) -> Option<u64> {
    on_shard(&mut shard_of(alloc, disk)?, work, entries, rounds, steps)
}

fn on_shard<D: Disk, L: Ledger>(
    shard: &mut Shard<D>,
    work: Work,
    entries: u64,
    rounds: u64,
    steps: &mut Steps<L>,
) -> Option<u64> {
    match work {
        Work::Lookups => {
            put_near(shard, entries, steps)?;
            look_up(shard, entries, rounds, steps)
        }
        Work::Others => {
            put_near(shard, entries, steps)?;
            look_up_scores(shard, entries, rounds)
        }
        Work::Crowds => {
            put_near(shard, entries, steps)?;
            count(shard, entries, rounds)
        }
        Work::Reads => read(shard, rounds, steps),
        Work::Writebacks => write_back(shard, entries, rounds, steps),
        Work::Settles => None,
    }
}

/// Puts so many entries of one bucket in.
fn put_near<D: Disk, L: Ledger>(
    shard: &mut Shard<D>,
    entries: u64,
    steps: &mut Steps<L>,
) -> Option<()> {
    for number in 0..entries {
        put(shard, info_of(number, true), steps)?;
    }
    Some(())
}

/// Puts a block's entry in, which isn't there.
fn put<D: Disk, L: Ledger>(shard: &mut Shard<D>, info: Info, steps: &mut Steps<L>) -> Option<()> {
    if !shard.has_key(&info.key) {
        return None;
    }
    let Ok(None) = shard.lookup(&info.key, steps) else {
        return None;
    };
    if shard.spare() == 0 || !shard.has_key(&info.key) {
        return None;
    }
    if info.number == u64::MAX || info.number < shard.filed() {
        return None;
    }
    shard.put(info);
    Some(())
}

/// Looks an entry up, and says whether it was found.
fn is_found<D: Disk, L: Ledger>(
    shard: &mut Shard<D>,
    key: &Key,
    steps: &mut Steps<L>,
) -> Option<bool> {
    if !shard.has_key(key) {
        return None;
    }
    Some(shard.lookup(key, steps).ok()?.is_some())
}

/// Looks dirty entries up, one after another, again and again.
fn look_up<D: Disk, L: Ledger>(
    shard: &mut Shard<D>,
    entries: u64,
    rounds: u64,
    steps: &mut Steps<L>,
) -> Option<u64> {
    for round in 0..rounds {
        let info = info_of(round.checked_rem(entries)?, true);
        if !is_found(shard, &info.key, steps)? {
            return None;
        }
    }
    Some(rounds)
}

/// The same by their scores.
fn look_up_scores<D: Disk>(shard: &mut Shard<D>, entries: u64, rounds: u64) -> Option<u64> {
    for round in 0..rounds {
        let key = info_of(round.checked_rem(entries)?, true).key;
        if !shard.has_key(&key) || shard.others(&key.score).ok()?.is_none() {
            return None;
        }
    }
    Some(rounds)
}

/// Counts the blocks of the bucket that has them all, again and again.
fn count<D: Disk>(shard: &mut Shard<D>, entries: u64, rounds: u64) -> Option<u64> {
    for _ in 0..rounds {
        if !shard.has_bucket(0) || u64::from(shard.crowd(0).ok()?) != entries {
            return None;
        }
    }
    Some(rounds)
}

/// Looks for entries that aren't there, each in another bucket than the one before it.
fn read<D: Disk, L: Ledger>(
    shard: &mut Shard<D>,
    rounds: u64,
    steps: &mut Steps<L>,
) -> Option<u64> {
    for round in 0..rounds {
        if is_found(shard, &info_of(round, false).key, steps)? {
            return None;
        }
    }
    Some(rounds)
}

/// Puts so many entries in, spread over the buckets, and writes them back, again and again.
fn write_back<D: Disk, L: Ledger>(
    shard: &mut Shard<D>,
    entries: u64,
    rounds: u64,
    steps: &mut Steps<L>,
) -> Option<u64> {
    let mut first = 0u64;
    for _ in 0..rounds {
        let end = first.checked_add(entries)?;
        for number in first..end {
            put(shard, info_of(number, false), steps)?;
        }
        if shard.owed() != 0 || !shard.begin_file(end) {
            return None;
        }
        finish(shard)?;
        first = end;
    }
    if shard.mark() == first {
        Some(first)
    } else {
        None
    }
}

/// Makes the calls of the writeback under way.
fn finish<D: Disk>(shard: &mut Shard<D>) -> Option<()> {
    for _ in 0..CALLS {
        if shard.owed() == 0 {
            return Some(());
        }
        shard.advance().ok()?;
    }
    None
}
"""

# A proof of it names the ghosts of a call.
GHOSTS = """use Rattle.shard_rate.proofs.main.Given as goal

abbrev pub ghosts-run : goal.ghosts-run
ghosts-run a = record { name = a.blank.name; parts = a.blank.parts }
"""

# What is done, with how many entries at a time, and how often.
ROWS = [
    ("look-ups by key, in memory", "l", 10, 2_000_000),
    ("look-ups by key, in memory", "l", 1_024, 2_000_000),
    ("look-ups by score, in memory", "o", 10, 1_000_000),
    ("look-ups by score, in memory", "o", 1_024, 1_000_000),
    ("counts of a bucket's blocks", "c", 10, 10_000_000),
    ("counts of a bucket's blocks", "c", 1_024, 10_000_000),
    ("entries put in and settled, in memory", "s", 10, 102_400),
    ("entries put in and settled, in memory", "s", 1_024, 1_000),
    ("entries put in and written back", "w", 10, 4_096),
    ("entries put in and written back", "w", 1_024, 40),
    ("look-ups that read a bucket", "r", 0, 50_000),
]


def make(folder):
    """Builds the program, and gives its path."""
    crates = os.path.join(folder, "crates")
    skip = shutil.ignore_patterns("out", "vt_prog")
    shutil.copytree(os.path.join(TOP, "crates"), crates, ignore=skip)
    with open(os.path.join(TOP, "crates.txt")) as source, open(os.path.join(folder, "crates.txt"), "w") as out:
        out.writelines(line for line in source if not line.startswith("vt_prog:"))
        out.write("shard_rate: vt_base vt_disk vt_memdisk vt_icache vt_isect vt_shard\n")
    crate = os.path.join(crates, "shard_rate")
    os.makedirs(os.path.join(crate, "src"))
    with open(os.path.join(crate, "src", "main.rt"), "w") as out:
        out.write(SHARD)
    proof = os.path.join(crate, "proofs", "main")
    os.makedirs(proof)
    with open(os.path.join(proof, "Invariants.antt"), "w") as out:
        out.write(GHOSTS)
    subprocess.run(["rt", "run"], cwd=crate, input=input_of("r", 0, 0), stdout=subprocess.DEVNULL,
                   stderr=subprocess.DEVNULL, check=True)
    return os.path.join(crate, "out", "shard_rate")


def input_of(what, entries, rounds):
    return what.encode() + entries.to_bytes(3, "big") + rounds.to_bytes(3, "big")


def timed(program, path, what, entries, rounds, expected):
    """Processor seconds and memory of the best run. The first one must print how much it did."""
    with open(path, "wb") as out:
        out.write(input_of(what, entries, rounds))
    with open(path, "rb") as source:
        printed = subprocess.run([program], stdin=source, stdout=subprocess.PIPE, check=True).stdout
    if int(printed.split()[0]) != expected:
        sys.exit(f"{what}: {printed} of {expected}")
    return least([program], path)


def dict_rate(entries, rounds):
    """Seconds of the best of three times so many look-ups in Python's dict, by keys as long as a score and a type."""
    table = {number.to_bytes(21, "big"): number for number in range(entries)}
    keys = [number.to_bytes(21, "big") for number in range(entries)]
    seconds = []
    for _ in range(3):
        begun = time.process_time()
        for _ in range(rounds // entries):
            for key in keys:
                table[key]
        seconds.append(time.process_time() - begun)
    return min(seconds)


def main():
    with tempfile.TemporaryDirectory() as folder:
        program = make(folder)
        path = os.path.join(folder, "input")
        print("| work | entries at a time | times | processor seconds | times per second, behind the making "
              "| memory, MiB |")
        print("|---|---|---|---|---|---|")

        def row(name, entries, times, seconds, before, memory):
            took = seconds - before
            per_second = f"{times / took:,.0f}" if took > 0.02 else "too many to measure" if times else ""
            print(f"| {name} | {entries:,} | {times:,} | {seconds:.3f} | {per_second} | {memory} |", flush=True)

        making, memory = timed(program, path, "r", 0, 0, 0)
        row("making the disk and the shard", 0, 0, making, 0, f"{memory:.0f}")
        for name, what, entries, rounds in ROWS:
            times = entries * rounds if what in "sw" else rounds
            seconds, memory = timed(program, path, what, entries, rounds, times)
            row(name, entries, times, seconds, 0 if what == "s" else making, f"{memory:.0f}")
        for entries in [10, 1_024]:
            row("look-ups in Python's dict", entries, 1_024_000, dict_rate(entries, 1_024_000), 0, "")


if __name__ == "__main__":
    sys.exit(main())
