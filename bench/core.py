#!/usr/bin/env python3
"""Times a store on disks in memory: blocks of 64 bytes are written, from 10^3 to 10^6 of them, and its use is ended,
with all that it does to its disks meanwhile; and then each is written once more, in another order, and read. Beside
that SQLite keeps as many in a table in memory, by their SHA-1.

Run it as bench/core.py, at the top of the repository; numbers of blocks may follow. It needs Python 3, and memory for
the disks, about 1 GiB. The program that it times is made, and proved, in a folder of its own, from copies of this
repository's crates, over what is proved of them here. A run that fails, or that does less than it is asked, ends the
script.
"""
import hashlib
import os
import shutil
import sqlite3
import subprocess
import sys
import tempfile
import time

from session import TOP, run

CORE = """//! Writes blocks of 64 bytes to a store on disks in memory, and ends the store's use. Its input of
//! four bytes says whether each is written and read again, in another order, and how many there are.
//! It prints how many are durable in the end, or ends with status 1.
#![tactic(auto)]

ghost use Rattle.std.specs.Prelude.{◌≡◌, ◌≤◌, ◌<◌, [], ◌∷◌, IfSome};
ghost use Rattle.vt_part.specs.Parts.{disk_of, table_of};
ghost use Rattle.vt_part.specs.Table.{end_of};

use std::alloc::Global;
use std::io::{self, ErrorKind, Read};
use vt_base::{Scorer, Sha1Scorer};
use vt_core::{Core, Devices, Event, Out};
use vt_disk::Disk;
use vt_handler::{Store, read, write};
use vt_memdisk::MemDisk;
use vt_part::Part;
use vt_requests::{Driven, end};
use vt_shard::Sizes;

/// How many arenas there are, and how many bytes each has.
const ARENAS: u32 = 3;

const ARENA_LEN: u32 = 67_108_864;

const PART_LEN: u64 = 8_192 + 3 * 67_108_864;

/// How many buckets the only section has.
const BUCKETS: u32 = 8_192;

const SECTION_LEN: u64 = 24_576 + 8_192 * 16_896;

/// The filter has 2^23 bits.
const FILTER_LEN: u64 = 24_576 + 2 * 1_048_576;

const SIZES: Sizes = Sizes {
    lumps: 1_024,
    clean: 65_536,
};

/// A block of data has this type.
const DATA: u8 = 13;

/// How many blocks lie between two that are written again one after the other. It is prime, so each
/// is written again once where their count is no multiple of it.
const STRIDE: u64 = 7_919;

fn main(rt: HostRuntime) -> io::Result<()> {
    let mut input = Vec::new(rt.alloc());
    rt.stdin().read_to_end(&mut input)?;
    match run(rt.alloc(), &input) {
        Some(blocks) => println!(rt; "{blocks}"),
        None => Err(ErrorKind::Other.into()),
    }
}

/// Does what the input says.
fn run(alloc: Global, input: &[u8]) -> Option<u64> {
    let [again, high, middle, low] = *input else {
        return None;
    };
    let blocks = u64::from(high) * 65_536 + u64::from(middle) * 256 + u64::from(low);
    on_disks(alloc, blocks, again == b'a')
}

/// Works on disks in memory.
fn on_disks(alloc: Global, blocks: u64, again: bool) -> Option<u64> {
    let arenas = MemDisk::new(alloc, PART_LEN).ok()?;
    let buckets = MemDisk::new(alloc, SECTION_LEN).ok()?;
    let bits = MemDisk::new(alloc, FILTER_LEN).ok()?;
    work(alloc, arenas, buckets, bits, blocks, again)
}

/// Works on the store of three disks. It gives how many blocks are durable in the end.
fn work<D: Disk + Drop>(
    alloc: Global,
    arenas: D,
    buckets: D,
    bits: D,
    blocks: u64,
    again: bool,
) -> Option<u64> {
    let mut store = driven(alloc, arenas, buckets, bits)?;
    write_all(alloc, &mut store, blocks)?;
    if again {
        repeat_all(alloc, &mut store, blocks)?;
    }
    let mut core = store.into_core();
    end(&mut core, alloc).ok()?;
    Some(core.durable())
}

// ---- blocks

/// Block `number`: eight bytes of it, eight times.
fn block(number: u64) -> [u8; 64] {
    let mut bytes = [0; 64];
    for i in 0..8usize {
        bytes[8 * i..8 * i + 8].copy_from_slice(&number.to_be_bytes());
    }
    bytes
}

/// Writes so many blocks.
fn write_all<T: Store>(alloc: Global, store: &mut T, blocks: u64) -> Option<()> {
    for number in 0..blocks {
        write(alloc, store, DATA, &block(number)).ok()?;
    }
    Some(())
}

/// Writes and reads each of them again, in another order.
fn repeat_all<T: Store>(alloc: Global, store: &mut T, blocks: u64) -> Option<()> {
    let mut at = 0u64;
    for _ in 0..blocks {
        let bytes = block(at);
        let score = write(alloc, store, DATA, &bytes).ok()?;
        if read(alloc, store, &score, DATA, 64).ok()?.as_slice() != &bytes[..] {
            return None;
        }
        at = at.checked_add(STRIDE)?.checked_rem(blocks)?;
    }
    Some(())
}

// ---- the store

/// Writes bytes at a place.
fn put<D: Disk>(disk: &mut D, at: u64, bytes: &[u8]) -> Option<()> {
    if disk.len() < at || disk.len() - at < bytes.len() as u64 {
        return None;
    }
    disk.write_at(at, bytes).ok()
}

/// Makes a disk a partition of arenas without blocks.
fn partition<D: Disk + Drop>(mut disk: D) -> Option<D> {
    put(&mut disk, 0, b"VPRT\\0\\x01arenas0")?;
    put(&mut disk, 70, &u64::from(ARENA_LEN).to_be_bytes())?;
    put(&mut disk, 78, &ARENAS.to_be_bytes())?;
    for number in 0..ARENAS {
        let mut head = *b"VARN\\0\\x01\\0\\0\\0\\0";
        head[6..].copy_from_slice(&number.to_be_bytes());
        put(
            &mut disk,
            8_192 + u64::from(ARENA_LEN) * u64::from(number),
            &head,
        )?;
    }
    disk.sync().ok()?;
    Some(disk)
}

/// Makes it a section in use, of empty buckets.
fn section<D: Disk + Drop>(mut disk: D) -> Option<D> {
    put(&mut disk, 0, b"VSEC\\0\\x01\\x01isect")?;
    put(&mut disk, 75, &BUCKETS.to_be_bytes())?;
    put(&mut disk, 79, &BUCKETS.to_be_bytes())?;
    for number in 0..BUCKETS {
        let mut frame = *b"VBKT\\0\\0\\0\\0";
        frame[4..].copy_from_slice(&number.to_be_bytes());
        put(&mut disk, 24_576 + 16_896 * u64::from(number), &frame)?;
    }
    disk.sync().ok()?;
    Some(disk)
}

/// Makes it a filter without bits, of which a score has four.
fn filter<D: Disk + Drop>(mut disk: D) -> Option<D> {
    put(&mut disk, 0, b"VBLM\\0\\x01\\x17\\x04")?;
    disk.sync().ok()?;
    Some(disk)
}

fn mounted_part<D: Disk + Drop>(disk: D) -> Option<Part<D>>
    ensures { IfSome result (λ part. (end_of (table_of part) ≤ D.size (disk_of part))
        × (0 < (table_of part).count)) }
{
    let Ok(part) = vt_part::mount(disk) else {
        return None;
    };
    if part.count() == 0 {
        return None;
    }
    Some(part)
}

/// A list of one thing.
fn only<T: Drop>(alloc: Global, item: T) -> Option<Vec<T>>
    ensures { IfSome result (λ list. list.items ≡ item ∷ []) }
{
    let mut list = Vec::new(alloc);
    list.push(item).ok()?;
    Some(list)
}

fn mounted<D: Disk + Drop>(
    alloc: Global,
    arenas: D,
    buckets: D,
    bits: D,
) -> Option<Core<D, Sha1Scorer>> {
    let devices = Devices {
        parts: only(alloc, mounted_part(partition(arenas)?)?)?,
        sections: only(alloc, section(buckets)?)?,
        filter: Some(filter(bits)?),
    };
    match Core::mount(alloc, devices, SIZES, 1, Sha1Scorer) {
        Ok(core) => Some(core),
        Err(_) => None,
    }
}

/// The store, and a session that waits for nothing.
fn driven<D: Disk + Drop>(
    alloc: Global,
    arenas: D,
    buckets: D,
    bits: D,
) -> Option<Driven<D, Sha1Scorer>> {
    let mut core = mounted(alloc, arenas, buckets, bits)?;
    if core.sessions() == 0 {
        return None;
    }
    match core.step(alloc, Event::Answer(0)) {
        Out::Nothing => Some(Driven::new(core, 0)),
        _ => None,
    }
}
"""

DEPS = "vt_base vt_disk vt_memdisk vt_part vt_shard vt_core vt_handler vt_requests"


def rlib_alone(folder, names):
    """Of what is made, the proved libraries are copied, so that they aren't proved once more."""
    made = os.path.basename(folder) == "out"
    return [name for name in names if name == "vt_prog" or made and name != "rlib"]


def make(folder):
    """Builds the program, and gives its path."""
    crates = os.path.join(folder, "crates")
    shutil.copytree(os.path.join(TOP, "crates"), crates, ignore=rlib_alone)
    with open(os.path.join(TOP, "crates.txt")) as source, open(os.path.join(folder, "crates.txt"), "w") as out:
        out.writelines(line for line in source if not line.startswith("vt_prog:"))
        out.write(f"core_rate: {DEPS}\n")
    crate = os.path.join(crates, "core_rate")
    os.makedirs(os.path.join(crate, "src"))
    with open(os.path.join(crate, "src", "main.rt"), "w") as out:
        out.write(CORE)
    subprocess.run(["rt", "run"], cwd=crate, input=input_of("w", 0), stdout=subprocess.DEVNULL,
                   stderr=subprocess.DEVNULL, check=True)
    return os.path.join(crate, "out", "core_rate")


def timed(program, path, what, blocks):
    """The least processor seconds, and the most memory, of three runs, or of one on very many blocks, behind one that
    must print how many blocks there were."""
    with open(path, "wb") as out:
        out.write(input_of(what, blocks))
    with open(path, "rb") as source:
        printed = subprocess.run([program], stdin=source, stdout=subprocess.PIPE, check=True).stdout
    if int(printed.split()[0]) != blocks:
        sys.exit(f"{what}: {printed} of {blocks} blocks")
    runs = [run([program], path) for _ in range(3 if blocks <= 100_000 else 1)]
    return min(seconds for _, seconds, _ in runs), max(memory for _, _, memory in runs)


def input_of(what, blocks):
    return what.encode() + blocks.to_bytes(3, "big")


def in_sqlite(blocks):
    """Seconds in which SQLite takes in the same blocks, and commits each 64 of them."""
    table = sqlite3.connect(":memory:")
    table.execute("create table block (score blob primary key, bytes blob) without rowid")
    began = time.process_time()
    for number in range(blocks):
        block = number.to_bytes(8, "big") * 8
        table.execute("insert or ignore into block values (?, ?)", (hashlib.sha1(block).digest(), block))
        if number % 64 == 63:
            table.commit()
    return time.process_time() - began


def main():
    sizes = [int(size) for size in sys.argv[1:]] or [1_000, 10_000, 100_000, 1_000_000]
    with tempfile.TemporaryDirectory() as folder:
        core = make(folder)
        path = os.path.join(folder, "input")
        print("| work | blocks | processor seconds | microseconds per block, behind what comes before | memory, MiB |")
        print("|---|---|---|---|---|")

        def row(name, what, blocks, before):
            seconds, memory = timed(core, path, what, blocks)
            each = f"{1e6 * (seconds - before) / blocks:.1f}" if blocks > 0 else ""
            print(f"| {name} | {blocks:,} | {seconds:.3f} | {each} | {memory:.0f} |", flush=True)
            return seconds

        making = row("making the disks, and mounting", "w", 0, 0)
        writing = [row("write, and end the store's use", "w", size, making) for size in sizes]
        for size, before in zip(sizes, writing):
            row("then write and read each again, in another order", "a", size, before)
        for size in sizes:
            seconds = in_sqlite(size)
            print(f"| the same blocks in SQLite | {size:,} | {seconds:.3f} | {1e6 * seconds / size:.1f} | |")


if __name__ == "__main__":
    sys.exit(main())
