#!/usr/bin/env python3
"""Times the turns of threads at one store in memory: taking a part and giving it back, and loading the count of
accepted blocks, from one, two and four threads.

Run it as bench/turns.py, at the top of the repository. It needs Python 3. The program that it times is made, and
proved, in a folder of its own, from copies of this repository's crates. A run that fails, or that does less than it is
asked, ends the script.
"""
import os
import shutil
import subprocess
import sys
import tempfile

from session import TOP, best

# What each thread does, by the letter that the program reads behind the count of threads, and how often.
WORKS = {
    "o": ("take and give, each thread a part of its own", 5_000_000),
    "s": ("take and give, all threads one part", 5_000_000),
    "f": ("load the front", 500_000_000),
}

TURNS = """//! Takes turns at a store in memory. Its input is the count of threads, 1, 2 or 4, and what each
//! of them does: `o` a part of its own (of two threads at most), `s` one part for all, `f` the
//! front, and any other letter nothing.
#![tactic(auto)]

ghost use Rattle.std.specs.Prelude.{◌<◌};
ghost use Rattle.vt_turns_example.specs.Stores.{IsFree};

use std::alloc::Global;
use std::io::{self, ErrorKind, Read};
use std::sync::Wait;
use std::thread::{Threads, join};
use vt_turns::Pass;
use vt_turns_example::{Block, Part, Store, open};

/// How often each thread takes a part and gives it back, or loads the front.
fn rounds_of(work: u8) -> u64 {
    match work {
        b'o' | b's' => 5_000_000,
        b'f' => 500_000_000,
        _ => 0,
    }
}

fn main(rt: HostRuntime) -> io::Result<()> {
    let mut input = Vec::new(rt.alloc());
    rt.stdin().read_to_end(&mut input)?;
    let (Some(threads), Some(work)) = (input.get(0), input.get(1)) else {
        return Err(ErrorKind::Other.into());
    };
    match run(&rt, rt.alloc(), *threads, *work) {
        Some(()) => println!(rt; "{}", rounds_of(*work)),
        None => Err(ErrorKind::Other.into()),
    }
}

/// Opens a store, and has so many threads work at it.
fn run<R: Threads + Wait + Sync>(rt: &R, alloc: Global, threads: u8, work: u8) -> Option<()> {
    let (store, mut pass) = open(alloc, 1_000).ok()?;
    let second = store.split(&mut pass);
    let third = store.split(&mut pass);
    let fourth = store.split(&mut pass);
    match threads {
        b'1' => spin(rt, &store, pass, work, 1),
        b'2' => two(rt, &store, pass, second, work),
        b'4' => four(rt, &store, (pass, second), (third, fourth), work),
        _ => return None,
    }
    Some(())
}

/// One thread. The part of its own has this number.
fn spin<R: Wait>(rt: &R, store: &Store, mut pass: Pass<Part, Block>, work: u8, own: u32)
    requires free { IsFree store.now pass }
    requires own { own < 3 }
{
    for _ in 0..rounds_of(work) {
        match work {
            b'o' => store.turn(rt, &mut pass, own),
            b's' => store.turn(rt, &mut pass, 1),
            b'f' => {
                store.count(&mut pass);
            }
            _ => {}
        }
    }
}

/// Two threads.
fn two<R: Threads + Wait + Sync>(
    rt: &R,
    store: &Store,
    first: Pass<Part, Block>,
    second: Pass<Part, Block>,
    work: u8,
)
    requires first { IsFree store.now first }
    requires second { IsFree store.now second }
{
    join(
        rt,
        move || -> ()
            requires { IsFree store.now first }
        { spin(rt, store, first, work, 1) },
        move || -> ()
            requires { IsFree store.now second }
        { spin(rt, store, second, work, 2) },
    );
}

/// Four threads.
fn four<R: Threads + Wait + Sync>(
    rt: &R,
    store: &Store,
    first: (Pass<Part, Block>, Pass<Part, Block>),
    second: (Pass<Part, Block>, Pass<Part, Block>),
    work: u8,
)
    requires first { IsFree store.now first.0 × IsFree store.now first.1 }
    requires second { IsFree store.now second.0 × IsFree store.now second.1 }
{
    join(
        rt,
        move || -> ()
            requires { IsFree store.now first.0 × IsFree store.now first.1 }
        { two(rt, store, first.0, first.1, work) },
        move || -> ()
            requires { IsFree store.now second.0 × IsFree store.now second.1 }
        { two(rt, store, second.0, second.1, work) },
    );
}
"""

# What a thread's loop keeps.
KEPT = """use Rattle.vt_turns_example.specs.Stores.{IsFree}
use Rattle.turns_rate.proofs.spin.Given as goal

abbrev pub invariant-loop : goal.invariant-loop
invariant-loop g l = IsFree l.store l.pass
"""

NEEDED = ["vt_base", "vt_turns", "vt_turns_example"]


def make(folder):
    """Builds the program, and gives its path."""
    crates = os.path.join(folder, "crates")
    for name in NEEDED:
        shutil.copytree(os.path.join(TOP, "crates", name), os.path.join(crates, name), ignore=shutil.ignore_patterns("out"))
    with open(os.path.join(TOP, "crates.txt")) as source, open(os.path.join(folder, "crates.txt"), "w") as out:
        out.writelines(line for line in source if line.split(":")[0] in NEEDED)
        out.write("turns_rate: vt_turns vt_turns_example\n")
    shutil.copy(os.path.join(TOP, "HANDLES"), folder)
    crate = os.path.join(crates, "turns_rate")
    for path, text in [("src/main.rt", TURNS), ("proofs/spin/Invariants.antt", KEPT)]:
        path = os.path.join(crate, path)
        os.makedirs(os.path.dirname(path))
        with open(path, "w") as out:
            out.write(text)
    with tempfile.TemporaryFile() as given:
        given.write(b"1n")
        given.seek(0)
        subprocess.run(["rt", "run"], cwd=crate, stdin=given, stdout=subprocess.DEVNULL, stderr=subprocess.DEVNULL,
                       check=True)
    return os.path.join(crate, "out", "turns_rate")


def timed(program, path, threads, work, rounds):
    """Seconds of the best run. The first one must print how many rounds a thread made."""
    with open(path, "wb") as out:
        out.write(f"{threads}{work}".encode())
    with open(path, "rb") as source:
        printed = subprocess.run([program], stdin=source, stdout=subprocess.PIPE, check=True).stdout
    if int(printed) != rounds:
        sys.exit(f"{threads}{work}: {printed}")
    return best([program], path)[0]


def main():
    with tempfile.TemporaryDirectory() as folder:
        program = make(folder)
        path = os.path.join(folder, "input")
        print("| work | threads | seconds | times per second, all threads |")
        print("|---|---|---|---|")
        for work, (name, rounds) in WORKS.items():
            for threads in [1, 2] if work == "o" else [1, 2, 4]:
                seconds = timed(program, path, threads, work, rounds) - timed(program, path, threads, "n", 0)
                print(f"| {name} | {threads} | {seconds:.3f} | {rounds * threads / seconds:,.0f} |", flush=True)


if __name__ == "__main__":
    sys.exit(main())
