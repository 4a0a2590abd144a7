#!/usr/bin/env python3
"""Runs `rt ci`, and tells how long each crate's proof, tests, edits and runs took.

Run it as bench/gate.py, at the top of the repository, with --anew where nothing that earlier runs passed is to be
taken. The lines of `rt ci` come on standard error, each behind the seconds since the start, and the tables come on
standard output. The status is that of `rt ci`. It needs Python 3, and a Linux /proc.

What it tells is processor time: it looks five times a second at the processes that `rt ci` started, and goes by their
command lines and folders. A check of a crate in a folder rt-edit-* is one of an edit, or, where it keeps its work in a
folder seed, the one that edits begin with. A check of tests proves the functions of their crate once more. What can't
be told so, as formatting, linking, and what came between two looks, is in the row `other`. The peak of a process's
memory is what the system says of it.

Given names of crates, it doesn't run the gate. It proves each of these from nothing, proves and runs its tests over
that, and tries its edits, one job at a time, and prints a row for each.
"""
import os
import re
import resource
import shutil
import subprocess
import sys
import threading
import time

TOP = os.path.dirname(os.path.dirname(os.path.abspath(__file__)))
TICKS = os.sysconf("SC_CLK_TCK")
KINDS = {
    "proof": "proofs",
    "tests": "proofs once more, with their tests",
    "before": "the checks that edits begin with",
    "edits": "edits",
    "runs": "runs",
}
# How many crates have a row of their own, and how many peaks of memory are told.
SHOWN, PEAKS = 12, 3


def read(path):
    """A file's bytes, or none where the process is gone."""
    try:
        with open(path, "rb") as file:
            return file.read()
    except OSError:
        return b""


def kind_of(pid):
    """The crate and the kind of work that a process does, or None."""
    words = read(f"/proc/{pid}/cmdline").decode(errors="replace").split("\0")
    try:
        folder = os.readlink(f"/proc/{pid}/cwd")
    except OSError:
        folder = ""
    if "--crate-name" in words[:-1] and os.path.basename(words[0]) == "rattle":
        crate = words[words.index("--crate-name") + 1]
        if "/rt-edit-" in folder:
            return crate, "before" if any(it.endswith("/seed") for it in words) else "edits"
        return crate, "tests" if "--test" in words else "proof"
    for word in words:
        made = re.search(r"/rt-run-[^/]*/bin/(\w+?)(_tests)?$", word)
        if made:
            return made[1], "runs"
    return None


class Watch:
    """The processor time of each process below one, and its peak of memory in KiB, by what it does."""

    def __init__(self, root):
        self.root, self.seconds, self.kinds, self.peaks = root, {}, {}, {}
        self.is_over = threading.Event()
        self.thread = threading.Thread(target=self.look_on, daemon=True)
        self.thread.start()

    def look_on(self):
        while not self.is_over.wait(0.2):
            self.look()

    def look(self):
        parents, times = {}, {}
        for name in os.listdir("/proc"):
            # (what stands before the bracket is the process's name, which may hold anything)
            stat = read(f"/proc/{name}/stat").rpartition(b") ")[2].split() if name.isdigit() else []
            if len(stat) > 19:
                pid = int(name)
                parents[pid] = int(stat[1])
                times[pid] = stat[19], (int(stat[11]) + int(stat[12])) / TICKS
        for pid, (began, seconds) in times.items():
            above = pid
            while above and above != self.root:
                above = parents.get(above, 0)
            if above == self.root and pid != self.root:
                # (a process has another command line once it runs what it was made for)
                found = kind_of(pid)
                if found:
                    self.kinds[pid, began] = found
                    peak = re.search(rb"VmHWM:\s+(\d+)", read(f"/proc/{pid}/status"))
                    self.peaks[pid, began] = int(peak[1]) if peak else self.peaks.get((pid, began), 0)
                self.seconds[pid, began] = seconds

    def end(self):
        self.is_over.set()
        self.thread.join()

    def largest(self):
        """The largest peaks: how many KiB, and of what."""
        return sorted(((peak, *self.kinds[it]) for it, peak in self.peaks.items()), reverse=True)[:PEAKS]

    def table(self):
        """Seconds by crate and kind."""
        found = {}
        for process, seconds in self.seconds.items():
            if process in self.kinds:
                crate, kind = self.kinds[process]
                row = found.setdefault(crate, dict.fromkeys(KINDS, 0.0))
                row[kind] += seconds
        return found


class Lines:
    """What the lines of `rt ci` say."""

    def __init__(self):
        self.proved, self.tried, self.kept = {}, {}, set()

    def take(self, line, seconds):
        proved = re.match(r"rt: (\w+) (proved$|is kept: )", line)
        if proved:
            self.proved[proved[1]] = seconds
        kept = re.match(r"rt: (\w+)(: \d+ of its \d+ must-fail edits were tried by an earlier run| is kept: )", line)
        if kept:
            self.kept.add(kept[1])
        tried = re.match(r"rt: must-fail (\w+)/", line)
        if tried:
            self.tried[tried[1]] = self.tried.get(tried[1], 0) + 1


def row_of(name, after, row, tried):
    cells = [f"{row[kind]:.0f}" for kind in KINDS]
    return f"| {name} | {after} | {' | '.join(cells[:-1])} | {tried} | {cells[-1]} | {sum(row.values()):.0f} |"


def total(rows):
    return {kind: sum(row[kind] for row in rows) for kind in KINDS}


def show(watch, lines, seconds, processor):
    rows = watch.table()
    whole = total(rows.values())
    told = sum(whole.values())
    other = max(0.0, processor - told)
    print("| crate | proved after | proof | tests | before edits | edits | tried | runs | all |")
    print("|---|---|---|---|---|---|---|---|---|")
    names = sorted(rows, key=lambda it: -sum(rows[it].values()))
    for name in names[:SHOWN]:
        after = f"{lines.proved[name]:.0f}" if name in lines.proved else ""
        print(row_of(f"`{name}`", after, rows[name], lines.tried.get(name, 0)))
    rest = names[SHOWN:]
    if rest:
        tried = sum(lines.tried.get(it, 0) for it in rest)
        print(row_of(f"the other {len(rest)}", "", total([rows[it] for it in rest]), tried))
    print(row_of("all", f"{seconds:.0f}", whole, sum(lines.tried.values())))
    print("\n| kind | seconds | share |\n|---|---|---|")
    for kind, took in [*((KINDS[it], whole[it]) for it in KINDS), ("other", other)]:
        print(f"| {kind} | {took:.0f} | {100 * took / max(told + other, 1):.0f} % |")
    print(f"| all | {told + other:.0f} | |")
    count = len(os.sched_getaffinity(0))
    print(f"\nSeconds of processor time, on {count} processors; in `proved after`, seconds since the start.")
    show_peaks(watch.largest())
    if not rows:
        print("No process could be told by its crate, so only the whole and the stamps of the lines are known.")
    if lines.kept:
        print(f"Kept from earlier runs, in whole or in part: {', '.join(sorted(lines.kept))}.")


def show_peaks(peaks):
    told = [f"{peak / 1024:,.0f} MiB of `{crate}` ({KINDS[kind]})" for peak, crate, kind in peaks]
    print(f"The largest peaks of memory of one process: {', '.join(told) or 'none was seen'}.")


def run(folder, *words):
    """Runs a command in a folder. What it prints comes on standard error."""
    env = {**os.environ, "RT_JOBS": "1"}
    status = subprocess.run(words, cwd=folder, stdin=subprocess.DEVNULL, stdout=sys.stderr, env=env).returncode
    if status:
        sys.exit(f"{' '.join(words)} ended with status {status} in {folder}")


def alone():
    """The command rt as it is where no other checkout on this machine keeps anything, if the toolchain has it so."""
    script = os.path.join(os.path.dirname(os.path.realpath(shutil.which("rt"))), "rtlib.py")
    return [sys.executable, script] if os.path.exists(script) else ["rt"]


def measure(names):
    """Proves these crates, and prints what each took."""
    print("| crate | proof | tests beside it | before edits | edits | tried |")
    print("|---|---|---|---|---|---|", flush=True)
    peaks = []
    for name in names:
        folder = f"{TOP}/crates/{name}"
        # (the crates below are built first)
        run(folder, "rt", "check", "--only=")
        shutil.rmtree(f"{folder}/out/incremental", ignore_errors=True)
        watch = Watch(os.getpid())
        run(folder, *alone(), "check", "--jobs", "1")
        run(folder, *alone(), "test", "--jobs", "1")
        run(TOP, "rt", "must-fail", "--anew", name)
        watch.end()
        row = watch.table().get(name, dict.fromkeys(KINDS, 0.0))
        cells = [f"{row[kind]:.0f}" for kind in KINDS if kind != "runs"]
        edits = f"{folder}/must-fail"
        tried = sum(it.endswith(".edit") for it in os.listdir(edits)) if os.path.isdir(edits) else 0
        print(f"| `{name}` | {' | '.join(cells)} | {tried} |", flush=True)
        peaks += watch.largest()
    print()
    show_peaks(sorted(peaks, reverse=True)[:PEAKS])
    return 0


def main():
    flags = [it for it in sys.argv[1:] if it == "--anew"]
    names = [it for it in sys.argv[1:] if it not in flags]
    if names:
        return measure(names)
    began, lines = time.monotonic(), Lines()
    before = resource.getrusage(resource.RUSAGE_CHILDREN)
    ran = subprocess.Popen(["rt", "ci", *flags], cwd=TOP, stdin=subprocess.DEVNULL, stdout=subprocess.PIPE,
                           stderr=subprocess.STDOUT, text=True, errors="replace")
    watch = Watch(ran.pid)
    for line in ran.stdout:
        seconds = time.monotonic() - began
        lines.take(line.rstrip("\n"), seconds)
        sys.stderr.write(f"{seconds:8.1f} {line}")
        sys.stderr.flush()
    status = ran.wait()
    watch.end()
    after = resource.getrusage(resource.RUSAGE_CHILDREN)
    processor = after.ru_utime + after.ru_stime - before.ru_utime - before.ru_stime
    show(watch, lines, time.monotonic() - began, processor)
    return status


if __name__ == "__main__":
    sys.exit(main())
