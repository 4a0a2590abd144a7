#!/usr/bin/env python3
"""Proves the program and the crates that it stands on, side by side, and builds it: ./venti calls this where the
program is missing or old.

What it does and how far it is comes on standard error, and nothing on standard output. What the toolchain says is kept
in crates/vt_prog/out/build.log. A run that is cut off loses only the crates that it was at. It needs Python 3.8.

Each crate is a job of its own, done by the calls of the script rt itself, so that those with the longest chain of
others behind them come first. Its library keeps what it states and not how that is proved, which takes less memory and
time to read for those above. Where the script lacks these calls, `rt all check` does the same: it begins with a pass
over all sources in one process, and takes the crates in their order.
"""
import importlib.machinery
import importlib.util
import inspect
import io
import operator
import os
import queue
import shutil
import signal
import subprocess
import sys
import threading
import time

TOP = os.path.dirname(os.path.realpath(__file__))
PROGRAM = "vt_prog"
FOLDER = os.path.join(TOP, "crates", PROGRAM)
LOG = os.path.join(FOLDER, "out", "build.log")
# GiB of memory: what the checks that go on at a time may take by the peaks of each, what one takes at most, what each
# process more on the same crate adds, since it shares what is read, and what the large ones take. Peaks hardly come at
# one time: of 6.2 GiB by these peaks 5.1 were seen.
MEMORY, PEAK, MORE = 6.4, 1.3, 0.5
PEAKS = {
    "run_archives": 2.3, "run_base": 2.3, "vt_rehearse": 2.3, "vt_shard": 2.2, "vt_core": 2.2, "run_stores": 2.0,
    "vt_use": 1.9, "vt_format": 1.9, "vt_empty": 1.9, "vt_host": 1.8, "nine_view": 1.8, "vt_recover": 1.8,
    "vt_requests": 1.7, "vt_open": 1.7, "vt_lookup": 1.7, "vt_rebuild": 1.7, "vt_isect": 1.6, "vt_cli": 1.6,
    "vt_log": 1.6, "vt_tree": 1.5, "vt_arena": 1.5, "vt_bloom": 1.5, "vac_read": 1.4, "vt_maintain": 1.4,
    "run_sessions": 1.4, "vt_handler": 1.4, "vt_check": 1.3,
}
# What is called of the script rt, with arguments as they are given here; `share_work` only where there is one.
CALLS = [
    ("rtlib.guarded", []), ("rtlib.lock", [[]]), ("rtlib.stop_on_links", [""]),
    ("rtlib.files_of", [""]), ("rtlib.text_of", [""]), ("rtlib.Crate", ["", "", {}]), ("rtlib.Crate.below", [None]),
    ("rtlib.Crate.is_built", [None]), ("rtlib.Crate.build_rlib", [None, [], True]), ("rtlib.Crate.stamp", [None]),
]


def say(text):
    print(f"venti: {text}", file=sys.stderr, flush=True)


def memory():
    """How many GiB of memory the checks may take at a time."""
    with open("/proc/meminfo") as lines:
        free = next(int(line.split()[1]) for line in lines if line.startswith("MemAvailable:"))
    return min(MEMORY, free / (1 << 20))


def at_once():
    """How many crates are proved at a time, by processors and free memory."""
    return max(1, min(len(os.sched_getaffinity(0)), int(memory() / PEAK)))


def toolchain():
    """The script rt as a module, or None where it lacks a call."""
    loader = importlib.machinery.SourceFileLoader("rt", os.path.realpath(shutil.which("rt")))
    rt = importlib.util.module_from_spec(importlib.util.spec_from_loader("rt", loader))
    try:
        loader.exec_module(rt)
        for name, given in CALLS:
            inspect.signature(operator.attrgetter(name)(rt)).bind(*given)
    except Exception:
        return None
    return rt


def ask_once(rt):
    """Has each call of `stamp`, the sum of what a crate and those below it are made of, read each crate once. The script
    rt reads one along each way that leads to it, which takes minutes for those on top."""
    read, call = rt.rtlib.Crate.stamp, threading.local()

    def stamp(crate):
        known = getattr(call, "known", None)
        if known is None:
            call.known = {}
            try:
                return stamp(crate)
            finally:
                call.known = None
        if crate.name not in known:
            known[crate.name] = read(crate)
        return known[crate.name]

    rt.rtlib.Crate.stamp = stamp


def peak(crate, jobs):
    """GiB of memory that proving a crate by so many processes may take."""
    return PEAKS.get(crate.name, PEAK) + MORE * (jobs - 1)


def lines_of(rt, crate):
    return sum(rt.rtlib.text_of(it).count("\n") for it in rt.rtlib.files_of(crate.folder))


class Jobs:
    """The crates below the program: which are left, under way and proved. Those come first that have the most lines in
    the longest chain of crates that wait for them, their own among these. A large crate is given two processors where
    there is room, so that what waits for it waits less, and each crate those that would idle."""

    def __init__(self, rt, crates, log):
        self.log, self.lanes, self.memory, self.count = log, at_once(), memory(), len(crates) + 1
        self.running, self.ended, behind = {}, queue.Queue(), {}
        for it in reversed(crates):
            behind[it] = lines_of(rt, it) + max([behind[above] for above in behind if it in above.deps], default=0)
        self.done = {it for it in crates if it.is_built()}
        self.left = sorted({*crates} - self.done, key=lambda it: -behind[it])

    def prove(self, crate, jobs):
        """Proves one crate from nothing, in a thread of its own, and keeps its library for those above."""
        status, crate.out = 1, io.StringIO()
        try:
            stamp = crate.stamp()
            status = crate.build_rlib(["--jobs", str(jobs)], True)
            if status == 0 and crate.stamp() == stamp:
                with open(os.path.join(os.path.dirname(crate.rlib), "stamp"), "w", encoding="utf-8") as file:
                    file.write(stamp)
        finally:
            self.ended.put((crate, status))

    def has_room(self, crate, jobs):
        """Whether a crate can be proved by so many processes beside those that are: there are lanes, and the memory that
        it may take."""
        takes = sum(peak(it, each) for it, each in [*self.running.items(), (crate, jobs)])
        return sum(self.running.values()) + jobs <= self.lanes and takes <= self.memory

    def begin(self):
        ready = [it for it in self.left if self.done.issuperset(it.below())]
        for at, crate in enumerate(ready):
            if self.running and not self.has_room(crate, 1):
                # (those behind it wait too: it would never find room beside them)
                break
            idle = (self.lanes - sum(self.running.values())) // (len(ready) - at)
            most = max(idle, 2 if crate.name in PEAKS else 1)
            jobs = next((it for it in range(most, 1, -1) if self.has_room(crate, it)), 1)
            self.left.remove(crate)
            self.running[crate] = jobs
            say(f"proving {crate.name}, {len(self.done) + len(self.running)} of {self.count}")
            threading.Thread(target=self.prove, args=[crate, jobs], daemon=True).start()

    def end(self):
        """Waits for a crate to end, and gives whether all is well. After a minute it says what is under way."""
        try:
            crate, status = self.ended.get(timeout=60)
        except queue.Empty:
            names = " and ".join(it.name for it in self.running)
            say(f"proving {names}, {len(self.done)} of {self.count} are done")
            return True
        del self.running[crate]
        self.log.write(f"== {crate.name}\n{crate.out.getvalue()}")
        if status == 0:
            self.done.add(crate)
        elif status == -signal.SIGKILL and self.running:
            self.lanes = len(self.running)
            self.left.insert(0, crate)
            say(f"{crate.name} was killed, most likely for memory: {self.lanes} at a time from now on")
        return status == 0 or crate in self.left

    def are_proved(self):
        while self.left or self.running:
            self.begin()
            if not self.end():
                return False
        return True


def prove_each(rt, log):
    """Whether each crate below the program is proved, as a job of its own."""
    getattr(rt, "share_work", lambda _: None)(True)
    ask_once(rt)
    # (a library then keeps its statements, without the proofs)
    rt.rtlib.Crate.cuts_libraries = True
    # (what it starts ends with this process; the first call has to come from the main thread)
    rt.rtlib.guarded()
    program = rt.rtlib.Crate(FOLDER, TOP, {})
    crates = program.below()
    held = rt.rtlib.lock([*crates, program])
    for it in [*crates, program]:
        rt.rtlib.stop_on_links(it.folder)
    jobs = Jobs(rt, crates, log)
    if jobs.left:
        say(f"{PROGRAM} and the crates below it are proved first, {jobs.lanes} at a time: see README.md")
    is_proved = jobs.are_proved()
    for it in held:
        os.close(it)
    return is_proved


def runs(words, log, what):
    """Whether rt ends well with these words, in the program's folder. Each minute it says what goes on."""
    ran = subprocess.Popen(["rt", *words], cwd=FOLDER, stdin=subprocess.DEVNULL, stdout=log, stderr=subprocess.STDOUT)
    try:
        while True:
            try:
                return ran.wait(60) == 0
            except subprocess.TimeoutExpired:
                say(what())
    finally:
        # (where this is cut off)
        ran.kill()


def logged():
    with open(LOG, encoding="utf-8", errors="replace") as log:
        return log.read()


def prove_all(log):
    """Whether `rt all check` proves the program and each crate below it."""
    say("the crates are proved first, by rt all check, which reads all sources before: see README.md")
    words = ["all", "check", "--jobs", str(at_once())]
    return runs(words, log, lambda: f"rt all check goes on, {logged().count('== ')} crates are done")


def build(log):
    """Whether the program itself is proved, and built."""
    say(f"proving and building {PROGRAM}")
    log.write(f"== {PROGRAM}\n")
    log.flush()
    return runs(["run", "--", "session", ":memory:"], log, lambda: f"proving and building {PROGRAM}")


def main():
    if not shutil.which("rt"):
        say("the toolchain's command rt isn't on the path")
        return 1
    began = time.time()
    os.makedirs(os.path.dirname(LOG), exist_ok=True)
    with open(LOG, "w", encoding="utf-8") as log:
        rt = toolchain()
        is_built = (prove_each(rt, log) if rt else prove_all(log)) and build(log)
    if not is_built:
        sys.stderr.writelines(logged().splitlines(True)[-40:])
        say(f"crates/{PROGRAM} was not proved and built: {LOG} has all that was said")
        return 1
    # (a source that changed meanwhile is newer)
    os.utime(os.path.join(FOLDER, "out", PROGRAM), (began, began))
    say(f"proved and built in {time.time() - began:.0f} seconds")
    return 0


if __name__ == "__main__":
    try:
        sys.exit(main())
    except KeyboardInterrupt:
        say("cut off: the crates that were proved are kept")
        sys.exit(1)
