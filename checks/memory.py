"""Want of memory: runs of the built program that are refused one allocation, by a library in C which they are run with
(refuse.c). Each ends with the status 8, or as if nothing was refused, or with less than all where it tells what it left
out, and what was acknowledged is there."""
import collections
import concurrent.futures
import contextlib
import hashlib
import os
import random
import re
import shutil
import struct
import subprocess
import sys
import tempfile
import time

import sources
import stores

sys.path.append(os.path.join(sources.TOP, "tools"))
import unvac

COMPILERS = ["cc", "gcc", "clang"]
SECONDS = 60
# Which allocations are refused of a command that isn't tried at each: the first ones, and so many that are drawn, for
# which there are so many seconds in all.
FIRST, DRAWN, IN_ALL = 200, 200, 150
LINE = b"venti: no memory\n"
# The lines in front of that of the status: each is of a call of the system that had no memory.
CALLS = rb"(?:venti: [^\n]*: no memory(?: to tell which)?\n)*"


class Wrong(Exception):
    """A run that was refused memory ended otherwise than it may."""


def same(what, found, wanted):
    if found != wanted:
        raise Wrong(f"{what} is {found!r}, and not {wanted!r}")


def compiler():
    """A C compiler, or None."""
    return next(filter(None, map(shutil.which, COMPILERS)), None)


def temporary():
    """A folder that is gone when it is done with, in memory where the machine has a place for that."""
    return tempfile.TemporaryDirectory(dir="/dev/shm" if os.access("/dev/shm", os.W_OK) else None)


def compiled(folder, name, *flags):
    made = os.path.join(folder, name.replace(".", "_"))
    source = os.path.join(sources.TOP, "checks", name)
    subprocess.run([compiler(), "-O2", "-Wall", *flags, "-o", made, source], check=True, timeout=SECONDS)
    return made


def ran(words, given, folder, **names):
    """The status, standard output and standard error of a run."""
    done = subprocess.run(words, input=given, cwd=folder, env={**os.environ, **names}, timeout=SECONDS,
                          capture_output=True)
    return done.returncode, done.stdout, done.stderr


class Refuser:
    """Runs programs, and refuses them an allocation."""

    def __init__(self, folder):
        self.library = compiled(folder, "refuse.c", "-shared", "-fPIC")

    def run(self, words, given, folder, number=-1):
        """What a run comes to that is refused the allocation with this number, how many it made, and how many of them
        were refused."""
        counts = os.path.join(folder, "counts")
        with open(counts, "wb") as file:
            file.write(bytes(16))
        found = ran(words, given, folder, LD_PRELOAD=self.library, COUNTS=counts, REFUSED=str(number % 2**64))
        with open(counts, "rb") as file:
            made, refused = struct.unpack("=QQ", file.read())
        return found, made, refused


class Case:
    """A command over a store, and what may come of it where it is refused memory."""

    def __init__(self, words, given=b"", store=None, every=False):
        self.words, self.given, self.store, self.every = words, given, store, every

    def fits(self, output):
        """Whether this may stand on standard output at the status 8."""
        return output == b""

    def is_less(self, found):
        """Whether it went on with less than it was to do, and tells so."""
        return False

    def behind(self, folder, found):
        """What is there when the run has ended so."""

    def is_told(self, found):
        """Whether it is told that memory ran out, or that was before the words of the command line were known."""
        return re.fullmatch(CALLS + LINE, found[2]) or found[1:] == (b"", b"")

    @contextlib.contextmanager
    def folder(self):
        """A copy of the store."""
        with temporary() as folder:
            if self.store:
                shutil.copytree(self.store, folder, dirs_exist_ok=True)
            yield folder

    def begin(self, refuser):
        """A run that is refused nothing."""
        with self.folder() as folder:
            self.wanted, self.made, _ = refuser.run(self.words, self.given, folder)
            same("the status, where nothing is refused", self.wanted[0], 0)
            self.behind(folder, self.wanted)
        if self.made == 0:
            raise Wrong("no allocation was counted")

    def numbers(self):
        """Those of the allocations that are refused in turn."""
        if self.every or self.made <= FIRST + DRAWN:
            return range(self.made)
        return [*range(FIRST), *random.Random(1).sample(range(FIRST, self.made), DRAWN)]

    def judged(self, refuser, number):
        """The status of the run that is refused this allocation, or None where it made fewer, as threads may."""
        with self.folder() as folder:
            found, _, refused = refuser.run(self.words, self.given, folder, number)
            if found[0] == 8:
                if not refused or not self.is_told(found) or not self.fits(found[1]):
                    raise Wrong(f"what it comes to is {found!r}")
            elif not (refused and self.is_less(found)):
                same("what it comes to", found, self.wanted)
            self.behind(folder, found)
            return found[0] if refused else None

    def sweep(self, refuser, pool, until=0):
        """How many runs ended with which status. A drawn one isn't begun past this time."""
        self.begin(refuser)
        jobs = {pool.submit(self.judged, refuser, number): number for number in self.numbers()}
        told = collections.Counter()
        try:
            for job, number in jobs.items():
                if not self.every and number >= FIRST and time.monotonic() > until and job.cancel():
                    told["late"] += 1
                    continue
                with self.named(number):
                    told[job.result()] += 1
        finally:
            for job in jobs:
                job.cancel()
        return told

    @contextlib.contextmanager
    def named(self, number):
        try:
            yield
        except (Wrong, OSError, subprocess.SubprocessError) as why:
            raise Wrong(f"{self.name()}, allocation {number} of {self.made} refused: {why}") from why

    def name(self):
        return " ".join(self.words[1:3])


# The judgement, over a program that is right or wrong as its word says (grower.c).
RIGHT, WRONG = ["right", "cache"], ["careless", "status", "bytes", "silent"]


def judges(refuser, folder, pool):
    """A program that does as it should passes, and one that doesn't is found."""
    program = compiled(folder, "grower.c")
    for word in RIGHT:
        told = Case([program, word], every=True).sweep(refuser, pool)
        same(f"what a program comes to that is {word}", told, {8 if word == "right" else 0: 20})
    for word in WRONG:
        try:
            Case([program, word], every=True).sweep(refuser, pool)
        except Wrong:
            continue
        raise Wrong(f"a program that is {word} passes")


# The commands.

def no_memory(reply):
    """What is said in place of a reply where there is no memory."""
    return stores.message(1, reply[3], b"\0\x09no memory")


def frames_of(output):
    """The replies of a session."""
    at, frames = len(stores.SAYS), []
    while at < len(output):
        end = at + 2 + int.from_bytes(output[at : at + 2], "big")
        frames.append(output[at:end])
        at = end
    return frames


BLOCKS = b"abc", b"abd"
WRITES, READ = [*map(stores.write_of, BLOCKS)], stores.read_of(b"abc")
GIVEN, TOLD = stores.session_of([*WRITES, (stores.SYNC, stores.SYNC_DONE), READ])
ABSENT = stores.message(1, 1, b"\0\x0dno such block")


class Session(Case):
    """Two writes, a sync and a read. A write or a read may be refused; a sync and the end of a session never are."""

    def fits(self, output):
        if output == b"":
            return True
        replies, own = frames_of(output), frames_of(TOLD)
        if output[: len(stores.SAYS)] != stores.SAYS or len(replies) != len(own):
            return False
        refused = [reply == no_memory(it) for reply, it in zip(replies, own)]
        if replies[4] == ABSENT and refused[1]:
            refused[4] = True
        right = all(reply == it or no for reply, it, no in zip(replies, own, refused))
        return right and any(refused) and not (refused[0] or refused[3])

    def behind(self, folder, found):
        """Each block whose write was answered by its score is there."""
        if self.store:
            replies = frames_of(found[1])
            kept = [block for block, write in zip(BLOCKS, WRITES) if write[1] in replies]
            reads(self.words[0], folder, kept)


def reads(program, folder, blocks):
    """A session reads these blocks."""
    given, told = stores.session_of(map(stores.read_of, blocks))
    same("the session behind it", ran([program, "session", "v.conf"], given, folder), (0, told, b""))


class Archive(Case):
    """What is printed is the line of an archive that is there. A file is left out of it, and told, that can't be opened
    for want of memory."""

    def is_less(self, found):
        told = re.fullmatch(CALLS + rb"venti: can't read (.*)\nventi: read fault\n", found[2])
        return found[0] == 6 and told is not None and told[1].decode() in dict(FILES)

    def behind(self, folder, found):
        if found[0] in (0, 6):
            score = re.fullmatch(rb"vac:([0-9a-f]{40})\n", found[1])[1]
            status, root, told = ran([self.words[0], "read", "v.conf", score, "1"], b"", folder)
            same("the archive's root", (status, hashlib.sha1(root).hexdigest().encode(), told), (0, score, b""))
        reads(self.words[0], folder, BLOCKS)


class View(Case):
    """The first reply that isn't that of a view with memory tells that there is none."""

    def fits(self, output):
        wanted = self.wanted[1]
        at = 0
        while at + 7 <= len(output):
            size, kind = struct.unpack("<IB", output[at : at + 5])
            reply, own = output[at : at + size], wanted[at : at + size]
            if reply != own:
                return kind == unvac.ERROR and reply[7:] == unvac.text(b"no memory")
            at += max(size, 7)
        return output == b""

    def behind(self, folder, found):
        reads(self.words[0], folder, BLOCKS)


class Rebuild(Case):
    """Where an index was left half built, a second command builds it."""

    def behind(self, folder, found):
        if found[0] == 8:
            same("the next rebuild", ran(self.words, b"", folder), self.wanted)
        reads(self.words[0], folder, BLOCKS)


class Check(Case):
    """No partition changes, and what is told of arenas is a front of what is told where there is memory."""

    def fits(self, output):
        return self.wanted[1].startswith(output)

    def behind(self, folder, found):
        for name in "a.part", "i.part", "b.part":
            with open(os.path.join(folder, name), "rb") as now, open(os.path.join(self.store, name), "rb") as old:
                if now.read() != old.read():
                    raise Wrong(f"{name} is another")


class Recorded:
    """Notes what a client of a view sends."""

    def __init__(self, stream):
        self.stream, self.sent = stream, b""

    def write(self, piece):
        self.sent += piece
        self.stream.write(piece)

    def flush(self):
        self.stream.flush()


def made(program, folder, tree):
    """A store with two blocks and the archive of a folder, and that archive's score."""
    for words in ("fmtarenas a.part a0 1056768 1048576", "fmtisect i.part i0 92160", "fmtbloom b.part 8192 8"):
        same(words, ran([program, *words.split()], b"", folder)[::2], (0, b""))
    with open(os.path.join(folder, "v.conf"), "w", encoding="utf-8") as conf:
        conf.write("index main\narenas a.part\nisect i.part\nbloom b.part\n")
    same("fmtindex", ran([program, "fmtindex", "v.conf"], b"", folder)[::2], (0, b""))
    empty = os.path.join(os.path.dirname(folder), "empty")
    shutil.copytree(folder, empty)
    same("a session", ran([program, "session", "v.conf"], GIVEN, folder), (0, TOLD, b""))
    written = os.path.join(os.path.dirname(folder), "written")
    shutil.copytree(folder, written)
    status, line, told = ran([program, "vac", "v.conf", tree], b"", folder)
    same("vac", (status, told), (0, b""))
    return empty, written, line.decode().strip()


def messages(program, folder, score):
    """What a client sends that restores an archive."""
    back = os.path.join(os.path.dirname(folder), "back")
    streams = {"stdin": subprocess.PIPE, "stdout": subprocess.PIPE}
    with subprocess.Popen([program, "vacfs", "v.conf", score], cwd=folder, **streams) as view:
        sink = Recorded(view.stdin)
        unvac.Restored(unvac.View(view.stdout, sink), back).restore()
    same("the status", view.returncode, 0)
    return sink.sent


# The files of the folder that is archived, and how many bytes each has.
FILES = [("a", 0), ("b", 3), ("d/c", 20000), ("d/e/f", 100000)]


def make_tree(top):
    os.makedirs(os.path.join(top, "d", "e"))
    for name, size in FILES:
        with open(os.path.join(top, name), "wb") as file:
            file.write(bytes(i * i % 251 for i in range(size)))


def cases(program, folder):
    """The commands that are tried."""
    tree, full = os.path.join(folder, "tree"), os.path.join(folder, "full")
    make_tree(tree)
    os.mkdir(full)
    empty, written, score = made(program, full, tree)
    return [
        Session([program, "session", ":memory:"], GIVEN, every=True),
        Session([program, "session", "v.conf"], GIVEN, empty, every=True),
        Archive([program, "vac", "v.conf", tree], b"", written),
        View([program, "vacfs", "v.conf", score], messages(program, full, score), full),
        Rebuild([program, "buildindex", "v.conf"], b"", full),
        Check([program, "checkarenas", "v.conf"], b"", full),
    ]


# How runs end that are refused an allocation.
ENDS = [(0, "as where none is"), (6, "without a file, which is told"), (8, "with status 8"), (None, "made fewer"),
        ("late", "left out, as it took too long")]


def swept(program):
    """Tries all of them. It gives a line for each."""
    until = time.monotonic() + IN_ALL
    with temporary() as folder, concurrent.futures.ThreadPoolExecutor(os.cpu_count()) as pool:
        refuser = Refuser(folder)
        judges(refuser, folder, pool)
        for case in cases(program, folder):
            told = case.sweep(refuser, pool, until)
            ends = [f"{told[status]} {what}" for status, what in ENDS if told[status]]
            yield f"{case.name()}: {case.made} allocations, of which one is refused: {', '.join(ends)}"
