#!/usr/bin/env python3
"""Times `venti vac` over a store on files, beside `restic backup`, `borg create`, `bup save` and `casync make`.

A folder of some thousand files, 64 MiB together, is archived into a fresh store, and then again into the same one, by
each in turn, three times over; the least seconds count. What each stored is told too: of `vac` the bytes in its log,
clumps and directory, and of the others those of all files of their stores. restic and borg are run without compression
too. The folder has regular files of another one, in the order of their paths, and no links. Run it as
bench/vac.py [FOLDER [SOURCE]], at the top of the repository; all is made in FOLDER, on whose disk the times depend, or
else in /var/tmp, of files of SOURCE, or else of /usr/share. It needs Python 3, and leaves out which of the others isn't
there. Two archives of the folder have to be found by the same line.
"""
import os
import shutil
import subprocess
import sys
import tempfile

import store

MIB = store.MIB
SIZE = 64
RUNS = 3


def gather(source, target):
    """Copies files of a folder, with their times, until they have so many bytes; tells how many files and bytes."""
    count, size = 0, 0
    for at, folders, names in os.walk(source):
        folders.sort()
        for name in sorted(names):
            path = os.path.join(at, name)
            if os.path.islink(path) or not os.path.isfile(path) or not os.access(path, os.R_OK):
                continue
            place = os.path.join(target, os.path.relpath(path, source))
            os.makedirs(os.path.dirname(place), exist_ok=True)
            shutil.copy2(path, place)
            count, size = count + 1, size + os.path.getsize(place)
            if size >= SIZE * MIB:
                return count, size
    return count, size


def in_log(folder):
    """The bytes of all clumps and directory entries of the arenas, by the heads of these."""
    stored = 0
    with open(os.path.join(folder, "a.part"), "rb") as part:

        def number(at, size):
            part.seek(at)
            return int.from_bytes(part.read(size), "big")

        for arena in range(number(78, 4)):
            head = store.BLOCK + arena * number(70, 8)
            head += store.BLOCK * (number(head + 2 * store.BLOCK, 1) % 2)
            stored += number(head + 15, 8) + 25 * number(head + 11, 4)
    return stored


def in_files(folder):
    """The bytes of all files of a folder."""
    return sum(os.path.getsize(os.path.join(at, name)) for at, _, names in os.walk(folder) for name in names)


class Tool:
    """What archives a folder. Its commands have {source} and {run}, which names an archive."""

    def __init__(self, name, place, begins, archives):
        self.name, self.place, self.begins, self.archives = name, place, begins, archives
        self.fresh, self.again, self.stored = [], [], (0, 0)

    def is_there(self):
        return shutil.which(self.archives[0][0]) is not None

    def size(self, folder):
        path = os.path.join(folder, self.place)
        return in_files(path) if os.path.isdir(path) else in_log(folder) if os.path.exists(path) else 0

    def begin(self, folder):
        for command in self.begins:
            subprocess.run(command, cwd=folder, stdout=subprocess.DEVNULL, stderr=subprocess.DEVNULL, check=True)

    def archive(self, folder, source, run):
        """Seconds by the clock and of the processor, and the most memory in MiB, of all its commands."""
        os.sync()
        measured = [store.run([word.format(source=source, run=run) for word in command], folder, os.devnull)
                    for command in self.archives]
        seconds, processor, memory = zip(*measured)
        return sum(seconds), sum(processor), max(memory)

    def measure(self, folder, source):
        self.begin(folder)
        before = self.size(folder)
        self.fresh.append(self.archive(folder, source, "one"))
        once = self.size(folder)
        self.again.append(self.archive(folder, source, "two"))
        self.stored = once - before, self.size(folder) - once

    def rows(self, size):
        for work, measured, stored in ("fresh", self.fresh, self.stored[0]), ("again", self.again, self.stored[1]):
            seconds, processor, memory = min(measured)
            print(f"| {self.name}, {work} | {seconds:.2f} | {processor:.2f} | {size / MIB / seconds:,.0f} | "
                  f"{stored / MIB:,.1f} | {memory:.0f} |", flush=True)


def restic(name, place, *options):
    command = ["restic", "--quiet", "--repo", place, *options]
    return Tool(name, place, [[*command, "init"]], [[*command, "backup", "{source}"]])


def borg(name, place, *options):
    begins = [["borg", "init", "--encryption", "none", place]]
    return Tool(name, place, begins, [["borg", "create", *options, place + "::{run}", "{source}"]])


def tools():
    found = [
        Tool("`venti vac`", "a.part", [], [[store.PROGRAM, "vac", "v.conf", "{source}"]]),
        restic("`restic backup`", "restic"),
        restic("`restic backup`, no compression", "restic-plain", "--compression", "off"),
        borg("`borg create`", "borg"),
        borg("`borg create`, no compression", "borg-plain", "--compression", "none"),
        Tool("`bup index` and `bup save`", "bup", [["bup", "init"]],
             [["bup", "index", "{source}"], ["bup", "save", "--quiet", "--name", "bench", "{source}"]]),
        Tool("`casync make`", "castr", [], [["casync", "make", "--store=castr", "{run}.caidx", "{source}"]]),
    ]
    return [tool for tool in found if tool.is_there()]


def surroundings(folder):
    """What the others take from their surroundings: where they keep what, and that nobody is asked."""
    os.environ.update(
        HOME=folder, RESTIC_PASSWORD="bench", RESTIC_CACHE_DIR=os.path.join(folder, "restic-cache"),
        BORG_BASE_DIR=os.path.join(folder, "borg-base"), BORG_UNKNOWN_UNENCRYPTED_REPO_ACCESS_IS_OK="yes",
        BUP_DIR=os.path.join(folder, "bup"))


def line_of(folder, source):
    """What the folder's archive is found by."""
    return subprocess.run([store.PROGRAM, "vac", "v.conf", source], cwd=folder, stdout=subprocess.PIPE, check=True).stdout


def main():
    where = sys.argv[1] if len(sys.argv) > 1 else "/var/tmp"
    subprocess.run([store.VENTI, "--version"], stdout=subprocess.DEVNULL, check=True)
    found = tools()
    with tempfile.TemporaryDirectory(dir=where) as top:
        source = os.path.join(top, "source")
        count, size = gather(sys.argv[2] if len(sys.argv) > 2 else "/usr/share", source)
        print(f"{count:,} files of {size / MIB:.1f} MiB in {sum(1 for _ in os.walk(source)):,} folders:\n")
        lines = set()
        for run in range(RUNS):
            folder = os.path.join(top, str(run))
            os.mkdir(folder)
            surroundings(folder)
            store.make_store(folder, 256, 8_192)
            for tool in found:
                tool.measure(folder, source)
            lines.add(line_of(folder, source))
            shutil.rmtree(folder)
        if len(lines) != 1:
            sys.exit(f"one folder has the lines {lines}")
    print("| work | seconds | processor seconds | MiB per second | stored, MiB | memory, MiB |")
    print("|---|---|---|---|---|---|")
    for tool in found:
        tool.rows(size)


if __name__ == "__main__":
    main()
