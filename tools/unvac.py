#!/usr/bin/env python3
"""Restores an archive: tools/unvac.py STORE SCORE FOLDER

FOLDER is made, or is there and empty; each file and folder of the archive is written into it, with its permissions and
its time of change. Owners are left alone. STORE and SCORE are as for `venti vacfs`, which this runs and asks by 9P2000
(manual section 5) for what the archive has.

A file that can't be read is told on standard error and left out, and the others are restored. How far it is is shown
where standard error is a terminal. The exit status is that of vacfs where that isn't 0, or else 1 where something
couldn't be restored. It needs Python 3.8.
"""
import contextlib
import os
import struct
import subprocess
import sys
import time

VENTI = os.path.join(os.path.dirname(os.path.dirname(os.path.realpath(__file__))), "venti")
# Types of requests; a reply has the next number, and an error this one.
VERSION, ATTACH, WALK, OPEN, READ, CLUNK = 100, 104, 110, 112, 116, 120
ERROR = 107
NO_TAG, NO_FID = 0xFFFF, 0xFFFFFFFF
LONGEST = 65536
# The most names of one walk, and the bit of a folder's mode.
NAMES, IS_FOLDER = 16, 0x80000000
ROOT, HERE = 0, 1


class Refused(Exception):
    """The view answers with an error, or with what can't be right; or a file can't be written."""


class Broken(Exception):
    """The view has ended, or doesn't speak 9P2000."""


def text(name):
    return struct.pack("<H", len(name)) + name


class View:
    """The files of an archive, each named by the list of names that lead to it."""

    def __init__(self, source, sink):
        self.source, self.sink = source, sink
        agreed = self.ask(VERSION, struct.pack("<I", LONGEST) + text(b"9P2000"))
        if agreed[6:] != b"9P2000":
            raise Broken(f"it speaks {agreed[6:]!r}")
        # What one read brings.
        self.most = struct.unpack("<I", agreed[:4])[0] - 24
        self.ask(ATTACH, struct.pack("<II", ROOT, NO_FID) + text(b"") + text(b""))

    def take(self, size):
        taken = self.source.read(size)
        if len(taken) < size:
            raise Broken("it has ended")
        return taken

    def ask(self, kind, parameters):
        """The parameters of the reply to one request."""
        tag = NO_TAG if kind == VERSION else 1
        try:
            self.sink.write(struct.pack("<IBH", 7 + len(parameters), kind, tag) + parameters)
            self.sink.flush()
        except OSError:
            raise Broken("it has ended") from None
        size, replied, its_tag = struct.unpack("<IBH", self.take(7))
        reply = self.take(max(size, 7) - 7)
        if its_tag != tag or replied not in (kind + 1, ERROR):
            raise Broken(f"it answers {kind} with {replied}")
        if replied == ERROR:
            raise Refused(reply[2:].decode(errors="replace"))
        return reply

    def opened(self, path):
        """Opens a file for reads of HERE, until it is closed."""
        self.ask(WALK, struct.pack("<IIH", ROOT, HERE, 0))
        try:
            for at in range(0, len(path), NAMES):
                names = path[at : at + NAMES]
                walked = self.ask(WALK, struct.pack("<IIH", HERE, HERE, len(names)) + b"".join(map(text, names)))
                if struct.unpack("<H", walked[:2])[0] < len(names):
                    raise Refused("file does not exist")
            self.ask(OPEN, struct.pack("<IB", HERE, 0))
        except Refused:
            self.ask(CLUNK, struct.pack("<I", HERE))
            raise

    def bytes_of(self, path):
        """What stands in a file, or what a folder tells of its files, piece by piece."""
        self.opened(path)
        try:
            at = 0
            while True:
                piece = self.ask(READ, struct.pack("<IQI", HERE, at, self.most))[4:]
                if not piece:
                    return
                yield piece
                at += len(piece)
        finally:
            self.ask(CLUNK, struct.pack("<I", HERE))

    def items_of(self, path):
        """The items of a folder."""
        return [item for piece in self.bytes_of(path) for item in stats_in(piece, path)]


class Item:
    """A file or a folder, as stat(5) tells of it."""

    def __init__(self, stat, folder):
        self.mode, self.mtime, self.size = struct.unpack("<19xI4xIQ", stat[2:41])
        name = stat[43 : 43 + struct.unpack("<H", stat[41:43])[0]]
        if name in (b"", b".", b"..") or b"/" in name or b"\0" in name:
            raise Refused(f"an item is named {name!r}")
        self.path = [*folder, name]
        self.is_folder = bool(self.mode & IS_FOLDER)


def stats_in(piece, folder):
    at = 0
    while at < len(piece):
        end = at + 2 + struct.unpack("<H", piece[at : at + 2])[0]
        yield Item(piece[at:end], folder)
        at = end


class Restored:
    """What is restored, and what is told of it."""

    def __init__(self, view, top):
        self.view, self.top = view, os.fsencode(top)
        self.items, self.total, self.done, self.failed = [], 0, 0, 0
        self.shows = sys.stderr.isatty()
        self.shown = 0.0

    def show(self, told, last=False):
        """Says on a terminal how far it is, at most four times in a second."""
        if self.shows and (last or time.monotonic() - self.shown > 0.25):
            self.shown = time.monotonic()
            print(f"\r\033[Kunvac: {told}", end="\n" if last else "", file=sys.stderr, flush=True)

    def fail(self, path, why):
        self.failed += 1
        clear = "\r\033[K" if self.shows else ""
        print(f"{clear}unvac: {os.fsdecode(b'/'.join(path)) or '/'}: {why}", file=sys.stderr, flush=True)

    def place(self, item):
        return os.path.join(self.top, *item.path)

    def list_all(self):
        """Finds all items, each folder in front of what it holds."""
        left = [[]]
        while left:
            path = left.pop()
            try:
                items = self.view.items_of(path)
            except Refused as why:
                self.fail(path, why)
                continue
            self.items += items
            self.total += sum(item.size for item in items)
            left += [item.path for item in items if item.is_folder]
            self.show(f"{len(self.items)} items found")

    def write_file(self, item):
        place = self.place(item)
        written = 0
        with open(place, "xb") as file:
            for piece in self.view.bytes_of(item.path):
                file.write(piece)
                written += len(piece)
                self.show(f"{self.done + written >> 20} of {self.total >> 20} MiB")
        if written != item.size:
            raise Refused(f"has {written} bytes of {item.size}")

    def restore(self):
        os.makedirs(self.top, exist_ok=True)
        if os.listdir(self.top):
            raise Refused("isn't empty")
        self.list_all()
        for item in self.items:
            try:
                if item.is_folder:
                    os.mkdir(self.place(item), 0o700)
                else:
                    self.write_file(item)
                    finish(self.place(item), item)
            except (Refused, OSError) as why:
                self.fail(item.path, getattr(why, "strerror", None) or why)
                if not item.is_folder and os.path.lexists(self.place(item)):
                    os.remove(self.place(item))
            self.done += item.size
        for item in reversed(self.items):
            if item.is_folder and os.path.isdir(self.place(item)):
                finish(self.place(item), item)
        self.show(f"{len(self.items) - self.failed} items restored, {self.failed} left out", last=True)


def finish(place, item):
    """Gives what was written its permissions and its time of change."""
    os.utime(place, (item.mtime, item.mtime))
    os.chmod(place, item.mode & 0o777)


def main():
    if len(sys.argv) != 4 or sys.argv[1].startswith("-"):
        print(__doc__, end="", file=sys.stderr if len(sys.argv) == 1 else sys.stdout)
        return 0 if sys.argv[1:2] in (["-h"], ["--help"]) else 1
    store, score, top = sys.argv[1:]
    venti = subprocess.Popen([VENTI, "vacfs", store, score], stdin=subprocess.PIPE, stdout=subprocess.PIPE)
    failed = 0
    try:
        restored = Restored(View(venti.stdout, venti.stdin), top)
        restored.restore()
        failed = restored.failed
    except Refused as why:
        print(f"unvac: {top}: {why}", file=sys.stderr)
        failed = 1
    except (Broken, OSError) as why:
        failed = why
    with contextlib.suppress(OSError):
        venti.stdin.close()
    status = venti.wait()
    if status == 0 and isinstance(failed, Exception):
        print(f"unvac: {failed}", file=sys.stderr)
    return status or int(bool(failed))


if __name__ == "__main__":
    sys.exit(main())
