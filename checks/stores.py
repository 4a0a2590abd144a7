"""Sessions over stores on files (venti(6)), and what a power failure leaves of the files."""
import hashlib
import os
import re
import signal
import subprocess
import threading

LINE = b"venti-02-checks\n"
SAYS = b"venti-02-rattle\n"


def message(kind, tag, parameters=b""):
    """A message's frame: its size, its type, its tag, and what it carries."""
    body = bytes([kind, tag]) + parameters
    return len(body).to_bytes(2, "big") + body


HELLO, HELLO_DONE = message(4, 0, b"\0\x0202\0\0\0\0\0"), message(5, 0, b"\0\x09anonymous\0\0")
SYNC, SYNC_DONE = message(16, 1), message(17, 1)
GOODBYE = message(6, 0)


def score_of(block):
    return hashlib.sha1(block).digest()


def write_of(block):
    return message(14, 1, b"\x0d\0\0\0" + block), message(15, 1, score_of(block))


def read_of(block):
    return message(12, 1, score_of(block) + b"\x0d\0\xff\xff"), message(13, 1, block)


def session_of(pairs):
    """The input and the output of a session of these requests and replies."""
    given, told = zip((HELLO, HELLO_DONE), *pairs)
    return LINE + b"".join(given) + GOODBYE, SAYS + b"".join(told)


def read_exactly(stream, size):
    read = b""
    while len(read) < size and (more := stream.read(size - len(read))):
        read += more
    return read


def traced(program, folder, groups):
    """Each write and sync of a session over v.conf whose client waits for the replies to each group: the name of the
    file, or None for standard output, and where and what was written there, or None where it was synced."""
    log = os.path.join(folder, "log")
    calls = "trace=write,pwrite64,fsync,fdatasync"
    command = ["strace", "-f", "-y", "-xx", "-s", "200000", "-o", log, "-e", calls, program, "session", "v.conf"]
    streams = {"stdin": subprocess.PIPE, "stdout": subprocess.PIPE, "bufsize": 0}
    with subprocess.Popen(command, cwd=folder, start_new_session=True, **streams) as session:
        asleep = threading.Timer(60, os.killpg, [session.pid, signal.SIGKILL])
        asleep.start()
        for given, told in groups:
            session.stdin.write(given)
            if read_exactly(session.stdout, len(told)) != told:
                break
        session.stdin.close()
        status = session.wait()
        asleep.cancel()
    call = re.compile(r'\d+ +(\w+)\((\d+)<([^>]*)>(?:, "([^"]*)", \d+(?:, (\d+))?)?\) += ')
    made = []
    with open(log, encoding="ascii") as lines:
        for kind, number, path, data, place in (found.groups() for line in lines if (found := call.match(line))):
            file = None if number == "1" else os.path.basename(bytes.fromhex(path.replace("\\x", "")).decode())
            what = None if "sync" in kind else (int(place or 0), bytes.fromhex(data.replace("\\x", "")))
            made.append((file, what))
    return status, made


class Synced:
    """What files hold of the writes that were synced, and the writes that weren't yet."""

    def __init__(self, folder, names):
        self.held, self.pending = {}, {name: [] for name in names}
        for name in names:
            with open(os.path.join(folder, name), "rb") as file:
                self.held[name] = bytearray(file.read())

    def see(self, name, what):
        if name in self.pending and what is not None:
            self.pending[name].append(what)
        elif name in self.pending:
            for place, data in self.pending[name]:
                self.held[name][place : place + len(data)] = data
            self.pending[name] = []

    def write_into(self, folder):
        for name, held in self.held.items():
            with open(os.path.join(folder, name), "wb") as file:
                file.write(held)
