"""Venti servers on this machine (venti(6)): one that says what it was given to say, and one that hands its link to a
program, as inetd does."""
import socket
import subprocess
import threading
import time


def linked(port, seconds=30):
    """A link to this port of this machine, which may still be about to be listened at."""
    until = time.monotonic() + seconds
    while True:
        try:
            return socket.create_connection(("127.0.0.1", port), timeout=60)
        except ConnectionRefusedError:
            if time.monotonic() > until:
                raise
        time.sleep(0.1)


def frame_of(stream):
    """The next message, with its size, or what there is of one."""
    size = stream.read(2)
    return size + stream.read(int.from_bytes(size, "big"))


class Listener:
    """Takes one link, at the address that `venti` is told."""

    def __init__(self):
        self.listener = socket.create_server(("127.0.0.1", 0))
        self.listener.settimeout(60)
        self.address = f"tcp!127.0.0.1!{self.listener.getsockname()[1]}"
        self.thread = threading.Thread(target=self.listen)

    def __enter__(self):
        self.thread.start()
        return self

    def __exit__(self, *_):
        self.thread.join()
        self.listener.close()

    def listen(self):
        link, _ = self.listener.accept()
        with link:
            self.serve(link)


class Scripted(Listener):
    """Says a line, and behind each message that comes the next of its replies, and then nothing more."""

    def __init__(self, says, replies):
        super().__init__()
        self.says, self.replies, self.heard = says, replies, b""

    def serve(self, link):
        link.settimeout(60)
        with link.makefile("rb") as stream:
            link.sendall(self.says)
            self.heard += stream.readline()
            for reply in self.replies:
                self.heard += frame_of(stream)
                link.sendall(reply)
            link.shutdown(socket.SHUT_WR)
            self.heard += stream.read()


class Program(Listener):
    """Runs a program whose standard streams are the link."""

    def __init__(self, command, folder):
        super().__init__()
        self.command, self.folder = command, folder

    def serve(self, link):
        # (the program's reads and writes wait)
        link.setblocking(True)
        streams = {"stdin": link, "stdout": link, "stderr": subprocess.DEVNULL}
        subprocess.run(self.command, cwd=self.folder, timeout=60, **streams)
