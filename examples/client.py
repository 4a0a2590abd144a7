#!/usr/bin/env python3
"""A client of a Venti server (venti(6), protocol version 02): stores what comes in as one block, and reads it back.

examples/client.py COMMAND..        speaks on the standard streams of a command, as ./venti session store/venti.conf
examples/client.py tcp!HOST!PORT    speaks to the server at an address

It prints the score of the block, once the server has answered a sync behind it, and then a read with the same bytes.
The status is 1 where it answers otherwise, or else the command's own. It needs Python 3.8.
"""
import hashlib
import socket
import subprocess
import sys

# Types of requests; a reply has the next number, and an error the number 1.
HELLO, GOODBYE, READ, WRITE, SYNC, ERROR = 4, 6, 12, 14, 16, 1
# The type of a block of data, and the most bytes of a block.
DATA, LONGEST = 13, 57344


def opened(words):
    """What comes from the server, what goes to it, and a call that waits for its end and gives the status."""
    if len(words) == 1 and words[0].startswith("tcp!"):
        _, host, port = words[0].split("!")
        link = socket.create_connection((host, 17034 if port == "venti" else int(port)))
        return link.makefile("rb"), link.makefile("wb"), link.close
    server = subprocess.Popen(words, stdin=subprocess.PIPE, stdout=subprocess.PIPE)
    return server.stdout, server.stdin, server.wait


def ask(source, sink, tag, kind, parameters=b""):
    """What the reply to a request carries. Each has its size in front, its type and its tag."""
    sink.write((2 + len(parameters)).to_bytes(2, "big") + bytes([kind, tag]) + parameters)
    sink.flush()
    size = int.from_bytes(source.read(2), "big")
    reply = source.read(size)
    if len(reply) < max(size, 2) or reply[1] != tag or reply[0] not in (kind + 1, ERROR):
        sys.exit("client: that is no reply")
    if reply[0] == ERROR:
        sys.exit(f"client: refused: {reply[4:].decode(errors='replace')}")
    return reply[2:]


def main():
    if len(sys.argv) < 2:
        sys.exit(__doc__)
    block = sys.stdin.buffer.read(LONGEST + 1)
    if len(block) > LONGEST:
        sys.exit(f"client: more than {LONGEST} bytes came in")
    source, sink, end = opened(sys.argv[1:])
    # (a line is 'venti-', versions with colons between them, '-' and a comment)
    line = source.readline(1024).split(b"-")
    if len(line) < 3 or line[0] != b"venti" or b"02" not in line[1].split(b":"):
        sys.exit("client: that is no server of version 02")
    sink.write(b"venti-02-client\n")
    ask(source, sink, 0, HELLO, b"\0\x0202" + bytes(5))
    score = ask(source, sink, 1, WRITE, bytes([DATA, 0, 0, 0]) + block)
    ask(source, sink, 2, SYNC)
    if score != hashlib.sha1(block).digest():
        sys.exit("client: that is another score")
    if ask(source, sink, 3, READ, score + bytes([DATA, 0]) + len(block).to_bytes(2, "big")) != block:
        sys.exit("client: that is another block")
    sink.write(bytes([0, 2, GOODBYE, 4]))
    sink.close()
    # (the server ends behind a goodbye)
    source.read()
    print(score.hex())
    sys.exit(end())


if __name__ == "__main__":
    try:
        main()
    except (OSError, ValueError) as why:
        sys.exit(f"client: {why}")
