"""Feeds the bundled recording 'earlier' to the built program `receive` by a pipe that stays open, and pauses in the middle of a line and behind a closing line:
what a closing line says must be written before another byte is sent, and nothing may be lost. Then a read that fails behind those lines: they are said all the same.

A pause lasts until the program has taken every byte that was sent (FIONREAD says so of the pipe), so that each piece is a read of its own.
Nothing here rests on how long anything takes: DEADLINE only ends a run in which the program never answers.
"""

import fcntl
import os
import select
import socket
import struct
import subprocess
import sys
import termios
import time

DEADLINE = 120
LINE = 45
HERE = os.path.dirname(os.path.abspath(__file__))


def read_file(name):
    with open(os.path.join(HERE, name), "rb") as file:
        return file.read()


class Live:
    def __init__(self, arguments, given=subprocess.PIPE):
        start = os.path.join(HERE, "..", "start")
        self.program = subprocess.Popen([start, *arguments], stdin=given, stdout=subprocess.PIPE, stderr=subprocess.PIPE, bufsize=0)
        self.said = b""

    def unread(self):
        """How many bytes of the pipe the program has not taken yet."""
        return struct.unpack("i", fcntl.ioctl(self.program.stdin, termios.FIONREAD, b"\0" * 4))[0]

    def send(self, piece):
        """Sends a piece, and waits until the program has taken it."""
        self.program.stdin.write(piece)
        end = time.monotonic() + DEADLINE
        while self.unread():
            if time.monotonic() > end:
                sys.exit("live: the program does not read")
            time.sleep(0.01)

    def expect(self, text):
        """Waits until this text is said, with nothing else before it or behind it."""
        while len(self.said) < len(text):
            ready, _, _ = select.select([self.program.stdout], [], [], DEADLINE)
            more = os.read(self.program.stdout.fileno(), 65536) if ready else b""
            if not more:
                sys.exit(f"live: expected {text!r}, and said {self.said!r}")
            self.said += more
        if self.said != text:
            sys.exit(f"live: expected {text!r}, and said {self.said!r}")

    def end(self, complaint):
        rest, found = self.program.communicate(timeout=DEADLINE)
        if rest:
            sys.exit(f"live: said too much: {rest!r}")
        if found != complaint:
            sys.exit(f"live: expected on standard error {complaint!r}, and written {found!r}")


recording = read_file("earlier")
text = read_file("expected-earlier")
first = text[: text.index(b"\n") + 1]

# Line 5 closes the first sending: it comes in two pieces, cut in its middle, and is said at once.
live = Live(["receive", "100"])
live.send(recording[: 4 * LINE + 20])
live.send(recording[4 * LINE + 20 : 5 * LINE])
live.expect(first)
# The rest comes byte by byte; line 8 closes the second sending.
for place in range(5 * LINE, 8 * LINE):
    live.send(recording[place : place + 1])
live.expect(text)
# Part of a line at the end is refused, and what was said stands.
live.send(recording[:7])
live.program.stdin.close()
live.program.stdin = None
live.end(b"the last line has 7 bytes and not 45\n9 lines, 1 refused by 10\n1 byte mended, in 1 of 9 lines\n")

# A socket whose other end was closed with a byte unread gives what it holds, and then a read of it fails.
given, other = socket.socketpair()
given.send(b"unread")
other.sendall(recording + recording[:7])
other.close()
live = Live(["receive", "100"], given)
live.expect(text)
live.end(b"standard input: Connection reset by peer\nthe last line has 7 bytes and not 45\n9 lines, 1 refused by 10\n1 byte mended, in 1 of 9 lines\n")
