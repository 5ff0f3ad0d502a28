"""The programs of many requests: how each is asked, and how its answers come."""

import os
import select
import subprocess
from typing import Callable, NamedTuple

from framing import answered, frame, framed, parts
from hostile import FRAMES_PROGRAM, LINES_PROGRAM, SECONDS, by_shell


def lines_in(data):
    """The lines of some bytes, and what stands behind them."""
    *found, rest = data.split(b"\n")
    return [it + b"\n" for it in found], rest


def frames_in(data):
    """The frames of some bytes, and what stands behind them."""
    found, rest = parts(data)
    return [frame(*it) for it in found], rest


class Server(NamedTuple):
    """A program that answers many requests: the bytes that send a request, by its text; the bytes of
    an answer, by its line; and the answers in what is read, with the bytes behind them."""

    name: str
    program: str
    sent: Callable
    answer: Callable
    split: Callable

    def __repr__(self):
        return self.name

    def requests(self, *texts):
        return b"".join(map(self.sent, texts))

    def answers(self, *lines):
        return b"".join(map(self.answer, lines))

    def run(self, data, options=(), streams="", before=""):
        """Standard output, which is bytes, standard error and the status of a run on these bytes, with
        the redirections of a shell, and a command before it."""
        out, complaint, status = by_shell(streams, data, self.program, options, before)
        return out, complaint.decode(), status


LINES = Server("lines", LINES_PROGRAM, lambda text: text + b"\n", str.encode, lines_in)
FRAMES = Server("frames", FRAMES_PROGRAM, framed, lambda line: frame(*answered(line)), frames_in)
SERVERS = (LINES, FRAMES)


def most(**limits):
    """The options that set limits, as `steps=3`."""
    return [word for name, value in limits.items() for word in (f"--most-{name}", str(value))]


class Client:
    """A server that runs, and its answers that weren't taken yet."""

    def __init__(self, server, **how):
        pipe = subprocess.PIPE
        how = {"stdin": pipe, "stdout": pipe, "stderr": pipe, "env": {}, "bufsize": 0, **how}
        self.server, self.child = server, subprocess.Popen([server.program], **how)
        self.found, self.rest = [], b""

    def answer(self):
        """The next answer, within SECONDS; and what there is where it doesn't come."""
        while not self.found:
            if not select.select([self.child.stdout], [], [], SECONDS)[0]:
                return f"{self.rest!r}, and no more in {SECONDS} s"
            more = os.read(self.child.stdout.fileno(), 65_536)
            if not more:
                return f"{self.rest!r}, and the end"
            self.found, self.rest = self.server.split(self.rest + more)
        return self.found.pop(0)

    def ask(self, *pieces):
        """The answer to a request, written in pieces."""
        for it in pieces:
            self.child.stdin.write(it)
        return self.answer()

    def end(self):
        """Standard error and the status, once its input has ended."""
        self.child.stdin.close()
        self.child.stdout.close()
        with self.child.stderr:
            complaint = self.child.stderr.read().decode()
        return complaint, self.child.wait(SECONDS)
