"""Runs the program of one request on streams that fail, on interrupted calls, and with few threads.

Streams are closed or full, or their other end goes away or takes a byte at a time. Where a stream
fails the fault's line stands on standard error and the status is 1, by no signal. Reads and writes
that a signal interrupts are made again, also by the programs of many requests. Requests of 256 workers
are answered where few threads may start; support/refusals.c limits these, since a limit of the system
holds for all processes of a user together, and not for root. A new stream is a row of SHELL or OTHER.
"""

import os
import resource
import socket
import subprocess
import tempfile
from typing import NamedTuple

import pytest

from hostile import LINES_PROGRAM, MATRICES, PRODUCT, PRODUCT_LINE, PROGRAM, READ_FAULT, SECONDS
from hostile import WRITE_FAULT, by_shell, line_of, request
from servers import FRAMES, LINES

pytestmark = pytest.mark.usefixtures("programs")

UNREAD = b"", READ_FAULT.encode(), 1
UNWRITTEN = b"", WRITE_FAULT.encode(), 1
SILENT = b"", b"", 1
TEXT = request(MATRICES, PRODUCT)
ANSWER = PRODUCT_LINE.encode(), b"", 0
FAULTY_TEXT = request(MATRICES, '["add","l","r"]')
FAULTY = b"error 12 ShapeMismatch\n", b"", 1

# A line of 22 MB.
MANY, LEAST = 1_048_576, -(2**63)
LONG_TEXT = request(f'"a":{{"dims":[1],"data":[{LEAST}]}}', f'["broadcast","a",[{MANY}]]')
LONG_LINE = f'{{"data":[{",".join([str(LEAST)] * MANY)}],"dims":[{MANY}]}}\n'.encode()
PART = 1_000_000

# Redirections of a shell, a text, and what both streams have and the status.
SHELL = {
    "closed input": ("<&-", TEXT, UNREAD),
    "a folder as input": ("<docs", TEXT, UNREAD),
    "input that is only written": ("0>/dev/null", TEXT, UNREAD),
    "no input and no output": ("<&- >&-", TEXT, UNREAD),
    "closed output": (">&-", TEXT, UNWRITTEN),
    "output that is only read": ("1</dev/null", TEXT, UNWRITTEN),
    "a full device": (">/dev/full", TEXT, UNWRITTEN),
    "a full device and a fault": (">/dev/full", b"{}", UNWRITTEN),
    "a full device and a line of 22 MB": (">/dev/full", LONG_TEXT, UNWRITTEN),
    "a full device and no standard error": (">/dev/full 2>&-", TEXT, SILENT),
    "a full device and a full standard error": (">/dev/full 2>/dev/full", TEXT, SILENT),
    "no standard error": ("2>&-", TEXT, ANSWER),
    "good streams": ("", TEXT, ANSWER),
    "good streams and a fault": ("", FAULTY_TEXT, FAULTY),
}


@pytest.mark.parametrize("streams, text, wanted", SHELL.values(), ids=SHELL)
def test_redirected(streams, text, wanted):
    assert by_shell(streams, text) == wanted


def started(text, output=subprocess.PIPE, **how):
    """The program as it runs, which has been given the whole of a short text."""
    pipe = subprocess.PIPE
    child = subprocess.Popen([PROGRAM], stdin=pipe, stdout=output, stderr=pipe, **how)
    child.stdin.write(text)
    child.stdin.close()
    return child


def ended(child):
    """The complaint and the status of a run."""
    with child.stderr:
        complaint = child.stderr.read()
    return complaint, child.wait(SECONDS)


def reader_goes():
    """The reader of a pipe goes away in the middle of the line."""
    child = started(LONG_TEXT)
    part = child.stdout.read(PART)
    child.stdout.close()
    return part == LONG_LINE[:PART], *ended(child)


def no_reader():
    """The reader of a pipe went away before the program wrote."""
    out, into = os.pipe()
    os.close(out)
    with os.fdopen(into, "wb") as output:
        return True, *ended(started(TEXT, output))


def full_pipe():
    """A pipe that doesn't wait for room, and which nobody reads."""
    out, into = os.pipe()
    os.set_blocking(into, False)
    with os.fdopen(into, "wb") as output, os.fdopen(out, "rb") as reader:
        said = ended(started(LONG_TEXT, output))
        output.close()
        part = reader.read()
    return part != b"" and LONG_LINE.startswith(part), *said


def full_file():
    """A file that may be no longer. The system's signal for that is ignored, as Python does."""

    def limit():
        resource.setrlimit(resource.RLIMIT_FSIZE, (PART, PART))

    with tempfile.TemporaryFile() as output:
        said = ended(started(LONG_TEXT, output, restore_signals=False, preexec_fn=limit))
        output.seek(0)
        return output.read() == LONG_LINE[:PART], *said


def peer_goes():
    """The other end of a socket is closed."""
    here, there = socket.socketpair()
    here.close()
    with there:
        return True, *ended(started(TEXT, there))


def slow_reader():
    """A pipe that is read in small parts."""
    child = started(LONG_TEXT)
    with child.stdout:
        line = b"".join(iter(lambda: child.stdout.read1(4_099), b""))
    return line == LONG_LINE, *ended(child)


def slow_writer():
    """A pipe that gives a byte at a time."""
    pipe = subprocess.PIPE
    child = subprocess.Popen([PROGRAM], stdin=pipe, stdout=pipe, stderr=pipe, bufsize=0)
    for byte in TEXT:
        child.stdin.write(bytes([byte]))
    child.stdin.close()
    with child.stdout:
        line = child.stdout.read()
    return line == ANSWER[0], *ended(child)


# A run that says whether what was read of the line is right, and the complaint and the status.
OTHER = {
    "a reader that goes away in a line of 22 MB": (reader_goes, UNWRITTEN),
    "a reader that has gone": (no_reader, UNWRITTEN),
    "a full pipe that doesn't wait": (full_pipe, UNWRITTEN),
    "a socket whose other end is closed": (peer_goes, UNWRITTEN),
    "a file that may be no longer": (full_file, UNWRITTEN),
    "a line of 22 MB in small parts": (slow_reader, ANSWER),
    "a text byte by byte": (slow_writer, ANSWER),
}


@pytest.mark.parametrize("ran, wanted", OTHER.values(), ids=OTHER)
def test_other_ends(ran, wanted):
    assert ran() == (True, *wanted[1:])


# What a program is given, and what it prints and its status.
INTERRUPTED = {
    "a text": (PROGRAM, TEXT, PRODUCT_LINE, 0),
    "a fault": (PROGRAM, FAULTY_TEXT, FAULTY[0].decode(), 1),
    "a line of 22 MB": (PROGRAM, LONG_TEXT, LONG_LINE.decode(), 0),
    "lines": (LINES.program, LINES.sent(TEXT) * 2, PRODUCT_LINE * 2, 0),
    "frames": (FRAMES.program, FRAMES.sent(TEXT) * 2, FRAMES.answer(PRODUCT_LINE).decode() * 2, 0),
}


@pytest.mark.parametrize("calls", [1, 5], ids=["a call interrupted", "5 calls in a row"])
@pytest.mark.parametrize("name", INTERRUPTED)
def test_interrupted(refusals, name, calls):
    program, text, line, status = INTERRUPTED[name]
    assert refusals.run(text, program, calls=calls) == (line, "", status)
    # A read at least, one that reports the end, and a write.
    assert refusals.interrupted >= 3 * calls


MOST_WORKERS, TIMES = 256, 72


class Starts(NamedTuple):
    """Runs in which a line is asked for `lines` times and at most `threads` threads may be there at once.
    The line is over `places` places, for which `worth` workers are worth their start."""

    threads: int
    runs: int
    lines: int
    worth: int
    places: int

    def least(self):
        """How many starts are refused in a run at least: the first thread counts as one of those
        that may be there."""
        return self.lines * (self.worth - self.threads + 1)


# A line of few places costs least for each start that is refused; 52,000 are refused in all.
STARTS = [
    Starts(threads=3, runs=20, lines=50, worth=8, places=365_000),
    Starts(threads=1, runs=4, lines=50, worth=8, places=365_000),
    Starts(threads=1, runs=30, lines=500, worth=3, places=52_700),
]


@pytest.mark.parametrize("starts", STARTS, ids="{0.threads} of {0.worth} threads".format)
def test_few_threads(refusals, starts):
    operations = '["square",' * TIMES
    expr = f'["sum",{operations}["broadcast","a",[{starts.places}]]{"]" * TIMES},[0]]'
    text = request('"a":{"dims":[1],"data":[1]}', expr, version=2, workers=MOST_WORKERS, block=4096)
    asked, line = LINES.sent(text) * starts.lines, line_of([starts.places], [])
    for number in range(starts.runs):
        assert refusals.run(asked, LINES_PROGRAM, threads=starts.threads) == (line * starts.lines, "", 0)
        assert refusals.starts_refused >= starts.least(), f"run {number}"
