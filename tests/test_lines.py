"""Runs the program of many requests, a line each, on what lines alone have, and on many of them.

Lines end in each way, and are too long; a new end is a row of FORMS. The threads that are started for
a line are counted. 100,000 small lines may take no more memory than a few, and neither may steps of
each kind on several workers, in many passes. The large texts of support/hostile_texts.py stand between
two good lines under a limit of memory, and may cost no line but their own. test_servers.py tries what
frames do alike.
"""

import resource
import threading

import pytest

from hostile import FIVE, LINES_PROGRAM, MATRICES, NO_MEMORY, SCALAR, SHARED, SHARED_LINE
from hostile import kib, line_of, request
from hostile_texts import LARGE, MOST_BYTES, NOT_JSON
from servers import LINES, Client
from step_requests import STARTING

pytestmark = pytest.mark.usefixtures("programs")

SMALL_LINES, FEW_LINES, EVERY = 100_000, 1_000, 50
MOST_KIB_MORE = 512
FEW_PASSES, PASSES = 300, 3_000
MOST_BYTES_AT_ALL = 512_000_000
TOO_LONG = "error 1 TooLong\n"
ROW = request(SCALAR, '"a"')
SHARED_TEXT = request(MATRICES, SHARED, block=1)
# How many values are worth the start of four workers, if they are squared 23 times.
DEAR, SQUARES = 262_144, 23

FORMS = {
    "no line": (b"", ""),
    "a line feed": (b"\n", NOT_JSON),
    "no feed at the end": (ROW, FIVE),
    "a carriage return before each feed": ((ROW + b"\r\n") * 2, FIVE * 2),
    "a carriage return alone": (b"\r", NOT_JSON),
    "empty lines": (b"\n" + ROW + b"\n\n", NOT_JSON + FIVE + NOT_JSON),
    "bytes that are no UTF-8": (b'"\xff"\n' + ROW, NOT_JSON + FIVE),
}
# How many bytes a line has between two good ones, and its answer.
LENGTHS = {
    "the greatest length": (MOST_BYTES, FIVE),
    "one too long": (MOST_BYTES + 1, TOO_LONG),
    "one far too long": (50_000_000, TOO_LONG),
}


@pytest.mark.parametrize("text, lines", FORMS.values(), ids=FORMS)
def test_forms(text, lines):
    assert LINES.run(text) == (lines.encode(), "", 0)


@pytest.mark.parametrize("length, line", LENGTHS.values(), ids=LENGTHS)
def test_lengths(length, line):
    text = LINES.sent(ROW) + ROW.ljust(length) + b"\n" + ROW
    assert LINES.run(text) == (LINES.answers(FIVE, line, FIVE), "", 0)


def test_line_in_pieces():
    client = Client(LINES)
    assert client.ask(ROW[:9], ROW[9:], b"\r", b"\n") == FIVE.encode()
    assert client.end() == ("", 0)


# The blocks of the lines, and how many threads are started: none for one leaf, or one a leaf, or four.
STARTS = {
    "one leaf": ([DEAR] * 9, 0),
    "two leaves and many": ([DEAR // 2, DEAR // 16], 6),
    "many leaves, then one": ([DEAR // 16] * 3 + [DEAR], 12),
}


@pytest.mark.parametrize("blocks, starts", STARTS.values(), ids=STARTS)
def test_starts(refusals, blocks, starts):
    dear = '["square",' * SQUARES + f'["broadcast","a",[{DEAR}]]' + "]" * SQUARES
    expr = f'["sum",{dear},[0]]'
    asked = [request('"a":{"dims":[1],"data":[1]}', expr, workers=64, block=it) for it in blocks]
    got = refusals.run(b"\n".join(asked), LINES_PROGRAM)
    assert (got, refusals.starts) == ((line_of([DEAR], []) * len(blocks), "", 0), starts)


def asked_again(client, asked, times):
    """Asks for these lines `times` times; their answers may come before all is asked."""

    def ask():
        for _ in range(times):
            client.child.stdin.write(b"".join(text + b"\n" for text, _ in asked))

    asking = threading.Thread(target=ask, daemon=True)
    asking.start()
    for _ in range(times):
        for text, line in asked:
            assert client.answer() == line.encode(), f"{text!r:.200}"
    asking.join()


def grown(client, field, asked, times):
    """How much memory more there is after many times than after few, in KiB."""
    few, many = times
    asked_again(client, asked, few)
    before = kib(client.child.pid, field)
    asked_again(client, asked, many)
    return kib(client.child.pid, field) - before


@pytest.mark.timed
def test_memory_of_small_lines():
    """Small lines, now and then one whose workers are started."""
    client, asked = Client(LINES), [(ROW, FIVE)] * (EVERY - 1) + [(SHARED_TEXT, SHARED_LINE)]
    assert grown(client, "VmHWM", asked, (FEW_LINES // EVERY, SMALL_LINES // EVERY)) <= MOST_KIB_MORE
    assert client.end() == ("", 0)


@pytest.mark.timed
def test_memory_of_steps():
    """Steps of each kind on several workers, in passes, behind which no memory is left."""
    client, asked = Client(LINES), [*STARTING.values(), (SHARED_TEXT, SHARED_LINE)]
    assert grown(client, "VmRSS", asked, (FEW_PASSES, PASSES)) <= MOST_KIB_MORE
    assert client.end() == ("", 0)


def test_large_texts_in_little_memory():
    def limit():
        resource.setrlimit(resource.RLIMIT_AS, (MOST_BYTES_AT_ALL, MOST_BYTES_AT_ALL))

    client, found = Client(LINES, preexec_fn=limit), set()
    assert client.ask(ROW, b"\n") == FIVE.encode()
    for name, (make, line) in LARGE.items():
        got = client.ask(*(it.replace(b"\n", b" ") for it in make()), b"\n").decode()
        assert got in (line, NO_MEMORY), name
        assert client.ask(ROW, b"\n") == FIVE.encode(), f"behind {name}"
        found.add(got)
    assert NO_MEMORY in found
    assert client.end() == ("", 0)
