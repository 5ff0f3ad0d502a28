"""Runs the two programs of many requests, of lines and of frames, on what they do alike.

A client asks, waits, and asks again: each answer has to come while the input stays open. Drawn texts
and the texts of crates/request_cases and examples go down one pipe, and each answer is to be the
answer of the program of one request. Streams fail, the deepest request has little stack, and each
request for memory is refused in turn: the answers before stay, and the next request is answered
again. A new stream is a row of STREAMS.
"""

import os
import pathlib

import pytest

import request_cases
from framing import NoFrame, framed, is_frames_own
from fuzzing.drawing import text_of
from hostile import DEEPEST, FIVE, MATRICES, NO_MEMORY, PRODUCT, READ_FAULT, SCALAR, SHARED, SHARED_LINE
from hostile import TOP, WRITE_FAULT, line_of, little_stack, request, run
from servers import FRAMES, LINES, SERVERS, Client

pytestmark = pytest.mark.usefixtures("programs")
each_server = pytest.mark.parametrize("server", SERVERS, ids=repr)

TALKS, CHUNK = 200, 500
DRAWN = {"valid": 5_000, "nearly valid": 3_000, "spoilt": 2_000}
CHUNKS = [(kind, first) for kind, count in DRAWN.items() for first in range(0, count, CHUNK)]
ROW = request(SCALAR, '"a"')
SHARED_TEXT = request(MATRICES, SHARED, block=1)
# Version 3 is of frames alone.
TAKEN = '["take",["mul","p","p"],["argmax","p",0],0]'
LET = request(MATRICES, f'["let","p",{PRODUCT},["add",["cumsum","p",0],{TAKEN}]]', version=3, block=1)
# How many requests for memory a program makes that reads its options, before it reads anything else;
# where one of these is refused the program ends so, and answers nothing.
FOR_OPTIONS, NO_OPTIONS = 3, (b"", "error 15 NoMemory\n", 1)


@each_server
def test_one_by_one(server):
    client, row, five = Client(server), server.sent(ROW), server.answer(FIVE)
    for number in range(TALKS):
        assert client.ask(row) == five, f"question {number}"
    assert client.ask(*(row[at : at + 1] for at in range(len(row)))) == five
    # Two requests at once and the beginning of a third: both are answered before the rest comes.
    assert client.ask(row + server.sent(SHARED_TEXT) + row[:-3]) == five
    assert client.answer() == server.answer(SHARED_LINE)
    assert client.ask(row[-3:]) == five
    assert client.end() == ("", 0)


@each_server
def test_deepest_in_little_stack(server):
    client = Client(server, preexec_fn=little_stack)
    for depth, line in ((DEEPEST, FIVE), (f'["neg",{DEEPEST}]', "error 2 NotJson\n"), ('"a"', FIVE)):
        assert client.ask(server.sent(request(SCALAR, depth))) == server.answer(line)
    assert client.end() == ("", 0)


# Redirections of a shell, how many requests there are, and how many are answered, the complaint and
# the status.
STREAMS = {
    "closed input": ("<&-", 2, (0, READ_FAULT, 1)),
    "a folder as input": ("<docs", 2, (0, READ_FAULT, 1)),
    "closed output": (">&-", 2, (0, WRITE_FAULT, 1)),
    "a full device": (">/dev/full", 2, (0, WRITE_FAULT, 1)),
    "no request into a full device": (">/dev/full", 0, (0, "", 0)),
    "no standard error": ("2>&-", 2, (2, "", 0)),
}


@each_server
@pytest.mark.parametrize("streams, asked, wanted", STREAMS.values(), ids=STREAMS)
def test_streams(server, streams, asked, wanted):
    count, *rest = wanted
    assert server.run(server.sent(ROW) * asked, streams=streams) == (server.answer(FIVE) * count, *rest)


@each_server
def test_reader_goes(server):
    client, row = Client(server), server.sent(ROW)
    assert client.ask(row) == server.answer(FIVE)
    client.child.stdout.close()
    client.child.stdin.write(row)
    assert client.end() == (WRITE_FAULT, 1)


def is_own_or_out_of_memory(answers, own, no_memory, onward):
    """Whether these are a server's own answers, but for one that reports that it is out of memory;
    or, where all later requests for memory are refused too, but for all from some answer on."""
    is_out = [it == no_memory for it in answers]
    if len(answers) != len(own) or any(got not in (it, no_memory) for got, it in zip(answers, own)):
        return False
    return is_out == sorted(is_out) if onward else sum(is_out) <= 1


@each_server
@pytest.mark.parametrize("onward", [0, 1], ids=["one", "all later ones too"])
def test_memory_refused(refusals, server, onward):
    asked = {ROW: FIVE, SHARED_TEXT: SHARED_LINE, request(SCALAR, '["square","a"]'): line_of([25], [])}
    if server is FRAMES:
        asked[LET] = line_of([2423, 2472, 4124, 4188], [2, 2])
    own, no_memory = [server.answer(it) for it in asked.values()], server.answer(NO_MEMORY)
    met = reported = 0
    for number, ran, is_met in refusals.in_turn(server.requests(*asked), server.program, onward=onward):
        out, complaint, status = ran[0].encode(errors="surrogateescape"), *ran[1:]
        answers, rest = server.split(out)
        if number <= FOR_OPTIONS:
            assert (out, complaint, status) == NO_OPTIONS, f"request {number}"
        else:
            assert (rest, complaint, status) == (b"", "", 0), f"request {number}"
            is_right = is_own_or_out_of_memory(answers, own, no_memory, onward) if is_met else answers == own
            assert is_right, f"request {number}: {answers}"
        met, reported = met + is_met, reported + (no_memory in answers)
    assert met and reported


def frame_of(text):
    """The frame that says what a text does, or None where there is none."""
    try:
        return None if is_frames_own(text) else framed(text)
    except NoFrame:
        return None


def compare(texts):
    """Compares the answers to some texts, each in a line and in a frame, with the program of one request."""
    texts = [it.replace(b"\n", b" ") for it in texts]
    wanted = [run(it)[0] for it in texts]
    for server, asked in (LINES, [it + b"\n" for it in texts]), (FRAMES, [*map(frame_of, texts)]):
        of_each = [(text, line) for text, line, it in zip(texts, wanted, asked) if it is not None]
        out, *others = server.run(b"".join(filter(None, asked)))
        answers, rest = server.split(out)
        assert (len(answers), rest, others) == (len(of_each), b"", ["", 0])
        for (text, line), answer in zip(of_each, answers):
            assert answer == server.answer(line), f"{server.name}: {text!r:.400}"


@pytest.mark.parametrize("path", request_cases.PATHS, ids=os.path.basename)
def test_cases_beside_one_request(path):
    compare([text.encode() for text, _ in request_cases.cases_of(path)])


def test_examples_beside_one_request():
    compare([path.read_bytes() for path in sorted(pathlib.Path(TOP, "examples").glob("*.json"))])


@pytest.mark.parametrize("kind, first", CHUNKS, ids=[f"{kind} from {it:,}" for kind, it in CHUNKS])
def test_drawn_beside_one_request(kind, first, seed):
    compare([text_of(seed, kind, number) for number in range(first, first + CHUNK)])
