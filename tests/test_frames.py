"""Runs the program of many requests, a frame each, on what frames alone have.

Sizes are at their ends, headers still have `data`, and values are too few or too many. An input is
cut at each of its bytes. Frames of version 3, which no text has, are to be answered as
tests/cases/version_3.cases says, and as the reference of tests/fuzzing answers; so are the most lets
that nest, and more values than other versions have. The writes that an answer takes are counted.
test_servers.py tries what lines do alike. A new frame is a row of FORMS, or of LONG.
"""

import socket
import subprocess

import pytest

import request_cases
from framing import GREATEST, LEAST, SIZES, NoFrame, frame, framed
from fuzzing import reference
from fuzzing.drawing import text_of
from fuzzing.rules import FRAME_VERSIONS
from hostile import FIVE, FRAMES_PROGRAM, MATRICES, PRODUCT, PRODUCT_LINE, READ_FAULT, SCALAR
from hostile import line_of, little_stack, request
from servers import FRAMES, Client

pytestmark = pytest.mark.usefixtures("programs")

DRAWN, CHUNK = 1_000, 250
CHUNKS = [(kind, at) for kind in ("valid", "nearly valid") for at in range(0, DRAWN, CHUNK)]
# The reference answers no frame of more places.
MOST_PLACES = 50_000
MOST, WIDEST = 16_777_216, 4_294_967_296
# Up to how many values an answer is written at once.
ROOM = 8_192
ROW = framed(request(SCALAR, '"a"'))
NO_VALUE = '"a":{"dims":[]}'
# One value more than the frames of versions 1 and 2 may have.
MANY = f'"a":{{"dims":[{MOST + 1}]}}'
BAD_TENSOR, NOT_JSON, TOO_LONG = "error 7 BadTensor\n", "error 2 NotJson\n", "error 1 TooLong\n"


def header_of(inputs, version=1):
    return request(inputs, '"a"', version)


def cut(header_length, value_count, prefix=b""):
    """The beginning of a frame of these sizes."""
    return SIZES.pack(header_length, value_count) + prefix + bytes(100_000)


PAIR = header_of('"a":{"dims":[2]},"b":{"dims":[]}')
# Frames, and the line of the first one's answer. Behind it stands another one, which is answered.
FORMS = {
    "a header of no byte": (frame(b""), NOT_JSON),
    "no header and some values": (frame(b"", [1, 2]), NOT_JSON),
    "bytes that are no UTF-8": (frame(b'"\xff"'), NOT_JSON),
    "data in the header": (frame(header_of(SCALAR), [5]), BAD_TENSOR),
    "data and no values": (frame(header_of(SCALAR)), BAD_TENSOR),
    "too few values": (frame(PAIR, [1, 2]), BAD_TENSOR),
    "too many values": (frame(PAIR, [1, 2, 3, 4]), BAD_TENSOR),
    "an input that isn't used": (frame(header_of('"b":{"dims":[2]},"a":{"dims":[]}'), [5, 1, 2]), FIVE),
    "values at their ends": (
        frame(header_of('"a":{"dims":[2]}'), [LEAST, GREATEST]),
        line_of([LEAST, GREATEST], [2]),
    ),
    "a fault of the tree": (
        frame(request(NO_VALUE, '["add","a","b"]'), [5]),
        "error 8 UnknownInput\n",
    ),
}
LONG = {
    "the longest header": (lambda: frame(header_of(NO_VALUE).ljust(MOST), [5]), FIVE),
    "a header one too long": (lambda: frame(header_of(NO_VALUE).ljust(MOST + 1), [5]), TOO_LONG),
    "the most values": (lambda: SIZES.pack(2, MOST) + b"{}" + bytes(8 * MOST), "error 3 BadField\n"),
    "one value too many": (lambda: SIZES.pack(2, MOST + 1) + b"{}" + bytes(8 * (MOST + 1)), TOO_LONG),
}
THIRD = header_of(MANY, version=3)
# The beginnings of frames whose rest doesn't come.
CUT = {
    "the most values of version 3": cut(len(THIRD), WIDEST, THIRD),
    "one more": cut(len(THIRD), WIDEST + 1, THIRD),
    "values without end": cut(0, 2**64 - 1),
    "sizes past 64 bits together": cut(2**64 - 1, 2**64 - 1),
}


@pytest.mark.parametrize("name", FORMS)
def test_forms(name):
    data, line = FORMS[name]
    assert FRAMES.run(data + ROW) == (FRAMES.answers(line, FIVE), "", 0)


@pytest.mark.parametrize("name", LONG)
def test_long_forms(name):
    make, line = LONG[name]
    assert FRAMES.run(make() + ROW) == (FRAMES.answers(line, FIVE), "", 0)


@pytest.mark.parametrize("name", CUT)
def test_cut(name):
    assert FRAMES.run(ROW + CUT[name]) == (FRAMES.answers(FIVE), READ_FAULT, 1)


def test_cut_at_each_byte():
    data = framed(request(MATRICES, PRODUCT, block=1))
    assert FRAMES.run(b"") == (b"", "", 0)
    assert FRAMES.run(ROW) == (FRAMES.answers(FIVE), "", 0)
    for length in range(1, len(data)):
        assert FRAMES.run(ROW + data[:length]) == (FRAMES.answers(FIVE), READ_FAULT, 1), f"cut at {length}"
    assert FRAMES.run(ROW + data) == (FRAMES.answers(FIVE, PRODUCT_LINE), "", 0)


TOTAL = request(MANY, '["sum","a",[0]]', version=3)
# Headers of frames that have one value more than versions 1 and 2 allow. Such a frame is read where
# its header is a request of version 3, by its fields and its version.
MANY_VALUES = {
    "version 3": (TOTAL, line_of([7], [])),
    "version 3 and a fault": (request(MANY, '["div"]', version=3), "error 9 UnknownOp\n"),
    "another tensor": (header_of(NO_VALUE, version=3), BAD_TENSOR),
    "version 2": (TOTAL.replace(b'"version":3', b'"version":2'), TOO_LONG),
    "version 4": (TOTAL.replace(b'"version":3', b'"version":4'), TOO_LONG),
    "version 3.0": (TOTAL.replace(b'"version":3', b'"version":3.0'), TOO_LONG),
    "a field too many": (TOTAL.replace(b'"version"', b'"more":1,"version"'), TOO_LONG),
    "a list": (b"[" + TOTAL + b"]", TOO_LONG),
    "no JSON": (TOTAL[:-1], TOO_LONG),
}


def test_many_values():
    client, values = Client(FRAMES), bytes(8 * MOST) + b"\7" + bytes(7)
    for name, (header, line) in MANY_VALUES.items():
        assert client.ask(SIZES.pack(len(header), MOST + 1) + header, values) == FRAMES.answers(line), name
        assert client.ask(ROW) == FRAMES.answers(FIVE), f"behind {name}"
    assert client.end() == ("", 0)


def lets(count, value):
    """A frame with `count` lets, each in the other, of a value made of the name before."""
    names = ["a", *(f"y{number}" for number in range(count))]
    prefix = "".join(f'["let","{it}",{value % old},' for old, it in zip(names, names[1:]))
    return frame(request(NO_VALUE, f'{prefix}"{names[-1]}"' + "]" * count, version=3), [5])


def test_nested_lets():
    client = Client(FRAMES, preexec_fn=little_stack)
    for count, value, line in (
        (126, '"%s"', FIVE),
        (127, '"%s"', NOT_JSON),
        (125, '["neg","%s"]', line_of([-5], [])),
        (126, '["neg","%s"]', NOT_JSON),
    ):
        assert client.ask(lets(count, value)) == FRAMES.answers(line), f"{count} lets of {value}"
    assert client.end() == ("", 0)


def joined(parts):
    """Expressions of lists, joined by halves."""
    if len(parts) == 1:
        return parts[0]
    half = len(parts) // 2
    return f'["concat",{joined(parts[:half])},{joined(parts[half:])},0]'


def test_many_steps():
    # Each row is cut out by a step and added up by another: 1,400 steps, and the root.
    count = 700
    rows = [f'["sum",["slice","a",[{row},0],[1,2]],[1]]' for row in range(count)]
    text = request(f'"a":{{"dims":[{count},2]}}', joined(rows), version=3)
    data = frame(text, [*range(count), *(row**2 for row in range(count))])
    assert FRAMES.run(data) == (FRAMES.answers(line_of([it + it**2 for it in range(count)], [count])), "", 0)


def writes_of(data):
    """The pieces in which the program writes its answers to these bytes: over a socket that keeps
    them apart."""
    near, far = socket.socketpair(socket.AF_UNIX, socket.SOCK_SEQPACKET)
    with near:
        with far:
            child = subprocess.Popen([FRAMES_PROGRAM], stdin=subprocess.PIPE, stdout=far)
        with child:
            child.stdin.write(data)
            child.stdin.close()
            return [*iter(lambda: near.recv(MOST), b"")]


@pytest.mark.parametrize("count", [0, 1, 2, ROOM - 1, ROOM, ROOM + 1, 2 * ROOM + 1])
def test_writes(count):
    values = list(range(count))
    got = writes_of(frame(header_of(f'"a":{{"dims":[{count}]}}'), values))
    assert b"".join(got) == frame(b'{"dims":[%d]}' % count, values)
    assert (len(got) == 1) == (count <= ROOM)


def test_writes_of_a_fault():
    assert writes_of(frame(b"") + ROW) == [FRAMES.answers(NOT_JSON), FRAMES.answers(FIVE)]


def compare(pairs):
    """Compares the answers to texts of version 3, in frames, with their lines."""
    out, complaint, status = FRAMES.run(b"".join(data for data, _ in pairs))
    answers, rest = FRAMES.split(out)
    assert (len(answers), rest, complaint, status) == (len(pairs), b"", "", 0)
    for (data, line), answer in zip(pairs, answers):
        assert answer == FRAMES.answers(line), f"{data!r:.400}"


def test_cases_of_version_3():
    cases = request_cases.cases_of(request_cases.VERSION_3)
    compare([(framed(text.encode()), line) for text, line in cases])


@pytest.mark.parametrize("kind, first", CHUNKS, ids=[f"{kind} from {it}" for kind, it in CHUNKS])
def test_drawn_of_version_3(kind, first, seed):
    pairs = []
    for number in range(first, first + CHUNK):
        text = text_of(seed, kind, number, {3: FRAME_VERSIONS[3]})
        answer = reference.answer(text, MOST_PLACES, FRAME_VERSIONS)
        try:
            pairs += [] if answer is None else [(framed(text), answer[0].decode())]
        except NoFrame:
            pass
    compare(pairs)
