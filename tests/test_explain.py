"""Runs the program that explains requests, and compares its lines with what a walk in Python finds.

Each text of tests/cases/explanations.cases, at least one for each fault, has to have the lines that
stand below it. Of these, of the texts of crates/request_cases, of drawn texts that are nearly valid or
spoilt, and of texts at the limits, the fault and the place have to be what fuzzing/places.py finds, and
the reason what fuzzing/reasons.py counts; the place has to be read back as JSON. A text without a fault
has to have none, the dims of its result, and steps. Each request for memory is refused in turn, and
streams fail or don't end. A new text is a case of that file, or of a function of LIMITS.

Each frame of tests/cases/frame_explanations.cases has to have the lines below it. Frames of drawn texts have
to have the fault and the place of their texts, and frames of version 3 the fault that they are answered by.
"""

import json
import math
import os
import random
import re
import subprocess
import tempfile

import pytest

import request_cases
from framing import SIZES, NoFrame, framed
from fuzzing import grammar, places, reasons, spoiling
from fuzzing.rules import FAULTS, MOST_BYTES
from hostile import EXPLAIN_PROGRAM, NO_MEMORY, READ_FAULT, SECONDS, WRITE_FAULT
from hostile import by_shell, request, run

pytestmark = pytest.mark.usefixtures("programs")

WHOLE = "the whole text"
A = '"a":{"dims":[1],"data":[1]}'
STEP = re.compile(r"step (\d+): dims (\[[\d, ]*\]), (\d+) (values?)")
COUNT, CHUNKS = 10_000, 20
ONWARD = pytest.mark.parametrize("onward", [0, 1], ids=["one", "all later ones too"])


def of_expr(expr, version=1, inputs=A):
    return request(inputs, expr, version, workers=1, block=1)


def explained(text):
    return run(text, program=EXPLAIN_PROGRAM)


def is_plan(lines, dims):
    """Whether lines say a result of these dims, and steps up to it, each with all its values."""
    first, result, *steps = lines.removesuffix("\n").split("\n")
    parts = [STEP.fullmatch(it) for it in steps]
    if first != "no fault" or result != f"dims {dims}" or not parts or None in parts:
        return False
    for number, (at_step, of, count, values) in enumerate((it.groups() for it in parts), 1):
        product = math.prod(json.loads(of))
        unit = "value" if product == 1 else "values"
        if (int(at_step), int(count), values) != (number, product, unit):
            return False
    return parts[-1][2] == str(dims)


def see(text):
    """Sees that the lines of a text say its fault, place and reason, or its result."""
    (value, fault, dims), (lines, complaint, status) = places.find(text), explained(text)
    shown = f"{text!r:.400} has {lines!r:.400}"
    assert (complaint, status) == ("", int(fault is not None)), shown
    if fault is None:
        assert is_plan(lines, dims), shown
        return
    number, steps = fault
    prefix = f"error {number} {FAULTS[number]}\nat {places.shown(steps) or WHOLE}: "
    assert lines.startswith(prefix) and lines.count("\n") == 2 and lines[-1] == "\n", f"{shown}, not {prefix}"
    place, _, reason = lines.split("\n")[1].removeprefix("at ").partition(": ")
    assert place == WHOLE or json.loads(f'"{place}"') == places.pointer(steps), shown
    assert reasons.is_true(text, value, fault, reason), shown


def ids_of(table):
    return [lines.split(b"\n")[-1].decode() for _, lines in table]


TABLE, FRAMES = request_cases.explanations("explanations"), request_cases.explanations("frame_explanations")


@pytest.mark.parametrize("text, lines", TABLE, ids=ids_of(TABLE))
def test_table(text, lines):
    assert explained(text) == (lines.decode() + "\n", "", int(not lines.startswith(b"no fault")))
    see(text)


def head(header, count):
    """The bytes of a frame without its values."""
    return SIZES.pack(len(header), count) + header


@pytest.mark.parametrize("asked, lines", FRAMES, ids=ids_of(FRAMES))
def test_table_of_frames(asked, lines):
    count, header = asked.split(b" ", 1)
    fault = int(not lines.startswith(b"no fault"))
    assert explained(head(header, int(count))) == (lines.decode() + "\n", "", fault)


def test_faults_of_table():
    found = {places.find(text)[1][0] for text, _ in TABLE if places.find(text)[1]}
    assert found >= FAULTS.keys() - {1}


def balanced(leaves):
    if leaves == 1:
        return '"a"'
    return f'["add",{balanced(leaves // 2)},{balanced(leaves - leaves // 2)}]'


def deep(inner, depth, before="", name="neg"):
    """A node so deep inside others."""
    return f'["{name}",{before}' * depth + inner + "]" * depth


def lengths():
    yield b" " * MOST_BYTES
    yield b" " * (MOST_BYTES + 1)


def nodes():
    yield of_expr(balanced(500))
    yield of_expr(balanced(501))
    large = '["broadcast","a",[1048577]]'
    for last in ('"a"', "[]", balanced(501), large, f'["neg",{balanced(501)}]', f'["neg",{large}]'):
        yield of_expr(f'["add",{balanced(500)},{last}]')
        yield of_expr(f'["add",{balanced(499)},["neg",{last}]]')


def nesting():
    yield of_expr(deep('["add","a",["add","a","b"]]', 120))
    yield of_expr(deep('"b"', 120, '"a",', "add"))
    yield of_expr(deep("[]", 124))
    yield of_expr(deep('["slice","a",[0],[1,-1]]', 60))


# What a name of an input may hold that a line must not.
ODD_NAMES = ["a/b", "~", "~1", "", "é", "/~0", "a: b", ": ", "\n", '"', "\\", "\\u000a", "\x7f"]
ODD_NAMES += [*map(chr, range(32)), "x\nerror 9 UnknownOp\nat /expr/0: no", "\u2028", "a" * 61]


def names():
    for name in ODD_NAMES:
        for inputs in f"{json.dumps(name)}:[]", A:
            yield of_expr(json.dumps(name), inputs=inputs)
        yield of_expr(json.dumps([name]))
    for count in 59, 60, 61:
        yield of_expr(json.dumps("n" * count))
        yield of_expr(f'["constant","a",{json.dumps("é" * (count // 2))}]')
        yield of_expr(f'["constant","a",{json.dumps("n" * count)}]')


def sizes():
    for value in "[0,1048577]", "[1048577,0,0]", "[18446744073709551615,2]", "[4294967296,4294967296]":
        yield of_expr('"a"', inputs=f'"a":{{"dims":{value},"data":[]}}')
    for inputs in A, '"a":{"dims":[0],"data":[]}':
        for count in 2**63 - 1, 2**62, 1_048_577:
            yield of_expr(f'["broadcast","a",[{count}]]', inputs=inputs)
            yield of_expr(f'["broadcast",["broadcast","a",[1048576]],[{count}]]')
            yield of_expr(f'["pad","a",[[{count},{count}]]]', 2)


def numbers():
    for number in "1.5", "7", "-0", "9223372036854775808", "-9223372036854775809", "1e300", "5.0":
        yield of_expr(f'["add","a",{number}]')
        yield of_expr(f'["constant","a",{number}]')


def broken():
    yield from (b"\n\n", b"{\n\n x", b"[1,\n2", b"\n\xff", b'{"a":\n"\xe2\x82', b"[" * 128, b'"\n"')


LIMITS = (lengths, nodes, nesting, names, sizes, numbers, broken)


@pytest.mark.parametrize("texts", LIMITS, ids="{0.__name__}".format)
def test_limits(texts):
    for text in texts():
        see(text)


@pytest.mark.parametrize("path", request_cases.PATHS, ids=os.path.basename)
def test_cases(path):
    for text, _ in request_cases.cases_of(path):
        see(text.encode())


def nearly(seed, number):
    """A drawn text that is nearly valid, or of spoilt bytes."""
    source = random.Random(f"{seed} explained {number}")
    made = grammar.request(source)
    if source.random() < 0.8:
        made = spoiling.nearly(source, made)
    text = spoiling.written(source, made)
    return spoiling.spoilt(source, text) if source.random() < 0.5 else text


@pytest.mark.parametrize("chunk", range(CHUNKS))
def test_drawn(chunk, seed, pytestconfig):
    for number in range(chunk, pytestconfig.getoption("--count") or COUNT, CHUNKS):
        see(nearly(seed, number))


def no_frame(text):
    """The frame of a text, or None if there is none."""
    try:
        return framed(text)
    except NoFrame:
        return None


@pytest.mark.parametrize("chunk", range(CHUNKS))
def test_frames_of_drawn(chunk, seed, pytestconfig):
    """A frame has the fault and the place of its text."""
    for number in range(chunk, (pytestconfig.getoption("--count") or COUNT) // 4, CHUNKS):
        text = nearly(seed, number)
        asked, (_, fault, dims) = no_frame(text), places.find(text)
        if asked is None or (fault and FAULTS[fault[0]] == "BadVersion"):
            continue
        lines, complaint, status = explained(asked)
        shown = f"the frame of {text!r:.400} has {lines!r:.400}"
        assert (complaint, status) == ("", int(fault is not None)), shown
        if fault is None:
            assert is_plan(lines, dims), shown
        else:
            number, steps = fault
            prefix = f"error {number} {FAULTS[number]}\nat {places.shown(steps) or WHOLE}: "
            assert lines.startswith(prefix) and lines.count("\n") == 2, f"{shown}, not {prefix}"


def is_there(value, pointer):
    """Whether a JSON pointer leads to a value in this one."""
    for step in pointer.split("/")[1:]:
        name = step.replace("~1", "/").replace("~0", "~")
        try:
            value = value[name] if isinstance(value, dict) else value[int(name)]
        except (LookupError, TypeError, ValueError):
            return False
    return True


def test_frames_of_version_3():
    found = 0
    for text, line in request_cases.cases_of(request_cases.VERSION_3):
        asked = no_frame(text.encode())
        if asked is None:
            continue
        first, second, *rest = explained(asked)[0].split("\n")
        assert first == (line if line.startswith("error ") else "no fault"), text
        if first == "no fault":
            assert second == f"dims {json.dumps(json.loads(line)['dims'])}", text
        else:
            place, _, reason = second.removeprefix("at ").partition(": ")
            header = asked[SIZES.size :][: SIZES.unpack_from(asked)[0]]
            assert reason and rest == [""] and is_there(json.loads(header), place), text
            found += 1
    assert found > 10


# Beginnings of a frame.
CUT_OFF = {
    "in the header": head(b"{}", 0)[:-1],
    "in the count": head(b"{}", 0)[:12],
    "behind the length": head(b"{}", 0)[:8],
}


@pytest.mark.parametrize("asked", CUT_OFF.values(), ids=CUT_OFF)
def test_frames_that_end_early(asked):
    assert explained(asked) == ("", READ_FAULT, 1)


def test_long_headers():
    long = head(b" " * (MOST_BYTES + 1), 0)
    said = f"at {WHOLE}: a header may have at most {MOST_BYTES} bytes; this one has more\n"
    assert explained(long) == (f"error 1 TooLong\n{said}", "", 1)


def of_two(expr):
    return of_expr(expr, inputs='"a":{"dims":[2],"data":[1,2]},"b\\n":{"dims":[2,3],"data":[0,1,2,3,4,5]}')


# A text of each kind of fault and of reason, and one without a fault.
TEXTS = {
    "no JSON": b'{"version":1',
    "no request": b"[]",
    "one value of two": of_expr('"a"', inputs='"a":{"dims":[2],"data":[5]}'),
    "no value of many": of_expr('"a"', inputs='"b: ":{"dims":[2,1048576],"data":[]}'),
    "no input": of_two('"c"'),
    "no operation": of_two('["div"]'),
    "a number for a node": of_two('["add","a",5]'),
    "no operand": of_two('["neg"]'),
    "a string for a size": of_two('["slice","a",[0],["x"]]'),
    "a place past the end": of_two('["chip","a",2,0]'),
    "two shapes": of_two('["add","a",["neg","b\\n"]]'),
    "another width": of_two('["contract","b\\n","b\\n",[[0,1]]]'),
    "too many values": of_two('["broadcast","a",[1048576]]'),
    "no fault": of_two('["sum",["contract","b\\n","b\\n",[[0,0]]],[0]]'),
    "too many nodes": of_expr(f'["add",{balanced(500)},["neg",{balanced(501)}]]'),
    "a frame of a let": head(request('"a":{"dims":[2]}', '["let","b",["neg","a"],["cumsum","b",1]]', 3), 2),
    "a frame without a fault": head(request('"a":{"dims":[2]}', '["cumsum","a",0]', 3), 2),
}


@ONWARD
@pytest.mark.parametrize("name", TEXTS)
def test_memory_refused(refusals, name, onward):
    own, no_memory, found = explained(TEXTS[name]), (NO_MEMORY, "", 1), set()
    for number, got, is_met in refusals.in_turn(TEXTS[name], EXPLAIN_PROGRAM, "memory", onward):
        assert got in ((own, no_memory) if is_met else (own,)), f"request {number}"
        found.add(got)
    assert found == {own, no_memory}


LONG = 100_000_000
LONG_LINES = f"error 1 TooLong\nat {WHOLE}: a text may have at most {MOST_BYTES} bytes; this one has more\n"
UNREAD, UNWRITTEN = (b"", READ_FAULT.encode(), 1), (b"", WRITE_FAULT.encode(), 1)
TOO_LONG = LONG_LINES.encode(), b"", 1
ROW = of_expr('"a"')
# Redirections of a shell, a text or the number of its blanks, and what is printed and the status.
STREAMS = {
    "closed input": ("<&-", ROW, UNREAD),
    "a folder as input": ("<docs", ROW, UNREAD),
    "no input and no output": ("<&- >&-", ROW, UNREAD),
    "closed output": (">&-", ROW, UNWRITTEN),
    "a full device": (">/dev/full", ROW, UNWRITTEN),
    "a full device and a fault": (">/dev/full", b"{}", UNWRITTEN),
    "a full device and no standard error": (">/dev/full 2>&-", ROW, (b"", b"", 1)),
    "input without end": ("</dev/zero", ROW, TOO_LONG),
}


@pytest.mark.parametrize("streams, text, wanted", STREAMS.values(), ids=STREAMS)
def test_streams(streams, text, wanted):
    assert by_shell(streams, text, EXPLAIN_PROGRAM) == wanted


# Limits of memory, in KiB, and what is printed of 100 MB of blanks.
MEMORY = {
    "no limit": ("", TOO_LONG),
    "enough": ("ulimit -v 131072; ", TOO_LONG),
    "little": ("ulimit -v 24576; ", (NO_MEMORY.encode(), b"", 1)),
}


@pytest.mark.parametrize("limit, wanted", MEMORY.values(), ids=MEMORY)
def test_memory_of_a_long_text(limit, wanted):
    assert by_shell("", b" " * LONG, EXPLAIN_PROGRAM, before=limit) == wanted


def test_bytes_that_are_read():
    with tempfile.TemporaryFile() as file:
        file.truncate(LONG)
        ran = subprocess.run([EXPLAIN_PROGRAM], stdin=file, capture_output=True, timeout=SECONDS, check=False)
        assert ran.stdout.decode() == LONG_LINES
        assert os.lseek(file.fileno(), 0, os.SEEK_CUR) == MOST_BYTES + 1
