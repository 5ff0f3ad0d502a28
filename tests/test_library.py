"""Tests of the library from C, Rust and Python: it answers a frame as the programs answer its text.

The frames come from the texts of crates/request_cases and tests/cases/version_3.cases, and from
drawn texts, which the reference of tests/fuzzing answers. OWN has more frames: values at the ends
of their range, inputs that no expression names, too few and too many values, illegal dims, `data`
in a header, and a header past the limit. A new case is a row of OWN. --count sets how many frames
are drawn.

tests/support/library.c also computes each answer in parts, and runs its plan, whole, cut and
spoilt. It does so on eight threads, with each request for memory refused, and under valgrind.
tests/support/stack.c measures the stack of each call.
test_calls.py has the calls that only Python makes, and library/test_built.py the builders of expressions
and the examples in C++ and Rust.
"""

import json
import math
import random
import re
import shutil
import struct

import pytest

from calling import ARCHIVE, MOST, Library, header
from framing import GREATEST, LEAST, NoFrame, frame, framed, is_frames_own, parts
from fuzzing import grammar, reference, sharing, spoiling
from fuzzing.rules import FRAME_VERSIONS
from hostile import SUPPORT, TOP, output
from request_cases import PATHS, VERSION_3, cases_of

WRAPPED = "-Wl,--wrap=malloc,--wrap=realloc,--wrap=free"
THREADS, PASSES = 8, 2
# How many texts are drawn, and how many places the reference computes at most.
DRAWN, MOST_PLACES = 400, 20_000
# How much more memory there may be after the last pass than after half of them, in KiB.
MOST_KIB_MORE = 2_048
# How many bytes a call for a part may hold at most, beside what it packs.
MOST_BESIDE = 2**20
# One of so many short frames is run under valgrind; a short frame has at most these bytes.
EVERY, FEW_BYTES = 24, 4_000
# The largest parts of TENSOR_STACK that a call may take: for one operation, and for a deep expression.
OF_ONE, OF_DEEP = 0.1, 0.75
NO_ARRAYS = 2**64 - 1
TWO, NAMES = '"a":{"dims":[2]},"b":{"dims":[2]}', '"B":{"dims":[]},"a":{"dims":[]},"":{"dims":[]}'
DATA = '"a":{"dims":[2],"data":[1,2]}'
ENDS = [LEAST, GREATEST, -1, 1]
TOO_LONG, NOT_JSON, BAD_TENSOR = "error 1 TooLong", "error 2 NotJson", "error 7 BadTensor"
PAIRS, RANK_8 = [1, 2, 10, 20], '{"data":[-1,-2],"dims":[1,1,1,1,1,1,1,2]}'
LETS = '{"data":[120,482],"dims":[2]}'
# By the number of levels of `b - (b - (.. a))`.
LEVELS = {63: '{"data":[9,18],"dims":[2]}', 64: '{"data":[1,2],"dims":[2]}'}
LEVELS |= {125: LEVELS[63], 126: LEVELS[64]}


def nested(depth, expr):
    """An expression of this many operations, each of which stands at the `*` of the one around it."""
    before, behind = expr.split("*")
    return before * depth + '"a"' + behind * depth


# Header, values, and the line that answers.
OWN = [
    (header(TWO, '["add","a","b"]'), ENDS, f'{{"data":[{GREATEST},{LEAST}],"dims":[2]}}'),
    (header(TWO, '"a"'), ENDS, f'{{"data":[{LEAST},{GREATEST}],"dims":[2]}}'),
    (header(TWO, '"b"'), ENDS, '{"data":[-1,1],"dims":[2]}'),
    # In the order of names, not of the header.
    (header('"b":{"dims":[1]},"a":{"dims":[2]}', '"b"'), [1, 2, 3], '{"data":[3],"dims":[1]}'),
    (header(NAMES, '"a"'), [1, 2, 3], '{"data":[3],"dims":[]}'),
    (header('"a":{"dims":[0,3]}', '["sum","a",[0]]'), [], '{"data":[0,0,0],"dims":[3]}'),
    (header(TWO, '"a"'), ENDS[:3], BAD_TENSOR),
    (header(TWO, '"a"'), ENDS + [0], BAD_TENSOR),
    (header(TWO, '"a"'), [], BAD_TENSOR),
    (header(TWO, '"a"').replace('"block":1', '"block":0'), [], "error 6 BadBlock"),
    (header("", '"a"'), [0], BAD_TENSOR),
    (header("", '"a"'), [], "error 8 UnknownInput"),
    (header(DATA, '"a"'), [], BAD_TENSOR),
    (header(DATA, '"a"'), [1, 2], BAD_TENSOR),
    (header('"a":{"data":[1,2]}', '"a"'), [1, 2], BAD_TENSOR),
    (header('"a":{}', '"a"'), [], BAD_TENSOR),
    (header('"a":7', '"a"'), [], BAD_TENSOR),
    ("", [], NOT_JSON),
    ("[", [1], NOT_JSON),
    (" " * MOST, [], NOT_JSON),
    (" " * (MOST + 1), [], TOO_LONG),
    # What a plan has room for: the highest rank, bindings, and many levels.
    *((header('"a":{"dims":[1,1,1,1,1,1,1,2]}', '["neg","a"]', it), [1, 2], RANK_8) for it in (2, 3)),
    (header(TWO, '["let","y",["add","a","b"],["let","z",["mul","y","y"],["sub","z","a"]]]', 3), PAIRS, LETS),
    *((header(TWO, nested(it, '["sub","b",*]'), 3), PAIRS, LEVELS[it]) for it in LEVELS),
]
# Dims that no tensor with these values has.
NO_DIMS = [("[1048577]", []), ("[]", []), ("[]", [5, 6]), ("1", [5]), ("[-1]", []), ('["1"]', [5])]
NO_DIMS += [("[4294967296,4294967296]", []), ("[1,1,1,1,1,1,1,1048577]", [])]
NO_DIMS += [("[0,18446744073709551615,2]", [])]
OWN += [(header(f'"a":{{"dims":{it}}}', '"a"', 2), values, BAD_TENSOR) for it, values in NO_DIMS]
OWN += [(header(f'"a":{{"dims":{it}}}', '"c"'), values, BAD_TENSOR) for it, values in NO_DIMS]
LINE, SQUARE, ONE, LONG = [1_048_576], [1_024, 1_024], [1], [2_097_153]
# Frames of many values whose parts share none: an expression, how many values its answer has, how
# many of an operand are packed, and the dims of `a` and of `b`.
LARGE = [
    ('["add","a","b"]', 1_048_576, 0, LINE, LINE),
    ('["cwise_max",["mul",["add","a","b"],["sub","a","b"]],["neg","a"]]', 1_048_576, 0, LINE, LINE),
    ('["select",["lt","a","b"],"a","b"]', 1_048_576, 0, LINE, LINE),
    ('["sum","a",[0]]', 1, 0, LINE, ONE),
    ('["sum","a",[0]]', 1_024, 0, SQUARE, ONE),
    ('["sum","a",[0]]', 8_388_608, 0, [2, 8_388_608], ONE),
    ('["shuffle","a",[2,0,1]]', 1_048_576, 0, [64, 128, 128], ONE),
    ('["contract","a","b",[[1,0]]]', 262_144, 262_144, [512, 512], [512, 512]),
    ('["convolve","a","b",[0,1]]', 1_009 * 1_009, 0, SQUARE, [16, 16]),
    ('["bit_xor",["reverse","a",[true]],"b"]', 2_097_153, 0, LONG, LONG),
]


def frame_of(text):
    """The header and the values of a text. Where no frame says the text, it is the header itself,
    and has its fault."""
    try:
        [(head, values)], _ = parts(framed(text.encode()))
    except NoFrame:
        return text, []
    return head.decode(), values


def frames_of_cases():
    """Frames of the texts of the case files, with their answers."""
    for path in [*PATHS, VERSION_3]:
        for text, line in cases_of(path):
            if path == VERSION_3 or not is_frames_own(text.encode()):
                yield (*frame_of(text), line)


def drawn_frames(count):
    """Frames of drawn texts, every second of which is spoilt a little, as the reference answers."""
    for number in range(count):
        source = random.Random(f"library {number}")
        asked = grammar.request(source, FRAME_VERSIONS)
        if number % 2:
            asked = spoiling.nearly(source, asked)
        text = spoiling.written(source, asked)
        answer = reference.answer(text, MOST_PLACES, FRAME_VERSIONS)
        try:
            [(head, values)], _ = parts(framed(text))
        except NoFrame:
            continue
        if answer is not None:
            yield head.decode(), values, answer[0].decode().rstrip("\n")


def large_frame(expr, dims):
    """A header, and values for it: some thousand drawn ones, again and again."""
    inputs = ",".join(f'"{name}":{{"dims":{it}}}' for name, it in zip("ab", dims))
    count, source = sum(map(math.prod, dims)), random.Random(expr)
    drawn = [source.randint(LEAST, GREATEST) for _ in range(1_009)]
    values = (drawn * (count // len(drawn) + 1))[:count]
    return header(inputs, expr, 3 if count > 2 * math.prod(LINE) else 2), values, ""


def lengths_of(text, values):
    """How many values each tensor of a frame has, in the order of the names, if they are known."""
    try:
        inputs = json.loads(text)["inputs"]
        in_order = sorted(inputs, key=lambda name: name.encode())
        lengths = [math.prod(inputs[name]["dims"]) for name in in_order]
    except (ValueError, KeyError, TypeError, OverflowError, RecursionError):
        return None
    is_known = all(isinstance(it, int) and 0 <= it for it in lengths)
    return lengths if is_known and sum(lengths) == len(values) else None


def written_to(path, frames):
    """Writes frames, and beside them how long the arrays of each are, if that is known, and how
    many values the parts of its answer share. Returns the path."""
    with open(path, "wb") as file, open(f"{path}.arrays", "wb") as beside:
        for text, values, line in frames:
            file.write(frame(text.encode(), values))
            lengths = lengths_of(text, values)
            shared = 0 if line.startswith("error ") else sharing.shared(text)
            numbers = [NO_ARRAYS if lengths is None else len(lengths), shared, *(lengths or [])]
            beside.write(struct.pack(f"<{len(numbers)}Q", *numbers))
    return path


@pytest.fixture(scope="session")
def room(tmp_path_factory):
    return tmp_path_factory.mktemp("library")


@pytest.fixture(scope="session")
def frames(pytestconfig):
    """All frames, each as its header, its values, and the line that answers."""
    drawn = drawn_frames(pytestconfig.getoption("--count") or DRAWN)
    return [*OWN, *frames_of_cases(), *drawn]


@pytest.fixture(scope="session")
def path(room, frames):
    """The file of all frames."""
    return written_to(room / "frames", frames)


@pytest.fixture(scope="session")
def few(frames):
    """Some frames of few bytes."""
    return [it for it in frames if len(it[0]) + 8 * len(it[1]) <= FEW_BYTES][::EVERY]


def assert_answers(got, frames):
    lines = got.split("\n")[:-1]
    assert len(lines) == len(frames)
    for line, (text, _, wanted) in zip(lines, frames):
        assert line.replace(", ", ",") == wanted, f"{text:.200}"


def test_python(frames):
    library = Library()
    assert_answers("".join(library.line(*it[:2]) + "\n" for it in frames), frames)


@pytest.fixture(scope="session")
def compiled(compiler, room):
    """Compiles a program in C against the library, and returns its path."""

    def compile_one(source, name, *words):
        warnings = ["-O1", "-g", "-Wall", "-Wextra", "-Werror"]
        output(compiler, *warnings, f"-I{TOP}/include", source, ARCHIVE, "-o", room / name, *words)
        return room / name

    return compile_one


@pytest.fixture(scope="session")
def caller(compiled):
    """The caller in C."""
    return compiled(f"{SUPPORT}/library.c", "caller", WRAPPED, "-pthread")


def test_c(caller, path, frames):
    assert_answers(output(caller, path), frames)


def test_c_example(compiled):
    example = compiled(f"{TOP}/examples/c/add.c", "add")
    assert output(example) == "11 22 33 of dims 3\nfault 8 UnknownInput\n"


@pytest.mark.timed
def test_c_on_threads(caller, room, frames):
    """The answers to each third frame on several threads at once, after which there is no more memory."""
    path = written_to(room / "third", frames[::3])
    more = re.search(r"(-?\d+) KiB more", output(caller, path, THREADS, PASSES))
    assert int(more[1]) <= MOST_KIB_MORE


def test_c_without_memory(caller, room, few):
    """Each request for memory is refused in turn."""
    got = output(caller, written_to(room / "few", few), "refuse")
    assert int(re.search(r"(\d+) requests for memory refused", got)[1])


def test_c_peaks(caller, room):
    """How many bytes the library holds for a large answer: little for a part, and the values more
    for a whole one."""
    path = written_to(room / "large", [large_frame(expr, dims) for expr, _, _, *dims in LARGE])
    lines = output(caller, path, "peaks").split("\n")[:-1]
    assert len(lines) == len(LARGE)
    for line, (expr, count, packed, *_) in zip(lines, LARGE):
        whole, *by_parts = map(int, line.split())
        most = MOST_BESIDE + 8 * packed
        assert whole <= 8 * count + most and max(by_parts) <= most, f"{expr}: {line}"


# Expressions over vectors of two values, by what is deep in them. No text nests deeper.
DEEP = {
    "one operation": '["add","a","b"]',
    "an operation on values": nested(126, '["neg",*]'),
    "the first of two operands": nested(126, '["add",*,"b"]'),
    "the last of three operands": nested(126, '["select","a","b",*]'),
    "a movement": nested(125, '["reverse",*,[true]]'),
    "a convolution": nested(124, '["convolve",*,["slice","b",[0],[1]],[0]]'),
    "what a let names": f'["let","y",{nested(125, """["neg",*]""")},["mul","y","y"]]',
    "lets": "".join(f'["let","y{it}",["neg","a"],' for it in range(125)) + '"b"' + "]" * 125,
}


@pytest.mark.parametrize("expr", DEEP.values(), ids=DEEP)
def test_c_stack(compiled, expr):
    """Each call takes less than TENSOR_STACK, with a margin, on a thread whose stack is painted."""
    program = compiled(f"{SUPPORT}/stack.c", "stack", "-pthread")
    lines = output(program, header(TWO, expr, 3), 2, 2).split("\n")[:-1]
    (_, _, stack), *calls = (it.split() for it in lines)
    most = int(stack) * (OF_ONE if expr == DEEP["one operation"] else OF_DEEP)
    for name, result, taken in calls:
        assert int(result) >= 0 and 0 < int(taken) <= most, f"{name}: {result}, {taken}"


def test_c_under_valgrind(caller, room, few):
    if not shutil.which("valgrind"):
        pytest.skip("no valgrind (Debian's valgrind)")
    words = ["valgrind", "-q", "--error-exitcode=9", "--leak-check=full"]
    words += ["--errors-for-leak-kinds=definite", caller]
    assert_answers(output(*words, written_to(room / "for valgrind", few)), few)


def test_rust(rust, path, frames):
    assert_answers(output(rust / "frames", path), frames)
