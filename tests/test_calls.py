"""Tests of single calls of the library from Python: what each call returns, and what it writes.

The calls ask for parts of an answer, hand over arrays joined and apart, prepare and run plans, have
more values than a text may have, count the values that parts share, have lists that are too short,
explain frames, and return the version. A call that fails writes nothing. In a table a number in place of a text or of a list of
values stands for that many zeros. A new case is a row of its table.
"""

import ctypes
import mmap
import os
import resource

import pytest

from calling import MOST, SENTINEL, WIDEST, Array, Library, arrays_of, blank, bytes_of, header
from calling import values_of, written
from framing import GREATEST, LEAST
from hostile import TOP
from request_cases import explanations

NO_ROOM, NO_PLAN, TOO_LONG, BAD_TENSOR, BAD_ARITY = -100, -101, -1, -7, -9
# How many numbers the plan of an operation on two tensors has, as include/tensor.h says.
NUMBERS = 16
# How many bytes a call may take that reads no value.
MOST_BESIDE = 2**22
ENDS = [LEAST, GREATEST, -1, 1]
TWO = '"a":{"dims":[2]},"b":{"dims":[2]}'
ADD, SUB, FAULT = (header(TWO, it) for it in ('["add","a","b"]', '["sub","a","b"]', '["div"]'))
ONE = header('"a":{"dims":[2]}', '"a"')
PAIRS = [[5, 7], [2, 3]]


@pytest.fixture(scope="module")
def library():
    return Library()


def table(names, rows):
    """A parameter for each row of a table, by the row's name."""
    return pytest.mark.parametrize(names, rows.values(), ids=rows)


@table(
    "text, values, first, result, values_written",
    {
        "all": (ADD, ENDS, 0, 2, [GREATEST, LEAST]),
        "the last value": (ADD, ENDS, 1, 1, [LEAST]),
        "past the end": (ADD, ENDS, 2, 0, []),
        "far past the end": (ADD, ENDS, 2**64 - 1, 0, []),
        "a fault": (ADD, 3, 0, BAD_TENSOR, []),
        "too many values": (ADD, MOST + 1, 0, TOO_LONG, []),
        "too long a header": (MOST + 1, ENDS, 0, TOO_LONG, []),
    },
)
def test_part(library, text, values, first, result, values_written):
    out = blank(3)
    got = library.call("evaluate_part", bytes_of(text), values_of(values), first, out)
    assert (got, list(out)) == (result, written(values_written, 3))


def test_plan(library):
    plan = blank(NUMBERS + 1, ctypes.c_uint64)
    assert library.call("prepare", bytes_of(SUB), 4, plan) == NUMBERS
    assert plan[NUMBERS] == SENTINEL


@table(
    "text, values, room, result",
    {
        "a fault": (FAULT, 4, NUMBERS, BAD_ARITY),
        "too few values": (SUB, 3, NUMBERS, BAD_TENSOR),
        "too long a header": (MOST + 1, 4, NUMBERS, TOO_LONG),
        "too many values": (SUB, MOST + 1, NUMBERS, TOO_LONG),
        "the most values that can be said": (SUB, 2**64 - 1, NUMBERS, TOO_LONG),
        "little room": (SUB, 4, NUMBERS - 1, NO_ROOM),
    },
)
def test_no_plan(library, text, values, room, result):
    plan = blank(room, ctypes.c_uint64)
    assert library.call("prepare", bytes_of(text), values, plan) == result
    assert list(plan) == written([], room)


# By the arrays: the first value of the part, what the call returns, and what it writes.
OF_TWO_ARRAYS = {
    "two": (PAIRS, 0, 2, [3, 4]),
    "two from the second value on": (PAIRS, 1, 1, [4]),
    "two past the end": (PAIRS, 2**64 - 1, 0, []),
    "lengths that fit together alone": ([[5], [7, 2, 3]], 0, BAD_TENSOR, []),
    "one too few": ([[5, 7]], 0, BAD_TENSOR, []),
}


@table(
    "change, arrays, first, result, values_written",
    {
        **{name: (lambda it: it[:NUMBERS], *row) for name, row in OF_TWO_ARRAYS.items()},
        "one too many": (lambda it: it[:NUMBERS], [*PAIRS, []], 0, BAD_TENSOR, []),
        "a number behind the plan": (lambda it: it, PAIRS, 0, NO_PLAN, []),
        "a plan of no numbers": (lambda it: [], [], 0, NO_PLAN, []),
        "a plan of zeros": (lambda it: [0] * NUMBERS, PAIRS, 0, NO_PLAN, []),
    },
)
def test_run(library, change, arrays, first, result, values_written):
    plan, out = blank(NUMBERS + 1, ctypes.c_uint64), blank(3)
    library.call("prepare", bytes_of(SUB), 4, plan)
    numbers = change(plan[:])
    numbers = (ctypes.c_uint64 * len(numbers))(*numbers)
    got = library.call("run", numbers, arrays_of(arrays), first, out)
    assert (got, list(out)) == (result, written(values_written, 3))


@table(
    "text, arrays, first, result, values_written",
    {
        **{name: (SUB, *row) for name, row in OF_TWO_ARRAYS.items()},
        "one without values": (SUB, [[5, 7], []], 0, BAD_TENSOR, []),
        "one too many": (ONE, [[5, 7], []], 0, BAD_TENSOR, []),
        "none": (SUB, [], 0, BAD_TENSOR, []),
        "another fault": (FAULT, PAIRS, 0, BAD_ARITY, []),
        "too long a header": (MOST + 1, PAIRS, 0, TOO_LONG, []),
        "too many values together": (SUB, [[5, 7], MOST - 1], 0, TOO_LONG, []),
    },
)
def test_arrays(library, text, arrays, first, result, values_written):
    given, out, dims = arrays_of(arrays), blank(3), blank(3, ctypes.c_uint64)
    got = library.call("evaluate_arrays", bytes_of(text), given, first, out)
    assert (got, list(out)) == (result, written(values_written, 3))
    got = library.call("dims_of_arrays", bytes_of(text), given, dims)
    told = (2, written([1, 2], 3)) if result >= 0 else (result, written([], 3))
    assert (got, list(dims)) == told


def test_dims_of_arrays_in_little_room(library):
    dims = blank(1, ctypes.c_uint64)
    assert library.call("dims_of_arrays", bytes_of(SUB), arrays_of(PAIRS), dims) == NO_ROOM
    assert list(dims) == written([], 1)


@pytest.fixture(scope="module")
def zeros():
    """Reserved memory for one value more than there may be. It takes none: only zeros are read."""
    # MAP_NORESERVE, which Python names in some versions alone.
    flags = mmap.MAP_PRIVATE | mmap.MAP_ANONYMOUS | 0x4000
    reserved = mmap.mmap(-1, 8 * (WIDEST + 1), flags=flags)
    return ctypes.c_char.from_buffer(reserved)


MANY, LAST = '"a":{"dims":[16777217]}', '["chip","a",16777216,0]'


@table(
    "text, lengths, result",
    {
        "the sum of more": (header(MANY, '["sum","a",[0]]', 3), [MOST + 1], 1),
        "the last of more": (header(MANY, LAST, 3), [MOST + 1], 1),
        "more for another tensor": (header(TWO, '"a"', 3), [MOST, 1], BAD_TENSOR),
        "more, of version 2": (header(MANY, LAST, 2), [MOST + 1], TOO_LONG),
        "more, of two tensors of version 2": (header(TWO, '"a"', 2), [MOST, 1], TOO_LONG),
        "more, of version 4": (header(TWO, '"a"', 4), [MOST, 1], TOO_LONG),
        "as many as there may be": (header(TWO, '"a"', 3), [WIDEST, 0], BAD_TENSOR),
        "one too many": (header(TWO, '"a"', 3), [WIDEST + 1, 0], TOO_LONG),
        "one too many together": (header(TWO, '"a"', 3), [WIDEST, 1], TOO_LONG),
    },
)
def test_many_values(library, zeros, text, lengths, result):
    arrays = (Array * len(lengths))(*[(ctypes.addressof(zeros), it) for it in lengths])
    out, dims, left = blank(1), blank(1, ctypes.c_uint64), 0 if result > 0 else SENTINEL
    got = library.call("evaluate_arrays", bytes_of(text), arrays, 0, out)
    assert (got, *out) == (result, left)
    assert (library.call("dims_of_arrays", bytes_of(text), arrays, dims), *dims) == (result, left)
    if result < 0:
        assert library.call("shared", bytes_of(text), arrays) == result


THREE = '"a":{"dims":[2,3]},"b":{"dims":[2,3]},"c":{"dims":[3]}'
# How many values each part of an answer computes anew, counted by hand.
SHARED_IN_VERSION_2 = {
    '"a"': 0,
    '["neg",["add","a","b"]]': 0,
    '["shuffle",["mul","a","b"],[1,0]]': 0,
    '["sum","a",[0]]': 0,
    '["sum",["reshape","a",[6]],[0]]': 0,
    '["sum",["shuffle","a",[1,0]],[0]]': 6,
    '["sum",["neg","a"],[0]]': 6,
    '["neg",["sum","a",[0]]]': 3,
    '["neg",["sum",["neg","a"],[0]]]': 6 + 3,
    '["sum",["sum","a",[0]],[0]]': 3,
    '["sum",["reshape",["sum","a",[0]],[3,1]],[0]]': 3,
    '["sub","a",["broadcast",["reshape",["sum","a",[1]],[2,1]],[1,3]]]': 2,
    '["contract","a","c",[[1,0]]]': 0,
    '["contract",["shuffle","a",[1,0]],["reverse","c",[true]],[[0,0]]]': 0,
    '["contract",["neg","a"],"c",[[1,0]]]': 6,
    '["contract",["neg","a"],["neg","b"],[[0,0]]]': 6 + 6,
    '["contract",["shuffle",["neg","a"],[1,0]],"c",[[0,0]]]': 6,
    '["contract",["shuffle",["contract","a","b",[[0,0]]],[1,0]],"c",[[0,0]]]': 9,
    '["shuffle",["contract","a","b",[[0,0]]],[1,0]]': 9,
    '["convolve","a","c",[1]]': 0,
    '["convolve",["reverse","a",[true,false]],["neg","c"],[1]]': 6 + 3,
    '["add",["sum",["pad","a",[[0,0],[0,1]]],[1]],["sum","a",[1]]]': 8 + 2 + 2,
    '["concat",["sum","a",[0]],["maximum","b",[0]],0]': 3 + 3,
    '["select",["all","a",[0]],["sum","b",[0]],"c"]': 3 + 3,
    '["select","c",["sum",["add","a","b"],[0]],"c"]': 6 + 3,
    '["constant",["sum","a",[0]],7]': 3,
}
# Operations along an axis, and lets, all of whose values each part computes.
SHARED_IN_VERSION_3 = {
    '["cumsum","a",0]': 0,
    '["cumprod",["neg","a"],1]': 6,
    '["argmax","a",0]': 0,
    '["argmin",["reshape","a",[6]],0]': 0,
    '["take","a","c",0]': 0,
    '["take",["shuffle","a",[1,0]],["neg","c"],0]': 6 + 3,
    '["take",["cumsum","a",1],["argmax","a",0],1]': 6 + 3,
    '["neg",["cumsum","a",0]]': 6,
    '["sum",["reverse",["cumprod","a",1],[true,false]],[0]]': 6 + 6,
    '["contract",["shuffle",["take","a","c",1],[1,0]],"c",[[0,0]]]': 6,
    '["let","y",["argmin","a",0],["cumsum","y",0]]': 3,
    '["let","y",["cumsum","a",1],["take","y","c",0]]': 6,
    '["let","y",["neg","a"],["add","y","y"]]': 6,
    '["let","y",["neg","a"],["sum","y",[0]]]': 6,
    '["let","y",["neg","a"],"b"]': 6,
    '["let","y",["sum",["neg","a"],[0]],["mul","y","y"]]': 6 + 3,
    '["let","y",["sum","a",[0]],["neg",["sum",["mul","y","c"],[0]]]]': 3 + 3 + 1,
    '["let","y",["neg","a"],["let","z",["contract","y","y",[[0,0]]],["mul","z","z"]]]': 6 + 9,
    '["let","y",["neg",["sum","a",[0]]],["contract","a","y",[[1,0]]]]': 3 + 3,
}
IN_VERSIONS = {2: SHARED_IN_VERSION_2, 3: SHARED_IN_VERSION_3}


@table(
    "text, arrays, result",
    {
        **{
            expr: (header(THREE, expr, version), [6, 6, 3], count)
            for version, counts in IN_VERSIONS.items()
            for expr, count in counts.items()
        },
        "a fault": (FAULT, PAIRS, BAD_ARITY),
        "too few values": (ADD, [[5, 7], [2]], BAD_TENSOR),
        "an array too many": (ADD, [*PAIRS, []], BAD_TENSOR),
        "too long a header": (MOST + 1, PAIRS, TOO_LONG),
        "too many values": (ADD, [[5, 7], MOST - 1], TOO_LONG),
    },
)
def test_shared(library, text, arrays, result):
    assert library.call("shared", bytes_of(text), arrays_of(arrays)) == result


@pytest.mark.parametrize("room", [0, 1])
def test_little_room_for_dims(library, room):
    text, dims, out = bytes_of(ADD), blank(room, ctypes.c_uint64), blank(2)
    assert library.call("dims", text, 4, dims) == NO_ROOM
    assert library.call("evaluate", text, values_of(ENDS), out, dims) == NO_ROOM
    assert [*dims, *out] == written([], room + 2)


def test_little_room_for_values(library):
    dims, out = blank(2, ctypes.c_uint64), blank(1)
    assert library.call("evaluate", bytes_of(ADD), values_of(ENDS), out, dims) == NO_ROOM
    assert [*dims, *out] == written([], 3)


@pytest.mark.parametrize(
    "values, result", [(2**64 - 1, TOO_LONG), (MOST + 1, TOO_LONG), (MOST, BAD_TENSOR)]
)
def test_dims_of_many_values(library, values, result):
    assert library.call("dims", bytes_of(ADD), values, blank(2, ctypes.c_uint64)) == result


@pytest.fixture
def little_memory():
    """A process that can take MOST_BESIDE bytes more than it has."""
    with open("/proc/self/statm", encoding="ascii") as file:
        taken = int(file.read().split()[0]) * mmap.PAGESIZE
    before = resource.getrlimit(resource.RLIMIT_AS)
    resource.setrlimit(resource.RLIMIT_AS, (taken + MOST_BESIDE, before[1]))
    yield
    resource.setrlimit(resource.RLIMIT_AS, before)


# What is returned for the values' number: the length of the plan, or a fault; and the size of the dims.
@table(
    "values, numbers, size",
    {
        "as many as places": (2**28, 14, 2**27),
        "one too few": (2**28 - 1, BAD_TENSOR, BAD_TENSOR),
        "one too many": (2**28 + 1, BAD_TENSOR, BAD_TENSOR),
        "as many as there may be": (WIDEST, BAD_TENSOR, BAD_TENSOR),
        "more than there may be": (WIDEST + 1, TOO_LONG, TOO_LONG),
    },
)
def test_a_count_takes_no_memory(library, little_memory, values, numbers, size):
    text = bytes_of(header('"a":{"dims":[134217728]},"b":{"dims":[2,67108864]}', '["neg","a"]', 3))
    plan, dims = blank(NUMBERS + 1, ctypes.c_uint64), blank(2, ctypes.c_uint64)
    assert library.call("prepare", text, values, plan) == numbers
    assert library.call("dims", text, values, dims) == size


def test_one_value_too_many(library):
    out, dims = blank(1), blank(2, ctypes.c_uint64)
    assert library.call("evaluate", bytes_of(ADD), values_of(MOST + 1), out, dims) == TOO_LONG


def test_version(library):
    with open(os.path.join(TOP, "VERSION"), encoding="ascii") as file:
        numbers = file.read().strip().split(".")
    assert library.call("version") == int("".join(it.zfill(3) for it in numbers))


FRAMES = explanations("frame_explanations")


@pytest.mark.parametrize("asked, lines", FRAMES, ids=[lines.split(b"\n")[-1].decode() for _, lines in FRAMES])
def test_explanations(library, asked, lines):
    """The library says what ./explain says, except the steps."""
    count, text = asked.decode().split(" ", 1)
    said = b"".join(it + b"\n" for it in lines.split(b"\n") if not it.startswith(b"step "))
    room, short = blank(len(said) + 2, ctypes.c_uint8), blank(len(said), ctypes.c_uint8)
    assert library.call("explain", bytes_of(text), int(count), room) == len(said)
    assert list(room) == written([*said, 0], len(said) + 2)
    assert library.call("explain", bytes_of(text), int(count), short) == NO_ROOM
    assert list(short) == written([], len(said))


@pytest.mark.parametrize("number", [0, 16, 2**32 - 1])
def test_no_fault_has_this_number(library, number):
    assert library.name_of(number) == (0, bytes([SENTINEL] * 16))


def test_little_room_for_a_name(library):
    short = blank(13, ctypes.c_uint8)
    assert library.call("fault_name", 12, short) == NO_ROOM
    assert list(short) == written([], 13)
