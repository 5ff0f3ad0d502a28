"""The library from Python, by ctypes, and functions that make its headers, lists and arrays.

A test file that imports this module is skipped where the library isn't built.
"""

import ctypes
import os

import pytest

from hostile import TOP

OUT = os.path.join(TOP, "out")
ARCHIVE, LIBRARY = os.path.join(OUT, "libtensor.a"), os.path.join(OUT, "libtensor.so")
if not os.path.exists(ARCHIVE) or not os.path.exists(LIBRARY):
    pytest.skip("the library isn't built: build/library builds it", allow_module_level=True)
# How many values a frame has at most, in the versions of texts and in version 3.
MOST, WIDEST = 16_777_216, 4_294_967_296
DIMS_ROOM, SPARE, SENTINEL = 9, 3, 77
CALLS = ("evaluate", "evaluate_part", "evaluate_arrays", "shared", "prepare", "run", "dims")
CALLS += ("dims_of_arrays", "explain", "fault_name", "version", "pool_run", "pool_evaluate_arrays")


def header(inputs, expr, version=1):
    return f'{{"version":{version},"workers":1,"block":1,"inputs":{{{inputs}}},"expr":{expr}}}'


def bytes_of(text):
    """The bytes of a text. A number stands for that many zeros."""
    if isinstance(text, int):
        return (ctypes.c_uint8 * text)()
    return (ctypes.c_uint8 * len(text.encode()))(*text.encode())


def values_of(values):
    """A list of values. A number stands for that many zeros."""
    if isinstance(values, int):
        return (ctypes.c_int64 * values)()
    return (ctypes.c_int64 * len(values))(*values)


def blank(count, kind=ctypes.c_int64):
    """A list that a call may write to."""
    return (kind * count)(*[SENTINEL] * count)


def written(values, room):
    """The content of a blank list after a call has written these values."""
    return [*values, *[SENTINEL] * (room - len(values))]


class Array(ctypes.Structure):
    """struct tensor_array of include/tensor.h."""

    _fields_ = [("values", ctypes.c_void_p), ("length", ctypes.c_size_t)]


def arrays_of(lists):
    """An array for each of these lists of values."""
    kept = [values_of(it) for it in lists]
    found = (Array * len(kept))(*[(ctypes.addressof(it), len(it)) for it in kept])
    found.kept = kept
    return found


class Library:
    """The shared library, by ctypes."""

    def __init__(self):
        self.calls = ctypes.CDLL(LIBRARY)
        for name in CALLS:
            getattr(self.calls, f"tensor_{name}").restype = ctypes.c_int64

    def call(self, name, *arguments):
        """A call, where a list stands for its pointer and length."""
        words = []
        for it in arguments:
            if isinstance(it, int):
                words.append(ctypes.c_uint64(it))
            else:
                words += [it, ctypes.c_size_t(len(it))]
        return getattr(self.calls, f"tensor_{name}")(*words)

    def name_of(self, number):
        name = blank(16, ctypes.c_uint8)
        return self.call("fault_name", number, name), bytes(name)

    def line(self, header_text, values):
        """The line of an answer. Dims are asked for first."""
        text = bytes_of(header_text)
        dims, again = (ctypes.c_uint64 * DIMS_ROOM)(), (ctypes.c_uint64 * DIMS_ROOM)()
        count = self.call("dims", text, len(values), dims)
        out = blank(max(count, 0) + SPARE)
        result = self.call("evaluate", text, values_of(values), out, again)
        if result != count or list(dims) != list(again):
            return "tensor_dims and tensor_evaluate differ"
        if list(out[max(count, 0) :]) != [SENTINEL] * SPARE:
            return "written past the result"
        if count < 0:
            length, name = self.name_of(-count)
            return f"error {-count} {name[:length].decode()}"
        data = ",".join(map(str, out[:count]))
        return f'{{"data":[{data}],"dims":[{",".join(map(str, dims[1 : 1 + dims[0]]))}]}}'
