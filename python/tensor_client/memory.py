"""Values as they lie in memory, 8 bytes each, as frames and the library take them.

Memory is a memoryview of an array of numpy or of bytes. A few values are a list, which costs less.
"""

from __future__ import annotations

import ctypes
import struct
from array import array as packed
from functools import lru_cache
from typing import Any, Iterable, List, Sequence, Tuple, Union

from .values import GREATEST, LEAST, numpy, whole

VALUE = 8
INT64 = None if numpy is None else numpy.dtype(numpy.int64)
# An answer of at most FEW values is a list, which costs less than new memory. From LARGE values on, new
# memory is numpy's, if numpy is installed, which doesn't clear it.
FEW, LARGE = 16, 4096

Held = Union[List[int], memoryview]
Bytes = Union[bytes, memoryview]


def memory_for(count: int) -> memoryview:
    """Returns new memory for this many values."""
    if numpy is not None and count >= LARGE:
        return numpy.empty(count, dtype=numpy.int64).data
    return memoryview(bytearray(VALUE * count)).cast("q")


def memory_of(values: Bytes) -> memoryview:
    """Returns new memory with these bytes of values.

    >>> memory_of(bytes([5, 0, 0, 0, 0, 0, 0, 0])).tolist()
    [5]
    """
    return memoryview(bytearray(values)).cast("q")


def memory_of_array(array: Any) -> Tuple[memoryview, bool]:
    """Returns the memory of an array, and whether its values lie there in C order, the last axis
    fastest. It is the array's own if it has int64 in C or Fortran order without gaps. Otherwise it is a
    copy in column-major order."""
    flags = array.flags
    lies = array.dtype == INT64 and flags.aligned
    if lies and flags.c_contiguous and not flags.f_contiguous:
        return array.reshape(-1).data, True
    if not (lies and flags.f_contiguous):
        array = numpy.array(array, dtype=INT64, order="F")
    return (array if array.ndim == 1 else array.reshape(-1, order="F")).data, False


def columns_of(memory: memoryview, dims: Sequence[int]) -> memoryview:
    """Returns new memory with values in column-major order, given values in C order."""
    found: memoryview = numpy.asarray(memory).reshape(dims).reshape(-1, order="F").data
    return found


def memory_of_range(values: range) -> memoryview:
    """Returns new memory with the values of a range. Raises OverflowError outside the range of i64.

    >>> memory_of_range(range(3)).tolist()
    [0, 1, 2]
    """
    for end in (*values[:1], *values[-1:]):
        whole(end)
    if numpy is not None and LEAST <= values.step <= GREATEST:
        return (numpy.arange(len(values), dtype=numpy.int64) * values.step + values.start).data
    return memoryview(packed("q", values))


def as_memory(held: Held) -> Bytes:
    """Returns the memory of values. A list of values is copied."""
    return packed_bytes(held) if isinstance(held, list) else held


def parts_of(held: List[Held], size: int) -> List[Bytes]:
    """Returns the memory of all values, `size` in number, part by part. It is copied for lists, and for
    several tensors with few values together."""
    parts = [as_memory(it) for it in held]
    return [b"".join(parts)] if size < LARGE and len(parts) > 1 else parts


@lru_cache(maxsize=100)
def numbers(count: int) -> struct.Struct:
    """Returns the format of this many values as bytes."""
    return struct.Struct(f"<{count}q")


def packed_bytes(values: List[int]) -> bytes:
    return numbers(len(values)).pack(*values)


def place_of(memory: Bytes) -> int:
    """Returns the address of memory, which has to be kept as long as the address is used. The address is
    never null, even for empty memory."""
    if isinstance(memory, memoryview) and memory:
        if memory.readonly:
            place: int = numpy.asarray(memory).__array_interface__["data"][0]
            return place
        return ctypes.addressof(ctypes.c_char.from_buffer(memory))
    begin = ctypes.c_char_p(memory if isinstance(memory, bytes) else b"")
    return ctypes.c_void_p.from_buffer(begin).value or 0


def overlaps(memory: memoryview, others: Iterable[Tuple[int, int]]) -> bool:
    """Whether a memory has a byte in common with one of others, each an address and a number of values."""
    begin = place_of(memory)
    end = begin + memory.nbytes
    return any(begin < at + VALUE * count and at < end for at, count in others)
