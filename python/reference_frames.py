#!/usr/bin/env python3
"""Answers frames by docs/FRAMES.md, with the plain reference of tests/fuzzing, which shares nothing with
the programs. It runs as a program between standard input and standard output, or in place of the
library's functions.

Arguments of the client are checked by include/tensor.h. A client that passes a wrong pointer or length
fails here, while the library wouldn't notice it.
"""

import ctypes
import functools
import json
import os
import struct
import sys

TOP = os.path.normpath(os.path.join(os.path.dirname(os.path.realpath(__file__)), ".."))
sys.path.insert(0, os.path.join(TOP, "tests"))
sys.dont_write_bytecode = True
# The reference evaluates an expression by recursion.
sys.setrecursionlimit(max(20_000, sys.getrecursionlimit()))

from fuzzing import reference, sharing
from fuzzing.operations import size
from fuzzing.rules import FAULTS, FRAME_VERSIONS, is_list_of, is_size

SIZES = struct.Struct("<QQ")
MOST, MOST_PLACES = 16_777_216, 10_000_000
TOO_LONG, NO_ROOM = b"error 1 TooLong", -100
# The first number of the reference's plans, and the address of its pool.
PLAN, POOL = 67, 64
# The version as one number: 3002001 for 3.2.1.
with open(os.path.join(TOP, "VERSION"), encoding="ascii") as file:
    VERSION = int("".join(it.zfill(3) for it in file.read().strip().split(".")))


def numbers_of(data):
    return list(struct.unpack(f"<{len(data) // 8}q", data))


def filled(fields, values):
    """Returns a header's JSON value with the values after it as `data`. If the inputs don't fit the
    values, it has no inputs."""
    if not isinstance(fields, dict) or not isinstance(fields.get("inputs"), dict):
        return fields
    begin, inputs = 0, fields["inputs"]
    for name in sorted(inputs, key=str.encode):
        it = inputs[name]
        if not isinstance(it, dict) or it.keys() != {"dims"} or not is_list_of(it["dims"], is_size):
            return {**fields, "inputs": None}
        end = begin + size(it["dims"])
        it["data"], begin = values[begin:end], end
    return fields if begin == len(values) else {**fields, "inputs": None}


def answered(header, values):
    """Returns the header and the values of the answer to a frame."""
    if len(header) > MOST or len(values) > reference.values_limit(header):
        return TOO_LONG, []
    line, _ = reference.line_of(
        lambda: reference.asked(filled(reference.parse(header), values), FRAME_VERSIONS),
        MOST_PLACES,
    )
    line = line.rstrip(b"\n")
    if line.startswith(b"error "):
        return line, []
    found = json.loads(line)
    return json.dumps({"dims": found["dims"]}, separators=(",", ":")).encode(), found["data"]


def fault_number(header):
    return int(header.split()[1]) if header.startswith(b"error ") else None


class Functions:
    """The library's functions, with the library's own arguments."""

    def __init__(self):
        pointer, length, number = ctypes.c_void_p, ctypes.c_size_t, ctypes.c_int64
        evaluate = ctypes.CFUNCTYPE(number, *[pointer, length] * 4)
        place = ctypes.c_uint64
        arrays = ctypes.CFUNCTYPE(number, *[pointer, length] * 2, place, pointer, length)
        dims = ctypes.CFUNCTYPE(number, pointer, length, place, pointer, length)
        name = ctypes.CFUNCTYPE(number, ctypes.c_uint32, pointer, length)
        self.tensor_evaluate = evaluate(self.evaluate)
        self.tensor_evaluate_arrays = arrays(self.evaluate_arrays)
        self.tensor_shared = ctypes.CFUNCTYPE(number, *[pointer, length] * 2)(self.shared)
        self.tensor_dims = dims(self.dims)
        over = ctypes.CFUNCTYPE(number, *[pointer, length] * 3)
        self.tensor_dims_of_arrays = over(self.dims_of_arrays)
        self.tensor_prepare = dims(self.prepare)
        self.tensor_run = arrays(self.run)
        self.tensor_explain = dims(self.explain)
        self.tensor_fault_name = name(self.fault_name)
        self.tensor_version = ctypes.CFUNCTYPE(number)(lambda: VERSION)
        of_pool = ctypes.CFUNCTYPE(
            number, pointer, *[pointer, length] * 2, place, pointer, length, length
        )
        self.tensor_pool_open = ctypes.CFUNCTYPE(pointer, length)(lambda workers: POOL)
        self.tensor_pool_run = of_pool(functools.partial(self.in_parts, self.run))
        self.tensor_pool_evaluate_arrays = of_pool(functools.partial(self.in_parts, self.evaluate_arrays))
        self.tensor_pool_close = ctypes.CFUNCTYPE(None, pointer)(lambda pool: None)
        # The wrong arguments, and the number of calls for dims alone.
        self.owed, self.asked_dims = [], 0

    def owe(self, read, written):
        """Notes wrong arguments: pointers that are null or not aligned, and memory for results that
        overlaps other memory."""
        for place, count, width in (*read, *written):
            if not place or place % width:
                self.owed.append(f"a pointer {place} to {count} of {width} bytes")
        spans = [range(place, place + count * width) for place, count, width in (*written, *read)]
        for at, it in enumerate(spans[: len(written)]):
            for other in spans[at + 1 :]:
                if max(it.start, other.start) < min(it.stop, other.stop):
                    self.owed.append(f"{it} overlaps {other}")

    def evaluate(self, header, length, values, count, out, room, dims, dims_room):
        self.owe([(header, length, 1), (values, count, 8)], [(out, room, 8), (dims, dims_room, 8)])
        given = numbers_of(ctypes.string_at(values, 8 * count))
        text, found = answered(ctypes.string_at(header, length), given)
        if fault_number(text):
            return -fault_number(text)
        sizes = json.loads(text)["dims"]
        if len(found) > room or len(sizes) >= dims_room:
            return NO_ROOM
        ctypes.memmove(out, struct.pack(f"<{len(found)}q", *found), 8 * len(found))
        self.write_dims(dims, sizes)
        return len(found)

    def answered_over(self, header, length, arrays, count, written):
        """Returns the header and the values of the answer over arrays."""
        held = list(struct.iter_unpack("<QQ", ctypes.string_at(arrays, 16 * count)))
        read = [(header, length, 1), (arrays, 2 * count, 8), *((*it, 8) for it in held)]
        self.owe(read, written)
        given = [numbers_of(ctypes.string_at(place, 8 * size)) for place, size in held]
        return answered(ctypes.string_at(header, length), sum(given, []))

    def shared(self, header, length, arrays, count):
        text, _ = self.answered_over(header, length, arrays, count, [])
        if fault_number(text):
            return -fault_number(text)
        return sharing.shared(ctypes.string_at(header, length))

    def evaluate_arrays(self, header, length, arrays, count, first, out, room):
        text, found = self.answered_over(header, length, arrays, count, [(out, room, 8)])
        if fault_number(text):
            return -fault_number(text)
        part = found[first : first + room]
        ctypes.memmove(out, struct.pack(f"<{len(part)}q", *part), 8 * len(part))
        return len(part)

    def in_parts(self, call, pool, text, length, arrays, count, first, out, room, parts):
        """Does what a call of a pool does, by one call for each part."""
        if pool != (POOL if parts > 1 else None) or not parts:
            self.owed.append(f"the pool of {parts} parts")
        ends = [room * it // max(parts, 1) for it in range(max(parts, 1) + 1)]
        found = [
            call(text, length, arrays, count, first + it, out + 8 * it, end - it)
            for it, end in zip(ends, ends[1:])
        ]
        return min(found) if min(found) < 0 else sum(found)

    def prepare(self, header, length, count, plan, plan_room):
        """Writes a plan: a mark, the header's length and its bytes, with a number for each."""
        self.owe([(header, length, 1)], [(plan, plan_room, 8)])
        text = ctypes.string_at(header, length)
        found, _ = answered(text, [0] * count)
        if fault_number(found):
            return -fault_number(found)
        numbers = [PLAN, *text]
        if len(numbers) > plan_room:
            return NO_ROOM
        ctypes.memmove(plan, struct.pack(f"<{len(numbers)}Q", *numbers), 8 * len(numbers))
        return len(numbers)

    def run(self, plan, length, arrays, count, first, out, room):
        mark, *text = struct.unpack(f"<{length}Q", ctypes.string_at(plan, 8 * length))
        if mark != PLAN:
            self.owed.append("a plan")
        header = ctypes.create_string_buffer(bytes(text), len(text))
        place = ctypes.addressof(header)
        return self.evaluate_arrays(place, len(text), arrays, count, first, out, room)

    def dims(self, header, length, count, dims, dims_room):
        self.asked_dims += 1
        self.owe([(header, length, 1)], [(dims, dims_room, 8)])
        text, found = answered(ctypes.string_at(header, length), [0] * count)
        if fault_number(text):
            return -fault_number(text)
        self.write_dims(dims, json.loads(text)["dims"])
        return len(found)

    def dims_of_arrays(self, header, length, arrays, count, dims, dims_room):
        self.asked_dims += 1
        text, found = self.answered_over(header, length, arrays, count, [(dims, dims_room, 8)])
        if fault_number(text):
            return -fault_number(text)
        self.write_dims(dims, json.loads(text)["dims"])
        return len(found)

    def write_dims(self, dims, sizes):
        ranked = struct.pack(f"<{len(sizes) + 1}Q", len(sizes), *sizes)
        ctypes.memmove(dims, ranked, len(ranked))

    def explain(self, header, length, count, text, room):
        """Writes the line of a fault, without a place and a reason."""
        self.owe([(header, length, 1)], [(text, room, 1)])
        found, _ = answered(ctypes.string_at(header, length), [0] * count)
        said = (found if fault_number(found) else b"no fault") + b"\n\0"
        if len(said) > room:
            return NO_ROOM
        ctypes.memmove(text, said, len(said))
        return len(said) - 1

    def fault_name(self, number, name, room):
        self.owe([], [(name, room, 1)])
        text = FAULTS.get(number, "").encode()
        ctypes.memmove(name, text + b"\0", len(text) + 1)
        return len(text)


def main():
    """Runs as the program of frames."""
    source, sink = sys.stdin.buffer, sys.stdout.buffer
    while True:
        sizes = source.read(SIZES.size)
        if len(sizes) < SIZES.size:
            return 1 if sizes else 0
        length, count = SIZES.unpack(sizes)
        header, values = source.read(length), source.read(8 * count)
        if len(header) < length or len(values) < 8 * count:
            return 1
        text, found = answered(header, numbers_of(values))
        sink.write(SIZES.pack(len(text), len(found)) + text)
        sink.write(struct.pack(f"<{len(found)}q", *found))
        sink.flush()


if __name__ == "__main__":
    sys.exit(main())
