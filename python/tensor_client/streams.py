"""Streams to a process or a service that answers one request after another. Requests and answers are
lines, or frames."""

from __future__ import annotations

import os
import select
import struct
import time
from typing import Any, Callable, List, NamedTuple, Optional, Tuple, TypeVar

from .faults import ProgramFailed, TimedOut
from .length import MAX_TEXT
from .memory import FEW, VALUE, Bytes, Held, memory_for, memory_of, numbers, parts_of
from .requests import Framed
from .rules import MOST_ELEMENTS

Found = TypeVar("Found")
SIZES = struct.Struct("<QQ")
# The most bytes of one read, and the most parts of one write.
PIECE, PARTS = 1 << 16, 1000


class Deadline:
    """The time by which an answer has to come, or no limit."""

    def __init__(self, seconds: Optional[float]) -> None:
        self.seconds = seconds
        self.end = None if seconds is None else time.monotonic() + seconds

    def left(self) -> Optional[float]:
        """Returns how many seconds are left, 0 if the time is over, or None without a limit."""
        return None if self.end is None else max(self.end - time.monotonic(), 0)

    def lets(self, file: int, event: int) -> bool:
        """Waits until a file can be read or written. Returns False if the time is over first."""
        poll = select.poll()
        poll.register(file, event)
        left = self.left()
        return bool(poll.poll(None if left is None else left * 1000))


class Stream:
    """A stream of requests and answers. A request without an answer ends the stream, since an answer
    that came later would be taken for the next one. No request is sent twice."""

    def __init__(self, name: str, source: int, sink: int) -> None:
        # The file descriptors to read from and to write to.
        self.name, self.source, self.sink = name, source, sink
        # The number of answered requests; and the size of the current request, the bytes of it
        # that were sent, and the bytes of its answer that came.
        self.answered, self.size, self.sent, self.came = 0, 0, 0, 0
        self.is_over = False

    def __enter__(self) -> None:
        pass

    def __exit__(self, kind: Any, *_: Any) -> None:
        if kind is not None:
            self.is_over = True
            self.end()

    def end(self) -> None:
        """Ends the stream, so that nothing more is answered."""
        raise NotImplementedError

    def close(self) -> None:
        """Ends the stream and closes its files."""
        self.is_over = True
        self.end()

    def send(self, parts: List[memoryview]) -> int:
        """Writes bytes from the beginning of these parts, without waiting. Returns how many."""
        raise NotImplementedError

    def lost(self, why: str) -> str:
        """Returns the message for a stream that has ended."""
        raise NotImplementedError

    def so_far(self) -> str:
        """Returns what was answered and what was not, for a message."""
        return (
            f"answers before: {self.answered:,}; of this request {self.sent:,} of {self.size:,} "
            f"bytes were sent, and {self.came:,} bytes of its answer came"
        )

    def failed(self, why: str) -> ProgramFailed:
        return ProgramFailed(f"{self.lost(why)}; {self.so_far()}")

    def wait(self, file: int, event: int, deadline: Deadline) -> None:
        if not deadline.lets(file, event):
            other = "" if self.answered else ": does it answer in this way?"
            said = f"{self.name}: no answer in {deadline.seconds} seconds{other}"
            raise TimedOut(f"{said}; {self.so_far()}")

    def write(self, parts: List[Bytes], deadline: Deadline) -> None:
        """Writes all parts of a request, one after another."""
        # As bytes. An empty memoryview can't be cast.
        left = [memoryview(it).cast("B") for it in parts if it]
        self.size, self.sent, self.came = sum(map(len, left)), 0, 0
        if self.is_over:
            raise ProgramFailed(f"{self.name}: it was closed; {self.so_far()}")
        while left:
            try:
                sent = self.send(left[:PARTS])
            except BlockingIOError:
                self.wait(self.sink, select.POLLOUT, deadline)
                continue
            except OSError as fault:
                raise self.failed(str(fault.strerror)) from fault
            self.sent += sent
            while left and sent >= len(left[0]):
                sent -= len(left.pop(0))
            if sent:
                left[0] = left[0][sent:]

    def read(self, deadline: Deadline) -> bytes:
        """Returns the next bytes, as many as one read gives."""
        found = self.come(os.read, PIECE, deadline)
        self.note(len(found))
        return found

    def read_into(self, room: memoryview, deadline: Deadline) -> int:
        """Reads the next bytes into the beginning of `room`, and returns how many."""
        count = self.come(os.readv, [room], deadline)
        self.note(count)
        return count

    def come(self, read: Callable[[int, Any], Found], what: Any, deadline: Deadline) -> Found:
        """Returns what a read returns. It waits until the deadline, or without one in the read itself."""
        if deadline.end is not None:
            self.wait(self.source, select.POLLIN, deadline)
        try:
            return read(self.source, what)
        except OSError as fault:
            raise self.failed(str(fault.strerror)) from fault

    def note(self, count: int) -> None:
        """Counts bytes that were read. Raises ProgramFailed for none: the stream has ended."""
        if not count:
            raise self.failed("it ended")
        self.came += count


class Place(NamedTuple):
    """Memory for the values of an answer's frame, and the header that this frame has to have."""

    header: bytes
    memory: memoryview


def line_asked(stream: Stream, text: str, deadline: Deadline) -> str:
    """Sends a text, and returns the line that answers it."""
    stream.write([text.encode() + b"\n"], deadline)
    pieces: List[bytes] = []
    while not pieces or b"\n" not in pieces[-1]:
        pieces.append(stream.read(deadline))
    if not pieces[-1].endswith(b"\n") or b"\n" in pieces[-1][:-1]:
        raise ProgramFailed(f"{stream.name} answers more than a line")
    stream.answered += 1
    return b"".join(pieces).decode()


def frame_asked(
    stream: Stream, asked: Framed, deadline: Deadline, place: Optional[Place] = None
) -> Tuple[bytes, Held]:
    """Sends a frame, and returns the header and the values of the frame that answers it. The values are
    read into `place` if the answer has its header and its number of values."""
    # The first header ends in a line feed: so a program of lines answers at once, by an error.
    is_first = not stream.answered and len(asked.header) < MAX_TEXT
    header = asked.header + b"\n" * is_first
    sizes = SIZES.pack(len(header), asked.size)
    stream.write([sizes + header, *parts_of(asked.held, asked.size)], deadline)
    found = b""
    while len(found) < SIZES.size:
        found += stream.read(deadline)
    if found.startswith(b"error "):
        raise ProgramFailed(f"{stream.name} answers no frame, but lines: way='lines' asks it")
    length, count = SIZES.unpack_from(found)
    if length > MAX_TEXT or count > MOST_ELEMENTS:
        raise ProgramFailed(f"{stream.name} answers no frame: {found[:40]!r}")
    while len(found) < SIZES.size + length:
        found += stream.read(deadline)
    header, begun = found[SIZES.size :][:length], found[SIZES.size + length :]
    if len(begun) > VALUE * count:
        raise ProgramFailed(f"{stream.name} answers more than a frame")
    if place is not None and (header, count) == (place.header, len(place.memory)):
        values: Held = filled(stream, begun, place.memory, deadline)
    elif len(begun) == VALUE * count:
        values = [*numbers(count).unpack(begun)] if count <= FEW else memory_of(begun)
    else:
        values = filled(stream, begun, memory_for(count), deadline)
    stream.answered += 1
    return header, values


def filled(stream: Stream, begun: bytes, values: memoryview, deadline: Deadline) -> memoryview:
    """Fills memory with the values that come. `begun` has the bytes that were read already."""
    if not values:
        # An empty memoryview can't be cast.
        return values
    room = values.cast("B")
    room[: len(begun)] = begun
    room = room[len(begun) :]
    while room:
        room = room[stream.read_into(room, deadline) :]
    return values
