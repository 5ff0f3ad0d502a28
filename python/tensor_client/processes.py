"""What answers requests: a process for one request, a process that stays open, or a connection to a
service. The last two answer one request after another."""

from __future__ import annotations

import os
import socket
import subprocess
import time
from typing import Any, List, Optional, Tuple

from .faults import ProgramFailed, TimedOut
from .finding import environment
from .requests import fault_of
from .streams import Deadline, Stream

# The seconds before another try to connect, if the queue of a Unix socket is full.
PAUSE = 0.01


def answered_once(path: str, text: str, seconds: Optional[float]) -> str:
    """Returns the line that a program of one request answers. Raises ProgramFailed and TimedOut."""
    try:
        ended = subprocess.run(
            [path], input=text.encode(), capture_output=True, env=environment(), check=False,
            timeout=seconds,
        )
    except OSError as fault:
        raise ProgramFailed(f"{path}: {fault.strerror}") from fault
    except subprocess.TimeoutExpired as fault:
        raise TimedOut(f"{path}: no answer in {seconds} seconds") from fault
    line, complaint = ended.stdout.decode(), ended.stderr.decode(errors="replace").strip()
    # ./run may write a line about the release before it.
    stream = fault_of(complaint.rpartition("\n")[2])
    if stream:
        raise stream
    if ended.returncode not in (0, 1) or not line.endswith("\n"):
        raise ProgramFailed(f"{path} ended with status {ended.returncode}: {complaint}")
    return line


class Process(Stream):
    """A program that stays open."""

    def __init__(self, path: str) -> None:
        try:
            self.child = subprocess.Popen(
                [path], stdin=subprocess.PIPE, stdout=subprocess.PIPE, stderr=subprocess.PIPE,
                env=environment(), bufsize=0,
            )
        except OSError as fault:
            raise ProgramFailed(f"{path}: {fault.strerror}") from fault
        child = self.child
        assert child.stdin and child.stdout and child.stderr
        self.streams, self.stderr = (child.stdin, child.stdout, child.stderr), child.stderr
        super().__init__(path, child.stdout.fileno(), child.stdin.fileno())
        # A write to a full pipe returns at once, so that it waits only until the deadline.
        os.set_blocking(self.sink, False)

    def end(self) -> None:
        self.child.kill()

    def close(self) -> None:
        super().close()
        for stream in self.streams:
            stream.close()
        self.child.wait()

    def send(self, parts: List[memoryview]) -> int:
        return os.writev(self.sink, parts)

    def lost(self, why: str) -> str:
        """Adds what the program has written to standard error. It doesn't wait for the end of that,
        which a program below may hold open."""
        self.child.kill()
        self.child.wait()
        os.set_blocking(self.stderr.fileno(), False)
        said = (self.stderr.read() or b"").decode(errors="replace").strip()
        return f"{self.name} has ended: {said or why}"


class Connection(Stream):
    """A connection to a service, at the path of its socket or at a host and a port."""

    def __init__(self, address: Any, deadline: Deadline) -> None:
        self.socket, name = connected(address, deadline), name_of(address)
        super().__init__(name, self.socket.fileno(), self.socket.fileno())

    def end(self) -> None:
        self.socket.close()

    def send(self, parts: List[memoryview]) -> int:
        return self.socket.sendmsg(parts, (), socket.MSG_DONTWAIT | socket.MSG_NOSIGNAL)

    def lost(self, why: str) -> str:
        return f"{self.name}: the connection is lost: {why}"


def is_path(address: Any) -> bool:
    return isinstance(address, (str, bytes, os.PathLike))


def name_of(address: Any) -> str:
    """Returns an address as messages name it.

    >>> name_of(("localhost", 7007))
    'localhost:7007'
    """
    return os.fsdecode(address) if is_path(address) else ":".join(map(str, address))


def places_of(address: Any) -> List[Tuple[int, Any]]:
    """Returns the places of an address, each with its family; a host may have several. Only the system
    limits how long the search for a host takes."""
    if is_path(address):
        return [(socket.AF_UNIX, os.fspath(address))]
    host, port = address
    found = socket.getaddrinfo(host, port, type=socket.SOCK_STREAM)
    return [(family, place) for family, _, _, _, place in found]


def connected(address: Any, deadline: Deadline) -> socket.socket:
    """Returns a socket that is connected to the first place that accepts. Raises ProgramFailed."""
    why: Optional[OSError] = None
    try:
        for family, place in places_of(address):
            try:
                return connected_to(family, place, deadline)
            except OSError as fault:
                why = fault
    except OSError as fault:
        why = fault
    if deadline.left() == 0:
        raise TimedOut(f"{name_of(address)}: no connection in {deadline.seconds} seconds") from why
    said = why.strerror if why is not None else "it is no address"
    raise ProgramFailed(f"{name_of(address)}: no connection: {said}; nothing was asked") from why


def connected_to(family: int, place: Any, deadline: Deadline) -> socket.socket:
    """Returns a socket that is connected to a place. Raises OSError."""
    made = socket.socket(family, socket.SOCK_STREAM)
    try:
        connect(made, place, deadline)
        if family != socket.AF_UNIX:
            # Otherwise the end of a request may wait until the other side acknowledges its beginning.
            made.setsockopt(socket.IPPROTO_TCP, socket.TCP_NODELAY, 1)
    except BaseException:
        made.close()
        raise
    return made


def connect(made: socket.socket, place: Any, deadline: Deadline) -> None:
    """Connects a socket, and leaves it without a timeout."""
    while True:
        made.settimeout(deadline.left())
        try:
            made.connect(place)
            break
        except BlockingIOError:
            # The queue of a Unix socket is full, or no time was left.
            if deadline.left() == 0:
                raise
            time.sleep(PAUSE)
    made.settimeout(None)
