"""A service of a program of many requests, and its clients: socat listens on a Unix socket, or on a free
port of TCP on the loopback, and starts the program for each connection, as docs/SERVE.md has it."""

import contextlib
import os
import resource
import shutil
import signal
import socket
import subprocess
import tempfile
import time
from typing import NamedTuple, Tuple

import pytest

from framing import frame
from hostile import SECONDS, kib, line_of
from hostile import request as text_of
from servers import LINES, SERVERS

PIECE = 1 << 20
# After how many seconds without a new client socat ends, also where the tests were killed.
IDLE = 600
# How many bytes of address space a process may have: what is read of the lists in LISTS takes more.
MOST_BYTES = 512_000_000
LISTS = b"[" + b"[[0]]," * 2_500_000 + b"[]]"
# How many values the answer to a short request may have.
MANY = 10_000
# A request that is computed for a minute by one worker: products of matrices, of 2^30 steps each.
SIDE, PRODUCTS = 1_024, 120
SQUARE = f'["broadcast","a",[{SIDE},{SIDE}]]'
ENDLESS = '["contract",' * PRODUCTS + SQUARE + f",{SQUARE},[[1,0]]]" * PRODUCTS


def no_request(server, data, values=()):
    """The bytes that send what is no request, and behind a frame's header these values."""
    return data + b"\n" if server is LINES else frame(data, values)


def wide(server):
    """The bytes of a request whose answer is many times as long."""
    return server.sent(text_of('"a":{"dims":[1],"data":[7]}', f'["broadcast","a",[{MANY}]]'))


def endless(server, workers=1):
    """The bytes of a request that is computed for a minute."""
    return server.sent(text_of('"a":{"dims":[1,1],"data":[7]}', ENDLESS, workers=workers, block=SIDE))


def small(server, number=5):
    """The bytes of a small request and of its answer, which no other number's has."""
    text = text_of(f'"a":{{"dims":[1],"data":[{number}]}}', '"a"')
    return server.sent(text), server.answer(line_of([number], [1]))


class Setup(NamedTuple):
    """How socat serves: options of its own, options of what listens, and the words before a program.
    With options of its own socat stands between the client and the program, and else gives the
    connection itself to the program."""

    own: Tuple[str, ...] = ()
    listening: Tuple[str, ...] = ()
    before: Tuple[str, ...] = ()


def until(is_so, seconds=SECONDS):
    """Whether something becomes so in time."""
    end = time.monotonic() + seconds
    while not is_so():
        if time.monotonic() > end:
            return False
        time.sleep(0.01)
    return True


def stat(number):
    """The state of a process, its parent and its session; Z, which has ended, also where it isn't
    there."""
    try:
        with open(f"/proc/{number}/stat", encoding="latin-1") as file:
            state, parent, _, session = file.read().rpartition(") ")[2].split()[:4]
    except OSError:
        return "Z", 0, 0
    return state, int(parent), int(session)


def is_there(number):
    return stat(number)[0] != "Z"


def limit():
    resource.setrlimit(resource.RLIMIT_AS, (MOST_BYTES, MOST_BYTES))


def free_port():
    with socket.socket() as found:
        found.bind(("127.0.0.1", 0))
        return found.getsockname()[1]


class Service:
    """socat on an address, which starts a program for each connection, in a folder."""

    def __init__(self, room, at, options=(), setup=Setup()):
        (self.server, by_tcp), self.room, self.log = at, room, os.path.join(room, "log")
        os.symlink(self.server.program, os.path.join(room, "program"))
        listen, self.address = "UNIX-LISTEN:socket", os.path.join(room, "socket")
        if by_tcp:
            self.address = "127.0.0.1", free_port()
            listen = f"TCP-LISTEN:{self.address[1]},bind=127.0.0.1,reuseaddr,nodelay"
        listen = ",".join([listen, "fork", f"accept-timeout={IDLE}", *setup.listening])
        command = " ".join([*setup.before, "./program", *options])
        with open(self.log, "wb") as log:
            self.child = subprocess.Popen(
                ["socat", *setup.own, listen, f"EXEC:{command}" + ("" if setup.own else ",nofork")],
                cwd=room,
                stdin=subprocess.DEVNULL,
                stderr=log,
                preexec_fn=limit,
                start_new_session=True,
            )

    def connect(self):
        made = socket.socket(socket.AF_INET if isinstance(self.address, tuple) else socket.AF_UNIX)
        made.settimeout(SECONDS)
        made.connect(self.address)
        return made

    def listens(self):
        """Whether a client can connect, which then asks nothing."""
        with contextlib.suppress(OSError), Seen(self).socket:
            return True
        return False

    def processes(self):
        """The processes that socat has started, and what those have, also where socat has ended. One
        that has ended counts until socat has seen it."""
        own, found = self.child.pid, set()
        for it in {int(it) for it in os.listdir("/proc") if it.isdigit()} - {own}:
            state, parent, session = stat(it)
            if session == own and (state != "Z" or parent == own):
                found.add(it)
        return found

    def is_idle(self):
        return not self.processes()

    def holds(self):
        """How many files socat has open, and how much memory."""
        number = self.child.pid
        return len(os.listdir(f"/proc/{number}/fd")), kib(number, "VmRSS")

    def logged(self):
        with open(self.log, encoding="utf-8", errors="replace") as log:
            return log.readlines()

    def end(self):
        self.child.terminate()
        return self.child.wait(SECONDS)

    def kill(self):
        """Ends socat and each process that it has started. While all places are taken socat ends only
        once one is free."""
        self.child.terminate()
        for it in self.processes():
            with contextlib.suppress(ProcessLookupError):
                os.kill(it, signal.SIGKILL)
        self.child.wait(SECONDS)


class Client:
    """A connection to a service."""

    def __init__(self, service):
        self.server, self.socket = service.server, service.connect()

    def read(self, count):
        """The given number of bytes, or fewer at the end."""
        found = bytearray()
        while len(found) < count and (more := self.socket.recv(min(count - len(found), PIECE))):
            found += more
        return bytes(found)

    def ask(self, given, answer):
        """Asks, and sees that this is the answer."""
        self.socket.sendall(given)
        got = self.read(len(answer))
        assert got == answer, f"{given!r:.200}"

    def ask_a_little(self):
        self.ask(*small(self.server))

    def end(self):
        """Sees that nothing stands behind the last answer."""
        with self.socket:
            self.socket.shutdown(socket.SHUT_WR)
            assert self.read(1) == b""


class Seen(Client):
    """A connection, and the process that answers it. Nobody else connects meanwhile."""

    def __init__(self, service):
        before = service.processes()
        super().__init__(service)
        until(lambda: service.processes() - before)
        self.process = max(service.processes() - before, default=None)


ADDRESSES = {
    f"{server.name} by {'TCP' if by_tcp else 'a Unix socket'}": (server, by_tcp)
    for server in SERVERS
    for by_tcp in (False, True)
}


@contextlib.contextmanager
def served(at, options=(), setup=Setup()):
    """A service that listens, and holds nothing of the clients that asked nothing. At the end each of
    its processes is ended."""
    if not shutil.which("socat"):
        pytest.skip("no socat (Debian's socat)")
    # The path of a socket has to be short.
    with tempfile.TemporaryDirectory(prefix="service-") as room:
        made = Service(room, at, options, setup)
        try:
            assert until(made.listens) and until(made.is_idle)
            yield made
        finally:
            made.kill()
