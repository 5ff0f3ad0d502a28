"""What ends a connection to a service by socat, and what makes one wait. The table of docs/SERVE.md has
a row for each, which names the test here. Each runs on a Unix socket, and where it can on TCP.

Clients are silent, read nothing, are gone, send a byte now and then, ask what takes too long or too many
seconds of a processor, or are fifty at once. Where it can be seen, such a client goes on without the
limit. A new limit is a test, and a row of the table.
"""

import contextlib
import select
import socket
import struct
import subprocess
import time

import pytest

from hostile import READ_FAULT, SECONDS, WRITE_FAULT, kib
from servers import FRAMES, LINES, SERVERS, most
from sockets import LISTS, Client, Seen, Setup, endless, no_request, served, small, until, wide

pytestmark = pytest.mark.usefixtures("programs")

# After how many seconds a connection ends here, and how often a slow client sends a byte.
WAIT, OFTEN = 1, 0.3
# How many clients come at once, and how many of them are answered at a time.
CLIENTS, PLACES = 50, 8
# How many KiB more a process may take for a request that is too long.
MOST_KIB_MORE = 512
# socat between the client and the program; and the connection itself, on which a read or a write fails.
BETWEEN = Setup(own=("-t", str(WAIT), "-T", str(WAIT)))
LIMIT = struct.pack("@qq", WAIT, 0).hex()
ITSELF = Setup(
    listening=tuple(
        f"sockopt-bin={socket.SOL_SOCKET}:{it}:x{LIMIT}" for it in (socket.SO_RCVTIMEO, socket.SO_SNDTIMEO)
    )
)

each_address = pytest.mark.parametrize("at", [(LINES, False), (FRAMES, True)], ids=["lines", "frames"])
each_way = pytest.mark.parametrize(
    "setup, unread, unwritten",
    [(BETWEEN, [], []), (ITSELF, [READ_FAULT], [WRITE_FAULT])],
    ids=["between", "itself"],
)


def seconds_to_the_end(client):
    """How many seconds pass until a connection ends, on which nothing comes."""
    begun = time.monotonic()
    assert client.read(1) == b""
    return time.monotonic() - begun


def read_nothing(client):
    """Asks for long answers until no more can be sent, and reads none."""
    given = wide(client.server) * 100
    client.socket.setblocking(False)
    with contextlib.suppress(BlockingIOError):
        while True:
            client.socket.sendall(given)


def is_over(client):
    """Whether the service has ended a connection, of which nothing is read."""
    seen = select.poll()
    seen.register(client.socket, 0)
    return bool(seen.poll(0))


@each_address
@each_way
def test_silent(at, setup, unread, unwritten):
    with served(at, setup=setup) as service:
        whole, _ = small(service.server)
        for begun in b"", whole[:-1]:
            client = Client(service)
            client.ask_a_little()
            client.socket.sendall(begun)
            assert WAIT * 0.9 <= seconds_to_the_end(client)
        assert until(service.is_idle)
        assert service.logged() == unread * 2


@each_address
@each_way
def test_reads_nothing(at, setup, unread, unwritten):
    with served(at, setup=setup) as service:
        client = Client(service)
        read_nothing(client)
        assert until(lambda: is_over(client))
        assert until(service.is_idle)
        assert service.logged() == unwritten


@each_address
def test_nothing_else_ends_one(at):
    with served(at) as service:
        silent, unread = Client(service), Client(service)
        read_nothing(unread)
        time.sleep(2 * WAIT)
        assert len(service.processes()) == 2
        silent.ask_a_little()


@each_address
def test_gone(at):
    """A client asks and closes. Where socat stands between, its request isn't computed any more."""
    for setup, is_ended in (BETWEEN, True), (Setup(), False):
        with served(at, setup=setup) as service:
            client = Client(service)
            client.socket.sendall(endless(service.server))
            assert until(lambda: len(service.processes()) == 1 + bool(setup.own))
            client.socket.close()
            assert until(service.is_idle, SECONDS if is_ended else 3 * WAIT) == is_ended


@each_address
def test_gone_by_seconds(at):
    """A client asks and closes, and socat does not stand between: its request is computed until its
    seconds have passed."""
    for options, is_ended in (most(seconds=WAIT), True), ((), False):
        with served(at, options) as service:
            client = Client(service)
            client.socket.sendall(endless(service.server))
            assert until(lambda: len(service.processes()) == 1)
            client.socket.close()
            assert until(service.is_idle, SECONDS if is_ended else 3 * WAIT) == is_ended


@each_address
def test_too_many_seconds(at):
    """A request is answered once its seconds have passed, and so is the next one."""
    server, _ = at
    with served(at, most(seconds=WAIT)) as service:
        client = Client(service)
        client.ask(endless(server), server.answer("error 21 TooManySeconds\n"))
        client.ask_a_little()


@each_address
def test_computed_too_long(at):
    with served(at, setup=BETWEEN) as service:
        client = Client(service)
        client.socket.sendall(endless(service.server))
        assert WAIT * 0.9 <= seconds_to_the_end(client)
        assert until(service.is_idle)


@each_address
def test_sends_slowly(at):
    """A byte now and then keeps a connection, but for `timeout` before the program."""
    for before, is_ended in (("timeout", str(2 * WAIT)), True), ((), False):
        with served(at, setup=BETWEEN._replace(before=before)) as service:
            assert drip(Client(service), 4 * WAIT) == is_ended


def drip(client, seconds):
    """Sends a request a byte at a time, and returns whether the connection ended meanwhile."""
    given, _ = small(client.server)
    client.socket.settimeout(OFTEN)
    for at in range(int(seconds / OFTEN)):
        try:
            client.socket.sendall(given[at : at + 1])
            assert client.read(1) == b""
            return True
        except socket.timeout:
            pass
        except ConnectionError:
            return True
    return False


@each_address
def test_too_many_bytes(at):
    """What is too long is passed over, and takes no memory."""
    server, _ = at
    given, _ = small(server)
    with served(at, most(bytes=len(given))) as service:
        client = Seen(service)
        client.ask_a_little()
        before = kib(client.process, "VmHWM")
        client.ask(no_request(server, LISTS), server.answer("error 1 TooLong\n"))
        assert kib(client.process, "VmHWM") <= before + MOST_KIB_MORE
        client.ask_a_little()


@each_address
def test_processor_seconds(at):
    with served(at, setup=Setup(before=("prlimit", f"--cpu={WAIT}"))) as service:
        client = Client(service)
        client.ask_a_little()
        client.socket.sendall(endless(service.server))
        assert client.read(1) == b""
        assert until(service.is_idle)


@pytest.mark.parametrize("server", SERVERS, ids=repr)
def test_many_at_once(server):
    """As many connections as clients come wait, and each is answered in its turn."""
    few, many = Setup(listening=(f"max-children={PLACES}",)), f"backlog={CLIENTS}"
    with served((server, False), setup=few) as service:
        assert len(connected(service)) < CLIENTS
    with served((server, False), setup=few._replace(listening=(*few.listening, many))) as service:
        clients = connected(service)
        assert len(clients) == CLIENTS
        assert until(lambda: len(service.processes()) == PLACES)
        for it in clients:
            it.ask_a_little()
            assert len(service.processes()) <= PLACES
            it.socket.close()
        assert until(service.is_idle)


def connected(service):
    """As many clients as connect at once, of those that try."""
    found = []
    for _ in range(CLIENTS):
        with contextlib.suppress(BlockingIOError):
            found.append(Client(service))
    return found


@each_address
def test_as_a_command(at):
    """socat between its own streams and a program, as a service of systemd runs it: the status is 0,
    whether nothing or a part of a request was sent."""
    server, _ = at
    given, answer = small(server)
    for begun in b"", given[:-1]:
        here, there = socket.socketpair()
        command = ["socat", *BETWEEN.own, "STDIO", f"EXEC:{server.program}"]
        with here, subprocess.Popen(command, stdin=there, stdout=there, stderr=subprocess.PIPE) as child:
            there.close()
            here.settimeout(SECONDS)
            here.sendall(given + begun)
            assert here.recv(len(answer), socket.MSG_WAITALL) == answer
            assert here.recv(1) == b""
            assert (child.wait(SECONDS), child.stderr.read()) == (0, b"")
