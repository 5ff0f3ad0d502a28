"""Has a crowd ask at a service at once: heavy, silent, slow, departed, unreading and honest clients.

Under limits of the kinds that docs/SERVE.md gives a service each small request of an honest client is
answered, in BOUND seconds, and afterwards no process, file or memory is left over. The counterpart has no
limits: there honest clients aren't answered, and processes are left over. A client whose connection a
service ends comes again. `--crowd-seconds 60` lengthens the trial. A new kind of client is a function
over a crowd, and a word of CROWD.
"""

import collections
import concurrent.futures
import contextlib
import itertools
import socket
import time

import pytest

from hostile import NO_MEMORY, line_of
from hostile import request as text_of
from servers import FRAMES, LINES, most
from sockets import LISTS, PIECE, Client, Setup, endless, no_request, served, small, until, wide

pytestmark = [pytest.mark.usefixtures("programs"), pytest.mark.timed]

# In how many seconds a small request has to be answered, also by a service that has no place at first.
BOUND = 10
# How many connections a service has at once. Of these kinds and numbers are its clients: silent ones
# alone would take all places.
PLACES = 16
# How many seconds may pass without a byte, and how many a connection has; a slow client's next byte comes
# sooner, and each look whether the trial is over.
IDLE, WHOLE, SLOW, LOOK = 2, 5, 1, 0.1
# How many steps a request may have, and the request that has as many: PRODUCTS products of matrices, each
# of which is broadcast, and the sum of the last. A step is a product, a value of a matrix or of a product,
# a value that the sum adds, or the sum.
SIDE, PRODUCTS = 256, 4
STEPS = PRODUCTS * SIDE**3 + (2 * PRODUCTS + 2) * SIDE**2 + 1
MOST_KIB_MORE = 512

PLACED = Setup(listening=("backlog=128", f"max-children={PLACES}"))
LIMITED = PLACED._replace(own=("-t", str(IDLE), "-T", str(IDLE)), before=("timeout", str(WHOLE)))
OPTIONS = most(workers=2, steps=STEPS)


class Over(Exception):
    """The time of the crowd is over."""


class Crowd:
    """A service, until when its clients come, and how many seconds honest requests took, by their kind."""

    def __init__(self, service, seconds):
        self.service, self.server, self.end = service, service.server, time.monotonic() + seconds
        self.took = collections.defaultdict(list)

    def look(self):
        if time.monotonic() > self.end:
            raise Over


class Visitor(Client):
    """A connection to the crowd's service, which is left when the crowd's time is over."""

    def __init__(self, crowd):
        self.look = crowd.look
        super().__init__(crowd.service)
        self.socket.settimeout(LOOK)

    def __enter__(self):
        return self

    def __exit__(self, *_):
        self.socket.close()

    def patiently(self, call, given):
        """What a call of the socket returns; nothing where the connection has ended."""
        while True:
            self.look()
            try:
                return call(given)
            except socket.timeout:
                pass
            except ConnectionError:
                return 0

    def send(self, data):
        """Whether all of this could be sent."""
        rest = memoryview(data)
        while rest:
            count = self.patiently(self.socket.send, rest[:PIECE])
            if not count:
                return False
            rest = rest[count:]
        return True

    def receive(self):
        return self.patiently(self.socket.recv, PIECE) or b""

    def has(self, given, answer):
        """Asks, and returns whether the answer came before the connection ended. It has to be this."""
        got = b""
        if self.send(given):
            while got != answer and (more := self.receive()):
                got += more
                assert answer.startswith(got), f"{given!r:.200}: {got!r:.200}"
        return got == answer


def asks(crowd, requests, is_kept, kind):
    """Asks requests one by one, each again until it is answered, over a new connection for each, or one
    that is kept until the service ends it."""
    visitor = None
    for given, answer in requests:
        begun, is_answered = time.monotonic(), False
        try:
            while not is_answered:
                visitor = visitor or Visitor(crowd)
                is_answered = visitor.has(given, answer)
                if not (is_answered and is_kept):
                    visitor.socket.close()
                    visitor = None
        finally:
            crowd.took[kind].append(time.monotonic() - begun)


def kept(crowd):
    asks(crowd, (small(crowd.server, it) for it in itertools.count()), True, "kept")


def new(crowd):
    asks(crowd, (small(crowd.server, it) for it in itertools.count()), False, "new")


def greatest(server):
    """The bytes of a request of as many steps as may be, and of its answer."""
    square = f'["broadcast","a",[{SIDE},{SIDE}]]'
    expr, value = square, 1
    for _ in range(PRODUCTS):
        expr, value = f'["contract",{expr},{square},[[1,0]]]', value * SIDE
    text = text_of('"a":{"dims":[1,1],"data":[1]}', f'["sum",{expr},[0,1]]', block=SIDE)
    return server.sent(text), server.answer(line_of([value * SIDE**2], []))


def heavy(crowd):
    """Asks for too many steps, too many workers, too much memory, and as much as may be."""
    server = crowd.server
    requests = [
        (endless(server), server.answer("error 20 TooManySteps\n")),
        (endless(server, workers=64), server.answer("error 19 TooManyWorkers\n")),
        (no_request(server, LISTS), server.answer(NO_MEMORY)),
        greatest(server),
    ]
    asks(crowd, itertools.cycle(requests), True, "heavy")


def silent(crowd):
    while True:
        with Visitor(crowd) as visitor:
            assert visitor.receive() == b""


def slow(crowd):
    given, _ = small(crowd.server)
    while True:
        with Visitor(crowd) as visitor:
            for at in range(len(given) - 1):
                if not visitor.send(given[at : at + 1]):
                    break
                time.sleep(SLOW)


def departed(crowd):
    requests = endless(crowd.server), greatest(crowd.server)[0]
    for given in itertools.cycle(requests):
        with Visitor(crowd) as visitor:
            visitor.send(given)
        time.sleep(LOOK)


def unreading(crowd):
    given = wide(crowd.server)
    while True:
        with Visitor(crowd) as visitor:
            while visitor.send(given):
                pass


CROWD = [silent] * PLACES + [kept, new, heavy, slow] * 2 + [departed, unreading]


def visited(service, seconds):
    """The crowd that has come to a service, each client of it in a thread."""
    crowd = Crowd(service, seconds)

    def come(client):
        with contextlib.suppress(Over):
            client(crowd)

    with concurrent.futures.ThreadPoolExecutor(len(CROWD)) as pool:
        for it in [pool.submit(come, client) for client in CROWD]:
            it.result()
    return crowd


@pytest.mark.parametrize("at", [(LINES, False), (FRAMES, True)], ids=["lines", "frames"])
def test_crowd_within_limits(at, pytestconfig):
    with served(at, OPTIONS, LIMITED) as service:
        before = service.holds()
        crowd = visited(service, pytestconfig.getoption("--crowd-seconds"))
        assert max(crowd.took["kept"] + crowd.took["new"]) < BOUND
        assert until(service.is_idle, BOUND)
        files, memory = (now - then for now, then in zip(service.holds(), before))
        assert files == 0 and memory <= MOST_KIB_MORE


def test_crowd_without_limits():
    """What the trial sees where nothing is limited but the number of connections. The connections of
    departed clients wait for a place too."""
    setup = PLACED._replace(listening=("backlog=1024", f"max-children={PLACES}"))
    with served((LINES, False), setup=setup) as service:
        crowd = visited(service, 2 * BOUND)
        assert max(crowd.took["new"]) > BOUND
        assert not until(service.is_idle, BOUND)
