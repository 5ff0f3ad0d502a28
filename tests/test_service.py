"""Has the programs of many requests answer as a service, by socat on the loopback.

On a Unix socket and on a free port of TCP, socat gives each connection to a process, as docs/SERVE.md
has it. Eight clients ask 1,000 requests each at once, one by one. Beside them one client sends what is
no request, one asks and reads nothing, one sends what never ends, and one closes in the middle of a
request or of an answer, and comes again. Each of the eight has to get every answer, and no process,
file or memory may be left over. A request that needs more memory than the limit is answered so, and
the next one too. One process is ended by SIGTERM, and then socat: the other clients are answered on.
The programs take their options behind socat. A new case is a function over a service.
"""

import concurrent.futures
import contextlib
import os
import random
import signal

import pytest

from framing import SIZES
from hostile import NO_MEMORY, READ_FAULT, WRITE_FAULT, kib, line_of
from hostile import request as text_of
from servers import FRAMES, LINES, most
from sockets import ADDRESSES, LISTS, MANY, PIECE, Client, Seen, is_there, no_request, served, until, wide

pytestmark = pytest.mark.usefixtures("programs")

CLIENTS, REQUESTS = 8, 1_000
# One of how many requests of a client has threads, is a fault, or has MANY values; how many others have.
THREADED, FAULTY, LONG, FEW = 50, 10, 200, 3
SEED, GARBAGE, CUTS = 1, 200, 100
ENDLESS = 64
# How many KiB more than before socat may have, and a request that never ends may take more than others;
# and how many a line takes, which is kept until it is longer than a line may be.
MOST_KIB_MORE = 512
LINE_KIB = 2 * 16_384


def asked(server, client, number):
    """The bytes of a client's request, and of its answer, which no other client's has."""
    first = client * REQUESTS + number
    count = MANY if number % LONG == LONG // 2 else FEW
    a, b = [first + it for it in range(count)], [it * it for it in range(count)]
    inputs = f'"a":{{"dims":[{count}],"data":{a}}},"b":{{"dims":[{count}],"data":{b}}}'
    if number % FAULTY == 1:
        return server.sent(text_of(inputs, '"nobody"')), server.answer("error 8 UnknownInput\n")
    how = {"workers": 4 if number % THREADED == 0 else 1, "block": 1 if count == FEW else 1_024}
    line = line_of(map(sum, zip(a, b)), [count])
    return server.sent(text_of(inputs, '["add","a","b"]', **how)), server.answer(line)


@pytest.fixture(params=ADDRESSES.values(), ids=ADDRESSES)
def service(request):
    with served(request.param) as made:
        yield made


def good(client, number):
    """Asks one by one."""
    for it in range(REQUESTS):
        client.ask(*asked(client.server, number, it))


def garbage(client):
    """Sends bytes that are no JSON, each of which has its fault."""
    drawn = random.Random(SEED)
    for _ in range(GARBAGE):
        text = bytes(drawn.choice(b"\x00\x01[{\"\xff9,:") for _ in range(drawn.randrange(40, 4_000)))
        given = no_request(client.server, text, [0] * drawn.randrange(5))
        client.ask(given, client.server.answer("error 2 NotJson\n"))


def read_nothing(client):
    """Asks for long answers until no more can be sent, and reads none."""
    client.socket.setblocking(False)
    given = wide(client.server)
    with contextlib.suppress(BlockingIOError):
        while True:
            client.socket.sendall(given)


def never_end(client):
    """Sends the header of a frame of 2^63 bytes, or a line, and more and more of it; nothing of it
    is answered."""
    if client.server is FRAMES:
        client.socket.sendall(SIZES.pack(2**63, 0))
    for _ in range(ENDLESS):
        client.socket.sendall(b" " * PIECE)
    client.socket.setblocking(False)
    with pytest.raises(BlockingIOError):
        client.socket.recv(1)


def close_in_the_middle(service):
    """Sends half of a request and closes; and reads a little of a long answer and closes."""
    given = wide(service.server)
    for _ in range(CUTS):
        with service.connect() as half:
            half.sendall(given[: len(given) // 2])
        with service.connect() as little:
            little.sendall(given)
            little.recv(1)


def test_many_clients(service):
    before = service.holds()
    clients = [Seen(service) for _ in range(CLIENTS)]
    spoilt, silent, endless = others = [Seen(service) for _ in range(3)]
    assert len(service.processes()) == CLIENTS + 3
    read_nothing(silent)
    jobs = [(good, it, number) for number, it in enumerate(clients)]
    jobs += [(garbage, spoilt), (never_end, endless), (close_in_the_middle, service)]
    with concurrent.futures.ThreadPoolExecutor(len(jobs)) as pool:
        for job in [pool.submit(*it) for it in jobs]:
            job.result()
    assert all(is_there(it.process) for it in others)
    most_kib = kib(clients[0].process, "VmHWM") + MOST_KIB_MORE + LINE_KIB * (service.server is LINES)
    assert kib(endless.process, "VmHWM") <= most_kib
    for it in clients + [spoilt]:
        it.end()
    for it in silent, endless:
        it.socket.close()
    assert until(service.is_idle)
    files, memory = (now - then for now, then in zip(service.holds(), before))
    assert files == 0 and memory <= MOST_KIB_MORE
    assert {*service.logged()} <= {READ_FAULT, WRITE_FAULT}


def test_little_memory(service):
    client = Seen(service)
    client.ask(no_request(service.server, LISTS), service.server.answer(NO_MEMORY))
    client.ask_a_little()
    client.end()
    assert until(service.is_idle)


def test_sigterm(service):
    """SIGTERM to the process of a client, and then to socat, beside clients that are answered."""
    kept, lost = Seen(service), Seen(service)
    for it in kept, lost:
        it.ask_a_little()
    os.kill(lost.process, signal.SIGTERM)
    with lost.socket:
        assert lost.read(1) == b""
    kept.ask_a_little()
    assert until(lambda: not is_there(lost.process))
    assert service.end() == 128 + signal.SIGTERM
    assert not service.listens()
    kept.ask_a_little()
    kept.end()
    assert until(lambda: not any(map(is_there, service.processes())))
    assert {*os.listdir(service.room)} == {"log", "program"}


# The options of the programs, and the expressions over three values that are asked, each with the line
# of its answer and how the log begins and ends but for times.
OPTIONS = [*most(steps=3, seconds=3600), "--log"]
ASKED = {
    '["neg","a"]': (line_of([-1, -2, -3], [3]), "fault=0 name=ok steps=3"),
    '["neg",["neg","a"]]': ("error 20 TooManySteps\n", "fault=20 name=TooManySteps steps=6"),
    '"a"': (line_of([1, 2, 3], [3]), "fault=0 name=ok steps=0"),
}


@pytest.mark.parametrize("at", ADDRESSES.values(), ids=ADDRESSES)
def test_options(at):
    with served(at, OPTIONS) as service:
        client = Client(service)
        for expr, (line, _) in ASKED.items():
            text = text_of('"a":{"dims":[3],"data":[1,2,3]}', expr)
            client.ask(service.server.sent(text), service.server.answer(line))
        client.end()
        assert until(service.is_idle)
        logged = service.logged()
    for number, (said, (_, entry)) in enumerate(zip(logged, ASKED.values()), 1):
        assert said.startswith(f"request={number} ") and f" {entry} us=" in said
    assert len(logged) == len(ASKED)
