"""Tests of sessions over connections: answers, arrays for answers, timeouts, and lost connections. Each
connects to a service of the test's own, on a Unix socket and on a port."""

import contextlib
import itertools
import os
import socket
import struct
import subprocess
import tempfile
import threading
import unittest
import unittest.mock

import reference_frames
import tensor_client as client
from tensor_client import Expr, tensor
from tensor_client.requests import Settings, framed, request
from tensor_client.streams import SIZES
from asking import FRAMES, LINES, REFERENCE

try:
    import numpy
except ImportError:
    numpy = None

SECONDS, SOON = 30, 0.3
# More values than a socket buffers.
LARGE = 1_000_000
X = tensor([1, 2])


class Service:
    """A service at an address, which answers each connection on a thread."""

    def __init__(self, answer, room, by_tcp):
        self.answer, self.accepted, self.threads = answer, 0, []
        self.listener = socket.socket(socket.AF_INET if by_tcp else socket.AF_UNIX)
        self.listener.bind(("127.0.0.1", 0) if by_tcp else os.path.join(room, "socket"))
        self.address = self.listener.getsockname()
        self.listener.listen()
        self.thread = threading.Thread(target=self.accept)
        self.thread.start()

    def accept(self):
        with contextlib.suppress(OSError):
            while True:
                connection, _ = self.listener.accept()
                self.accepted += 1
                self.threads.append(threading.Thread(target=self.serve, args=[connection]))
                self.threads[-1].start()

    def serve(self, connection):
        with connection:
            self.answer(connection)

    def close(self):
        # Without this, accept() doesn't return.
        self.listener.shutdown(socket.SHUT_RDWR)
        self.listener.close()
        for it in (self.thread, *self.threads):
            it.join(SECONDS)


def program(path):
    """Returns a function that has a program answer a connection."""
    return lambda it: subprocess.run([path], stdin=it, stdout=it, stderr=subprocess.DEVNULL)


def lines(connection, most=None):
    """Answers at most this many lines by the reference."""
    with connection.makefile("rwb") as file:
        for line in itertools.islice(file, most):
            file.write(reference_frames.reference.answer(line[:-1], LARGE)[0])
            file.flush()


def frames(connection, most):
    """Answers this many frames by the reference."""
    for _ in range(most):
        length, count = SIZES.unpack(received(connection, SIZES.size))
        header = received(connection, length)
        values = reference_frames.numbers_of(received(connection, 8 * count))
        header, values = reference_frames.answered(header, values)
        connection.sendall(SIZES.pack(len(header), len(values)) + header)
        connection.sendall(struct.pack(f"<{len(values)}q", *values))


def received(connection, count):
    """Returns this many bytes, or fewer at the end."""
    found = b""
    while len(found) < count and (more := connection.recv(count - len(found))):
        found += more
    return found


ANSWER = {"lines": program(LINES) if LINES else lines, "frames": program(FRAMES or REFERENCE)}


class Connected(unittest.TestCase):
    """Tests over services."""

    def serving(self, answer, by_tcp=False):
        folder = tempfile.TemporaryDirectory()
        self.addCleanup(folder.cleanup)
        service = Service(answer, folder.name, by_tcp)
        self.addCleanup(service.close)
        return service

    def session(self, service, way="frames", timeout=SECONDS):
        session = client.Session(address=service.address, way=way, timeout=timeout)
        self.addCleanup(session.close)
        return session


class Answers(Connected):
    """Answers and faults, each over one connection."""

    def test_each_way_at_each_address(self):
        for way, answer in ANSWER.items():
            for by_tcp in (False, True):
                with self.subTest(way=way, by_tcp=by_tcp):
                    service = self.serving(answer, by_tcp)
                    session = self.session(service, way)
                    for number in range(20):
                        self.assertEqual(session.run(X + number).values, [number + 1, number + 2])
                    self.assertRaises(client.UnknownOp, session.run, Expr("div", [X]))
                    found = session.run(tensor(range(50_000)) * 2, workers=2)
                    self.assertEqual(found.values, list(range(0, 100_000, 2)))
                    self.assertEqual((service.accepted, session.stream.answered), (1, 22))
                    session.close()
                    self.assertRaisesRegex(client.ProgramFailed, "closed", session.run, X)

    def test_without_a_limit_of_time(self):
        session = self.session(self.serving(ANSWER["frames"]), timeout=None)
        self.assertEqual(session.run(X * 2).values, [2, 4])

    def test_nothing_waits_for_an_acknowledgement(self):
        session = self.session(self.serving(ANSWER["frames"], by_tcp=True))
        asked = socket.IPPROTO_TCP, socket.TCP_NODELAY
        self.assertNotEqual(session.stream.socket.getsockopt(*asked), 0)

    def test_sessions_that_are_none(self):
        for refused in (
            lambda: client.Session(address="/no/such/socket"),
            lambda: client.Session(address="/no/such/socket", program=REFERENCE, way="frames"),
            lambda: client.Session(address="/no/such/socket", way="library"),
        ):
            with self.assertRaisesRegex(ValueError, "way|not both"):
                refused()


@unittest.skipIf(numpy is None, "numpy isn't installed")
class Arrays(Connected):
    """Answers of frames that are read into a given array."""

    def test_values_go_where_they_are_wanted(self):
        service = self.serving(ANSWER["frames"])
        rows, flat = numpy.arange(20_000).reshape(100, 200), numpy.arange(20_000)
        for array in (flat, rows, numpy.asfortranarray(rows), flat[:3], rows[:2, :2], flat[:0]):
            session, out = self.session(service), numpy.zeros_like(array)
            with unittest.mock.patch("tensor_client.streams.memory_for", side_effect=AssertionError):
                found = session.run(tensor(array) * 2 + 1, out=out)
            numpy.testing.assert_array_equal(out, array * 2 + 1)
            self.assertEqual(numpy.shares_memory(found.array(), out), out.size > 0)

    def test_arrays_of_other_dims(self):
        session = self.session(self.serving(ANSWER["frames"]))
        for dims in ((3,), (2, 1), (3, 2), ()):
            out = numpy.full(dims, 7)
            self.assertRaises(ValueError, session.run, X + 1, out=out)
            self.assertEqual(set(out.flat), {7})
        # Here the client doesn't know the dims of the answer.
        out = numpy.zeros((1, 2), int)
        session.run(Expr("reshape", [X], [[1, 2]]), out=out)
        self.assertEqual(out.tolist(), [[1, 2]])

    def test_an_array_that_is_an_input_too(self):
        session = self.session(self.serving(ANSWER["frames"]))
        for array in (numpy.arange(5_000), numpy.arange(5_000).reshape(50, 100)):
            wanted = array[::-1] - array
            session.run(tensor(array)[::-1] - tensor(array), out=array)
            numpy.testing.assert_array_equal(array, wanted)


class Limits(Connected):
    """Timeouts, and addresses where nothing listens."""

    def test_no_answer(self):
        over = threading.Event()

        def half(connection):
            connection.recv(1)
            connection.sendall(SIZES.pack(2, 2) + b"{}half")
            over.wait(SECONDS)

        for answer in (lambda _: over.wait(SECONDS), half):
            for way in ("lines", "frames"):
                service = self.serving(answer)
                session = self.session(service, way, SOON)
                self.assertRaisesRegex(client.TimedOut, "answers before: 0", session.run, X)
                self.assertRaisesRegex(client.ProgramFailed, "closed", session.run, X)
                # The service doesn't read this request.
                session = self.session(service, way, SOON)
                self.assertRaises(client.TimedOut, session.run, tensor(range(LARGE)))
        over.set()

    def test_a_queue_that_is_full(self):
        with tempfile.TemporaryDirectory() as room, contextlib.ExitStack() as waiting:
            listener = waiting.enter_context(socket.socket(socket.AF_UNIX))
            address = os.path.join(room, "socket")
            listener.bind(address)
            listener.listen(0)
            with self.assertRaisesRegex(client.TimedOut, "no connection in"):
                for _ in range(10):
                    session = client.Session(address=address, way="lines", timeout=SOON)
                    waiting.callback(session.close)

    def test_nobody_listens(self):
        with socket.socket() as found:
            found.bind(("127.0.0.1", 0))
            for address in ("/no/such/socket", __file__, found.getsockname()):
                for timeout in (None, SECONDS):
                    with self.assertRaisesRegex(client.ProgramFailed, "nothing was asked"):
                        client.Session(address=address, way="lines", timeout=timeout)


class OtherWay(Connected):
    """Sessions at services that answer in another way, which the first exchange shows."""

    def test_frames_at_a_service_of_lines(self):
        for timeout in (None, SECONDS):
            session = self.session(self.serving(ANSWER["lines"]), "frames", timeout)
            with self.assertRaisesRegex(client.ProgramFailed, "no frame, but lines: way='lines'"):
                session.run(X)
            self.assertRaisesRegex(client.ProgramFailed, "closed", session.run, X)

    def test_lines_at_what_waits_for_more(self):
        over = threading.Event()
        service = self.serving(lambda _: over.wait(SECONDS))
        with unittest.mock.patch("tensor_client.running.FIRST_SECONDS", SOON):
            with self.assertRaisesRegex(client.TimedOut, "does it answer in this way"):
                self.session(service, "lines", None)
        session = self.session(service, "lines", SOON)
        self.assertRaisesRegex(client.TimedOut, "does it answer in this way", session.run, X)
        over.set()

    def test_the_way_that_answers(self):
        for way, answer in ANSWER.items():
            session = self.session(self.serving(answer), way, None)
            for number in range(3):
                self.assertEqual(session.run(X + number).values, [number + 1, number + 2])
            self.assertEqual(session.stream.answered, 3)


class Lost(Connected):
    """Lost connections: the message, and that no request is sent again."""

    def lost(self, answer, way, regex, asked=0):
        """Asks this many times, then until the connection is lost, and then once more."""
        service = self.serving(answer)
        session = self.session(service, way)
        for number in range(asked):
            self.assertEqual(session.run(X + number).values, [number + 1, number + 2])
        self.assertRaisesRegex(client.ProgramFailed, regex, session.run, X)
        said = rf"closed; answers before: {asked}; of this request 0 of \d+ bytes were sent"
        self.assertRaisesRegex(client.ProgramFailed, said, session.run, X)
        self.assertEqual((service.accepted, session.stream.answered), (1, asked))

    def test_a_service_that_goes(self):
        frame, some = framed(X, Settings()), {"lines": lines, "frames": frames}
        asked = {"lines": len(request(X)) + 1}
        asked["frames"] = SIZES.size + len(frame.header) + 8 * frame.size
        front = {"lines": b'{"data":[3', "frames": SIZES.pack(12, 2) + b'{"dims":[2]}' + bytes(3)}

        def goes(way, begun, seen):
            """Answers three requests, and begins to answer the fourth. Counts the bytes of the request."""

            def answer(connection):
                some[way](connection, 3)
                seen.append(len(received(connection, asked[way])))
                connection.sendall(begun)
                connection.shutdown(socket.SHUT_WR)
                seen.append(len(received(connection, 1)))

            return answer

        for way in some:
            for begun in (b"", front[way]):
                said = f"answers before: 3; of this request {asked[way]} of {asked[way]} bytes "
                said += f"were sent, and {len(begun)} bytes of its answer came"
                with self.subTest(way=way, begun=begun):
                    seen = []
                    regex = f"the connection is lost: it ended; {said}"
                    self.lost(goes(way, begun, seen), way, regex, asked=3)
                    self.doCleanups()
                    self.assertEqual(seen, [asked[way], 0])

    def test_a_connection_that_is_reset(self):
        def reset(connection):
            connection.recv(1)
            linger = struct.pack("ii", 1, 0)
            connection.setsockopt(socket.SOL_SOCKET, socket.SO_LINGER, linger)

        for way in ("lines", "frames"):
            self.lost(reset, way, "connection is lost: .*; answers before: 0")
            session = self.session(self.serving(reset, by_tcp=True), way)
            with self.assertRaisesRegex(client.ProgramFailed, "connection is lost: [A-Z]"):
                session.run(tensor(range(LARGE)))

    def test_what_is_no_answer(self):
        for way, spoilt, said in (
            ("frames", b"a line that is no frame's front\n", "answers no frame"),
            ("frames", SIZES.pack(2, 0) + b"{} and more", "answers more than a frame"),
            ("lines", b"a line\nand more", "answers more than a line"),
            ("lines", b"two\nlines\n", "answers more than a line"),
        ):
            self.lost(lambda it, by=spoilt: (it.recv(1), it.sendall(by)), way, said)

    def test_a_process_that_ends(self):
        with tempfile.TemporaryDirectory() as room:
            path = os.path.join(room, "program")
            with open(path, "w", encoding="utf-8") as file:
                answer = '{"data":[7],"dims":[]}'
                file.write(f"#!/bin/sh\nread -r line; echo '{answer}'; read -r line; exit 3\n")
            os.chmod(path, 0o755)
            with client.Session(program=path, way="lines") as session:
                self.assertEqual(session.run(X).values, [7])
                said = "has ended: it ended; answers before: 1; of this request"
                self.assertRaisesRegex(client.ProgramFailed, said, session.run, X)
                self.assertRaisesRegex(client.ProgramFailed, "closed", session.run, X)


if __name__ == "__main__":
    unittest.main()
