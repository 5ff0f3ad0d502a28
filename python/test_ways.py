"""Tests of the ways to evaluate: which way is taken, programs that fail or take too long, sessions and
threads."""

import contextlib
import ctypes
import os
import pickle
import tempfile
import threading
import time
import unittest
import unittest.mock

import tensor_client as client
from tensor_client import Expr, tensor
from tensor_client.explaining import explain
from tensor_client.finding import TOP, Program, built, program_of
from tensor_client.library import Library, library_named, library_of
from tensor_client.requests import Settings, framed
from asking import LINES, ONE, REFERENCE, WAYS, referring

# In seconds: more than any answer takes on a busy machine, and the time of a program that is too slow.
SECONDS, LONG = 120, 600
# More values than a pipe buffers.
LARGE = 50_000


class Shell(unittest.TestCase):
    """Tests with programs of a few lines of shell in place of the real ones."""

    def program(self, lines, name="program"):
        folder = tempfile.TemporaryDirectory()
        self.addCleanup(folder.cleanup)
        path = os.path.join(folder.name, name)
        with open(path, "w", encoding="utf-8") as file:
            file.write(f"#!/bin/sh\n{lines}\n")
        os.chmod(path, 0o755)
        return path

    def here(self, **names):
        """An environment that names no programs except these."""
        variables = ("PROGRAM", "LINES", "FRAMES", "LIBRARY")
        none = {f"TENSOR_{it}": "" for it in variables}
        return unittest.mock.patch.dict(os.environ, {**none, **names})


class Found(Shell):
    """Which program is taken."""

    def test_the_program_is_found(self):
        said = self.program("""cat >/dev/null; echo '{"data":[7],"dims":[]}'""", "tensor_run")
        with self.here(TENSOR_PROGRAM=said):
            self.assertEqual(client.run(tensor(5), way="process").nested(), 7)
        with self.here(PATH=os.path.dirname(said) + os.pathsep + os.environ["PATH"]):
            self.assertEqual(client.run(tensor(5), way="process").nested(), 7)

    def test_the_first_way_that_is_found(self):
        functions, library = referring()
        with self.here(TENSOR_FRAMES=REFERENCE, TENSOR_PROGRAM="/no/such/program"):
            with unittest.mock.patch("tensor_client.running.library_of", return_value=library):
                self.assertEqual(client.run(-tensor(5)).item(), -5)
                self.assertEqual(client.run(-tensor(5), workers=2).item(), -5)
                # With a timeout, a process answers.
                with unittest.mock.patch.object(library, "run", side_effect=AssertionError):
                    self.assertEqual(client.run(-tensor(5), timeout=SECONDS).item(), -5)
            with unittest.mock.patch("tensor_client.running.library_of", return_value=None):
                self.assertEqual(client.run(-tensor(5)).item(), -5)
                with unittest.mock.patch("tensor_client.running.built", return_value=None):
                    with self.assertRaisesRegex(client.ProgramFailed, "/no/such/program"):
                        client.run(-tensor(5))
        self.assertEqual(functions.owed, [])

    def test_the_way_of_a_session(self):
        with self.here(TENSOR_FRAMES=REFERENCE), client.Session() as session:
            self.assertEqual((session.way, session.run(-tensor(5)).item()), ("frames", -5))
        with unittest.mock.patch("tensor_client.running.built", return_value=None):
            with self.here(TENSOR_LINES=REFERENCE), client.Session() as session:
                self.assertEqual((session.way, session.stream.name), ("lines", REFERENCE))

    def test_ways_that_are_none(self):
        for refused in (
            lambda: client.run(tensor(1), way="lines"),
            lambda: client.run(tensor(1), way="library", timeout=1),
            lambda: client.Session(way="process"),
            lambda: client.Session(program=REFERENCE),
        ):
            with self.assertRaisesRegex(ValueError, "way|no limit of time"):
                refused()

    def test_no_program(self):
        with self.assertRaisesRegex(client.ProgramFailed, "No such file"):
            client.run(tensor(1), program="/no/such/program")
        nowhere = Program("TENSOR_NONE", "no_program_of_this_name", "/no/such/file")
        with self.assertRaisesRegex(client.ProgramFailed, "TENSOR_NONE.*no_program.*/no/such"):
            program_of(None, nowhere)
        self.assertIsNone(built(nowhere))
        with self.here(TENSOR_NONE="/no/such/program"):
            with self.assertRaisesRegex(client.ProgramFailed, "TENSOR_NONE is /no/such/program"):
                program_of(None, nowhere)

    def test_nothing_that_answers(self):
        # As if only the package were installed.
        with self.here(PATH="/nowhere"), unittest.mock.patch.multiple(
            "tensor_client.finding", IS_IN_REPOSITORY=False, LIBRARY="no_library_of_this_name.so"
        ), unittest.mock.patch("tensor_client.library.OPENED", {}):
            with self.assertRaises(client.ProgramFailed) as raised:
                client.run(tensor(1))
            for variable in ("TENSOR_LIBRARY", "TENSOR_FRAMES", "TENSOR_PROGRAM"):
                self.assertIn(variable, str(raised.exception))
            self.assertNotIn(TOP + "/run", str(raised.exception))
            said = "TENSOR_LINES isn't set.*a wheel has only the library.*./install"
            self.assertRaisesRegex(client.ProgramFailed, said, client.Session)

    def test_no_library(self):
        with self.assertRaisesRegex(client.ProgramFailed, "/no/such/library"):
            client.run(tensor(1), way="library", program="/no/such/library")
        with self.here(TENSOR_LIBRARY="/no/such/library"):
            with self.assertRaisesRegex(client.ProgramFailed, "TENSOR_LIBRARY is /no/such/library"):
                client.run(tensor(1))
        with self.assertRaisesRegex(client.ProgramFailed, "tensor_evaluate"):
            Library("libc.so.6")
        with self.here(), unittest.mock.patch("tensor_client.library.OPENED", {}):
            with unittest.mock.patch("tensor_client.finding.libraries", return_value=["/none"]):
                self.assertIsNone(library_of())
                with self.assertRaisesRegex(client.ProgramFailed, "TENSOR_LIBRARY.*/none"):
                    library_named(None)


    def test_a_library_of_another_version(self):
        functions, other = referring()[0], ctypes.CFUNCTYPE(ctypes.c_int64)(lambda: 2_010_003)
        with unittest.mock.patch("ctypes.CDLL", return_value=functions):
            for version, said in (other, "is version 2.10.3, and"), (None, "is older than"):
                functions.tensor_version = version
                with self.assertRaisesRegex(client.ProgramFailed, f"reference {said} this client"):
                    Library("reference")


class Failing(Shell):
    """Programs that fail, or take too long."""

    def test_a_process_that_fails(self):
        for regex, lines in (
            ("status 2: not built", "echo not built >&2; exit 2"),
            ("status 3", """echo '{"data":[1],"dims":[]}'; exit 3"""),
            ("status 0", "printf half"),
        ):
            with self.assertRaisesRegex(client.ProgramFailed, regex):
                client.run(tensor(1), program=self.program(lines))

    @unittest.skipUnless(ONE, "tensor_run isn't built: its streams weren't broken")
    def test_faults_of_streams(self):
        for fault, lines in ((client.ReadFault, "</"), (client.WriteFault, ">/dev/full")):
            program = self.program(f"{ONE} {lines}")
            self.assertRaises(fault, client.run, tensor(1), program=program)

    def test_faults_that_no_request_of_the_client_has(self):
        for number, name in ((3, "BadField"), (8, "UnknownInput"), (15, "NoMemory")):
            said = self.program(f"cat >/dev/null; echo error {number} {name}; exit 1")
            self.assertRaises(getattr(client, name), client.run, tensor(1), program=said)
        with self.assertRaises(client.Fault) as raised:
            client.answer("error 99 NotYetKnown\n")
        self.assertEqual((raised.exception.number, raised.exception.name), (99, "NotYetKnown"))

    def test_texts_that_are_too_long(self):
        long = tensor([-(2**63)] * 1_000_000)
        self.assertRaises(client.TooLong, client.request, long)
        self.assertEqual(framed(long, Settings()).size, 1_000_000)
        with unittest.mock.patch("tensor_client.requests.MAX_VALUES", 999_999):
            self.assertRaises(client.TooLong, framed, long, Settings())

    def test_sessions_that_fail(self):
        for regex, lines in (
            ("has ended: why", "echo why >&2; exit 1"),
            ("answers no frame", "echo a line that is none; cat >/dev/null"),
            ("has ended", r"printf '\1\0\0\0\0\0\0\0\0\0\0\0\0\0\0'"),
            ("answers more", r"printf '\1\0\0\0\0\0\0\0\0\0\0\0\0\0\0\0{}'; cat >/dev/null"),
        ):
            with client.Session(way="frames", program=self.program(lines)) as session:
                with self.assertRaisesRegex(client.ProgramFailed, regex):
                    session.run(tensor(1))
                self.assertRaises(client.ProgramFailed, session.run, tensor(1))

    def test_a_limit_of_time(self):
        began, slow = time.monotonic(), self.program(f"exec sleep {LONG}")
        half = self.program(rf"printf '\2\0\0\0\0\0\0\0\2\0\0\0\0\0\0\0{{}}half'; exec sleep {LONG}")
        asked = {"timeout": 0.2}
        self.assertRaises(client.TimedOut, client.run, tensor(1), program=slow, **asked)
        for program, way in ((slow, "lines"), (slow, "frames"), (half, "frames")):
            with client.Session(program=program, way=way, **asked) as session:
                # A request that isn't read, since a pipe can't hold it, and a request that isn't answered.
                self.assertRaises(client.TimedOut, session.run, tensor(range(LARGE)))
                self.assertRaises(client.ProgramFailed, session.run, tensor(1))
            with client.Session(program=program, way=way, **asked) as session:
                self.assertRaises(client.TimedOut, session.run, tensor(1))
        self.assertLess(time.monotonic() - began, LONG)

    def test_a_limit_of_time_that_is_kept(self):
        for way, program in (("lines", LINES), ("frames", REFERENCE)):
            if program:
                with client.Session(way=way, program=program, timeout=SECONDS) as session:
                    found = session.run(tensor(range(LARGE)))
                    self.assertEqual(found.values, list(range(LARGE)))

    def test_a_session_that_has_ended(self):
        session = client.Session(way="frames", program=REFERENCE)
        session.close()
        self.assertRaises(client.ProgramFailed, session.run, tensor(1))


class Explained(unittest.TestCase):
    """Faults with the place and the reason that the library has for them."""

    def told(self, lines, fault=None, **how):
        fault = fault or client.UnknownOp()
        library = unittest.mock.Mock(explained=lambda asked: lines)
        how = how or {"return_value": library}
        with unittest.mock.patch("tensor_client.explaining.library_of", **how):
            explain(fault, tensor(1), Settings())
        return str(fault)

    def test_a_place_and_a_reason(self):
        said = "error 9 UnknownOp\nat /expr/0: no operation: div"
        found = self.told(said + "\n")
        self.assertEqual(found, "error 9 UnknownOp at /expr/0: no operation: div")
        fault = client.UnknownOp("why", "/expr/1")
        self.assertEqual(str(pickle.loads(pickle.dumps(fault))), str(fault))
        self.assertEqual(pickle.loads(pickle.dumps(fault)).place, "/expr/1")

    def test_what_says_nothing(self):
        for lines in "error 8 UnknownInput\nat /expr: no such\n", "no fault\ndims []\n", "", "error":
            self.assertEqual(self.told(lines), "error 9 UnknownOp")
        said = "error 15 NoMemory\nat /expr: another"
        self.assertEqual(self.told(said, client.NoMemory()), "error 15 NoMemory")
        known = client.UnknownOp("why")
        said = "error 9 UnknownOp\nat /expr/0: another"
        self.assertEqual(self.told(said, known), "error 9 UnknownOp: why")

    def test_no_library_that_says_it(self):
        for how in {"return_value": None}, {"side_effect": client.ProgramFailed("no library")}:
            self.assertEqual(self.told("", **how), "error 9 UnknownOp")

    @unittest.skipUnless(library_of(), "the library isn't built: no fault was explained")
    def test_as_it_is_built(self):
        with self.assertRaises(client.UnknownOp) as raised:
            client.run(Expr("div", [tensor(1), tensor(2)]))
        self.assertTrue(raised.exception.place.startswith("/expr"), raised.exception)
        self.assertIn("div", raised.exception.why)


class Many(unittest.TestCase):
    """Many requests, from many threads."""

    def ways(self):
        """Returns all ways that are there and stay open."""
        for way, (_, is_there, opened) in WAYS.items():
            if is_there and way not in ("process", "frame"):
                with self.subTest(way=way), opened() as ask:
                    yield ask

    def test_many_requests(self):
        for ask in self.ways():
            for number in range(200):
                self.assertEqual(ask(tensor([number]) + 1).values, [number + 1])
            self.assertRaises(client.UnknownOp, ask, Expr("div", [tensor(1)]))
            kept = ask(tensor([1, 2]) * 3)
            self.assertEqual(ask(kept + kept, workers=3, block=1).values, [6, 12])
            self.assertEqual(ask(tensor(range(100_000)).sum()).item(), 4_999_950_000)

    def test_many_threads_of_one(self):
        for ask in self.ways():
            self.threads(lambda: contextlib.nullcontext(ask))

    def test_a_session_a_thread(self):
        for way, (_, is_there, opened) in WAYS.items():
            if is_there and way in ("lines", "frames", "reference frames"):
                with self.subTest(way=way):
                    self.threads(opened, count=4)

    def threads(self, opened, count=8):
        found = {}

        def asked(number):
            with opened() as ask:
                found[number] = [ask(tensor([number]) * it).item() for it in range(20)]

        threads = [threading.Thread(target=asked, args=[it]) for it in range(count)]
        for it in threads:
            it.start()
        for it in threads:
            it.join()
        self.assertEqual(found, {it: [it * by for by in range(20)] for it in range(count)})

    def test_keep(self):
        with client.Session(way="frames", program=REFERENCE, workers=2) as session:
            part = session.keep(tensor([1, 2]) + 1)
            self.assertEqual(session.run(part * part).values, [4, 9])


if __name__ == "__main__":
    unittest.main()
