"""The ways in which the tests evaluate expressions: the client's own ways, if a library or program is
built, and two ways with the reference of tests/fuzzing in its place."""

import contextlib
import os
import unittest
import unittest.mock

import reference_frames
import tensor_client as client
from tensor_client.finding import TOP
from tensor_client.library import Library, library_of

REFERENCE = os.path.join(os.path.dirname(os.path.realpath(__file__)), "reference_frames.py")


def built(variable, crate):
    """The path of a built program, which answers sooner than its script, or None."""
    path = os.environ.get(variable) or os.path.join(TOP, "crates", crate, "out", crate)
    return path if os.access(path, os.X_OK) else None


ONE, LINES = built("TENSOR_PROGRAM", "tensor_run"), built("TENSOR_LINES", "tensor_lines")
FRAMES = built("TENSOR_FRAMES", "tensor_frames")


def referring():
    """The reference as the library's functions, and a library of the client over them."""
    functions = reference_frames.Functions()
    with unittest.mock.patch("ctypes.CDLL", return_value=functions):
        return functions, Library("reference")


@contextlib.contextmanager
def by_process():
    """A process for each request, which takes a text."""
    yield lambda expr, **settings: client.run(expr, **{"program": ONE, **settings})


@contextlib.contextmanager
def by_frame():
    """A process for each request, which takes a frame."""
    yield lambda expr, **settings: client.run(expr, program=FRAMES, way="frames", **settings)


@contextlib.contextmanager
def by_library():
    """The library in this process."""
    yield lambda expr, **settings: client.run(expr, way="library", **settings)


@contextlib.contextmanager
def by_reference():
    """The client's calls of the library, answered by the reference."""
    functions, library = referring()
    with unittest.mock.patch("tensor_client.running.library_named", return_value=library):
        yield lambda expr, **settings: client.run(expr, way="library", **settings)
    assert not functions.owed, functions.owed


@contextlib.contextmanager
def by_session(way, program):
    """A session."""
    with client.Session(way=way, program=program) as session:
        yield session.run


# By way: what answers, whether it is there, and what opens it.
WAYS = {
    "process": ("tensor_run", ONE, by_process),
    "frame": ("tensor_frames", FRAMES, by_frame),
    "library": ("libtensor.so", library_of(), by_library),
    "lines": ("tensor_lines", LINES, lambda: by_session("lines", LINES)),
    "frames": ("tensor_frames", FRAMES, lambda: by_session("frames", FRAMES)),
    "reference frames": ("Python", True, lambda: by_session("frames", REFERENCE)),
    "reference library": ("Python", True, by_reference),
}


class OneWay:
    """Tests that run in each way. There is a class for each way, which names its way."""

    way = ""

    @classmethod
    def setUpClass(cls):
        what, is_there, opened = WAYS[cls.way]
        if not is_there:
            raise unittest.SkipTest(f"{what} isn't built: nothing was asked by {cls.way}")
        cls.open = opened()
        cls.ask = staticmethod(cls.open.__enter__())

    @classmethod
    def tearDownClass(cls):
        if WAYS[cls.way][1]:
            cls.open.__exit__(None, None, None)


def only_by(*ways):
    """Marks a test that runs only in these ways."""

    def mark(test):
        test.ways = ways
        return test

    return mark


def each_way(names, cases, ways=tuple(WAYS)):
    """Puts a test class for each of these ways into a module's names, given a class of cases."""
    for way in ways:
        name = cases.__name__ + "By" + way.title().replace(" ", "")
        own = {it: None for it, test in vars(cases).items() if way not in getattr(test, "ways", ways)}
        own.update(way=way, __module__=names["__name__"])
        made = type(name, (cases, unittest.TestCase), own)
        made.__doc__ = f"{cases.__doc__} By {way}."
        names[name] = made
