"""Tests of the library's pool of threads, which no proof speaks of (include/tensor_pool.c).

tests/support/pool.c calls the pool over functions that stand in for the library, and tells what each
mode tries. It runs as it is, and under ThreadSanitizer, which finds what two threads reach without the
lock. ThreadSanitizer can't start threads in a forked child, so `fork` runs as it is alone. Then the
calls of the pool are compared with those that they are made of, from Python, over the library itself.
"""

import ctypes
import subprocess

import pytest

from calling import Library, arrays_of, blank, bytes_of, header, written
from hostile import SUPPORT, TOP

MODES = ("callers", "wake", "refused", "paying", "failing", "close")
SECONDS = 300
RACES = "-fsanitize=thread"
NO_ROOM, NO_PLAN, BAD_TENSOR = -100, -101, -7
LINE = header('"a":{"dims":[9]},"b":{"dims":[9]}', '["sub",["mul","a","b"],"b"]')
PAIR = [list(range(9)), list(range(100, 109))]
WANTED = [a * b - b for a, b in zip(*PAIR)]


@pytest.fixture(scope="module")
def caller(compiler, tmp_path_factory):
    """Builds tests/support/pool.c with flags, and returns a function that runs one of its modes."""
    made = {}

    def run(mode, *flags):
        if flags not in made:
            made[flags] = tmp_path_factory.mktemp("pool") / "pool"
            words = [compiler, "-std=gnu11", "-O1", "-g", "-Wall", "-Wextra", "-Werror", "-pthread"]
            words += [*flags, "-Wl,--wrap=pthread_create", f"-I{TOP}/include", "-o", made[flags]]
            words += [f"{SUPPORT}/pool.c", f"{TOP}/include/tensor_pool.c"]
            built = subprocess.run(words, capture_output=True, text=True, check=False)
            if flags and built.returncode:
                pytest.skip("the compiler has no ThreadSanitizer (Debian's gcc)")
            assert built.returncode == 0, built.stderr
        how = {"capture_output": True, "text": True, "timeout": SECONDS, "check": False}
        ran = subprocess.run([made[flags], mode], **how)
        assert (ran.returncode, ran.stderr) == (0, "")

    return run


@pytest.mark.parametrize("mode", [*MODES, "fork"])
def test_mode(caller, mode):
    caller(mode)


@pytest.mark.parametrize("mode", MODES)
def test_mode_without_races(caller, mode):
    caller(mode, RACES)


@pytest.fixture(scope="module")
def library():
    return Library()


@pytest.fixture(scope="module", params=["open", "closed", "null"])
def pool(request, library):
    """A pool in this state, on which each call is right."""
    library.calls.tensor_pool_open.restype = ctypes.c_void_p
    opened = request.param != "null" and library.calls.tensor_pool_open(ctypes.c_size_t(3))
    found = ctypes.c_void_p(opened or None)
    assert bool(found) == (request.param != "null")
    if request.param == "closed":
        library.calls.tensor_pool_close(found)
    yield found
    library.calls.tensor_pool_close(found)


@pytest.mark.parametrize("parts", [0, 1, 2, 3, 9, 10, 257, 2**64 - 1])
@pytest.mark.parametrize("first, room", [(0, 9), (0, 12), (2, 5), (8, 4), (9, 2), (2**64 - 2, 9), (0, 0)])
def test_parts_are_the_whole(library, pool, parts, first, room):
    arrays = arrays_of(PAIR)
    plan = blank(100, ctypes.c_uint64)
    length = library.call("prepare", bytes_of(LINE), 18, plan)
    numbers = (ctypes.c_uint64 * length)(*plan[:length])
    values = WANTED[first : first + room]
    for name, text in ("pool_run", numbers), ("pool_evaluate_arrays", bytes_of(LINE)):
        out = blank(room + 3)
        words = [pool, text, len(text), arrays, 2, first, out, room, parts]
        got = getattr(library.calls, f"tensor_{name}")(*map(word, words))
        assert (got, list(out)) == (len(values), written(values, room + 3)), name


def word(it):
    """An argument of a call: a number is one of 64 bits."""
    return ctypes.c_uint64(it) if isinstance(it, int) else it


@pytest.mark.parametrize("parts", [1, 4])
def test_faults(library, pool, parts):
    of_one, out = arrays_of(PAIR[:1]), blank(9)
    rows = [("pool_evaluate_arrays", bytes_of(LINE), BAD_TENSOR), ("pool_evaluate_arrays", bytes_of("{"), -2)]
    rows += [("pool_run", blank(3, ctypes.c_uint64), NO_PLAN)]
    for name, text, fault in rows:
        words = [pool, text, len(text), of_one, 1, 0, out, 9, parts]
        assert getattr(library.calls, f"tensor_{name}")(*map(word, words)) == fault
        assert list(out) == written([], 9)
