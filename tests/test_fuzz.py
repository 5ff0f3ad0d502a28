"""Tests of the program of a single request beside a reference in Python, over drawn texts.

There are three kinds of texts, and --count sets how many of each are drawn: valid requests by a
grammar of the format, half of them of version 2, on random workers and blocks; requests that are
nearly valid; and spoilt bytes. The reference (tests/fuzzing) shares no code with the program. The
line, the status and standard error are compared. A text that differs is made smaller before it is
shown. --seed sets which texts are drawn. With --places the program bench/places, which computes
each value by itself, answers each text too; its first build takes as long as that of the program.
"""

import fcntl
import os
import subprocess

import pytest

from fuzzing import reference
from fuzzing.drawing import KINDS, text_of
from fuzzing.shrinking import shrunk
from hostile import PROGRAM, TOP, run

COUNT, PARTS = 2_000, 10
# The reference computes no text of more places than these, all nodes together.
MOST_PLACES = 50_000


@pytest.fixture(scope="session")
def compared(programs, pytestconfig):
    """The programs that are compared with the reference."""
    found = [programs["tensor_run"]]
    if pytestconfig.getoption("--places"):
        words = [os.path.join(TOP, "bench", "run"), "--build", "places"]
        with open(words[0], "rb") as lock:
            fcntl.flock(lock, fcntl.LOCK_EX)
            said = subprocess.run(words, stdout=subprocess.PIPE, text=True, check=True).stdout
        found.append(said.strip())
    return found


def difference(text, programs, is_valid=False):
    """What differs from the reference's answer, if anything does."""
    answer = reference.answer(text, MOST_PLACES)
    if answer is None:
        return None
    line, status = answer
    if is_valid and status != 0:
        return f"the grammar calls this valid, and the reference answers {line!r:.300}"
    for program in programs:
        # Only the program of a single request tells a fault by its status.
        wanted = line.decode(), "", status if program == PROGRAM else 0
        got = run(text, program=program)
        if got != wanted:
            return f"{program} answers {got!r:.300}, not {wanted!r:.300}"
    return None


@pytest.mark.parametrize("part", range(PARTS))
@pytest.mark.parametrize("kind", KINDS)
def test_drawn_texts(compared, pytestconfig, seed, kind, part):
    for number in range(part, pytestconfig.getoption("--count") or COUNT, PARTS):
        text = text_of(seed, kind, number)
        if difference(text, compared, kind == "valid"):
            text = shrunk(text, lambda it: difference(it, compared) is not None)
            what = difference(text, compared, kind == "valid")
            pytest.fail(f"{kind}, number {number}: {text!r}: {what}")
