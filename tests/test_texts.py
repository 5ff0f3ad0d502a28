"""Runs the program of one request on texts that mean it harm, and compares the lines of its answers.

Each proper prefix of a request's text and that text with any one byte turned to 0xFF have to be no
JSON. The other texts stand in support/hostile_texts.py. No large one may take more than MOST_SECONDS
of a processor and MOST_MIB of memory, or less where LESS_MIB says so. A new text is a row there.
"""

import pytest

from hostile import measured, run, status_of
from hostile_texts import CONTRACTION, LARGE, MOST_BYTES, NOT_JSON, SMALL

pytestmark = pytest.mark.usefixtures("programs")

MOST_SECONDS = 60
MOST_MIB = 3_072
# Of steps over a million places each only the tensors that a later step reads are kept.
LESS_MIB = {"sums of sums, 120 deep": 64}


def cut(at):
    return CONTRACTION[:at]


def spoilt(at):
    return CONTRACTION[:at] + b"\xff" + CONTRACTION[at + 1 :]


@pytest.mark.parametrize("changed", [cut, spoilt], ids=["cut", "spoilt"])
def test_no_json(changed):
    for at in range(len(CONTRACTION)):
        assert run(changed(at)) == (NOT_JSON, "", 1), f"at byte {at}"


@pytest.mark.parametrize("text, line", SMALL.values(), ids=SMALL)
def test_small(text, line):
    assert run(text) == (line, "", status_of(line))


@pytest.mark.timed
@pytest.mark.parametrize("name", LARGE)
def test_large(name, tmp_path):
    make, line = LARGE[name]
    path = tmp_path / "text"
    with path.open("wb") as file:
        file.writelines(make())
    assert path.stat().st_size <= MOST_BYTES
    used = measured(path, tmp_path)
    path.unlink()
    assert used[:3] == (line, "", status_of(line))
    assert used.processor <= MOST_SECONDS and used.peak <= LESS_MIB.get(name, MOST_MIB)
