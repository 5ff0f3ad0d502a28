"""Tests that the definitions, the reference and the programs give equal answers.

The definitions of specs/ are evaluated by tools/notation; the reference is the one in
tests/fuzzing. The texts are those of crates/request_cases, texts at the limits, and drawn ones,
--count in all. The place of a fault by the definitions is compared with the place that a walk in
Python finds. Some texts, and texts of version 3, are made frames, which the program of many frames
answers. Only the dims of an answer are compared where its values are too many for the definitions.
OUT_OF_REACH has the cases of definitions that no text reaches.
"""

import itertools
import subprocess

import pytest

from framing import answered, frame, parts
from fuzzing import meaning, places, reference
from fuzzing.drawing import KINDS
from fuzzing.rules import MOST_BYTES
from hostile import FRAMES_PROGRAM, run

pytestmark = pytest.mark.usefixtures("kit")
COUNT = 1_000
# In how many tests the texts and frames are asked.
PARTS = {"of request_cases": 8, "at the limits": 1, meaning.OF_NODES: 2, "frames": 4}
PARTS.update(dict.fromkeys(KINDS, 2))
# Cases that nothing reaches, by definition and number.
OUT_OF_REACH = {
    # Lists of unequal lengths: an operation's own checks come before its values.
    ("tensor_shape/Index.place_by", 2),
    # Another number of operands or arguments: that is looked at before.
    ("expr_reader/Arguments.arguments_at", 3),
    ("expr_reader/Node.applied", 4),
    # Out of memory, which is no fault of a text.
    ("expr_reader/Faults.number_and_name", 15),
}


@pytest.fixture(scope="session")
def asked(pytestconfig, seed):
    """All texts by what they are, and the frames."""
    count = pytestconfig.getoption("--count") or COUNT
    return {**meaning.texts(count, seed), "frames": meaning.all_frames(count, seed)}


def reached():
    return {case for case, count in meaning.case_counts().items() if count}


def check(text):
    answers, wanted = meaning.definitions(), meaning.wanted_of(text)
    if wanted is None:
        assert answers.dims(text) == reference.read(text)[0], f"the dims of {text!r:.300}"
        return
    line, status = wanted
    assert answers.line(text) == line, f"the definitions, {text!r:.300}"
    assert run(text) == (line.decode(), "", status), f"the program, {text!r:.300}"
    fault = places.find(text)[1]
    assert answers.place(text) == (fault and fault[1]), f"the place, {text!r:.300}"


def check_frames(some):
    data = b"".join(frame(header, values) for header, values, _ in some)
    said = subprocess.run([FRAMES_PROGRAM], input=data, capture_output=True, check=True).stdout
    for (header, values, line), answer in itertools.zip_longest(some, parts(said)[0]):
        assert meaning.definitions().line_of_frame(header, values) == line, f"{header!r:.300}"
        assert answer == answered(line.decode()), f"{header!r:.300}"


@pytest.mark.usefixtures("programs")
@pytest.mark.parametrize("name, part", [(it, part) for it in PARTS for part in range(PARTS[it])])
def test_answers(asked, name, part):
    some = asked[name][part :: PARTS[name]]
    if name == "frames":
        check_frames(some)
    else:
        for text in some:
            check(text)
    assert not reached() & OUT_OF_REACH


def test_each_case_is_reached(asked):
    """Short texts and frames are asked before long ones, and first one that is past the limit."""
    answers = meaning.definitions()
    some = itertools.chain.from_iterable(asked.values())
    pairs = [it if isinstance(it, tuple) else (it, None) for it in some]
    never = meaning.case_counts().keys() - OUT_OF_REACH - reached()
    for text, values, *_ in sorted(pairs, key=lambda it: len(it[0]) % (MOST_BYTES + 1)):
        if values is not None:
            answers.line_of_frame(text, values)
        elif meaning.wanted_of(text) is not None:
            answers.line(text)
        never -= reached()
        if not never:
            break
    assert not never
