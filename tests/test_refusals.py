"""Refuses each of a program's requests for memory and starts of threads in turn.

For N = 1, 2, .. until some runs in a row meet no refusal, the program is run with its Nth request
for memory refused, or with the Nth and all later ones; and so with its starts of threads. It has to
print its own line, or `error 15 NoMemory` with status 1 where memory was refused, and nothing on
standard error, and to end by no signal. support/refusals.c says what is counted. The memory of
crates/plain_run is refused too: it evaluates a request on one thread, with no plan and no pool. A new
request is a row of ALONE or STARTING in support/step_requests.py. A test of crates/pool_tests, which
opens pools that stay open, is run in the same way.
"""

import os

import pytest

from hostile import MATRICES, NO_MEMORY, PLAIN, PROGRAM, QUIET, built_tests, request, status_of
from step_requests import ALONE, SLID, SLID_VALUES, STARTING

pytestmark = pytest.mark.usefixtures("programs")

ONWARD = pytest.mark.parametrize("onward", [0, 1], ids=["one", "all later ones too"])
# What plain_run is asked, which goes value by value, and its values and dims.
FEW_SUMS = '["sum",["contract","l",["neg","r"],[[1,0]]],[1]]'
PLAIN_REQUESTS = {
    "each kind of step": (
        request(MATRICES, f'["add",{FEW_SUMS},["maximum",["shuffle","l",[1,0]],[0]]]', block=1),
        f'{{"data":{[-47, -107]},"dims":[2]}}\n',
    ),
    "version 2": (
        request(MATRICES, SLID, version=2, block=1),
        f'{{"data":{SLID_VALUES},"dims":[2, 4]}}\n',
    ),
}
# The tests of pools, the test whose starts of threads are refused, how many it makes, and what is printed
# if it passes.
POOL_TESTS = built_tests("pool_tests")
STANDING, STANDING_STARTS = "standing::each_leaf_though_starts_are_refused", 6
PASSED = ("\ntest result: ok\n", "", 0)


def lines_of(runs, line, refused_line):
    """The lines of runs, of which each has to have the own line, or the refused one where it met a
    refusal; and how many met one."""
    lines, met = set(), 0
    for number, got, is_met in runs:
        wanted = (line, refused_line) if is_met else (line,)
        assert got in [(it, "", status_of(it)) for it in wanted], f"request {number}"
        lines.add(got[0])
        met += is_met
    return lines, met


@ONWARD
@pytest.mark.parametrize("name", [*ALONE, *STARTING])
def test_memory(refusals, name, onward):
    text, line = {**ALONE, **STARTING}[name]
    _, met = lines_of(refusals.in_turn(text, PROGRAM, "memory", onward), line, NO_MEMORY)
    assert met


@ONWARD
@pytest.mark.parametrize("name", [*ALONE, *STARTING])
def test_starts(refusals, name, onward):
    text, line = {**ALONE, **STARTING}[name]
    _, met = lines_of(refusals.in_turn(text, PROGRAM, "start", onward), line, line)
    assert bool(met) == (name in STARTING)


@ONWARD
@pytest.mark.parametrize("text, line", PLAIN_REQUESTS.values(), ids=PLAIN_REQUESTS)
def test_memory_of_plain_run(refusals, text, line, onward):
    if not os.access(PLAIN, os.X_OK):
        pytest.skip("plain_run isn't built: rt run in crates/plain_run")
    lines, _ = lines_of(refusals.in_turn(text, PLAIN, "memory", onward), line, NO_MEMORY)
    assert lines == {line, NO_MEMORY}


@ONWARD
def test_starts_of_a_standing_pool(refusals, onward):
    """One start is refused in each run, or one and all later ones; and none in the last runs."""
    if not os.access(POOL_TESTS, os.X_OK):
        pytest.skip("the tests of pool_tests aren't built: rt test in crates/pool_tests")
    refused = []
    for number, got, _ in refusals.in_turn(b"", POOL_TESTS, "start", onward, [STANDING]):
        assert got == PASSED, f"start {number}"
        assert refusals.starts == STANDING_STARTS
        refused.append(refusals.starts_refused)
    wanted = range(STANDING_STARTS, 0, -1) if onward else [1] * STANDING_STARTS
    assert refused == [*wanted, *[0] * QUIET]
