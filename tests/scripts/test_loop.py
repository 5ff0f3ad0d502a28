"""Tests of the inner loop, from a changed line to a program, with a kit that stands in.

They try in which order a build takes the crates, and how long it says that it takes. `./run --quick`
proves the crate that changed, and crates above only where its statements changed. `tools/check` checks a
function over the libraries that are built. A new case of a change is a line in test_quick.
"""

import os
import re

import pytest

from copies import ANSWERED, CPU, REFUSED, Copy, kit_in, script, text_of, written
from crates import crates
from pace import Pace

# A library's code is in two files as the prover makes them, and its statements are what its specs say.
PROVER = """#!/bin/sh
echo "$*" >>"$ASKED"
nice >"$ASKED.$3"
[ "$1" = build ] || {
    printf '%s\\n' "statements std: modules loaded=1 checked=0" "fn $3::f: not proved" "only=1 proved=0"
    exit 1
}
name=$3
while [ "$1" != -o ]; do shift; done
case $2 in
    *.rlib) ;;
    *) echo "$name" >"$2" && exit ;;
esac
mkdir -p "$2/toolchain"
code=$(find src -type f -exec cat {} + | cksum)
echo "$code" >"$2/toolchain/mir.json"
printf '%s\\n' '["proofs/f/Met", 0, 1, "", false]' "[\\"proofs/f/Lts\\", 1, 1, \\"$code\\", false]" \\
    >"$2/toolchain/made.json"
printf '%s\\n' "crate $name" "checked $code" "sum $code" >"$2/format"
[ ! -d specs ] || find specs -type f -exec cat {} + >"$2/stated"
"""
CHAIN = "shape values scans terms views loops ops".split()
PROGRAM = {"tensor_run"}
TERMS = "crates/tensor_terms/src/lib.rt"
BUILT = "built\nasked\n"


@pytest.fixture(scope="module")
def first(tmp_path_factory):
    """A copy of the repository in which ./run has built its program whole."""
    room = kit_in(tmp_path_factory.mktemp("loop"))
    script(os.path.join(room, "kit", "bin", "rattle"), PROVER)
    copy = Copy(room, "first")
    (out, said, status), copy.asked = copy.build("./run")
    assert (out, status) == (BUILT, ANSWERED), said
    copy.said = said
    return copy


@pytest.fixture
def copy(first, tmp_path):
    """Another copy, that has taken all of this."""
    found = Copy(str(tmp_path), "copy")
    found.env = first.env
    ran, asked = found.build("./run")
    assert (ran[0], asked) == (BUILT, []), ran
    return found


def crates_of(asked):
    return {line.split()[2] for line in asked}


def changed(copy, path):
    written(copy.at(path), text_of(copy.at(path)) + "\n")


def above(name):
    """The crates that ./run's program has at and above a crate."""
    of_run = {**crates()["tensor_run"].all_below(), "tensor_run": crates()["tensor_run"]}
    return {name} | {it.name for it in of_run.values() if name in it.all_below()}


def quickly(copy):
    """The crates that the prover is asked for by a quick build, and what that says."""
    (out, said, status), asked = copy.build("./run", "--quick")
    assert (status, out) == (0, f"tensor_run is built quickly for {CPU} from all that is here\n"), said
    assert ("not the gate" in said) == bool(asked)
    return crates_of(asked), asked, said


def test_order(first):
    """A crate is begun behind those below it, the one with the most work above it first. The crates that
    all others wait for have the first call on processors."""
    order = [line.split()[2] for line in first.asked]
    for it in order:
        assert all(order.index(low.name) < order.index(it) for low in crates()[it].below), it
    assert order[0] in ("event_word", "tensor_shape")
    held_up = [f"tensor_{it}" for it in CHAIN] + ["expr_reader", "tensor_runner", "tensor_run"]
    niceness = {it: int(text_of(f"{first.env['ASKED']}.{it}")) - os.nice(0) for it in order}
    assert {niceness[it] for it in held_up} == {0}
    assert niceness["message_server"] == niceness["pool_barrier"] == min(5, 19 - os.nice(0))


def test_announced_range(first):
    begins = re.search(r"proving and building \d+ of \d+ .*: (\d+) to (\d+) min on ", first.said)
    assert begins and int(begins[1]) < int(begins[2]) <= 2 * int(begins[1]) + 1, first.said


def test_time_goes_by_what_is_measured():
    """A machine that takes thrice as long for the first crate is expected to do so for all."""
    known = crates()
    left = [*known["tensor_run"].all_below().values(), known["tensor_run"]]
    pace = Pace(left, 4)
    pace.load = 0
    pace.begin(left)
    low, high = map(int, re.fullmatch(r"(\d+) to (\d+) min", pace.time_left(left)).groups())
    assert 2 * low - 1 <= high <= 2 * low + 1
    pace.note(left[0], 3 * pace.seconds[left[0].name])
    number = int(re.fullmatch(r"about (\d+) min", pace.time_left(left))[1])
    assert 3 * low - 2 <= number <= 3 * low + 2
    assert pace.seconds_on(left) * 4 >= sum(pace.seconds.values())


def test_quick(copy):
    """A change has its crate proved and the program built, and crates above where a statement changed."""
    changed(copy, TERMS)
    # What was proved whole fits only what lies below it: the first time all above is proved too.
    asked, lines, _ = quickly(copy)
    assert asked == above("tensor_terms")
    assert all("--incremental" in it and "--statements" not in it for it in lines)
    for path, wanted in {
        TERMS: {"tensor_terms"},
        "crates/tensor_terms/specs/Term.antt": above("tensor_terms"),
        "crates/tensor_run/src/main.rt": set(),
    }.items():
        changed(copy, path)
        asked, _, said = quickly(copy)
        assert asked == wanted | PROGRAM, path
        assert path != TERMS or "tensor_views stays proved" in said
    assert quickly(copy)[0] == set()


def test_seed(copy):
    """Once all libraries are in out/quick, the first change is quick too."""
    (_, said, status), asked = copy.build("build/program", "--seed", CPU, "tensor_run")
    assert status == 0 and crates_of(asked) == {*crates()["tensor_run"].all_below()}, said
    assert copy.ask() == (BUILT, "", ANSWERED)
    changed(copy, TERMS)
    assert quickly(copy)[0] == {"tensor_terms"} | PROGRAM


def test_what_is_built_quickly_is_no_gate(copy):
    """./run takes it as long as nothing changes. What hands it out or tests it has it proved whole."""
    changed(copy, TERMS)
    quickly(copy)
    assert copy.ask() == (BUILT, "", ANSWERED)
    assert text_of(copy.at("out/tensor_run.built")).startswith("built quickly, and not as the gate")
    assert copy.run("./run", "--check-all", TENSOR_RUN_BUILD="no")[::2] == ("", REFUSED)
    (out, said, status), asked = copy.build("./run", "--check")
    assert (status, out) == (0, "tensor_run is built for x86-64-v2 from all that is here\n"), said
    assert all("--incremental" not in it for it in asked) and crates_of(asked) >= above("tensor_terms")


def test_check(copy):
    """The prover is asked for a function, over the libraries that are built, and has the last word."""
    command = "tools/check", "tensor_values", "--only", "operations::applied", "--allow-holes"
    (out, said, status), asked = copy.build(*command)
    assert (out, status) == ("fn tensor_values::f: not proved\nonly=1 proved=0\n", 1), said
    words = asked[-1].split()
    assert words[:3] == ["check", "--crate-name", "tensor_values"] and words[-1] == "src/lib.rt"
    assert {"--only=operations::applied", "--allow-holes", "--incremental"} <= {*words}
    library = next(it for it in words if it.startswith("tensor_shape=")).partition("=")[2]
    assert text_of(os.path.join(library, "format")).startswith("crate tensor_shape\n")


@pytest.mark.parametrize("name, how", [("tensor_frames", "./run --check-all"), ("use_tests", "rt ci ")])
def test_check_names_what_is_not_built(copy, name, how):
    (out, said, status), asked = copy.build("tools/check", name)
    assert (out, status, asked) == ("", 2, []) and f"not built below {name}: " in said and how in said
