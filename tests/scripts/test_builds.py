"""Tests of builds by ./run, ./install, ./test, the gate and build/library, with a kit that stands in.

Each test works on copies of the repository in a temporary folder, and nothing is proved. A build begins
with what it is about to do. It builds the program that is called and no other's crates, and all programs
for ./test and ./install. Another clone takes what the first has proved.
"""

import os
import re
import shutil

import pytest

from copies import ANSWERED, BUILT, CPU, OTHER, REFUSED, Copy, appended, kit_in, script, written

SOURCE = "crates/tensor_shape/src/lib.rt"
# Only the program of ./explain stands on it.
EXPLAINED = "crates/fault_reasons/src/lib.rt"
BEGINS = re.compile(r"run: proving and building (\d+) of (\d+) .*: \d+ to \d+ min on .*; \./try answers")


@pytest.fixture(scope="module")
def room(tmp_path_factory):
    """A folder for copies, with a kit that stands in."""
    return kit_in(tmp_path_factory.mktemp("builds"))


def crates_of(asked):
    """The crates that the prover was asked for."""
    return {line.split()[2] for line in asked}


def jobs_of(crate, asked):
    """By how many jobs a crate was proved."""
    line = next(it for it in asked if it.split()[2] == crate)
    return int(re.search(r"--jobs (\d+)", line)[1])


@pytest.fixture(scope="module")
def first(room):
    """A copy that has built ./run's program, which was stopped once by a crate that isn't proved."""
    copy = Copy(room, "first")
    (out, said, status), stopped = copy.build("./run", PROVER_FAILS="expr_reader")
    assert (out, status) == ("", REFUSED) and "it is not proved" in said
    (out, said, status), asked = copy.build("./run")
    begins = BEGINS.match(said)
    assert (out, status) == (BUILT, ANSWERED) and begins, said
    # It goes on where it was.
    assert int(begins[1]) == len(asked) == said.count(" done in ") < len(stopped) + len(asked)
    copy.all_of_them = int(begins[2])
    return copy


def test_another_clone_proves_nothing(room, first):
    (out, said, status), asked = Copy(room, "second").build("./run")
    assert (out, status, asked) == (BUILT, ANSWERED, []), said
    assert f"({first.all_of_them} are taken of another clone)" in said


def test_a_clone_with_other_sources_proves(room, first):
    copy = Copy(room, "other_sources")
    appended(copy, SOURCE)
    (out, said, status), asked = copy.build("./run")
    assert (out, status) == (BUILT, ANSWERED) and asked, said


def test_nothing_is_taken_where_that_is_switched_off(room, first):
    (out, _, _), asked = Copy(room, "off").build("./run", TENSOR_RUN_KEPT="no")
    assert (out, len(asked)) == (BUILT, first.all_of_them)


def test_what_is_damaged_is_not_taken(room, first):
    copy = Copy(room, "damaged")
    damaged = os.path.join(room, "cache_damaged", "tensor-build")
    shutil.copytree(os.path.join(room, "cache", "tensor-build"), damaged)
    for it in os.listdir(damaged):
        if it.startswith("tensor_shape"):
            written(os.path.join(damaged, it, "made", "made"), "damaged")
    (out, _, _), asked = copy.build("./run", XDG_CACHE_HOME=os.path.dirname(damaged))
    assert (out, len(asked)) == (BUILT, 1)


def test_a_program_is_built_alone(room):
    """A program is built with what it stands on alone, and what others have built is taken."""
    copy = Copy(room, "one")
    copy.env["TENSOR_RUN_KEPT"] = "no"
    of_others = {"fault_reasons", "frame_server", "tensor_lines", "tensor_frames", "tensor_explain"}
    (out, said, status), asked = copy.build("./run")
    assert (out, status) == (BUILT, ANSWERED) and "tensor_run" in crates_of(asked), said
    assert not crates_of(asked) & of_others
    begins = BEGINS.match(said)
    assert begins and begins[1] == begins[2] == str(len(asked)), said
    # Half the processors prove a crate, and all prove one that is alone.
    processors = len(os.sched_getaffinity(0))
    wanted = [max(1, min(it, 8)) for it in (processors // 2, processors)]
    assert [jobs_of(it, asked) for it in ("tensor_shape", "tensor_run")] == wanted
    for name in "lines", "frames", "explain":
        out, said, status = copy.ask(f"./{name}")
        assert (out, status) == ("", REFUSED)
        assert f"not built: tensor_{name}, " in said and f"./{name} --prove builds" in said
    (out, said, status), asked = copy.build("./explain")
    assert (out, status) == (BUILT, ANSWERED), said
    assert crates_of(asked) == {"fault_reasons", "tensor_explain"}
    assert copy.ask() == (BUILT, "", ANSWERED)
    appended(copy, EXPLAINED)
    assert copy.ask() == (BUILT, "", ANSWERED)
    assert copy.run("./run", "--check", TENSOR_RUN_BUILD="no")[2] == ANSWERED
    assert copy.ask("./explain")[2] == REFUSED
    out, said, status = copy.run("./run", "--ready", TENSOR_RUN_BUILD="no")
    assert (out, status) == ("", REFUSED) and "tensor_run" not in said
    assert "tensor_lines tensor_frames tensor_explain, " in said and "./run --check-all builds" in said
    (out, said, status), asked = copy.build("./run", "--ready")
    assert status == ANSWERED and crates_of(asked) == of_others and len(BEGINS.findall(said)) == 1


@pytest.fixture(scope="module")
def with_all(room):
    """A copy in which ./install has built all programs, and which has tests that stand in."""
    copy = Copy(room, "all")
    copy.env["TENSOR_RUN_KEPT"] = "no"
    script(copy.at(".ci/tests"), "#!/bin/sh\necho tested\n")
    script(copy.at(".ci/packages"), "#!/bin/sh\n")
    for it in "build/library", "tools/edits", "tools/release":
        script(copy.at(it), "#!/bin/sh\n")
    (_, said, status), asked = copy.build("./install", os.path.join(room, "prefix_of_all"))
    assert status == ANSWERED and set(copy.programs.values()) < crates_of(asked), said
    assert len(BEGINS.findall(said)) == 1
    return copy


@pytest.mark.parametrize("command", ["./test", ".ci/run", "tools/gate"])
def test_a_command_builds_all_by_one_call_and_notes_each(with_all, command):
    for name in with_all.programs.values():
        os.remove(with_all.at(f"out/{name}.built"))
    (out, said, status), asked = with_all.build(command)
    assert status == ANSWERED and "tested" in out and not asked, said
    for name in with_all.programs:
        assert with_all.ask(f"./{name}") == (BUILT, "", ANSWERED)


def test_another_clone_takes_the_library(room):
    first, second, counts = Copy(room, "library"), Copy(room, "library_2"), []
    own_cache = os.path.join(room, "cache_of_library")
    for copy, cpu in (first, CPU), (second, CPU), (second, OTHER):
        (_, said, status), asked = copy.build("build/library", cpu, XDG_CACHE_HOME=own_cache)
        is_made = {"libtensor.a", "libtensor.so", "tensor.h"} < {*os.listdir(copy.at("out"))}
        assert is_made and status == ANSWERED, said
        counts.append(len(asked))
    assert counts[0] > 1 and counts[1:] == [0, 1]
