"""Tests of the release in release/, as tools/release writes it: a clone in which nothing is proved takes
programs and library from it, without the kit. They work on copies of the repository with small scripts in
place of programs and kit. test_packages.py tests what else tools/release makes, of the built programs.

A tool that a clone without the kit takes is added to TAKES.
"""

import hashlib
import os
import re
import shutil
import sys
import tarfile

import pytest

from copies import ANSWERED, BUILT, CPU, OTHER, REFUSED, Copy, appended, kit_in, text_of, written
from hostile import PROGRAMS, TOP

COMMANDS = [it.removeprefix("tensor_") for it in PROGRAMS]
VERSION = text_of(os.path.join(TOP, "VERSION")).strip()
ARCHIVE = f"release/tensor-{VERSION}-x86_64-linux.tar.xz"
SOURCE, PROOF = "crates/tensor_shape/src/lib.rt", "crates/tensor_terms/proofs/Known.antt"
SECONDS = 2
NO_KIT = {"PATH": "/usr/bin:/bin"}
# What a clone without the kit takes beside sh, and what unpacks.
TAKES = "awk cat dirname find grep mkdir mv nproc readlink rm sed sha256sum sort tar touch wc xargs"


def line(differs="", word="--prove", name="run"):
    """What is said where the release answers."""
    said = f"run: answered by release {VERSION}, which the gate built{differs}; ./{name} {word} proves"
    return re.compile(re.escape(said) + r" and builds this tree here, about \d+ minutes\n")


def differs(count):
    return f" of other code: {count} file{'s' * (count > 1)} here differ{'s' * (count == 1)}"


@pytest.fixture(scope="module")
def room(tmp_path_factory):
    """A folder for copies, with a kit that stands in."""
    return kit_in(tmp_path_factory.mktemp("release"))


@pytest.fixture(scope="module")
def made(room):
    """A copy that has written the release, of programs that it has built."""
    copy = Copy(room, "made")
    copy.put_programs()
    for name in "libtensor.a", "libtensor.so":
        written(copy.at(f"out/{name}"), name)
    copy.commit()
    assert copy.run("tools/release", "--as-built", "--write")[2] == ANSWERED
    return copy


@pytest.fixture(scope="module")
def cloned(room, made):
    return Copy(room, "clone")


@pytest.fixture
def clone(cloned, made):
    """A clone in which nothing is proved or built, with the release."""
    cloned.mend()
    for it in "out", "release", *(f"crates/{it}/out" for it in PROGRAMS):
        shutil.rmtree(cloned.at(it), ignore_errors=True)
    shutil.copytree(made.at("release"), cloned.at("release"))
    return cloned


def test_a_fresh_clone_answers_at_once(clone):
    before = os.times()
    out, said, status = clone.run("./run", text="asked\n", **NO_KIT)
    after = os.times()
    assert (out, status) == clone.answer()[::2]
    assert line().fullmatch(said)
    taken = after.children_user + after.children_system - before.children_user - before.children_system
    assert taken < SECONDS, "seconds of a processor"


@pytest.mark.parametrize("name", COMMANDS)
def test_each_name_takes_the_release_and_says_so_once(clone, name):
    first = clone.ask(f"./{name}", **NO_KIT)
    assert (first[0], first[2]) == clone.answer(name)[::2]
    assert line(name=name).fullmatch(first[1])
    assert clone.ask(f"./{name}", **NO_KIT) == clone.answer(name)


def test_a_second_call_takes_no_process_but_find(clone, tmp_path):
    clone.ask(**NO_KIT)
    (tmp_path / "find").symlink_to(shutil.which("find"))
    assert clone.ask(PATH=str(tmp_path)) == clone.answer()


def test_the_release_is_taken_with_the_kit_too(clone):
    (out, said, status), asked = clone.build("./run")
    assert (out, status, asked) == (*clone.answer()[::2], [])
    assert line().fullmatch(said)


def test_ready_puts_all_programs(clone):
    out, said, status = clone.run("./run", "--ready", **NO_KIT)
    wanted = f"is built for x86-64-v., as release {VERSION}, which the gate built\n"
    assert status == ANSWERED and re.fullmatch("".join(f"{it} {wanted}" for it in PROGRAMS), out)
    assert line(word="--check-all").fullmatch(said)
    for name in COMMANDS:
        assert clone.ask(f"./{name}", **NO_KIT) == clone.answer(name)


def tools_in(folder, names):
    """A folder of links to these tools."""
    os.makedirs(folder)
    for it in names:
        os.symlink(sys.executable if it == "python3" else shutil.which(it), folder / it)
    return {"PATH": str(folder)}


@pytest.mark.parametrize("unpacker", ["xz", "python3"])
def test_few_tools_are_enough(clone, tmp_path, unpacker):
    tools = tools_in(tmp_path / "bin", ["sh", unpacker, *TAKES.split()])
    out, said, status = clone.run("./run", text="asked\n", **tools)
    assert (out, status) == clone.answer()[::2], said
    assert line().fullmatch(said)


def test_what_unpacks_is_named_where_it_is_missing(clone, tmp_path):
    out, said, status = clone.run("./run", **tools_in(tmp_path / "bin", ["sh", *TAKES.split()]))
    assert (out, status) == ("", REFUSED) and "neither xz nor python3 is on PATH" in said


# Changes of a clone, and how many files of the code of ./run's program differ then.
CHANGES = {
    "a line of code": ([lambda it: appended(it, SOURCE)], 1),
    "a file more": ([lambda it: written(it.at("crates/tensor_shape/src/more.rt"), "\n")], 1),
    "a file less": ([lambda it: os.remove(it.at(SOURCE))], 1),
    "a definition and a line of code": (
        [lambda it: appended(it, "crates/tensor_shape/specs/Lib.antt"), lambda it: appended(it, SOURCE)],
        2,
    ),
    "a proof": ([lambda it: appended(it, PROOF)], 0),
    "another program's code": ([lambda it: appended(it, "crates/fault_reasons/src/lib.rt")], 0),
}


@pytest.mark.parametrize("what", CHANGES)
def test_code_that_differs_is_said_on_each_call(clone, what):
    changes, count = CHANGES[what]
    assert line().fullmatch(clone.ask(**NO_KIT)[1])
    for change in changes:
        change(clone)
    for _ in "now", "and again":
        out, said, status = clone.ask(**NO_KIT)
        assert (out, status) == clone.answer()[::2]
        assert line(differs(count)).fullmatch(said) if count else said == ""
    clone.mend()
    assert clone.ask(**NO_KIT) == clone.answer()


def test_what_is_proved_here_goes_first(clone):
    (out, said, status), asked = clone.build("./run", "--prove")
    assert status == ANSWERED and out == f"tensor_run is built for {CPU} from all that is here\n", said
    assert asked and clone.ask() == (BUILT, "", ANSWERED)
    appended(clone, SOURCE)
    out, said, status = clone.ask()
    assert (out, status) == ("", REFUSED) and "./run --prove builds that" in said
    assert line(differs(1), name="lines").fullmatch(clone.ask("./lines")[1])


@pytest.mark.parametrize("word", ["--prove", "--check-all"])
def test_a_proof_takes_no_release(clone, word):
    clone.ask()
    out, said, status = clone.run("./run", word, TENSOR_RUN_BUILD="no")
    assert (out, status) == ("", REFUSED)
    assert re.search(r"not built: tensor_run[ ,]", said) and f"./run {word} builds that" in said


@pytest.mark.parametrize("name", ["archive", "SOURCES"])
def test_a_damaged_release_is_refused(clone, name):
    path = ARCHIVE if name == "archive" else "release/SOURCES"
    appended(clone, path)
    out, said, status = clone.ask(**NO_KIT)
    assert (out, status) == ("", REFUSED)
    assert f"{path} isn't what release/SHA256SUMS says" in said


def test_a_program_of_the_release_that_changes_is_put_again(clone):
    clone.ask(**NO_KIT)
    appended(clone, "crates/tensor_run/out/tensor_run")
    out, said, status = clone.ask(**NO_KIT)
    assert (out, status) == clone.answer()[::2] and line().fullmatch(said)


def with_other_programs(copy):
    """Packs a release anew, in which each program for x86-64-v3 ends in a line more."""
    room, sums = copy.at("out/other"), copy.at("release/SHA256SUMS")
    with tarfile.open(copy.at(ARCHIVE)) as archive:
        archive.extractall(room)
    top = os.path.join(room, os.listdir(room)[0])
    for it in PROGRAMS:
        appended(copy, os.path.join(top, "libexec", "tensor", OTHER, it))
    with tarfile.open(copy.at(ARCHIVE), "w:xz") as archive:
        archive.add(top, os.path.basename(top))
    with open(copy.at(ARCHIVE), "rb") as file:
        sum_now = hashlib.sha256(file.read()).hexdigest()
    name = os.path.basename(ARCHIVE)
    written(sums, re.sub(rf"\w+(?=  {re.escape(name)}\n)", sum_now, text_of(sums)))


def test_a_processor_has_its_programs(clone):
    with_other_programs(clone)
    texts = {}
    for cpu in CPU, OTHER:
        assert clone.run("build/released", "--programs", cpu, "tensor_run", **NO_KIT)[2] == ANSWERED
        texts[cpu] = text_of(clone.at("crates/tensor_run/out/tensor_run"))
        assert text_of(clone.at("out/tensor_run.built")).endswith(f"built for {cpu}\n")
    assert texts[OTHER] == texts[CPU] + "\n"
    assert clone.ask(TENSOR_RUN_CPU=CPU, **NO_KIT)[2] == ANSWERED
    assert text_of(clone.at("crates/tensor_run/out/tensor_run")) == texts[CPU]


# The library, and what is installed.


def test_the_library_is_taken_without_the_kit(clone):
    appended(clone, "crates/prepared_expressions/src/lib.rt")
    _, said, status = clone.run("build/library", **NO_KIT)
    assert status == ANSWERED and f"release {VERSION}, which the gate built{differs(1)};" in said
    assert text_of(clone.at("out/libtensor.so")) == "libtensor.so"
    assert text_of(clone.at("out/libtensor.a")) == "libtensor.a"
    assert text_of(clone.at("out/tensor.h")) == text_of(clone.at("include/tensor.h"))
    assert clone.run("build/library", "--prove", **NO_KIT)[2] == REFUSED


def test_a_library_that_is_proved_goes_first(clone):
    for words in [], ["--prove"], []:
        (_, said, status), asked = clone.build("build/library", *words, TENSOR_RUN_KEPT="no")
        assert status == ANSWERED, said
        assert bool(asked) == bool(words)
    assert text_of(clone.at("out/libtensor.so")) == "made\n"
    assert not os.path.exists(clone.at("out/libtensor.released"))


def test_the_client_finds_the_library_of_the_release(clone):
    ask = "from tensor_client import finding; print([*finding.libraries()][-1], finding.built(finding.FRAMES))"
    wanted = f"{clone.at('out/libtensor.so')} {clone.at('frames')}\n"
    for put, text in ("by the release", "libtensor.so"), ("an earlier one", "libtensor.so"), ("built", "own"):
        if put != "by the release":
            written(clone.at("out/libtensor.so"), "own")
            written(clone.at("out/libtensor.released"), "of an earlier release")
        if put == "built":
            os.remove(clone.at("out/libtensor.released"))
        out = clone.run(sys.executable, "-Bc", ask, PYTHONPATH=clone.at("python"), **NO_KIT)[0]
        assert (out, text_of(clone.at("out/libtensor.so"))) == (wanted, text), put


def test_the_release_is_installed(clone, tmp_path):
    prefix = str(tmp_path / "prefix")
    out, said, status = clone.run("./install", prefix, **NO_KIT)
    assert status == ANSWERED and out.startswith("installed tensor "), said
    for name in COMMANDS:
        program = os.path.join(prefix, "bin", clone.programs[name])
        assert clone.run(program, text="asked\n", **NO_KIT) == clone.answer(name)
    assert text_of(os.path.join(prefix, "lib", "libtensor.so.1")) == "libtensor.so"


# What tools/release writes, and what the gate compares with it.


def test_the_sums_are_those_of_all_files(made):
    said = dict(reversed(it.split()) for it in text_of(made.at("release/SHA256SUMS")).splitlines())
    found = {}
    for it in os.listdir(made.at("release")):
        with open(made.at(f"release/{it}"), "rb") as file:
            found[it] = hashlib.sha256(file.read()).hexdigest()
    text = text_of(made.at("release/RELEASE.txt"))
    assert f"tensor {VERSION}," in text and found["SOURCES"] in text
    del found["SHA256SUMS"]
    assert said == found


@pytest.mark.parametrize(
    "path", ["crates/tensor_lines/out/tensor_lines", "out/libtensor.so", "out/libtensor.a"]
)
def test_compare_finds_one_byte(made, path):
    assert made.run("tools/release", "--compare")[2] == ANSWERED
    text = text_of(made.at(path))
    written(made.at(path), f"{text[:5]}?{text[6:]}")
    _, said, status = made.run("tools/release", "--compare")
    written(made.at(path), text)
    assert status == 1 and f"{path} differs from the release's at byte 5\n" in said


def test_compare_leaves_out_what_was_built_of_other_code(made):
    before = text_of(made.at(SOURCE))
    appended(made, SOURCE)
    appended(made, "out/libtensor.so")
    out, _, status = made.run("tools/release", "--compare")
    written(made.at(SOURCE), before)
    written(made.at("out/libtensor.so"), "libtensor.so")
    assert (out, status) == (f"{SOURCE} differs\n", ANSWERED)


def test_compare_is_content_where_there_is_no_release(clone):
    shutil.rmtree(clone.at("release"))
    assert clone.run("tools/release", "--compare")[2] == ANSWERED


def test_a_release_is_of_a_clone_without_changes(made):
    appended(made, "VERSION")
    out, said, status = made.run("tools/release", "--write")
    written(made.at("VERSION"), f"{VERSION}\n")
    assert (out, status) == ("", REFUSED) and "this clone has changes" in said


def test_what_is_proved_is_packed_for_other_clones(room, clone):
    """A clone takes all that another has proved from the archive, and only links."""
    no_cache = {"XDG_CACHE_HOME": os.path.join(room, "no_cache")}
    (_, said, status), asked = clone.build("./run", "--check-all", **no_cache)
    assert status == ANSWERED and asked, said
    _, said, status = clone.run("tools/release", "--proved", **no_cache)
    assert status == ANSWERED, said
    cache = os.path.join(room, "unpacked")
    shutil.unpack_archive(clone.at(f"out/tensor-{VERSION}-proved.tar.xz"), cache)
    shutil.rmtree(clone.at("out"))
    (out, said, status), asked = clone.build("./run", "--prove", XDG_CACHE_HOME=cache)
    assert status == ANSWERED and asked == [], said
