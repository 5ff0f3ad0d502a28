"""Tests of ./run and its other names, with stand-ins. scripts/test_install.py has ./install and
./uninstall.

Each test works on a copy of the repository in a temporary folder, where a small script stands for each
program and for the kit, so nothing is proved and no program has to be built. A change that makes another
program is added to NOTICED, and one that makes no other program to TAKEN.
"""

import glob
import os
import re
import shutil
import subprocess

import pytest

from copies import ANSWERED, CPU, OPTIONS, REFUSED, Copy, appended, calls, kit_in, text_of, version, written
from hostile import PROGRAMS, TOP

SOURCE = "crates/tensor_shape/src/lib.rt"
DEFINITION = "crates/tensor_shape/specs/Lib.antt"
PROOF = "crates/tensor_terms/proofs/Known.antt"
# Only the program of ./explain stands on it.
EXPLAINED = "crates/fault_reasons/src/lib.rt"
COMMANDS = [it.removeprefix("tensor_") for it in PROGRAMS]
CHECKED = f"tensor_run is built for {CPU} from all that is here\n"

# Scripts that a user calls by their names.
TOOLS = sorted(it for it in glob.glob(f"{TOP}/tools/*") if os.path.isfile(it) and os.access(it, os.X_OK))
SCRIPTS = [*TOOLS, *(f"{TOP}/{it}" for it in ("test", "install", "uninstall", "build/library", "build/program"))]


@pytest.fixture(scope="module")
def room(tmp_path_factory):
    """A folder for copies, with a kit that stands in."""
    return kit_in(tmp_path_factory.mktemp("commands"))


@pytest.fixture(scope="module")
def named(room):
    """A copy with all programs, which no test changes."""
    copy = Copy(room, "named")
    copy.put_programs()
    return copy


@pytest.fixture(scope="module")
def changing(room):
    return Copy(room, "changed")


@pytest.fixture
def changed(changing):
    """A copy to change, which ./run has found right before."""
    changing.mend()
    changing.put_programs()
    assert changing.ask() == changing.answer()
    return changing


# The names of ./run, links to them, and their arguments.


@pytest.mark.parametrize("name", COMMANDS)
def test_a_name_answers(named, name):
    assert named.ask(f"./{name}") == named.answer(name)
    assert named.ask(os.path.join("..", "named", name)) == named.answer(name)


@pytest.mark.parametrize("name", COMMANDS)
def test_an_answer_takes_no_process_but_find(named, name, tmp_path):
    (tmp_path / "find").symlink_to(shutil.which("find"))
    assert named.ask(f"./{name}") == named.answer(name)
    assert named.ask(f"./{name}", PATH=str(tmp_path)) == named.answer(name)


@pytest.mark.parametrize("name", COMMANDS)
def test_help_is_the_page_of_the_program(named, name):
    out, said, status = named.run(f"./{name}", "--help")
    assert name in out and named.programs[name] in out and "Exit status: 0" in out
    assert (said, status) == ("", ANSWERED)


@pytest.mark.parametrize("name", COMMANDS)
def test_a_program_has_a_manual_page(named, name):
    page, _, status = named.run("build/man", named.programs[name])
    assert status == ANSWERED and ".SH EXIT STATUS" in page
    if not shutil.which("groff"):
        pytest.skip("no groff (Debian's groff)")
    assert named.run("groff", "-man", "-Tutf8", "-ww", "-z", text=page) == ("", "", ANSWERED)


@pytest.mark.parametrize("name", calls())
def test_a_call_has_a_manual_page(named, name):
    page, _, status = named.run("build/man", "3", name)
    assert status == ANSWERED and f".TH {name} 3 " in page
    assert name == "tensor" or f"\nint64_t {name}(" in page
    assert re.search(rf"\n{name} \\- [a-z][^.\n]+\n\.SH SYNOPSIS", page)
    others = [f"{it}(3)" for it in (calls()[1:] if name == "tensor" else ["tensor"])]
    assert page.endswith(f".SH SEE ALSO\n{', '.join(others)}.\n")
    if not shutil.which("groff"):
        pytest.skip("no groff (Debian's groff)")
    assert named.run("groff", "-man", "-Tutf8", "-ww", "-z", text=page) == ("", "", ANSWERED)


def test_the_calls_that_have_a_page(named):
    assert named.run("build/man", "--calls") == ("\n".join(calls()) + "\n", "", ANSWERED)


@pytest.mark.parametrize("name", ["lines", "frames"])
@pytest.mark.parametrize("words", OPTIONS, ids=" ".join)
def test_options_are_the_programs_to_judge(named, name, words):
    assert named.ask(f"./{name}", *words) == named.answer(name, *words)


@pytest.mark.parametrize("name", ["run", "explain"])
@pytest.mark.parametrize("word", ["a.json", "--other"])
def test_a_word_is_refused_where_a_program_reads_none(named, name, word):
    assert named.ask(f"./{name}", word)[::2] == ("", REFUSED)


def test_a_link_to_run_answers(named, tmp_path):
    (tmp_path / "answer").symlink_to(named.at("run"))
    assert named.ask(str(tmp_path / "answer")) == named.answer()


def test_version(named):
    assert named.run("./run", "--version")[0] == text_of(named.at("VERSION"))


def test_settings_of_memory_that_are_set_stand(named):
    assert named.ask(GLIBC_TUNABLES="a=2")[0].startswith("tensor_run a=2\n")


@pytest.mark.parametrize("cpu", ["x86-64-v3", "x86-64-v9"])
def test_a_program_for_another_processor_is_not_taken(named, cpu):
    assert named.ask(TENSOR_RUN_CPU=cpu)[2] == REFUSED


@pytest.mark.parametrize("word", ["--check", "--prove"])
def test_check_and_prove_say_what_a_program_is(named, word):
    assert named.run("./run", word)[::2] == (CHECKED, ANSWERED)


@pytest.mark.parametrize("word", ["--ready", "--check-all"])
def test_all_programs_are_checked(named, word):
    wanted = "".join(CHECKED.replace("tensor_run", it) for it in named.programs.values())
    assert named.run("./lines", word)[::2] == (wanted, ANSWERED)


def test_a_name_of_no_program_is_refused(named):
    os.symlink("run", named.at("another"))
    assert named.run("./another")[::2] == ("", REFUSED)


# What ./run notices, and what it takes.


def set_back(copy, path):
    """Changes a file, and sets its time back to what it was."""
    before = os.stat(copy.at(path))
    appended(copy, path)
    os.utime(copy.at(path), ns=(before.st_atime_ns, before.st_mtime_ns))


def without_note(copy):
    for it in "run.fresh", "tensor_run.built":
        os.remove(copy.at(os.path.join("out", it)))


def noted_for_all(copy):
    """What notes of all programs in one said."""
    without_note(copy)
    said = copy.run("build/sources")[0] + copy.run("build/made", CPU)[0]
    written(copy.at("out/tensor_run.built"), said)


def noted_by_another(copy):
    """The note of another program in place of this one's."""
    without_note(copy)
    shutil.copy(copy.at("out/tensor_lines.built"), copy.at("out/tensor_run.built"))


# What makes another program of ./run, or says another thing of it.
NOTICED = {
    "a line of code": lambda it: appended(it, SOURCE),
    "a line of code, the file's time set back": lambda it: set_back(it, SOURCE),
    "a line of a definition": lambda it: appended(it, DEFINITION),
    "a file more": lambda it: written(it.at("crates/tensor_shape/src/more.rt"), "\n"),
    "a file in a folder more": lambda it: written(it.at("crates/tensor_shape/src/a/b.rt"), "\n"),
    "a file less": lambda it: os.remove(it.at(SOURCE)),
    "a file of another name": lambda it: os.rename(it.at(SOURCE), it.at(SOURCE[:-4] + "_2.rt")),
    "a crate's line": lambda it: written(
        it.at("crates.txt"), text_of(it.at("crates.txt")).replace("thiserror", "thiserror json")
    ),
    "a program": lambda it: appended(it, "crates/tensor_run/out/tensor_run"),
    "no program": lambda it: os.remove(it.at("crates/tensor_run/out/tensor_run")),
    "no note of its build": without_note,
    "a note of all programs as one": noted_for_all,
    "another program's note": noted_by_another,
}
# What makes no other program of ./run.
TAKEN = {
    "a file that is written as it was": lambda it: os.utime(it.at(SOURCE)),
    "a file that came and went": lambda it: os.remove(written(it.at(SOURCE + "~"), "\n")),
    "other settings of memory": lambda it: written(it.at("build/tunables"), "a=1\n"),
    "another start of the machine": lambda it: written(
        it.at("out/run.fresh"), re.sub("boot=.*", "boot=other", text_of(it.at("out/run.fresh")))
    ),
    "no note": lambda it: os.remove(it.at("out/run.fresh")),
    "a proof": lambda it: appended(it, PROOF),
    "a crate that no program needs": lambda it: appended(it, "crates/uses/src/lib.rt"),
    "a crate that another program needs": lambda it: appended(it, EXPLAINED),
    "no other program": lambda it: os.remove(it.at("crates/tensor_lines/out/tensor_lines")),
    "no note of another's build": lambda it: os.remove(it.at("out/tensor_lines.built")),
}


@pytest.mark.parametrize("what", NOTICED)
def test_a_change_is_noticed(changed, what):
    NOTICED[what](changed)
    got = changed.ask()
    assert (got[0], got[2]) == ("", REFUSED), got


@pytest.mark.parametrize("what", TAKEN)
def test_a_change_of_no_program_is_taken(changed, what):
    TAKEN[what](changed)
    assert changed.ask() == changed.answer()


def test_another_kit_is_noticed(changed, tmp_path):
    shutil.copytree(os.path.join(changed.room, "kit"), tmp_path / "kit")
    assert changed.ask(PATH=f"{tmp_path}/kit/bin:{changed.env['PATH']}")[2] == REFUSED


def test_check_sees_a_proof(changed):
    appended(changed, PROOF)
    assert changed.run("./run", "--check", TENSOR_RUN_BUILD="no")[::2] == ("", REFUSED)


# What carries the version.
VERSIONS = {
    "CHANGELOG.md": r"(?m)^## (\d\S*)",
    "python/tensor_client/__init__.py": r'(?m)^__version__ = "(.+)"',
    "include/tensor.h": r'(?m)^#define TENSOR_VERSION "(.+)"\n#define TENSOR_VERSION_NUMBER (\d+)$',
    "crates/tensor_c/specs/Version.antt": r"(?m)^version = packed (\d+ \d+ \d+)$",
    "crates/tensor_c/edits/version-of-another-release.edit": r"(?m)^old: +([\d_]+)$",
}


@pytest.mark.parametrize("path", VERSIONS)
def test_a_file_carries_the_version(path):
    found = re.search(VERSIONS[path], text_of(os.path.join(TOP, path)))
    number = int("".join(it.zfill(3) for it in version().split(".")))
    assert found and {*found.groups()} <= {version(), version().replace(".", " "), f"{number}", f"{number:_}"}


@pytest.mark.parametrize("script", SCRIPTS, ids=os.path.basename)
def test_scripts_print_their_usage(script):
    ran = subprocess.run([script, "--help"], capture_output=True, text=True, check=False)
    assert (ran.returncode, ran.stderr) == (ANSWERED, "")
    assert os.path.basename(script) in ran.stdout.split("\n")[0]
