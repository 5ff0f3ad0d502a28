"""Tests of ./install and ./uninstall on a copy of the repository, with stand-ins for its programs and for
the kit.

Nothing is proved, and no program has to be built. test_commands.py has ./run and its other names.
"""

import os
import re
import shutil
import sys

import pytest

from copies import ANSWERED, OPTIONS, REFUSED, Copy, calls, kit_in, text_of, version, written


@pytest.fixture(scope="module")
def room(tmp_path_factory):
    """A folder for copies, with a kit that stands in."""
    return kit_in(tmp_path_factory.mktemp("install"))


def files_below(folder):
    return sorted(
        os.path.relpath(os.path.join(at, it), folder)
        for at, _, names in os.walk(folder)
        for it in names
    )


def test_nothing_is_installed_where_nothing_is_built(room):
    copy, nowhere = Copy(room, "nothing_built"), os.path.join(room, "nowhere")
    assert copy.run("./install", nowhere, TENSOR_RUN_BUILD="no")[2] == REFUSED
    assert not os.path.exists(nowhere)


@pytest.fixture(scope="module")
def installing(room):
    """A copy to install from."""
    copy = Copy(room, "installed")
    copy.put_programs()
    written(copy.at("out/libtensor.a"), "a")
    written(copy.at("out/libtensor.so"), "so")
    return copy


@pytest.fixture
def prefix(installing, tmp_path):
    """A folder in which all is installed, twice, and a file that isn't ours."""
    folder = tmp_path / "prefix"
    written(folder / "share" / "man" / "man1" / "own.1", "own")
    for _ in "once", "again":
        out, said, status = installing.run("./install", str(folder))
        assert status == ANSWERED and out.startswith("installed tensor "), said
    return str(folder)


def listed(prefix):
    return text_of(os.path.join(prefix, "share/tensor/installed")).split()


def test_the_list_has_what_is_installed(installing, prefix):
    found = listed(prefix)
    assert sorted(found) == [it for it in files_below(prefix) if not it.endswith("own.1")]
    assert {"lib/libtensor.a", "lib/libtensor.so", "include/tensor.h"} < {*found}
    assert {f"share/man/man1/{it}.1" for it in installing.programs.values()} < {*found}
    assert {f"share/man/man3/{it}.3" for it in calls()} < {*found}


def test_installed_programs_answer(installing, prefix):
    for command, name in installing.programs.items():
        program = os.path.join(prefix, "bin", name)
        assert installing.ask(program) == installing.answer(command)
        assert installing.ask(program, GLIBC_TUNABLES="b")[0].startswith(f"{name} b\n")
        page = text_of(installing.at(f"docs/man/{name}"))
        for word in "--help", "-h":
            assert installing.run(program, word) == (page, "", ANSWERED)
        assert installing.run(program, "--version")[0] == f"{name} {version()}\n"


def test_installed_programs_judge_their_options(installing, prefix):
    for name in "lines", "frames":
        program = os.path.join(prefix, "bin", f"tensor_{name}")
        for words in OPTIONS:
            assert installing.ask(program, *words) == installing.answer(name, *words)
    for name in "tensor_run", "tensor_explain":
        assert installing.ask(os.path.join(prefix, "bin", name), "--other")[::2] == ("", REFUSED)


def test_links_of_installed_pages_lead_to_installed_files(prefix):
    pages = [os.path.join(prefix, it) for it in listed(prefix) if it.endswith(".md")]
    links = [(it, path) for it in pages for path in re.findall(r"\]\(([^)#]+)", text_of(it))]
    assert {os.path.basename(it) for it in pages} >= {"REQUEST.md", "SERVE.md", "CHANGELOG.md"} and links
    assert not [it for it in links if not os.path.exists(os.path.join(os.path.dirname(it[0]), it[1]))]


def test_units_for_systemd(installing, prefix):
    units = [os.path.join(prefix, it) for it in listed(prefix) if "/systemd/" in it]
    assert len(units) == 2 * 2, "a socket and a service of two programs"
    if not shutil.which("systemd-analyze"):
        pytest.skip("no systemd-analyze (Debian's systemd)")
    assert installing.run("systemd-analyze", "verify", *units) == ("", "", ANSWERED)
    for it in units:
        if it.endswith(".service"):
            # Exposed by less than 1 of 10, as systemd rates what a unit forbids.
            words = ("--offline=true", "--threshold=10", "--no-pager", it)
            assert installing.run("systemd-analyze", "security", *words)[2] == ANSWERED


def test_the_client_is_installed(installing, prefix, tmp_path):
    package = next(it for it in listed(prefix) if it.endswith("tensor_client/__init__.py"))
    path = os.path.join(prefix, os.path.dirname(os.path.dirname(package)))
    said = "import tensor_client; print(tensor_client.__version__)"
    got = installing.run(sys.executable, "-B", "-c", said, PYTHONPATH=path, cwd=tmp_path)
    assert got[0] == f"{version()}\n"


def test_a_folder_before_all_paths(installing, prefix, tmp_path):
    staged = str(tmp_path / "staged")
    assert installing.run("./install", prefix, DESTDIR=staged)[2] == ANSWERED
    assert files_below(staged) == [f"{prefix[1:]}/{it}" for it in sorted(listed(prefix))]
    texts = [text_of(os.path.join(staged, it), "latin-1") for it in files_below(staged)]
    assert not any(staged in it for it in texts), "DESTDIR stands in no file"
    installing.run(installing.at("install"), "/p", cwd=tmp_path, DESTDIR="relative")
    assert os.path.exists(tmp_path / "relative/p/bin/tensor_run")


def test_what_is_installed_answers_where_it_is_moved_to(installing, prefix, tmp_path):
    moved = str(tmp_path / "moved")
    os.rename(prefix, moved)
    links = os.path.join(moved, "links")
    os.makedirs(links)
    os.symlink(os.path.join("..", "bin", "tensor_run"), os.path.join(links, "near"))
    os.symlink(os.path.join(links, "near"), os.path.join(links, "far"))
    for command in "bin/tensor_run", "links/near", "links/far":
        assert installing.ask(os.path.join(moved, command)) == installing.answer(), command
    got = installing.run("sh", "tensor_run", text="asked\n", cwd=os.path.join(moved, "bin"))
    assert got == installing.answer(), "a command that sh is given by its name alone"


def test_what_is_not_ours_stays(installing, prefix):
    package = next(it for it in listed(prefix) if it.endswith("tensor_client/__init__.py"))
    written(os.path.join(prefix, os.path.dirname(package), "__pycache__", "compiled.pyc"), "")
    assert installing.run("./uninstall", prefix)[2] == ANSWERED
    assert files_below(prefix) == ["share/man/man1/own.1"]
    assert not os.path.exists(os.path.join(prefix, "lib")), "no empty folder stays"
    assert installing.run("./uninstall", prefix)[2] == REFUSED, "nothing is left to take away"
