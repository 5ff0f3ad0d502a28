"""Tests of the size and form of the sources and documents.

A line of a document has at most 120 characters; tables and examples can't be broken, and may be
wider. A module has at most 400 lines, a folder 25 files, a crate 131 functions. The first line of a
file says what the file is. Data, lists of modules, and files that the prover knows by their place
have no such line. The definitions in a crate's specs/private/ are cited by that crate's proofs and
sources alone. shellcheck finds nothing in the scripts in sh.

Some rules have exceptions: functions with many parameters, lines or loops, long clauses, modules
without `//!`, and functions with another comment than `///`. A body that is one match may have more
lines. tests/support/exceptions.json has the number of exceptions of each crate. The number has to
be exact, so it falls with the exceptions.
"""

import collections
import fnmatch
import functools
import itertools
import json
import os
import re
import shutil
import subprocess

import pytest

from hostile import SUPPORT, TOP

WIDTH = 120
MODULE_LINES, FOLDER_FILES, CRATE_FUNCTIONS = 400, 25, 142
PARAMETERS, BODY_LINES, CLAUSE_LINES = 4, 40, 4
SOURCES = "crates/*/src/*.rt"
CITING = ("crates/*.rt", "crates/*.antt", "crates/*.edit", "bench/*.in")
PRIVATE = re.compile(r"\bRattle\.(\w+)\.specs\.private\b")
FUNCTION = re.compile(r"\s*(pub(\(\w+\))? )?(const |final )*fn \w+")
CLAUSE = re.compile(r" *(requires|ensures)\b")
LOOP = re.compile(r" *(for|while|loop) ")
OTHER_COMMENT = re.compile(r" *//(?!/)")
# By the rule, how many exceptions each crate has: functions of more parameters, lines or loops;
# clauses of more lines; modules without `//!` in the first line; functions after another comment
# than `///`.
with open(os.path.join(SUPPORT, "exceptions.json"), encoding="ascii") as known:
    EXCEPTIONS = json.load(known)
LEFT_OUT = {"out", "release", ".git", "__pycache__", ".mypy_cache", ".hypothesis", "target"}
# By the end of a name, how the first line of a file begins that says what it is.
HEADS = {
    ".rt": "//",
    ".antt": "-- ",
    ".py": '"""',
    ".md": "# ",
    ".c": "/* ",
    ".h": "/* ",
    ".cpp": "/",
    ".rs": "//",
    ".cases": "# ",
    ".ini": "# ",
}
MODULES = (".rt", ".py", "")
KNOWN_BY_PLACE = {"Lib.antt", "Answers.antt", "Invariants.antt"}
DATA = {"HANDLES", "VERSION", ".gitignore", "stdin", "stdout", "libraries", "tunables"}
# A script that has no line for its interpreter, since ./run reads it.
READ_BY_RUN = "build/settle"


@functools.lru_cache(1)
def files():
    """The files of the repository, by their paths in it."""
    found = []
    for at, folders, names in os.walk(TOP):
        folders[:] = sorted({*folders} - LEFT_OUT)
        paths = (os.path.join(at, name) for name in sorted(names))
        found += [os.path.relpath(path, TOP) for path in paths if not os.path.islink(path)]
    return found


def fitting(*patterns):
    """The files that fit one of these patterns."""
    return [path for path in files() if any(fnmatch.fnmatch(path, it) for it in patterns)]


@functools.lru_cache(None)
def lines_of(path):
    # A stored run may have bytes of any kind.
    with open(os.path.join(TOP, path), encoding="utf-8", errors="replace") as file:
        return file.read().split("\n")[:-1]


def kind_of(path):
    """The end of a file's name, but for `.in`, which a bench's sources have behind it."""
    return os.path.splitext(name_of(path))[1] if "." in name_of(path)[1:] else ""


def name_of(path):
    name = os.path.basename(path)
    return name[: -len(".in")] if name.endswith(".in") else name


def has_head(path):
    """Whether a file's first line says what it is, behind the line that names its interpreter."""
    kind, name = kind_of(path), name_of(path)
    if name in KNOWN_BY_PLACE | DATA or path.startswith("docs/man/"):
        return True
    lines = lines_of(path)
    is_script = bool(lines) and lines[0].startswith("#!")
    first = lines[is_script] if len(lines) > is_script else ""
    if kind == "":
        return first.startswith(("# ", '"""')) and len(first) > len('"""')
    return kind not in HEADS or first.startswith(HEADS[kind])


def is_too_long(line):
    """Whether a line of a document is longer than lines may be, and could be broken."""
    return len(line) > WIDTH and not line.startswith(("|", "    ", "<!--"))


def private_citations(path):
    """How often a file cites what it may not of a crate's specs/private/: what is another crate's,
    and in definitions beside that folder what is its own."""
    crate, is_public = re.match(r"\w+/(\w+)/(specs/(?!private/))?", path).groups()
    named = [it for line in lines_of(path) for it in PRIVATE.findall(line)]
    return sum(bool(is_public) or it != crate for it in named)


def past(most, numbers):
    """Those of some numbers that are more than a rule allows."""
    return {what: number for what, number in numbers.items() if number > most}


def test_lines_of_documents_are_short():
    assert not past(0, {it: sum(map(is_too_long, lines_of(it))) for it in fitting("*.md")})


def test_private_definitions_are_not_cited():
    assert not past(0, {it: private_citations(it) for it in fitting(*CITING)})


def test_edits_of_a_crate_have_names_of_their_own():
    """The output of tools/edits names an edit by its crate and its name."""
    names = collections.Counter((it.split("/")[1], name_of(it)) for it in fitting("crates/*.edit"))
    assert names and not past(1, names)


def test_first_lines_say_what_a_file_is():
    assert not [it for it in files() if not has_head(it)]


def test_modules_are_short():
    modules = [it for it in files() if kind_of(it) in MODULES]
    assert not past(MODULE_LINES, {it: len(lines_of(it)) for it in modules})


def test_folders_have_few_files():
    assert not past(FOLDER_FILES, collections.Counter(map(os.path.dirname, files())))


def test_crates_have_few_functions():
    functions = collections.Counter()
    for path in fitting(SOURCES):
        functions[path.split("/")[1]] += sum(map(bool, map(FUNCTION.match, lines_of(path))))
    assert functions and not past(CRATE_FUNCTIONS, functions)


def parameters(text):
    """How many parameters a function has, by the text behind its name: generics come first."""
    depth, count, is_inside, is_some, before = 0, 0, False, False, " "
    for at in text:
        if at in ")]}" or (at == ">" and before not in "-="):
            depth -= 1
            if at == ")" and depth == 0:
                break
        if is_inside and depth == 1 and at == ",":
            count, is_some = count + is_some, False
        elif is_inside and not at.isspace():
            is_some = True
        if at in "([{<":
            is_inside |= at == "(" and depth == 0
            depth += 1
        before = at
    return count + is_some


def body(lines, at):
    """The lines of a function's body, where it has any of its own."""
    indent = lines[at][: len(lines[at]) - len(lines[at].lstrip())]
    for first in range(at, len(lines)):
        line = lines[first]
        is_opened = line == indent + "{" or (
            line.endswith(" {") and (first == at or line.startswith(indent + ")"))
        )
        if is_opened:
            return lines[first + 1 : lines.index(indent + "}", first)]
        if (first > at and FUNCTION.match(line)) or (line and not line.startswith(indent)):
            break
    return []


def is_one_match(own):
    """Whether a body is one match, but for a line or two before it: cases may be many."""
    for at, line in enumerate(own[:3]):
        if line.lstrip().startswith("match ") and line.endswith(" {"):
            indent = line[: len(line) - len(line.lstrip())]
            return own[-1] == indent + "}" and indent + "}" not in own[at:-1]
    return False


def clause(lines, at):
    """How many lines a clause has that begins at a line."""
    indent = re.match(" *", lines[at])[0] + "    "
    behind = itertools.takewhile(lambda it: it.startswith(indent), lines[at + 1 :])
    return 1 + sum(1 for _ in behind)


def has_other_comment(lines, at):
    """Whether a function has a comment right before it and its attributes that is no `///`."""
    before = itertools.dropwhile(lambda it: it.strip().startswith("#["), reversed(lines[:at]))
    return bool(OTHER_COMMENT.match(next(before, "")))


def exceptions(path):
    """The exceptions to the rules in a source, by the rule."""
    lines = lines_of(path)
    yield "//!", not lines[0].startswith("//! ")
    for at, line in enumerate(lines):
        if CLAUSE.match(line):
            yield "clauses", clause(lines, at) > CLAUSE_LINES
        named = FUNCTION.match(line)
        if named:
            rest = "\n".join([line[named.end() :], *lines[at + 1 : at + 40]])
            own = body(lines, at)
            yield "parameters", parameters(rest) > PARAMETERS
            yield "lines", len(own) > BODY_LINES and not is_one_match(own)
            yield "loops", sum(map(bool, map(LOOP.match, own))) > 1
            yield "///", has_other_comment(lines, at)


@functools.lru_cache(1)
def all_exceptions():
    """How many exceptions to each rule each crate has."""
    counts = collections.defaultdict(collections.Counter)
    for path in fitting(SOURCES):
        for rule, is_one in exceptions(path):
            counts[rule][path.split("/")[1]] += is_one
    return {rule: past(0, count) for rule, count in counts.items()}


@pytest.mark.parametrize("rule", EXCEPTIONS)
def test_exceptions_are_those_that_are_known(rule):
    assert all_exceptions()[rule] == EXCEPTIONS[rule]


def test_shellcheck():
    scripts = [it for it in files() if kind_of(it) == "" and lines_of(it)[:1] == ["#!/bin/sh"]]
    if not shutil.which("shellcheck"):
        pytest.skip("no shellcheck (Debian's shellcheck)")
    words = ["shellcheck", "--format=gcc", *scripts, READ_BY_RUN]
    said = subprocess.run(words, cwd=TOP, capture_output=True, text=True, check=False)
    assert said.returncode == 0, said.stdout + said.stderr
