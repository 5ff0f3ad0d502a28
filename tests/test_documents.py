"""Tests of the documents: examples, links, quotes, and parts that a tool prints; and of the
docstrings and types of the client in Python.

An example is an indented block of a page. It has commands, and after them comments: the lines that
the commands print. Its status is 1 where the last line is an error, and else 0, or N where a
comment `status N` stands at the end. A comment `on standard error: ` has the one line of standard
error; standard output is then empty. A block that begins with `>>> ` is a session of Python; all
sessions of a page run in one interpreter. A comment `not run: ` at the end says why a block isn't
run. Definitions and drawings stand between fences of text. A new example of a page in PAGES needs
nothing but its block.
"""

import doctest
import glob
import importlib
import importlib.util
import os
import re
import shutil
import subprocess
import sys

import pytest

from hostile import TOP

CLIENT = os.path.join(TOP, "python")
PAGES = [
    "README.md",
    "CONTRIBUTING.md",
    "examples/README.md",
    "docs/REQUEST.md",
    "docs/HEADLINE.md",
    "docs/PROVED.md",
    "docs/MANY.md",
    "docs/FRAMES.md",
    "docs/SERVE.md",
    "python/README.md",
]
# An example of these pages uses files and servers of examples above it, so a page is one test.
IN_ORDER = {"docs/MANY.md", "docs/SERVE.md"}
LINKED = ["*.md", "docs/*.md", "bench/pictures/*.md", "examples/**/*.md", "crates/*/*.md"]
LINK = re.compile(r"\]\(([^)#\s]*)(?:#([^)\s]*))?\)")
CALLER = re.compile(r"\]\(\.\./uses/src/(\w+\.rt)\)")
MOST_QUOTED = 25
# What prints a page, or a part of it.
PRINTED = {
    "tools/believe --headline": "docs/HEADLINE.md",
    "tools/believe --table": "docs/BELIEVED.md",
    "tools/graph": "docs/ARCHITECTURE.md",
}
DEFINITIONS = "```text"
INDENT, COMMENT, SESSION = "    ", "# ", ">>> "
ON_ERROR, STATUS, NOT_RUN = "on standard error: ", "status ", "# not run: "
SECONDS = 300
# The python3 of an example is the one that runs the tests.
PATH = os.pathsep.join([os.path.dirname(sys.executable), os.environ.get("PATH", os.defpath)])
ENVIRONMENT = {**os.environ, "TENSOR_RUN_BUILD": "no", "PATH": PATH}


def text_of(path):
    with open(os.path.join(TOP, path), encoding="utf-8") as text:
        return text.read()


def found(*patterns):
    """The paths of the repository that fit one of these patterns."""
    every = (glob.glob(os.path.join(TOP, it), recursive=True) for it in patterns)
    return sorted(os.path.relpath(path, TOP) for some in every for path in some)


def run(words, **how):
    how = {"cwd": TOP, "env": ENVIRONMENT, "timeout": SECONDS, "check": False, **how}
    return subprocess.run(words, capture_output=True, text=True, **how)


def blocks(page):
    """The indented blocks of a page, each as the number of its first line and its lines. An indented
    line after one that isn't blank belongs to a list."""
    some, inside, drawn, before = [], False, False, ""
    for number, line in enumerate(text_of(page).split("\n"), 1):
        drawn = line == DEFINITIONS or (drawn and line != "```")
        is_indented = line.startswith(INDENT) and not drawn
        if is_indented and not before:
            some.append((number, []))
        inside = is_indented and (inside or not before)
        if inside:
            some[-1][1].append(line[len(INDENT) :])
        before = line
    return [(number, lines) for number, lines in some if not lines[-1].startswith(NOT_RUN)]


def has_parallel():
    return bool(shutil.which("parallel")) and run(["parallel", "--version"]).stdout[:3] == "GNU"


def has_modules(*names):
    return all(importlib.util.find_spec(it) is not None for it in names)


# What an example may use, by what is seen of it there, and whether it is installed.
TOOLS = {
    "GNU parallel (Debian's parallel)": (r"\bparallel ", has_parallel()),
    "socat (Debian's socat)": (r"\bsocat\b", shutil.which("socat")),
    "Dask (Debian's python3-distributed)": (
        r"\bdask\b",
        has_modules("dask", "distributed", "numpy"),
    ),
    "numpy (Debian's python3-numpy)": (r"\bnumpy\b|\.array\(", has_modules("numpy")),
    "command rt of the kit": (r"\btools/meaning\b", shutil.which("rt")),
}


def missing(lines):
    """The first tool that an example uses and that isn't installed."""
    text = "\n".join(lines)
    lacking = (it for it, (use, is_here) in TOOLS.items() if not is_here and re.search(use, text))
    return next(lacking, None)


def examples(is_session):
    """The examples of each page as parameters, those that build on one another together. An example
    that lacks a tool stands alone, and is skipped."""
    for page in PAGES:
        together = []
        for number, lines in blocks(page):
            if lines[0].startswith(SESSION) == is_session:
                one, lacking = (number, lines), missing(lines)
                mark = [pytest.mark.skip(f"no {lacking}")] if lacking else []
                if lacking or not is_session and page not in IN_ORDER:
                    yield pytest.param(page, [one], id=f"{page}:{number}", marks=mark)
                else:
                    together.append(one)
        if together:
            yield pytest.param(page, together, id=page)


def wanted(comments):
    """Standard output, standard error and the status, as comments have them."""
    *before, last = comments
    if last.startswith(STATUS):
        return "".join(it + "\n" for it in before), "", int(last[len(STATUS) :])
    if last.startswith(ON_ERROR):
        return "", last[len(ON_ERROR) :] + "\n", 1
    return "".join(it + "\n" for it in comments), "", int(last.startswith("error "))


@pytest.mark.usefixtures("programs")
@pytest.mark.parametrize("page, some", examples(is_session=False))
def test_example(page, some):
    got, want = {}, {}
    for number, lines in some:
        count = len(lines)
        while count and lines[count - 1].startswith(COMMENT):
            count -= 1
        commands, comments = lines[:count], [it[len(COMMENT) :] for it in lines[count:]]
        is_example = commands and comments and not any(it.startswith(COMMENT) for it in commands)
        assert is_example, f"{page}:{number}: not commands and then comments"
        ran = run(["sh", "-c", "\n".join(commands)])
        got[number] = ran.stdout, ran.stderr, ran.returncode
        want[number] = wanted(comments)
    # An example that ends servers is run too where one above it failed.
    assert got == want


@pytest.mark.usefixtures("programs")
@pytest.mark.parametrize("page, some", examples(is_session=True))
def test_sessions(page, some):
    names, said = {}, []
    for number, lines in some:
        text = "\n".join(lines) + "\n"
        test = doctest.DocTestParser().get_doctest(text, names, page, page, number - 1)
        doctest.DocTestRunner(verbose=False).run(test, out=said.append, clear_globs=False)
        names.update(test.globs)
    assert not said, "".join(said)


@pytest.mark.parametrize("page", PAGES)
def test_no_example_stands_between_fences(page):
    """Only what is indented is run."""
    fences = [it for it in text_of(page).split("\n") if it.startswith("```")]
    assert fences == [DEFINITIONS, "```"] * (len(fences) // 2)


MODULES = [it for it in found("python/tensor_client/**/*.py") if SESSION in text_of(it)]


@pytest.mark.usefixtures("programs")
@pytest.mark.parametrize("path", MODULES)
def test_docstrings(path):
    """The examples of a module's docstrings, which may use the package's names."""
    name = os.path.relpath(path, "python")[: -len(".py")].replace(os.sep, ".")
    module, package = importlib.import_module(name), vars(importlib.import_module("tensor_client"))
    names = {name: it for name, it in package.items() if not name.startswith("_")}
    said, lacking = [], set()
    for test in doctest.DocTestFinder().find(module, globs={**names, **vars(module)}):
        lacking.add(missing([it.source for it in test.examples]))
        if not missing([it.source for it in test.examples]):
            doctest.DocTestRunner(verbose=False).run(test, out=said.append)
    assert not said, "".join(said)
    if lacking - {None}:
        pytest.skip(f"some examples: no {', '.join(lacking - {None})}")


def test_types():
    """The client's types, by mypy."""
    if not shutil.which("mypy"):
        pytest.skip("no mypy (Debian's mypy)")
    ran = run(["mypy", "--cache-dir", os.devnull], cwd=CLIENT)
    assert ran.returncode == 0, ran.stdout + ran.stderr


def headings(page):
    """The headings of a page, as links name them."""
    lines = re.findall(r"(?m)^#+ (.*)$", text_of(page))
    return {re.sub(r"[^\w -]", "", it.lower()).replace(" ", "-") for it in lines}


@pytest.mark.parametrize("page", found(*LINKED))
def test_links(page):
    """Each link leads to a file that is there, or a heading in it. The web isn't tried."""
    lost = []
    for path, heading in LINK.findall(text_of(page)):
        if path.startswith("http"):
            continue
        aim = os.path.normpath(os.path.join(os.path.dirname(page), path)) if path else page
        is_there = os.path.exists(os.path.join(TOP, aim))
        if not is_there or heading and heading not in headings(aim):
            lost.append(f"{path}#{heading}")
    assert not lost


def quotes(page):
    """The fenced blocks of a page: the first line's number, the caller linked above, the text."""
    some, named, block = [], None, None
    for number, line in enumerate(text_of(page).split("\n"), 1):
        if block is None:
            named = (CALLER.findall(line) or [named])[-1]
            block = [] if line == "```rust" else None
        elif line == "```":
            some.append((number - len(block), named, "".join(it + "\n" for it in block)))
            block = None
        else:
            block.append(line)
    return some


CALLING = found("crates/*/CALLING.md")


@pytest.mark.parametrize("page", CALLING)
def test_quotes(page):
    """Each block is a few lines in a row of the caller of crates/uses that is linked above it."""
    for number, named, text in quotes(page):
        source = "\n" + text_of(f"crates/uses/src/{named}")
        assert "\n" + text in source and 0 < text.count("\n") <= MOST_QUOTED, f"{page}:{number}"


def test_a_page_quotes_each_caller():
    callers = {os.path.basename(it) for it in found("crates/uses/src/*.rt")} - {"lib.rt"}
    assert callers == {named for page in CALLING for _, named, _ in quotes(page)}


@pytest.mark.usefixtures("kit")
@pytest.mark.parametrize("tool, page", PRINTED.items(), ids=PRINTED)
def test_printed(tool, page):
    """A page has what its tool prints; with --write the tool writes it there."""
    said = run(tool.split()).stdout
    assert said and said in text_of(page)


def test_a_crate_is_used_from_another_repository(kit, tmp_path):
    """The commands of crates/uses/README.md clone and link a crate, paste a caller and prove it."""
    [(_, lines)] = blocks("crates/uses/README.md")
    commands = "\n".join(lines).replace("REPOSITORY", TOP)
    ran = run(["sh", "-ec", commands], cwd=tmp_path, env=None, timeout=3_000)
    said = ran.stdout + ran.stderr
    assert ran.returncode == 0 and "logic=proved" in said, said
