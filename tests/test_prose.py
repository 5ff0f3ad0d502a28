"""Rules of the prose of pages and comments: phrases that must not stand, short sentences and cells.

A new phrase is a line of PHRASES, with what to write instead. It has no exceptions. A new beginning that
names nothing is a word of NAMELESS. Both hold in the comments of crates, and in the docstrings and the
comments of the scripts in SCRIPTS.
"""

import ast
import glob
import io
import os
import re
import tokenize

import pytest

TOP = os.path.dirname(os.path.dirname(os.path.abspath(__file__)))
# Pages in which all rules hold. The phrases hold in these alone until the others are rewritten.
PATTERNS = [
    "README.md",
    "docs/BELIEVED.md",
    "docs/HEADLINE.md",
    "docs/PERFORMANCE.md",
    "python/README.md",
    "docs/REQUEST.md",
    "docs/FRAMES.md",
    "docs/MANY.md",
    "docs/SERVE.md",
    "docs/PROVED.md",
    "docs/ARCHITECTURE.md",
    "docs/DECISIONS.md",
    "docs/CALLS.md",
    "docs/GLOSSARY.md",
    "bench/pictures/README.md",
    "examples/README.md",
    "crates/*/README.md",
    "crates/*/CALLING.md",
    "CONTRIBUTING.md",
]
PAGES = [
    os.path.relpath(it, TOP)
    for pattern in PATTERNS
    for it in sorted(glob.glob(os.path.join(TOP, pattern)))
]
PHRASES = {
    r"want of memory": "out of memory, an allocation fails",
    r"\ba front of\b": "a prefix of",
    r"\bso many\b": "n, the given number of",
    r"\bwork(?:s|ed)? (?:it |them |this )?out\b": "compute, evaluate",
    r"\bto before another\b": "in [first, last)",
    r"\bis told\b": "is reported",
    r"\bWho (?:may|calls|has|asks|writes)\b": "a caller that ..",
    r"\bThe same\b": "the noun again",
    r"\b[Tt]hat of\b": "the noun again",
    r"\b[Tt]hose of\b": "the noun again",
}
# How a doc comment doesn't begin, since its reader sees it alone, in a tooltip.
NAMELESS = re.compile(r"(?:The same|That of|Those of|The one|Of an?)\b")
COMMENT = re.compile(r"(?m)^\s*//[/!]? ?(.*)$")
# In the middle of a sentence of a comment these may stand: the noun is near.
NEAR = (r"\b[Tt]hat of\b", r"\b[Tt]hose of\b")
DOC_COMMENT = re.compile(r"(?m)(?:^[ \t]*///.*\n)+|(?:^[ \t]*//!.*\n)+")
SOURCES = sorted(glob.glob(os.path.join(TOP, "crates/*/**/*.rt"), recursive=True))
CRATES = sorted({os.path.relpath(it, TOP).split(os.sep)[1] for it in SOURCES})
# Sources in Python, and other scripts and lists, whose comments begin with `#`.
SCRIPTS = ["python/*.py", "python/tensor_client/**/*", "tools/**/*", "build/**/*", "bench/**/*"]
HASH_COMMENT = re.compile(r"(?m)(?:^[ \t]*#(?!!).*\n)+")
# What tools read, and no reader.
MARK = re.compile(r"#!|# (type|noqa|pylint):")
SENTENCE_WORDS, CELL_WORDS, README_LINES = 35, 25, 150
FENCE = re.compile(r"(?ms)^```.*?^```$")
SENTENCE = re.compile(r"(?<=[.:;?!])\s+(?=[A-Z`\[*])")
WORD = re.compile(r"\S*\w\S*")


def text_of(page):
    with open(os.path.join(TOP, page), encoding="utf-8") as file:
        return file.read()


def prose_of(page):
    """The lines of a page but for examples, drawings, tables and headings."""
    lines = FENCE.sub("", text_of(page)).split("\n")
    return [it for it in lines if not it.startswith(("    ", "|", "#", ">"))]


def sentences_of(page):
    """The sentences of a page. An item of a list and a paragraph end one."""
    paragraphs = re.split(r"\n\s*\n|\n(?=\s*(?:-|\d+\.) )", "\n".join(prose_of(page)))
    return [it for text in paragraphs for it in SENTENCE.split(" ".join(text.split()))]


def cells_of(page):
    rows = [it for it in FENCE.sub("", text_of(page)).split("\n") if it.startswith("|")]
    return [cell for row in rows for cell in re.split(r"(?<!\\)\|", row)]


def count(text):
    return len(WORD.findall(text))


@pytest.mark.parametrize("page", PAGES)
def test_no_phrase_that_has_a_plain_word(page):
    text = "\n".join(prose_of(page) + cells_of(page))
    found = [(it, PHRASES[by]) for by in PHRASES for it in re.findall(by, text)]
    assert not found, "each phrase, and what to write instead"


@pytest.mark.parametrize("page", PAGES)
def test_sentences_are_short(page):
    assert [it for it in sentences_of(page) if count(it) > SENTENCE_WORDS] == []


@pytest.mark.parametrize("page", PAGES)
def test_cells_are_short(page):
    assert [it for it in cells_of(page) if count(it) > CELL_WORDS] == []


def test_the_readme_is_short():
    assert text_of("README.md").count("\n") <= README_LINES


@pytest.mark.parametrize("pattern", PATTERNS)
def test_pages_are_there(pattern):
    assert glob.glob(os.path.join(TOP, pattern))


def sources_of(crate):
    return [os.path.relpath(it, TOP) for it in SOURCES if it.split(os.sep)[-3:] and f"{os.sep}{crate}{os.sep}" in it]


def words_of(comment):
    """The text of a comment of several lines, on one line."""
    return " ".join(COMMENT.sub(r"\1", comment).split())


@pytest.mark.parametrize("crate", CRATES)
def test_each_doc_comment_names_its_noun(crate):
    found = []
    for file in sources_of(crate):
        comments = [words_of(it) for it in DOC_COMMENT.findall(text_of(file))]
        found += [(file, it) for it in comments if NAMELESS.match(it)]
    assert not found, "begin with the noun"


@pytest.mark.parametrize("crate", CRATES)
def test_comments_have_no_phrase_that_has_a_plain_word(crate):
    found = []
    for file in sources_of(crate):
        text = words_of("\n".join(it[0] for it in re.finditer(COMMENT, text_of(file))))
        phrases = [it for it in PHRASES if it not in NEAR]
        found += [(file, it, PHRASES[by]) for by in phrases for it in re.findall(by, text)]
    assert not found, "each phrase, and what to write instead"


def kind_of(path):
    """What a file of SCRIPTS is: "python", "sh", or "" for others, such as data."""
    with open(path, encoding="utf-8", errors="replace") as file:
        first = file.readline()
    if path.endswith(".py") or re.match("#!.*python", first):
        return "python"
    return "sh" if first.startswith("#") and "." not in os.path.basename(path) else ""


def scripts():
    """The files of SCRIPTS that have comments, with their kinds."""
    found = [it for pattern in SCRIPTS for it in glob.glob(os.path.join(TOP, pattern), recursive=True)]
    files = [it for it in sorted(found) if os.path.isfile(it) and "__pycache__" not in it]
    kinds = {os.path.relpath(it, TOP): kind_of(it) for it in files}
    return {path: kind for path, kind in kinds.items() if kind}


SCRIPT_KINDS = scripts()


def plain(text):
    """A comment or a docstring on one line, without its examples."""
    return " ".join(re.sub(r"(?m)^\s*#+ ?", "", re.split(r"(?m)^\s*>>> ", text)[0]).split())


def sentences_in(tree):
    """The docstrings of a module, and other texts that are sentences, as some become docstrings."""
    documents = {it.value for it in ast.walk(tree) if isinstance(it, ast.Expr)}
    for it in ast.walk(tree):
        if isinstance(it, ast.Constant) and isinstance(it.value, str):
            if it in documents or re.match(r"\s*[A-Z][\w'-]* .*[.:]", it.value, re.DOTALL):
                yield it.value


def comments_of(path):
    """The comments and docstrings of a script, each on one line."""
    text = text_of(path)
    if SCRIPT_KINDS[path] == "sh":
        return [plain(it) for it in HASH_COMMENT.findall(text)]
    tokens = tokenize.generate_tokens(io.StringIO(text).readline)
    lines, last = [], None
    for it in tokens:
        if it.type == tokenize.COMMENT and not MARK.match(it.string):
            is_next = it.start[0] - 1 == last and it.line.lstrip().startswith("#")
            lines = [*lines[:-1], f"{lines[-1]}\n{it.string}"] if is_next else [*lines, it.string]
            last = it.start[0]
    return [plain(it) for it in [*lines, *sentences_in(ast.parse(text))]]


@pytest.mark.parametrize("path", SCRIPT_KINDS)
def test_comments_of_scripts_are_plain(path):
    found = []
    for it in comments_of(path):
        found += [(it, "begin with the noun")] if NAMELESS.match(it) else []
        found += [(it, PHRASES[by]) for by in PHRASES if by not in NEAR and re.search(by, it)]
    assert not found, "each comment, and what to write instead"


@pytest.mark.parametrize("pattern", SCRIPTS)
def test_scripts_are_there(pattern):
    assert glob.glob(os.path.join(TOP, pattern), recursive=True)
