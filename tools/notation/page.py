"""docs/HEADLINE.md: the clauses of the headline and the definitions that they rest on, in chapters.

headline.md, beside this file, has the text. Words in braces are replaced: {clause CRATE FUNCTION NAME}
by a clause, word for word; {first} and {second} by the number of definitions on which that clause
rests; {definitions CRATE/FILE.. CRATE/FILE.NAME..} by these definitions, each after the definitions that
it uses; and {types NAME..} by types of the code. Definitions that follow each other are one block.
{also CRATE/FILE.NAME} adds a definition on which no clause rests, and all on which it rests; {third} is
their number. {line CRATE/FILE.NAME: TEXT} gives a definition a plain line, if its file has none.
"""

import os
import re
import textwrap

from .names import module_of, resolve
from .resting import Closure, heads_of, lines_of

WORDS = os.path.join(os.path.dirname(os.path.abspath(__file__)), "headline.md")
DIRECTIVE = re.compile(r"\{(\w+) ?([^}]*)\}$")
OPENED = re.compile(r"(?:pub(?:\(\w+\))? )?(enum|struct|trait) (\w+)")
GHOST = re.compile(r" +(?:// |ghost (?!use))")


class Unprinted(Exception):
    """Something that the page would leave out or can't find."""


def key_of(item):
    """Returns a definition as the page names it: its crate and its file, and its name there."""
    _, crate, _, *within = item.module.path.split(".")
    return f"{crate}/{'/'.join(within)}", item.name


def named(key):
    """Returns the definition that the page names so, as a closure takes it."""
    path, _, name = key.rpartition(".")
    crate, _, within = path.partition("/")
    found = resolve(module_of(f"Rattle.{crate}.specs.{within.replace('/', '.')}"), name)
    if not found:
        raise Unprinted(f"there is no definition {key}")
    return name, found


def line_above(item):
    """Returns the comment above a definition in its file."""
    first, found = item.chunks[0][0][0] - 1, []
    while item.module.text[first - 1].strip().startswith("-- "):
        first -= 1
        found.insert(0, item.module.text[first])
    return found


def type_of_code(item):
    """Returns a type as the code has it, without attributes. Of a trait it returns only the ghost
    members."""
    lines = item.module.text
    heads = [OPENED.match(it) for it in lines]
    first = next(at for at, it in enumerate(heads) if it and it[2] == item.name)
    is_trait, last, begin = heads[first][1] == "trait", lines.index("}", first), first
    while lines[begin - 1].startswith(("///", "#[")):
        begin -= 1
    kept = [it for it in lines[begin : last + 1] if not it.strip().startswith("#[")]
    if is_trait:
        kept = [it for it in kept if not it or it[0] != " " or GHOST.match(it)]
    # One empty line between two members, and none at an end.
    text = re.sub(r"\{\n\n+", "{\n", re.sub(r"\n\n+(?=\n|\})", "\n", "\n".join(kept)))
    return text.split("\n")


def block(lines):
    return ["```text", *lines, "```"]


class Page:
    """The text that replaces the words in braces."""

    def __init__(self, find):
        self.find = find
        with open(WORDS, encoding="utf-8") as file:
            self.words = file.read().split("\n")
        self.closure, self.counts = Closure(), []
        self.plain, self.printed, self.bare = {}, set(), []
        also = []
        for line in self.words:
            kind, rest = self.directive(line)
            if kind == "clause":
                self.rest(find(*rest.split()).uses())
            elif kind == "also":
                also.append(named(rest))
            elif kind == "line":
                key, _, text = rest.partition(": ")
                self.plain[key] = text
        self.rest(also)
        self.named = {it for line in self.words for it in self.directive(line)[1].split()}

    @staticmethod
    def directive(line):
        found = DIRECTIVE.match(line)
        return (found[1], found[2]) if found else ("", "")

    def rest(self, used):
        """Adds what these words stand for, and everything on which that rests."""
        before = len(self.closure.items)
        for it in used:
            self.closure.add(*it)
        new = [it for it in self.closure.items[before:] if it.kind != "declared"]
        count = sum(len(lines_of(it)) for it in new)
        self.counts.append(f"{len(new)} definitions in {count} lines")

    def definition(self, item):
        """Returns a definition with its plain line above it."""
        key, lines = ".".join(key_of(item)), line_above(item)
        if key in self.plain:
            lines = [f"-- {it}" for it in textwrap.wrap(self.plain[key], 95)]
        if not lines:
            self.bare.append(key)
        self.printed.add(item.path)
        text = [line for _, line in lines_of(item)]
        # It is indented if it uses the names of a module around it.
        indent = "  " * len({at for _, at in item.section})
        plain, text = (textwrap.dedent("\n".join(it)).split("\n") for it in (lines, text))
        return [indent + line for line in plain + text]

    def definitions(self, asked):
        """Returns the definitions of some files, or single ones, as a block."""
        lines, heads = [], []
        for item in self.closure.items:
            key = key_of(item)
            is_single = ".".join(key) in self.named
            if item.kind == "declared" or (".".join(key) if is_single else key[0]) not in asked:
                continue
            lines += [""] if lines else []
            above = [line for head in heads_of(item) for _, line in head]
            lines += [line for line in above if line not in heads]
            heads = above
            lines += self.definition(item)
        if not lines:
            raise Unprinted(f"there is no definition of {' '.join(asked)}")
        return block(lines)

    def types(self, asked):
        """Returns the types of the code with these names, as a block."""
        lines = []
        for item in self.closure.items:
            if item.kind == "declared" and item.name in asked:
                lines += ([""] if lines else []) + type_of_code(item)
                self.printed.add(item.path)
        return block(lines)

    def counted(self, line):
        """Returns a line of the page with the numbers of definitions in it."""
        for word, count in zip(("{first}", "{second}", "{third}"), self.counts):
            line = line.replace(word, count)
        return line

    def put(self, kind, rest):
        """Returns the lines that replace a directive."""
        if kind == "clause":
            return block(self.find(*rest.split()).text())
        if kind in ("definitions", "types"):
            return getattr(self, kind)(rest.split())
        raise Unprinted(f"{{{kind}}}")

    def text(self):
        """Returns the whole page."""
        lines, before = [], ""
        for line in self.words:
            kind, rest = self.directive(line)
            if kind in ("line", "also"):
                continue
            if kind == before == "definitions":
                lines[-1:] = ["", *self.put(kind, rest)[1:]]
            elif kind:
                lines += ["", *self.put(kind, rest)] if before else self.put(kind, rest)
            else:
                lines.append(self.counted(line))
            before = kind
        left = [".".join(key_of(it)) for it in self.closure.items if it.path not in self.printed]
        spoken = " ".join(self.words).replace("\\|", "|")
        unsaid = [it for it in self.closure.of_kit.values() if f"`{it}`" not in spoken]
        if left or unsaid or self.bare:
            raise Unprinted(f"headline.md leaves out {' '.join(left + unsaid + self.bare)}")
        return "\n".join(lines).rstrip("\n") + "\n"
