"""Contracts in the sources of crates: the clauses of public items, and the names in them."""

import os
import re

from crates import CRATES, files_in

from .modules import Module, words_of
from .resting import Scan

FUNCTION = re.compile(r'\s*(pub |pub\(\w+\) )?(?:const |unsafe |final |extern "C" )*fn (\w+)')
CLAUSE = re.compile(r"\s*(requires|ensures|(?:pub )?ghost) +(\w+)?[^{]*\{")
TRAIT = re.compile(r"(?:pub )?(trait|impl)\b")


class Clause:
    """A clause of a contract: `requires` or `ensures`, or a ghost member of a type."""

    def __init__(self, source, function, kind, name, lines):
        self.source, self.function, self.kind, self.name = source, function, kind, name
        self.lines = lines

    def text(self):
        """Returns the lines of the clause, moved to the left."""
        indent = len(self.lines[0]) - len(self.lines[0].lstrip())
        return [it[min(indent, len(it) - len(it.lstrip())) :] for it in self.lines]

    def uses(self):
        """Returns what the names of the clause stand for, except names of the code."""
        scan = Scan(self.source, [])
        words = words_of(enumerate(self.lines))
        scan.words(words[words.index("{") :])
        return scan.found


class Source(Module):
    """A file of src/, with the names that its lines `ghost use` import."""

    def take_up(self):
        for line in self.text:
            brought = re.match(r"\s*(?:pub )?ghost use (.*);", line)
            if brought:
                self.bring_in(words_of([(0, brought[1])]))

    def clauses(self):
        """Yields the clauses of public functions and of functions of traits, and ghost members."""
        within, function, at = "", None, 0
        while at < len(self.text):
            line = self.text[at]
            block = TRAIT.match(line)
            within = block[1] if block else "" if line == "}" else within
            begun = FUNCTION.match(line)
            if begun:
                is_public = begun[1] == "pub " or within == "trait"
                function = begun[2] if is_public and not line.endswith("{") else None
            clause = CLAUSE.match(line)
            if clause:
                end = self.end_of(at)
                is_ghost = clause[1].endswith("ghost")
                if function or is_ghost and within:
                    named = None if is_ghost else function
                    yield Clause(self, named, clause[1], clause[2], self.text[at : end + 1])
                at = end
            elif function and line.strip() == "{" or line.startswith("}"):
                # A body follows, which may have closures with clauses of their own.
                function = None
            at += 1

    def end_of(self, at):
        """Returns the line that closes the first brace of a line."""
        depth = 0
        for end in range(at, len(self.text)):
            depth += self.text[end].count("{") - self.text[end].count("}")
            if depth <= 0:
                return end
        raise ValueError(f"{self.path}: line {at + 1}")


def sources_of(crate):
    """Returns the files of a crate's src/, in order."""
    paths = files_in(os.path.join(CRATES, crate), "src")
    return [Source(os.path.relpath(it, CRATES), it) for it in paths]
