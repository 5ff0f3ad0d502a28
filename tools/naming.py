"""The functions of a crate's sources, and the prover's names for them.

The prover's name of a function is a path: its module, then the type of its impl or its trait, then
its own name. An impl of a trait has both names in one word. An impl of a type at particular arguments
has the arguments behind the type's name. A source alone does not determine the name, so the name is
looked up in the list of names in a library.
"""

import collections
import json
import os
import re

# A function from its attributes on: its indentation, and its name.
WORDS = r"(?:pub(?:\([\w:]+\))? )?(?:(?:const|final|unsafe|extern \"C\") )*"
FUNCTION = re.compile(rf"(?m)^( *)(?:#\[.*\]\n\1)*{WORDS}fn (\w+)")
CYCLE = re.compile(r"#\[cycle\((\w+)\)\]")
TYPE = re.compile(r"(?m)^ *(?:pub(?:\([\w:]+\))? )?(?:struct|enum|union) (\w+)")
IMPL = r"(?:unsafe )?impl\b(?:<.*?>)? (?:(?:\w+::)*(\w+)(?:<.*>)?\s+for )?&?(?:\w+::)*(\w+)(<.*>)?"
TRAIT = r"(?:pub(?:\([\w:]+\))? )?(?:unsafe )?trait (\w+)"
BLOCK = re.compile(rf"(?m)^(?:{IMPL}|{TRAIT})")


def module_of(file):
    words = file.removeprefix("src/").removesuffix(".rt").split("/")
    return () if words in (["lib"], ["main"]) else tuple(it for it in words if it != "mod")


class Block(collections.namedtuple("Block", "trait type arguments")):
    """An impl or a trait: the trait of an impl, if any; the type, or the trait itself; and the names of
    the type's arguments."""


class Function(collections.namedtuple("Function", "module block name cycle")):
    """A function of a source: the module of its file, the block around it, if any, its name, and the
    cycle of calls that shares its proof, if any."""

    def proof(self):
        """Returns what identifies its proof. The functions of a cycle have one proof."""
        return self._replace(name=f"+{self.cycle}") if self.cycle else self

    def path_in(self, names, declared):
        """Returns the only one of these paths that is the prover's name of the function, or None.
        `declared` has the modules that declare types of its type's name."""
        fits = [it for it in names if self.fits(it, declared)]
        for is_closer in (self.is_here, self.is_of_type, self.is_of_arguments) if self.block else ():
            fits = [it for it in fits if is_closer(it)] or fits
        return fits[0] if len(fits) == 1 else None

    def fits(self, path, declared):
        if not self.block:
            return path == (*self.module, self.name)
        if len(path) < 2 or path[-1] != self.name:
            return False
        if self.block.trait:
            return self.is_here(path) and self.block.trait in path[-2]
        is_of_type = path[-2].partition("+")[0] == self.block.type
        return is_of_type and (self.is_here(path) or path[:-2] in declared)

    def is_here(self, path):
        return path[:-2] == self.module

    def is_of_type(self, path):
        return path[-2].startswith(self.block.type)

    def is_of_arguments(self, path):
        return path[-2] == "+".join([self.block.type, *self.block.arguments])

    def guessed_path(self, declared):
        """Returns the prover's name of the function, if its impl is of a type with any arguments."""
        if not self.block:
            return (*self.module, self.name)
        is_here = self.block.trait or self.module in declared or not declared
        within = self.block.type + (self.block.trait or "")
        return (*(self.module if is_here else declared[0]), within, self.name)


def function_at(file, text, place):
    """Returns the function in which a place of a source is, or None."""
    before = [it for it in FUNCTION.finditer(text) if it.start() <= place]
    if not before:
        return None
    start, (indent, name) = before[-1].start(), before[-1].groups()
    end = re.compile(rf"(?m)^{indent}\}}").search(text, start)
    if not end or end.start() < place:
        return None
    blocks = [it.groups() for it in BLOCK.finditer(text) if it.start() < start] if indent else []
    block = None
    if blocks:
        trait, type_name, arguments, own = blocks[-1]
        words = re.findall(r"(?<!')\b\w+", arguments or "")
        block = Block(trait, type_name or own, tuple(words))
    cycle = CYCLE.search(before[-1][0])
    return Function(module_of(file), block, name, cycle and cycle[1])


class Sources:
    """The sources of a crate, the modules that declare each type's name, and the prover's names of the
    crate's functions, if a library lists them."""

    def __init__(self, folder):
        self.folder, self.names, self.types = folder, None, collections.defaultdict(list)
        for at, _, files in os.walk(os.path.join(folder, "src")):
            for it in sorted(files):
                file = os.path.relpath(os.path.join(at, it), folder)
                for name in TYPE.findall(self.text(file)):
                    self.types[name].append(module_of(file))

    def text(self, file):
        """Returns the text of a file, or an empty text if there is no file."""
        if not os.path.isfile(os.path.join(self.folder, file)):
            return ""
        with open(os.path.join(self.folder, file), encoding="utf-8") as text:
            return text.read()

    def path_of(self, function):
        """Returns the path that is the prover's name of the function, or None if none or several fit."""
        declared = self.types[function.block.type] if function.block else []
        if self.names is None:
            return function.guessed_path(declared)
        return function.path_in(self.names, declared)


def names_in(library, crate):
    """Returns the prover's names of a crate's functions, as its built library lists them, or None
    without one."""
    try:
        with open(os.path.join(library, "toolchain", "mir.json"), encoding="utf-8") as file:
            found = [tuple(name.split("::")) for name, _ in json.load(file)]
    except FileNotFoundError:
        return None
    return {it[1:] for it in found if it[0] == crate}
