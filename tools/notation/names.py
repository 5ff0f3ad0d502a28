"""The meaning of a name in a file of the notation. It stands for an item of this repository or, if the
file imports it from there, of the kit.
"""

import functools
import os
import re

from crates import CRATES, kit

from .modules import Item, Module
from .primitives import PRIMITIVES

# By the first part of a path, the folders of its files: here, and in the kit.
ROOTS = {
    "Rattle": [CRATES, "rattle"],
    "lib": ["rattle/logic/Lib"],
    "mir": ["rattle/logic/Mir"],
    "mathlib": ["rattle/antt/port/mathlib/src"],
}
VARIANT = re.compile(r"(?m)^\s*(\w+)\s*(?:\(([^)]*)\))?(?:\s*=\s*-?\d+)?,?\s*$")


class Declared(Module):
    """A type of Rust that specs speak of, by its path `Rattle.CRATE.specs.declared.MODULE.TYPE`."""

    def take_up(self):
        name = self.path.rpartition(".")[2]
        item = Item(self, "declared", name, [], [])
        self.items.update({name: item, "Ghosts": item})
        body = re.search(r"enum %s\b[^{]*\{(.*?)\n\}" % name, "\n".join(self.text), re.S)
        for it in VARIANT.finditer(re.sub("//.*", "", body[1] if body else "")):
            self.constructors[it[1]] = item, len(re.findall(r"[^,\s][^,]*", it[2] or ""))


def file_of(first, *within):
    """Returns the file of a module, or of a type of the code, or None."""
    ends = [".antt"]
    if "declared" in within:
        within, ends = [within[0], "src", *within[3:-1]], [".rt", "/mod.rt"]
    paths = [os.path.join(kit(), root, *within) for root in ROOTS.get(first, ())]
    return next(filter(os.path.exists, [path + end for path in paths for end in ends]), None)


@functools.lru_cache(None)
def module_of(path):
    """Returns the module of a path. It is empty if it has no file."""
    parts = path.split(".")
    file, lib = file_of(*parts), [*parts[:3], "Lib"]
    if file is None and parts[3:] and file_of(*lib):
        # specs/Lib of a crate may re-export it.
        passed = module_of(".".join(lib)).aliases.get(parts[3])
        if passed:
            return module_of(".".join([passed, *parts[4:]]))
    return (Declared if "declared" in parts else Module)(path, file or os.devnull)


def resolve(module, name):
    """Returns what a name of a module is: ("primitive", its path), ("constructor", its name, data type,
    arguments), ("item", item), or None."""
    whole = f"{module.path}.{name}"
    if whole in PRIMITIVES:
        return "primitive", whole
    if name in module.constructors:
        return "constructor", name, *module.constructors[name]
    if name in module.items:
        return "item", module.items[name]
    path, name = module.opened.get(name, (None, None))
    return resolve(module_of(path), name) if path else None


def lookup(module, parts):
    """Returns what the first of these parts name in a module, and the parts after them."""
    name, *behind = parts
    # After a dot comes an item of a module that has a name here, or a variant of a type.
    path = module.aliases.get(name) or module.opened.get(name, [None])[0]
    found = resolve(module_of(path), behind[0]) if path and behind else None
    if found and (name in module.aliases or found[0] == "constructor"):
        return found, behind[1:]
    return resolve(module, name), behind
