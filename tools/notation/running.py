"""Definitions as functions of Python, made from their cases when they are first called.

All definitions are total, so the order of evaluation has no effect. Arguments are evaluated first,
except the branches of an `if` and similar words.
"""

import functools
import itertools
import re
import sys

from .cases import cases_of
from .names import lookup, module_of
from .primitives import PATTERNS, PRIMITIVES

# The number of answers that are kept of a definition over numbers alone.
OVER_NUMBERS, MOST_KEPT = re.compile(r"[^:]* : (ℕ → )*[^→]+"), 4_096
sys.setrecursionlimit(10**6)


class Running:
    """Definitions as functions, and how often each of their cases has answered."""

    def __init__(self):
        # Each case as its definition, its number and its line, and how often it has answered.
        self.codes, self.cases, self.counts = {}, [], []
        self.scope = {"counts": self.counts, "kept": functools.lru_cache(MOST_KEPT)}

    def item(self, path):
        """Returns the definition of a path `Rattle.CRATE.specs.FILE.NAME`."""
        module, _, name = path.rpartition(".")
        return module_of(module).items[name]

    def of(self, path, *given):
        """Returns what a definition gives, as it is now."""
        return self.scope[self.code(self.item(path))](*given)

    def changed(self, path, change):
        """Changes a definition's function. All others use the changed one from now on."""
        code = self.code(self.item(path))
        self.scope[code] = change(self.scope[code])

    def code(self, item):
        """Returns the name in Python of a definition."""
        if item not in self.codes:
            self.codes[item] = f"d{len(self.codes)}"
            self.make(item, cases_of(item))
        return self.codes[item]

    def make(self, item, cases):
        """Makes a function of a definition with these cases."""
        exec(Writer(self, item).text(cases), self.scope)  # pylint: disable=exec-used


class Writer:
    """Writes a definition as a text of Python."""

    def __init__(self, running, item):
        self.running, self.item, self.numbers = running, item, itertools.count()

    def text(self, cases):
        """Returns the text of the whole function, which tries its cases from the first on."""
        given = [f"a{k}" for k in range(len(cases[0][1]))]
        signature = " ".join(line.strip() for _, line in self.item.chunks[0])
        lines = ["@kept"] if OVER_NUMBERS.fullmatch(signature) and not self.item.section else []
        lines.append(f"def {self.running.code(self.item)}({', '.join(given)}):")
        for number, (line, patterns, body) in enumerate(cases, 1):
            tests, known = [], {}
            for pattern, value in zip(patterns, given):
                tests += self.match(pattern, value, known)
            self.running.cases.append((self.item, number, line))
            self.running.counts.append(0)
            lines.append(f"    if {' and '.join(tests) or True}:")
            lines.append(f"        counts[{len(self.running.counts) - 1}] += 1")
            lines.append(f"        return {self.term(body, known)}")
        lines.append(f"    raise ValueError({self.item.path!r})")
        return "\n".join(lines)

    def match(self, pattern, value, known):
        """Returns the tests that a value fits a pattern. The names of the pattern are known from then
        on."""
        head, parts = pattern[1:] if pattern[0] == "call" else (pattern, ())
        found, _ = lookup(self.item.module, head[1])
        test, values = PATTERNS.get(found and found[1], (None, []))
        if found and found[0] == "constructor":
            test, values = f"{{}}[0] == {found[1]!r}", [f"{{}}[{k + 1}]" for k in range(found[3])]
        if len(values) != len(parts):
            raise ValueError(f"{self.item.path}: the pattern {pattern}")
        if test is None:
            known[head[1][0]] = value
            return []
        tests = [test.format(value)]
        for part, it in zip(parts, values):
            tests += self.match(part, it.format(value), known)
        return tests

    def term(self, term, known):
        """Returns the text of a term. Names are known by these texts."""
        kind, *parts = term
        if kind == "value":
            return repr(parts[0])
        if kind == "name":
            return self.call(term, (), known)
        if kind == "call":
            return self.call(*parts, known)
        if kind == "part":
            return parts_of(self.term(parts[0], known), parts[1])
        if kind == "record":
            fields = [f"{name!r}: {self.term(it, known)}" for name, it in parts[1]]
            base = [f"**{self.term(parts[0], known)}"] if parts[0] else []
            return f"{{{', '.join(base + fields)}}}"
        name = f"v{next(self.numbers)}"
        return f"(lambda {name}: {self.term(parts[1], {**known, parts[0]: name})})"

    def call(self, head, arguments, known):
        """Returns the text of a term applied to arguments."""
        if head[0] == "name":
            count, template = self.template(head[1], known)
        else:
            count, template, arguments = 1, "{}", (head, *arguments)
        texts = [self.term(it, known) for it in arguments]
        # If arguments are missing, it is a function that takes them one after the other.
        names = [f"x{k}" for k in range(count)] if len(texts) < count else []
        text = "".join(f"(lambda {it}: " for it in names) + template.format(*(names or texts))
        left = texts if names else texts[count:]
        return text + ")" * len(names) + "".join(f"({it})" for it in left)

    def template(self, parts, known):
        """Returns how many arguments a name takes, and the text into which they are put."""
        if parts[0] in known:
            return 0, parts_of(known[parts[0]], parts[1:])
        found, behind = lookup(self.item.module, parts)
        if found is None:
            raise ValueError(f"{self.item.path}: the name {'.'.join(parts)}")
        if found[0] == "primitive":
            count, template = PRIMITIVES[found[1]]
        elif found[0] == "constructor":
            count, template = found[3], f"{found[1]!r}, {'{}, ' * found[3]}"
        else:
            count, template = self.definition(found[1])
        return count, parts_of(f"({template})", behind)

    def definition(self, item):
        """Returns how many arguments a definition takes, and the text into which they are put."""
        count, above = len(cases_of(item)[0][1]), len(item.section)
        # Inside a module with parameters, these are handed on unchanged.
        is_inside = (item.module, item.section) == (self.item.module, self.item.section[:above])
        given = [f"a{k}" if is_inside and k < above else "{}" for k in range(count)]
        return given.count("{}"), f"{self.running.code(item)}({', '.join(given)})"


def parts_of(text, names):
    """Returns the text for a part of a pair, by its number, or of a record."""
    return text + "".join(f"[{it if it.isdigit() else repr(it)}]" for it in names)
