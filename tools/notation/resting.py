"""The definitions on which a definition or a clause rests: all names in its words, and the names in
their definitions in turn.
"""

import functools

from .modules import MODIFIERS, chunks_of, head_of, words_of
from .names import lookup

# Words that stand for no definition.
MARKS = set("( ) { } ; , . = : → × λ ? ∀ _ | @".split())
KEYWORDS = {"if", "then", "else", "let", "in", "record", "data", "where", "Type", "mutual"}


def closing(words, at):
    """Returns the place at which the bracket that opens at a place is closed."""
    depth = 0
    for end in range(at, len(words)):
        depth += (words[end] in "({") - (words[end] in ")}")
        if depth == 0:
            return end
    raise ValueError(" ".join(words))


class Scan:
    """Goes through the words of a file, and finds the names that they don't bind themselves."""

    def __init__(self, module, bound):
        self.module, self.scopes, self.found = module, [set(bound)], []

    def is_bound(self, name):
        return any(name in it for it in self.scopes)

    def lookup(self, word):
        """Returns what a word stands for in the module, unless it is bound."""
        parts = word.strip(".").split(".")
        if word[0] in '."' or self.is_bound(parts[0]):
            return None
        for name in (parts, [f"◌{word}◌"], [f"{word}◌"], [f"◌{word}"]):
            found, _ = lookup(self.module, name)
            if found:
                return found
        return None

    def use(self, word):
        """Adds what a word stands for, if anything."""
        if word in MARKS or word in KEYWORDS or word.isdigit():
            if word == "if":
                self.use("if◌then◌else◌")
            return
        found = self.lookup(word)
        if found:
            self.found.append((word, found))

    def words(self, words):
        """Goes through words from the left. Names that a bracket, a λ or a `let` binds hold after it."""
        at = 0
        while at < len(words):
            word, following = words[at], words[at + 1 : at + 2]
            if word in "({":
                at += self.open(words, at)
            elif word in ")}":
                self.scopes.pop()
            elif word in ("λ", "let"):
                end = words.index("." if word == "λ" else "=", at)
                self.scopes[-1].update(names_before_colons(words[at + 1 : end]))
                at = end
            elif following != ["="]:
                # Otherwise it is the name of a record's field.
                self.use(word)
            at += 1

    def open(self, words, at):
        """Goes through a bracket. Names that it binds hold until the bracket around it is closed."""
        end = closing(words, at)
        inside = words[at + 1 : end]
        count = inside.index(":") if ":" in inside else 0
        names = inside[:count]
        if count and not any(it in MARKS or it in KEYWORDS for it in names):
            self.scopes[-1].update(names)
        else:
            count = 0
        self.scopes.append(set())
        return count

    def case(self, words):
        """Goes through a case of a definition. It binds the words before `=`, except constructors."""
        depth, end = 0, 0
        while words[end] != "=" or depth:
            depth += (words[end] in "({") - (words[end] in ")}")
            end += 1
        self.scopes.append(set())
        for word in words[:end]:
            found = None if word in MARKS else self.lookup(word)
            if found and found[0] in ("constructor", "primitive"):
                self.found.append((word, found))
            elif word not in MARKS:
                self.scopes[-1].add(word)
        self.words(words[end + 1 :])
        self.scopes.pop()

    def fields(self, chunk):
        """Goes through the head of a type, and its fields or constructors: each has a name and a type."""
        end = head_of(chunk)
        self.words(words_of(chunk[:end])[2:])
        for words in map(words_of, chunks_of(chunk[end:])):
            words = [it for it in words if it not in MODIFIERS]
            colon = words.index(":")
            self.scopes[-1].update(words[:colon])
            self.scopes.append(set())
            self.words(words[colon + 1 :])
            self.scopes.pop()


def names_before_colons(words):
    """Returns the names that a λ or a `let` binds."""
    names, at = [], 0
    while at < len(words):
        if words[at] == "(":
            names += words[at + 1 : words.index(":", at)]
            at = closing(words, at)
        elif words[at] == ":":
            break
        else:
            names.append(words[at])
        at += 1
    return names


def lines_of(item):
    """Returns the lines of a definition or a type, each with its number in the file."""
    return sum(item.chunks, [])


def heads_of(item):
    """Yields the heads of the modules with parameters around a definition, as their lines."""
    text = item.module.text
    for at in sorted({at for _, at in item.section}):
        lines = list(enumerate(text[at - 1 :], at))
        yield lines[: head_of(lines)]


@functools.lru_cache(None)
def used_by(item):
    """Returns what the words of a definition or a type stand for, in their order."""
    if item.kind == "declared":
        return []
    bound = {item.name, *(name for name, _ in item.section)}
    scan = Scan(item.module, bound)
    for head in heads_of(item):
        scan.words(words_of(head)[2:])
    if item.kind in ("data", "record"):
        scan.fields(item.chunks[0])
        return scan.found
    words = [it for it in words_of(item.chunks[0]) if it not in MODIFIERS]
    scan.words(words[1:])
    for chunk in item.chunks[1:]:
        scan.case(words_of(chunk))
    return scan.found


class Closure:
    """What some clauses rest on: definitions of this repository, each after the definitions that it
    uses, and the words of the kit at which these end."""

    def __init__(self):
        self.items, self.of_kit, self.seen = [], {}, set()

    def add(self, word, found):
        """Adds what a word stands for, and everything on which that rests."""
        kind = found[0]
        if kind == "primitive":
            self.of_kit.setdefault(found[1], word)
            return
        item = found[1] if kind == "item" else found[2]
        if not item.module.is_ours:
            path = item.path if kind == "item" else f"{item.module.path}.{found[1]}"
            self.of_kit.setdefault(path, word)
        elif item.path not in self.seen:
            self.seen.add(item.path)
            for it in used_by(item):
                self.add(*it)
            self.items.append(item)
