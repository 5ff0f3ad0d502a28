"""The line that answers a request text, worked out plainly from the rules of docs/REQUEST.md and,
of version 3, docs/FRAMES.md.

Nothing here is shared with the program.
"""

import functools
import json
import math

from .operations import OPERATIONS_OF, Tensor, cost_of, size
from .rules import (
    FAULTS,
    FIELDS,
    FORMS,
    FRAME_VERSIONS,
    MOST_BYTES,
    MOST_NESTING,
    VERSIONS,
    WORDS,
    Fault,
    are_legal,
    is_let,
    is_list_of,
    is_value,
    is_whole,
    need,
)


def whole(text):
    """A number without fraction and exponent: whole, unless it is -0 or past 64 bits."""
    is_short = len(text) <= len(str(WORDS.start))
    return int(text) if is_short and int(text) in WORDS and text != "-0" else real(text)


def real(text):
    """Any other number. One past the greatest float makes the text no JSON."""
    need(math.isfinite(float(text)), 2)
    return float(text)


def no_constant(_text):
    """What Python reads and JSON doesn't have, as NaN."""
    raise Fault(2)


class Members(dict):
    """An object. Of a key that stands twice the last value counts; all have to be JSON."""

    def __init__(self, pairs):
        super().__init__(pairs)
        self.all = [it for _, it in pairs]


READER = json.JSONDecoder(
    object_pairs_hook=Members, parse_int=whole, parse_float=real, parse_constant=no_constant
)


def strings_are_unicode(value):
    """Whether no string of a value has half of a surrogate pair."""
    if isinstance(value, str):
        return not any("\ud800" <= letter <= "\udfff" for letter in value)
    if isinstance(value, dict):
        return all(map(strings_are_unicode, (*value, *value.all)))
    return not isinstance(value, list) or all(map(strings_are_unicode, value))


def nesting(value):
    """How deep a value's arrays and objects are nested."""
    if not isinstance(value, (list, dict)):
        return 0
    items = value.all if isinstance(value, dict) else value
    return 1 + max(map(nesting, items), default=0)


def parse(text):
    """The JSON value of a text."""
    need(len(text) <= MOST_BYTES, 1)
    try:
        letters = text.decode("utf-8")
        value, end = READER.raw_decode(letters, len(letters) - len(letters.lstrip(" \t\n\r")))
    except (ValueError, RecursionError):
        raise Fault(2) from None
    need(not letters[end:].strip(" \t\n\r"), 2)
    need(nesting(value) <= MOST_NESTING, 2)
    need("\\u" not in letters or strings_are_unicode(value), 2)
    return value


def is_tensor(version, value):
    return (
        isinstance(value, dict)
        and value.keys() == {"dims", "data"}
        and is_list_of(value["dims"], lambda it: is_whole(it, 0, WORDS.stop))
        and are_legal(version, value["dims"])
        and is_list_of(value["data"], is_value)
        and len(value["data"]) == size(value["dims"])
    )


class Walk:
    """The walk over a tree: its nodes, each with its dims, or the first fault."""

    def __init__(self, version, inputs):
        self.version, self.operations = version, OPERATIONS_OF[version.number]
        self.nodes, self.places = 0, 0
        # By name the dims of an input or of a let's tensor, and a function that gives the tensor.
        self.known = {name: self.input(it) for name, it in inputs.items()}

    @staticmethod
    def input(it):
        return it["dims"], lambda: Tensor(it["dims"], it["data"])

    def whole(self, tree):
        """The same as of a node, of the whole expression or of what is left of it behind a let."""
        if not is_let(self.version, tree):
            return self.node(tree)
        self.count()
        need(len(tree) == 4, 10)
        _, name, first, rest = tree
        need(isinstance(name, str) and name not in self.known, 11)
        dims, work = self.node(first)
        self.known[name] = dims, functools.lru_cache(None)(work)
        return self.whole(rest)

    def node(self, tree):
        """Result dims, and a function that works the tensor out."""
        self.count()
        return self.name(tree) if isinstance(tree, str) else self.operation(tree)

    def count(self):
        self.nodes += 1
        need(self.nodes <= self.version.most_nodes, 14)

    def name(self, name):
        need(name in self.known, 8)
        return self.known[name]

    def operation(self, tree):
        need(isinstance(tree, list) and tree and isinstance(tree[0], str), 9)
        need(tree[0] in self.operations, 9)
        operands, forms, dims_of, work = self.operations[tree[0]]
        need(len(tree) == 1 + operands + len(forms), 10)
        below = [self.node(it) for it in tree[1 : 1 + operands]]
        arguments = tree[1 + operands :]
        for form, argument in zip(forms, arguments):
            need(FORMS[form](argument), 11)
        dims_below = [it for it, _ in below]
        dims = dims_of(self.version, *dims_below, *arguments)
        self.places += cost_of(tree[0], dims, dims_below, arguments)
        return dims, lambda: work(dims, *(then() for _, then in below), *arguments)


def values_limit(header):
    """How many values a frame may have behind this header."""
    try:
        fields = parse(header)
    except Fault:
        fields = None
    is_request = isinstance(fields, dict) and fields.keys() == FIELDS
    is_third = is_request and is_whole(fields["version"], 3, 3)
    return FRAME_VERSIONS[3 if is_third else 1].most_values


def read(text, versions=VERSIONS):
    """The dims of a text's answer, the function that works it out, and the walk over its tree."""
    return asked(parse(text), versions)


def asked(fields, versions):
    """The same of a text's JSON value."""
    need(isinstance(fields, dict) and fields.keys() == FIELDS, 3)
    need(is_whole(fields["version"], min(versions), max(versions)), 4)
    version = versions[fields["version"]]
    need(is_whole(fields["workers"], 1, version.most_workers), 5)
    need(is_whole(fields["block"], 1, version.most_places), 6)
    inputs = fields["inputs"]
    need(isinstance(inputs, dict) and all(is_tensor(version, it) for it in inputs.values()), 7)
    walk = Walk(version, inputs)
    return *walk.whole(fields["expr"]), walk


def answer(text, most_places, versions=VERSIONS):
    """The line that answers a text, and its status; None for one of more places than are wanted.
    A frame of the same values has the versions of a frame."""
    return line_of(lambda: read(text, versions), most_places)


def line_of(reading, most_places):
    """The same of a function that reads."""
    try:
        dims, work, walk = reading()
    except Fault as fault:
        return f"error {fault.number} {FAULTS[fault.number]}\n".encode(), 1
    if walk.places > most_places:
        return None
    data = ",".join(map(str, work().values))
    return f'{{"data":[{data}],"dims":[{",".join(map(str, dims))}]}}\n'.encode(), 0
