"""The faults and the limits of a request, and the forms of what stands in it: docs/REQUEST.md."""

import math
from typing import NamedTuple

MOST_BYTES = 16_777_216
MOST_NESTING = 127
MOST_SIZE = 2**63 - 1
VALUES = range(-(2**63), 2**63)
WORDS = range(-(2**63), 2**64)

FAULTS = {
    1: "TooLong",
    2: "NotJson",
    3: "BadField",
    4: "BadVersion",
    5: "BadWorkers",
    6: "BadBlock",
    7: "BadTensor",
    8: "UnknownInput",
    9: "UnknownOp",
    10: "BadArity",
    11: "BadArgument",
    12: "ShapeMismatch",
    13: "OutOfRange",
    14: "TooLarge",
}
FIELDS = {"version", "workers", "block", "inputs", "expr"}


class Version(NamedTuple):
    """What a version of the request allows, beside its operations."""

    number: int
    most_rank: int
    most_workers: int
    # Of a tensor, and of a block.
    most_places: int = 1_048_576
    # Of a contraction or a convolution.
    most_products: int = 1_073_741_824
    most_nodes: int = 1_000
    # Behind a frame's header.
    most_values: int = 16_777_216
    has_let: bool = False


# Those of a text, and those of a frame.
VERSIONS = {it.number: it for it in (Version(1, 6, 64), Version(2, 8, 256))}
THIRD = Version(3, 8, 256, 268_435_456, 1_099_511_627_776, 10_000, 4_294_967_296, has_let=True)
FRAME_VERSIONS = {**VERSIONS, 3: THIRD}


class Fault(Exception):
    """A fault of a text, by its number."""

    def __init__(self, number):
        super().__init__(number)
        self.number = number


def need(holds, number):
    """The fault of this number, unless something holds."""
    if not holds:
        raise Fault(number)


def is_whole(value, least, most):
    """Whether a JSON value is a whole number of a range."""
    return type(value) is int and least <= value <= most


def is_list_of(value, is_item):
    return isinstance(value, list) and all(map(is_item, value))


def is_let(version, tree):
    """Whether a whole expression begins with a let, where a version has any."""
    return version.has_let and isinstance(tree, list) and tree[:1] == ["let"]


def is_size(value):
    return is_whole(value, 0, MOST_SIZE)


def is_value(value):
    return is_whole(value, VALUES.start, VALUES.stop - 1)


def is_pair(value):
    return is_list_of(value, is_size) and len(value) == 2


def are_legal(version, dims):
    """Whether a tensor of a version may have these dims: a 0 counts as 1."""
    is_rank = len(dims) <= version.most_rank
    return is_rank and math.prod(max(it, 1) for it in dims) <= version.most_places


# The forms of arguments.
FORMS = {
    "size": is_size,
    "sizes": lambda it: is_list_of(it, is_size),
    "pairs": lambda it: is_list_of(it, is_pair),
    "flags": lambda it: is_list_of(it, lambda flag: isinstance(flag, bool)),
    "value": is_value,
}
