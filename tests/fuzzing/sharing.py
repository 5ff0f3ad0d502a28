"""How many values each part of an answer works out anew, counted plainly from the words of
include/tensor.h on tensor_shared: those of lets, and what stands below an outermost operation.

Nothing here is shared with the library.
"""

import json

from .operations import ALONG_AN_AXIS, REDUCTIONS, size
from .reference import Walk
from .rules import FRAME_VERSIONS, is_let

COMBINING = {*REDUCTIONS, *ALONG_AN_AXIS, "contract", "convolve"}
MOVEMENTS = frozenset("broadcast slice shuffle reshape chip reverse stride".split())


class Sizes(Walk):
    """A walk that notes how many places each node has."""

    def __init__(self, version, inputs):
        super().__init__(version, inputs)
        self.size_of = {}

    def node(self, tree):
        dims, work = super().node(tree)
        self.size_of[id(tree)] = size(dims)
        return dims, work


def lies(tree, left_out):
    """Whether a node's values lie in a list, but for operations that are left out."""
    while isinstance(tree, list) and tree[0] in left_out:
        tree = tree[1]
    return isinstance(tree, str) or tree[0] in COMBINING


def worked_out(walk, operation, operand):
    """How many values of an operand an operation has worked out, but for what lies below it."""
    is_combined = isinstance(operand, list) and operand[0] in COMBINING
    left_out = MOVEMENTS if operation == "contract" else ("reshape",)
    is_wanted = operation in COMBINING and not lies(operand, left_out)
    return walk.size_of[id(operand)] if is_combined or is_wanted else 0


def below(walk, tree):
    """How many are worked out below a node's operation."""
    if isinstance(tree, str):
        return 0
    operands = tree[1 : 1 + walk.operations[tree[0]][0]]
    return sum(below(walk, it) + worked_out(walk, tree[0], it) for it in operands)


def shared(header):
    """How many values each part of the answer to a frame with this header works out anew, where
    there is an answer."""
    request = json.loads(header)
    walk = Sizes(FRAME_VERSIONS[request["version"]], request["inputs"])
    walk.whole(request["expr"])
    count, tree = 0, request["expr"]
    while is_let(walk.version, tree):
        _, _, first, tree = tree
        count += below(walk, first) + walk.size_of[id(first)]
    return count + below(walk, tree)
