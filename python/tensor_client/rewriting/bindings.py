"""Which parts of an expression a request binds by `let`, since they would be evaluated several times."""

from __future__ import annotations

from typing import Dict, List, Mapping, NamedTuple, Set, Tuple

from ..expressions import Expr
from ..rules import product

# Operations along one axis. Their operands are evaluated as lists.
ALONG_AN_AXIS = frozenset("cumsum cumprod argmax argmin take".split())
# Operations that combine values. They are evaluated as lists, wherever they are.
COMBINING = ALONG_AN_AXIS.union("sum prod maximum minimum all any contract convolve".split())
# The fewest nodes of a bound part that is evaluated place by place. To evaluate a smaller part again
# costs less than to keep its values in memory.
LEAST_NODES = 16
# Operations that ask for no place of their operand twice.
ONCE = frozenset("broadcast pad concat".split())
# An expression of fewer nodes has nothing to bind: an operation on the same sum twice has five nodes.
# And the most nodes of a short expression.
FEWEST, SHORT = 5, 500
# The most parts that are bound: each `let` is inside the one before, and a text nests 127 deep. In an
# expression that nests deeper, a part is bound for each DEEP operations inside one another.
MOST_BOUND, DEEP = 100, 60


class Bindings(NamedTuple):
    """The bound parts, each after the parts that it uses; and the nodes and the depth of the request."""

    bound: List[Expr]
    nodes: int
    depth: int


def bindings_of(expr: Expr, is_apart: bool = False) -> Bindings:
    """Returns the parts that are used several times, as one object, and that combine values or have at
    least 16 nodes. In a short expression, a part that is evaluated place by place is bound only if at
    least as many places of it are asked for as it has. It isn't bound there with `is_apart`, when
    threads compute parts of the answer apart: each of them would evaluate all that is bound.

    >>> s = tensor([[1, 2], [3, 4]]).sum(0)
    >>> bindings_of(s * s + s).bound
    [<sum, dims (2,), 2 nodes>]
    """
    if expr.nodes < FEWEST:
        return none_of(expr)
    parts = in_order(expr)
    counts: Dict[int, int] = {}
    for it in parts:
        for operand in it.operands:
            if operand.operands:
                counts[id(operand)] = counts.get(id(operand), 0) + 1
    if max(counts.values(), default=0) < 2:
        return none_of(expr)
    heavy = heavy_of(parts, counts)
    found = measured(parts, standing_again(parts, set() if is_apart else heavy, False))
    return found if found.nodes <= SHORT else measured(parts, standing_again(parts, heavy, True))


def bound_by_depth(expr: Expr, is_alone: bool = False) -> Bindings:
    """Returns bindings with which at most 60 operations are inside one another. Unless `is_alone`, the
    parts of `bindings_of` are bound too.

    >>> x = tensor(1)
    >>> for _ in range(100):
    ...     x = -x
    >>> bound_by_depth(x).bound
    [<neg, dims (), 60 nodes>]
    """
    parts = in_order(expr)
    depths: Dict[int, int] = {}
    again = set() if is_alone else {id(it) for it in bindings_of(expr).bound}
    found: List[Expr] = []
    for it in reversed(parts):
        depth = 1 + max([depths[id(operand)] for operand in it.operands], default=0)
        if it is not expr and (depth == DEEP or id(it) in again):
            found.append(it)
            depth = 1
        depths[id(it)] = depth
    return measured(parts, found)


def none_of(expr: Expr) -> Bindings:
    """Returns the bindings of an expression no part of which is bound."""
    return Bindings([], expr.nodes, expr.depth)


def heavy_of(parts: List[Expr], counts: Dict[int, int]) -> Set[int]:
    """Returns which parts are evaluated place by place and have enough nodes to be bound if they are
    used twice. `counts` says how often each is an operand."""
    heavy: Set[int] = set()
    # How many nodes are evaluated for a place of a part: one, if the part is a list.
    weights: Dict[int, int] = {}
    for it in reversed(parts):
        if not it.operands or it.operation in COMBINING:
            continue
        weight = 1 + sum([weights.get(id(operand), 1) for operand in it.operands])
        if weight >= LEAST_NODES and counts.get(id(it), 0) > 1:
            heavy.add(id(it))
        else:
            weights[id(it)] = weight
    return heavy


def standing_again(parts: List[Expr], heavy: Set[int], is_all: bool) -> List[Expr]:
    """Returns the parts that would be evaluated several times, each after the parts that it uses. A
    heavy part counts if `is_all`, or if at least as many places of it are asked for as it has."""
    found: List[Expr] = []
    # How often each part is evaluated, and how many places of it are asked for.
    times: Dict[int, int] = {id(parts[0]): 1}
    places: Dict[int, int] = {id(parts[0]): size_of(parts[0])}
    for it in parts:
        often, asked = times.get(id(it), 1), places.get(id(it), 0)
        is_heavy = id(it) in heavy and (is_all or asked >= size_of(it))
        if often > 1 and (is_heavy or it.operation in COMBINING):
            found.append(it)
            often, asked = 1, size_of(it)
        for operand in it.operands:
            if operand.operands:
                more = asked_of(it, operand, often, asked)
                times[id(operand)] = times.get(id(operand), 0) + often
                places[id(operand)] = places.get(id(operand), 0) + more
    return found[::-1]


def asked_of(expr: Expr, operand: Expr, often: int, asked: int) -> int:
    """Returns how many places of its operand an operation asks for, if it is evaluated `often` times and
    `asked` of its places are asked for."""
    if expr.operation in COMBINING:
        return often * size_of(operand)
    return min(asked, often * size_of(operand)) if expr.operation in ONCE else asked


def size_of(expr: Expr) -> int:
    """Returns how many places there are; 0 if the dims aren't known."""
    return 0 if expr.dims is None else product(expr.dims)


def measured(parts: List[Expr], found: List[Expr]) -> Bindings:
    """Returns bindings of at most MOST_BOUND of these parts, with the request's nodes and depth."""
    bound = found[:MOST_BOUND]
    names = {id(it) for it in bound}
    sizes: Dict[int, Tuple[int, int]] = {}
    for it in reversed(parts):
        below = [sizes[id(o)] if id(o) not in names else (1, 1) for o in it.operands]
        depth = max([it[1] for it in below], default=0)
        sizes[id(it)] = 1 + sum([it[0] for it in below]), 1 + depth
    nodes, depth = sizes[id(parts[0])]
    depth += len(bound)
    for at, it in enumerate(bound, 1):
        own = sizes[id(it)]
        nodes, depth = nodes + 1 + own[0], max(depth, at + own[1])
    return Bindings(bound, nodes, depth)


def in_order(expr: Expr) -> List[Expr]:
    """Returns all parts of an expression, each once, before the parts that it uses."""
    found: List[Expr] = []
    seen = {id(expr)}
    left: List[Tuple[Expr, int]] = [(expr, 0)]
    while left:
        it, at = left.pop()
        if at == len(it.operands):
            found.append(it)
            continue
        left.append((it, at + 1))
        operand = it.operands[at]
        if id(operand) not in seen:
            seen.add(id(operand))
            left.append((operand, 0))
    return found[::-1]


def with_others(expr: Expr, others: Mapping[int, Expr]) -> Expr:
    """Returns an expression in which other parts replace some of its parts, by the identity of these.

    >>> x, y = tensor([1, 2]), tensor([3, 4])
    >>> run(with_others(x * x + 1, {id(x): y})).values
    [10, 17]
    """
    made, left = dict(others), [expr]
    while left:
        it = left[-1]
        missing = [operand for operand in it.operands if id(operand) not in made]
        if missing and id(it) not in made:
            left += missing
            continue
        left.pop()
        if id(it) not in made:
            operands = [made[id(operand)] for operand in it.operands]
            arguments, dims, truth = it.arguments, it.dims, it.truth
            is_input = not operands
            made[id(it)] = it if is_input else Expr(it.operation, operands, arguments, dims, truth)
    return made[id(expr)]
