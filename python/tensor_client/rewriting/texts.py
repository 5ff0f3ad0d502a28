"""Expressions as texts ask for them. Texts have no operations along one axis. Other operations replace
them: over all pairs of two places of the axis, or in rows."""

from __future__ import annotations

from typing import Callable, Dict

from .. import rules
from ..expressions import Expr
from ..faults import TooLarge
from ..functions.chosen import in_parts, runs_of
from ..functions.common import beside_axis, moved, part
from ..functions.joined import concatenate
from ..functions.scans import PRODUCTS, SUMS, scanned
from ..tensors import Tensor, full, tensor, where
from .bindings import in_order

# The most nodes of values that are taken in parts.
MOST_IN_PARTS = 150


def as_in_texts(expr: Expr) -> Expr:
    """Returns an expression of the same values without operations along one axis, if the dims are known.

    >>> x = tensor([1, 2])
    >>> run(as_in_texts(x.cumsum(0) + x)).values, as_in_texts(x + 1).operation
    ([2, 5], 'add')
    """
    made: Dict[int, Expr] = {}
    for it in reversed(in_order(expr)):
        other = OTHERS.get(it.operation) if it.dims is not None else None
        operands = [made[id(operand)] for operand in it.operands]
        if other is not None:
            made[id(it)] = other(*operands, *it.arguments)
        elif all(new is old for new, old in zip(operands, it.operands)):
            made[id(it)] = it
        else:
            made[id(it)] = Expr(it.operation, operands, it.arguments, it.dims, it.truth)
    return made[id(expr)]


def first_offset(best: str, x: Expr, axis: int) -> Expr:
    """Returns the first offset along an axis of the greatest or the least value; 0 for an empty axis."""
    length = x.shape[axis]
    if not length:
        return full(rules.without(x.shape, [axis]), 0)
    is_best = x.eq(getattr(x, best)(axis=axis, keepdims=True))
    offsets = tensor(range(length)).in_dims([length] + [1] * (x.ndim - axis - 1))
    return where(is_best, offsets, length).min(axis=axis)


def taken(x: Expr, at: Expr, axis: int) -> Expr:
    """Returns the values at these offsets of an axis. If a few runs make up the offsets, it joins parts.
    Otherwise it uses products with matrices of 0 and 1, which have a place for each pair of an offset
    and a place of the axis. Raises TooLarge."""
    length, dims = x.shape[axis], beside_axis(x.shape, axis, at.shape)
    if isinstance(at, Tensor) and all(0 <= it < length for it in at.values):
        runs = runs_of(at.values, MOST_IN_PARTS // x.nodes)
        if runs is not None:
            return in_parts(x, runs, axis).in_dims(dims)
    line = at.in_dims([at.size])
    piece = rules.piece(at.size, length)
    if at.size > piece * rules.MOST_PIECES:
        raise TooLarge(f"taking {at.size:,} offsets of {length:,}: run a part of them at a time")
    numbers, pieces = tensor(range(length)), []
    for begin in range(0, max(at.size, 1), piece):
        named = part(line, 0, begin, min(begin + piece, at.size))
        chosen = named.in_dims([named.size, 1]).eq(numbers)
        pieces.append(moved(chosen.contract(x, [(1, axis)]), 0, axis))
    return concatenate(pieces, axis).in_dims(dims)


# What replaces each operation along one axis.
OTHERS: Dict[str, Callable[..., Expr]] = {
    "cumsum": lambda x, axis: scanned(SUMS, x, axis),
    "cumprod": lambda x, axis: scanned(PRODUCTS, x, axis),
    "argmax": lambda x, axis: first_offset("max", x, axis),
    "argmin": lambda x, axis: first_offset("min", x, axis),
    "take": taken,
}
