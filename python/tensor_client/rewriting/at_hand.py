"""Slices of inputs that have no gaps in memory. The library reads them where they lie, as inputs."""

from __future__ import annotations

from typing import Dict, Optional

from ..expressions import Expr
from ..faults import Fault
from ..length import MAX_VALUES
from ..rules import product, sliced, without
from ..tensors import Tensor
from .bindings import in_order, size_of, with_others


def at_hand(expr: Expr) -> Expr:
    """Returns an expression in which inputs replace slices without gaps, and numbers beside these are
    constants. It has no more nodes. Returns `expr` itself if there would be too many values.

    >>> x = tensor(range(5_000))
    >>> at_hand(x[1:] - x[:-1])
    <sub, dims (4999,), 3 nodes>
    """
    parts = in_order(expr)
    others: Dict[int, Expr] = {id(it): part for it in parts if (part := part_of(it)) is not None}
    if not others:
        return expr
    inputs = {it.dims: it for it in others.values()}
    for it in parts:
        value = getattr(it.operands[0], "own", ()) if it.operation == "broadcast" else ()
        if len(value) == 1 and isinstance(value, list) and it.dims in inputs:
            others[id(it)] = Expr("constant", [inputs[it.dims]], value, it.dims, it.truth)
    found = with_others(expr, others)
    size = sum(size_of(it) for it in in_order(found) if not it.operands)
    return found if size <= MAX_VALUES else expr


def part_of(expr: Expr) -> Optional[Tensor]:
    """Returns a slice of an input as an input over a part of its memory, or None if the part has gaps."""
    x = expr.operands[0] if expr.operation == "slice" else None
    if not isinstance(x, Tensor) or not x.dims or isinstance(x.own, list):
        return None
    try:
        extents = sliced(x.dims, *expr.arguments)
    except Fault:
        return None
    slowest = 0 if x.turned else len(x.dims) - 1
    rest = without(x.dims, [slowest])
    if without(extents, [slowest]) != rest:
        return None
    begin, size = (it[slowest] * product(rest) for it in expr.arguments)
    return Tensor(x.own[begin : begin + size], extents, x.truth, x.shared, x.turned)
