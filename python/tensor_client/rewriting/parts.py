"""Runs expressions that are too long for one request in parts. Their tensors replace the parts."""

from __future__ import annotations

from collections import Counter
from typing import Any, Callable, Dict, List, Optional

from ..expressions import Expr
from ..length import FIRST_NODES, Unfit
from ..tensors import Tensor
from .bindings import in_order

# The most nodes of a part and operations inside one another: in versions 1 and 2, and in version 3,
# which binds some parts.
FIRST_PART, PART = (500, 110), (3_000, 1_500)
Ask = Callable[[Expr, Any], Tensor]


def at_once_or_in_parts(expr: Expr, ask: Ask, out: Any) -> Tensor:
    """Returns the tensor of an expression, by one request, or by several if one is too small for it."""
    try:
        return ask(expr, out)
    except Unfit as unfit:
        limits = FIRST_PART if unfit.most == FIRST_NODES else PART
        return ask(in_parts(unfit.expr, *limits, lambda it: ask(it, None)), out)


def in_parts(expr: Expr, nodes: int, depth: int, ask: Callable[[Expr], Tensor]) -> Expr:
    """Returns an expression of at most `nodes` nodes and `depth` operations inside one another, in which
    tensors replace longer parts. A tensor that nothing needs any more is released.

    >>> found = in_parts(-(-(-(-tensor(5)))), 3, 3, run)
    >>> found, run(found).item()
    (<neg, dims (), 3 nodes>, 5)
    """
    parts = in_order(expr)[::-1]
    left = Counter(id(operand) for it in parts for operand in it.operands)
    made: Dict[int, Expr] = {}
    for it in parts:
        operands = [made[id(operand)] for operand in it.operands]
        while len(operands) and not is_within(operands, nodes, depth):
            longest = max(operands, key=lambda part: (part.nodes > nodes // 4, part.depth, part.nodes))
            found = ask(longest)
            operands = [found if operand is longest else operand for operand in operands]
            made.update((id(old), new) for old, new in zip(it.operands, operands))
        for operand in it.operands:
            left[id(operand)] -= 1
            if not left[id(operand)]:
                del made[id(operand)]
        made[id(it)] = with_operands(it, operands)
    return made[id(expr)]


def is_within(operands: List[Expr], nodes: int, depth: int) -> bool:
    """Whether an operation on these operands has at most this many nodes, and this depth."""
    return sum([it.nodes for it in operands]) < nodes and max([it.depth for it in operands]) < depth


def with_operands(it: Expr, operands: List[Expr]) -> Expr:
    """Returns an operation with these operands; itself, if they are its own."""
    if all(new is old for new, old in zip(operands, it.operands)):
        return it
    return Expr(it.operation, operands, it.arguments, it.dims, it.truth)
