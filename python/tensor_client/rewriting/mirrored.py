"""Expressions with their axes in reverse order. With its axes reversed, an array in C order is
column-major. So a request reads it as it lies, and reductions go along its memory."""

from __future__ import annotations

from typing import Any, Callable, Dict, List, Optional, Sequence

from ..expressions import Expr
from ..operations import OPERATIONS
from ..rules import Dims
from ..tensors import Tensor
from .bindings import ALONG_AN_AXIS, in_order

REDUCTIONS = "sum prod maximum minimum all any".split()
Mirror = Callable[[Expr, List[Expr]], Expr]


def lie_mirrored(expr: Expr) -> bool:
    """Whether an input lies in C order, and no large input with several axes lies otherwise.

    >>> lie_mirrored(tensor([[1, 2], [3, 4]]).sum(0))
    False
    """
    found = False
    for it in in_order(expr):
        if isinstance(it, Tensor):
            if it.is_mirrored:
                found = True
            elif len(it.dims or ()) > 1 and it.is_large:
                return False
    return found


def mirrored(expr: Expr) -> Optional[Expr]:
    """Returns an expression of the same values with its axes in reverse order, over inputs as they lie
    in memory. Returns None if dims aren't known.

    >>> x = tensor([[1, 2, 3], [4, 5, 6]])
    >>> run(mirrored(x.sum(0) + x)).nested()
    [[6, 9], [9, 12], [12, 15]]
    """
    made: Dict[int, Expr] = {}
    for it in reversed(in_order(expr)):
        if isinstance(it, Tensor):
            made[id(it)] = as_it_lies(it)
            continue
        mirror = MIRRORS.get(it.operation)
        if mirror is None or it.dims is None:
            return None
        made[id(it)] = mirror(it, [made[id(operand)] for operand in it.operands])
    return made[id(expr)]


def reversed_axes(expr: Expr) -> Expr:
    """Returns an expression with its axes in reverse order. The reverse of a reversal is its operand.

    >>> reversed_axes(reversed_axes(tensor([[1, 2]]))), reversed_axes(tensor([1, 2]))
    (tensor([[1, 2]]), tensor([1, 2]))
    """
    dims = expr.dims or ()
    order = [*range(len(dims))][::-1]
    if len(dims) < 2:
        return expr
    if expr.operation == "shuffle" and expr.arguments == [order]:
        return expr.operands[0]
    return Expr("shuffle", [expr], [order], dims[::-1], expr.truth)


def as_it_lies(it: Tensor) -> Expr:
    """Returns an input with its axes in reverse order."""
    if it.is_mirrored:
        return Tensor(it.own, (it.dims or ())[::-1], it.truth, it.shared)
    return reversed_axes(it)


def last_axis(expr: Expr) -> int:
    return len(expr.dims or ()) - 1


def again(expr: Expr, operands: Sequence[Expr], arguments: Sequence[Any]) -> Expr:
    """Returns an operation with other operands and arguments, and its dims in reverse order."""
    return Expr(expr.operation, operands, arguments, (expr.dims or ())[::-1], expr.truth)


def same(expr: Expr, operands: List[Expr]) -> Expr:
    return again(expr, operands, expr.arguments)


def lists_reversed(expr: Expr, operands: List[Expr]) -> Expr:
    """Reverses an operation whose arguments have an entry for each axis."""
    return again(expr, operands, [it[::-1] for it in expr.arguments])


def of_all_axes(expr: Expr, operands: List[Expr]) -> Expr:
    """Reverses an operation whose argument is the order of the axes, or the axes of a kernel."""
    last = last_axis(expr)
    return again(expr, operands, [[last - it for it in expr.arguments[0][::-1]]])


def chipped(expr: Expr, operands: List[Expr]) -> Expr:
    offset, axis = expr.arguments
    return again(expr, operands, [offset, last_axis(operands[0]) - axis])


def of_one_axis(expr: Expr, operands: List[Expr]) -> Expr:
    return again(expr, operands, [last_axis(operands[0]) - expr.arguments[0]])


def reduced(expr: Expr, operands: List[Expr]) -> Expr:
    last = last_axis(operands[0])
    return again(expr, operands, [[last - it for it in expr.arguments[0]]])


def contracted(expr: Expr, operands: List[Expr]) -> Expr:
    """Reverses a contraction. The second operand comes first, as its axes do in reverse order."""
    ours, theirs = map(last_axis, operands)
    pairs = [[theirs - other, ours - own] for own, other in expr.arguments[0]]
    return again(expr, operands[::-1], [pairs])


def in_other_dims(expr: Expr, operands: List[Expr]) -> Expr:
    """Reverses a reshape. A reshape goes by places in column-major order, which reversed axes change. So
    the operand is turned back, unless only axes of length 1 are added or removed."""
    dims: Dims = expr.dims or ()
    before = operands[0].dims or ()
    if [it for it in dims if it != 1] == [it for it in before[::-1] if it != 1]:
        return again(expr, operands, [[*dims[::-1]]])
    found = Expr("reshape", [reversed_axes(operands[0])], expr.arguments, dims, expr.truth)
    return reversed_axes(found)


MIRRORS: Dict[str, Mirror] = {
    # The order of the axes has no meaning for elementwise operations.
    **dict.fromkeys(["constant", "select", *OPERATIONS], same),
    **dict.fromkeys("broadcast slice reverse stride pad".split(), lists_reversed),
    **dict.fromkeys(REDUCTIONS, reduced),
    **dict.fromkeys(ALONG_AN_AXIS, of_one_axis),
    "shuffle": of_all_axes,
    "chip": chipped,
    "concat": of_one_axis,
    "contract": contracted,
    "convolve": of_all_axes,
    "reshape": in_other_dims,
}
