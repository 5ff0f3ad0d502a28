"""numpy's functions that combine many values into fewer."""

from __future__ import annotations

from typing import Any, Protocol

from .. import rules
from ..expressions import Expr
from ..faults import ShapeMismatch
from ..methods import written_nowhere
from ..tensors import an_expr, tensor
from ..values import whole
from .common import beside_axis, flat, part
from .rearranged import broadcast_to

__all__ = [
    "all", "amax", "amin", "any", "argmax", "argmin", "array_equal", "array_equiv",
    "count_nonzero", "diff", "ediff1d", "max", "min", "prod", "ptp", "sum",
]


class Combining(Protocol):
    """A reduction along these axes, or along all."""

    def __call__(
        self, x: Any, axis: Any = None, keepdims: bool = False, dtype: Any = None, out: None = None,
        initial: Any = None, where: Any = None,
    ) -> Expr: ...


def combining(name: str) -> Combining:
    def function(x: Any, axis: Any = None, **more: Any) -> Expr:
        found: Expr = getattr(an_expr(x), name)(axis=axis, **more)
        return found

    function.__name__ = function.__qualname__ = name
    function.__doc__ = getattr(Expr, name).__doc__
    made: Combining = function  # type: ignore[assignment]
    return made


# numpy's names. This module doesn't need the builtins.
sum, prod, max, min, all, any = map(combining, ("sum", "prod", "max", "min", "all", "any"))
amax, amin = max, min


def count_nonzero(a: Any, axis: Any = None, keepdims: bool = False) -> Expr:
    """Returns how many values aren't 0, along these axes or along all.

    >>> run(count_nonzero([0, 5, 7])).item()
    2
    """
    expr = an_expr(a)
    return (expr if expr.truth else expr.ne(0)).sum(axis=axis, keepdims=keepdims)


def ptp(a: Any, axis: Any = None, keepdims: bool = False) -> Expr:
    """Returns the greatest value minus the least, along these axes or along all.

    >>> run(ptp([3, 9, 5])).item()
    6
    """
    expr = an_expr(a)
    return expr.max(axis=axis, keepdims=keepdims).sub(expr.min(axis=axis, keepdims=keepdims))


def array_equal(a1: Any, a2: Any) -> Expr:
    """Returns 1 if the dims and all values are equal, else 0.

    >>> bool(array_equal([1, 2], [1, 2]))
    True
    """
    one, other = an_expr(a1), an_expr(a2)
    return one.eq(other).all() if one.shape == other.shape else tensor(False)


def array_equiv(a1: Any, a2: Any) -> Expr:
    """Returns 1 if all values are equal after broadcasting, else 0.

    >>> bool(array_equiv([1, 1], 1))
    True
    """
    try:
        return an_expr(a1).eq(an_expr(a2)).all()
    except ShapeMismatch:
        return tensor(False)


def argmax(a: Any, axis: Any = None, out: None = None, keepdims: bool = False) -> Expr:
    """Returns the offset of the greatest value along an axis, or in all values in C order. Of equal
    values it is the first. Raises ValueError for an empty axis.

    >>> run(argmax([3, 9, 9])).item()
    1
    """
    return first_offset("argmax", a, axis, out, keepdims)


def argmin(a: Any, axis: Any = None, out: None = None, keepdims: bool = False) -> Expr:
    """Returns the offset of the least value along an axis, or in all values in C order. Of equal values
    it is the first. Raises ValueError for an empty axis.

    >>> run(argmin([3, 1, 1])).item()
    1
    """
    return first_offset("argmin", a, axis, out, keepdims)


def first_offset(operation: str, a: Any, axis: Any, out: None, keepdims: bool) -> Expr:
    written_nowhere(out)
    expr, at = flat(a, axis)
    if not expr.shape[at]:
        raise ValueError(f"{operation} of an empty axis")
    found = expr.along(operation, at)
    kept = [1] * an_expr(a).ndim if axis is None else beside_axis(expr.shape, at, [1])
    return found.in_dims(kept) if keepdims else found


# Along an axis.


def diff(a: Any, n: int = 1, axis: int = -1, prepend: Any = None, append: Any = None) -> Expr:
    """Returns the n-th differences along an axis, with `prepend` before and `append` after the values.

    >>> run(diff([1, 4, 9, 16])).values, run(diff([1, 4, 9, 16], 2)).values
    ([3, 5, 7], [2, 2])
    """
    expr, times = an_expr(a), whole(n)
    if times < 0:
        raise ValueError(f"differences taken {times} times")
    along = rules.axis_of(whole(axis), expr.ndim)
    for at, it in enumerate((prepend, append)):
        if it is not None:
            beside = an_expr(it)
            if not beside.shape:
                beside = broadcast_to(beside, beside_axis(expr.shape, along, [1]))
            expr = expr.concat(beside, along) if at else beside.concat(expr, along)
    if times >= expr.shape[along]:
        return part(expr, along, 0, 0) if times else expr
    if expr.truth:
        for _ in range(times):
            length = expr.shape[along]
            expr = part(expr, along, 1, length).ne(part(expr, along, 0, length - 1))
        return expr
    # One convolution, with the weights of the n-th differences: 1 -1, 1 -2 1, and so on.
    weights = [1]
    for _ in range(times):
        weights = [(x - y + 2**63) % 2**64 - 2**63 for x, y in zip([0, *weights], [*weights, 0])]
    return expr.convolve(weights, along) if times else expr


def ediff1d(ary: Any, to_end: Any = None, to_begin: Any = None) -> Expr:
    """Returns the differences of neighbours in all values, with other values before and after them.

    >>> run(ediff1d([1, 4, 9], to_end=0)).values
    [3, 5, 0]
    """
    found = diff(an_expr(ary).ravel())
    if to_begin is not None:
        found = an_expr(to_begin).ravel().concat(found, 0)
    return found if to_end is None else found.concat(an_expr(to_end).ravel(), 0)
