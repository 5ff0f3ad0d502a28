"""What the functions share: axes and dtypes as numpy names them."""

from __future__ import annotations

from typing import Any, List, Sequence, Tuple

from .. import rules
from ..expressions import Expr
from ..memory import INT64
from ..tensors import an_expr
from ..values import NumpysOwn, numbers_of, numpy, whole

INT64_NAMES, BOOL_NAMES = (int, "int", "int64", "i8"), (bool, "bool", "?")


def named_axes(axis: Any, rank: int) -> List[int]:
    """Returns axes from 0 on, given one number or several. Negative ones count from the end.

    >>> named_axes(-1, 3), named_axes((0, -1), 3)
    ([2], [0, 2])
    """
    return rules.axes_of(numbers_of(axis), rank)


def beside_axis(dims: Sequence[int], axis: int, sizes: Sequence[int]) -> List[int]:
    """Returns dims with these sizes in place of one axis.

    >>> beside_axis((2, 3, 4), 1, [5, 6])
    [2, 5, 6, 4]
    """
    return [*dims[:axis], *sizes, *dims[axis + 1 :]]


def flat(x: Any, axis: Any) -> Tuple[Expr, int]:
    """Returns an expression and an axis of it; without an axis, its values along one axis, in C order."""
    expr = an_expr(x)
    if axis is None:
        return (expr if expr.ndim == 1 else expr.ravel()), 0
    return expr, rules.axis_of(whole(axis), expr.ndim)


def moved(expr: Expr, source: int, to: int) -> Expr:
    """Returns an expression with one axis moved to another place.

    >>> moved(tensor([[1, 2, 3]]), 0, 1).dims
    (3, 1)
    """
    if source == to:
        return expr
    order = [it for it in range(expr.ndim) if it != source]
    order.insert(to, source)
    return expr.shuffle(order)


def part(expr: Expr, axis: int, begin: int, end: int) -> Expr:
    """Returns the part of an expression in [begin, end) of an axis.

    >>> run(part(tensor([1, 2, 3, 4]), 0, 1, 3)).values
    [2, 3]
    """
    dims = expr.shape
    if (begin, end) == (0, dims[axis]):
        return expr
    offsets = [begin if it == axis else 0 for it in range(len(dims))]
    return expr.slice(offsets, beside_axis(dims, axis, [end - begin]))


def as_dtype(x: Any, dtype: Any) -> Expr:
    """Returns an expression with its values as a dtype: as int64 they are numbers, and as bool they are
    1 where they aren't 0. Raises NumpysOwn for other dtypes.

    >>> run(as_dtype([0, 5], bool)).values
    [0, 1]
    """
    expr = an_expr(x)
    if dtype is None:
        return expr
    kind = None if numpy is None else numpy.dtype(dtype)
    if kind == INT64 if kind is not None else dtype in INT64_NAMES:
        return expr.as_numbers()
    if kind == bool if kind is not None else dtype in BOOL_NAMES:
        return expr if expr.truth else expr.ne(0)
    raise NumpysOwn(f"dtype {kind or dtype}: all values are int64; run(x).array().astype(..)")
