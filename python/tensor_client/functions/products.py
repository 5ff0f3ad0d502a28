"""Sums of products, as numpy's functions with these names."""

from __future__ import annotations

import functools
from typing import Any, List, Sequence

from .. import rules
from ..expressions import Expr
from ..faults import ShapeMismatch
from ..length import FIRST_NODES
from ..tensors import an_expr
from ..values import is_several, numbers_of, whole
from .common import moved
from .joined import stack
from .matrices import eye
from .rearranged import broadcast_to, roll, with_axes

__all__ = [
    "contract", "convolve", "correlate", "cross", "dot", "inner", "kron", "matmul",
    "matrix_power", "multi_dot", "outer", "tensordot", "vdot", "vecdot",
]

# From this many products on, a contraction is faster than a sum over products.
LEAST_PRODUCTS = 1 << 15


def contract(x: Any, y: Any, pairs: Sequence[Any]) -> Expr:
    """Returns the sums of products over paired axes, each pair an axis of x and an axis of y.

    >>> run(contract([[1, 2], [3, 4]], [5, 6], [(1, 0)])).values
    [17, 39]
    """
    return an_expr(x).contract(y, pairs)


def tensordot(x: Any, y: Any, axes: Any = 2) -> Expr:
    """Returns numpy's tensordot: over this many axes, or over two lists of axes.

    >>> run(tensordot([[1, 2], [3, 4]], [[5, 6], [7, 8]], axes=([0], [1]))).nested()
    [[23, 31], [34, 46]]
    """
    left, right = an_expr(x), an_expr(y)
    if not is_several(axes):
        count = whole(axes)
        return left.contract(right, [(left.ndim - count + at, at) for at in range(count)])
    ours, theirs = map(numbers_of, axes)
    if len(ours) != len(theirs):
        raise ShapeMismatch(f"axes {ours} with axes {theirs}")
    return left.contract(right, list(zip(ours, theirs)))


def dot(x: Any, y: Any) -> Expr:
    """Returns numpy's dot: the sums of products over the last axis of x and the last but one of y.

    >>> run(dot([[1, 2], [3, 4]], [5, 6])).values
    [17, 39]
    """
    left, right = an_expr(x), an_expr(y)
    if not left.shape or not right.shape:
        return left.mul(right)
    return left.contract(right, [(left.ndim - 1, right.ndim - 2 if right.ndim > 1 else 0)])


def matmul(x: Any, y: Any) -> Expr:
    """Returns numpy's x @ y, as a contraction. A contraction keeps no paired axis. So two stacks are one
    contraction for each pair of large matrices, or a sum over all products. Raises ShapeMismatch.

    >>> matmul(ones((5, 2, 3)), ones((5, 3, 4))).dims
    (5, 2, 4)
    """
    left, right = an_expr(x), an_expr(y)
    if not left.shape or not right.shape:
        raise ShapeMismatch("x @ y needs axes: x * y multiplies by a number")
    if left.ndim == 1 or right.ndim <= 2:
        return dot(left, right)
    if left.ndim == 2:
        return moved(dot(left, right), 0, right.ndim - 2)
    if left.shape[-1] != right.shape[-2]:
        raise ShapeMismatch(f"dims {left.shape} @ dims {right.shape}")
    left, right = (with_axes(it, max(left.ndim, right.ndim)) for it in (left, right))
    count = rules.product(rules.fitted(left.shape[:-2], right.shape[:-2]))
    is_large = rules.product(left.shape[-2:]) * right.shape[-1] >= LEAST_PRODUCTS
    if not is_large or not 0 < count * (left.nodes + right.nodes + 5) <= FIRST_NODES:
        return summed(left[..., None].mul(right[..., None, :, :]), -2)
    ours, theirs = left.shape[0], right.shape[0]
    places = range(max(ours, theirs))
    return stack([matmul(left.chip(it % ours, 0), right.chip(it % theirs, 0)) for it in places])


def summed(products: Expr, axis: int) -> Expr:
    """Returns the sums of products along an axis. For truth values they are truth values."""
    return products.any(axis=axis) if products.truth else products.sum(axis=axis)


def vecdot(x1: Any, x2: Any, axis: int = -1) -> Expr:
    """Returns the sums of products along an axis of both.

    >>> run(vecdot([[1, 2], [3, 4]], [5, 6])).values
    [17, 39]
    """
    return summed(an_expr(x1).mul(x2), axis)


def outer(a: Any, b: Any) -> Expr:
    """Returns the products of each value of a and each value of b, both in C order.

    >>> run(outer([1, 2], [3, 4])).nested()
    [[3, 4], [6, 8]]
    """
    return an_expr(a).ravel().contract(an_expr(b).ravel(), [])


def inner(a: Any, b: Any) -> Expr:
    """Returns the sums of products over the last axis of both.

    >>> run(inner([1, 2], [3, 4])).item()
    11
    """
    left, right = an_expr(a), an_expr(b)
    if not left.shape or not right.shape:
        return left.mul(right)
    return left.contract(right, [(left.ndim - 1, right.ndim - 1)])


def vdot(a: Any, b: Any) -> Expr:
    """Returns the sum of the products of all values, both in C order.

    >>> run(vdot([[1, 2], [3, 4]], [[5, 6], [7, 8]])).item()
    70
    """
    return inner(an_expr(a).ravel(), an_expr(b).ravel())


def kron(a: Any, b: Any) -> Expr:
    """Returns the Kronecker product: all values of b times each value of a, in the place of that.

    >>> run(kron([1, 10], [1, 2])).values
    [1, 2, 10, 20]
    """
    left, right = an_expr(a), an_expr(b)
    rank = max(left.ndim, right.ndim)
    ours, theirs = ([1] * (rank - it.ndim) + [*it.shape] for it in (left, right))
    # In column-major order, the axis of b comes before the axis of a.
    wide = left.in_dims([it for dim in ours for it in (1, dim)])
    each = right.in_dims([it for dim in theirs for it in (dim, 1)])
    return wide.mul(each).in_dims([it * other for it, other in zip(ours, theirs)])


def cross(a: Any, b: Any, axis: int = -1) -> Expr:
    """Returns the cross products along an axis: vectors for vectors of three numbers, numbers for two.

    >>> run(cross([1, 0, 0], [0, 1, 0])).values
    [0, 0, 1]
    """
    left, right = rules.alike(an_expr(a), an_expr(b))
    length = left.shape[axis]
    if length == 2:
        (x, y), (z, w) = ((it.chip(0, axis), it.chip(1, axis)) for it in (left, right))
        return x.mul(w).sub(y.mul(z))
    if length != 3:
        raise ShapeMismatch(f"a cross product of dims {left.shape} along axis {axis}")
    forth = roll(left, -1, axis).mul(roll(right, -2, axis))
    return forth.sub(roll(left, -2, axis).mul(roll(right, -1, axis)))


def matrix_power(a: Any, n: int) -> Expr:
    """Returns the power of a square matrix, or of each matrix of a stack, by squares. A text has the
    matrix n times, so run large powers by squares there, as the program of powers does. Raises
    ShapeMismatch, and ValueError for n below 0.

    >>> run(matrix_power([[1, 1], [1, 0]], 10)).nested()
    [[89, 55], [55, 34]]
    """
    expr, times = an_expr(a), whole(n)
    if expr.ndim < 2 or expr.shape[-1] != expr.shape[-2]:
        raise ShapeMismatch(f"a power needs a square matrix, and not dims {expr.shape}")
    if times < 0:
        raise ValueError("a matrix of whole numbers has no inverse")
    if times == 0:
        return broadcast_to(eye(expr.shape[-1]), expr.shape)
    found: List[Expr] = []
    while True:
        if times % 2:
            found = [matmul(found[0], expr) if found else expr]
        times //= 2
        if not times:
            return found[0]
        expr = matmul(expr, expr)


def multi_dot(arrays: Sequence[Any]) -> Expr:
    """Returns the product of several matrices, from left to right. Raises ValueError for fewer than two.

    >>> run(multi_dot([[1, 2], [[1, 0], [0, 1]], [3, 4]])).item()
    11
    """
    exprs = [an_expr(it) for it in arrays]
    if len(exprs) < 2:
        raise ValueError("multi_dot needs two arrays or more")
    return functools.reduce(dot, exprs)


# One list slides along another.


def correlate(a: Any, v: Any, mode: str = "valid") -> Expr:
    """Returns numpy's correlate of two lists: the sums of products where all of the shorter list lies on
    the longer ("valid"), as many as the longer list has ("same"), or wherever they overlap ("full").

    >>> run(correlate([1, 2, 3], [1, 10])).values
    [21, 32]
    """
    left, right = an_expr(a), an_expr(v)
    if left.ndim != 1 or right.ndim != 1 or not left.size or not right.size:
        raise ValueError(f"two lists of numbers, and not dims {left.shape} and {right.shape}")
    if mode not in ("valid", "same", "full"):
        raise ValueError(f'a mode is "valid", "same" or "full" and not {mode!r}')
    if right.size > left.size:
        return correlate(right, left, mode).reverse(True)
    most = right.size - 1
    before = {"valid": 0, "full": most, "same": right.size // 2}[mode]
    behind = most - before if mode == "same" else before
    return left.zeros_around([(before, behind)]).convolve(right, 0)


def convolve(a: Any, v: Any, mode: str = "full") -> Expr:
    """Returns numpy's convolve of two lists, which reverses the second one. The method x.convolve slides
    a kernel along axes, and doesn't reverse it.

    >>> run(convolve([1, 2, 3], [1, 10])).values
    [1, 12, 23, 30]
    """
    left, right = an_expr(a), an_expr(v)
    if right.size > left.size:
        left, right = right, left
    return correlate(left, right.reverse(True) if right.ndim == 1 else right, mode)
