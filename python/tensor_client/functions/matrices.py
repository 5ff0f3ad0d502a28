"""Matrices and their diagonals, as numpy's functions with these names."""

from __future__ import annotations

from typing import Any, List, Optional

from .. import rules
from ..expressions import Expr
from ..tensors import an_expr, tensor
from ..values import whole
from .common import as_dtype, part

__all__ = ["diag", "diagflat", "diagonal", "eye", "identity", "trace", "tri", "tril", "triu"]


def places(rows: int, columns: Optional[int], offset: int) -> List[Expr]:
    """Returns the numbers of rows, moved by an offset, and of columns, to be compared."""
    first, last = whole(rows), whole(rows if columns is None else columns)
    rules.legal(rules.sizes([first, last]))
    begin = whole(offset)
    return [tensor(range(begin, begin + first)).in_dims([first, 1]), tensor(range(last))]


def eye(N: int, M: Optional[int] = None, k: int = 0, dtype: Any = None) -> Expr:
    """Returns a matrix with 1 along a diagonal, and 0 elsewhere.

    >>> run(eye(2, 3, k=1)).nested()
    [[0, 1, 0], [0, 0, 1]]
    """
    below, across = places(N, M, k)
    return as_dtype(below.eq(across), int if dtype is None else dtype)


def identity(n: int, dtype: Any = None) -> Expr:
    """Returns a square matrix with 1 along its diagonal, and 0 elsewhere.

    >>> run(identity(2)).nested()
    [[1, 0], [0, 1]]
    """
    return eye(n, dtype=dtype)


def tri(N: int, M: Optional[int] = None, k: int = 0, dtype: Any = None) -> Expr:
    """Returns a matrix with 1 at and below a diagonal, and 0 above it.

    >>> run(tri(3)).nested()
    [[1, 0, 0], [1, 1, 0], [1, 1, 1]]
    """
    below, across = places(N, M, k)
    return as_dtype(below.ge(across), int if dtype is None else dtype)


def tril(m: Any, k: int = 0) -> Expr:
    """Returns m with 0 above a diagonal of the last two axes.

    >>> run(tril([[1, 2], [3, 4]])).nested()
    [[1, 0], [3, 4]]
    """
    expr = an_expr(m)
    return expr.mul(tri(expr.shape[-2:][0], expr.shape[-1], k, bool))


def triu(m: Any, k: int = 0) -> Expr:
    """Returns m with 0 below a diagonal of the last two axes.

    >>> run(triu([[1, 2], [3, 4]])).nested()
    [[1, 2], [0, 4]]
    """
    expr = an_expr(m)
    return expr.mul(tri(expr.shape[-2:][0], expr.shape[-1], whole(k) - 1).not_())


def diag(v: Any, k: int = 0) -> Expr:
    """Returns a matrix with these values along a diagonal; or the values along a diagonal of a matrix.
    Raises ValueError for other numbers of axes.

    >>> run(diag([1, 2])).nested(), run(diag([[1, 2], [3, 4]])).values
    ([[1, 0], [0, 2]], [1, 4])
    """
    expr, offset = an_expr(v), whole(k)
    if expr.ndim == 2:
        return diagonal(expr, offset)
    if expr.ndim != 1:
        raise ValueError(f"diag of dims {expr.shape}: a list or a matrix has a diagonal")
    # Each value is in the row, or in the column, in which the diagonal begins.
    size = expr.size + abs(offset)
    wide = expr.zeros_around([(0, abs(offset))])
    return eye(size, k=offset).mul(wide.in_dims([size, 1] if offset > 0 else [1, size]))


def diagflat(v: Any, k: int = 0) -> Expr:
    """Returns a matrix with all values along a diagonal.

    >>> run(diagflat([[1], [2]])).nested()
    [[1, 0], [0, 2]]
    """
    return diag(an_expr(v).ravel(), k)


def diagonal(a: Any, offset: int = 0, axis1: int = 0, axis2: int = 1) -> Expr:
    """Returns the values along a diagonal of two axes, as the last axis. Raises ValueError for one axis.

    >>> run(diagonal([[1, 2, 3], [4, 5, 6]], 1)).values
    [2, 6]
    """
    expr, by = an_expr(a), whole(offset)
    if expr.ndim < 2:
        raise ValueError(f"dims {expr.shape} have no diagonal: it needs two axes")
    pair = rules.axes_of([whole(axis1), whole(axis2)], expr.ndim)
    others = [it for it in range(expr.ndim) if it not in pair]
    expr = expr.shuffle(pair + others)
    rows, columns, *rest = expr.shape
    begin = by * rows if by > 0 else -by
    count = max(0, min(rows - max(-by, 0), columns - max(by, 0)))
    # In column-major order, a value of a diagonal is a column and one place after the last one.
    line = expr.in_dims([rows * columns, *rest])
    end = begin + (count - 1) * (rows + 1) + 1
    line = part(line, 0, begin, end) if count else part(line, 0, 0, 0)
    found = line.stride([rows + 1] + [1] * len(rest)) if count > 1 else line
    return found.shuffle([*range(1, found.ndim), 0]) if rest else found


def trace(a: Any, offset: int = 0, axis1: int = 0, axis2: int = 1, dtype: Any = None) -> Expr:
    """Returns the sum along a diagonal of two axes.

    >>> run(trace([[1, 2], [3, 4]])).item()
    5
    """
    found: Expr = as_dtype(diagonal(a, offset, axis1, axis2).sum(axis=-1), dtype)
    return found
