"""Tensors made of numbers and of offsets, as numpy's functions with these names."""

from __future__ import annotations

from typing import Any, List, Optional

from .. import rules
from .. import tensors
from ..expressions import Expr
from ..tensors import Tensor, an_expr, tensor
from ..values import is_several, listed, whole
from .common import as_dtype
from .rearranged import broadcast_to

__all__ = [
    "arange", "array", "asanyarray", "asarray", "ascontiguousarray", "asfortranarray", "copy",
    "empty", "empty_like", "full", "full_like", "indices", "meshgrid", "ones", "ones_like", "zeros",
    "zeros_like",
]


def array(values: Any, dtype: Any = None, copy: Any = True, ndmin: int = 0) -> Expr:
    """Returns a tensor, as numpy's array. An expression stays as it is. `copy` has no effect: the tensor
    shares the memory of an int64 array.

    >>> run(array([1, 2], ndmin=2)).nested()
    [[1, 2]]
    """
    found = as_dtype(values, dtype)
    missing = whole(ndmin) - found.ndim
    return found.in_dims([1] * missing + [*found.shape]) if missing > 0 else found


def asarray(values: Any, dtype: Any = None) -> Expr:
    """Returns a tensor. An expression stays as it is.

    >>> run(asarray([1, 2])).values
    [1, 2]
    """
    return as_dtype(values, dtype)


asanyarray = ascontiguousarray = asfortranarray = asarray


def copy(x: Any) -> Expr:
    """Returns a tensor with values of its own. An expression stays as it is.

    >>> copy([1, 2]).values
    [1, 2]
    """
    expr = an_expr(x)
    return Tensor([*expr.values], expr.shape, expr.truth) if isinstance(expr, Tensor) else expr


def arange(start: int = 0, stop: Optional[int] = None, step: int = 1, dtype: Any = None) -> Expr:
    """Returns the whole numbers in [start, stop), by steps. Without `stop`, the numbers in [0, start).

    >>> arange(2, 9, 3).values
    [2, 5, 8]
    """
    ends = (0, start) if stop is None else (start, stop)
    return as_dtype(tensor(range(*map(whole, (*ends, step)))), dtype)


def full(shape: Any, fill_value: Any, dtype: Any = None) -> Expr:
    """Returns an expression of these dims with this value at every place. A list of values is broadcast.

    >>> run(full((2, 2), 7)).nested(), run(full((2, 2), [1, 2])).nested()
    ([[7, 7], [7, 7]], [[1, 2], [1, 2]])
    """
    if isinstance(fill_value, Expr) or is_several(fill_value):
        return as_dtype(broadcast_to(fill_value, shape), dtype)
    return as_dtype(tensors.full(shape, fill_value), dtype)


def zeros(shape: Any, dtype: Any = None) -> Expr:
    """Returns an expression of these dims, 0 at every place.

    >>> run(zeros((2, 3))).nested()
    [[0, 0, 0], [0, 0, 0]]
    """
    return full(shape, 0, dtype)


def ones(shape: Any, dtype: Any = None) -> Expr:
    """Returns an expression of these dims, 1 at every place.

    >>> run(ones(3)).values
    [1, 1, 1]
    """
    return full(shape, 1, dtype)


# numpy leaves these values undefined, and here they are 0.
empty = zeros


def full_like(x: Any, fill_value: Any, dtype: Any = None, shape: Any = None) -> Expr:
    """Returns an expression with the dims of x, or of `shape`, and this value at every place.

    >>> run(full_like([1, 2], 7)).values
    [7, 7]
    """
    expr = an_expr(x)
    kind = bool if dtype is None and expr.truth else dtype
    return full(expr.shape if shape is None else shape, fill_value, kind)


def zeros_like(x: Any, dtype: Any = None, shape: Any = None) -> Expr:
    """Returns an expression with the dims of x, or of `shape`, 0 at every place.

    >>> run(zeros_like([1, 2])).values
    [0, 0]
    """
    return full_like(x, 0, dtype, shape)


def ones_like(x: Any, dtype: Any = None, shape: Any = None) -> Expr:
    """Returns an expression with the dims of x, or of `shape`, 1 at every place.

    >>> run(ones_like([5, 6])).values
    [1, 1]
    """
    return full_like(x, 1, dtype, shape)


empty_like = zeros_like


# Offsets as values.


def indices(dimensions: Any) -> Expr:
    """Returns the offsets along each axis of these dims, axis by axis along a new first axis.

    >>> run(indices((2, 2))).nested()
    [[[0, 0], [1, 1]], [[0, 1], [0, 1]]]
    """
    from .joined import stack

    sizes = rules.legal(rules.sizes(listed([dimensions], whole)))
    return stack(meshgrid(*map(range, sizes), indexing="ij"))


def meshgrid(*axes: Any, indexing: str = "xy", sparse: bool = False) -> List[Expr]:
    """Returns each list along an axis of its own, repeated along the others unless `sparse`. With "xy"
    the first two axes are swapped. Raises ValueError for another indexing.

    >>> [run(it).nested() for it in meshgrid([1, 2], [3, 4])]
    [[[1, 2], [1, 2]], [[3, 3], [4, 4]]]
    """
    if indexing not in ("xy", "ij"):
        raise ValueError(f'indexing is "xy" or "ij" and not {indexing!r}')
    lists, rank = [an_expr(it).ravel() for it in axes], len(axes)
    along = [*range(rank)]
    if indexing == "xy" and rank > 1:
        along[:2] = [1, 0]
    exprs = [
        it.in_dims([it.size if axis == at else 1 for axis in range(rank)])
        for it, at in zip(lists, along)
    ]
    if sparse:
        return exprs
    dims = rules.fitted(*[it.shape for it in exprs]) if exprs else ()
    return [broadcast_to(it, dims) for it in exprs]
