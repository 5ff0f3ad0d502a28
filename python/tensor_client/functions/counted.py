"""Values counted, found and ordered, as numpy's functions with these names. Their arguments run. Without
numpy, lists are sorted, and searched by bisection."""

from __future__ import annotations

from bisect import bisect_left, bisect_right
from typing import Any, List, Tuple, overload

from ..faults import OutOfRange, ShapeMismatch
from ..rules import fitted, spread
from ..tensors import Tensor, an_expr, tensor
from ..values import numpy, whole
from .common import flat, moved
from .delegated import by_numpy, over_lines, tensor_by_numpy, values_of

__all__ = [
    "argsort", "bincount", "digitize", "histogram", "in1d", "isin", "nonzero", "searchsorted",
    "sort", "take_along_axis", "unique",
]


def sort(a: Any, axis: Any = -1, kind: Any = None) -> Tensor:
    """Returns the values along an axis in ascending order.

    >>> sort([30, 10, 20]).values
    [10, 20, 30]
    """
    if numpy is not None:
        return tensor_by_numpy("sort", an_expr(a), axis=axis, kind=kind)
    return over_lines(sorted, a, axis)


def argsort(a: Any, axis: Any = -1, kind: Any = "stable") -> Tensor:
    """Returns the offsets that sort the values along an axis. By default, equal values keep their order.

    >>> argsort([30, 10, 20]).values
    [1, 2, 0]
    """
    if numpy is not None:
        return tensor_by_numpy("argsort", an_expr(a), axis=axis, kind=kind)
    return over_lines(lambda line: sorted(range(len(line)), key=line.__getitem__), a, axis)


def searchsorted(a: Any, v: Any, side: str = "left", sorter: Any = None) -> Tensor:
    """Returns the first offset at which each value can be inserted into a sorted list, or the last.

    >>> searchsorted([1, 3, 3, 5], [3, 4]).values
    [1, 3]
    """
    if side not in ("left", "right"):
        raise ValueError(f'a side is "left" or "right" and not {side!r}')
    if numpy is not None:
        return tensor_by_numpy("searchsorted", an_expr(a), an_expr(v), side=side, sorter=sorter)
    line = values_of(a)
    return placed(line if sorter is None else [line[it] for it in values_of(sorter)], v, side)


def placed(line: List[int], v: Any, side: str) -> Tensor:
    """Returns where each value can be inserted into a sorted list, without numpy.

    >>> placed([1, 3, 5], 3, "right").item()
    2
    """
    named, bisect = an_expr(v)._answered(), bisect_left if side == "left" else bisect_right
    return Tensor([bisect(line, it) for it in named.values], named.shape)


def digitize(x: Any, bins: Any, right: bool = False) -> Tensor:
    """Returns the bin of each value: how many of the rising bounds are at most the value, or below it if
    `right`. Bounds may also fall. Raises ValueError if they do neither.

    >>> digitize([1, 5, 9], [3, 6]).values
    [0, 1, 2]
    """
    if numpy is not None:
        return tensor_by_numpy("digitize", an_expr(x), an_expr(bins), right)
    line, side = values_of(bins), "left" if right else "right"
    if line == sorted(line):
        return placed(line, x, side)
    if line[::-1] != sorted(line):
        raise ValueError("bounds have to rise, or to fall")
    return (len(line) - placed(line[::-1], x, side))._answered()


@overload
def bincount(x: Any, weights: None = None, minlength: int = 0) -> Tensor: ...
@overload
def bincount(x: Any, weights: Any, minlength: int = 0) -> Any: ...
def bincount(x: Any, weights: Any = None, minlength: int = 0) -> Any:
    """Returns how often each number from 0 on is in a list; or the sum of its weights, as an array of
    fractions, or without numpy as a tensor. Raises ValueError for numbers below 0 and for several axes.

    >>> bincount([0, 2, 2, 3]).values
    [1, 0, 2, 1]
    """
    line = an_expr(x)._answered()
    if line.ndim != 1:
        raise ValueError(f"a bincount of dims {line.shape}: .ravel() has one axis")
    if numpy is not None:
        return by_numpy("bincount", line, weights, minlength=whole(minlength))
    numbers = line.values
    if min(numbers, default=0) < 0:
        raise ValueError("a bincount of numbers below 0")
    own = [1] * len(numbers) if weights is None else values_of(weights)
    if len(own) != len(numbers):
        raise ShapeMismatch(f"{len(own)} weights for {len(numbers)} numbers")
    return added(numbers, own, max([whole(minlength), *(it + 1 for it in numbers)]))


def added(places: List[int], values: List[int], size: int) -> Tensor:
    """Returns the sum of the values at each place in [0, size), 0 without values.

    >>> added([0, 2, 2], [5, 6, 7], 3).values
    [5, 0, 13]
    """
    found = [0] * size
    for at, it in zip(places, values):
        found[at] += it
    return Tensor([(it + 2**63) % 2**64 - 2**63 for it in found], [size])


def histogram(a: Any, bins: Any = 10, range: Any = None, weights: Any = None) -> Tuple[Any, Any]:
    """Returns how many values are between each two edges, and the edges. The last edge belongs to the
    last bin. Without numpy, the edges have to be given.

    >>> counts, edges = histogram([1, 2, 3, 4, 5], [1, 3, 5])
    >>> counts.values
    [2, 3]
    """
    own = None if weights is None else an_expr(weights)
    if numpy is not None:
        edges = an_expr(bins) if isinstance(bins, (list, tuple)) else bins
        found: Tuple[Any, Any] = by_numpy("histogram", an_expr(a), edges, range, weights=own)
        return found
    line = values_of(bins)
    if line != sorted(line) or not an_expr(bins).shape:
        raise ValueError("the edges of a histogram have to rise; without numpy they are a list")
    values = values_of(a)
    sums = [1] * len(values) if own is None else values_of(own)
    # The last edge belongs to the last bin. Values in no bin are left out.
    bounds = line[:-1] + [it + 1 for it in line[-1:]]
    places = placed(bounds, Tensor(values, [len(values)]), "right").values
    counts = added(places, sums, len(line) + 1)[1:-1]
    return counts._answered(), tensor(line)


def isin(element: Any, test_elements: Any, invert: bool = False) -> Tensor:
    """Returns whether each value is one of others.

    >>> isin([1, 2, 3], [3, 1]).values
    [1, 0, 1]
    """
    if numpy is not None:
        return tensor_by_numpy("isin", an_expr(element), an_expr(test_elements), invert=invert)
    named, others = an_expr(element)._answered(), {*values_of(test_elements)}
    return Tensor([(it in others) != invert for it in named.values], named.shape, truth=True)


in1d = isin


def nonzero(a: Any) -> Tuple[Tensor, ...]:
    """Returns, for each axis, the offsets of the values that aren't 0.

    >>> [it.values for it in nonzero([[0, 5], [7, 0]])]
    [[0, 1], [1, 0]]
    """
    expr = an_expr(a)
    if numpy is not None:
        return tuple(by_numpy("nonzero", expr))
    places = [at for at, it in enumerate(values_of(expr)) if it]
    found: List[Tensor] = []
    for dim in reversed(expr.shape):
        found.insert(0, Tensor([it % dim for it in places], [len(places)]))
        places = [it // dim for it in places]
    return tuple(found)


@overload
def unique(ar: Any) -> Tensor: ...
@overload
def unique(ar: Any, **more: Any) -> Any: ...
def unique(ar: Any, **more: Any) -> Any:
    """Returns the values in order, each once; and what else numpy's function returns for more arguments.

    >>> unique([3, 1, 3]).values
    [1, 3]
    """
    if numpy is not None or more:
        return by_numpy("unique", an_expr(ar), **more)
    return tensor(sorted({*values_of(ar)}))


def take_along_axis(arr: Any, indices: Any, axis: Any) -> Tensor:
    """Returns the values at offsets that each line along an axis has of its own. Raises OutOfRange.

    >>> take_along_axis([[5, 6], [7, 8]], [[1], [0]], 1).nested()
    [[6], [7]]
    """
    expr, along = flat(arr, axis)
    named = an_expr(indices)
    if named.ndim != expr.ndim:
        raise ShapeMismatch(f"offsets of dims {named.shape} for dims {expr.shape}")
    if numpy is not None:
        return tensor_by_numpy("take_along_axis", expr, named, along)
    first, at = moved(expr, along, 0), moved(named, along, 0)
    rest, (length, *_), (count, *_) = fitted(first.shape[1:], at.shape[1:]), first.shape, at.shape
    values = spread(first, (length, *rest))._answered().values
    offsets = spread(at, (count, *rest))._answered().values
    if any(not -length <= it < length for it in offsets):
        raise OutOfRange(f"an offset is out of range for {length} places")
    found = [values[at // count * length + it % length] for at, it in enumerate(offsets)]
    return moved(Tensor(found, (count, *rest), expr.truth), 0, along)._answered()
