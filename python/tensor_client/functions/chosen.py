"""Values chosen by conditions and by offsets, as numpy's functions with these names."""

from __future__ import annotations

from typing import Any, List, Optional, Sequence, Tuple, overload

from .. import tensors
from ..expressions import Expr
from ..faults import OutOfRange, ShapeMismatch
from ..memory import Held
from ..tensors import Tensor, an_expr, tensor
from ..values import numbers_of, numpy
from .common import flat, moved, named_axes, part
from .counted import nonzero
from .joined import concatenate

__all__ = ["compress", "extract", "select", "sliding_window_view", "take", "where"]


# The most nodes of values that are taken in parts.
MOST_IN_PARTS = 30
# Several runs of fewer offsets cost more as parts than as one take.
LEAST_RUN = 16
Run = Tuple[int, int, int]


@overload
def where(condition: Any) -> Tuple[Tensor, ...]: ...


@overload
def where(condition: Any, x: Any, y: Any) -> Expr: ...


def where(condition: Any, x: Any = None, y: Any = None) -> Any:
    """Returns x where the condition isn't 0, and y elsewhere. Given only a condition, returns the
    offsets where it isn't 0, as `nonzero`.

    >>> run(where(tensor([1, 5]) < 4, 10, -1)).values
    [10, -1]
    """
    if x is None and y is None:
        return nonzero(condition)
    return tensors.where(condition, x, y)


def select(condlist: Sequence[Any], choicelist: Sequence[Any], default: Any = 0) -> Expr:
    """Returns the values of the choice whose condition is the first that isn't 0, or else the default.
    Raises ValueError unless each condition has a choice.

    >>> x = tensor([1, 5, 9])
    >>> run(select([x < 3, x < 7], [x, 10 * x], -1)).values
    [1, 50, -1]
    """
    if len(condlist) != len(choicelist) or not condlist:
        raise ValueError(f"{len(condlist)} conditions with {len(choicelist)} choices")
    found = default
    for condition, choice in reversed([*zip(condlist, choicelist)]):
        found = where(an_expr(condition), choice, found)
    chosen: Expr = found
    return chosen


def offsets(named: Any, length: int) -> Expr:
    """Returns offsets from 0 on; negative ones count from the end. Offsets of a tensor raise OutOfRange
    if they are out of range. Offsets of an expression aren't known yet: out of range they choose 0."""
    expr = an_expr(named)
    if expr.truth:
        raise TypeError("truth values are no offsets: x[it] and compress(it, x) choose by them")
    if isinstance(expr, Tensor):
        ends = ends_of(expr.own)
        for it in ends:
            if not -length <= it < length:
                raise OutOfRange(f"offset {it} of {length}")
        if not ends or ends[0] >= 0:
            return expr
        if not expr.is_large:
            return Tensor([it % length for it in expr.values], expr.shape)
    return where(expr.lt(0), expr.add(length), expr)


def ends_of(values: Held) -> Tuple[int, ...]:
    """Returns the least and the greatest of the values, or nothing without values.

    >>> ends_of([3, 1, 2]), ends_of([])
    ((1, 3), ())
    """
    if not len(values):
        return ()
    if numpy is not None and isinstance(values, memoryview):
        array = numpy.asarray(values)
        return int(array.min()), int(array.max())
    return min(values), max(values)


def take(a: Any, indices: Any, axis: Any = None, out: None = None, mode: str = "raise") -> Expr:
    """Returns the values at these offsets of an axis, or of all values in C order. Negative offsets
    count from the end. An offset out of range raises OutOfRange, or is wrapped or clipped by `mode`. In
    an expression that hasn't run, it gives 0 instead of raising.

    >>> run(take([5, 6, 7, 8], [3, 0, -3])).values
    [8, 5, 6]
    """
    expr, along = flat(a, axis)
    length = expr.shape[along]
    if mode == "raise":
        at = offsets(indices, length)
        if not at.shape and isinstance(at, Tensor):
            return expr.chip(at.item(), along)
        return at_offsets(expr, at, along)
    if mode not in ("clip", "wrap"):
        raise ValueError(f'a mode is "raise", "clip" or "wrap" and not {mode!r}')
    named = an_expr(indices)
    at = named.clip(0, length - 1) if mode == "clip" else named.remainder(length)
    return expr.taken(at, along)


def at_offsets(expr: Expr, at: Expr, axis: int) -> Expr:
    """Returns the values at these offsets of an axis. It joins parts if these are long and few and the
    expression is short, since each part contains the expression. Otherwise it uses the request's take."""
    if isinstance(at, Tensor) and at.ndim == 1:
        most = max(min(MOST_IN_PARTS // expr.nodes, len(at.own) // LEAST_RUN), 1)
        runs = runs_of(at.held, most)
        if runs is not None:
            return in_parts(expr, runs, axis)
    return expr.taken(at, axis)


def runs_of(numbers: Sequence[int], most: int) -> Optional[List[Run]]:
    """Returns offsets as runs (first offset, step, length), or None if there are more than `most`.

    >>> runs_of([2, 1, 0, 1, 2, 3, 3, 3], 3), runs_of([0, 2, 1], 1)
    ([(2, -1, 3), (1, 1, 3), (3, 0, 2)], None)
    """
    found: List[Run] = []
    begin = 0
    while begin < len(numbers):
        if len(found) == most:
            return None
        step = numbers[begin + 1] - numbers[begin] if begin + 1 < len(numbers) else 1
        end = begin + 1
        while end < len(numbers) and numbers[end] - numbers[end - 1] == step:
            end += 1
        found.append((numbers[begin], step, end - begin))
        begin = end
    return found or [(0, 1, 0)]


def in_parts(expr: Expr, runs: Sequence[Run], axis: int) -> Expr:
    """Returns the values at runs of offsets along an axis, one run after another."""
    every = [[(0, 1, it)] for it in expr.shape]
    return in_blocks(expr, [*every[:axis], runs, *every[axis + 1 :]])


def in_blocks(expr: Expr, runs: Sequence[Sequence[Run]], *cut: Run) -> Expr:
    """Returns the values at runs of offsets along each axis. It cuts blocks out of the expression, along
    all axes at once, and joins them. `cut` has the runs that are chosen for the first axes."""
    axis = len(cut)
    if axis < len(runs):
        return concatenate([in_blocks(expr, runs, *cut, it) for it in runs[axis]], axis)
    ends = [first + (step * count or 1) if count else first for first, step, count in cut]
    index = [slice(it[0], end if end >= 0 else None, it[1] or 1) for it, end in zip(cut, ends)]
    found, counts = expr[tuple(index)], [1 if step else count for _, step, count in cut]
    return found if {*counts} <= {1} else found.broadcast(counts)


def compress(condition: Any, a: Any, axis: Any = None) -> Expr:
    """Returns the parts along an axis, or of all values, where the condition, which runs, isn't 0.

    >>> run(compress([True, False, True], [5, 6, 7])).values
    [5, 7]
    """
    return take(a, nonzero(an_expr(condition).ravel())[0], axis)


def extract(condition: Any, arr: Any) -> Expr:
    """Returns the values where a condition isn't 0. The condition runs.

    >>> run(extract([True, False, True], [5, 6, 7])).values
    [5, 7]
    """
    return compress(condition, arr)


def sliding_window_view(x: Any, window_shape: Any, axis: Any = None) -> Expr:
    """Returns the windows of these lengths along axes, or along all. The axes of the windows come after
    the axes of x. Raises ValueError for a window that is longer than its axis.

    >>> run(sliding_window_view([1, 2, 3, 4], 3)).nested()
    [[1, 2, 3], [2, 3, 4]]
    """
    expr, lengths = an_expr(x), numbers_of(window_shape)
    axes = [*range(expr.ndim)] if axis is None else named_axes(axis, expr.ndim)
    if len(axes) != len(lengths):
        raise ShapeMismatch(f"windows of dims {lengths} along {len(axes)} axes")
    for along, length in zip(axes, lengths):
        begins = range(expr.shape[along] - length + 1)
        if length < 0 or not begins:
            raise ValueError(f"a window of {length} of {expr.shape[along]} places")
        at = tensor(begins).in_dims([len(begins), 1]).add(range(length))
        expr = moved(expr.taken(at, along), along + 1, expr.ndim)
    return expr
