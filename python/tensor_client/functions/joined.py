"""Parts joined and split along axes, as numpy's functions with these names."""

from __future__ import annotations

from typing import Any, List, Optional, Sequence

from .. import rules
from ..expressions import Expr
from ..faults import OutOfRange, ShapeMismatch
from ..tensors import an_expr
from ..values import NumpysOwn, is_several, numbers_of, whole
from .common import beside_axis, flat, moved, part
from .rearranged import atleast_1d, atleast_2d, atleast_3d, broadcast_to, of_two_axes, with_axes

__all__ = [
    "append", "array_split", "block", "column_stack", "concat", "concatenate", "delete",
    "dsplit", "dstack", "hsplit", "hstack", "insert", "row_stack", "split", "stack", "unstack",
    "vsplit", "vstack",
]


def concat(x: Any, y: Any = None, axis: Optional[int] = None) -> Expr:
    """Returns y after x along an axis; without y, all parts of x, as numpy's concat(x, axis).

    >>> run(concat([[1, 2]], [[3, 4]], 1)).nested(), run(concat([[1, 2], [3]])).values
    ([[1, 2, 3, 4]], [1, 2, 3])
    """
    if y is None or not is_several(y):
        # The second argument is an axis.
        return concatenate(x, *(it for it in (axis, y) if it is not None))
    if axis is None:
        raise TypeError("concat(x, y, axis) asks for the axis")
    return an_expr(x).concat(y, axis)


def concatenate(parts: Sequence[Any], axis: Optional[int] = 0) -> Expr:
    """Returns all parts, one after another along an axis; with axis=None, the values of all along one
    axis. Raises ValueError without parts, and ShapeMismatch.

    >>> run(concatenate([[1, 2], [3], [4, 5]])).values
    [1, 2, 3, 4, 5]
    """
    exprs, along = [an_expr(it) for it in parts], axis or 0
    if not exprs:
        raise ValueError("nothing to concatenate")
    if axis is None:
        exprs = [it.ravel() for it in exprs]
    while len(exprs) > 1:
        # Pairs of pairs, so that a long list nests little.
        pairs = [it[0].concat(it[1], along) for it in zip(exprs[::2], exprs[1::2])]
        exprs = pairs + exprs[len(exprs) // 2 * 2 :]
    return exprs[0]


def stack(parts: Sequence[Any], axis: int = 0) -> Expr:
    """Returns all parts along a new axis. Raises ShapeMismatch unless they have equal dims.

    >>> run(stack([[1, 2], [3, 4], [5, 6]], axis=1)).nested()
    [[1, 3, 5], [2, 4, 6]]
    """
    exprs = [an_expr(it) for it in parts]
    if len({it.shape for it in exprs}) != 1:
        shapes = [it.shape for it in exprs]
        raise ShapeMismatch(f"a stack needs parts of equal dims, and not dims {shapes}")
    at = rules.axis_of(whole(axis), exprs[0].ndim + 1)
    dims = [*exprs[0].shape[:at], 1, *exprs[0].shape[at:]]
    return concatenate([it.in_dims(dims) for it in exprs], at)


def vstack(tup: Sequence[Any]) -> Expr:
    """Returns all parts along the first axis. Lists are rows.

    >>> run(vstack([[1, 2], [3, 4]])).nested()
    [[1, 2], [3, 4]]
    """
    return concatenate([atleast_2d(it) for it in tup])


row_stack = vstack


def hstack(tup: Sequence[Any]) -> Expr:
    """Returns all parts along the second axis. Lists are joined along their only axis.

    >>> run(hstack([[[1], [2]], [[3], [4]]])).nested()
    [[1, 3], [2, 4]]
    """
    exprs = [atleast_1d(it) for it in tup]
    return concatenate(exprs, 0 if exprs and exprs[0].ndim == 1 else 1)


def dstack(tup: Sequence[Any]) -> Expr:
    """Returns all parts along the third axis.

    >>> run(dstack([[1, 2], [3, 4]])).nested()
    [[[1, 3], [2, 4]]]
    """
    return concatenate([atleast_3d(it) for it in tup], 2)


def column_stack(tup: Sequence[Any]) -> Expr:
    """Returns all parts along the second axis. Lists are columns.

    >>> run(column_stack([[1, 2], [3, 4]])).nested()
    [[1, 3], [2, 4]]
    """
    exprs = [an_expr(it) for it in tup]
    return concatenate([it if it.ndim > 1 else it.in_dims([it.size, 1]) for it in exprs], 1)


def append(arr: Any, values: Any, axis: Optional[int] = None) -> Expr:
    """Returns arr and the values after it, along an axis; without one, all values along one axis.

    >>> run(append([1, 2], 3)).values
    [1, 2, 3]
    """
    return concatenate([arr, values], axis)


def block(arrays: Any) -> Expr:
    """Returns nested lists of parts, joined. The innermost lists are joined along the last axis.

    >>> one, two = tensor([[1]]), tensor([[2, 3]])
    >>> run(block([[one, two], [two, one]])).nested()
    [[1, 2, 3], [2, 3, 1]]
    """
    depth, rank = nesting(arrays), most_axes(arrays)
    return put_together(arrays, depth, max(depth, rank))


def nesting(arrays: Any) -> int:
    return 1 + max(map(nesting, arrays)) if isinstance(arrays, list) and arrays else 0


def most_axes(arrays: Any) -> int:
    return max(map(most_axes, arrays)) if isinstance(arrays, list) else an_expr(arrays).ndim


def put_together(arrays: Any, depth: int, rank: int) -> Expr:
    if not isinstance(arrays, list):
        return with_axes(arrays, rank)
    return concatenate([put_together(it, depth - 1, rank) for it in arrays], -depth)


def array_split(ary: Any, indices_or_sections: Any, axis: int = 0) -> List[Expr]:
    """Returns this many parts along an axis, of which the first may be longer by one; or the parts
    between these offsets. Raises ValueError for no parts.

    >>> [run(it).values for it in array_split([1, 2, 3], 2)]
    [[1, 2], [3]]
    """
    expr = an_expr(ary)
    along = rules.axis_of(whole(axis), expr.ndim)
    length = expr.shape[along]
    if is_several(indices_or_sections):
        ends = [slice(it).indices(length)[1] for it in numbers_of(indices_or_sections)]
        pairs = zip([0, *ends], [*ends, length])
        return [part(expr, along, begin, max(begin, end)) for begin, end in pairs]
    count = whole(indices_or_sections)
    if count < 1:
        raise ValueError(f"{count} parts")
    short, longer = divmod(length, count)
    ends = [short * it + min(it, longer) for it in range(count + 1)]
    return [part(expr, along, *it) for it in zip(ends, ends[1:])]


def split(ary: Any, indices_or_sections: Any, axis: int = 0) -> List[Expr]:
    """Returns this many parts of equal length along an axis, or the parts between these offsets. Raises
    ValueError if equal parts can't be made.

    >>> [run(it).values for it in split([1, 2, 3, 4], 2)]
    [[1, 2], [3, 4]]
    """
    expr = an_expr(ary)
    if not is_several(indices_or_sections):
        length = expr.shape[rules.axis_of(whole(axis), expr.ndim)]
        count = whole(indices_or_sections)
        if count < 1 or length % count:
            raise ValueError(f"{length} places in {count} parts of one length: array_split")
    return array_split(expr, indices_or_sections, axis)


def vsplit(ary: Any, indices_or_sections: Any) -> List[Expr]:
    """Returns parts along the first axis.

    >>> [run(it).nested() for it in vsplit([[1, 2], [3, 4]], 2)]
    [[[1, 2]], [[3, 4]]]
    """
    return split(of_two_axes(ary), indices_or_sections, 0)


def hsplit(ary: Any, indices_or_sections: Any) -> List[Expr]:
    """Returns parts along the second axis, or along the only one.

    >>> [run(it).nested() for it in hsplit([[1, 2], [3, 4]], 2)]
    [[[1], [3]], [[2], [4]]]
    """
    expr = an_expr(ary)
    return split(expr, indices_or_sections, 1 if expr.ndim > 1 else 0)


def dsplit(ary: Any, indices_or_sections: Any) -> List[Expr]:
    """Returns parts along the third axis.

    >>> [run(it).nested() for it in dsplit([[[1, 2]]], 2)]
    [[[[1]]], [[[2]]]]
    """
    return split(ary, indices_or_sections, 2)


def unstack(x: Any, axis: int = 0) -> List[Expr]:
    """Returns the part at each offset of an axis, without the axis.

    >>> [run(it).values for it in unstack([[1, 2], [3, 4]])]
    [[1, 2], [3, 4]]
    """
    expr = an_expr(x)
    along = rules.axis_of(whole(axis), expr.ndim)
    return [expr.chip(at, along) for at in range(expr.shape[along])]


def offsets_of(named: Any, length: int, past: int = 0) -> List[int]:
    """Returns the offsets along an axis that a number, a slice or a list names. Raises OutOfRange."""
    if isinstance(named, slice):
        return [*range(*named.indices(length))]
    numbers = numbers_of(named)
    for it in numbers:
        if not -length <= it < length + past:
            raise OutOfRange(f"offset {it} of {length}")
    return [it % length if it < 0 else it for it in numbers]


def delete(arr: Any, obj: Any, axis: Optional[int] = None) -> Expr:
    """Returns arr without the values at these offsets of an axis, or of all values.

    >>> run(delete([5, 6, 7], 1)).values
    [5, 7]
    """
    expr, along = flat(arr, axis)
    length = expr.shape[along]
    gone = sorted({*offsets_of(obj, length)})
    parts = [
        part(expr, along, *it)
        for it in zip([0, *(it + 1 for it in gone)], [*gone, length])
        if it[0] < it[1]
    ]
    return concatenate(parts, along) if parts else part(expr, along, 0, 0)


def insert(arr: Any, obj: Any, values: Any, axis: Optional[int] = None) -> Expr:
    """Returns arr with these values before an offset of an axis, or of all values.

    >>> run(insert([5, 7], 1, 6)).values
    [5, 6, 7]
    """
    if is_several(obj) or isinstance(obj, slice):
        raise NumpysOwn("insert takes one offset: concatenate puts several parts together")
    expr, along = flat(arr, axis)
    length = expr.shape[along]
    at = offsets_of(obj, length, past=1)[0]
    # As in numpy, the first axis of the values goes along the axis.
    new = moved(with_axes(values, expr.ndim), 0, along)
    wide = broadcast_to(new, beside_axis(expr.shape, along, [new.shape[along]]))
    parts = part(expr, along, 0, at), wide, part(expr, along, at, length)
    return concatenate([it for it in parts if it.shape[along]] or [expr], along)
