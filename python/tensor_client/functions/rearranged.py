"""Values in other dims, orders and numbers, as numpy's functions with these names."""

from __future__ import annotations

from typing import Any, List, Optional, Protocol, Sequence, Tuple, overload

from .. import rules
from ..expressions import Expr
from ..faults import ShapeMismatch
from ..memory import LARGE
from ..operations import told
from ..rules import Dims, alike, spread
from ..tensors import an_expr
from ..values import numbers_of, whole
from .common import beside_axis, flat, moved, named_axes, part

__all__ = [
    "atleast_1d", "atleast_2d", "atleast_3d", "broadcast_arrays", "broadcast_shapes",
    "broadcast_to", "expand_dims", "flip", "fliplr", "flipud", "matrix_transpose", "moveaxis",
    "ndim", "permute_dims", "ravel", "repeat", "reshape", "resize", "roll", "rollaxis", "rot90",
    "shape", "size", "squeeze", "swapaxes", "tile", "transpose",
]


def reshape(x: Any, shape: Any, order: str = "C") -> Expr:
    """Returns the values in other dims, as the method.

    >>> run(reshape([[1, 2], [3, 4], [5, 6]], (2, -1))).nested()
    [[1, 2, 3], [4, 5, 6]]
    """
    return an_expr(x).reshape(numbers_of(shape), order=order)


def ravel(x: Any, order: str = "C") -> Expr:
    """Returns the values along one axis, in C order, or in column-major order with order="F".

    >>> run(ravel([[1, 2], [3, 4]])).values
    [1, 2, 3, 4]
    """
    return an_expr(x).ravel(order)


def resize(a: Any, new_shape: Any) -> Expr:
    """Returns the values in other dims, repeated if they are too few. Raises ValueError without values.

    >>> run(resize([1, 2, 3], (2, 4))).nested()
    [[1, 2, 3, 1], [2, 3, 1, 2]]
    """
    line = an_expr(a).ravel()
    sizes = rules.legal(rules.sizes(numbers_of(new_shape)))
    count = rules.product(sizes)
    if count and not line.size:
        raise ValueError("no values can't fill these dims")
    return part(tile(line, -(-count // max(line.size, 1))), 0, 0, count).reshape(sizes)


# Axes.


def transpose(x: Any, axes: Any = None) -> Expr:
    """Returns x with its axes in this order; without axes, in reverse order.

    >>> run(transpose([[1, 2], [3, 4]])).nested()
    [[1, 3], [2, 4]]
    """
    return an_expr(x).transpose(axes)


permute_dims = transpose


def matrix_transpose(x: Any) -> Expr:
    """Returns x with its last two axes swapped.

    >>> matrix_transpose([[[1, 2, 3]]]).dims
    (1, 3, 1)
    """
    return swapaxes(x, -1, -2)


def swapaxes(a: Any, axis1: int, axis2: int) -> Expr:
    """Returns a with two axes swapped.

    >>> swapaxes([[[1, 2, 3]]], 0, 2).dims
    (3, 1, 1)
    """
    expr = an_expr(a)
    order = [*range(expr.ndim)]
    one, other = (rules.axis_of(whole(it), expr.ndim) for it in (axis1, axis2))
    order[one], order[other] = other, one
    return expr.shuffle(order)


def moveaxis(a: Any, source: Any, destination: Any) -> Expr:
    """Returns a with axes moved to other places. The other axes keep their order.

    >>> moveaxis([[[1, 2, 3]]], -1, 0).dims
    (3, 1, 1)
    """
    expr = an_expr(a)
    taken, put = named_axes(source, expr.ndim), named_axes(destination, expr.ndim)
    if len(taken) != len(put):
        raise ShapeMismatch(f"axes {taken} to {put}")
    order = [it for it in range(expr.ndim) if it not in taken]
    for to, axis in sorted(zip(put, taken)):
        order.insert(to, axis)
    return expr.shuffle(order)


def rollaxis(a: Any, axis: int, start: int = 0) -> Expr:
    """Returns a with one axis moved before another.

    >>> rollaxis([[[1, 2, 3]]], 2).dims
    (3, 1, 1)
    """
    expr = an_expr(a)
    along, to = rules.axis_of(whole(axis), expr.ndim), whole(start)
    # The place after the last axis has a number from 0 on, and no negative one.
    to = to if to == expr.ndim else rules.axis_of(to, expr.ndim)
    return moved(expr, along, to - 1 if along < to else to)


def squeeze(a: Any, axis: Any = None) -> Expr:
    """Returns a without its axes of length 1, or without these. Raises ShapeMismatch for longer axes.

    >>> squeeze([[[1], [2]]]).dims
    (2,)
    """
    expr = an_expr(a)
    dims = expr.shape
    ones = [at for at, it in enumerate(dims) if it == 1]
    gone = ones if axis is None else named_axes(axis, expr.ndim)
    if any(dims[it] != 1 for it in gone):
        raise ShapeMismatch(f"axes {gone} of dims {dims} have more or less than one place")
    return expr.in_dims(rules.without(dims, gone))


def expand_dims(a: Any, axis: Any) -> Expr:
    """Returns a with new axes of length 1 at these places.

    >>> expand_dims([1, 2], 0).dims
    (1, 2)
    """
    expr = an_expr(a)
    rank = expr.ndim + len(numbers_of(axis))
    new, left = named_axes(axis, rank), iter(expr.shape)
    return expr.in_dims([1 if at in new else next(left) for at in range(rank)])


def with_axes(x: Any, rank: int) -> Expr:
    """Returns x with new first axes of length 1, up to this many axes."""
    expr = an_expr(x)
    return expr if expr.ndim >= rank else expr.in_dims([1] * (rank - expr.ndim) + [*expr.shape])


class OneOrAll(Protocol):
    """A function that returns an expression for one part, and a list of expressions for several."""

    @overload
    def __call__(self, part: Any, /) -> Expr: ...
    @overload
    def __call__(self, part: Any, other: Any, /, *parts: Any) -> List[Expr]: ...


def at_least(rank: int, what: str, example: str, wanted: str) -> OneOrAll:
    def function(*parts: Any) -> Any:
        found = [with_axes(it, min(rank, 2)) for it in parts]
        if rank == 3:
            found = [it if it.ndim > 2 else it.in_dims([*it.shape, 1]) for it in found]
        return found[0] if len(found) == 1 else found

    name = f"atleast_{rank}d"
    made: OneOrAll = told(function, name, what, f"{name}({example})", wanted)
    return made


atleast_1d = at_least(1, "Returns each part with an axis at least.", "5", "[5]")
atleast_2d = at_least(2, "Returns each part with two axes at least; new ones come first.", "[5, 6]", "[5, 6]")
atleast_3d = at_least(3, "Returns each part with three axes at least; a matrix gets a last one.", "[5, 6]", "[5, 6]")


# Repetition.


def broadcast_to(array: Any, shape: Any) -> Expr:
    """Returns an expression, broadcast to these dims. Raises ShapeMismatch if it doesn't fit.

    >>> run(broadcast_to([1, 2], (2, 2))).nested()
    [[1, 2], [1, 2]]
    """
    expr = an_expr(array)
    dims = rules.legal(rules.sizes(numbers_of(shape)))
    if len(expr.shape) > len(dims) or rules.fitted(expr.shape, dims) != dims:
        raise ShapeMismatch(f"dims {expr.shape} don't fit into {dims}")
    return spread(expr, dims)


def broadcast_arrays(*parts: Any) -> List[Expr]:
    """Returns all parts, broadcast to the dims that fit all. Raises ShapeMismatch.

    >>> [it.dims for it in broadcast_arrays([1, 2], [[3], [4]])]
    [(2, 2), (2, 2)]
    """
    return alike(*map(an_expr, parts))


def broadcast_shapes(*shapes: Any) -> Dims:
    """Returns the dims to which numpy broadcasts these dims. Raises ShapeMismatch.

    >>> broadcast_shapes((2, 1), (3,))
    (2, 3)
    """
    each = [tuple(numbers_of(it)) for it in shapes]
    return rules.fitted(*each) if each else ()


def tile(A: Any, reps: Any) -> Expr:
    """Returns A, repeated this many times along each axis. Fewer counts than axes are for the last axes.

    >>> run(tile([1, 2], (2, 2))).nested()
    [[1, 2, 1, 2], [1, 2, 1, 2]]
    """
    counts = rules.sizes(numbers_of(reps))
    expr = with_axes(A, len(counts))
    counts = [1] * (expr.ndim - len(counts)) + counts
    # An axis that is repeated 0 times becomes empty.
    kept = [it if count else 0 for it, count in zip(expr.shape, counts)]
    if kept != [*expr.shape]:
        expr = expr.slice([0] * expr.ndim, kept)
    return expr if {*counts} <= {0, 1} else expr.broadcast([max(it, 1) for it in counts])


def repeat(a: Any, repeats: Any, axis: Any = None) -> Expr:
    """Returns each value this many times, along an axis or in all values. `repeats` is one count, or a
    list with a count for each value.

    >>> run(repeat([1, 2], 2)).values, run(repeat([1, 2], [1, 3])).values
    ([1, 1, 2, 2], [1, 2, 2, 2])
    """
    expr, along = flat(a, axis)
    dims = expr.shape
    counts = rules.sizes(numbers_of(repeats))
    if len(counts) != 1:
        from .chosen import take

        if len(counts) != dims[along]:
            raise ShapeMismatch(f"{len(counts)} counts for {dims[along]} places")
        return take(expr, [at for at, it in enumerate(counts) for _ in range(it)], along)
    often = counts[0]
    # In column-major order, an axis before this one repeats each of its values.
    wide = expr.in_dims(beside_axis(dims, along, [1, dims[along]]))
    found = tile(wide, [often if at == along else 1 for at in range(wide.ndim)])
    return found.in_dims(beside_axis(dims, along, [often * dims[along]]))


# Other orders.


def flip(m: Any, axis: Any = None) -> Expr:
    """Returns m in reverse order, along these axes or along all.

    >>> run(flip([[1, 2], [3, 4]], 1)).nested()
    [[2, 1], [4, 3]]
    """
    expr = an_expr(m)
    axes = [*range(expr.ndim)] if axis is None else named_axes(axis, expr.ndim)
    return expr.reverse([it in axes for it in range(expr.ndim)])


def of_two_axes(m: Any) -> Expr:
    expr = an_expr(m)
    if expr.ndim < 2:
        raise ShapeMismatch(f"dims {expr.shape} have no rows and columns")
    return expr


def fliplr(m: Any) -> Expr:
    """Returns m with its columns in reverse order.

    >>> run(fliplr([[1, 2], [3, 4]])).nested()
    [[2, 1], [4, 3]]
    """
    return flip(of_two_axes(m), 1)


def flipud(m: Any) -> Expr:
    """Returns m with its rows in reverse order.

    >>> run(flipud([[1, 2], [3, 4]])).nested()
    [[3, 4], [1, 2]]
    """
    return flip(m, 0)


def rot90(m: Any, k: int = 1, axes: Tuple[int, int] = (0, 1)) -> Expr:
    """Returns m, rotated k times by 90 degrees, from the first of two axes towards the second.

    >>> run(rot90([[1, 2], [3, 4]])).nested()
    [[2, 4], [1, 3]]
    """
    expr = of_two_axes(m)
    first, second = named_axes(axes, expr.ndim)
    turned = [(), (second,), (first, second), (first,)][whole(k) % 4]
    found = flip(expr, turned) if turned else expr
    return swapaxes(found, first, second) if len(turned) == 1 else found


def roll(a: Any, shift: Any, axis: Any = None) -> Expr:
    """Returns a, shifted along axes. Values that leave at one end enter at the other.

    >>> run(roll([1, 2, 3, 4], 1)).values
    [4, 1, 2, 3]
    """
    expr = an_expr(a)
    if axis is None:
        return rolled(expr.ravel(), [-whole(shift)]).reshape(expr.shape)
    shifts, axes, begins = numbers_of(shift), numbers_of(axis), [0] * expr.ndim
    for at in range(*rules.fitted((len(shifts),), (len(axes),))):
        along = rules.axis_of(axes[at % len(axes)], expr.ndim)
        begins[along] -= shifts[at % len(shifts)]
    return rolled(expr, begins)


def rolled(expr: Expr, begins: Sequence[int]) -> Expr:
    """Returns an expression that begins at other offsets along each axis. A small or long expression is
    repeated and sliced. Otherwise blocks are joined, which the request reads as they lie."""
    from .chosen import MOST_IN_PARTS, in_blocks

    dims = expr.shape
    begins = [begin % dim if dim else 0 for begin, dim in zip(begins, dims)]
    counts = [2 if it else 1 for it in begins]
    blocks, size = rules.product(counts), rules.places(dims)
    is_short = expr.nodes * blocks <= MOST_IN_PARTS
    if size * blocks > rules.FIRST_ELEMENTS or (size >= LARGE and is_short):
        cuts = [((it, 1, dim - it), (0, 1, it)) for it, dim in zip(begins, dims)]
        return in_blocks(expr, [it[:count] for it, count in zip(cuts, counts)])
    return expr.broadcast(counts).slice(begins, dims) if blocks > 1 else expr


# Dims.


def shape(a: Any) -> Dims:
    """Returns the dims.

    >>> shape([[1, 2, 3]])
    (1, 3)
    """
    return an_expr(a).shape


def ndim(a: Any) -> int:
    """Returns the number of axes.

    >>> ndim([[1, 2, 3]])
    2
    """
    return an_expr(a).ndim


def size(a: Any, axis: Optional[int] = None) -> int:
    """Returns the number of values, or the length of an axis.

    >>> size([[1, 2, 3]]), size([[1, 2, 3]], 0)
    (3, 1)
    """
    dims = an_expr(a).shape
    return rules.product(dims) if axis is None else dims[rules.axis_of(whole(axis), len(dims))]
