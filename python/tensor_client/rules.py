"""The dims of each operation's result, or the fault of its operands, by the rules of docs/REQUEST.md.
They are applied when an expression is written, and the program applies them again. Also numpy's
broadcasting rule, and expressions repeated by it."""

from __future__ import annotations

from typing import TYPE_CHECKING, List, Sequence, Tuple

from .faults import BadArgument, OutOfRange, ShapeMismatch, TooLarge

if TYPE_CHECKING:
    from .expressions import Expr

Dims = Tuple[int, ...]
Pairs = Sequence[Sequence[int]]

# Limits of version 3 of the request. Earlier versions allow less (requests.py).
MOST_ELEMENTS = 268_435_456
MOST_PRODUCTS = 1_099_511_627_776
MOST_RANK = 8
# The most elements in all versions. An operation over all pairs of places takes pieces of this size,
# or larger ones if there would be more than MOST_PIECES.
FIRST_ELEMENTS, MOST_PIECES = 1_048_576, 50
# The most products of a contraction or a convolution in all versions.
FIRST_PRODUCTS = 1_073_741_824


def product(numbers: Sequence[int]) -> int:
    """Returns the product of some numbers; 1 if there are none.

    >>> product([2, 3]), product([])
    (6, 1)
    """
    found = 1
    for it in numbers:
        found *= it
    return found


def places(dims: Sequence[int]) -> int:
    """Returns the product in which a 0 counts as 1: the elements that limits count for these dims.

    >>> places([2, 0, 3])
    6
    """
    found = 1
    for it in dims:
        found *= it or 1
    return found


def legal(dims: Sequence[int]) -> Dims:
    """Returns these dims as a tuple. Raises TooLarge if no tensor may have them."""
    if len(dims) > MOST_RANK:
        raise TooLarge(f"{len(dims)} axes, of at most {MOST_RANK}: reshape some into one")
    if places(dims) > MOST_ELEMENTS:
        raise TooLarge(f"dims {tuple(dims)} have more than {MOST_ELEMENTS:,} places: run a part at a time")
    return tuple(dims)


def piece(count: int, others: int) -> int:
    """Returns how many of `count` places to take at a time, if each is paired with `others` places.

    >>> piece(3_000_000, 10), piece(100_000_000, 10), piece(1_000, 1_000_000)
    (104857, 2000000, 20)
    """
    few, most = (max(it // max(others, 1), 1) for it in (FIRST_ELEMENTS, MOST_ELEMENTS))
    return min(max(few, -(-count // MOST_PIECES)), most)


def sizes(numbers: Sequence[int]) -> List[int]:
    for it in numbers:
        if it < 0:
            raise BadArgument(f"a size below 0: {it}")
    return list(numbers)


def axis_of(axis: int, rank: int) -> int:
    """Returns an axis by its number. A negative one counts from the end. Raises OutOfRange."""
    if not -rank <= axis < rank:
        raise OutOfRange(f"axis {axis} is out of range for {rank} axes")
    return axis % rank


def axes_of(axes: Sequence[int], rank: int) -> List[int]:
    found = [axis_of(it, rank) for it in axes]
    if len(set(found)) < len(found):
        raise OutOfRange(f"an axis is named twice: {tuple(axes)}")
    return found


def one_each(what: str, arguments: Sequence[object], dims: Dims) -> None:
    if len(arguments) != len(dims):
        raise ShapeMismatch(f"{len(arguments)} {what} for the {len(dims)} axes of dims {dims}")


def fitted(*shapes: Dims) -> Dims:
    """Returns the dims over which numpy broadcasts operands of these dims: from the last axis on,
    lengths are equal or 1. Raises ShapeMismatch.

    >>> fitted((2, 1), (3,))
    (2, 3)
    """
    rank = max(map(len, shapes))
    found = []
    for axis in range(-rank, 0):
        here = {dims[axis] for dims in shapes if -axis <= len(dims)} - {1}
        if len(here) > 1:
            raise ShapeMismatch(f"dims {' and '.join(map(str, shapes))} don't fit")
        found.append(here.pop() if here else 1)
    return legal(found)


def without(dims: Dims, axes: Sequence[int]) -> Dims:
    return tuple(it for axis, it in enumerate(dims) if axis not in axes)


def broadcast(dims: Dims, counts: Sequence[int]) -> Dims:
    one_each("counts", counts, dims)
    for it in counts:
        if it < 1:
            raise OutOfRange(f"a count below 1: {tuple(counts)}")
    return legal([dim * count for dim, count in zip(dims, counts)])


def sliced(dims: Dims, offsets: Sequence[int], extents: Sequence[int]) -> Dims:
    one_each("offsets", offsets, dims)
    one_each("extents", extents, dims)
    for dim, offset, extent in zip(dims, sizes(offsets), sizes(extents)):
        if offset + extent > dim:
            raise OutOfRange(f"{extent} places from offset {offset} on don't fit an axis of {dim} places")
    return tuple(extents)


def shuffled(dims: Dims, order: Sequence[int]) -> Dims:
    one_each("axes", order, dims)
    return tuple(dims[axis] for axis in order)


def reshaped(dims: Dims, to: Sequence[int]) -> Dims:
    found = legal(sizes(to))
    if product(found) != product(dims):
        raise ShapeMismatch(f"the {product(dims)} places of dims {dims} don't fit dims {found}")
    return found


def chipped(dims: Dims, offset: int, axis: int) -> Dims:
    if not 0 <= offset < dims[axis]:
        raise OutOfRange(f"offset {offset} is out of range for the {dims[axis]} places of axis {axis}")
    return without(dims, [axis])


def strided(dims: Dims, steps: Sequence[int]) -> Dims:
    one_each("steps", steps, dims)
    for it in steps:
        if it < 1:
            raise OutOfRange(f"a step below 1: {it}")
    return tuple(-(-dim // step) for dim, step in zip(dims, steps))


def padded(dims: Dims, pairs: Pairs) -> Dims:
    one_each("pairs", pairs, dims)
    return legal([dim + sum(sizes(pair)) for dim, pair in zip(dims, pairs)])


def joined(left: Dims, right: Dims, axis: int) -> Dims:
    if len(left) != len(right) or without(left, [axis]) != without(right, [axis]):
        raise ShapeMismatch(f"dims {left} and {right} can't be joined along axis {axis}")
    return legal([*left[:axis], left[axis] + right[axis], *left[axis + 1 :]])


def taken(dims: Dims, indices: Dims, axis: int) -> Dims:
    return legal([*dims[:axis], *indices, *dims[axis + 1 :]])


def contracted(left: Dims, right: Dims, ours: Sequence[int], theirs: Sequence[int]) -> Dims:
    for our, their in zip(ours, theirs):
        if left[our] != right[their]:
            raise ShapeMismatch(f"axis {our} of dims {left} isn't as long as axis {their} of dims {right}")
    found = legal(without(left, ours) + without(right, theirs))
    return few_products(found, [left[it] for it in ours])


def slid(dims: Dims, kernel: Dims, axes: Sequence[int]) -> Dims:
    """Returns the dims of a convolution with a kernel along these axes."""
    if len(kernel) != len(axes):
        raise ShapeMismatch(f"a kernel of dims {kernel} along {len(axes)} axes")
    along = dict(zip(axes, kernel))
    for axis, it in along.items():
        if not 1 <= it <= dims[axis]:
            raise OutOfRange(f"a kernel of {it} places along axis {axis} of dims {dims}")
    return few_products(tuple(it - along.get(axis, 1) + 1 for axis, it in enumerate(dims)), kernel)


def few_products(dims: Dims, summed: Sequence[int]) -> Dims:
    """Returns the dims of a result whose values are sums of products over indices of the sizes `summed`.
    Raises TooLarge if there are too many products.

    >>> few_products((16_384, 4_096), [16_384])
    (16384, 4096)
    """
    if product(dims) * product(summed) > MOST_PRODUCTS:
        raise TooLarge(f"more than {MOST_PRODUCTS:,} products are summed: run a part at a time")
    return dims


def spread(expr: Expr, dims: Dims) -> Expr:
    """Repeats an expression over dims that it fits by numpy's broadcasting rule."""
    if expr.dims is None or expr.dims == dims:
        return expr
    own = (1,) * (len(dims) - len(expr.dims)) + expr.dims
    wide = expr if own == expr.dims else expr.in_dims(own)
    counts = [dim if have == 1 else 1 for have, dim in zip(own, dims)]
    if 0 in counts:
        # A place that is repeated 0 times: none of it is taken.
        wide = wide.slice([0] * len(dims), [min(it) for it in zip(own, dims)])
        counts = [max(it, 1) for it in counts]
    return wide if set(counts) <= {1} else wide.broadcast(counts)


def alike(*exprs: Expr) -> List[Expr]:
    """Repeats expressions over the dims that numpy's broadcasting rule gives for all."""
    shapes = [it.dims for it in exprs]
    if None in shapes or shapes.count(shapes[0]) == len(shapes):
        return list(exprs)
    dims = fitted(*[it for it in shapes if it is not None])
    return [spread(it, dims) for it in exprs]
