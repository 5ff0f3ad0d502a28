"""What an index x[..] names along each axis, as in numpy."""

from __future__ import annotations

import operator
from array import array as packed
from typing import Any, List, Tuple

from .faults import OutOfRange
from .values import is_bool

# Python's slice, where `slice` is an operation of expressions.
Slice = slice


def parts_of(index: Tuple[Any, ...], rank: int) -> List[Any]:
    """Returns an index for each axis, and None for each new axis. `..` stands for the axes that aren't
    named. Raises OutOfRange for too many indices."""
    dots = [at for at, it in enumerate(index) if it is Ellipsis]
    if len(dots) > 1:
        raise IndexError("an index may have `..` once")
    if not all(is_index(it) or is_list(it) for it in index):
        raise TypeError("an index is numbers, slices, None, `..`, and lists of numbers")
    named = sum(it is not None and it is not Ellipsis for it in index)
    if named > rank:
        raise OutOfRange(f"{named} indices for {rank} axes")
    rest = [Slice(None)] * (rank - named)
    at = dots[0] if dots else len(index)
    return [*index[:at], *rest, *index[at + 1 :]]


def is_index(it: Any) -> bool:
    """Whether this is a number, a slice, None or `..`, and neither a truth value nor a list."""
    if is_bool(it) or getattr(it, "shape", None) or getattr(it, "truth", False):
        return False
    if it is None or it is Ellipsis or isinstance(it, slice):
        return True
    return hasattr(it, "__index__") and not is_list(it)


def is_list(it: Any) -> bool:
    """Whether this is a list of offsets or of truth values, or an expression that has to run first."""
    if isinstance(it, (list, range, packed)) or getattr(it, "shape", None):
        return True
    return getattr(it, "operands", None) not in (None, ())


def whole_range(index: Any, dim: int) -> range:
    """Returns the offsets along an axis that an index names. Raises OutOfRange."""
    if isinstance(index, slice):
        return range(*index.indices(dim))
    at = operator.index(index)
    if not -dim <= at < dim:
        raise OutOfRange(f"offset {at} is out of range for {dim} places")
    return range(at % dim, at % dim + 1)


def turned(offsets: range, dim: int) -> range:
    """Returns falling offsets as they count from the other end of the axis, and others as they are."""
    if offsets.step > 0:
        return offsets
    start = dim - 1 - offsets.start
    return range(start, start + len(offsets) * -offsets.step, -offsets.step)
