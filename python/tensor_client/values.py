"""Which values of Python and numpy a tensor can have, and how they nest in lists."""

from __future__ import annotations

import operator
from array import array as packed
from numbers import Number
from typing import Any, Callable, Iterable, List, Sequence, Tuple, TypeVar

try:
    import numpy as numpy
except ImportError:
    numpy = None  # type: ignore[assignment]

LEAST, GREATEST = -(2**63), 2**63 - 1
# Operations that give the same bits for signed and unsigned numbers.
WRAPPING = frozenset("add sub mul eq ne bit_and bit_or bit_xor".split())
LISTS = (list, tuple, range, packed)
# The types that lists contain as they are: values, and lists.
PLAIN = {int, bool, list, tuple}

Kind = TypeVar("Kind")


class NumpysOwn(TypeError, ValueError):
    """Values that arrays of numpy can have and tensors can't, such as fractions. numpy's own functions
    take them."""


def is_bool(value: Any) -> bool:
    return isinstance(value, bool) or (numpy is not None and isinstance(value, numpy.bool_))


def value_of(value: Any) -> int:
    """Returns a value of a tensor, a whole number in the range of i64 or a truth value, as int.

    >>> value_of(True), value_of(-5)
    (1, -5)
    """
    return int(value) if is_bool(value) else whole(value)


def whole(value: Any) -> int:
    """Returns a whole number in the range of i64 as int. Raises TypeError for a bool or a float, and
    OverflowError outside the range."""
    if type(value) is int and LEAST <= value <= GREATEST:
        return value
    if is_bool(value):
        raise TypeError("a number is wanted here, and not a bool")
    try:
        number = operator.index(value)
    except TypeError:
        kind = NumpysOwn if isinstance(value, Number) else TypeError
        raise kind(f"not a whole number: {value!r:.60}") from None
    if not LEAST <= number <= GREATEST:
        raise OverflowError("a whole number outside the range of i64, -2**63 to 2**63 - 1")
    return number


def as_bits(value: Any) -> Any:
    """Returns values of dtype uint64 as int64 with the same bits, and other values as they are."""
    is_unsigned = numpy is not None and getattr(value, "dtype", None) == numpy.uint64
    return value.astype(numpy.int64) if is_unsigned else value


def flag(value: Any) -> bool:
    """Returns a truth value as bool. Raises TypeError for a number."""
    if is_bool(value):
        return bool(value)
    raise TypeError(f"neither True nor False: {value!r:.60}")


def is_several(value: Any) -> bool:
    """Whether a value is a list or an array with axes, and not one number.

    >>> is_several([2]), is_several(2), is_several(tensor(2))
    (True, False, False)
    """
    is_text = isinstance(value, str)
    return hasattr(value, "__len__") and not is_text and getattr(value, "shape", None) != ()


def numbers_of(value: Any) -> List[int]:
    """Returns whole numbers as a list, given a list or one number.

    >>> numbers_of((2, 3)), numbers_of(2)
    ([2, 3], [2])
    """
    return [whole(it) for it in value] if is_several(value) else [whole(value)]


def listed(items: Sequence[Any], kind: Callable[[Any], Kind]) -> List[Kind]:
    """Returns arguments as a list. They are given as one list, or one after another.

    >>> listed([2, 3], whole) == listed([(2, 3)], whole)
    True
    """
    if len(items) == 1 and is_several(items[0]):
        items = items[0]
    return [kind(it) for it in items]


def checked(values: Iterable[Any]) -> List[int]:
    """Returns the values of a tensor as a list of int. Raises TypeError and OverflowError."""
    found = list(values)
    if set(map(type, found)) <= {int} and (
        not found or (LEAST <= min(found) and max(found) <= GREATEST)
    ):
        return found
    return [value_of(it) for it in found]


def are_bools(values: Sequence[Any]) -> bool:
    return len(values) > 0 and all(map(is_bool, values))


def checked_array(array: Any) -> Any:
    """Returns an array of i64 numbers or of bools. Raises TypeError or OverflowError for others."""
    kind = array.dtype.kind
    if kind == "i" and type(array) is numpy.ndarray:
        return array
    if isinstance(array, numpy.ma.MaskedArray):
        raise TypeError("a masked array has places without a value: fill them, with .filled(..)")
    if isinstance(array, numpy.matrix):
        raise TypeError("numpy.matrix means other products by * and **: pass numpy.asarray(it)")
    if kind == "O":
        raise TypeError("an array of objects: pass a list of whole numbers, or .astype(int)")
    if kind == "f":
        raise NumpysOwn(f"an array of {array.dtype}: round it, and then .astype(numpy.int64)")
    if kind not in "biu":
        refused = NumpysOwn if kind == "c" else TypeError
        raise refused(f"an array of {array.dtype} holds no whole numbers")
    if kind == "u" and array.size:
        whole(array.max())
    return array


class Unanswered(TypeError):
    """An expression among values, which has no values yet."""


def opened(value: Any) -> Any:
    """Returns the values of an array or a tensor as lists, and other values as they are."""
    if getattr(value, "operands", ()):
        raise Unanswered("an expression has no values yet: stack([..]) puts some together")
    if numpy is not None and isinstance(value, (numpy.ndarray, numpy.generic)):
        return checked_array(numpy.asanyarray(value)).tolist()
    return value.tolist() if hasattr(value, "tolist") else value


def unnested(values: Any) -> Tuple[List[int], List[Any]]:
    """Returns the dims of nested lists, which may contain arrays, and their values in column-major
    order. Each round goes one axis deeper, with the earlier axes faster. Raises ValueError for lists of
    different lengths.

    >>> unnested([[1, 2, 3], [4, 5, 6]])
    ([2, 3], [1, 4, 2, 5, 3, 6])
    """
    dims: List[int] = []
    level = [values]
    while level and isinstance(level[0], LISTS):
        lengths = {len(it) if isinstance(it, LISTS) else -1 for it in level}
        if len(lengths) > 1:
            raise ValueError(f"lists of different lengths at depth {len(dims)}")
        dims += lengths
        level = [it[index] for index in range(dims[-1]) for it in level]
        if not set(map(type, level)) <= PLAIN:
            level = [opened(it) for it in level]
    return dims, level


def nested(values: Sequence[int], dims: Tuple[int, ...]) -> Any:
    """Returns values in column-major order as nested lists; without dims, the one value.

    >>> nested([1, 4, 2, 5, 3, 6], (2, 3))
    [[1, 2, 3], [4, 5, 6]]
    """
    if not dims:
        return values[0]
    return [nested(values[index :: dims[0]], dims[1:]) for index in range(dims[0])]
