"""numpy's elementwise functions of one and of two values."""

from __future__ import annotations

import builtins
import itertools
from typing import Any, Callable, Dict, NoReturn, Protocol, Tuple

from ..expressions import Expr
from ..memory import INT64
from ..methods import COMBINED, written_nowhere
from ..operations import OPERATIONS, Operation, told
from ..tensors import an_expr
from ..values import WRAPPING, as_bits, numpy, whole
from .common import as_dtype
from .delegated import by_numpy, over_lines
from .scans import cumprod, cumsum

__all__ = [
    "abs", "absolute", "add", "around", "astype", "bitwise_and", "bitwise_count", "bitwise_invert",
    "bitwise_left_shift", "bitwise_not", "bitwise_or", "bitwise_right_shift", "bitwise_xor", "clip",
    "conj", "conjugate", "divmod", "equal", "floor_divide", "fmax", "fmin", "greater",
    "greater_equal", "invert", "left_shift", "less", "less_equal", "logical_and", "logical_not",
    "logical_or", "logical_xor", "maximum", "minimum", "mod", "multiply", "negative", "not_equal",
    "positive", "pow", "power", "real", "remainder", "right_shift", "round", "sign", "signbit",
    "square", "subtract",
]

# By name, the rows of functions. The last two are Python's operators, and no operations of the request.
ROWS = {it.numpy: it for it in OPERATIONS.values()}
ROWS["positive"] = Operation("positive", "pos", 1, "the values as they are", [1, -2], [1, -2])
ROWS["power"] = Operation("power", "pow", 1, "the powers: x**y", [2, 3], 5, [32, 243])
# The reductions that combine values by a function of two.
REDUCED = {OPERATIONS[it].numpy: reduction for reduction, it in COMBINED.items()}
REDUCED.update(logical_and="all", logical_or="any")
ACCUMULATED = {"add": cumsum, "multiply": cumprod}
LISTED: Dict[str, Callable[[int, int], int]] = {"maximum": builtins.max, "minimum": builtins.min}


class OfTwo(Protocol):
    """An elementwise function of two values, with its own functions."""

    def __call__(self, x1: Any, x2: Any, out: None = None) -> Expr: ...

    def outer(self, A: Any, B: Any) -> Expr: ...

    def reduce(self, array: Any, axis: Any = 0, **more: Any) -> Expr: ...

    def accumulate(self, array: Any, axis: int = 0) -> Expr: ...

    def reduceat(self, array: Any, indices: Any, axis: int = 0) -> Expr: ...


def of_one(name: str) -> Callable[..., Expr]:
    """Returns an elementwise function of one value, by its row."""
    it = ROWS[name]

    def function(x: Any, out: None = None) -> Any:
        written_nowhere(out)
        return getattr(an_expr(x), it.called)()

    found: Callable[..., Expr] = told(function, name, it.what, f"{name}({it.operands[0]})", it.wanted)
    return found


def of_two(name: str) -> OfTwo:
    """Returns an elementwise function of two values, by its row. It has functions of its own: `outer` of
    each two values, `reduce` along an axis, `accumulate` up to each place, `reduceat`."""
    it = ROWS[name]

    def function(x1: Any, x2: Any, out: None = None) -> Any:
        written_nowhere(out)
        return getattr(an_expr(as_bits(x1) if it.name in WRAPPING else x1), it.called)(x2)

    def outer(A: Any, B: Any) -> Any:
        left, right = an_expr(A), an_expr(B)
        return function(left.in_dims([*left.shape] + [1] * right.ndim), right)

    def reduce(array: Any, axis: Any = 0, **more: Any) -> Any:
        if name in REDUCED:
            return getattr(an_expr(array), REDUCED[name])(axis=axis, **more)
        return by_numpy(f"{name}.reduce", an_expr(array), axis, **more)

    def accumulate(array: Any, axis: int = 0) -> Any:
        if name in ACCUMULATED:
            return ACCUMULATED[name](array, axis)
        if numpy is None and name in LISTED:
            return over_lines(lambda line: [*itertools.accumulate(line, LISTED[name])], array, axis)
        return by_numpy(f"{name}.accumulate", an_expr(array), axis)

    def reduceat(array: Any, indices: Any, axis: int = 0) -> Any:
        return by_numpy(f"{name}.reduceat", an_expr(array), indices, axis)

    def refused(*_: Any, **more: Any) -> NoReturn:
        raise TypeError("a tensor isn't written into: x.at[i].add(v) returns one with other values")

    example = "{}({}, {})".format(name, *it.operands)
    made = told(function, name, it.what, example, it.wanted)
    made.outer, made.reduce, made.accumulate = outer, reduce, accumulate
    made.reduceat, made.at = reduceat, refused
    found: OfTwo = made
    return found


positive, negative, absolute, square = map(of_one, "positive negative absolute square".split())
logical_not, invert, bitwise_count = map(of_one, "logical_not invert bitwise_count".split())
add, subtract, multiply, power = map(of_two, "add subtract multiply power".split())
maximum, minimum, remainder = map(of_two, "maximum minimum remainder".split())
less, less_equal, equal, not_equal = map(of_two, "less less_equal equal not_equal".split())
greater, greater_equal, floor_divide = map(of_two, "greater greater_equal floor_divide".split())
logical_and, logical_or, left_shift = map(of_two, "logical_and logical_or left_shift".split())
bitwise_and, bitwise_or, bitwise_xor = map(of_two, "bitwise_and bitwise_or bitwise_xor".split())
right_shift = of_two("right_shift")

# By numpy's other names.
abs, pow, bitwise_not, bitwise_invert = absolute, power, invert, invert
fmax, fmin, mod = maximum, minimum, remainder
bitwise_left_shift, bitwise_right_shift = left_shift, right_shift


def divmod(x1: Any, x2: Any) -> Tuple[Expr, Expr]:
    """Returns the quotients, rounded down, and the remainders.

    >>> [run(it).values for it in divmod([7, -7], 2)]
    [[3, -4], [1, 1]]
    """
    return floor_divide(x1, x2), remainder(x1, x2)


def logical_xor(x1: Any, x2: Any) -> Expr:
    """Returns 1 where exactly one of two values is 0, and 0 elsewhere.

    >>> run(logical_xor([0, 5], 7)).values
    [1, 0]
    """
    return as_dtype(x1, bool).ne(as_dtype(x2, bool))


# For numpy these change fractions or imaginary parts, which whole numbers don't have.
conj = conjugate = real = positive


def round(x: Any, decimals: int = 0) -> Expr:
    """Returns the values as they are. Raises TypeError for decimals below 0.

    >>> run(round([14, 16])).values
    [14, 16]
    """
    if whole(decimals) < 0:
        raise TypeError("rounding to tens isn't supported")
    return an_expr(x)


around = round


def sign(x: Any) -> Expr:
    """Returns -1, 0 or 1 for values below 0, 0, and above 0.

    >>> run(sign([-5, 0, 7])).values
    [-1, 0, 1]
    """
    return an_expr(x).clip(-1, 1)


def signbit(x: Any) -> Expr:
    """Returns 1 where a value is below 0, and 0 elsewhere.

    >>> run(signbit([-5, 0])).values
    [1, 0]
    """
    return an_expr(x).lt(0)


def clip(x: Any, a_min: Any = None, a_max: Any = None, min: Any = None, max: Any = None) -> Expr:
    """Returns the values, limited to a range. Either limit may be left out.

    >>> run(clip([1, 5, 9], 2, 8)).values
    [2, 5, 8]
    """
    below, above = a_min if min is None else min, a_max if max is None else max
    return an_expr(x).clip(below, above)


def astype(x: Any, dtype: Any) -> Any:
    """Returns the values as a dtype: as int64 they are numbers, and as bool they are 1 where they aren't
    0. For another dtype, returns an array of numpy, and the expression runs.

    >>> run(astype([0, 5], bool)).values
    [0, 1]
    """
    if numpy is not None and dtype is not None and numpy.dtype(dtype) not in (INT64, bool):
        return an_expr(x)._answered().array().astype(dtype)
    return as_dtype(x, dtype)
