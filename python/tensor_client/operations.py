"""The elementwise operations of the request on one and on two operands, in one table. A new one is a row
here, and the function with numpy's name in functions/valuewise.py. The rest is derived from its row."""

from __future__ import annotations

from typing import TYPE_CHECKING, Any, Callable, Dict

from . import expressions

if TYPE_CHECKING:
    from .expressions import Expr

One = Callable[[], "Expr"]
Two = Callable[[Any], "Expr"]


def told(function: Callable[..., Any], name: str, what: str, example: str, wanted: Any) -> Any:
    """Gives a function a name, and a docstring with an example."""
    function.__name__ = function.__qualname__ = name
    function.__doc__ = f"{what}\n\n    >>> run({example}).values\n    {wanted}\n    "
    return function


class Operation:
    """A row of the table: numpy's function, Python's operator (`add` for __add__) if it has one, the first
    version that has the operation, what it returns, and an example: the operands and the result. The
    attribute names its method: the name in a request, with an underscore if it is a word of Python."""

    def __init__(self, numpy: str, operator: str, version: int, what: str, *example: Any) -> None:
        self.numpy, self.operator, self.version, self.what = numpy, operator, version, f"Returns {what}."
        *self.operands, self.wanted = example
        # The function calls the method, or an operator on bits, which is another one for truth values.
        self.name, self.method, self.called = "", "", f"__{operator}__"

    def __set_name__(self, owner: Any, method: str) -> None:
        """Puts the row into the table, and its method in its place."""
        self.name, self.method = method.rstrip("_"), method
        if not self.operator or not self.name.startswith(("bit_", "shift_")):
            self.called = method
        OPERATIONS[self.name] = self
        first, *other = map(str, self.operands)
        example = f"tensor({first}).{method}({''.join(other)})"
        setattr(owner, method, told(calling(self.name, len(other)), method, self.what, example, self.wanted))


# The table, by the names in a request.
OPERATIONS: Dict[str, Operation] = {}
row: Callable[..., Any] = Operation


def calling(operation: str, others: int) -> Callable[..., Expr]:
    """Returns an operation on `self` and this many others as a method."""
    if others == 0:
        return lambda self: expressions.of_each(operation, self)
    return lambda self, other: expressions.elementwise(operation, self, other)


class Valuewise:
    """The rows, which become methods. Dims of two operands are broadcast as in numpy."""

    __slots__ = ()

    neg: One = row("negative", "neg", 1, "the negated values: -x", [1, -2], [-1, 2])
    abs: One = row(
        "absolute", "abs", 1,
        "the absolute values: abs(x). For the least i64 this is the least i64, as in numpy", [1, -2], [1, 2],
    )
    square: One = row("square", "", 1, "each value times itself: x**2", [1, -2], [1, 4])
    not_: One = row("logical_not", "", 1, "1 where a value is 0, and 0 elsewhere", [0, 5], [1, 0])
    bit_not: One = row(
        "invert", "invert", 3,
        "the values with each bit inverted: ~x, which is -x - 1. For truth values, ~x and numpy's invert(x) "
        "are the opposite ones", [0, 5], [-1, -6],
    )
    bit_count: One = row(
        "bitwise_count", "", 3,
        "how many bits of each absolute value are 1. For the least i64 this is 1, as in numpy",
        [7, -8, -(2**63)], [3, 1, 1],
    )
    add: Two = row("add", "add", 1, "the sums: x + y", [1, 2], 10, [11, 12])
    sub: Two = row("subtract", "sub", 1, "the differences: x - y", [1, 2], 1, [0, 1])
    mul: Two = row("multiply", "mul", 1, "the products: x * y", [1, 2], [3, 4], [3, 8])
    cwise_max: Two = row(
        "maximum", "", 1,
        "the greater of two values: numpy's maximum(x, y). The method x.maximum() is the greatest of all",
        [1, 5], [3, 4], [3, 5],
    )
    cwise_min: Two = row(
        "minimum", "", 1,
        "the lesser of two values: numpy's minimum(x, y). The method x.minimum() is the least of all",
        [1, 5], 3, [1, 3],
    )
    lt: Two = row("less", "lt", 1, "1 where x < y, else 0", [1, 2], 2, [1, 0])
    le: Two = row("less_equal", "le", 1, "1 where x <= y, else 0", [1, 2, 3], 2, [1, 1, 0])
    eq: Two = row("equal", "eq", 1, "1 where x == y, else 0", [1, 2], [1, 3], [1, 0])
    ne: Two = row("not_equal", "ne", 1, "1 where x != y, else 0", [1, 2], [1, 3], [0, 1])
    gt: Two = row("greater", "gt", 1, "1 where x > y, else 0", [1, 2], 1, [0, 1])
    ge: Two = row("greater_equal", "ge", 1, "1 where x >= y, else 0", [1, 2, 3], 2, [0, 1, 1])
    and_: Two = row(
        "logical_and", "", 1, "1 where neither value is 0, else 0: numpy's logical_and", [0, 5], 7, [0, 1]
    )
    or_: Two = row(
        "logical_or", "", 1, "1 where some value isn't 0, else 0: numpy's logical_or", [0, 5], 0, [0, 1]
    )
    floor_divide: Two = row(
        "floor_divide", "floordiv", 3, "the quotients, rounded down: x // y. x // 0 is 0, as in numpy",
        [7, -7, 7], [2, 2, 0], [3, -4, 0],
    )
    remainder: Two = row(
        "remainder", "mod", 3, "the remainders, with the sign of y: x % y. x % 0 is 0, as in numpy",
        [7, -7, 7], [2, 2, 0], [1, 1, 0],
    )
    bit_and: Two = row("bitwise_and", "and", 3, "the bits that both have: x & y", [12, -1], 10, [8, 10])
    bit_or: Two = row("bitwise_or", "or", 3, "the bits that either has: x | y", [12, -1], 10, [14, -1])
    bit_xor: Two = row("bitwise_xor", "xor", 3, "the bits that only one has: x ^ y", [12, -1], 10, [6, -11])
    shift_left: Two = row(
        "left_shift", "lshift", 3, "x << y: x * 2**y. It is 0 for y below 0 or above 63, as in numpy",
        [1, 1, 1], [3, 63, 64], [8, -(2**63), 0],
    )
    shift_right: Two = row(
        "right_shift", "rshift", 3,
        "x >> y: x // 2**y. For y below 0 or above 63 it is 0 or, for negative x, -1, as in numpy",
        [9, -9, -9], [1, 1, 64], [4, -5, -1],
    )
