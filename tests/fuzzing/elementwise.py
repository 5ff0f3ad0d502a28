"""The operations on values, by name: how many operands they have, what they give before it wraps, and
numpy's function, as docs/REQUEST.md and docs/FRAMES.md have them.

A new one is a row here, of ON_INTEGERS for version 3. Requests are drawn and spoilt with it, and the
tests of the client compare it with numpy.
"""

import operator

POINTWISE = {
    "neg": (1, operator.neg, "negative"),
    "abs": (1, abs, "absolute"),
    "square": (1, lambda x: x * x, "square"),
    "not": (1, operator.not_, "logical_not"),
    "add": (2, operator.add, "add"),
    "sub": (2, operator.sub, "subtract"),
    "mul": (2, operator.mul, "multiply"),
    "cwise_max": (2, max, "maximum"),
    "cwise_min": (2, min, "minimum"),
    "lt": (2, operator.lt, "less"),
    "le": (2, operator.le, "less_equal"),
    "eq": (2, operator.eq, "equal"),
    "ne": (2, operator.ne, "not_equal"),
    "gt": (2, operator.gt, "greater"),
    "ge": (2, operator.ge, "greater_equal"),
    "and": (2, lambda x, y: x != 0 and y != 0, "logical_and"),
    "or": (2, lambda x, y: x != 0 or y != 0, "logical_or"),
    "select": (3, lambda c, x, y: x if c != 0 else y, "where"),
}
ON_INTEGERS = {
    "floor_divide": (2, lambda x, y: x // y if y else 0, "floor_divide"),
    "remainder": (2, lambda x, y: x % y if y else 0, "remainder"),
    "bit_and": (2, operator.and_, "bitwise_and"),
    "bit_or": (2, operator.or_, "bitwise_or"),
    "bit_xor": (2, operator.xor, "bitwise_xor"),
    "bit_not": (1, operator.invert, "invert"),
    "bit_count": (1, lambda x: bin(abs(x)).count("1"), "bitwise_count"),
    "shift_left": (2, lambda x, y: x << y if 0 <= y < 64 else 0, "left_shift"),
    "shift_right": (2, lambda x, y: x >> y if 0 <= y < 64 else -(x < 0), "right_shift"),
}


def named(operations, count):
    """The names of those that have so many operands."""
    return [name for name, (operands, *_) in operations.items() if operands == count]
