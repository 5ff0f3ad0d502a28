"""Into how many parts an answer is cut, which the threads of the library's pool compute."""

from __future__ import annotations

from typing import Callable

from .expressions import Expr
from .rewriting.mirrored import REDUCTIONS
from .rules import product

# The fewest values of a part if the expression has up to FOLD nodes, and of an answer in two such parts. A
# part of an expression with more nodes may have fewer values. An operation with a number has three nodes.
LEAST, FOLD = 1 << 15, 12
FEWEST = 2 * LEAST

# Operations that combine many values of the operand into one.
COMBINED = frozenset(REDUCTIONS).union(("argmax", "argmin"))


def parts_worth(expr: Expr, size: int, workers: int, shared: Callable[[], int]) -> int:
    """Returns into how many parts to cut an answer of `size` values, at most one for each worker. Each
    part has at least as much work of its own as it repeats of the others. `shared` returns how much it
    repeats, and is called only if there may be several parts.

    >>> parts_worth(tensor([1, 2]) + 1, 2, 4, lambda: 0)
    1
    >>> parts_worth(tensor([0] * 65_536).cumsum(), 65_536, 4, lambda: 0)
    2
    >>> x = tensor([0] * 65_536)
    >>> parts_worth((x + 1) * (x + 2) * (x + 3) * (x + 4) * (x + 5), 65_536, 4, lambda: 0)
    4
    """
    values = size * combined(expr)
    count = max(min(workers, values * -(-expr.nodes // FOLD) // LEAST, size), 1)
    if count > 1:
        count = max(min(count, values * products(expr) // max(shared(), 1)), 1)
    return count


def combined(expr: Expr) -> int:
    """Returns how many values one value of a reduction, an argmax or an argmin combines; 1 for others.

    >>> x = tensor([[1, 2, 3], [4, 5, 6]])
    >>> combined(x.sum(axis=1)), combined(x.argmax(axis=0)), combined(x.cumsum(axis=0))
    (3, 2, 1)
    """
    if expr.operation not in COMBINED or expr.dims is None:
        return 1
    return max(product(expr.operands[0].dims or ()) // max(product(expr.dims), 1), 1)


def products(expr: Expr) -> int:
    """Returns how many products one value of a contraction or a convolution sums; 1 for others.

    >>> products(tensor([[1, 2, 3]]) @ tensor([1, 2, 3])), products(tensor([1, 2]) * 3)
    (3, 1)
    """
    if expr.dims is None or expr.operation not in ("contract", "convolve"):
        return 1
    first, second = (it.dims or () for it in expr.operands)
    if expr.operation == "convolve":
        return product(second)
    return product([first[it] for it, _ in expr.arguments[0]])
