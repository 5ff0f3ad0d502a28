"""Long chains of one operation, such as sums or products, grouped in pairs. Pairs nest less, and give
the same values modulo 2**64."""

from __future__ import annotations

from typing import Dict, List, Tuple

from ..expressions import Expr

SUMS = frozenset(("add", "sub"))
# Operations whose chains can be grouped in any way, and the operations in such a chain. The values
# stay the same modulo 2**64.
GROUPED = {it: frozenset((it,)) for it in "mul cwise_max cwise_min and or bit_and bit_or bit_xor".split()}
GROUPED.update(dict.fromkeys(SUMS, SUMS))


def links(expr: Expr, bound: Dict[int, str]) -> Tuple[List[Expr], List[Expr]]:
    """Returns the operands of a chain of one operation, in order: x and y of (x + y) - z. Apart from
    them it returns the operands that are subtracted: z. A bound part ends the chain."""
    found: Tuple[List[Expr], List[Expr]] = [], []
    chained, left = GROUPED[expr.operation], [(expr, 0)]
    while left:
        it, taken = left.pop()
        if it.operation in chained and len(it.operands) == 2 and id(it) not in bound:
            x, y = it.operands
            left += (y, taken ^ (it.operation == "sub")), (x, taken)
        else:
            found[taken].append(it)
    return found


def in_pairs(operation: str, level: List[Expr]) -> Expr:
    """Combines operands by one operation, as a tree of pairs, of logarithmic depth."""
    while len(level) > 1:
        zipped = zip(level[::2], level[1::2])
        pairs = [Expr(operation, it, dims=it[0].dims) for it in zipped]
        level = pairs + level[len(level) // 2 * 2 :]
    return level[0]


def balanced(expr: Expr, bound: Dict[int, str]) -> Expr:
    """Returns a chain of one operation as trees of pairs. In sums and differences, the operands that are
    subtracted are summed, and subtracted once."""
    operation = "add" if expr.operation in SUMS else expr.operation
    kept, taken = links(expr, bound)
    found = in_pairs(operation, kept)
    return Expr("sub", [found, in_pairs(operation, taken)], dims=expr.dims) if taken else found
