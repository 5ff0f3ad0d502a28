"""Sums and products of all values up to each place of an axis: numpy's cumsum and cumprod, and what
replaces them in texts."""

from __future__ import annotations

from typing import Any, NamedTuple

from .. import rules
from ..expressions import Expr
from ..methods import written_nowhere
from ..tensors import an_expr, where
from .common import as_dtype, flat, moved, part
from .matrices import tri

__all__ = ["cumprod", "cumsum", "cumulative_prod", "cumulative_sum"]


def cumsum(a: Any, axis: Any = None, dtype: Any = None, out: None = None) -> Expr:
    """Returns the sum of each value and all before it, along an axis or in all values in C order.

    >>> run(cumsum([1, 2, 3])).values
    [1, 3, 6]
    """
    return along("cumsum", a, axis, dtype, out)


def cumprod(a: Any, axis: Any = None, dtype: Any = None, out: None = None) -> Expr:
    """Returns the product of each value and all before it, along an axis or in all values in C order.

    >>> run(cumprod([1, 2, 3])).values
    [1, 2, 6]
    """
    return along("cumprod", a, axis, dtype, out)


def along(operation: str, a: Any, axis: Any, dtype: Any, out: None) -> Expr:
    written_nowhere(out)
    expr, at = flat(a, axis)
    return as_dtype(expr.along(operation, at), dtype)


def cumulative_sum(x: Any, axis: Any = None, dtype: Any = None) -> Expr:
    """Returns cumsum. Raises ValueError if there are several axes and none is named.

    >>> run(cumulative_sum([1, 2, 3])).values
    [1, 3, 6]
    """
    return cumsum(x, axis_asked(x, axis), dtype)


def cumulative_prod(x: Any, axis: Any = None, dtype: Any = None) -> Expr:
    """Returns cumprod. Raises ValueError if there are several axes and none is named.

    >>> run(cumulative_prod([1, 2, 3])).values
    [1, 2, 6]
    """
    return cumprod(x, axis_asked(x, axis), dtype)


def axis_asked(x: Any, axis: Any) -> Any:
    if axis is None and an_expr(x).ndim != 1:
        raise ValueError(f"name an axis of dims {an_expr(x).shape}")
    return axis


# For texts, which have no such operations.

# The most pairs of places in one step. More go in rows, of SUM_ROW places for sums, where a value takes
# a product for each place of a row, and of OTHER_ROW places otherwise, where it is repeated for each.
FEW_PAIRS, SUM_ROW, OTHER_ROW = 1 << 17, 32, 8


class Scan(NamedTuple):
    """How values are combined: the operation on two, the reduction, and its value for none."""

    two: str
    all: str
    none: int

    @property
    def is_repeated(self) -> bool:
        """Whether each line of values is repeated over all pairs of two places. Sums are a product with
        a triangle of ones instead."""
        return self.all != "sum"

    def upto(self, x: Expr) -> Expr:
        """Returns the combination of all values up to each place of the first axis."""
        length = x.shape[0]
        if not self.is_repeated:
            return tri(length).contract(x, [(1, 0)])
        chosen = tri(length).in_dims([length, length] + [1] * (x.ndim - 1))
        found: Expr = getattr(where(chosen, x.in_dims([1, *x.shape]), self.none), self.all)(axis=1)
        return found


SUMS, PRODUCTS = Scan("add", "sum", 0), Scan("mul", "prod", 1)


def scanned(scan: Scan, a: Any, axis: Any) -> Expr:
    """Returns the combination of all values up to each place of an axis.

    >>> run(scanned(SUMS, [3, 1, 4, 1, 5], 0)).values
    [3, 4, 8, 9, 14]
    """
    expr, at = flat(a, axis)
    return moved(over_first(scan, moved(expr, at, 0)), 0, at)


def over_first(scan: Scan, x: Expr) -> Expr:
    """Combines along the first axis: over all pairs of its places, or in rows if these are many."""
    length, lines = x.shape[0], rules.product(x.shape[1:]) or 1
    is_much = length * length * lines > FEW_PAIRS
    row = row_length(length, lines, scan.is_repeated) if is_much else 0
    return in_rows(scan, x, row) if row else scan.upto(x)


def in_rows(scan: Scan, x: Expr, row: int) -> Expr:
    """Combines along the first axis in steps: within rows, and over the combinations of whole rows."""
    length, *rest = x.shape
    rows, others = -(-length // row), [(0, 0)] * len(rest)
    filled = x.pad([(0, rows * row - length), *others], constant_values=scan.none)
    inner = scan.upto(filled.in_dims([row, rows, *rest]))
    totals = over_first(scan, part(inner, 0, row - 1, row).in_dims([rows, *rest]))
    # For each row, the combination of all rows before it.
    before = part(totals, 0, 0, rows - 1).pad([(1, 0), *others], constant_values=scan.none)
    found = getattr(inner, scan.two)(before.in_dims([1, rows, *rest]))
    return part(found.in_dims([rows * row, *rest]), 0, 0, length)


def row_length(length: int, lines: int, is_repeated: bool) -> int:
    """Returns the greatest length of a row, or 0 if no length fits. If lines are repeated over the pairs
    of two places of a row, there are few pairs, or as many as a tensor may have. For sums, there are no
    more products than a contraction of a text may have.

    >>> row_length(5_000, 1, False), row_length(9_000, 1, True), row_length(5_000, 99_999, True)
    (32, 8, 0)
    """
    places = max(length * lines, 1)
    if is_repeated:
        few = rules.FIRST_ELEMENTS // places
        row, most = OTHER_ROW, few if few > 1 else rules.MOST_ELEMENTS // places
    else:
        row, most = SUM_ROW, rules.FIRST_PRODUCTS // places
    while row > most or row >= length > 0:
        row //= 2
    return row if row > 1 else 0
