"""numpy's pad, which adds values around an expression."""

from __future__ import annotations

from typing import Any, List, Sequence, Tuple

from .. import rules
from ..expressions import Expr
from ..tensors import Tensor, an_expr, full
from ..values import NumpysOwn, is_several, listed, value_of, whole
from .chosen import MOST_IN_PARTS, at_offsets, in_blocks, runs_of
from .common import beside_axis

__all__ = ["pad"]

Pair = Tuple[int, int]
MODES = ("constant", "edge", "wrap", "reflect", "symmetric", "empty")


def pad(x: Any, pad_width: Any, mode: str = "constant", constant_values: Any = 0) -> Expr:
    """Adds values around x, as numpy's pad. The widths are one number, a pair (before, after) for all
    axes, or a pair for each. The values are `constant_values`, the nearest values ("edge"), values from
    the other end ("wrap"), or mirrored values, without the edge ("reflect") or with it ("symmetric").
    Raises ValueError if an empty axis would have to be continued.

    >>> run(pad([1, 2, 3], (1, 2))).values, run(pad([1, 2, 3], 2, mode="reflect")).values
    ([0, 1, 2, 3, 0, 0], [3, 2, 1, 2, 3, 2, 1])
    """
    expr = an_expr(x)
    widths = pairs_of(pad_width, expr.ndim, whole)
    if mode not in MODES:
        raise NumpysOwn(f"a mode of pad is one of {MODES}, and not {mode!r}")
    expr.zeros_around(widths)  # Raises the fault of illegal widths.
    if mode in ("constant", "empty"):
        return constants_around(expr, widths, pairs_of(constant_values, expr.ndim, value_of))
    runs = []
    for axis, (length, (before, behind)) in enumerate(zip(expr.shape, widths)):
        if (before or behind) and not length:
            raise ValueError(f"axis {axis} of dims {expr.shape} is empty and can't be continued")
        ends = range(-before, 0), range(length, length + behind)
        first, last = (runs_of(gone_on(length, it, mode), len(it)) or [] for it in ends)
        found = [*first, (0, 1, length), *last]
        runs.append([it for it in found if it[2]] or found[:1])
    if rules.product([*map(len, runs)]) * expr.nodes <= MOST_IN_PARTS:
        return in_blocks(expr, runs)
    for axis, it in enumerate(runs):
        at = [first + step * at for first, step, count in it for at in range(count)]
        expr = at_offsets(expr, Tensor(at, [len(at)]), axis)
    return expr


def pairs_of(numbers: Any, rank: int, kind: Any) -> List[Pair]:
    """Returns a pair for each axis, given one number, one pair, a list of one number, or all pairs."""
    if not is_several(numbers):
        numbers = (numbers, numbers)
    found = list(numbers)
    if len(found) in (1, 2) and not any(map(is_several, found)):
        found = [found] * rank
    pairs = [listed([it], kind) if is_several(it) else [kind(it)] for it in found]
    pairs = [it * 2 if len(it) == 1 else it for it in pairs]
    if any(len(it) != 2 for it in pairs):
        raise ValueError(f"a pair (before, after) is wanted for each axis: {numbers!r:.60}")
    if len(pairs) == 1:
        pairs = pairs * rank
    return [(it[0], it[1]) for it in pairs]


def constants_around(expr: Expr, widths: Sequence[Pair], values: Sequence[Pair]) -> Expr:
    """Adds numbers around an expression: one everywhere, or one for each end of each axis."""
    numbers = {it for pair in values for it in pair}
    if len(numbers) <= 1:
        value = numbers.pop() if numbers else 0
        if not value:
            return expr.zeros_around(widths)
        if expr.truth:
            return expr.not_().zeros_around(widths).not_()
        # The value is subtracted first, and added again after the zeros.
        return expr.sub(value).zeros_around(widths).add(value)
    for axis, (counts, ends) in enumerate(zip(widths, values)):
        dims = [beside_axis(expr.shape, axis, [it]) for it in counts]
        expr = full(dims[0], ends[0]).concat(expr, axis).concat(full(dims[1], ends[1]), axis)
    return expr


def gone_on(length: int, places: range, mode: str) -> List[int]:
    """Returns which offsets of an axis are at these places, if the axis is continued at both ends.

    >>> gone_on(3, range(-2, 4), "reflect"), gone_on(3, range(-2, 4), "wrap")
    ([2, 1, 0, 1, 2, 1], [1, 2, 0, 1, 2, 0])
    """
    if mode == "edge" or length == 1:
        return [min(max(it, 0), length - 1) for it in places]
    if mode == "wrap":
        return [it % length for it in places]
    # Forwards and backwards: each edge comes once, or twice.
    last = 2 * length - (1 if mode == "symmetric" else 2)
    found = [it % (last + (mode == "symmetric")) for it in places]
    return [min(it, last - it) for it in found]
