"""The part that x[..] names if its index has lists of offsets or of truth values."""

from __future__ import annotations

from typing import Any, Iterator, Tuple

from .. import rules
from ..expressions import Expr
from ..faults import OutOfRange
from ..indexing import Slice, is_list, parts_of
from ..tensors import an_expr
from .chosen import at_offsets, offsets, take
from .counted import nonzero


def at_lists(expr: Expr, index: Tuple[Any, ...]) -> Expr:
    """Returns the part that an index with lists in it names. As in numpy, numbers beside lists count as
    lists, all are broadcast to equal dims, and each of their places is an offset along their axes. Their
    axes come first if the lists aren't beside one another."""
    parts = parts_of(tuple(offsets_for(expr, index)), expr.ndim)
    chosen = [at for at, it in enumerate(parts) if not (it is None or isinstance(it, Slice))]
    lists = [an_expr(parts[at]) for at in chosen]
    # Slices and new axes come first. Each index is then an axis.
    found = expr[tuple(Slice(None) if at in chosen else it for at, it in enumerate(parts))]
    if len(chosen) == 1:
        return take(found, lists[0], chosen[0])
    are_beside = chosen[-1] - chosen[0] == len(chosen) - 1
    lengths = [found.shape[at] for at in chosen]
    at = offsets(lists[0], lengths[0])
    for named, length in zip(lists[1:], lengths[1:]):
        at = at.mul(length).add(offsets(named, length))
    to = chosen[0] if are_beside else 0
    others = [it for it in range(found.ndim) if it not in chosen]
    # In column-major order, axes in reverse order become one axis in C order.
    order = others[:to] + chosen[::-1] + others[to:]
    turned = found.shuffle(order)
    dims = [*turned.shape[:to], rules.product(lengths), *turned.shape[to + len(chosen) :]]
    return at_offsets(turned.in_dims(dims), at, to)


def offsets_for(expr: Expr, index: Tuple[Any, ...]) -> Iterator[Any]:
    """Yields an index in which lists of offsets replace lists of truth values. Raises OutOfRange."""
    axis = 0
    for at, it in enumerate(index):
        if is_list(it):
            it = an_expr(it)
            if it.truth:
                dims = expr.shape[axis : axis + it.ndim]
                if it.shape != dims or not dims:
                    raise OutOfRange(f"truth values of dims {it.shape} for dims {dims}")
                yield from nonzero(it)
                axis += it.ndim
                continue
        yield it
        if it is Ellipsis:
            rest = [other for other in index[at + 1 :] if other is not None]
            axis = expr.ndim - sum(axes_of(other) for other in rest)
        elif it is not None:
            axis += 1


def axes_of(index: Any) -> int:
    """Returns how many axes an index names."""
    named = an_expr(index) if is_list(index) else None
    return named.ndim if named is not None and named.truth else 1

