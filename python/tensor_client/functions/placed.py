"""Other values at some places: x.at[i].set(v) and x.at[i].add(v). They return a new expression."""

from __future__ import annotations

from typing import Any, Tuple

from ..expressions import Expr
from ..tensors import Tensor, tensor, where
from ..values import numpy
from .counted import added
from .delegated import values_of
from .rearranged import broadcast_to


class Places:
    """The places of an expression that an index names, which are to get other values."""

    def __init__(self, expr: Expr, index: Tuple[Any, ...] = ()) -> None:
        self.expr, self.index = expr, index

    def __getitem__(self, index: Any) -> Places:
        return Places(self.expr, index if isinstance(index, tuple) else (index,))

    def set(self, values: Any) -> Expr:
        """Returns the expression with these values at the places. The last of several at a place counts.

        >>> run(tensor([1, 2, 3]).at[1:].set([7, 8])).values
        [1, 7, 8]
        """
        places = self.places()
        given, which = broadcast_to(values, places.shape).ravel(), self.which(places)
        return where(which.lt(0), self.expr, given.taken(which, 0))

    def add(self, values: Any) -> Expr:
        """Returns the expression with these values added at the places. If a place is named several
        times, all its values are added, and they run for that.

        >>> run(tensor([1, 2, 3]).at[[0, 0, 2]].add(10)).values
        [21, 2, 13]
        """
        places = self.places()
        given, numbers = broadcast_to(values, places.shape).ravel(), values_of(places)
        if len({*numbers}) == len(numbers):
            return self.expr.add(given.taken(self.which(places), 0))
        total = added(numbers, values_of(given), self.expr.size)
        return self.expr.add(total.reshape(self.expr.shape))

    def places(self) -> Tensor:
        """Returns the named places, counted in C order. An expression in the index runs."""
        shape = self.expr.shape
        index = tuple([it._answered() if isinstance(it, Expr) else it for it in self.index])
        found: Tensor = tensor(range(self.expr.size)).reshape(shape)[index]._answered()
        return found

    def which(self, places: Tensor) -> Expr:
        """Returns which of the values goes to each place of the expression, and -1 for none."""
        if numpy is not None:
            array = numpy.full(self.expr.size, -1)
            array[places.array().ravel()] = numpy.arange(places.size)
            return tensor(array.reshape(self.expr.shape))
        found = [-1] * self.expr.size
        for at, place in enumerate(values_of(places)):
            found[place] = at
        return tensor(found).reshape(self.expr.shape)
