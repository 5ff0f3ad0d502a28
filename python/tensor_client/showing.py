"""Tensors as text: as numpy shows arrays, or as lists if numpy isn't installed."""

from __future__ import annotations

import reprlib
from typing import TYPE_CHECKING

from .values import numpy

if TYPE_CHECKING:
    from .tensors import Tensor

# If a tensor has more than MOST values, EDGE items of each list are shown.
EDGE, MOST = 6, 1000


def shown(x: Tensor) -> str:
    """Returns a tensor as a call that makes it, if no values are left out.

    >>> numpy.array(1), tensor([[1, 20], [3, 4]])
    (array(1), tensor([[ 1, 20],
            [ 3,  4]]))
    """
    if 0 in x.shape:
        return f"tensor([], dims={x.shape})"
    if numpy is None:
        return f"tensor({shown_as_list(x)})"
    rows = numpy.array2string(x.array(), separator=", ", prefix="tensor(", suffix=")")
    return f"tensor({rows})"


def shown_as_list(x: Tensor) -> str:
    """Returns a tensor as nested lists, without the ends of long lists.

    >>> shown_as_list(tensor([[1, 20], [3, 4]]))
    '[[1, 20], [3, 4]]'
    """
    lists = reprlib.Repr()
    lists.maxlist = EDGE if x.size > MOST else MOST
    return lists.repr(x.nested())
