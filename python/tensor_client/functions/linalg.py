"""The functions of numpy.linalg for whole numbers, by its names."""

from __future__ import annotations

from typing import TYPE_CHECKING, Any

from ..expressions import Expr
from ..values import numpy
from . import matrices
from .delegated import function_of
from .products import cross, matmul, matrix_power, multi_dot, outer, tensordot, vecdot
from .rearranged import matrix_transpose

__all__ = [
    "cross", "diagonal", "matmul", "matrix_power", "matrix_transpose", "multi_dot", "outer",
    "tensordot", "trace", "vecdot",
]


def diagonal(x: Any, *, offset: int = 0) -> Expr:
    """Returns the values along a diagonal of the last two axes.

    >>> run(diagonal([[1, 2], [3, 4]])).values
    [1, 4]
    """
    return matrices.diagonal(x, offset, -2, -1)


def trace(x: Any, *, offset: int = 0, dtype: Any = None) -> Expr:
    """Returns the sum along a diagonal of the last two axes.

    >>> run(trace([[1, 2], [3, 4]])).item()
    5
    """
    return matrices.trace(x, offset, -2, -1, dtype)


if not TYPE_CHECKING:

    def __getattr__(name: str) -> Any:
        """Returns what numpy.linalg has and this module lacks."""
        return function_of(getattr(numpy, "linalg", None), name, "linalg", __all__)
