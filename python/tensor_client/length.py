"""Limits on the length of requests, and messages about longer ones."""

from __future__ import annotations

from typing import Optional

from .expressions import MANY, Expr
from .faults import TooLarge

# The most nodes of an expression in versions 1 and 2, and in version 3; the most bytes of a text or of a
# frame's header; and the most values of a frame in versions 1 and 2, and in version 3.
FIRST_NODES, MOST_NODES = 1_000, 10_000
MAX_TEXT = FIRST_VALUES = 16_777_216
MAX_VALUES = 4_294_967_296


class Unfit(TooLarge):
    """An expression has more nodes, or more operations inside one another, than a request may have.
    `expr` is the expression as the request would ask for it."""

    def __init__(self, expr: Expr, most: int) -> None:
        super().__init__(too_many_nodes(expr, most))
        self.expr, self.most = expr, most


def most_nodes(version: Optional[int]) -> int:
    """Returns the most nodes of a frame, in this version or in any.

    >>> most_nodes(2), most_nodes(None)
    (1000, 10000)
    """
    return FIRST_NODES if version in (1, 2) else MOST_NODES


def number(count: int) -> str:
    return f"{count:,}" if count <= MANY else "too many to count"


def too_many_nodes(expr: Expr, most: int) -> str:
    """Returns the message for an expression that is too large for one request.

    >>> print(too_many_nodes(-tensor(1), 1))
    nodes: 2, operations inside one another: 2, of at most 1 and some 120 in one request: `run` \
evaluates such an expression in parts; or run a part, and use its tensor
    """
    return (
        f"nodes: {number(expr.nodes)}, operations inside one another: {number(expr.depth)}, of at "
        f"most {most:,} and some 120 in one request: `run` evaluates such an expression in parts; or "
        "run a part, and use its tensor"
    )


def too_many_values(count: int, most: int) -> str:
    """Returns the message for inputs with too many values."""
    return f"{number(count)} values in all, of at most {most:,}: run a part at a time"


def too_long_text(length: int, values: int) -> str:
    """Returns the message for a text that is too long, with this number of values in it."""
    return (
        f"a text of {number(length)} bytes, of at most {MAX_TEXT:,}, with {number(values)} "
        "values in it: the library and frames take values as they lie; or run a part at a time"
    )
