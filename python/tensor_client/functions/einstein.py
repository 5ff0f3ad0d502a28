"""numpy's einsum: sums of products, by letters that name axes."""

from __future__ import annotations

from typing import Any, List, Set, Tuple

from ..expressions import Expr
from ..faults import ShapeMismatch
from ..tensors import an_expr
from ..values import NumpysOwn
from .matrices import diagonal

__all__ = ["einsum"]

# Digits name the axes that `...` stands for. The last digit names the last axis.
DIGITS = "01234567"
LETTERS = frozenset("abcdefghijklmnopqrstuvwxyzABCDEFGHIJKLMNOPQRSTUVWXYZ" + DIGITS)
# An operand, and a letter for each of its axes.
Named = Tuple[str, Expr]


def einsum(labels: str, *operands: Any) -> Expr:
    """Returns numpy's einsum: the sums of products over all axes whose letter isn't in the result. Two
    operands are contracted if no letter that they share is needed later. Otherwise all their products
    are computed first, at most 268,435,456. Raises ValueError for wrong letters, and ShapeMismatch.

    >>> run(einsum("ij,kj->ki", [[1, 2], [3, 4]], [[5, 6]])).nested()
    [[17, 39]]
    """
    if not isinstance(labels, str):
        raise NumpysOwn("einsum takes its letters first, as in einsum('ij,jk->ik', x, y)")
    told, exprs = labels.replace(" ", ""), [an_expr(it) for it in operands]
    named, arrow, result = told.partition("->")
    inputs = named.split(",")
    if len(inputs) != len(exprs) or not exprs:
        raise ValueError(f"einsum of {labels!r} with {len(exprs)} operands")
    inputs = [with_digits(*it) for it in zip(inputs, exprs)]
    letters = "".join(inputs)
    digits = "".join(sorted({*letters} & {*DIGITS}))
    if not arrow:
        result = "..." + "".join(sorted(it for it in {*letters} - {*digits} if letters.count(it) == 1))
    result = result.replace("...", digits)
    if len({*result}) != len(result) or not {*digits} <= {*result} <= {*letters}:
        raise ValueError(f"the result of {labels!r} takes the operands' letters, each once, and `...`")
    left = [on_diagonals(*it, labels) for it in zip(inputs, exprs)]
    found = summed(left.pop(0), {*result}.union(*(it[0] for it in left)))
    while left:
        other = left.pop(0)
        wanted = {*result}.union(*(it[0] for it in left))
        found = multiplied(found, summed(other, wanted | {*found[0]}), wanted)
    return in_letters(found, result)


def with_digits(words: str, expr: Expr) -> str:
    """Returns the letters of an operand, with digits in place of `...`.

    >>> with_digits("...j", tensor([[[5]]]))
    '67j'
    """
    count = expr.ndim - len(words.replace("...", "", 1))
    return words.replace("...", DIGITS[len(DIGITS) - count :]) if count >= 0 else words


def on_diagonals(words: str, expr: Expr, labels: str) -> Named:
    """Returns an operand, along the diagonal of axes with one letter."""
    if not {*words} <= LETTERS:
        raise ValueError(f"only letters name axes: {labels!r}")
    if len(words) != expr.ndim:
        raise ShapeMismatch(f"{words!r} for dims {expr.shape}")
    for it in words:
        while words.count(it) > 1:
            one, other = words.index(it), words.rindex(it)
            if expr.shape[one] != expr.shape[other]:
                raise ShapeMismatch(f"{words!r} for dims {expr.shape}")
            expr = diagonal(expr, 0, one, other)
            words = words[:one] + words[one + 1 : other] + words[other + 1 :] + it
    return words, expr


def summed(named: Named, wanted: Set[str]) -> Named:
    """Returns an operand, summed over the axes whose letters aren't wanted."""
    words, expr = named
    gone = [at for at, it in enumerate(words) if it not in wanted]
    left = "".join(it for it in words if it in wanted)
    return left, expr.reduced("any" if expr.truth else "sum", gone) if gone else expr


def multiplied(left: Named, right: Named, wanted: Set[str]) -> Named:
    """Returns the sums of the products of two operands over the axes whose letters aren't wanted."""
    both = [it for it in left[0] if it in right[0]]
    if not {*both} & wanted:
        pairs = [(left[0].index(it), right[0].index(it)) for it in both]
        return summed(
            ("".join(it for it in left[0] + right[0] if it not in both),
             left[1].contract(right[1], pairs)),
            wanted,
        )
    words = left[0] + "".join(it for it in right[0] if it not in both)
    product = over_letters(left, words).mul(over_letters(right, words))
    return summed((words, product), wanted)


def over_letters(named: Named, words: str) -> Expr:
    """Returns an operand with an axis for each of these letters. An axis that it lacks has length 1."""
    expr = in_letters(named, "".join(it for it in words if it in named[0]))
    sizes = iter(expr.shape)
    return expr.in_dims([next(sizes) if it in named[0] else 1 for it in words])


def in_letters(named: Named, words: str) -> Expr:
    """Returns an operand with its axes in the order of these letters, which are its own."""
    order: List[int] = [named[0].index(it) for it in words]
    return named[1] if order == sorted(order) else named[1].shuffle(order)
