"""Expressions, by the operations of the request. tensors.py has tensors, which are inputs and answers.
The examples take their names from the package."""

from __future__ import annotations

from typing import Any, Optional, Sequence

from . import rules
from .methods import NumpyMethods
from .rules import Dims, alike
from .values import WRAPPING, as_bits, flag, is_bool, listed, value_of, whole

MANY = 1_000_000_000
# Operations that give truth values always, or of truth values alone. `or` sums two truth values.
COMPARING = frozenset("not lt le eq ne gt ge and or".split())
OF_TRUTHS = frozenset("abs add mul cwise_max cwise_min bit_and bit_or bit_xor".split())
SUMS = {"add": "or"}


class Expr(NumpyMethods):
    """An expression: an operation on other expressions, which `run` evaluates. Each operation of the
    request is a method with its own name, and with numpy's name if numpy has it.

    `dims` are the dims of the result, or None if they aren't known here. `truth` says that all values
    are truth values, as the values of comparisons are. `leaf` is an input with these dims, if one is
    known. `ran` counts how often the expression ran for its values without a call of `run`. An operand
    that an operation can't take raises a Fault at once.

    >>> tensor([[1, 2, 3], [4, 5, 6]]) * 2
    <mul, dims (2, 3), 4 nodes>
    """

    __slots__ = "operation", "operands", "arguments", "dims", "truth", "depth", "nodes", "leaf", "ran"
    __hash__ = object.__hash__

    def __init__(
        self, operation: str, operands: Sequence[Expr], arguments: Sequence[Any] = (),
        dims: Optional[Dims] = None, truth: bool = False,
    ) -> None:
        self.operation = operation
        self.operands: Sequence[Expr] = list(operands)
        self.arguments: Sequence[Any] = list(arguments)
        self.dims, self.truth = dims, truth
        depth, nodes = 0, 1
        for it in self.operands:
            if it.depth > depth:
                depth = it.depth
            nodes += it.nodes
        self.depth: int = 1 + depth
        self.nodes: int = nodes
        self.leaf: Optional[Expr] = None
        self.ran = 0
        if self.operands:
            first = self.operands[0]
            if first.dims == dims and dims is not None:
                self.leaf = first.leaf if first.operands else first

    def __repr__(self) -> str:
        dims = "dims not known" if self.dims is None else f"dims {self.dims}"
        nodes = f"{self.nodes} nodes" if self.nodes <= MANY else "many nodes"
        times = {0: "", 1: ", ran once"}.get(self.ran, f", ran {self.ran} times")
        return f"<{self.operation}, {dims}, {nodes}{times}>"

    def _answered(self) -> Tensor:
        """Evaluates the expression for a caller that needs its values, and returns its tensor."""
        from .running import run

        found = run(self)
        self.ran += 1
        return found

    def as_numbers(self) -> Expr:
        """Returns the expression with its values as numbers: truth values become 0 and 1.

        >>> (tensor([1, 2]) < 2).as_numbers()
        <lt, dims (2,), 4 nodes>
        """
        if not self.truth:
            return self
        return Expr(self.operation, self.operands, self.arguments, self.dims)

    # Elementwise operations with arguments, and on three operands. operations.py has the others.

    def constant(self, value: int) -> Expr:
        """Returns this value at every place.

        >>> run(tensor([1, 2]).constant(7)).values
        [7, 7]
        """
        return Expr("constant", [self], [value_of(value)], self.dims, is_bool(value))

    def select(self, x: Any, y: Any) -> Expr:
        """Returns x where this expression isn't 0, and y elsewhere: where(this, x, y).

        >>> run(tensor([0, 1]).select(7, [8, 9])).values
        [8, 7]
        """
        operands = alike(self, *(beside(it, self) for it in (x, y)))
        truth = operands[1].truth and operands[2].truth
        return Expr("select", operands, dims=operands[0].dims, truth=truth)

    # Movements. Truth values stay truth values.

    def broadcast(self, *counts: Any) -> Expr:
        """Repeats the expression this many times along each axis, as numpy's tile. Raises OutOfRange for
        a count below 1, and ShapeMismatch unless there is a count for each axis.

        >>> run(tensor([[1, 2]]).broadcast(2, 2)).nested()
        [[1, 2, 1, 2], [1, 2, 1, 2]]
        """
        numbers = listed(counts, whole)
        dims = None if self.dims is None else rules.broadcast(self.dims, numbers)
        return Expr("broadcast", [self], [numbers], dims, self.truth)

    def slice(self, offsets: Any, extents: Any) -> Expr:
        """Returns the part that begins at these offsets and has these dims. Raises OutOfRange.

        >>> run(tensor([[1, 2, 3], [4, 5, 6]]).slice([0, 1], [2, 2])).nested()
        [[2, 3], [5, 6]]
        """
        begin, sizes = listed([offsets], whole), listed([extents], whole)
        dims = None if self.dims is None else rules.sliced(self.dims, begin, sizes)
        return Expr("slice", [self], [begin, sizes], dims, self.truth)

    def shuffle(self, *order: Any) -> Expr:
        """Returns the expression with its axes in this order, as numpy's transpose.

        >>> run(tensor([[1, 2, 3], [4, 5, 6]]).shuffle(1, 0)).nested()
        [[1, 4], [2, 5], [3, 6]]
        """
        numbers = listed(order, whole)
        if self.dims is None:
            return Expr("shuffle", [self], [numbers])
        rules.one_each("axes", numbers, self.dims)
        numbers = rules.axes_of(numbers, len(self.dims))
        return Expr("shuffle", [self], [numbers], rules.shuffled(self.dims, numbers), self.truth)

    def in_dims(self, dims: Sequence[int]) -> Expr:
        """Returns the values in other dims, in column-major order: the request's reshape, which is
        numpy's with order="F". Raises ShapeMismatch for another number of places.

        >>> run(tensor([[1, 2, 3], [4, 5, 6]]).in_dims([3, 2])).nested()
        [[1, 5], [4, 3], [2, 6]]
        """
        found = None if self.dims is None else rules.reshaped(self.dims, dims)
        return Expr("reshape", [self], [list(dims)], found, self.truth)

    def chip(self, offset: int, axis: int) -> Expr:
        """Returns the part at this offset of an axis, without the axis, as numpy's take. Raises
        OutOfRange, also for an offset below 0.

        >>> run(tensor([[1, 2, 3], [4, 5, 6]]).chip(2, 1)).values
        [3, 6]
        """
        at, along = whole(offset), whole(axis)
        if self.dims is None:
            return Expr("chip", [self], [at, along])
        along = rules.axis_of(along, len(self.dims))
        return Expr("chip", [self], [at, along], rules.chipped(self.dims, at, along), self.truth)

    def reverse(self, *flags: Any) -> Expr:
        """Reverses each axis whose flag is True, as numpy's flip.

        >>> run(tensor([1, 2, 3]).reverse(True)).values
        [3, 2, 1]
        """
        found = listed(flags, flag)
        if self.dims is not None:
            rules.one_each("flags", found, self.dims)
        return Expr("reverse", [self], [found], self.dims, self.truth)

    def stride(self, *steps: Any) -> Expr:
        """Returns every n-th place along each axis, from the first on, as x[::2, ::3] of numpy. There is
        one n for each axis; n below 1 raises OutOfRange.

        >>> run(tensor([1, 2, 3]).stride(2)).values
        [1, 3]
        """
        numbers = listed(steps, whole)
        dims = None if self.dims is None else rules.strided(self.dims, numbers)
        return Expr("stride", [self], [numbers], dims, self.truth)

    def zeros_around(self, pairs: Sequence[Sequence[int]]) -> Expr:
        """Adds zeros, given a pair (before, after) for each axis: the request's pad.

        >>> run(tensor([5]).zeros_around([(1, 2)])).values
        [0, 5, 0, 0]
        """
        dims = None if self.dims is None else rules.padded(self.dims, pairs)
        return Expr("pad", [self], [[list(it) for it in pairs]], dims, self.truth)

    def concat(self, other: Any, axis: int) -> Expr:
        """Returns this expression and the other after it, along an axis.

        >>> run(tensor([1, 2]).concat([3], 0)).values
        [1, 2, 3]
        """
        right, along = an_expr(other), whole(axis)
        truth = self.truth and right.truth
        if self.dims is None or right.dims is None:
            return Expr("concat", [self, right], [along], truth=truth)
        along = rules.axis_of(along, len(self.dims))
        dims = rules.joined(self.dims, right.dims, along)
        return Expr("concat", [self, right], [along], dims, truth)

    # Operations that combine values.

    def reduced(self, operation: str, axes: Sequence[int]) -> Expr:
        """Returns a reduction over axes: sum, prod, maximum, minimum, all or any.

        >>> run(tensor([[1, 2], [3, 4]]).reduced("sum", [0])).values
        [4, 6]
        """
        truth = operation in ("all", "any")
        if self.dims is None:
            return Expr(operation, [self], [list(axes)], truth=truth)
        if operation in ("maximum", "minimum") and self.size:
            truth = self.truth
        found = rules.axes_of(axes, len(self.dims))
        return Expr(operation, [self], [found], rules.without(self.dims, found), truth)

    def contract(self, other: Any, pairs: Sequence[Any]) -> Expr:
        """Returns the sums of products over paired axes, as numpy's tensordot. Each pair has an axis of
        this expression and one of the other: x.contract(y, [(1, 0)]) for two matrices. Raises
        ShapeMismatch if two paired axes aren't equally long.

        >>> run(tensor([[1, 2], [3, 4]]).contract([5, 6], [(1, 0)])).values
        [17, 39]
        """
        right, found = an_expr(other), [listed([pair], whole) for pair in pairs]
        if self.dims is None or right.dims is None:
            return Expr("contract", [self, right], [found])
        ours = rules.axes_of([pair[0] for pair in found], len(self.dims))
        theirs = rules.axes_of([pair[1] for pair in found], len(right.dims))
        dims = rules.contracted(self.dims, right.dims, ours, theirs)
        pairs = [[*pair] for pair in zip(ours, theirs)]
        return of_truths(Expr("contract", [self, right], [pairs], dims))

    def convolve(self, kernel: Any, *axes: Any) -> Expr:
        """Returns the sums of products of a kernel and the values under it. The axes say where each axis
        of the kernel lies: x.convolve(kernel, 0, 1). The kernel isn't reversed, unlike numpy's convolve.

        >>> run(tensor([1, 2, 3]).convolve([1, 10], 0)).values
        [21, 32]
        """
        under, along = an_expr(kernel), listed(axes, whole)
        if self.dims is None or under.dims is None:
            return Expr("convolve", [self, under], [along])
        along = rules.axes_of(along, len(self.dims))
        dims = rules.slid(self.dims, under.dims, along)
        return of_truths(Expr("convolve", [self, under], [along], dims))


def of_truths(products: Expr) -> Expr:
    """Returns sums of products. They are truth values if all operands are, as in numpy.

    >>> run(tensor([True, True]).contract([True, True], [(0, 0)])).item()
    True
    """
    return products.ne(0) if all(it.truth for it in products.operands) else products


def of_each(operation: str, x: Expr) -> Expr:
    """Returns an elementwise operation on one operand."""
    truth = operation in COMPARING or (x.truth and operation in OF_TRUTHS)
    return Expr(operation, [x], dims=x.dims, truth=truth)


def elementwise(operation: str, left: Expr, right: Any) -> Expr:
    """Returns an elementwise operation on two operands, over the dims that fit both."""
    if not isinstance(right, Expr):
        right = beside(as_bits(right) if operation in WRAPPING else right, left)
    other: Expr = right
    operands = [left, other] if left.dims == other.dims else alike(left, other)
    truth = operation in COMPARING
    if left.truth and other.truth and operation in OF_TRUTHS:
        operation, truth = SUMS.get(operation, operation), True
    return Expr(operation, operands, dims=operands[0].dims, truth=truth)


# Tensors are expressions, and operands of expressions become tensors: each module needs the other.
from .tensors import Tensor, an_expr, beside  # noqa: E402
