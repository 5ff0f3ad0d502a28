"""Where an answer's values go, and in which order: into new memory, or into the array `out`."""

from __future__ import annotations

from typing import Any, Iterable, Optional, Sequence, Tuple

from .expressions import Expr
from .length import MOST_NODES
from .memory import INT64, Held, memory_for, overlaps, place_of
from .requests import dims_text
from .rewriting.bindings import bindings_of
from .rewriting.mirrored import lie_mirrored, mirrored, reversed_axes
from .rules import Dims, product
from .streams import Place
from .tensors import Tensor
from .values import numpy


class Result:
    """The place of an answer's values. If they are `turned`, they are wanted in C order: then the
    request asks for the expression with its axes reversed, in column-major order. If the inputs lie in C
    order, the request takes them as they lie."""

    def __init__(
        self, expr: Expr, out: Any = None, turned: Optional[bool] = None, most: int = MOST_NODES,
    ) -> None:
        self.out: Any = None if out is None else checked_out(out)
        self.most = most
        # The memory of `out`, once it is found that the answer can be written there as it comes.
        self.own_memory: Optional[memoryview] = None
        if turned is not None:
            self.turned = turned
            return
        can_be_turned = expr.dims is not None and lies_as_it_is(expr, most)
        is_wanted = are_turned(expr) if self.out is None else not self.out.flags.f_contiguous
        self.turned = can_be_turned and is_wanted

    def asked(self, expr: Expr) -> Expr:
        """Returns the expression that the request asks for."""
        found = mirrored(expr) if lie_mirrored(expr) else None
        if found is None or not lies_as_it_is(found, self.most):
            return reversed_axes(expr) if self.turned else expr
        return found if self.turned else reversed_axes(found)

    def check(self, dims: Dims) -> None:
        """Raises ValueError if `out` doesn't have the dims of this answer."""
        wanted = dims[::-1] if self.turned else dims
        if self.out is not None and self.out.shape != wanted:
            raise ValueError(f"out has dims {self.out.shape}, and the answer {wanted}")

    def own(self, inputs: Sequence[int]) -> Optional[memoryview]:
        """Returns the memory of `out` if the answer can be written into it directly: if the order is
        right and no input overlaps it. Each input is an address and, after it, a number of values."""
        if self.out is None or not (self.turned or self.out.flags.f_contiguous):
            return None
        own = memory_of_out(self.out)
        if overlaps(own, zip(inputs[::2], inputs[1::2])):
            return None
        self.own_memory = own
        return own

    def place(self, dims: Dims, inputs: Sequence[int]) -> memoryview:
        """Returns memory for an answer of these dims, which overlaps no input: the memory of `out` if
        possible."""
        self.check(dims)
        return self.own(inputs) or memory_for(product(dims))

    def place_of_frame(self, inputs: Sequence[Held]) -> Optional[Place]:
        """Returns the memory of `out`, for the values of a frame with its dims."""
        pairs = [(place_of(it), len(it)) for it in inputs if not isinstance(it, list)]
        own = self.own([number for pair in pairs for number in pair])
        if own is None:
            return None
        dims = self.out.shape[::-1] if self.turned else self.out.shape
        return Place(f"{{{dims_text(dims)}}}".encode(), own)

    def of_frame(self, found: Tensor, truth: bool) -> Tensor:
        """Returns the tensor of an answer's frame."""
        if self.out is None and not self.turned:
            found.truth = truth
            return found
        self.check(found.dims or ())
        return self.tensor(found.own, found.dims or (), truth)

    def tensor(self, values: Held, dims: Dims, truth: bool) -> Tensor:
        """Returns the tensor of an answer, given the values and dims that the request asked for. In
        `out` its values are numbers, since others may write into the array."""
        dims, truth = dims[::-1] if self.turned else dims, truth and self.out is None
        found = Tensor(values, dims, truth, turned=self.turned)
        if self.out is not None and values is not self.own_memory:
            self.out[...] = found.array()
        return found


def lies_as_it_is(expr: Expr, most: int) -> bool:
    """Whether an expression is small enough to take its inputs and give its answer in C order. Reversed
    axes add a node, and so does each input that has to be reversed.

    >>> lies_as_it_is(tensor([1, 2]) + 1, 10)
    True
    """
    return 2 * (expr.nodes + 1) <= most or 2 * (bindings_of(expr).nodes + 1) <= most


def are_turned(expr: Expr) -> bool:
    """Whether an answer is best given in C order: it has several axes, an input lies in C order, and no
    large input with several axes lies otherwise."""
    return len(expr.dims or ()) > 1 and lie_mirrored(expr)


def written(found: Tensor, expr: Expr, out: Any) -> Tensor:
    """Returns the tensor of an answer in new memory, and writes its values into `out` if that is given."""
    if out is None:
        found.truth = expr.truth
        return found
    if checked_out(out).shape != found.dims:
        raise ValueError(f"out has dims {out.shape}, and the answer {found.dims}")
    out[...] = found.array()
    return found


def checked_out(out: Any) -> Any:
    """Returns `out` if an answer can be written into it. Raises TypeError or ValueError if not."""
    if numpy is None or not isinstance(out, numpy.ndarray):
        raise TypeError(f"out isn't an array of numpy: {type(out).__name__}")
    flags = out.flags
    if out.dtype != INT64 or not flags.writeable or not flags.aligned:
        raise TypeError(f"out isn't an array of int64 that can be written into: {out.dtype}")
    if not flags.f_contiguous and not flags.c_contiguous:
        raise ValueError("out has gaps: it has to be an array without gaps, in C or Fortran order")
    return out


def memory_of_out(out: Any) -> memoryview:
    """Returns the memory of an array without gaps."""
    memory: memoryview = out.reshape(-1, order="F" if out.flags.f_contiguous else "C").data
    return memory
