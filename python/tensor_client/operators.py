"""Python's operators on expressions, as on numpy's arrays."""

from __future__ import annotations

from typing import TYPE_CHECKING, Any, Callable, Optional, Protocol, Sequence, Tuple, overload

from .operations import OPERATIONS, Operation, Valuewise
from .rules import Dims
from .values import WRAPPING, NumpysOwn, as_bits, is_bool, is_several, whole

if TYPE_CHECKING:
    from .expressions import Expr


class Pairwise(Protocol):
    """An operator with its right operand. With fractions it is numpy's, and returns an array."""

    @overload
    def __call__(self, other: int) -> Expr: ...

    @overload
    def __call__(self, other: float) -> Any: ...

    @overload
    def __call__(self, other: object) -> Expr: ...


def between(it: Operation) -> Any:
    """Returns an operator of the table, by the method of expressions or by numpy's function."""
    method = it.method

    def operator(self: Any, other: Any) -> Any:
        try:
            return getattr(self, method)(other)
        except NumpysOwn:
            return self._by_numpy(it.numpy, self, other)

    return operator


def behind(it: Operation) -> Any:
    """Returns an operator of the table for an expression on the right."""

    def operator(self: Any, other: Any) -> Any:
        try:
            first = as_bits(other) if it.name in WRAPPING else other
            return getattr(self._beside(first), it.method)(self)
        except NumpysOwn:
            return self._by_numpy(it.numpy, other, self)

    return operator


class Operators(Valuewise):
    """The operators of expressions. Those of the table that have no method here are put in below."""

    __slots__ = ()

    if TYPE_CHECKING:
        dims: Optional[Dims]
        truth: bool
        shuffle: Callable[..., Expr]
        in_dims: Callable[[Sequence[int]], Expr]
        reduced: Callable[[str, Sequence[int]], Expr]
        __add__: Pairwise
        __sub__ = __mul__ = __floordiv__ = __mod__ = __rshift__ = __add__
        __radd__ = __rsub__ = __rmul__ = __rfloordiv__ = __rmod__ = __rlshift__ = __rrshift__ = __add__
        __lt__ = __le__ = __gt__ = __ge__ = __add__
        __eq__: Pairwise  # type: ignore[assignment]
        __ne__: Pairwise  # type: ignore[assignment]

    def __neg__(self) -> Expr:
        return self.neg()

    def __pos__(self) -> Any:
        return self

    def __abs__(self) -> Expr:
        return self.abs()

    def __matmul__(self, other: Any) -> Expr:
        from .functions import matmul

        return matmul(self, other)

    def __rmatmul__(self, other: Any) -> Expr:
        from .functions import matmul

        return matmul(other, self)

    def __pow__(self, exponent: Any, modulo: None = None) -> Any:
        """Returns the power by a whole number from 0 on, by squares. Several exponents or a fraction are
        numpy's, and both operands run. Raises ValueError for a negative exponent.

        >>> run(tensor([2, 3]) ** 5).values
        [32, 243]
        """
        if modulo is not None:
            raise TypeError("powers with a modulus aren't supported")
        if is_several(exponent) or isinstance(exponent, float):
            return self._by_numpy("power", self, exponent)
        number = whole(exponent)
        if number < 0:
            raise ValueError("whole numbers have no negative powers")
        if number == 0:
            return self.mul(0).add(1)
        found: Any = self
        for bit in bin(number)[3:]:
            found = found.square()
            found = found.mul(self) if bit == "1" else found
        power: Expr = found
        return power

    # Bitwise operators. For truth values they are operations that texts have too.

    def __invert__(self) -> Expr:
        return self.not_() if self.truth else self.bit_not()

    def __and__(self, other: Any) -> Expr:
        return self.and_(other) if self._are_truths(other) else self.bit_and(other)

    def __or__(self, other: Any) -> Expr:
        return self.or_(other) if self._are_truths(other) else self.bit_or(other)

    def __xor__(self, other: Any) -> Expr:
        return self.ne(other) if self._are_truths(other) else self.bit_xor(other)

    __rand__, __ror__, __rxor__ = __and__, __or__, __xor__

    def __lshift__(self, count: Any) -> Expr:
        """Returns the values shifted left, elementwise. For a count below 0 or above 63 they are 0.

        >>> run(tensor([1, -2]) << 3).values
        [8, -16]
        """
        if is_several(count):
            return self.shift_left(count)
        places = whole(count)
        return self.mul((2**places + 2**63) % 2**64 - 2**63 if 0 <= places < 64 else 0)

    def _are_truths(self, other: Any) -> bool:
        """Whether both are known to be truth values. Bitwise and logical operations agree for these."""
        from .tensors import an_expr

        theirs = is_bool(other) or (not isinstance(other, int) and an_expr(as_bits(other)).truth)
        return self.truth and theirs

    def __divmod__(self, other: Any) -> Tuple[Any, Any]:
        return self // other, self % other

    def __rdivmod__(self, other: Any) -> Tuple[Any, Any]:
        return other // self, other % self

    # numpy computes fractions, and powers by several exponents. The operands run.

    def __truediv__(self, other: Any) -> Any:
        return self._by_numpy("true_divide", self, other)

    def __rtruediv__(self, other: Any) -> Any:
        return self._by_numpy("true_divide", other, self)

    def __rpow__(self, other: Any) -> Any:
        return self._by_numpy("power", other, self)

    def _by_numpy(self, name: str, *operands: Any) -> Any:
        from .functions.delegated import by_numpy

        return by_numpy(name, *operands)

    def _beside(self, other: Any) -> Expr:
        from .tensors import beside

        return beside(other, self)  # type: ignore[arg-type]


# A comparison has no operator for an expression on the right.
for _it in OPERATIONS.values():
    for _name, _made in (f"__{_it.operator}__", between), (f"__r{_it.operator}__", behind):
        if _name in vars(int) and _name not in vars(Operators):
            setattr(Operators, _name, _made(_it))
