"""numpy's methods of arrays, on expressions: reductions, and methods that are functions as well."""

from __future__ import annotations

from typing import TYPE_CHECKING, Any, Callable, Protocol, Sequence, Union

from . import rules
from .values import listed, numbers_of, numpy, whole
from .ways import NumpyWays

# The functions need expressions. So the package sets this name when it has loaded both.
if TYPE_CHECKING:
    from . import functions
    from .expressions import Expr
    from .tensors import Tensor

Axis = Union[None, int, Sequence[int]]
CUMULATIVE = "cumsum", "cumprod"
# The functions that are methods too, with all their arguments. The package sets these methods.
AS_FUNCTIONS = (
    "argmax argmin argsort conj conjugate cumprod cumsum diagonal ptp repeat searchsorted squeeze "
    "swapaxes trace".split()
)
# By reduction, the value that changes no result.
IDENTITIES = {"sum": 0, "prod": 1, "maximum": -(2**63), "minimum": 2**63 - 1, "all": 1, "any": 0}
COMBINED = {"sum": "add", "prod": "mul", "maximum": "cwise_max", "minimum": "cwise_min"}


def written_nowhere(out: Any) -> None:
    """Raises TypeError for `out`: an expression has no values yet to be written."""
    if out is not None:
        raise TypeError("an expression can't be written into `out`: use run(x, out=..)")


class Reducing(Protocol):
    """A reduction. Its axes are given by position or by `axis`."""

    def __call__(
        self, *named: Any, axis: Axis = None, keepdims: bool = False, dtype: Any = None,
        out: None = None, initial: Any = None, where: Any = None,
    ) -> Expr: ...


def reducing(operation: str, what: str, wanted: str) -> Any:
    """Returns a reduction as a method, with an example."""

    def method(self: Any, *axes: Any, axis: Axis = None, keepdims: bool = False, **more: Any) -> Expr:
        found: Expr = self._combined(operation, axes, axis, keepdims, **more)
        return found

    method.__name__ = method.__qualname__ = operation
    method.__doc__ = f"""{what}, along these axes or along all: numpy's {operation.replace("imum", "")}.

    The method takes axes as x.{operation}(0, 1) or x.{operation}(axis=(0, 1)). With `keepdims` they keep length 1.
    `initial` is combined with the values. Values where `where` is 0 don't count. `dtype` is int or
    bool. Raises OutOfRange for an axis that isn't there.

    >>> run(tensor([[3, 1], [7, 4]]).{operation}(axis=0)).values
    {wanted}
    """
    return method


class NumpyMethods(NumpyWays):
    """Attributes and methods of numpy's arrays. Expr has the request's own operations."""

    __slots__ = ()

    @property
    def dtype(self) -> Any:
        """The dtype of the values: int64, or bool for truth values. Without numpy it is the name.

        >>> tensor([1, 2]).dtype == "int64", (tensor([1, 2]) < 2).dtype == "bool"
        (True, True)
        """
        name = "bool" if self.truth else "int64"
        return name if numpy is None else numpy.dtype(name)

    # Reductions.

    if TYPE_CHECKING:
        sum: Reducing
        prod: Reducing
        maximum: Reducing
        minimum: Reducing
        max: Reducing
        min: Reducing
        all: Reducing
        any: Reducing
    else:
        sum = reducing("sum", "Returns the sums", "[10, 5]")
        prod = reducing("prod", "Returns the products", "[21, 4]")
        maximum = max = reducing("maximum", "Returns the greatest values (of none, the least i64)", "[7, 4]")
        minimum = min = reducing("minimum", "Returns the least values (of none, the greatest i64)", "[3, 1]")
        all = reducing("all", "Returns whether no value is 0", "[1, 1]")
        any = reducing("any", "Returns whether some value isn't 0", "[1, 1]")

    def _combined(
        self, operation: str, axes: Sequence[Any], axis: Axis, keepdims: bool, /, dtype: Any = None,
        out: None = None, initial: Any = None, where: Any = None, **unknown: Any,
    ) -> Expr:
        for it in unknown:
            raise TypeError(f"{operation} has no {it}=: its axes are axis=, an axis or several")
        written_nowhere(out)
        if where is not None and where is not True:
            chosen = functions.where(where, self, IDENTITIES[operation])
            return chosen._combined(operation, axes, axis, keepdims, dtype, None, initial)
        found = self._reduced(operation, axes, axis)
        if keepdims:
            gone = rules.axes_of(found.arguments[0], self.ndim)
            found = found.in_dims([1 if at in gone else it for at, it in enumerate(self.shape)])
        if initial is not None:
            found = getattr(found, COMBINED[operation])(initial)
        from .functions.common import as_dtype

        return as_dtype(found, dtype)

    def _reduced(self, operation: str, axes: Sequence[Any], axis: Axis) -> Expr:
        """Returns a reduction over axes that are given by position, by `axis`, or not at all."""
        if axes and axis is not None:
            raise TypeError(f"the axes of {operation} are named twice")
        if axis is not None:
            axes = [numbers_of(axis)]
        if len(axes) == 1 and axes[0] is None:
            axes = []
        if not axes and self.dims is None:
            raise ValueError(f"name the axes of {operation}: the dims of {self!r} aren't known")
        numbers = listed(axes, whole) if axes else list(range(self.ndim))
        return self.reduced(operation, numbers)

    # The request's own operations along one axis.

    def along(self, operation: str, axis: int) -> Expr:
        """Returns cumsum, cumprod, argmax or argmin along an axis. The last two are 0 for an empty axis.

        >>> run(tensor([[1, 2], [3, 4]]).along("cumsum", 1)).nested()
        [[1, 3], [3, 7]]
        """
        from .expressions import Expr

        at, dims = whole(axis), self.dims
        if dims is None:
            return Expr(operation, [self], [at])  # type: ignore[list-item]
        at = rules.axis_of(at, len(dims))
        dims = dims if operation in CUMULATIVE else rules.without(dims, [at])
        return Expr(operation, [self], [at], dims)  # type: ignore[list-item]

    def taken(self, indices: Any, axis: int) -> Expr:
        """Returns the request's take along an axis. An offset below 0 or past the end gives 0.

        >>> run(tensor([5, 6, 7]).taken([2, 0, 3, -1], 0)).values
        [7, 5, 0, 0]
        """
        from .expressions import Expr
        from .tensors import an_expr

        named, at, dims = an_expr(indices), whole(axis), self.dims
        operands: Any = [self, named]
        if dims is None or named.dims is None:
            return Expr("take", operands, [at], truth=self.truth)
        at = rules.axis_of(at, len(dims))
        return Expr("take", operands, [at], rules.taken(dims, named.dims, at), self.truth)

    # Methods that are functions as well, with equal names.

    if TYPE_CHECKING:
        conj: Callable[[], Expr]
        conjugate: Callable[[], Expr]
        argmax, argmin, argsort = functions.argmax, functions.argmin, functions.argsort
        cumsum, cumprod, ptp = functions.cumsum, functions.cumprod, functions.ptp
        diagonal, trace, repeat = functions.diagonal, functions.trace, functions.repeat
        squeeze, swapaxes = functions.squeeze, functions.swapaxes
        searchsorted = functions.searchsorted

    def clip(self, min: Any = None, max: Any = None, out: None = None) -> Expr:
        """Returns the values, limited to the range from `min` to `max`. Either may be left out.

        >>> run(tensor([1, 5, 9]).clip(2, 8)).values, run(tensor([1, 5, 9]).clip(max=6)).values
        ([2, 5, 8], [1, 5, 6])
        """
        written_nowhere(out)
        found: Any = self if min is None else self.cwise_max(min)
        clipped: Expr = found if max is None else found.cwise_min(max)
        return clipped

    def dot(self, other: Any, out: None = None) -> Expr:
        """As the function `dot`."""
        written_nowhere(out)
        return functions.dot(self, other)

    def pad(self, widths: Any, mode: str = "constant", **more: Any) -> Expr:
        """As the function `pad`."""
        return functions.pad(self, widths, mode, **more)

    def astype(self, dtype: Any, **more: Any) -> Any:
        """As the function `astype`. Dtypes other than int64 and bool give an array of numpy."""
        return functions.astype(self, dtype)

    def copy(self, order: str = "C") -> Expr:
        """As the function `copy`."""
        return functions.copy(self)

    def round(self, decimals: int = 0, out: None = None) -> Expr:
        """As the function `round`."""
        return functions.round(self, decimals)

    def take(self, indices: Any, axis: Any = None, out: None = None, mode: str = "raise") -> Expr:
        """As the function `take`."""
        written_nowhere(out)
        return functions.take(self, indices, axis, None, mode)

    def compress(self, condition: Any, axis: Any = None) -> Expr:
        """As the function `compress`, which takes the condition first."""
        return functions.compress(condition, self, axis)
