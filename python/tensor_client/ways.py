"""numpy's ways to use arrays, for expressions: their dims, their values, and their parts by index."""

from __future__ import annotations

import sys
from typing import TYPE_CHECKING, Any, Callable, Iterator, List, NoReturn, Tuple

from . import rules
from .faults import ShapeMismatch
from .indexing import Slice, is_list, parts_of, turned, whole_range
from .operators import Operators
from .rules import Dims
from .values import listed, whole

if TYPE_CHECKING:
    from .expressions import Expr
    from .functions.placed import Places
    from .tensors import Tensor


class NumpyWays(Operators):
    """Attributes and methods of numpy's arrays. Expr has the request's own operations."""

    __slots__ = ()

    if TYPE_CHECKING:
        _answered: Callable[[], Tensor]
    else:

        def __getattr__(self, name: str) -> Any:
            """Returns what numpy's arrays have and expressions don't, of the array of the values."""
            if name.startswith("_"):
                raise AttributeError(name)
            from .functions.delegated import method_of

            return method_of(self, name)

    # The device of the values, and the module of their functions, as the array API names them.
    device = "cpu"

    def __array_namespace__(self, api_version: Any = None) -> Any:
        return sys.modules[__package__ or ""]

    # numpy calls these if an argument of its function is an expression.

    def __array_ufunc__(self, function: Any, method: str, *inputs: Any, **more: Any) -> Any:
        from .functions.protocols import of_ufunc

        return of_ufunc(function, method, inputs, more)

    def __array_function__(self, function: Any, types: Any, inputs: Any, more: Any) -> Any:
        from .functions.protocols import of_function

        return of_function(function, inputs, more)

    # Shape.

    @property
    def shape(self) -> Dims:
        """The dims, by numpy's name. Raises ValueError if they aren't known.

        >>> tensor([[1, 2, 3], [4, 5, 6]]).shape
        (2, 3)
        """
        if self.dims is None:
            raise ValueError(f"the dims of {self!r} aren't known here")
        return self.dims

    @property
    def ndim(self) -> int:
        """The number of axes.

        >>> tensor([[1, 2, 3], [4, 5, 6]]).ndim
        2
        """
        return len(self.shape)

    @property
    def size(self) -> int:
        """The number of values.

        >>> tensor([[1, 2, 3], [4, 5, 6]]).size
        6
        """
        return rules.product(self.shape)

    @property
    def T(self) -> Expr:
        """The expression with its axes in reverse order.

        >>> run(tensor([[1, 2, 3], [4, 5, 6]]).T).nested()
        [[1, 4], [2, 5], [3, 6]]
        """
        found: Any = self
        turned: Expr = found.shuffle(list(range(self.ndim))[::-1]) if self.ndim > 1 else found
        return turned

    @property
    def mT(self) -> Expr:
        """The expression with its last two axes swapped.

        >>> run(tensor([[1, 2, 3], [4, 5, 6]]).mT).nested()
        [[1, 4], [2, 5], [3, 6]]
        """
        from .functions import matrix_transpose

        return matrix_transpose(self)

    def transpose(self, *axes: Any) -> Expr:
        """Returns the expression with its axes in this order; without arguments, in reverse order.

        >>> tensor([[[1, 2, 3]]]).transpose(2, 0, 1).shape
        (3, 1, 1)
        """
        return self.T if axes in ((), (None,)) else self.shuffle(*axes)

    def __len__(self) -> int:
        if not self.shape:
            raise TypeError("a tensor without axes has no length")
        return self.shape[0]

    # Methods that need values run the expression each time, since its arrays may have been written into
    # meanwhile.

    def __bool__(self) -> bool:
        if self.size != 1:
            raise TypeError(f"dims {self.shape} have no truth value: use all() or any()")
        return bool(self.item())

    def __int__(self) -> int:
        return int(self.item())

    def __float__(self) -> float:
        return float(self.item())

    def __index__(self) -> int:
        """Returns the value of an expression without axes. numpy takes others as lists."""
        if self.shape or self.truth:
            raise TypeError("an index is a whole number without axes, and no truth value")
        return self.item()

    def __str__(self) -> str:
        return str(self._answered())

    def __format__(self, form: str) -> str:
        return format(self.item(), form) if form else str(self)

    def item(self, *index: Any) -> int:
        """Runs the expression, and returns its one value, or the value at an index. Raises ValueError if
        no index is given and there isn't exactly one value.

        >>> tensor([1, 2]).sum().item(), int(tensor([1, 2]).max())
        (3, 2)
        """
        if self.size != 1 and not index:
            raise ValueError(f"item() needs exactly one value, and there are {self.size}")
        found: int = self._answered().item(*index)
        return found

    def tolist(self) -> Any:
        """Runs the expression, and returns its values as nested lists.

        >>> (tensor([[1, 2], [3, 4]]) + 1).tolist()
        [[2, 3], [4, 5]]
        """
        return self._answered().nested()

    def __iter__(self) -> Iterator[Any]:
        return iter(self._answered())

    def __contains__(self, value: Any) -> bool:
        return value in self._answered()

    def __array__(self, dtype: Any = None, copy: Any = None) -> Any:
        return self._answered().__array__(dtype, copy)

    def __setitem__(self, index: Any, value: Any) -> NoReturn:
        raise TypeError("a tensor isn't written into: x.at[i].set(v) returns one with other values")

    @property
    def at(self) -> Places:
        """x.at[i].set(v) and x.at[i].add(v) return an expression with other values where x[i] is.

        >>> run(tensor([[1, 2], [3, 4]]).at[:, 0].set(0)).nested()
        [[0, 2], [0, 4]]
        """
        from .functions.placed import Places

        return Places(self)  # type: ignore[arg-type]

    # Other libraries take the values by these, without a copy.

    def __dlpack__(self, **more: Any) -> Any:
        return self._answered().array().__dlpack__(**more)

    def __dlpack_device__(self) -> Tuple[int, int]:
        return 1, 0

    def __buffer__(self, flags: int) -> memoryview:
        return memoryview(self._answered().array())

    def reshape(self, *sizes: Any, order: str = "C") -> Expr:
        """Returns the values in other dims, in C order, or with order="F" in column-major order, which
        is the request's own. One size may be -1. Raises ShapeMismatch for another number of places.

        >>> run(tensor([[1, 2], [3, 4], [5, 6]]).reshape(2, -1)).nested()
        [[1, 2, 3], [4, 5, 6]]
        """
        to = self._sizes(listed(sizes, whole))
        if order == "F":
            return self.in_dims(to)
        if order != "C":
            raise ValueError(f'order is "C" or "F" and not {order!r}')
        long, wanted = ([it for it in dims if it != 1] for dims in (self.shape, to))
        if long == wanted:
            # Only axes of length 1 are added or removed: both orders agree.
            return self.in_dims(to)
        return self.T.in_dims(to[::-1]).T

    def ravel(self, order: str = "C") -> Expr:
        """Returns the values along one axis, in C order, or with order="F" in column-major order.

        >>> x = tensor([[1, 2], [3, 4]])
        >>> run(x.ravel()).values, run(x.ravel(order="F")).values
        ([1, 2, 3, 4], [1, 3, 2, 4])
        """
        return self.reshape(-1, order=order)

    flatten = ravel

    def _sizes(self, sizes: List[int]) -> List[int]:
        """Returns sizes with the number of places that there are. One -1 is computed."""
        if self.dims is None:
            return rules.sizes(sizes)
        found, others = sizes, rules.product([it for it in sizes if it != -1])
        if sizes.count(-1) == 1 and others > 0:
            found = [self.size // others if it == -1 else it for it in sizes]
        if rules.product(rules.legal(rules.sizes(found))) != self.size:
            raise ShapeMismatch(f"the {self.size} places of dims {self.dims} don't fit dims {tuple(sizes)}")
        return found

    def __getitem__(self, index: Any) -> Expr:
        """Returns the part that numpy's x[..] names, by whole numbers, slices with steps of either sign,
        None, `..`, lists of offsets, and lists of truth values, which run. Raises OutOfRange.

        >>> run(tensor([[1, 2, 3], [4, 5, 6]])[::-1, 1:]).nested()
        [[5, 6], [2, 3]]
        >>> run(tensor([[1, 2, 3], [4, 5, 6]])[:, [2, 0, 0]]).nested()
        [[3, 1, 1], [6, 4, 4]]
        """
        index = index if isinstance(index, tuple) else (index,)
        if any(map(is_list, index)):
            from .functions.gathered import at_lists

            return at_lists(self, index)  # type: ignore[arg-type]
        parts = parts_of(index, self.ndim)
        slices = [it for it in parts if it is not None]
        ranges = [whole_range(it, dim) for it, dim in zip(slices, self.shape)]
        found: Any = self
        if any(it.step < 0 for it in ranges):
            found = found.reverse([it.step < 0 for it in ranges])
            ranges = [turned(it, dim) for it, dim in zip(ranges, self.shape)]
        lengths = [(len(it) - 1) * it.step + 1 if len(it) else 0 for it in ranges]
        if tuple(lengths) != self.shape:
            found = found.slice([it.start if len(it) else 0 for it in ranges], lengths)
        if any(it.step > 1 and len(it) > 1 for it in ranges):
            found = found.stride([it.step if len(it) > 1 else 1 for it in ranges])
        for axis in reversed(range(len(slices))):
            if not isinstance(slices[axis], Slice):
                found = found.chip(0, axis)
        kept = [it for it in parts if it is None or isinstance(it, Slice)]
        if None in kept:
            left = iter(found.shape)
            found = found.in_dims([1 if it is None else next(left) for it in kept])
        chosen: Expr = found
        return chosen
