"""Tensors: the inputs of expressions and the answers of `run`, made of arrays, lists and numbers."""

from __future__ import annotations

from array import array as packed
from itertools import count
from typing import Any, Iterator, List, Optional, Sequence, Union

from . import rules
from .expressions import Expr
from .faults import BadTensor
from .memory import LARGE, Held, as_memory, columns_of, memory_of, memory_of_array, memory_of_range
from .rules import Dims
from .showing import shown, shown_as_list
from .values import (
    LISTS, PLAIN, Unanswered, are_bools, checked, checked_array, is_bool, listed, nested, numbers_of,
    numpy, unnested, value_of, whole,
)

# Numbers for placeholders, in the order in which they are made.
NUMBERS = count()


class Tensor(Expr):
    """Dims and values: an input of an expression, or an answer.

    The values are whole numbers in the range of i64, or truth values. They are a list, or lie in memory.
    `shared` says that others may write into this memory. `turned` says that the values lie in C order,
    the last axis fastest; otherwise they are column-major.

    >>> tensor([[1, 2], [3, 4]]).values
    [1, 3, 2, 4]
    """

    __slots__ = ("own", "shared", "turned", "listed", "lent")
    # Attributes that all tensors have alike: each answer is a new tensor.
    operation, operands, arguments, depth, nodes = "tensor", (), (), 1, 1

    def __init__(
        self, values: Held, dims: Sequence[int], truth: bool = False, shared: bool = False,
        turned: bool = False,
    ) -> None:
        self.own, self.dims, self.truth = values, tuple(dims), truth
        self.shared, self.turned = shared, turned
        self.listed: Optional[List[int]] = None

    @property
    def held(self) -> Held:
        """The values in column-major order, as a list or in memory. Values in C order are copied.

        >>> tensor([[1, 2], [3, 4]]).held
        [1, 3, 2, 4]
        """
        if isinstance(self.own, memoryview) and self.turned:
            return columns_of(self.own, self.dims or ())
        return self.own

    def as_numbers(self) -> Tensor:
        """Returns the values as numbers, without a copy. Truth values become 0 and 1.

        >>> tensor([True, False]).as_numbers()
        tensor([1, 0])
        """
        return Tensor(self.own, self.dims or (), False, self.shared, self.turned)

    @property
    def is_large(self) -> bool:
        """Whether there are at least 4,096 values.

        >>> tensor([1, 2]).is_large
        False
        """
        return len(self.own) >= LARGE

    @property
    def is_mirrored(self) -> bool:
        """Whether a request takes the values in C order, as they lie. A small array that others may
        write into is copied to column-major order instead, which costs less.

        >>> tensor([[1, 2], [3, 4]]).is_mirrored
        False
        """
        return self.turned and (self.is_large or not self.shared)

    def __repr__(self) -> str:
        return shown(self)

    def __str__(self) -> str:
        return shown_as_list(self) if numpy is None else str(self.array())

    def _answered(self) -> Tensor:
        return self

    def __reduce__(self) -> Any:
        # A memoryview can't be pickled, but bytes can.
        return tensor_held, (bytes(as_memory(self.held)), self.dims, self.truth)

    @property
    def values(self) -> List[int]:
        """The values as a list, in column-major order. Truth values are 0 and 1.

        >>> tensor([[1, 2], [3, 4]]).values
        [1, 3, 2, 4]
        """
        if isinstance(self.own, list):
            return self.own
        held = self.held
        found = self.listed or (held if isinstance(held, list) else held.tolist())
        self.listed = None if self.shared else found
        return found

    def nested(self) -> Any:
        """Returns the values as nested lists: the value at the index list (i, j) is `nested()[i][j]`. A
        tensor without axes gives its one value. Truth values are of type bool.

        >>> run(tensor([[1, 2], [3, 4]]) + 1).nested(), tensor([True]).nested()
        ([[2, 3], [4, 5]], [True])
        """
        values = self.values
        return nested([it != 0 for it in values] if self.truth else values, self.dims or ())

    tolist = nested

    def __iter__(self) -> Iterator[Any]:
        """Iterates over the first axis: over values if it is the only axis, else over tensors. The
        values are numpy's if numpy is installed. Raises TypeError for a tensor without axes."""
        if not self.dims:
            raise TypeError("a tensor without axes can't be iterated: x.item() is its value")
        if len(self.dims) == 1:
            return iter(self.nested() if numpy is None else self.array())
        rest, step = self.dims[1:], self.dims[0]
        return (Tensor(self.values[it::step], rest, self.truth) for it in range(step))

    def __contains__(self, value: Any) -> bool:
        return value in self.values

    def item(self, *index: Any) -> int:
        """Returns the one value, as int or bool. Given one number, returns the value at this offset in C
        order; given several, the value at this index list. Raises ValueError if no index is given and
        the tensor doesn't have exactly one value.

        >>> run(tensor([1, 2]).sum()).item(), tensor(True).item(), tensor([[1, 2]]).item(0, 1)
        (3, True, 2)
        """
        if index:
            return (self if len(index) > 1 else self.ravel())[index].item()
        if len(self.own) != 1:
            raise ValueError(f"item() needs exactly one value, and there are {len(self.own)}")
        return self.own[0] != 0 if self.truth else self.own[0]

    def array(self) -> Any:
        """Returns an int64 array of numpy with the tensor's dims. It has the tensor's own memory, so
        writing into the array changes the tensor. Truth values give an array of dtype bool, which is a
        copy. Raises ImportError without numpy.

        >>> run(tensor([[1, 2], [3, 4]]) + 1).array()
        array([[2, 3],
               [4, 5]])
        """
        if numpy is None:
            raise ImportError("numpy isn't installed: Tensor.nested() gives lists")
        if self.truth:
            flat = numpy.asarray(self.own, dtype=numpy.int64) != 0
        elif isinstance(self.own, list):
            # From here on the values are in the array's memory.
            flat = numpy.array(self.own, dtype=numpy.int64)
            self.own, self.shared = flat.data, True
        else:
            flat = numpy.asarray(self.own).view(numpy.int64)
            self.shared, self.listed = True, None
        dims = self.dims or ()
        if self.turned:
            return flat.reshape(dims)
        return flat if flat.shape == dims else flat.reshape(dims, order="F")

    def __array__(self, dtype: Any = None, copy: Any = None) -> Any:
        found = self.array()
        return found.astype(found.dtype if dtype is None else dtype, copy=bool(copy))

    @property
    def __array_interface__(self) -> Any:
        # The borrower keeps the tensor alive, and `lent` keeps the array alive.
        self.lent = self.array()
        return self.lent.__array_interface__


class Placeholder(Expr):
    """An input without values. A compiled function takes an array for it at each call."""

    __slots__ = ("name", "number")

    def __init__(self, dims: Dims, name: str = "") -> None:
        super().__init__("placeholder", (), dims=dims)
        self.name, self.number = name, next(NUMBERS)

    def __repr__(self) -> str:
        return f"<placeholder{self.name and ' '}{self.name}, dims {self.dims}>"


def placeholder(dims: Any = (), name: str = "") -> Placeholder:
    """Returns an input of these dims, without values, for `compile`. A call of the compiled function can
    name its array by `name`. Raises BadArgument for a size below 0, and TooLarge.

    >>> placeholder((2, 3), "x")
    <placeholder x, dims (2, 3)>
    """
    return Placeholder(rules.legal(rules.sizes(numbers_of(dims))), name)


def tensor_held(values: bytes, dims: Sequence[int], truth: bool) -> Tensor:
    """Returns the tensor of these bytes, 8 for each value. Unpickling calls it."""
    return Tensor(memory_of(values), dims, truth)


def tensor(values: Any, dims: Optional[Sequence[int]] = None) -> Tensor:
    """Returns a tensor of an array, of nested lists, or of a number. With `dims`, `values` is a flat
    list in column-major order.

    The tensor shares the memory of an int64 array without gaps, in C or Fortran order. This holds for
    arrays of numpy, for buffers, and for memory that another library lends (`__array_interface__`,
    `__dlpack__`). An expression reads the values that are in this memory when it runs. Other arrays and
    lists are copied. An array or a list of bools gives truth values.

    Raises TypeError for values that aren't whole numbers, OverflowError for numbers outside the range of
    i64, ValueError for lists of different lengths, BadTensor if `values` doesn't fit `dims`, and
    TooLarge.

    >>> tensor([1, 4, 2, 5, 3, 6], dims=(2, 3)).nested()
    [[1, 2, 3], [4, 5, 6]]
    """
    if dims is not None:
        found, sizes = checked(values), rules.legal(rules.sizes(listed([dims], whole)))
        if rules.product(sizes) != len(found):
            raise BadTensor(f"{len(found)} values for dims {sizes}")
        return Tensor(found, sizes)
    if type(values) is int:
        return Tensor([whole(values)], ())
    if isinstance(values, Tensor):
        return values
    if isinstance(values, Expr):
        raise TypeError("an expression has no values yet: run(it) gives its tensor")
    array = array_of(values)
    if array is not None:
        dims, is_truth = rules.legal(array.shape), array.dtype.kind == "b"
        memory, turned = memory_of_array(array)
        return Tensor(memory, dims, is_truth, shared=True, turned=turned)
    if isinstance(values, range):
        return Tensor(memory_of_range(values), rules.legal([len(values)]))
    lengths, level = unnested(values)
    return Tensor(checked(level), rules.legal(lengths), are_bools(level))


def array_of(values: Any) -> Any:
    """Returns an array of numpy over the memory of an array, of a buffer, or of an object that another
    library lends. Returns None for other objects, and without numpy."""
    if numpy is None or type(values) in PLAIN:
        return None
    if isinstance(values, (numpy.ndarray, numpy.generic)):
        return checked_array(numpy.asanyarray(values))
    if hasattr(values, "__dlpack__"):
        return checked_array(numpy.from_dlpack(values))
    if hasattr(values, "__array_interface__") or isinstance(values, (memoryview, packed)):
        return checked_array(numpy.asarray(values))
    return None


def an_expr(value: Any) -> Expr:
    """Returns a value as an expression. A list that contains expressions becomes one, by `stack`.

    >>> an_expr([tensor([1, 2]).sum(), 7]).dims
    (2,)
    """
    if isinstance(value, Expr):
        return value
    try:
        return tensor(value)
    except Unanswered:
        from .functions import stack

        return stack(value)


def full(dims: Union[int, Sequence[int]], value: int) -> Expr:
    """Returns an expression of these dims with one value at every place. A request has the value once.

    >>> full((2, 3), 7)
    <broadcast, dims (2, 3), 2 nodes>
    """
    sizes = rules.legal(rules.sizes(numbers_of(dims)))
    if 0 in sizes:
        return Tensor([], sizes)
    one = Tensor([value_of(value)], [1] * len(sizes), is_bool(value))
    return one.broadcast(list(sizes)) if sizes else one


def beside(value: Any, expr: Expr) -> Expr:
    """Returns the other operand of an operation on `expr` as an expression. A number becomes an
    expression with the dims of `expr` and this number at every place."""
    if isinstance(value, Expr):
        return value
    if isinstance(value, LISTS) or getattr(value, "shape", None):
        return an_expr(value)
    leaf = expr.leaf if expr.operands else expr
    if leaf is not None:
        return leaf.constant(value)
    return expr.constant(value) if expr.dims is None else full(expr.dims, value)


def where(condition: Any, x: Any, y: Any) -> Expr:
    """Returns x where the condition isn't 0, and y elsewhere. Dims are broadcast as in numpy.

    >>> run(where(tensor([1, 5]) < 4, 10, -1)).values
    [10, -1]
    """
    some = next((it for it in (condition, x, y) if isinstance(it, Expr)), None)
    if some is None:
        some = condition = tensor(condition)
    return beside(condition, some).select(*(beside(it, some) for it in (x, y)))
