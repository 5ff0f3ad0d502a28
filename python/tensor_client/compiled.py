"""Expressions that are compiled once and called with many arrays. The request is written, read and
checked once, and a call only hands over arrays."""

from __future__ import annotations

import ctypes
import functools
import inspect
import struct
from itertools import accumulate
from typing import Any, Callable, Dict, Iterable, List, Sequence, Tuple, overload

from .explaining import explain
from .expressions import Expr
from .faults import Fault, ShapeMismatch
from .length import MOST_NODES
from .library import NUMBER, POINTER, SIZE, Library, arrays_of, library_of
from .memory import (
    INT64, LARGE, VALUE, Bytes, Held, as_memory, memory_for, memory_of, packed_bytes, place_of,
)
from .requests import Settings, framed
from .results import Result, lies_as_it_is
from .rewriting.at_hand import at_hand
from .rewriting.bindings import in_order, with_others
from .rules import Dims, product
from .running import run
from .tensors import Placeholder, Tensor, an_expr, placeholder, tensor
from .threads import parts_worth
from .values import numpy

# An answer of at most this many values is a list, which costs less than new memory.
FEW = 64
ARRAY = None if numpy is None else numpy.ndarray
addressof: Callable[[Any], int] = ctypes.addressof
from_buffer: Callable[[Any], Any] = ctypes.c_char.from_buffer


@overload
def compile(what: Expr, *, workers: int = 1) -> Compiled: ...


@overload
def compile(what: Callable[..., Any], *, workers: int = 1) -> Traced: ...


@overload
def compile(*, workers: int = 1) -> Callable[[Callable[..., Any]], Traced]: ...


def compile(what: Any = None, *, workers: int = 1) -> Any:
    """Returns a function of arrays that evaluates an expression over placeholders. It takes an array for
    each placeholder, by position in the order in which the placeholders were made, or by name. It
    returns a tensor, and takes `out` as `run` does.

    Given a Python function of expressions, `compile` returns a function of arrays. It calls the Python
    function once for each new combination of dims of its arguments. `workers` is the number of threads.
    Without the library each call is a `run`. A call raises ShapeMismatch if an array has other dims than
    its placeholder, and TypeError if an array is missing.

    >>> x, y = placeholder(2), placeholder(2)
    >>> f = compile(x * 10 + y)
    >>> f([1, 2], [3, 4]).values, f([5, 6], [7, 8]).values
    ([13, 24], [57, 68])
    >>> @compile
    ... def total(x, y):
    ...     return (x * y).sum()
    >>> int(total([1, 2], [3, 4])), int(total([1, 2, 3], 10))
    (11, 60)
    """
    if what is None:
        return functools.partial(compile, workers=workers)
    if isinstance(what, Expr):
        return Compiled(what, placeholders_of(what), Settings(workers))
    if callable(what):
        return Traced(what, Settings(workers))
    raise TypeError(f"compile takes an expression or a function, and no {type(what).__name__}")


def placeholders_of(expr: Expr) -> List[Placeholder]:
    """Returns the placeholders of an expression, in the order in which they were made."""
    found: Dict[int, Placeholder] = {}
    left, seen = [expr], set()
    while left:
        it = left.pop()
        if isinstance(it, Placeholder):
            found[it.number] = it
        elif id(it) not in seen:
            seen.add(id(it))
            left += it.operands
    return [found[it] for it in sorted(found)]


def as_lent(expr: Expr) -> Expr:
    """Returns the expression over the memory of all its arrays, also of small ones. So each call reads
    what was written into them before."""
    few = {
        id(it): Tensor(it.own, it.dims or (), it.truth, turned=True)
        for it in in_order(expr)
        if isinstance(it, Tensor) and it.turned and not it.is_mirrored
    }
    return with_others(expr, few) if few else expr


def fitting(value: Any, dims: Dims) -> Tensor:
    """Returns an array of a call as a tensor. Raises ShapeMismatch for other dims than these."""
    found = tensor(value)
    if found.dims != dims:
        raise ShapeMismatch(f"an array of dims {found.dims} where a placeholder has {dims}")
    return found


def lying(value: Any, dims: Dims, may_be_turned: bool = False) -> Tuple[Bytes, bool]:
    """Returns the memory of an array of a call, and whether it lies in C order, if it may."""
    if type(value) is list and dims == (len(value),) and {*map(type, value)} == {int}:
        try:
            return packed_bytes(value), False
        except struct.error:
            pass  # A number outside the range of i64, which is refused below.
    found = fitting(value, dims)
    is_turned = found.turned and may_be_turned
    return as_memory(found.own if is_turned else found.held), is_turned


class Plan:
    """What the library has prepared for an expression whose inputs lie in these orders. A plan also has
    the other arrays that the library takes: the arrays in the expression itself, as they lay when it was
    made."""

    def __init__(
        self, library: Library, expr: Expr, inputs: Sequence[Tensor], settings: Settings, out: Any
    ) -> None:
        expr = at_hand(as_lent(expr))
        result = Result(expr, out)
        # A few values are a list, in column-major order.
        if out is None and product(expr.dims or ()) <= FEW:
            result.turned = False
        self.is_turned, self.truth = result.turned, expr.truth
        expr = result.asked(expr)
        frame = framed(expr, settings, settings.workers > 1)
        parts = [as_memory(it) for it in frame.held]
        arrays = arrays_of(parts)
        self.dims = library.dims_over(frame.header, arrays, len(parts))
        self.size, self.numbers = product(self.dims), library.prepared(frame)
        workers = settings.workers
        self.parts = parts_worth(expr, self.size, workers, lambda: library.shared(frame, arrays))
        # `pairs` has the address and the size of each array. `slots` says which of these numbers is the
        # address of which array of a call, or of a part of it, and how many bytes are before the part.
        self.pairs: List[int] = arrays[:]
        given = [memoryview(as_memory(it.own)) for it in inputs]
        numbers = {id(it.obj): at for at, it in enumerate(given) if it}
        self.kept, self.slots = [], []
        for at, it in enumerate(parts):
            which = numbers.get(id(memoryview(it).obj)) if it else None
            if which is None:
                self.kept.append(it)
            else:
                self.slots.append((2 * at, which, arrays[2 * at] - place_of(given[which])))
        self.packed = struct.Struct(f"@{len(arrays)}Q").pack
        # Arguments of the library's function, before and after the arrays: calls convert nothing.
        self.text = ctypes.byref(self.numbers), SIZE.from_param(len(self.numbers))
        self.many, self.first = SIZE.from_param(len(parts)), NUMBER.from_param(0)
        self.length = SIZE.from_param(self.size)

    def pairs_at(self, places: Sequence[int]) -> List[int]:
        """Returns the address and size of each array, with the arrays of a call at these addresses."""
        pairs = self.pairs[:]
        for at, which, offset in self.slots:
            pairs[at] = places[which] + offset
        return pairs

    def arguments(self, pairs: Sequence[int], out: memoryview) -> Tuple[Any, ...]:
        """Returns the arguments of the library's function for these arrays and memory for an answer."""
        place = POINTER.from_param(place_of(out))
        return (*self.text, self.packed(*pairs), self.many, self.first, place, self.length)

    def fill(self, library: Library, pairs: Sequence[int], out: memoryview) -> None:
        """Writes the answer for these arrays."""
        if self.parts > 1:
            asked, many = (library.pool_run, self.numbers), len(pairs) // 2
            library.fill(asked, self.packed(*pairs), many, out, self.parts)
            return
        count = library.run_plan(*self.arguments(pairs, out))
        if count != self.size:
            raise library.failed(count)


class Workspace:
    """Memory for one call at a time: for the values of its arrays, in column-major order, and for its
    answer. The arguments of the library's function name this memory, and are made once."""

    def __init__(self, plan: Plan, shapes: Sequence[Dims]) -> None:
        self.size, self.dims, self.truth = plan.size, plan.dims, plan.truth
        begins = [VALUE * it for it in accumulate(map(product, shapes), initial=0)]
        self.memory = bytearray(max(begins[-1], VALUE))
        self.answer = memory_for(plan.size)
        self.spans = [slice(*it) for it in zip(begins, begins[1:])]
        self.arrays: List[Any] = [
            numpy and numpy.ndarray(dims, INT64, self.memory, begin, order="F")
            for dims, begin in zip(shapes, begins)
        ]
        place = addressof(from_buffer(self.memory))
        pairs = plan.pairs_at([place + it for it in begins])
        self.arguments = plan.arguments(pairs, self.answer)


class Compiled:
    """A compiled expression: a function of arrays that returns a tensor."""

    def __init__(self, expr: Expr, inputs: Sequence[Placeholder], settings: Settings) -> None:
        self.expr, self.inputs, self.settings = expr, list(inputs), settings
        self.dims: List[Dims] = [it.dims or () for it in inputs]
        # With too many nodes, arrays in C order are copied to column-major order.
        self.as_they_lie = lies_as_it_is(expr, MOST_NODES)
        self.library = library_of()
        self.plans: Dict[Any, Plan] = {}
        # A few values are copied, which costs less than to ask for addresses. The copy of an answer with
        # several axes would lie in another order.
        dims = (0,) if expr.dims is None else expr.dims
        most = FEW if len(dims) > 1 or settings.workers > 1 else LARGE
        self.is_few = 0 < product(dims) <= most and sum(map(product, self.dims)) <= 2 * LARGE
        # The workspaces that no call uses: calls at the same time have one each.
        self.spare: List[Workspace] = []

    def __repr__(self) -> str:
        return f"<compiled {self.expr!r} of {len(self.inputs)} arrays>"

    def __call__(self, *values: Any, out: Any = None, **named: Any) -> Tensor:
        """Returns the tensor of the expression over these arrays."""
        if named or len(values) != len(self.inputs):
            values = self._in_order(values, named)
        library = self.library
        if library is None:
            return run(self._filled(values), *self.settings, out=out)
        if not self.is_few or out is not None:
            return self._at_length(library, values, out)
        try:
            own = self.spare.pop()
        except IndexError:
            own = Workspace(self._plan(library, 1 << len(values)), self.dims)
        for value, dims, array, span in zip(values, self.dims, own.arrays, own.spans):
            if type(value) is ARRAY and value.dtype is INT64 and value.shape == dims:
                array[...] = value
            else:
                own.memory[span] = lying(value, dims)[0]
        count = library.run_plan(*own.arguments)
        if count != own.size:
            raise library.failed(count)
        answer: Held = own.answer.tolist() if own.size <= FEW else memory_of(own.answer)
        self.spare.append(own)
        return Tensor(answer, own.dims, own.truth)

    def _in_order(self, values: Sequence[Any], named: Dict[str, Any]) -> Tuple[Any, ...]:
        """Returns the arrays of a call, some of which are named, in the order of the placeholders."""
        left = dict(named)
        behind = [left.pop(it.name) for it in self.inputs[len(values) :] if it.name in left]
        if left or len(values) + len(behind) != len(self.inputs):
            raise TypeError(f"{self!r} takes an array for each of {self.inputs!r}")
        return (*values, *behind)

    def _filled(self, values: Iterable[Any]) -> Expr:
        """Returns the expression with these arrays in place of its placeholders."""
        return with_others(
            self.expr, {id(it): fitting(value, it.dims or ()) for it, value in zip(self.inputs, values)}
        )

    def _place(self, value: Any, dims: Dims) -> Tuple[int, Any, bool]:
        """Returns the address of an array of a call, an object that keeps its memory, and whether it
        lies in C order."""
        if type(value) is ARRAY and value.dtype is INT64 and value.shape == dims:
            is_turned = len(dims) > 1 and not value.flags.f_contiguous
            try:
                # from_buffer takes memory in C order, without gaps, that can be written.
                place = addressof(from_buffer(value if is_turned or len(dims) < 2 else value.T))
                if not place % VALUE and (self.as_they_lie or not is_turned):
                    return place, value, is_turned
            except (TypeError, ValueError):
                pass
        memory, is_turned = lying(value, dims, self.as_they_lie)
        return place_of(memory), memory, is_turned

    def _at_length(self, library: Library, values: Sequence[Any], out: Any) -> Tensor:
        """Returns the answer to a call that has many values or `out`."""
        places, kept, key = [], [], 1
        for value, dims in zip(values, self.dims):
            place, memory, is_turned = self._place(value, dims)
            places.append(place)
            kept.append(memory)
            key += key + is_turned
        result = Result(self.expr, out, False)
        plan = self._plan(library, key, out)
        result.turned, pairs = plan.is_turned, plan.pairs_at(places)
        # If `out` overlaps an input, the answer goes to new memory first.
        found = memory_for(plan.size) if out is None else result.place(plan.dims, pairs)
        plan.fill(library, pairs, found)
        return result.tensor(found, plan.dims, plan.truth)

    def _plan(self, library: Library, key: int, out: Any = None) -> Plan:
        """Returns the plan for arrays in these orders, which is made once. The key has a bit for each
        array: 1 for C order."""
        order = None if out is None else bool(out.flags.f_contiguous)
        plan = self.plans.get((key, order))
        if plan is not None:
            return plan
        stand_ins = [
            Tensor(memory_for(product(dims)), dims, turned=bit == "1")
            for dims, bit in zip(self.dims, bin(key)[3:])
        ]
        expr = self._filled(stand_ins)
        try:
            plan = self.plans[key, order] = Plan(library, expr, stand_ins, self.settings, out)
            return plan
        except Fault as fault:
            explain(fault, expr, self.settings)
            raise


class Traced:
    """A Python function of expressions, as a function of arrays. The Python function is called once for
    each combination of dims, with placeholders of these dims."""

    def __init__(self, function: Callable[..., Any], settings: Settings) -> None:
        functools.update_wrapper(self, function)
        self.function, self.settings = function, settings
        self.made: Dict[Any, Compiled] = {}

    def __call__(self, *values: Any, out: Any = None, **named: Any) -> Tensor:
        """Returns the tensor of the function's expression over these arrays."""
        if named:
            values = inspect.signature(self.function).bind(*values, **named).args
        arrays: List[Any] = [it if type(it) is ARRAY else tensor(it) for it in values]
        shapes = tuple([it.shape for it in arrays])
        found = self.made.get(shapes)
        if found is None:
            found = self.made[shapes] = self.traced(shapes)
        return found(*arrays) if out is None else found(*arrays, out=out)

    def traced(self, shapes: Sequence[Dims]) -> Compiled:
        """Compiles the function's expression over placeholders of these dims.

        >>> compile(lambda x, y: x + y).traced([(2,), (2,)]).expr
        <add, dims (2,), 3 nodes>
        """
        inputs = [placeholder(it) for it in shapes]
        return Compiled(an_expr(self.function(*inputs)), inputs, self.settings)
