"""numpy's own functions and methods, for what this package doesn't compute and for sorting. They take
tensors as arrays, and expressions as arrays after these have run."""

from __future__ import annotations

import difflib
import functools
import inspect
import operator
import re
from typing import Any, Callable, Iterable, List

from ..expressions import Expr
from ..memory import INT64
from ..tensors import Tensor, an_expr, tensor
from ..values import NumpysOwn, numpy
from .common import flat, moved

Lines = Callable[[List[int]], List[int]]
NOT_LAID_OUT = "only a tensor has values in memory, and run(x) gives one"
WRITTEN = "a tensor isn't written into: x.at[i].set(v) and where(condition, v, x) return another"
# numpy's methods and functions that write into an array.
WRITING = frozenset(
    "at fill put place putmask put_along_axis copyto fill_diagonal itemset setflags setfield".split()
)
# Methods that work in place, while functions with these names don't.
IN_PLACE = frozenset("sort partition resize".split())
# Attributes of a tensor, for which an expression runs.
TENSOR_HAS = "array", "nested", "values"
# What says how values lie in memory.
LAYOUT = frozenset("flags strides isfortran may_share_memory".split())


def as_arrays(value: Any) -> Any:
    """Returns a value with arrays in place of tensors and expressions, which run."""
    if isinstance(value, Expr):
        return value._answered().array()
    if isinstance(value, dict):
        return {name: as_arrays(it) for name, it in value.items()}
    if type(value) in (list, tuple):
        return type(value)(map(as_arrays, value))
    return value


def as_tensors(found: Any) -> Any:
    """Returns a value with tensors in place of arrays of int64 and of bool."""
    if type(found) in (list, tuple):
        return type(found)(map(as_tensors, found))
    is_array = type(found) is numpy.ndarray or isinstance(found, numpy.generic)
    return tensor(found) if is_array and found.dtype in (INT64, bool) else found


class Delegated:
    """A function or a method of numpy, with its own functions, such as `reduce` of gcd. It takes
    tensors, and returns tensors where numpy returns arrays of int64 or of bool."""

    def __init__(self, function: Any) -> None:
        functools.update_wrapper(self, function)
        self.function = function

    def __call__(self, *inputs: Any, **more: Any) -> Any:
        if isinstance(more.get("out"), Expr):
            raise TypeError(WRITTEN)
        if self.__name__ in LAYOUT and any(type(it) is Expr for it in inputs):
            raise TypeError(NOT_LAID_OUT)
        return as_tensors(self.function(*as_arrays(inputs), **as_arrays(more)))

    def __getattr__(self, name: str) -> Any:
        if name == "at":
            raise AttributeError(no_name(self.function.__name__, name, []))
        return Delegated(getattr(self.function, name))


def by_numpy(name: str, *inputs: Any, **more: Any) -> Any:
    """Returns what numpy's function of this name returns. Raises TypeError without numpy."""
    if numpy is None:
        raise TypeError(f"numpy isn't installed, and {name} is a function of numpy")
    return Delegated(operator.attrgetter(name)(numpy))(*inputs, **more)


def or_numpys(function: Any) -> Any:
    """Returns a function that calls this one, or numpy's of its name for fractions, for other dtypes,
    and for arguments that only numpy's has."""
    name, signature = function.__name__, inspect.signature(function)

    @functools.wraps(function)
    def either(*inputs: Any, **more: Any) -> Any:
        try:
            return function(*inputs, **more)
        except TypeError as refused:
            if not hasattr(numpy, name) or not (
                isinstance(refused, NumpysOwn) or is_unfit(signature, inputs, more)
            ):
                raise
        return by_numpy(name, *inputs, **more)

    either.__module__ = __package__ or ""
    return either


def is_unfit(signature: inspect.Signature, inputs: Any, more: Any) -> bool:
    """Whether a function doesn't take these arguments."""
    try:
        signature.bind(*inputs, **more)
    except TypeError:
        return True
    return False


def tensor_by_numpy(name: str, *inputs: Any, **more: Any) -> Tensor:
    """Returns the tensor that numpy's function of this name gives."""
    found: Tensor = by_numpy(name, *inputs, **more)
    return found


def function_of(module: Any, name: str, owner: str, names: Any) -> Any:
    """Returns what a module of numpy has by a name that this package lacks. Raises AttributeError."""
    if not hasattr(module, name):
        # numpy's older name for a function that the array API names otherwise.
        name = re.sub("^a(?=cos|sin|tan)", "arc", name)
    found = None if name.startswith("_") or name in WRITING else getattr(module, name, None)
    if found is None:
        raise AttributeError(no_name(owner, name, names))
    is_function = callable(found) and not isinstance(found, type)
    return Delegated(found) if is_function else found


def method_of(expr: Expr, name: str) -> Any:
    """Returns what numpy's arrays have by a name that expressions lack. A method runs the expression
    when it is called. Raises AttributeError."""
    if name in TENSOR_HAS and not isinstance(expr, Tensor):
        return getattr(expr._answered(), name)
    if name in LAYOUT and not isinstance(expr, Tensor):
        raise AttributeError(f"{type(expr).__name__} has no {name!r}: {NOT_LAID_OUT}")
    of_arrays = None if numpy is None else getattr(numpy.ndarray, name, None)
    if of_arrays is None or name in WRITING | IN_PLACE:
        raise AttributeError(no_name(type(expr).__name__, name, dir(type(expr))))
    if callable(of_arrays):
        return functools.partial(Delegated(of_arrays), expr)
    return getattr(as_arrays(expr), name)


def no_name(owner: str, name: str, names: Iterable[str]) -> str:
    """Returns the message for a name that doesn't exist here.

    >>> print(no_name("Tensor", "sort", []))
    Tensor has no 'sort': sort(x) is a function, and x stays what it is
    """
    said = f"{owner} has no {name!r}"
    if name.startswith("_"):
        return said
    if name in WRITING:
        return f"{said}: {WRITTEN}"
    if name in IN_PLACE:
        return f"{said}: {name}(x) is a function, and x stays what it is"
    like = difflib.get_close_matches(name, [it for it in names if not it.startswith("_")], 1)
    if like:
        return f"{said}, but {like[0]!r}"
    return said + (": numpy has more, and isn't installed" if numpy is None else ", nor has numpy")


def over_lines(function: Lines, a: Any, axis: Any) -> Tensor:
    """Applies a function of lists to each line along an axis, without numpy.

    >>> over_lines(sorted, [[3, 1], [1, 2]], 0).nested()
    [[1, 1], [3, 2]]
    """
    expr, along = flat(a, axis)
    first = moved(expr, along, 0)._answered()
    values, length = first.values, first.shape[0]
    starts = range(0, len(values), max(length, 1))
    found = [it for at in starts for it in function(values[at : at + length])]
    return moved(Tensor(found, first.shape), 0, along)._answered()


def values_of(x: Any) -> List[int]:
    """Returns the values of x in C order. An expression runs."""
    return an_expr(x).ravel()._answered().values
