"""numpy's own functions with expressions and tensors among their arguments. If an expression hasn't run,
and this package has a function of the same name, that function is called and returns an expression.
Other functions take arrays, for which expressions run."""

from __future__ import annotations

from typing import Any, Dict, Sequence

from .. import functions
from ..expressions import Expr
from ..operations import OPERATIONS
from ..tensors import Tensor
from .delegated import as_arrays

# The functions that an operator with an array on the left calls.
OPERATORS = {"matmul", "power", "divmod"}.union(it.numpy for it in OPERATIONS.values() if it.operator)


def of_ufunc(function: Any, method: str, inputs: Sequence[Any], more: Dict[str, Any]) -> Any:
    """Returns what an elementwise function gives. An operator with an array on the left and a tensor on
    the right comes here too: it gives an expression, as with the tensor on the left."""
    name = function.__name__
    places = [*(more.get("out") or ()), *inputs[: method == "at"]]
    is_operator = method == "__call__" and name in OPERATORS and not isinstance(inputs[0], Expr)
    found = getattr(functions, name, None)
    if any(isinstance(it, Expr) for it in places):
        raise TypeError("a tensor isn't written into: run(x, out=..) writes into an array")
    is_ours = has_expressions([inputs, more]) or (is_operator and not more)
    if found is not None and is_ours and not places:
        return (found if method == "__call__" else getattr(found, method))(*inputs, **more)
    return getattr(function, method)(*as_arrays(inputs), **as_arrays(more))


def of_function(function: Any, inputs: Sequence[Any], more: Dict[str, Any]) -> Any:
    """Returns what another of numpy's functions gives."""
    is_linalg = getattr(function, "__module__", "") == "numpy.linalg"
    found = vars(functions.linalg if is_linalg else functions).get(function.__name__)
    if callable(found) and more.get("out") is None and has_expressions([inputs, more]):
        return found(*inputs, **more)
    return function(*as_arrays(inputs), **as_arrays(more))


def has_expressions(value: Any) -> bool:
    """Whether this is an expression that hasn't run, or a list or a dict with one in it."""
    if isinstance(value, Expr):
        return not isinstance(value, Tensor)
    if isinstance(value, dict):
        return any(map(has_expressions, value.values()))
    return isinstance(value, (list, tuple)) and any(map(has_expressions, value))
