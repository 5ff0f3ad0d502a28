"""Builds tensor expressions of 64-bit integers, and evaluates them by a library in this process or by a
program.

    from tensor_client import run, tensor, where
    x = tensor([[1, 2, 3], [4, 5, 6]])
    run(where(x < 4, x * 10, x)).nested()

Python's standard library is enough. If numpy is installed, tensors are made of arrays and return arrays.

The values of a tensor are column-major, the first axis fastest, in a request, in an answer and in
`Tensor.values` (numpy's order="F"), whatever the order of lists and arrays.
"""

import typing
from builtins import bool as bool

from .expressions import Expr as Expr  # Before tensors, which need it and which it needs.

from .compiled import compile as compile
from .faults import *
from .functions import *
from .functions.delegated import function_of as _function_of
from .requests import answer as answer, request as request
from .running import Session as Session, run as run
from .tensors import Tensor as Tensor, placeholder as placeholder, tensor as tensor
from .values import GREATEST as GREATEST, LEAST as LEAST, numpy as _numpy

__version__ = "4.1.0"

# numpy's names for a new axis in an index, and for the dtypes that values can have.
newaxis = None
int64 = int_ = int
bool_ = bool

if not typing.TYPE_CHECKING:
    # All names above, except modules.
    __all__ = [
        name
        for name, it in globals().items()
        if not name.startswith("_") and (name == "linalg" or not isinstance(it, type(typing)))
    ]
    __all__ += ["__version__"]

    def __getattr__(name):
        """Returns what numpy has and this package lacks."""
        return _function_of(_numpy, name, "tensor_client", __all__)
