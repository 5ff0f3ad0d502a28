"""numpy's functions, made of the request's operations. Examples take their names from the package."""

import inspect
import sys
import typing

from .. import methods
from . import linalg as linalg
from .chosen import *
from .counted import *
from .delegated import or_numpys as _or_numpys
from .einstein import *
from .joined import *
from .made import *
from .matrices import *
from .padded import *
from .products import *
from .rearranged import *
from .reduced import *
from .scans import *
from .valuewise import *

if not typing.TYPE_CHECKING:
    methods.functions = sys.modules[__name__]
    for _name, _it in [*globals().items()]:
        if inspect.isfunction(_it):
            globals()[_name] = _or_numpys(_it)
    for _name in methods.AS_FUNCTIONS:
        setattr(methods.NumpyMethods, _name, globals()[_name])
