"""The text or the frame that asks for an expression, and the tensor of an answer."""

from __future__ import annotations

import json
from functools import lru_cache
from operator import itemgetter
from typing import Any, Callable, Dict, Iterable, List, NamedTuple, Optional, Set, Tuple, Union

from .expressions import Expr
from .faults import BadVersion, Fault, TooLong, fault_made
from .length import (
    FIRST_NODES, FIRST_VALUES, MAX_TEXT, MAX_VALUES, Unfit, most_nodes, too_long_text,
    too_many_nodes, too_many_values,
)
from .memory import Held
from .operations import OPERATIONS
from .rewriting.bindings import ALONG_AN_AXIS, FEWEST, Bindings, bindings_of, bound_by_depth
from .rewriting.chains import GROUPED, balanced
from .rewriting.texts import as_in_texts
from .rules import FIRST_ELEMENTS, FIRST_PRODUCTS, MOST_ELEMENTS, Dims, places, product
from .tensors import Placeholder, Tensor, an_expr
from .values import whole

# Limits of version 1. More axes and workers need version 2. More elements, products, places of a block
# and nodes need version 3.
FIRST_RANK, FIRST_WORKERS = 6, 64
# The first version that has an operation, if it isn't 1. Texts don't have version 3.
VERSIONS = {it.name: it.version for it in OPERATIONS.values() if it.version > 1}
VERSIONS.update(dict.fromkeys("stride pad concat convolve".split(), 2))
VERSIONS.update(dict.fromkeys(ALONG_AN_AXIS, 3))
LAST_OF_TEXTS = 2
# The most operations inside one another, which leaves room in a text for its object and two arrays of
# an argument; and the most arrays inside one another.
DEEPEST, MOST_NESTED = 120, 126
# The fewest bytes of a node in a text: a name, and the comma after it.
LEAST_NODE = 5

# The text of a JSON value, without spaces.
compact: Callable[[Any], str] = json.JSONEncoder(separators=(",", ":")).encode


@lru_cache(maxsize=1000)
def opening(operation: str) -> str:
    """Returns the beginning of an operation's text, with the comma before it."""
    return ",[" + compact(operation)


def commas(numbers: Iterable[int]) -> str:
    return ",".join(map(str, numbers))


@lru_cache(maxsize=1000)
def dims_text(dims: Dims) -> str:
    """Returns the member of a tensor's text that has its dims.

    >>> dims_text((2, 3))
    '"dims":[2,3]'
    """
    return f'"dims":[{commas(dims)}]'


@lru_cache(maxsize=1000)
def version_of(dims: Dims) -> int:
    """Returns the first version that has tensors of these dims.

    >>> version_of((1_048_576,)), version_of((2,) * 7), version_of((2_097_152, 0))
    (1, 2, 3)
    """
    if FIRST_ELEMENTS < places(dims) <= MOST_ELEMENTS:
        return 3
    return 2 if len(dims) > FIRST_RANK else 1


def version_for(expr: Expr) -> int:
    """Returns the first version that has an operation, and a convolution of this many products. A
    contraction of more products than version 2 has is of dims that it doesn't have.

    >>> x = tensor([0] * 65_537)
    >>> version_for(x.convolve([0] * 9, 0)), version_for(x.convolve([0] * 32_513, 0))
    (2, 3)
    """
    found = VERSIONS.get(expr.operation, 1)
    if expr.operation == "convolve" and expr.dims is not None:
        summed = expr.operands[1].dims or ()
        if product(expr.dims) * product(summed) > FIRST_PRODUCTS:
            return 3
    return found


def nested(text: str) -> int:
    """Returns how many arrays of a text are inside one another.

    >>> nested('["sum","x0",[0]]')
    2
    """
    depth = found = 0
    for it in text:
        depth += (it == "[") - (it == "]")
        found = max(found, depth)
    return found


class Text:
    """The text of an expression and of its bindings, as it is put together. Inputs are named in the
    order in which they appear. The version is the lowest that has all operations, dims and numbers of
    products. What is left of the tree is kept in a list, so that a tree can be of any depth.

    With `looks` the text ends at the first operation that appears a second time.
    """

    def __init__(
        self, expr: Expr, bindings: Optional[Bindings] = None, most: int = 0, looks: bool = False,
    ) -> None:
        parts, nodes, depth = bindings or ((), expr.nodes, expr.depth)
        self.names: Dict[int, Tuple[str, Tensor]] = {}
        # The names of bound parts, as the text has them.
        self.bound: Dict[int, str] = {}
        self.version, self.nodes, self.balance = 1, nodes, depth > DEEPEST
        # Inputs are taken as they lie in memory if `most` allows one more node for each.
        self.as_they_lie = 2 * nodes <= most
        self.seen: Optional[Set[int]] = set() if looks else None
        self.stands_again, self.dims = False, expr.dims
        pieces: List[str] = []
        for number, part in enumerate(parts):
            name = f',"y{number}"'
            pieces.append(f',["let"{name}')
            self.put(part, pieces)
            self.bound[id(part)] = name
        self.see(expr.dims)
        self.put(expr, pieces)
        if self.bound:
            pieces.append("]" * len(self.bound))
        # Each piece begins with a comma, except an end.
        self.text = "".join(pieces)[1:]

    def put(self, expr: Expr, pieces: List[str]) -> None:
        """Appends the text of an expression to `pieces`."""
        bound, seen = self.bound, self.seen
        left: List[Union[Expr, str]] = [expr]
        while left:
            it = left.pop()
            if isinstance(it, Tensor):
                pieces.append(self.name_of(it))
            elif isinstance(it, str):
                pieces.append(it)
            elif bound and id(it) in bound:
                pieces.append(bound[id(it)])
            else:
                if seen is not None:
                    if id(it) in seen:
                        self.stands_again = True
                        return
                    seen.add(id(it))
                pieces.append(self.begun(it, left))

    def name_of(self, it: Tensor) -> str:
        """Returns the text for an input: its name, or a shuffle of it if it is taken in C order. An
        input that appears for the first time gets a name."""
        found = self.names.get(id(it))
        if found is None:
            if it.dims is not self.dims:
                self.see(it.dims)
            found = self.names[id(it)] = f',"x{len(self.names)}"', it
        if self.as_they_lie and it.is_mirrored:
            self.nodes += 1
            axes = commas(reversed(range(len(it.dims or ()))))
            return f',["shuffle"{found[0]},[{axes}]]'
        return found[0]

    def lying(self, it: Tensor) -> Tuple[Dims, Held]:
        """Returns the dims and the values of an input as a request takes them."""
        dims = it.dims or ()
        return (dims[::-1], it.own) if self.as_they_lie and it.is_mirrored else (dims, it.held)

    def begun(self, it: Expr, left: List[Union[Expr, str]]) -> str:
        """Returns the beginning of an operation's text. What follows it is put on the list `left`."""
        if isinstance(it, Placeholder):
            raise TypeError(
                f"{it!r} has no values until the compiled function is called: so no part of it can run "
                "while it is compiled, for bool, int, a list, sort or x[mask]"
            )
        if it.dims is not self.dims:
            self.see(it.dims)
        if it.operation in VERSIONS:
            self.version = max(self.version, version_for(it))
        if self.balance and it.operation in GROUPED and len(it.operands) == 2:
            it = balanced(it, self.bound)
        arguments = "".join(["," + compact(more) for more in it.arguments]) if it.arguments else ""
        left.append(arguments + "]")
        left.extend(reversed(it.operands))
        return opening(it.operation)

    def fits(self, most: int) -> bool:
        """Whether a request of at most `most` nodes can have this text."""
        return self.nodes <= most and not (self.balance and nested(self.text) > MOST_NESTED)

    def see(self, dims: Optional[Dims]) -> None:
        """Raises the version to one that has these dims."""
        self.dims = dims
        if dims is not None:
            self.version = max(self.version, version_of(dims))


class Settings(NamedTuple):
    """What a request says besides its expression: the number of workers, the places of a block, and the
    version, which is the lowest that has everything if it isn't given."""

    workers: int = 1
    block: int = 4096
    version: Optional[int] = None


def text_of(expr: Expr, bindings: Optional[Bindings] = None, most: int = 0) -> Text:
    """Returns the text of an expression. Raises TooLong if it has too many nodes for any text. If `most`
    nodes are enough for it, inputs are taken as they lie in memory."""
    nodes = expr.nodes if bindings is None else bindings.nodes
    if nodes > MAX_TEXT // LEAST_NODE:
        raise TooLong(too_many_nodes(expr, FIRST_NODES))
    return Text(expr, bindings, most)


def text_of_texts(expr: Expr, version: Optional[int], most: int = 0) -> Text:
    """Returns the text of an expression. Below version 3, other operations replace the operations along
    one axis."""
    found = text_of(expr, None, most)
    if found.version <= LAST_OF_TEXTS or version not in (None, 1, 2):
        return found
    return text_of(as_in_texts(expr), None, most)


def text_that_fits(expr: Expr, version: Optional[int], most: int = 0) -> Text:
    """Returns the text of an expression for a program of texts. Raises Unfit if it is too large."""
    if expr.nodes <= FIRST_NODES:
        found = text_of_texts(expr, version, most)
        if found.fits(FIRST_NODES):
            return found
    raise Unfit(as_in_texts(expr), FIRST_NODES)


def text_of_frame(expr: Expr, version: Optional[int], is_apart: bool) -> Text:
    """Returns the text of an expression in a frame. If the version allows it, parts that appear several
    times are bound, and if it nests too deep, deep parts too. Raises Unfit if it is too large."""
    most = most_nodes(version)
    if most == FIRST_NODES:
        return text_that_fits(expr, version, most)
    if expr.nodes <= most:
        found = Text(expr, None, most, looks=expr.nodes >= FEWEST)
        if not found.stands_again and found.fits(most):
            return found
    for bound in (bindings_of, bound_by_depth):
        for is_alone in (is_apart, True):
            bindings = bound(expr, is_alone)
            if bindings.nodes <= most:
                found = Text(expr, bindings, most)
                if found.fits(most):
                    return found
    raise Unfit(expr, most)


def whole_text(found: Text, settings: Settings, inputs: Iterable[str]) -> str:
    """Returns the text of a request, given the texts of its inputs. Raises TooLong."""
    workers, version = whole(settings.workers), settings.version
    least = max(found.version, 2) if workers > FIRST_WORKERS else found.version
    text = (
        f'{{"version":{least if version is None else whole(version)},"workers":{workers},'
        f'"block":{whole(settings.block)},"inputs":{{{",".join(inputs)}}},"expr":{found.text}}}'
    )
    if len(text) > MAX_TEXT:
        values = sum(len(it.own) for _, it in found.names.values())
        raise TooLong(too_long_text(len(text), values))
    return text


def request(expr: Any, workers: int = 1, block: int = 4096, version: Optional[int] = None) -> str:
    """Returns the text that asks for an expression. Its version is the lowest that has the operations, the
    dims, the number of products and this number of workers. A part that is used twice appears twice in
    the text, and other operations replace operations along one axis. Raises BadVersion and TooLong.

    >>> print(request(tensor(5)))
    {"version":1,"workers":1,"block":4096,"inputs":{"x0":{"dims":[],"data":[5]}},"expr":"x0"}
    """
    return as_text(text_of_texts(an_expr(expr), version), Settings(workers, block, version))


def fitting_request(expr: Expr, settings: Settings) -> str:
    """Returns the text that asks for an expression. Raises Unfit if no program of texts takes it."""
    return as_text(text_that_fits(expr, settings.version), settings)


def as_text(found: Text, settings: Settings) -> str:
    """Returns the text of a request with the values of its inputs. Raises BadVersion and TooLong."""
    if settings.version is None and found.version > LAST_OF_TEXTS:
        why = (
            f"integer operations, more than {FIRST_ELEMENTS:,} places, or more than "
            f"{FIRST_PRODUCTS:,} products need it"
        )
        raise BadVersion(f"no text has version {found.version}; {why}: use the library and frames")
    inputs = (
        f'{name[1:]}:{{{dims_text(it.dims or ())},"data":[{commas(it.values)}]}}'
        for name, it in found.names.values()
    )
    return whole_text(found, settings, inputs)


class Framed(NamedTuple):
    """A request as a frame: the header, the number of values after it, and the values of each tensor."""

    header: bytes
    size: int
    held: List[Held]


def framed(expr: Expr, settings: Settings, is_apart: bool = False) -> Framed:
    """Returns the frame that asks for an expression. Its tensors are in the order of their names.
    `is_apart` says that threads compute parts of the answer apart. Raises Unfit and TooLong.

    >>> framed(tensor([5, 7]), Settings()).header
    b'{"version":1,"workers":1,"block":4096,"inputs":{"x0":{"dims":[2]}},"expr":"x0"}'
    """
    found = text_of_frame(expr, settings.version, is_apart)
    named = list(found.names.values())
    if len(named) > 10:
        # "x10" comes right after "x1".
        named.sort(key=itemgetter(0))
    held, inputs, size = [], [], 0
    for name, it in named:
        dims, values = found.lying(it) if it.turned else (it.dims or (), it.own)
        held.append(values)
        inputs.append(f"{name[1:]}:{{{dims_text(dims)}}}")
        size += len(values)
    is_more = size > FIRST_VALUES or settings.block > FIRST_ELEMENTS
    if is_more or found.bound or found.nodes > FIRST_NODES:
        found.version = 3
    most = FIRST_VALUES if settings.version in (1, 2) else MAX_VALUES
    if size > most:
        raise TooLong(too_many_values(size, most))
    return Framed(whole_text(found, settings, inputs).encode(), size, held)


def fault_of(line: str, why: str = "") -> Optional[Fault]:
    """Returns the fault that a line reports, or None for any other line."""
    words = line.split()
    if len(words) != 3 or words[0] != "error" or not words[1].isdigit():
        return None
    return fault_made(int(words[1]), words[2], why)


def answer(line: str, why: str = "") -> Tensor:
    """Returns the tensor in an answer's line. For an error it raises the fault, with the reason `why`.

    >>> answer('{"data":[5,7,9],"dims":[3]}').nested()
    [5, 7, 9]
    """
    fault = fault_of(line, why)
    if fault:
        raise fault
    found = json.loads(line)
    return Tensor(found["data"], found["dims"])


def header_answer(header: bytes, values: Held) -> Tensor:
    """Returns the tensor of an answer's frame. If the frame is an error, raises its fault."""
    fault = fault_of(header.decode()) if header.startswith(b"error ") else None
    if fault:
        raise fault
    return Tensor(values, dims_of(header))


@lru_cache(maxsize=1000)
def dims_of(header: bytes) -> Dims:
    """Returns the dims in the header of an answer's frame.

    >>> dims_of(b'{"dims":[2,3]}')
    (2, 3)
    """
    return tuple(json.loads(header)["dims"])
