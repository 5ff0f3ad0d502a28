"""Evaluates expressions by the library in this process: on the calling thread, or in parts by threads of
a pool. The library reads arrays where they lie, and writes answers where they are wanted."""

from __future__ import annotations

import ctypes
import os
from typing import Any, Dict, List, Optional, Tuple

from . import finding
from .expressions import Expr
from .faults import Fault, ProgramFailed, fault_made
from .length import FIRST_NODES, most_nodes
from .memory import LARGE, VALUE, Bytes, as_memory, memory_for, memory_of, place_of
from .requests import DEEPEST, Framed, Settings, framed
from .results import Result
from .rewriting.bindings import bindings_of, with_others
from .rewriting.mirrored import REDUCTIONS
from .rewriting.at_hand import at_hand
from .rules import MOST_ELEMENTS, Dims, product
from .tensors import Tensor
from .threads import FEWEST, parts_worth

# Constants of include/tensor.h.
NO_ROOM, DIMS_ROOM, NAME_ROOM, MOST_PARTS = -100, 9, 16, 256
TEXT_ROOM, TEXT_ROOM_PER_BYTE = 1024, 8
# Sizes for a plan, tried in turn: the first is enough for some hundred nodes.
PLAN_ROOMS = 1 << 14, 1 << 18, 1 << 24
POINTER, SIZE, NUMBER = ctypes.c_void_p, ctypes.c_size_t, ctypes.c_uint64
DIMS, NAME = NUMBER * DIMS_ROOM, ctypes.c_uint8 * NAME_ROOM
# A function that takes a pool and arrays, and what it takes between them: a header, or a plan.
Asked = Tuple[Any, Any]
# The pools of this process, by the path of their library. A forked child opens pools of its own.
POOLS: Dict[str, Optional[int]] = {}
os.register_at_fork(after_in_child=POOLS.clear)


def arrays_of(parts: List[Bytes]) -> Any:
    """Returns the address of each array and its number of values, array by array."""
    pairs = [(place_of(it), memoryview(it).nbytes // VALUE) for it in parts]
    return (NUMBER * (2 * len(pairs)))(*[it for pair in pairs for it in pair])


def typed(function: Any, *arguments: Any) -> Any:
    """Gives a function of the library the types of its arguments and of its result."""
    function.argtypes, function.restype = arguments, ctypes.c_int64
    return function


def check_version(opened: Any, named: str) -> None:
    """Refuses a library that has another version than this client."""
    from . import __version__  # The package has it by the time that a library is opened.

    function = getattr(opened, "tensor_version", None)
    if function is None:
        raise ProgramFailed(f"no library: {named} is older than this client, {__version__}")
    number: int = typed(function)()
    found = f"{number // 1_000_000}.{number // 1_000 % 1_000}.{number % 1_000}"
    if found != __version__:
        raise ProgramFailed(f"no library: {named} is version {found}, and this client {__version__}")


class Library:
    """The library, opened, and its functions. Raises ProgramFailed if it can't be opened."""

    def __init__(self, path: str, by: str = "") -> None:
        self.path = path
        over = [POINTER, SIZE, POINTER, SIZE, NUMBER, POINTER, SIZE]
        try:
            opened = ctypes.CDLL(path)
            self.evaluate: Any = typed(opened.tensor_evaluate, *[POINTER, SIZE] * 4)
            self.shared_by_parts: Any = typed(opened.tensor_shared, *[POINTER, SIZE] * 2)
            self.dims_of_arrays: Any = typed(opened.tensor_dims_of_arrays, *[POINTER, SIZE] * 3)
            self.prepare: Any = typed(opened.tensor_prepare, POINTER, SIZE, NUMBER, POINTER, SIZE)
            # Without types a call converts nothing: a plan has converted the arguments.
            self.run_plan: Any = typed(opened.tensor_run)
            self.explain: Any = typed(opened.tensor_explain, POINTER, SIZE, NUMBER, POINTER, SIZE)
            self.fault_name: Any = typed(opened.tensor_fault_name, ctypes.c_uint32, POINTER, SIZE)
            self.pool_open: Any = typed(opened.tensor_pool_open, SIZE)
            self.pool_run: Any = typed(opened.tensor_pool_run, POINTER, *over, SIZE)
            self.pool_evaluate: Any = typed(opened.tensor_pool_evaluate_arrays, POINTER, *over, SIZE)
            self.pool_close: Any = typed(opened.tensor_pool_close, POINTER)
        except (OSError, AttributeError) as fault:
            raise ProgramFailed(f"no library: {by}{path}: {fault}") from fault
        check_version(opened, f"{by}{path}")
        self.pool_open.restype, self.pool_close.restype = POINTER, None

    def run(self, expr: Expr, settings: Settings, out: Any = None) -> Tensor:
        """Returns the tensor of an expression, or raises its fault."""
        few = LARGE if out is not None or expr.dims is None else product(expr.dims)
        asked = framed(expr, settings) if few < LARGE else None
        if asked is not None and asked.size < LARGE:
            found = self.answered_at_once(asked, few)
            if found is not None:
                found.truth = expr.truth
                return found
        if settings.version in (None, 3):
            expr = at_hand(expr)
        memory = reduced_memory(expr, settings)
        if memory is not None and out is None:
            return self.reduced(expr, memory, settings)
        result = Result(expr, out, most=most_nodes(settings.version))
        wanted = result.asked(expr)
        is_framed = asked is not None and wanted is expr
        if not is_framed and (expr.depth > DEEPEST or expr.nodes > FIRST_NODES):
            # Raises Unfit for an expression that is too long, before any part of it runs.
            asked, is_framed = framed(wanted, settings), True
        with_parts = self.with_parts(wanted, settings) if settings.workers > 1 else wanted
        if asked is None or not is_framed or with_parts is not wanted:
            asked = framed(with_parts, settings)
        return self.written(asked, with_parts, settings, result)

    def written(self, asked: Framed, expr: Expr, settings: Settings, result: Result) -> Tensor:
        """Returns the tensor of an expression that this frame asks for, in the place of the result."""
        parts = [as_memory(it) for it in asked.held]
        arrays, dims = arrays_of(parts), expr.dims
        # If dims of many values are known, the call that writes the values reports a fault.
        if dims is None or not LARGE <= product(dims) <= MOST_ELEMENTS:
            dims = self.dims_over(asked.header, arrays, len(parts))
        values = result.place(dims, arrays)
        count = parts_worth(expr, len(values), settings.workers, lambda: self.shared(asked, arrays))
        self.fill((self.pool_evaluate, asked.header), arrays, len(parts), values, count)
        return result.tensor(values, dims, expr.truth)

    def reduced(self, expr: Expr, memory: memoryview, settings: Settings) -> Tensor:
        """Returns the tensor of a reduction of this memory to one value. It reduces columns of the
        memory, one for each worker, and then their results and the values after the last column."""
        count, alone = min(settings.workers, MOST_PARTS), settings._replace(workers=1)
        length = len(memory) // count
        room = memory_of(bytes(VALUE * count) + memory[length * count :].tobytes())
        found = memory_for(1)

        def reduce(values: memoryview, dims: Dims, out: memoryview) -> None:
            columns = Expr(expr.operation, [Tensor(values, dims)], [[0]], dims[1:])
            asked = self.pool_evaluate, framed(columns, alone).header
            self.fill(asked, arrays_of([values]), 1, out, len(out))

        reduce(memory[: length * count], (length, count), room[:count])
        reduce(room, (len(room),), found)
        return Tensor(found.tolist(), (), expr.truth)

    def with_parts(self, expr: Expr, settings: Settings) -> Expr:
        """Returns an expression in which tensors replace the parts that a request would bind, if some
        have many values. Each thread would evaluate such a part; here all evaluate it together."""
        bound = bindings_of(expr).bound
        if not any(product(it.dims or ()) >= FEWEST for it in (*bound, expr)):
            return expr
        found: Dict[int, Expr] = {}
        for it in bound:
            found[id(it)] = self.run(with_others(it, found), settings)
        return with_others(expr, found) if bound else expr

    def answered_at_once(self, asked: Framed, room: int) -> Optional[Tensor]:
        """Returns the tensor of a frame of few values, or None if it has more values than `room`."""
        header, values, dims = asked.header, b"".join(map(as_memory, asked.held)), DIMS()
        # An array of ctypes, a slice of which is a list.
        out: Any = (ctypes.c_int64 * room)()
        count = self.evaluate(header, len(header), values, asked.size, out, room, dims, DIMS_ROOM)
        if count == NO_ROOM:
            return None
        if count < 0:
            raise self.fault(-count)
        return Tensor(out[:count], dims[1 : 1 + dims[0]])

    def dims_over(self, header: bytes, arrays: Any, many: int) -> Dims:
        """Returns the dims of the tensor of a header and this many arrays. It computes no values, and
        takes no memory for the arrays' values."""
        dims = DIMS()
        size = self.dims_of_arrays(header, len(header), arrays, many, dims, DIMS_ROOM)
        if size < 0:
            raise self.fault(-size)
        return tuple(dims[1 : 1 + dims[0]])

    def shared(self, asked: Framed, arrays: Any) -> int:
        """Returns how many values each part of a frame's answer would compute again, over these arrays."""
        header, many = asked.header, len(asked.held)
        count: int = self.shared_by_parts(header, len(header), arrays, many)
        if count < 0:
            raise self.failed(count)
        return count

    def prepared(self, asked: Framed) -> Any:
        """Returns the plan of a frame: what its header asks for, as an array of numbers."""
        header = asked.header
        for size in PLAN_ROOMS:
            room = (NUMBER * size)()
            length: int = self.prepare(header, len(header), asked.size, room, size)
            if length != NO_ROOM:
                break
        if length < 0:
            raise self.failed(length)
        return (NUMBER * length).from_buffer_copy(room)

    def fill(self, asked: Asked, arrays: Any, many: int, out: memoryview, parts: int) -> None:
        """Writes the values that are asked for of this many arrays, in this number of parts."""
        function, text = asked
        pool, place = self.pool() if parts > 1 else None, place_of(out)
        count = function(pool, text, len(text), arrays, many, 0, place, len(out), parts)
        if count != len(out):
            raise self.failed(count)

    def pool(self) -> Optional[int]:
        """Returns the pool of the library's threads, which is opened once and stays open."""
        found = POOLS.get(self.path)
        if found is None:
            opened = self.pool_open(os.cpu_count() or 1)
            found = POOLS.setdefault(self.path, opened)
            if found != opened:
                self.pool_close(opened)
        return found

    def failed(self, count: int) -> Exception:
        """Returns the exception for a function that didn't return how many values it wrote."""
        if NO_ROOM < count < 0:
            return self.fault(-count)
        return ProgramFailed(f"{self.path} returned {count}")

    def explained(self, asked: Framed) -> str:
        """Returns the lines about a frame: its first fault, and the place and the reason of the fault.
        If the library has no memory for them, it returns no lines."""
        header = asked.header
        size = TEXT_ROOM + TEXT_ROOM_PER_BYTE * len(header)
        room = ctypes.create_string_buffer(size)
        self.explain(header, len(header), asked.size, room, size)
        return room.value.decode(errors="replace")

    def fault(self, number: int) -> Fault:
        name = NAME()
        length = self.fault_name(number, name, NAME_ROOM)
        return fault_made(number, bytes(name[:length]).decode())


def reduced_memory(expr: Expr, settings: Settings) -> Optional[memoryview]:
    """Returns the memory of an input that an expression reduces to one value, or None if one request is
    better: for one worker, few values, or a version before 3, which limits dims."""
    if expr.operation not in REDUCTIONS or expr.dims != () or settings.version not in (None, 3):
        return None
    own = getattr(expr.operands[0], "own", None)
    is_worth = settings.workers > 1 and isinstance(own, memoryview) and len(own) >= FEWEST
    return own if is_worth else None


OPENED: Dict[str, Library] = {}


def library_named(named: Any) -> Library:
    """Returns the library for way="library". Raises ProgramFailed if there is none."""
    found = library_of(named)
    if found is None:
        raise ProgramFailed(f"no library: {finding.no_library()}")
    return found


def library_of(named: Any = None) -> Optional[Library]:
    """Returns the library that the call or the environment names, or else the first that is found, if
    any. Raises ProgramFailed if the named library can't be opened."""
    path = os.environ.get(finding.LIBRARY_VARIABLE, "") if named is None else str(os.fspath(named))
    found = OPENED.get(path)
    if found is None and path:
        found = Library(path, "" if named is not None else f"{finding.LIBRARY_VARIABLE} is ")
    if found is None:
        found = first_library()
    if found is not None:
        OPENED[path] = found
    return found


def first_library() -> Optional[Library]:
    """Returns the first library that is found and has all functions, or None."""
    for path in finding.libraries():
        try:
            return Library(path)
        except ProgramFailed:
            pass
    return None
