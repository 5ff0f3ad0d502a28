"""Runs expressions: by the library in this process, by a process for each request, or by a session,
which keeps a process or a connection open."""

from __future__ import annotations

import threading
from typing import Any, Optional

from .expressions import Expr
from .explaining import explain
from .faults import Fault, ProgramFailed
from .finding import FRAMES, LINES, ONE, built, found, no_library, program_of
from .length import most_nodes
from .library import Library, library_named, library_of
from .memory import FEW
from .processes import Connection, Process, answered_once
from .requests import Settings, answer, fitting_request, framed, header_answer, request
from .results import Result, written
from .rewriting.parts import Ask, at_once_or_in_parts
from .rules import product
from .streams import Deadline, Stream, frame_asked, line_asked
from .tensors import Tensor, an_expr, tensor

WAYS, SESSIONS = ("library", "frames", "process"), ("frames", "lines")
# The seconds that a service of lines has for the first answer, if there is no timeout.
FIRST_SECONDS = 10
NO_PROGRAMS = (
    "a wheel has only the library, which `run` and `compile` use; a release's archive and its Debian "
    "packages have the programs, and ./install of the repository puts them on PATH"
)


def run(
    expr: Any, workers: int = 1, block: int = 4096, version: Optional[int] = None,
    program: Any = None, timeout: Optional[float] = None, way: Optional[str] = None,
    out: Any = None,
) -> Tensor:
    """Evaluates an expression, and returns its tensor.

    `workers` is the number of threads, and `block` the number of places that one takes at a time;
    neither changes a value. `version` is the version of the request, by default the lowest. `way` is
    "library" for the library in this process, or "frames" or "process" for a process that takes a frame
    or a text. By default it is the first way that is found. `program` is the path of the library or the
    program. `timeout` limits the time in seconds, which isn't possible with the library. The values are
    written into `out` if that is given: an int64 array of numpy with the dims of the answer and without
    gaps. After a fault it may have any values. An expression that is too long for one request runs in
    parts.

    Raises a Fault, by its class; TimedOut; ProgramFailed if nothing answers; ValueError for an unknown
    way, for a timeout with the library, or for an `out` with gaps or other dims; and TypeError for any
    other `out` that doesn't fit.

    >>> run(tensor([1, 2]) + 10).nested()
    [11, 12]
    """
    asked, settings, library = an_expr(expr), Settings(workers, block, version), None
    if way is None and program is None and timeout is None:
        library = library_of()
    elif way == "library":
        library = library_asked(program, timeout)

    def ask(it: Expr, place: Any) -> Tensor:
        if library is not None:
            return library.run(it, settings, place)
        return answered(it, settings, program, timeout, way, place)

    return explained(asked, settings, ask, out)


def explained(asked: Expr, settings: Settings, ask: Ask, out: Any) -> Tensor:
    """Returns the tensor of an expression. Gives a fault its reason, if that is found."""
    try:
        return at_once_or_in_parts(asked, ask, out)
    except Fault as fault:
        explain(fault, asked, settings)
        raise


def answered(
    asked: Expr, settings: Settings, program: Any, timeout: Optional[float], way: Optional[str],
    out: Any,
) -> Tensor:
    """Returns the tensor of an expression, by a process for this request."""
    if way == "frames" or (way is None and program is None and built(FRAMES)):
        with Session(program=program, timeout=timeout, way="frames") as session:
            return session._answered(asked, settings, timeout, out)
    if way not in (None, "process"):
        raise ValueError(f"a way is one of {WAYS}, and not {way!r}")
    if way is None and program is None and found(ONE) is None:
        tried = "; ".join((no_library(), FRAMES.tried(), ONE.tried()))
        raise ProgramFailed(f"nothing is found that answers: {tried}")
    text = fitting_request(asked, settings)
    line = answered_once(program_of(program, ONE), text, timeout)
    return written(answer(line), asked, out)


def library_asked(named: Any, timeout: Optional[float]) -> Library:
    """Returns the library for way="library". Raises ValueError for a timeout, since a call of the
    library can't be interrupted."""
    if timeout is not None:
        raise ValueError("the library has no limit of time: a process has one, by way='process'")
    return library_named(named)


def program_of_session(program: Any, way: str) -> str:
    """Returns the path of a session's program. Raises ProgramFailed, which says how to get one."""
    try:
        return program_of(program, FRAMES if way == "frames" else LINES)
    except ProgramFailed as fault:
        raise ProgramFailed(f"{fault}; {NO_PROGRAMS}") from None


class Session:
    """A process that stays open and answers many requests, or a connection to a service.

    `way` is "frames" or "lines", which are texts. By default it is "frames" if that program is found,
    and otherwise "lines". It has to be given with `program`, the path of a program, and with `address`,
    the path of a service's socket or a pair of a host and a port. `timeout` limits the time of each
    answer, and of the connection, in seconds. A request without an answer isn't repeated, and the
    session is over.

    Only one thread at a time uses a session; the others wait. It ends with its `with`, or by close().
    Raises ProgramFailed if there is no program or service, and ValueError without a valid `way`.

    >>> with Session(workers=4) as s:
    ...     s.run(tensor([1, 2]) + 10).nested()
    [11, 12]
    """

    def __init__(
        self, workers: int = 1, block: int = 4096, program: Any = None,
        timeout: Optional[float] = None, way: Optional[str] = None, address: Any = None,
    ) -> None:
        self.workers, self.block, self.timeout = workers, block, timeout
        if program is not None and address is not None:
            raise ValueError(f"a session by {program} or at {address}, and not both")
        if way is None and (program is not None or address is not None):
            what = f"by {program}" if address is None else f"at {address}"
            raise ValueError(f"a session {what}: say its way, one of {SESSIONS}")
        self.way = way or ("frames" if built(FRAMES) else "lines")
        if self.way not in SESSIONS:
            raise ValueError(f"a session's way is one of {SESSIONS}, and not {way!r}")
        self.turn = threading.Lock()
        self.stream: Stream
        if address is None:
            self.stream = Process(program_of_session(program, self.way))
            return
        self.stream = Connection(address, Deadline(timeout))
        if self.way == "lines" and timeout is None:
            # A service of frames would wait for the rest of a frame forever.
            with self.stream:
                line_asked(self.stream, request(tensor(1)), Deadline(FIRST_SECONDS))
            self.stream.answered = 0

    def __enter__(self) -> Session:
        return self

    def __exit__(self, *_: Any) -> None:
        self.close()

    def close(self) -> None:
        """Ends the process, or the connection. A closed session answers nothing more.

        >>> s = Session()
        >>> s.close()
        """
        with self.turn:
            self.stream.close()

    def run(
        self, expr: Any, workers: Optional[int] = None, block: Optional[int] = None,
        version: Optional[int] = None, timeout: Optional[float] = None, out: Any = None,
    ) -> Tensor:
        """Evaluates an expression, and returns its tensor, as the function `run`. By default the
        workers, the block and the timeout are the session's.

        >>> with Session() as s:
        ...     s.run(tensor([1, 2]).sum(), workers=2).item()
        3
        """
        asked = an_expr(expr)
        settings = Settings(
            self.workers if workers is None else workers, self.block if block is None else block,
            version,
        )
        seconds = self.timeout if timeout is None else timeout

        def ask(it: Expr, place: Any) -> Tensor:
            return self._answered(it, settings, seconds, place)

        return explained(asked, settings, ask, out)

    def keep(self, expr: Any) -> Tensor:
        """Returns the tensor of an expression that several requests use. Without it, each request would
        evaluate the expression again. A frame evaluates a part that is used several times in it once.

        >>> with Session() as s:
        ...     part = s.keep(tensor([1, 2]) + 1)
        ...     s.run(part * part).values
        [4, 9]
        """
        return self.run(expr)

    def _answered(self, expr: Expr, settings: Settings, seconds: Optional[float], out: Any) -> Tensor:
        """Returns the tensor of an expression, or raises its fault."""
        if self.way == "lines":
            text = fitting_request(expr, settings)
            with self.turn, self.stream:
                line = line_asked(self.stream, text, Deadline(seconds))
            return written(answer(line), expr, out)
        # A few values are a list, in column-major order.
        is_list = out is None and product(expr.dims or ()) <= FEW
        result = Result(expr, out, False if is_list else None, most_nodes(settings.version))
        asked = framed(result.asked(expr), settings)
        place = result.place_of_frame(asked.held)
        with self.turn, self.stream:
            header, values = frame_asked(self.stream, asked, Deadline(seconds), place)
        return result.of_frame(header_answer(header, values), expr.truth)
