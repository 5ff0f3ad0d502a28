"""Asks the library where the fault of a request is, and for what reason."""

from __future__ import annotations

import re

from .expressions import Expr
from .faults import Fault, ProgramFailed, TooLarge
from .library import library_of
from .requests import Settings, fault_of, framed

# The second line: the place of the fault, as a pointer into the header, and the reason.
SAID = re.compile(r"at (.*?): (.*)")


def explain(fault: Fault, expr: Expr, settings: Settings) -> None:
    """Sets the place and the reason of a fault, if it has no reason yet and the library is found. If
    that fails, the fault stays as it is."""
    # Faults with higher numbers, such as a lack of memory, have no reason in the request.
    if fault.why or fault.number > TooLarge.number:
        return
    try:
        library = library_of()
        lines = "" if library is None else library.explained(framed(expr, settings))
    except (Fault, ProgramFailed):
        return
    line, _, rest = lines.partition("\n")
    told, said = fault_of(line), SAID.match(rest)
    if told and said and told.number == fault.number:
        fault.tell(said[2], said[1])
