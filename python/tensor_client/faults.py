"""The faults of a request, each as a class, and the exceptions if nothing answers."""

from __future__ import annotations

from typing import Any, Dict, Tuple, Type

__all__ = [
    "BadArgument", "BadArity", "BadBlock", "BadField", "BadTensor", "BadVersion", "BadWorkers",
    "Fault", "NoMemory", "NotJson", "OutOfRange", "ProgramFailed", "ReadFault", "ShapeMismatch",
    "TimedOut", "TooLarge", "TooLong", "TooManySeconds", "TooManySteps", "TooManyWorkers", "UnknownInput",
    "UnknownOp", "WriteFault",
]


class ProgramFailed(Exception):
    """No program or library is found, or it ended without an answer."""


class TimedOut(ProgramFailed):
    """There was no answer within the time that was given."""


class Fault(Exception):
    """The reason why a request has no tensor, by its number and name in docs/REQUEST.md.

    Faults of dims, axes and arguments are found when an expression is written. They are ValueErrors too,
    and an offset or an axis past the end is an IndexError, as in numpy. NoMemory is a MemoryError.

    >>> str(ShapeMismatch("dims (2,) and (3,) don't fit"))
    "error 12 ShapeMismatch: dims (2,) and (3,) don't fit"
    """

    number: int = 0
    name: str = ""

    def __init_subclass__(cls, number: int = 0) -> None:
        if number:
            cls.number, cls.name = number, cls.__name__

    def __init__(self, why: str = "", place: str = "") -> None:
        super().__init__(why)
        self.why, self.place = why, place

    def tell(self, why: str, place: str = "") -> None:
        """Sets the reason, and the place in the text of the request, as a pointer such as /expr/1."""
        self.why, self.place = why, place

    def __str__(self) -> str:
        where = f" at {self.place}" if self.place else ""
        return f"error {self.number} {self.name}{where}" + (f": {self.why}" if self.why else "")

    def __reduce__(self) -> Tuple[Any, ...]:
        # By number and name: a fault that isn't known here has a class that can't be imported.
        return fault_made, (self.number, self.name, self.why, self.place)


class TooLong(Fault, number=1): ...
class NotJson(Fault, number=2): ...
class BadField(Fault, number=3): ...
class BadVersion(Fault, number=4): ...
class BadWorkers(Fault, number=5): ...
class BadBlock(Fault, number=6): ...
class BadTensor(Fault, ValueError, number=7): ...
class UnknownInput(Fault, number=8): ...
class UnknownOp(Fault, number=9): ...
class BadArity(Fault, number=10): ...
class BadArgument(Fault, ValueError, number=11): ...
class ShapeMismatch(Fault, ValueError, number=12): ...
class OutOfRange(Fault, IndexError, ValueError, number=13): ...
class TooLarge(Fault, ValueError, number=14): ...
class NoMemory(Fault, MemoryError, number=15): ...
class ReadFault(Fault, number=16): ...
class WriteFault(Fault, number=17): ...
class TooManyWorkers(Fault, number=19): ...
class TooManySteps(Fault, number=20): ...
class TooManySeconds(Fault, number=21): ...


FAULTS: Dict[int, Type[Fault]] = {it.number: it for it in Fault.__subclasses__()}


def fault_made(number: int, name: str, why: str = "", place: str = "") -> Fault:
    """Returns a fault with this number and name. It is of its own class if that is known here."""
    known = FAULTS.get(number)
    if known is None or known.name != name:
        known = type(name, (Fault,), {"number": number, "name": name, "__module__": __name__})
    return known(why, place)
