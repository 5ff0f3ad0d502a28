"""Finds the programs and the library: by the environment, installed, or in the repository. It builds
nothing. If nothing was built in the repository, its release is used."""

from __future__ import annotations

import filecmp
import os
import shutil
import subprocess
from typing import Any, Dict, Iterator, NamedTuple, Optional

from .faults import ProgramFailed

HERE = os.path.dirname(os.path.realpath(__file__))
TOP = os.path.normpath(os.path.join(HERE, "..", ".."))
# Whether this package is in the repository, whose top is then TOP.
IS_IN_REPOSITORY = HERE == os.path.join(TOP, "python", "tensor_client")


class Program(NamedTuple):
    """A program's environment variable, its name on PATH, and its script in the repository."""

    variable: str
    name: str
    script: str

    def tried(self) -> str:
        """Returns where the program was looked for, for a message."""
        here = f", and there is no {self.script}" if IS_IN_REPOSITORY else ""
        return f"{self.variable} isn't set, PATH has no {self.name}{here}"


# The program of one request, and the two of many requests.
ONE = Program("TENSOR_PROGRAM", "tensor_run", os.path.join(TOP, "run"))
LINES = Program("TENSOR_LINES", "tensor_lines", os.path.join(TOP, "lines"))
FRAMES = Program("TENSOR_FRAMES", "tensor_frames", os.path.join(TOP, "frames"))

LIBRARY_VARIABLE, LIBRARY = "TENSOR_LIBRARY", "libtensor.so"
# The library in the repository, and the checksums of the release there.
MADE = os.path.join(TOP, "out", LIBRARY)
RELEASED = os.path.join(TOP, "release", "SHA256SUMS")
# The library for processors of level x86-64-v3, beside this package, and the flags of that level.
LIBRARY_V3 = "libtensor-x86-64-v3.so"
HAVE_V3 = {"avx", "avx2", "bmi1", "bmi2", "f16c", "fma", "abm", "movbe", "xsave"}


def installed(program: Program) -> Optional[str]:
    """Returns the path of a program that the environment names or that is on PATH, or None. Raises
    ProgramFailed if the environment names one that can't be run."""
    named = os.environ.get(program.variable)
    found = shutil.which(named or program.name)
    if named and not found:
        raise ProgramFailed(f"no program: {program.variable} is {named}, which can't be run")
    return found


def found(program: Program) -> Optional[str]:
    """Returns the path of a program by the environment, on PATH or in the repository, or None."""
    is_here = IS_IN_REPOSITORY and os.access(program.script, os.X_OK)
    return installed(program) or (program.script if is_here else None)


def program_of(named: Any, program: Program) -> str:
    """Returns the path of a program, as the call names it or as it is found. Raises ProgramFailed."""
    path = str(os.fspath(named)) if named is not None else found(program)
    if path is None:
        raise ProgramFailed(f"no program: {program.tried()}")
    return path


def built(program: Program) -> Optional[str]:
    """Returns the path of a program, or None. The script in the repository counts only if its program is
    built or a release has it."""
    made = os.path.join(TOP, "crates", program.name, "out", program.name)
    is_there = os.access(made, os.X_OK) or os.path.exists(RELEASED)
    return found(program) if is_there else installed(program)


def is_v3() -> bool:
    """Whether this processor has the level x86-64-v3, by the flags that the kernel lists for the first."""
    try:
        with open("/proc/cpuinfo", encoding="ascii", errors="replace") as file:
            flags = next((it for it in file if it.startswith("flags")), "")
    except OSError:
        flags = ""
    return set(flags.split()) >= HAVE_V3


def libraries() -> Iterator[str]:
    """Yields where the library may be: beside this package, in the folder lib/ above this package, where
    the loader looks, and in the repository."""
    if is_v3():
        yield os.path.join(HERE, LIBRARY_V3)
    yield os.path.join(HERE, LIBRARY)
    above = HERE
    while os.path.basename(above) and os.path.basename(above) != "lib":
        above = os.path.dirname(above)
    if os.path.basename(above):
        yield os.path.join(above, LIBRARY)
    # Without the package for compilers, only the name that programs are linked to is there.
    yield from (LIBRARY, f"{LIBRARY}.1")
    if IS_IN_REPOSITORY:
        put_by_release()
        yield MADE


def put_by_release() -> None:
    """Puts the release's library into out/ if none is there, or one of an earlier release. If that
    fails, out/ stays as it is."""
    noted = os.path.join(TOP, "out", "libtensor.released")
    if not os.path.exists(RELEASED):
        return
    if os.path.exists(MADE):
        if not os.path.exists(noted) or filecmp.cmp(RELEASED, noted, shallow=False):
            return
    command = [os.path.join(TOP, "build", "released"), "--library"]
    subprocess.run(command, stdin=subprocess.DEVNULL, check=False)


def no_library() -> str:
    """Returns where the library was looked for, for a message."""
    return f"{LIBRARY_VARIABLE} isn't set, and none of {', '.join(libraries())} opens"


def environment() -> Dict[str, str]:
    """Returns the environment of a program. It says not to build it first, which takes minutes."""
    return {"TENSOR_RUN_BUILD": "no", **os.environ}
