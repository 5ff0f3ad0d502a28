"""The crates of the repository: what they are made of, and the prover's commands for them."""

import functools
import hashlib
import os
import re
import shutil
import subprocess
import sys

from usage import fail

TOP = os.path.dirname(os.path.dirname(os.path.abspath(__file__)))
CRATES = os.path.join(TOP, "crates")
# The memory of a check: for the toolchain's own proofs, and for each line of the crate.
BYTES = 1_000_000_000
BYTES_OF_A_LINE = 200_000


class Crate:
    """A crate: its name, its line of crates.txt, and the libraries directly below it."""

    def __init__(self, name, line, below, of_kit):
        self.name, self.line, self.below, self.of_kit = name, line, below, of_kit
        self.folder = os.path.join(CRATES, name)
        parts = "src", "specs", "proofs"
        self.sources = [it for part in parts for it in files_in(self.folder, part)]
        texts = [it.read() for it in map(opened, self.sources)]
        self.lines = sum(it.count(b"\n") for it in texts)
        self.memory = BYTES + BYTES_OF_A_LINE * self.lines
        # Checksums of what a proof of the crate reads, except the kit: of all, and of the crate itself.
        self.stamp = self.stamp_of(texts, [it.stamp for it in self.below])
        self.own_stamp = self.stamp_of(texts)

    def stamp_of(self, texts, below=()):
        names = [os.path.relpath(it, self.folder) for it in self.sources]
        return hashlib.sha256(repr((self.line, below, names, texts)).encode()).hexdigest()

    def is_unchanged(self):
        """Whether the crate's own files are as they were when this object was made."""
        now = Crate(self.name, self.line, self.below, self.of_kit)
        return now.own_stamp == self.own_stamp

    def all_below(self):
        """Returns the crates of the repository on which this one stands, each after the crates below
        it."""
        found = {}
        for it in self.below:
            found |= it.all_below()
            found[it.name] = it
        return found

    def command(self, work, rlib_of, rooms):
        """Returns the prover's command for this work on the crate, without flags and the file that
        follow. The libraries are where `rlib_of` says, and the libraries that these use are in these
        rooms."""
        folder = kit()
        words = [f"{folder}/bin/rattle", work, "--crate-name", self.name]
        for name in ["std", *self.of_kit]:
            words += ["--extern", f"{name}={folder}/rlibs/{name}.rlib"]
        for it in self.below:
            words += ["--extern", f"{it.name}={rlib_of(it)}"]
        for room in [f"{folder}/rlibs", *rooms]:
            words += ["-L", f"dependency={room}"]
        words += ["--antt-project", f"{folder}/rattle/logic/antt-project.json"]
        return [*words, "--logic-built", f"{folder}/logic_built"]


def opened(path):
    return open(path, "rb")


def files_in(folder, part):
    walked = [
        os.path.join(at, it)
        for at, _, names in os.walk(os.path.join(folder, part))
        for it in names
        if it.endswith((".rt", ".antt"))
    ]
    return sorted(walked)


def listed():
    """Returns the lines of crates.txt by the crate's name, each with the names of the crates below."""
    with open(os.path.join(TOP, "crates.txt"), encoding="utf-8") as file:
        lines = re.findall(r"(?m)^((\w+)[^:#\n]*:(.*))", file.read())
    return {name: (line, words.split()) for line, name, words in lines}


def crates():
    """Returns all crates by name, each after the crates on which it stands."""
    lines, found = listed(), {}

    def add(name):
        if name not in found:
            line, words = lines[name]
            below = [add(it) for it in words if it in lines]
            found[name] = Crate(name, line, below, [it for it in words if it not in lines])
        return found[name]

    for name in lines:
        add(name)
    return found


def programs():
    """Returns the crates of the programs, as build/programs lists them."""
    with open(os.path.join(TOP, "build", "programs"), encoding="utf-8") as file:
        return [it.split()[1] for it in file if it.strip() and not it.startswith("#")]


@functools.lru_cache(None)
def kit():
    """Returns the folder of the kit, whose first page `rt doc` names. Without the kit the script ends."""
    if not shutil.which("rt"):
        fail(f"{sys.argv[0]}: the command rt of the kit isn't on PATH")
    said = subprocess.run(["rt", "doc"], capture_output=True, text=True, check=True).stdout
    return os.path.dirname(said.strip())


def by_gate(crate):
    """Returns the library that `rt ci` has left of a crate, if no file that it was made of has been
    written since, and none was added or removed."""
    library = os.path.join(crate.folder, "out", "rlib", f"{crate.name}.rlib")
    read = {*crate.sources, *map(os.path.dirname, crate.sources)}
    is_right = os.path.isdir(library) and all(written(it) <= written(library) for it in read)
    return library if is_right else None


def written(path):
    """Returns when a file or folder was last changed in any way. No tool sets this time back."""
    return os.stat(path).st_ctime_ns


def free_memory():
    with open("/proc/meminfo", encoding="ascii") as file:
        return 1024 * int(re.search(r"MemAvailable:\s+(\d+)", file.read())[1])


def beside():
    """Returns the environment of `rt ci`. It says how many checks run side by side, unless that is set
    already."""
    lanes = subprocess.run([os.path.join(TOP, "build", "lanes")], capture_output=True, text=True)
    return {"RT_JOBS": lanes.stdout.strip(), **os.environ}


def clock(seconds):
    return f"{int(seconds) // 60} min {int(seconds) % 60} s"


def remove(path):
    """Removes a file or a folder, if there is one."""
    shutil.rmtree(path, ignore_errors=True)
    if os.path.lexists(path):
        os.remove(path)
