"""The folders into which a build puts libraries and programs, and how a build knows what is proved."""

import hashlib
import json
import os
from concurrent.futures import ThreadPoolExecutor

from crates import TOP, kit, programs, remove
import kept

# Files of a library that no crate above reads: its code, and its checked proofs.
CODE = ("toolchain/mir.json", "toolchain/checked.a", "toolchain/checked.json", "lang/antt/made.json")
MODULES = "toolchain/made.json"
# The beginning of the path of a module's text. The path of the module follows.
TEXTS = "lang/antt/"
# The modules that the prover makes of a function's body, and the files of the body's proof.
OF_BODIES = ("/Code/Mir", "/Lts", "/Proof")
PROOFS = ("Answers.antt", "Invariants.antt", "Proof.antt")
# A library that was proved whole has this word and its stamp in place of a checksum of its statements.
WHOLE = "whole"


class Room:
    """The folder out/build. It has what was proved whole, over only the statements of the crates below.
    A crate stays proved until something changes that its proof has read."""

    name = "build"

    def __init__(self, cpu):
        self.cpu, self.kit, self.programs = cpu, kit(), programs()
        self.folder = os.path.join(TOP, "out", self.name)
        os.makedirs(self.folder, exist_ok=True)
        with open(os.path.join(self.kit, "KIT-ID"), encoding="utf-8") as file:
            self.kit_name = file.read()

    def path(self, crate, kind):
        """Returns a file of a crate. A program has one for each level of processors."""
        of_cpu = f"{self.cpu}." if crate.name in self.programs else ""
        return os.path.join(self.folder, f"{crate.name}.{of_cpu}{kind}")

    def made_of(self, crate):
        """Returns what the prover makes of a crate: a program's object file, or a library."""
        return self.path(crate, "o" if crate.name in self.programs else "rlib")

    def library_of(self, crate):
        """Returns where crates above find a library. The folder has only libraries that fit together."""
        return os.path.join(self.folder, f"{crate.name}.rlib")

    def object_of(self, program):
        """Returns the object file of a proved program."""
        return self.made_of(program)

    def options_for(self, crate):
        """Returns the options for the form in which the prover makes a crate."""
        return [] if crate.name in self.programs else ["--statements"]

    def words_of(self, crate, jobs):
        """Returns the prover's command that proves and builds a crate."""
        rooms = [os.path.dirname(self.library_of(crate))]
        words = crate.command("build", self.library_of, rooms)
        words += ["--jobs", str(jobs), *self.options_for(crate)]
        made = ["-o", self.made_of(crate)]
        if crate.name not in self.programs:
            return [*words, "src/lib.rt", *made]
        how = ["--toolchain", f"{self.kit}/toolchain", "--backend", "llvm", f"--cpu={self.cpu}"]
        return [*words, *how, "src/main.rt", *made]

    def proved_from(self, crate):
        """Returns everything on which the result of a crate depends."""
        of_cpu = f"{self.cpu}." if crate.name in self.programs else ""
        return f"{of_cpu}{self.kit_name}{crate.stamp}"

    def is_proved(self, crate):
        """Whether a crate is proved here from what is in the repository now."""
        stamp = self.path(crate, "stamp")
        if not os.path.exists(stamp) or not os.path.exists(self.made_of(crate)):
            return False
        with open(stamp, encoding="utf-8") as file:
            return file.read() == self.proved_from(crate)

    def note_proved(self, crate):
        with open(self.path(crate, "stamp"), "w", encoding="utf-8") as file:
            file.write(self.proved_from(crate))

    def clear(self, crate):
        """Removes what was made of a crate. Other clones may have links to its files, so no file is
        written again."""
        remove(self.path(crate, "stamp"))
        remove(self.made_of(crate))

    def take(self, crate):
        """Takes what another clone on this machine has made of a crate, if there is any. Returns whether
        there was."""
        is_taken = kept.take(crate.name, self.proved_from(crate), self.made_of(crate))
        if is_taken:
            self.note_proved(crate)
        return is_taken

    def find(self, crates):
        """Returns which of these crates, lowest first, are proved here, and which are taken from another
        clone."""
        here = [it for it in crates if self.is_proved(it)]
        missing = [it for it in crates if it not in here]
        with ThreadPoolExecutor(len(os.sched_getaffinity(0))) as pool:
            taken = [it for it, is_taken in zip(missing, pool.map(self.take, missing)) if is_taken]
        return here, taken

    def place(self, crate):
        """Returns where a crate is that is proved here or by another clone, or None."""
        return self.made_of(crate) if self.is_proved(crate) or self.take(crate) else None

    def keep(self, crate):
        """Keeps for other clones what is made of a crate."""
        kept.keep(crate.name, self.proved_from(crate), self.made_of(crate))


class Quick(Room):
    """The folder out/quick, for the inner loop. The prover keeps there what it has checked of a crate,
    and proves only the functions that a change touches. The gate takes nothing from it, since its proofs
    rest on what is kept.

    A crate is proved again if its own files changed, or the statements of a crate below. Statements are
    all that a crate above can read: neither bodies nor their proofs. A program is built again if
    anything changed. A crate that was proved whole is taken from `places`, if everything below it is.

    A library is in out/quick or in one of these places. A folder of links has the libraries that fit
    together.
    """

    name = "quick"

    def __init__(self, cpu, links="used", places=()):
        super().__init__(cpu)
        self.places, self.statements, self.objects = places, {}, {}
        self.links = os.path.join(self.folder, links)
        remove(self.links)
        os.makedirs(self.links)

    def library_of(self, crate):
        return os.path.join(self.links, f"{crate.name}.rlib")

    def object_of(self, program):
        return self.objects[program.name]

    def options_for(self, crate):
        return ["--incremental", self.path(crate, "kept")]

    def proved_from(self, crate):
        if crate.name in self.programs:
            return super().proved_from(crate)
        below = [f"{name} {self.statements[name]}\n" for name in crate.all_below()]
        return f"{self.kit_name}{crate.own_stamp}\n{''.join(below)}"

    def is_proved(self, crate):
        """Whether a crate is proved over the libraries that are in use below it. If so, it is in use
        too."""
        below = crate.all_below()
        if not below.keys() <= self.statements.keys():
            return False
        if super().is_proved(crate):
            self.use(crate, self.made_of(crate), self.noted_statements(crate))
        elif place := self.place_of_whole(crate):
            self.use(crate, place, f"{WHOLE} {crate.stamp}")
        else:
            return False
        return True

    def place_of_whole(self, crate):
        """Returns where a crate is that was proved whole, over the crates in use below it, or None."""
        if not all(self.statements[it].startswith(WHOLE) for it in crate.all_below()):
            return None
        return next(filter(None, (place(crate) for place in self.places)), None)

    def use(self, crate, place, statements):
        self.statements[crate.name] = statements
        if crate.name in self.programs:
            self.objects[crate.name] = place
        else:
            remove(self.library_of(crate))
            os.symlink(place, self.library_of(crate))

    def noted_statements(self, crate):
        if crate.name in self.programs:
            return ""
        with open(self.path(crate, "statements"), encoding="ascii") as file:
            return file.read()

    def note_proved(self, crate):
        if crate.name not in self.programs:
            with open(self.path(crate, "statements"), "w", encoding="ascii") as file:
                file.write(statements_of(self.made_of(crate)))
        super().note_proved(crate)
        self.use(crate, self.made_of(crate), self.noted_statements(crate))

    def find(self, crates):
        return [it for it in crates if self.is_proved(it)], []

    def keep(self, crate):
        """Keeps nothing: a quick build is for this clone alone."""


def statements_of(library):
    """Returns a checksum of everything that a crate above can read of a library."""
    with open(os.path.join(library, MODULES), encoding="utf-8") as file:
        made = {name: rest for name, _, _, *rest in map(json.loads, file)}
    found = hashlib.sha256()
    for at, folders, names in os.walk(library):
        folders.sort()
        for it in sorted(names):
            path = os.path.join(at, it)
            name = os.path.relpath(path, library)
            if name not in CODE and not is_of_body(name, made):
                found.update(repr((name, stated_in(path, name, made))).encode())
    return found.hexdigest()


def is_of_body(name, made):
    """Whether a file belongs to the proof of a function's body."""
    folder, _, last = name.rpartition("/")
    return last in PROOFS and f"{folder[len(TEXTS):]}/Met" in made


def is_made_of_body(module):
    return module.startswith("proofs/") and module.endswith(OF_BODIES)


def stated_in(path, name, made):
    """Returns what a file of a library says to crates above."""
    if name == MODULES:
        return [(it, sums) for it, sums in made.items() if not is_made_of_body(it)]
    with open(path, "rb") as file:
        text = file.read()
    if name == "format":
        # Its last two lines are checksums of the library with its code.
        lines = text.split(b"\n")
        return [it for it in lines if not it.startswith((b"checked ", b"sum "))]
    return hashlib.sha256(text).hexdigest()
