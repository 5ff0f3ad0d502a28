"""Copies of the repository in a temporary folder, where a small script stands for each program, and for
the kit, which proves nothing."""

import os
import re
import shutil
import subprocess

from hostile import TOP

SECONDS = 300
ANSWERED, REFUSED = 0, 2
CPU, OTHER = "x86-64-v2", "x86-64-v3"
LEFT_OUT = ("out", "edits", "must-fail", ".git", "bench", "tests", "__pycache__")
# What tests change of a copy, beside crates.txt.
CHANGED = (
    *(f"crates/{it}" for it in ("tensor_shape", "tensor_terms/proofs", "uses/src", "fault_reasons/src")),
    "build",
)
IGNORED = shutil.ignore_patterns(*LEFT_OUT)
# Options that the program of lines and that of frames read, and one that they refuse themselves.
OPTIONS = [["--log"], ["--most-steps", "9"], ["--most-steps=9"], ["--most-workers=2", "--log"], ["--other"]]
PROGRAM = """#!/bin/sh
echo "NAME $GLIBC_TUNABLES${*:+ $*}"
exec CAT
"""
# The prover and the linker of the kit: they write what they are asked for.
PROVER = """#!/bin/sh
echo "$*" >>"$ASKED"
[ "$PROVER_FAILS" != "$3" ] || { echo "it is not proved"; exit 1; }
name=$3
while [ "$1" != -o ]; do shift; done
case $2 in
    *.rlib) mkdir "$2" && echo "$name" >"$2/made" ;;
    *) echo "$name" >"$2" ;;
esac
"""
LINKER = """#!/bin/sh
while [ "$1" != -o ]; do shift; done
cp "$STAND_IN" "$2"
chmod +x "$2"
"""
# What a program answers that was built with the kit that stands in.
BUILT = "built\nasked\n"
# What makes the library of what is proved: a compiler, an archiver and a linker.
MAKER = """#!/bin/sh
name=$2
while [ $# -gt 0 ]; do
    [ "$1" != -o ] || name=$2
    shift
done
echo made >"$name"
"""


def written(path, text):
    os.makedirs(os.path.dirname(path), exist_ok=True)
    with open(path, "w", encoding="utf-8") as file:
        file.write(text)
    return path


def text_of(path, encoding="utf-8"):
    with open(path, encoding=encoding) as file:
        return file.read()


def version():
    return text_of(os.path.join(TOP, "VERSION")).strip()


def calls():
    """The library, and the calls that it has."""
    declared = re.findall(r"(?m)^int64_t (tensor_\w+)\(", text_of(os.path.join(TOP, "include", "tensor.h")))
    return ["tensor", *declared]


def script(path, text):
    os.chmod(written(path, text), 0o755)
    return path


def appended(copy, path):
    """Changes a file of a copy."""
    with open(copy.at(path), "a", encoding="utf-8") as file:
        file.write("\n")


class Copy:
    """A copy of the repository, the environment of its commands, and a kit that stands on PATH."""

    def __init__(self, room, name):
        self.top, self.room, self.notes = os.path.join(room, name), room, {}
        shutil.copytree(TOP, self.top, symlinks=True, ignore=IGNORED)
        shutil.rmtree(self.at("release"), ignore_errors=True)
        self.programs = dict(
            it.split() for it in text_of(self.at("build/programs")).splitlines() if it[:1] != "#"
        )
        self.env = {
            "PATH": f"{os.path.join(room, 'kit', 'bin')}:{os.environ['PATH']}",
            "HOME": room,
            "XDG_CACHE_HOME": os.path.join(room, "cache"),
            "ASKED": os.path.join(room, "asked"),
            "STAND_IN": os.path.join(room, "stand_in"),
        }

    def at(self, path):
        return os.path.join(self.top, path)

    def mend(self):
        """Undoes what a test of a change did."""
        for path in CHANGED:
            shutil.rmtree(self.at(path))
            shutil.copytree(os.path.join(TOP, path), self.at(path), ignore=IGNORED)
        shutil.copy(os.path.join(TOP, "crates.txt"), self.top)

    def run(self, *words, text="", cwd=None, **env):
        """Standard output, standard error and the status of a command."""
        ran = subprocess.run(
            words,
            input=text,
            env={**self.env, **env},
            cwd=cwd or self.top,
            capture_output=True,
            text=True,
            timeout=SECONDS,
            check=False,
        )
        return ran.stdout, ran.stderr, ran.returncode

    def ask(self, command="./run", *words, **env):
        """The same of a command that answers, and builds nothing."""
        return self.run(command, *words, text="asked\n", **{"TENSOR_RUN_BUILD": "no", **env})

    def build(self, *words, **env):
        """The same of a command that may build, and what the prover was asked for, a line a crate."""
        written(self.env["ASKED"], "")
        ran = self.run(*words, text="asked\n", **{"TENSOR_RUN_CPU": CPU, **env})
        return ran, text_of(self.env["ASKED"]).splitlines()

    def answer(self, command="run", *words):
        """What the stand-in of a command answers that is given these words."""
        name, settings = self.programs[command], text_of(self.at("build/tunables")).strip()
        return f"{' '.join([name, settings, *words])}\nasked\n", "", ANSWERED

    def commit(self):
        """Makes a repository of the copy, which git knows to be without changes."""
        who = "-c user.name=copy -c user.email=copy@here"
        for command in "init -q", "add -A", f"{who} commit -q -m copy":
            assert self.run("git", *command.split())[2] == ANSWERED

    def put_programs(self):
        """Stand-ins for the programs, noted as built from what is here, which is always the same."""
        for name in self.programs.values():
            text = PROGRAM.replace("NAME", name).replace("CAT", shutil.which("cat"))
            script(self.at(f"crates/{name}/out/{name}"), text)
        if not self.notes:
            os.makedirs(self.at("out"), exist_ok=True)
            self.run("build/note", "--begin")
            self.run("build/note", "--end", CPU)
            paths = [self.at(f"out/{it}.built") for it in self.programs.values()]
            self.notes = {it: text_of(it) for it in paths}
        for path, text in self.notes.items():
            written(path, text)


def kit_in(room):
    """Puts a kit that proves nothing into a folder, and returns the folder's path."""
    room = os.path.realpath(room)
    folder = os.path.join(room, "kit")
    script(os.path.join(folder, "bin", "rt"), f"#!/bin/sh\necho {folder}/START-HERE.md\n")
    script(os.path.join(folder, "bin", "rattle"), PROVER)
    script(os.path.join(folder, "bin", "rattle-link"), LINKER)
    for name in "clang", "llvm-ar", "ld.lld":
        script(os.path.join(folder, "toolchain", "bin", name), MAKER)
    written(os.path.join(folder, "KIT-ID"), "a kit that stands in\n")
    script(os.path.join(room, "stand_in"), f"#!/bin/sh\necho built\nexec {shutil.which('cat')}\n")
    return room
