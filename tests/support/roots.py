"""Root folders and environments of Python in which nothing else is, and commands that are run there."""

import ast
import os
import re
import shutil
import subprocess
import sys

SECONDS = 900
# Prints the library that answers, where the client is, and what a sum is.
CLIENT = """
import tensor_client as it
from tensor_client import library
answer = it.run(it.tensor([1, 2]) + 10, way="library")
print([library.library_of().path, it.__file__, answer.nested()])
"""


def ran(*command, text=b"", **how):
    """Standard output with standard error behind it, and the status of a command, with no environment
    but what is named."""
    done = subprocess.run(
        command, input=text, capture_output=True, timeout=SECONDS, check=False, **{"env": {}, **how}
    )
    return done.stdout + done.stderr, done.returncode


def succeed(*command, **how):
    """Runs a command that this environment is for, which has to succeed, and returns what it prints."""
    said, status = ran(*command, **{"env": dict(os.environ), **how})
    assert status == 0, f"{' '.join(command):.200}: {said.decode(errors='replace'):.800}"
    return said


def files_below(folder):
    return {os.path.join(at, it) for at, _, names in os.walk(folder) for it in names}


def client_by(python, **names):
    """What a Python's client says, asked from another folder: its library, where it is, a sum."""
    said, status = ran(python, "-c", CLIENT, cwd="/", env=names)
    assert status == 0, said
    return ast.literal_eval(said.decode())


class Root:
    """A root folder that has a shell, `cat` and the C library that these take, and nothing else."""

    # How a command is run there: by root, or by a user who may have a space of users.
    WAYS = (("chroot",), ("unshare", "-r", "chroot"))

    def __init__(self, folder):
        self.folder, self.way = str(folder), None
        os.makedirs(self.at("dev"))
        with open(self.at("dev/null"), "w", encoding="ascii"):
            pass  # What a command writes there goes to a file.
        for name in ("sh", "cat"):
            path = shutil.which(name)
            self.put(os.path.realpath(path), f"bin/{name}")
            said = ran("ldd", path, env=dict(os.environ))[0].decode()
            for it in re.findall(r"(/\S+) \(0x", said):
                self.put(os.path.realpath(it), it.lstrip("/"))
        for way in self.WAYS:
            if shutil.which(way[0]) and self.by(way, "echo here")[0] == b"here\n":
                self.way = way
                break

    def at(self, path):
        return os.path.join(self.folder, path)

    def put(self, source, path):
        os.makedirs(os.path.dirname(self.at(path)), exist_ok=True)
        shutil.copy(source, self.at(path))

    def by(self, way, commands, text=b""):
        command = [shutil.which(way[0]), *way[1:], self.folder, "/bin/sh", "-c", commands]
        return ran(*command, text=text, env={"PATH": "/usr/sbin:/usr/bin:/sbin:/bin"})

    def run(self, folder, commands, text=b""):
        """Runs commands there, the programs of this folder among them. Where this user may not change
        to it, the programs are run where they lie, in no environment."""
        if self.way:
            return self.by(self.way, f"PATH=/{folder}:/bin; {commands}", text)
        path = f"{self.at(folder)}:/usr/bin:/bin"
        return ran("/bin/sh", "-c", commands, text=text, env={"PATH": path})


class Venv:
    """A fresh environment of Python, with pip."""

    def __init__(self, folder):
        self.folder = str(folder)
        self.said, self.status = ran(sys.executable, "-m", "venv", self.folder, env=dict(os.environ))
        self.python = os.path.join(self.folder, "bin", "python3")

    def pip(self, *given):
        quiet = ("--quiet", "--disable-pip-version-check")
        names = {**os.environ, "PYTHONDONTWRITEBYTECODE": "1", "PIP_NO_INDEX": "1"}
        return succeed(self.python, "-m", "pip", *given, *quiet, env=names, cwd="/")
