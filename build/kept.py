"""Keeps what a build has proved, for other clones on this machine.

Each library and each program's object file is kept outside the repository, under a checksum of
everything that its proof has read. So no other clone has to prove the crate again. The folder is
$XDG_CACHE_HOME/tensor-build, or ~/.cache/tensor-build if that isn't set. Files are links to the files of
the first clone, if both are on one disk. Before a file is taken, its own checksum is compared.
TENSOR_RUN_KEPT=no switches this off. The gate proves everything itself and takes nothing from here.
"""

import hashlib
import os
import shutil
import tempfile
import time

from crates import remove

HOME = os.environ.get("XDG_CACHE_HOME") or os.path.join(os.path.expanduser("~"), ".cache")
FOLDER = os.path.join(HOME, "tensor-build")
IS_ON = os.environ.get("TENSOR_RUN_KEPT") != "no"
# What nobody takes for this long is removed. Nothing is added on a disk with less free space than this.
MOST_SECONDS = 30 * 24 * 3600
LEAST_ROOM = 5_000_000_000


def place(name, proved_from):
    """Returns the folder for what was made of a crate from this."""
    key = hashlib.sha256(proved_from.encode()).hexdigest()
    return os.path.join(FOLDER, f"{name}-{key[:32]}")


def linked(source, target):
    """Makes a second name of a file, or a copy on another disk."""
    try:
        os.link(source, target)
    except OSError:
        shutil.copy2(source, target)


def copied(source, target):
    """Copies a file, or a folder whose files become links."""
    if os.path.isdir(source):
        shutil.copytree(source, target, copy_function=linked)
    else:
        linked(source, target)


def checksum(path):
    """Returns a checksum of the names and contents of a file, or of all files of a folder."""
    found = hashlib.sha256()
    files = [os.path.join(at, it) for at, _, names in os.walk(path) for it in names] or [path]
    for it in sorted(files):
        found.update(f"{os.path.relpath(it, path)}\n{os.path.getsize(it)}\n".encode())
        with open(it, "rb") as file:
            while piece := file.read(1 << 20):
                found.update(piece)
    return found.hexdigest()


def keep(name, proved_from, made):
    """Keeps what was made of a crate. If that fails, the build goes on."""
    to = place(name, proved_from)
    if not IS_ON or os.path.exists(to):
        return
    room = None
    try:
        os.makedirs(FOLDER, mode=0o700, exist_ok=True)
        if shutil.disk_usage(FOLDER).free < LEAST_ROOM:
            return
        room = tempfile.mkdtemp(prefix=".begun-", dir=FOLDER)
        copied(made, os.path.join(room, "made"))
        with open(os.path.join(room, "checksum"), "w", encoding="ascii") as file:
            file.write(checksum(os.path.join(room, "made")))
        os.rename(room, to)
    except OSError:
        if room:
            remove(room)


def take(name, proved_from, made):
    """Puts what is kept of a crate where it would be made. Returns whether that worked."""
    kept = place(name, proved_from)
    if not IS_ON or not os.path.isdir(kept):
        return False
    try:
        with open(os.path.join(kept, "checksum"), encoding="ascii") as file:
            is_whole = file.read() == checksum(os.path.join(kept, "made"))
        if is_whole:
            remove(made)
            copied(os.path.join(kept, "made"), made)
            os.utime(kept)
        else:
            remove(kept)
    except OSError:
        remove(made)
        return False
    return is_whole


def forget():
    """Removes what nobody has taken for MOST_SECONDS, and what was begun and never finished."""
    if not IS_ON or not os.path.isdir(FOLDER):
        return
    for it in os.scandir(FOLDER):
        if time.time() - it.stat().st_mtime > MOST_SECONDS:
            remove(it.path)
