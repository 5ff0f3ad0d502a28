"""Archives and Debian packages for tools/release. Equal files make equal bytes, at any time and place."""

import gzip
import hashlib
import io
import lzma
import os
import tarfile


class File:
    """A file of a package: its path there, its contents, its mode, and its target if it is a link."""

    def __init__(self, path, contents, mode=0o644, link=None):
        self.path, self.contents, self.mode, self.link = path, contents, mode, link


def files_of(folder):
    """Yields all files below a folder. Of their modes, only whether they can be run is kept."""
    for at, folders, names in os.walk(folder):
        folders.sort()
        for path in (os.path.join(at, it) for it in sorted(names)):
            name = os.path.relpath(path, folder)
            if os.path.islink(path):
                yield File(name, b"", 0o777, os.readlink(path))
                continue
            mode = 0o755 if os.stat(path).st_mode & 0o100 else 0o644
            with open(path, "rb") as file:
                yield File(name, file.read(), mode)


def folders_of(paths):
    """Returns the folders of these paths, each after the folder that it is in."""
    found = set()
    for it in paths:
        while it := os.path.dirname(it):
            found.add(it)
    return sorted(found)


def tar(files, when, top="", folders=True):
    """Returns the bytes of a tar archive, whose files are root's and of this time."""
    packed = io.BytesIO()
    with tarfile.open(fileobj=packed, mode="w", format=tarfile.GNU_FORMAT) as archive:

        def put(name, kind, mode, contents=b"", link=""):
            entry = tarfile.TarInfo(name)
            entry.type, entry.mode, entry.mtime, entry.size = kind, mode, when, len(contents)
            entry.uname = entry.gname = "root"
            entry.linkname = link
            archive.addfile(entry, io.BytesIO(contents))

        files = sorted(files, key=lambda it: it.path)
        for it in folders_of([top + it.path for it in files]) if folders else ():
            put(it, tarfile.DIRTYPE, 0o755)
        for it in files:
            kind = tarfile.SYMTYPE if it.link else tarfile.REGTYPE
            put(top + it.path, kind, it.mode, it.contents, it.link or "")
    return packed.getvalue()


def gzipped(found):
    return gzip.compress(found, 9, mtime=0)


def xz(found):
    """Returns the bytes of an xz file, with a filter for x86 code. Unpacking it takes 16 MiB."""
    best = {"id": lzma.FILTER_LZMA2, "preset": 9 | lzma.PRESET_EXTREME, "dict_size": 1 << 24}
    return lzma.compress(found, lzma.FORMAT_XZ, filters=[{"id": lzma.FILTER_X86}, best])


def deb(control, files, when):
    """Returns the bytes of a Debian package with these control files, texts by their names, and these
    files."""
    sums = "".join(
        f"{hashlib.md5(it.contents).hexdigest()}  {it.path}\n"
        for it in sorted(files, key=lambda it: it.path)
        if not it.link
    )
    scripts = {"postinst", "prerm"}
    about = [
        File(name, text.encode(), 0o755 if name in scripts else 0o644)
        for name, text in {**control, "md5sums": sums}.items()
    ]
    members = {
        "debian-binary": b"2.0\n",
        "control.tar.xz": xz(tar(about, when, "./", folders=False)),
        "data.tar.xz": xz(tar(files, when, "./")),
    }
    packed = b"!<arch>\n"
    for name, found in members.items():
        packed += f"{name:16}{when:<12}{0:<6}{0:<6}{0o100644:<8o}{len(found):<10}`\n".encode()
        packed += found + b"\n" * (len(found) % 2)
    return packed
