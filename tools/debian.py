"""The Debian packages of a release: the files of each, and its description."""

import email.utils

from packing import File, deb, gzipped

ARCHITECTURE = "amd64"
LIBRARIES = "usr/lib/x86_64-linux-gnu"
CLIENT = "usr/lib/python3/dist-packages"
# Where ./install puts units for systemd. systemd looks for them there below /usr.
UNITS = "lib/systemd/"
# By package: its architecture, its section, what it depends on besides the C library, and what it is.
PACKAGES = {
    "tensor": (ARCHITECTURE, "math", "", "programs that answer integer tensor expressions"),
    "libtensor1": (ARCHITECTURE, "libs", "", "integer tensor expressions, in the calling process"),
    "libtensor-dev": (
        ARCHITECTURE,
        "libdevel",
        "libtensor1 (= VERSION)",
        "integer tensor expressions, what compilers take",
    ),
    "python3-tensor-client": (
        "all",
        "python",
        "libtensor1 (>= VERSION), python3:any (>= 3.8)",
        "integer tensor expressions from Python",
    ),
}
DESCRIPTION = """ Expressions over tensors of 64-bit integers, whose sums and products wrap:
 operations on each value, movements, reductions and contractions, as of
 Eigen's Tensor module. What is answered is proved. It takes a processor of
 the level x86-64-v2.
"""
# Why a program and a library aren't stripped.
AS_LINKED = """# As the kit has linked it, byte for byte: whoever builds it can compare it.
unstripped-binary-or-object
"""
# Python's compiled files of the client are made and removed with it.
BYTE_CODE = """#!/bin/sh
set -e
if command -v COMMAND >/dev/null; then
    COMMAND -p python3-tensor-client
fi
"""
OWN_CONTROL = {
    "libtensor1": {
        "shlibs": "libtensor 1 libtensor1 (>= VERSION)\n",
        "triggers": "activate-noawait ldconfig\n",
    },
    "python3-tensor-client": {
        "postinst": BYTE_CODE.replace("COMMAND", "py3compile"),
        "prerm": BYTE_CODE.replace("COMMAND", "py3clean"),
    },
}


# The files for programs that call the library.
DEVELOPING = "lib/", "include/", "share/man/man3/"


def package_of(path):
    """Returns the package that has a file of ./install."""
    if path == "lib/libtensor.so.1":
        return "libtensor1"
    if path.startswith(UNITS):
        return "tensor"
    return "libtensor-dev" if path.startswith(DEVELOPING) else "tensor"


def placed(it):
    """Returns a file of ./install with its place in Debian, below /usr."""
    path, found, mode = f"usr/{it.path}", it.contents, it.mode
    if it.path.startswith("lib/") and not it.path.startswith(UNITS):
        path = f"{LIBRARIES}/{it.path[len('lib/') :]}"
        # A shared library isn't run.
        mode = mode if it.link else 0o644
    if path.endswith(".pc"):
        found = found.replace(b"${prefix}/lib\n", b"${prefix}/lib/x86_64-linux-gnu\n")
    if path.startswith("usr/share/man/"):
        path, found = f"{path}.gz", gzipped(found)
    return File(path, found, mode, it.link)


def documents(name, release):
    """Yields the documents that Debian wants in each package: its changes, its rights, and the warnings
    that don't apply."""
    date = email.utils.formatdate(release.when)
    changes = f"tensor ({release.version}) unstable; urgency=medium\n\n  * As CHANGELOG.md says.\n"
    changes += f"\n -- {release.maker}  {date}\n"
    yield File(f"usr/share/doc/{name}/changelog.gz", gzipped(changes.encode()))
    yield File(f"usr/share/doc/{name}/copyright", f"{release.rights}\n".encode())
    if name in ("tensor", "libtensor1"):
        yield File(f"usr/share/lintian/overrides/{name}", AS_LINKED.encode())


def control(name, files, release):
    """Returns the control files of a package."""
    architecture, section, depends, what = PACKAGES[name]
    least = release.least_glibc(files)
    needs = ([f"libc6 (>= {least})"] if least else []) + ([depends] if depends else [])
    fields = {
        "Package": name,
        "Source": "tensor",
        "Version": release.version,
        "Architecture": architecture,
        "Maintainer": release.maker,
        "Installed-Size": sum(-(-len(it.contents) // 1024) for it in files),
        "Depends": ", ".join(needs),
        "Section": section,
        "Priority": "optional",
        "Description": f"{what}\n{DESCRIPTION}",
    }
    text = "".join(f"{field}: {value}\n" for field, value in fields.items()).rstrip("\n") + "\n"
    found = {"control": text, **OWN_CONTROL.get(name, {})}
    return {it: text.replace("VERSION", release.version) for it, text in found.items()}


def packages(release):
    """Yields the Debian packages, as pairs of name and bytes."""
    found = {name: [*documents(name, release)] for name in PACKAGES}
    for it in release.files:
        found[package_of(it.path)].append(placed(it))
    chosen = File(f"{LIBRARIES}/{release.chosen.path[len('lib/') :]}", release.chosen.contents)
    found["libtensor1"].append(chosen)
    found["tensor"].append(File("usr/share/doc/tensor/RELEASE.txt", release.text))
    for path, text in release.client:
        found["python3-tensor-client"].append(File(f"{CLIENT}/{path}", text))
    for name, files in found.items():
        architecture = PACKAGES[name][0]
        packed = deb(control(name, files, release), files, release.when)
        yield f"{name}_{release.version}_{architecture}.deb", packed
