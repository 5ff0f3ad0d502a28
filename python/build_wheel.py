"""Makes the client's wheel and its source archive for pip, with Python's standard library alone. It is a
build backend by PEP 517 and PEP 660, so `pip install ./python` and `pip install -e ./python` fetch
nothing. Equal files make equal bytes, at any time and place."""

import base64
import gzip
import hashlib
import io
import os
import re
import tarfile
import time
import zipfile

HERE = os.path.dirname(os.path.realpath(__file__))
PACKAGE = "tensor_client"
PURE = "py3-none-any"
# The earliest time in a zip archive. All files have it if SOURCE_DATE_EPOCH isn't set.
FIRST_TIME = 315_532_800


def version():
    return re.search(r'(?m)^__version__ = "(.+)"$', text_of(PACKAGE, "__init__.py"))[1]


def text_of(*names):
    with open(os.path.join(HERE, *names), encoding="utf-8") as file:
        return file.read()


def when():
    """Returns the time of all files, in seconds."""
    return max(FIRST_TIME, int(os.environ.get("SOURCE_DATE_EPOCH", FIRST_TIME)))


def files():
    """Yields the package's files, as pairs of name and bytes."""
    found = [
        os.path.join(at, it)
        for at, _, names in os.walk(os.path.join(HERE, PACKAGE))
        for it in names
        if it.endswith((".py", ".typed"))
    ]
    for path in sorted(found):
        with open(path, "rb") as file:
            yield os.path.relpath(path, HERE), file.read()


def metadata():
    """Returns the metadata for pip: the fields, and README.md as the description."""
    project = text_of("pyproject.toml")
    fields = {
        "Metadata-Version": "2.1",
        "Name": PACKAGE,
        "Version": version(),
        "Summary": re.search(r'(?m)^description = "(.+)"$', project)[1],
        "Requires-Python": re.search(r'(?m)^requires-python = "(.+)"$', project)[1],
        "Description-Content-Type": "text/markdown",
    }
    classes = re.findall(r'(?m)^    "(.+ :: .+)",$', project)
    lines = [f"{name}: {it}\n" for name, it in fields.items()]
    lines += [f"Classifier: {it}\n" for it in classes]
    return f"{''.join(lines)}\n{text_of('README.md')}".encode()


def write_wheel(folder, contents, tag=PURE):
    """Writes a wheel of these files, pairs of name and bytes, and returns its name."""
    name, record = f"{PACKAGE}-{version()}-{tag}.whl", []
    about, is_pure = f"{PACKAGE}-{version()}.dist-info", str(tag == PURE).lower()
    wheel = f"Wheel-Version: 1.0\nGenerator: build_wheel\nRoot-Is-Purelib: {is_pure}\nTag: {tag}\n"
    own = [(f"{about}/METADATA", metadata()), (f"{about}/WHEEL", wheel.encode())]
    with zipfile.ZipFile(os.path.join(folder, name), "w") as archive:

        def put(path, found):
            entry = zipfile.ZipInfo(path, time.gmtime(when())[:6])
            entry.create_system, entry.external_attr = 3, 0o100644 << 16
            archive.writestr(entry, found, zipfile.ZIP_DEFLATED, 9)

        for path, found in [*contents, *own]:
            put(path, found)
            digest = base64.urlsafe_b64encode(hashlib.sha256(found).digest()).decode().rstrip("=")
            record.append(f"{path},sha256={digest},{len(found)}\n")
        put(f"{about}/RECORD", f"{''.join(record)}{about}/RECORD,,\n".encode())
    return name


def build_wheel(wheel_directory, config_settings=None, metadata_directory=None):
    """Writes the wheel, and returns its name."""
    return write_wheel(wheel_directory, files())


def build_editable(wheel_directory, config_settings=None, metadata_directory=None):
    """Writes a wheel with the path of this package in place of the package, and returns its name."""
    return write_wheel(wheel_directory, [(f"{PACKAGE}.pth", f"{HERE}\n".encode())])


def build_sdist(sdist_directory, config_settings=None):
    """Writes the archive of the sources, and returns its name."""
    top = f"{PACKAGE}-{version()}"
    own = [(it, text_of(it).encode()) for it in ("README.md", "build_wheel.py", "pyproject.toml")]
    packed = io.BytesIO()
    with tarfile.open(fileobj=packed, mode="w", format=tarfile.USTAR_FORMAT) as archive:
        for path, found in [("PKG-INFO", metadata()), *own, *files()]:
            entry = tarfile.TarInfo(f"{top}/{path}")
            entry.size, entry.mtime = len(found), when()
            archive.addfile(entry, io.BytesIO(found))
    with open(os.path.join(sdist_directory, f"{top}.tar.gz"), "wb") as file:
        file.write(gzip.compress(packed.getvalue(), 9, mtime=when()))
    return f"{top}.tar.gz"
