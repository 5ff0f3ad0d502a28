"""Tests of the archive, the wheel and the Debian packages, each where nothing else is installed.

What is built here is packed by tools/release --as-built; where the environment's TENSOR_RELEASE names a
folder, that has a release of tools/release. The archive is unpacked in a root folder that has a shell and
the C library alone, where this user may change to one; else the programs are run in no environment. The
wheel, the client's sources and `pip install -e` go into a fresh venv. Nothing is left where a package is
taken away. What is handed out is added here with a test that installs it.
"""

import functools
import glob
import os
import re
import shutil
import sys

import pytest

from framing import answered, framed, parts
from hostile import FIVE, PROGRAMS, SCALAR, TOP, request
from roots import Root, Venv, client_by, files_below, ran, succeed

LIBRARY = os.path.join(TOP, "out", "libtensor.so")
TOOL = os.path.join(TOP, "tools", "release")
ROW = request(SCALAR, '"a"')
EXPLAINED = 'error 9 UnknownOp\nat /expr/0: no operation of version 1 is named "div"\n'
ADDED = b"11 22 33 of dims 3\nfault 8 UnknownInput\n"
# What each program is asked, and what it answers with which status; the program of frames by itself.
ASKED = {
    "tensor_run": (ROW, FIVE, 0),
    "tensor_lines": (ROW + b"\n" + ROW, FIVE * 2, 0),
    "tensor_explain": (request(SCALAR, '["div"]'), EXPLAINED, 1),
}
# Options of the programs of lines and frames, and one that they refuse.
OPTIONS = ["--log", "--most-steps 1", "--most-workers 1", "--most-steps=1", "--most-workers=1 --log", "--other"]


@pytest.fixture(scope="module")
def made(tmp_path_factory):
    """A folder with a release."""
    if os.environ.get("TENSOR_RELEASE"):
        return os.path.realpath(os.environ["TENSOR_RELEASE"])
    if not os.path.exists(LIBRARY):
        pytest.skip("the library isn't built: build/library builds it")
    if ran("git", "-C", TOP, "rev-parse", "HEAD", env=dict(os.environ))[1]:
        pytest.skip("git tells of no revision here (Debian's git)")
    folder = str(tmp_path_factory.mktemp("packages") / "made")
    succeed(TOOL, "--as-built", folder)
    return folder


def contents_of(folder):
    found = {}
    for it in os.listdir(folder):
        with open(os.path.join(folder, it), "rb") as file:
            found[it] = file.read()
    return found


def test_the_bytes_depend_on_no_environment(made, tmp_path):
    if os.environ.get("TENSOR_RELEASE"):
        pytest.skip("a release that is made isn't made again")
    others = {**os.environ, "TZ": "Asia/Tokyo", "LC_ALL": "C", "PYTHONHASHSEED": "1"}
    again = str(tmp_path / "again")
    succeed(TOOL, "--as-built", again, env=others, preexec_fn=lambda: os.umask(0o077))
    assert contents_of(made) == contents_of(again)


def test_the_sums_are_those_of_all_files(made):
    succeed("sha256sum", "--check", "--quiet", "SHA256SUMS", cwd=made)
    with open(os.path.join(made, "SHA256SUMS"), encoding="ascii") as file:
        assert sorted([*(it.split()[1] for it in file), "SHA256SUMS"]) == sorted(os.listdir(made))


# The programs and the library, in a folder of a bare root.


def example(page):
    """The commands of a page's example, and what they print, if it says so."""
    lines = [it[4:] for it in page.splitlines() if it.startswith("    ")]
    printed = [it[2:] for it in lines if it.startswith("# ")]
    return "\n".join(it for it in lines if not it.startswith("# ")), "\n".join(printed) + "\n"


def try_programs(root, folder):
    """Each program of a folder answers, and prints its help, whose example is right."""
    for name, (text, line, status) in ASKED.items():
        assert root.run(folder, name, text) == (line.encode(), status), name
    said, status = root.run(folder, "tensor_frames", framed(ROW))
    assert (parts(said), status) == (([answered(FIVE)], b""), 0)
    for name in PROGRAMS:
        with open(os.path.join(TOP, "docs", "man", name), "rb") as file:
            page = file.read()
        assert root.run(folder, f"{name} -h") == (page, 0)
        commands, printed = example(page.decode())
        if printed.strip():
            assert root.run(folder, commands) == (printed.encode(), 0), name


def try_options(root, folder):
    """What is installed answers with each option as its program does alone."""
    for name, text in ("tensor_lines", ROW + b"\n"), ("tensor_frames", framed(ROW)):
        for words in OPTIONS:
            by_wrapper = root.run(folder, f"{name} {words} 2>/dev/null", text)
            alone = root.run(f"{folder}/../libexec/tensor", f"{name} {words} 2>/dev/null", text)
            assert by_wrapper == alone, f"{name} {words}"
            assert by_wrapper[1] == (2 if words == "--other" else 0), f"{name} {words}"
        noted = root.run(folder, f"{name} --log 2>&1 >/dev/null", text)[0]
        assert noted.count(b"\n") == 1, f"{name} notes one request: {noted}"


# Programs linked to the library and to the archive, as find_package tells of them; and a version that isn't.
PROJECT = """
cmake_minimum_required(VERSION 3.13)
project(add C)
find_package(tensor VERSION REQUIRED)
foreach(it tensor static)
  add_executable(${it} SOURCE)
  target_link_libraries(${it} tensor::${it})
endforeach()
find_package(tensor NEXT QUIET)
if(tensor_FOUND)
  message(FATAL_ERROR "another version than that asked for")
endif()
"""


def try_cmake(folder, config):
    """C programs that CMake makes by what find_package finds there answer."""
    if not shutil.which("cmake") or not shutil.which("make"):
        pytest.skip("no cmake (Debian's cmake make)")
    source = os.path.join(TOP, "examples", "c", "add.c")
    with open(os.path.join(TOP, "VERSION"), encoding="ascii") as file:
        first, second, _ = map(int, file.read().split("."))
    words = {"SOURCE": source, "NEXT": str(first + 1), "tensor VERSION": f"tensor {first}.{second}"}
    project = functools.reduce(lambda text, it: text.replace(*it), words.items(), PROJECT)
    (folder / "CMakeLists.txt").write_text(project, encoding="utf-8")
    build, env = str(folder / "build"), dict(os.environ)
    succeed("cmake", "-S", str(folder), "-B", build, f"-Dtensor_DIR={config}", env=env)
    succeed("cmake", "--build", build, env=env)
    for it in "tensor", "static":
        assert ran(os.path.join(build, it), env={}) == (ADDED, 0)


def try_compiling(folder, compiler, config, library, *flags):
    """A C program that is made by what pkg-config says answers where the library lies."""
    if not shutil.which("pkg-config"):
        pytest.skip("no pkg-config (Debian's pkg-config)")
    env = {**os.environ, "PKG_CONFIG_PATH": config}
    words = succeed("pkg-config", *flags, "--cflags", "--libs", "tensor", env=env).decode().split()
    program, source = str(folder / "add"), os.path.join(TOP, "examples", "c", "add.c")
    succeed(compiler, source, "-o", program, *words)
    assert ran(program, env={"LD_LIBRARY_PATH": library}) == (ADDED, 0)


@pytest.fixture(scope="module")
def archive(made, tmp_path_factory):
    """A bare root in whose /opt the archive is unpacked, and the folder of that."""
    root = Root(tmp_path_factory.mktemp("archive"))
    os.makedirs(root.at("opt"))
    path = glob.glob(os.path.join(made, "tensor-*-linux.tar.xz"))[0]
    succeed("tar", "-xJf", path, "-C", root.at("opt"))
    return root, f"opt/{os.path.basename(path)[: -len('.tar.xz')]}"


def test_the_programs_of_the_archive_answer(archive):
    root, folder = archive
    try_programs(root, f"{folder}/bin")


def test_the_programs_of_the_archive_take_options(archive):
    root, folder = archive
    try_options(root, f"{folder}/bin")


@pytest.mark.skipif("not is_v3()", reason="this processor isn't of the level x86-64-v3")
def test_the_programs_for_more_processors_answer(archive):
    root, folder = archive
    for name, (text, line, status) in ASKED.items():
        assert root.run(f"{folder}/libexec/tensor/x86-64-v3", name, text) == (line.encode(), status)


def test_a_program_is_linked_to_the_library_of_the_archive(archive, compiler, tmp_path):
    root, folder = archive
    library = root.at(f"{folder}/lib")
    try_compiling(tmp_path, compiler, os.path.join(library, "pkgconfig"), library)


def test_cmake_finds_the_library_of_the_archive(archive, tmp_path):
    root, folder = archive
    try_cmake(tmp_path, root.at(f"{folder}/lib/cmake/tensor"))


# The client, in an environment of Python.


def is_v3():
    """Whether this processor is of the level x86-64-v3, by what the kernel lists."""
    with open("/proc/cpuinfo", encoding="ascii", errors="replace") as file:
        flags = next((it.split() for it in file if it.startswith("flags")), [])
    return {"avx2", "bmi1", "bmi2", "f16c", "fma", "abm", "movbe"} <= {*flags}


def newest_glibc(path):
    """The newest version of the C library that a library names."""
    with open(path, "rb") as file:
        found = re.findall(rb"\0GLIBC_([\d.]+)(?=\0)", file.read())
    return max([int(part) for part in it.split(b".")] for it in found)


@pytest.fixture
def venv(tmp_path):
    """A fresh environment, of which nothing may be left but itself."""
    found = Venv(tmp_path / "venv")
    if found.status:
        pytest.skip("Python makes no venv (Debian's python3-venv)")
    empty = files_below(found.folder)
    yield found
    found.pip("uninstall", "--yes", "tensor_client")
    assert files_below(found.folder) == empty


def test_the_wheel_answers_by_the_library_for_this_processor(made, venv):
    venv.pip("install", glob.glob(os.path.join(made, "*.whl"))[0])
    library, package, answer = client_by(venv.python)
    home = os.path.dirname(package)
    libraries = [os.path.join(home, it) for it in ("libtensor.so", "libtensor-x86-64-v3.so")]
    can_run = libraries if is_v3() else libraries[:1]
    assert (library, answer) == (can_run[-1], [11, 12]) and home.startswith(venv.folder)
    for it in can_run:
        assert client_by(venv.python, TENSOR_LIBRARY=it) == [it, package, [11, 12]]
    for it in libraries:
        assert newest_glibc(it) <= [2, 17], "manylinux2014"


@pytest.mark.parametrize("form", ["its sources", "its folder"])
def test_the_client_is_installed_by(form, made, venv, tmp_path):
    wheel = glob.glob(os.path.join(made, "*.whl"))[0]
    shutil.unpack_archive(wheel, tmp_path / "wheel", "zip")
    sources = glob.glob(os.path.join(made, "tensor_client-*.tar.gz"))[0]
    is_folder = form == "its folder"
    venv.pip("install", *(["--editable", os.path.join(TOP, "python")] if is_folder else [sources]))
    library = str(tmp_path / "wheel" / "tensor_client" / "libtensor.so")
    _, package, answer = client_by(venv.python, TENSOR_LIBRARY=library)
    assert answer == [11, 12] and package.startswith(TOP) == is_folder


# The Debian packages, in a bare root.


@pytest.fixture(scope="module")
def packages(made):
    if not shutil.which("dpkg-deb"):
        pytest.skip("no dpkg (Debian's dpkg)")
    return sorted(glob.glob(os.path.join(made, "*.deb")))


@pytest.fixture(scope="module")
def debian(packages, tmp_path_factory):
    """A bare root in which the packages are installed by dpkg, where that may be, or else unpacked; of
    which nothing may be left where they are taken away."""
    root = Root(tmp_path_factory.mktemp("debian"))
    before = files_below(root.folder)
    dpkg = ["dpkg", f"--root={root.folder}", "--force-depends", "--force-not-root"]
    by_dpkg = root.way == Root.WAYS[0]
    if by_dpkg:
        for it in ("info", "updates"):
            os.makedirs(root.at(f"var/lib/dpkg/{it}"))
        for it in ("status", "available"):
            open(root.at(f"var/lib/dpkg/{it}"), "w", encoding="ascii").close()
        succeed(*dpkg, "--install", *packages)
    else:
        for it in packages:
            succeed("dpkg-deb", "--extract", it, root.folder)
    yield root
    if by_dpkg:
        succeed(*dpkg, "--purge", *(os.path.basename(it).split("_")[0] for it in packages))
        assert {it for it in files_below(root.folder) if not it.startswith(root.at("var/"))} == before


def test_the_programs_of_the_packages_answer(debian):
    try_programs(debian, "usr/bin")
    try_options(debian, "usr/bin")


def test_units_start_what_is_there(debian):
    units = glob.glob(debian.at("usr/lib/systemd/system/tensor-*"))
    assert len(units) == 4
    for unit in units:
        with open(unit, encoding="utf-8") as file:
            named = re.findall(r"(?m)^ExecStart=/(\S+)", file.read())
        assert all(os.path.exists(debian.at(it)) for it in named), unit


def test_a_program_is_linked_to_the_library_of_the_packages(debian, compiler, tmp_path):
    library = debian.at("usr/lib/x86_64-linux-gnu")
    sysroot = f"--define-variable=prefix={debian.at('usr')}"
    try_compiling(tmp_path, compiler, os.path.join(library, "pkgconfig"), library, sysroot)


def test_cmake_finds_the_library_of_the_packages(debian, tmp_path):
    try_cmake(tmp_path, debian.at("usr/lib/x86_64-linux-gnu/cmake/tensor"))


def test_the_client_of_the_packages_answers(debian):
    path, library = debian.at("usr/lib/python3/dist-packages"), debian.at("usr/lib/x86_64-linux-gnu")
    names = {"PYTHONPATH": path, "LD_LIBRARY_PATH": library, "PYTHONDONTWRITEBYTECODE": "1"}
    _, package, answer = client_by(sys.executable, **names)
    assert (package, answer) == (os.path.join(path, "tensor_client", "__init__.py"), [11, 12])


def test_lintian_has_no_error(packages):
    if not shutil.which("lintian"):
        pytest.skip("no lintian (Debian's lintian)")
    said, status = ran("lintian", "--allow-root", *packages, env=dict(os.environ))
    assert [it for it in said.decode().splitlines() if it.startswith("E: ")] == [] and status == 0


def is_run_or_linked(path):
    """Whether a file is a program or a shared library."""
    if os.path.islink(path):
        return False
    with open(path, "rb") as file:
        return file.read(4) == b"\x7fELF"


def test_the_packages_depend_on_what_they_take(packages, tmp_path):
    if not shutil.which("dpkg-shlibdeps"):
        pytest.skip("no dpkg-shlibdeps (Debian's dpkg-dev)")
    needs = re.compile(rb"libc6 \(>= \S+\)")
    for package in packages:
        folder = tmp_path / os.path.basename(package)
        (folder / "debian").mkdir(parents=True)
        control = "Source: tensor\n\nPackage: tensor\nArchitecture: any\n"
        (folder / "debian" / "control").write_text(control, encoding="ascii")
        succeed("dpkg-deb", "--extract", package, str(folder / "files"))
        own = [it for it in files_below(folder / "files") if is_run_or_linked(it)]
        if own:
            command = ["dpkg-shlibdeps", "-O", "--warnings=0", *(f"-e{it}" for it in own)]
            found = ran(*command, cwd=folder, env=dict(os.environ))[0]
            told = succeed("dpkg-deb", "--field", package, "Depends")
            assert needs.findall(told) == needs.findall(found), package
