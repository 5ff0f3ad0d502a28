"""What pytest does for all tests: options, what is skipped, and the programs that are tried."""

import os
import re
import shutil
import signal

import pytest

from hostile import COMPILERS, PROGRAMS, TOP, Refusals, output

# How many seconds a test may take, and how much of a comparison is shown.
MOST_SECONDS, MOST_SHOWN = 1_800, 2_000

# Tests that take long, by their names.
LONG = re.compile(r"valgrind|test_c$|memory|few_threads|test_sizes|test_packages|test_loop|test_parts|types")


def pytest_addoption(parser):
    group = parser.getgroup("tensor")
    group.addoption("--all", action="store_true", help="fail where a test is skipped")
    group.addoption("--count", type=int, help="how many cases to draw of each kind")
    group.addoption("--seed", type=int, default=1, help="the seed of drawn cases")
    group.addoption(
        "--crowd-seconds", type=float, default=10, help="how long test_crowd.py has each crowd ask"
    )
    group.addoption("--places", action="store_true", help="test_fuzz.py asks bench/places too")


def pytest_assertrepr_compare(op, left, right):
    """Shows long sides of a comparison where they begin to differ: to compare them further takes minutes."""
    sides = repr(left), repr(right)
    if max(map(len, sides)) <= MOST_SHOWN:
        return None
    at = len(os.path.commonprefix(sides))
    return [f"not {op} from character {at:,}", *(it[max(0, at - 80) : at + 200] for it in sides)]


def pytest_collection_modifyitems(items):
    """Long tests begin first, so that no lane has one left at the end."""
    items.sort(key=lambda it: not LONG.search(it.nodeid))


@pytest.fixture(autouse=True)
def in_time():
    """A test that never ends fails."""

    def end(_signal, _frame):
        pytest.fail(f"no end in {MOST_SECONDS} s")

    signal.signal(signal.SIGALRM, end)
    signal.alarm(MOST_SECONDS)
    yield
    signal.alarm(0)


@pytest.hookimpl(trylast=True)
def pytest_sessionfinish(session, exitstatus):
    reporter = session.config.pluginmanager.get_plugin("terminalreporter")
    if session.config.getoption("--all") and reporter and reporter.stats.get("skipped"):
        session.exitstatus = exitstatus or pytest.ExitCode.TESTS_FAILED


@pytest.fixture(scope="session")
def seed(pytestconfig):
    """The seed of drawn cases."""
    return pytestconfig.getoption("--seed")


@pytest.fixture(scope="session")
def programs():
    """The paths of the programs by their crates' names. A program that isn't built is a failure."""
    missing = [name for name, path in PROGRAMS.items() if not os.access(path, os.X_OK)]
    if missing:
        pytest.fail(f"not built: {', '.join(missing)}; ./run --check-all builds all programs")
    return PROGRAMS


@pytest.fixture(scope="session")
def compiler():
    """A C compiler."""
    return next(filter(shutil.which, COMPILERS), None) or pytest.skip("no C compiler (Debian's gcc)")


@pytest.fixture(scope="session")
def refusals(compiler, tmp_path_factory):
    """The library of support/refusals.c, which counts and refuses memory and threads."""
    return Refusals(compiler, tmp_path_factory.mktemp("refusals"))


@pytest.fixture(scope="session")
def kit():
    """The command `rt` of the kit."""
    return shutil.which("rt") or pytest.skip("the command rt of the kit isn't on PATH")


@pytest.fixture(scope="session")
def rust(tmp_path_factory):
    """Where the example in Rust and the caller are built."""
    room = tmp_path_factory.mktemp("rust")
    if not shutil.which("cargo"):
        pytest.skip("no cargo (Debian's cargo)")
    words = ["cargo", "build", "--release", "--quiet", "--offline", "--target-dir", room]
    output(*words, cwd=os.path.join(TOP, "examples", "rust"))
    return room / "release"
