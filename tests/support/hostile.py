"""What the tests share: the programs and how they are run, some requests, and the library that counts
and refuses memory and threads."""

import contextlib
import json
import os
import re
import resource
import struct
import subprocess
import sys
from typing import NamedTuple

SUPPORT = os.path.dirname(os.path.abspath(__file__))
TOP = os.path.dirname(os.path.dirname(SUPPORT))


def built(name):
    """Where the program of a crate is once it is built."""
    return os.path.join(TOP, "crates", name, "out", name)


def built_tests(name):
    """Where the program of a crate's tests is once `rt test` has built it."""
    return os.path.join(TOP, "crates", name, "out", f"{name}_tests")


# The programs by their crates' names, as build/programs lists them.
PROGRAMS = {it: built(it) for it in ("tensor_run", "tensor_lines", "tensor_frames", "tensor_explain")}
PROGRAM, LINES_PROGRAM, FRAMES_PROGRAM, EXPLAIN_PROGRAM = PROGRAMS.values()
# `./run --check-all` doesn't build this program; the gate does.
PLAIN = built("plain_run")
COMPILERS = ("cc", "gcc", "clang")
COUNTS = struct.Struct("5Q")
# A run that takes longer never ends, however busy the machine is.
SECONDS = 120
# How long a command may take that builds a program, or checks many answers.
LONG = 600
# How many runs in a row have to meet no refusal: the number of requests of threads differs by run.
QUIET = 4
# Each of the first EACH requests is refused in a run of its own, and behind them one of every STRIDE.
EACH, STRIDE = 400, 7

NO_MEMORY = "error 15 NoMemory\n"
READ_FAULT, WRITE_FAULT = "error 16 ReadFault\n", "error 17 WriteFault\n"


def request(inputs, expr, version=1, workers=2, block=4):
    """The text of a request."""
    return (
        f'{{"version":{version},"workers":{workers},"block":{block},'
        f'"inputs":{{{inputs}}},"expr":{expr}}}'
    ).encode()


SCALAR = '"a":{"dims":[],"data":[5]}'
FIVE = '{"data":[5],"dims":[]}\n'
MATRICES = '"l":{"dims":[2,3],"data":[1,4,2,5,3,6]},"r":{"dims":[3,2],"data":[1,3,5,2,4,6]}'
PRODUCT = '["contract","l","r",[[1,0]]]'
PRODUCT_LINE = '{"data":[22,49,28,64],"dims":[2,2]}\n'
# A sum of a contraction that is worth the start of two workers: 64 by 64 values, of 2,304
# products each.
TILES, DEPTH = 32, 768
SHARED = (
    f'["sum",["contract",["broadcast","l",[{TILES},{DEPTH}]],'
    f'["broadcast","r",[{DEPTH},{TILES}]],[[1,0]]],[0,1]]'
)
SHARED_LINE = f'{{"data":[{(22 + 49 + 28 + 64) * TILES * TILES * DEPTH}],"dims":[]}}\n'
# An operation over an operation, as deep as a text may be: 126 lists in an object.
DEEPEST = '["neg",' * 126 + '"a"' + "]" * 126
# How few bytes of stack are enough for any request.
LITTLE_STACK = 1_048_576


def little_stack():
    """Limits the stack of a process before it begins."""
    resource.setrlimit(resource.RLIMIT_STACK, (LITTLE_STACK, LITTLE_STACK))


def line_of(values, dims):
    """The line of a tensor, whose values are taken modulo 2^64."""
    data = [(int(it) + 2**63) % 2**64 - 2**63 for it in values]
    return json.dumps({"data": data, "dims": list(dims)}, separators=(",", ":")) + "\n"


def status_of(line):
    return 0 if line.startswith("{") else 1


def run(text, env=None, program=PROGRAM, options=()):
    """Standard output, standard error and the status of a program; a signal is a number below 0,
    and None stands for no end in time. Bytes that are no UTF-8 come as Python's surrogates."""
    how = {"env": env or {}, "capture_output": True, "timeout": SECONDS, "check": False}
    try:
        ran = subprocess.run([program, *options], input=text, **how)
    except subprocess.TimeoutExpired:
        return "", f"no end in {SECONDS} s", None
    out, complaint = (it.decode(errors="surrogateescape") for it in (ran.stdout, ran.stderr))
    return out, complaint, ran.returncode


def by_shell(streams, text, program=PROGRAM, options=(), before=""):
    """A run with these redirections of a shell, and a command before it: both streams as bytes, and
    the status."""
    words = ["sh", "-c", f'{before}exec "$0" "$@" {streams}', program, *options]
    how = {"env": {}, "capture_output": True, "timeout": SECONDS, "check": False}
    ran = subprocess.run(words, cwd=TOP, input=text, **how)
    return ran.stdout, ran.stderr, ran.returncode


def output(*words, **how):
    """The standard output of a command, which ends with status 0 and an empty standard error."""
    words = list(map(str, words))
    ran = subprocess.run(words, capture_output=True, text=True, timeout=LONG, check=False, **how)
    assert (ran.returncode, ran.stderr) == (0, "")
    return ran.stdout


class Used(NamedTuple):
    """What a run printed, its status, its seconds of a processor, and its peak memory in MiB."""

    out: str
    complaint: str
    status: int
    processor: float
    peak: float


# The system counts the peak memory of a process before it begins too, so a small one has to start it.
MEASURE = """
import json, os, resource, sys
status = os.spawnve(os.P_WAIT, sys.argv[2], sys.argv[2:], {})
used = resource.getrusage(resource.RUSAGE_CHILDREN)
with open(sys.argv[1], "w") as file:
    json.dump([status, used.ru_utime + used.ru_stime, used.ru_maxrss / 1024], file)
"""


def measured(text, folder, program=PROGRAM):
    """A run of a program on the text of a file. The folder is for what is measured."""
    noted = os.path.join(folder, "used")
    words = [sys.executable, "-I", "-S", "-c", MEASURE, noted, program]
    with open(text, "rb") as given:
        ran = subprocess.run(words, stdin=given, capture_output=True, check=True)
    with open(noted, encoding="ascii") as file:
        return Used(ran.stdout.decode(), ran.stderr.decode(), *json.load(file))


def kib(process, field):
    """A number that the system keeps of a process, in KiB, which is 0 where the process isn't there."""
    with contextlib.suppress(OSError), open(f"/proc/{process}/status", encoding="latin-1") as file:
        return int(re.search(rf"(?m)^{field}:\s+(\d+)", file.read())[1])
    return 0


class Refusals:
    """The library of refusals.c in a folder, and what it counted in the last run."""

    def __init__(self, compiler, folder):
        self.library = os.path.join(folder, "refusals.so")
        self.counts = os.path.join(folder, "counts")
        source = os.path.join(SUPPORT, "refusals.c")
        words = [compiler, "-O1", "-shared", "-fPIC", "-o", self.library, source, "-ldl"]
        subprocess.run(words, check=True)

    def run(self, text, program=PROGRAM, options=(), **settings):
        """A run with these settings, as `memory=3` for REFUSE_MEMORY."""
        with open(self.counts, "wb") as file:
            file.write(bytes(COUNTS.size))
        env = {"LD_PRELOAD": self.library, "REFUSE_COUNTS": self.counts}
        for name, value in settings.items():
            env[f"REFUSE_{name.upper()}"] = str(value)
        ran = run(text, env, program, options)
        with open(self.counts, "rb") as file:
            counts = COUNTS.unpack(file.read())
        self.requests, self.refused, self.starts, self.starts_refused, self.interrupted = counts
        return ran

    def in_turn(self, text, program=PROGRAM, kind="memory", onward=0, options=()):
        """Refuses each request for memory, or each start of a thread, in turn: alone, or with all
        later ones. Beyond the first EACH it refuses one of every STRIDE. Yields the number of each,
        what the run printed, and whether it met a refusal. It ends after QUIET runs in a row that
        met none."""
        number = quiet = 0
        while quiet < QUIET:
            number += 1 if number < EACH else STRIDE
            ran = self.run(text, program, options, **{kind: number, "onward": onward})
            is_met = bool(self.refused if kind == "memory" else self.starts_refused)
            quiet = 0 if is_met else quiet + 1
            yield number, ran, is_met
