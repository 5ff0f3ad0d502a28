"""Tries the options of the programs of many requests: limits, and a log.

The steps of requests are counted here by hand. At a limit each is answered as without any, and just
above it by the limit's fault, and so are the workers; whatever a request's answer is, the next one is
answered too. A fault of the rules comes before a limit, and the limit of workers before the limit of steps.
A request that would take minutes is refused at once, or evaluated no further once its seconds have passed.
With a log, standard error has a line for each
request, in order: its bytes, the bytes of its answer, its fault, its steps, also where it is out
of memory, and microseconds, in which no request is waited for. Where standard error is closed or full
the answers are the same. Options that a program doesn't have end it with status 2. A new request is a
row of COUNTED, a new option a row of OPTIONS, and of REFUSED where the programs refuse it.
"""

import os
import re
import subprocess
import time

import pytest

from framing import frame
from hostile import MATRICES, NO_MEMORY, PRODUCT, PRODUCT_LINE, READ_FAULT, TOP, request
from servers import FRAMES, LINES, SERVERS, most

pytestmark = pytest.mark.usefixtures("programs")
each_server = pytest.mark.parametrize("server", SERVERS, ids=repr)

THREE = '"a":{"dims":[3],"data":[1,2,3]}'
PAIRS = '"a":{"dims":[5],"data":[1,2,3,4,5]},"k":{"dims":[2],"data":[1,1]}'
WORKERS = 2
ROW = (THREE, '"a"', '{"data":[1,2,3],"dims":[3]}\n')
# Inputs, an expression, its line, and its steps: one for each operation at each place of what is
# computed, and one for each value or product that is combined.
COUNTED = {
    "a name": (*ROW, 0),
    "a value each": (THREE, '["neg","a"]', '{"data":[-1,-2,-3],"dims":[3]}\n', 3),
    "two": (THREE, '["add","a",["neg","a"]]', '{"data":[0,0,0],"dims":[3]}\n', 6),
    "three operands": (THREE, '["select","a","a","a"]', ROW[2], 3),
    "what is left of a slice": (
        THREE, '["slice",["neg","a"],[0],[1]]', '{"data":[-1],"dims":[1]}\n', 2,
    ),
    "what is repeated": (
        THREE, '["broadcast",["neg","a"],[2]]', '{"data":[-1,-2,-3,-1,-2,-3],"dims":[6]}\n', 12,
    ),
    "a sum": (THREE, '["sum","a",[0]]', '{"data":[6],"dims":[]}\n', 1 + 3),
    "a sum of what is computed": (
        THREE, '["sum",["neg","a"],[0]]', '{"data":[-6],"dims":[]}\n', 3 + 1 + 3,
    ),
    "an operation on a sum": (
        THREE, '["neg",["sum","a",[0]]]', '{"data":[-6],"dims":[]}\n', 1 + 3 + 1,
    ),
    "a sum of nothing": ('"a":{"dims":[0],"data":[]}', '["sum","a",[0]]', '{"data":[0],"dims":[]}\n', 1),
    "products": (MATRICES, PRODUCT, PRODUCT_LINE, 4 + 4 * 3),
    "products of what is computed": (
        MATRICES,
        '["contract",["neg",["neg","l"]],["abs","r"],[[1,0]]]',
        PRODUCT_LINE,
        2 * 6 + 6 + 4 + 4 * 3,
    ),
    "products under a kernel": (
        PAIRS, '["convolve","a","k",[0]]', '{"data":[3,5,7,9],"dims":[4]}\n', 4 + 4 * 2,
    ),
    "two sums": (
        THREE, '["add",["sum","a",[0]],["sum","a",[0]]]', '{"data":[12],"dims":[]}\n', 2 * (1 + 3) + 1,
    ),
}
# Rows of version 3: along an axis; and with names, of which each counts once, whatever reads it.
OF_VERSION_3 = {
    "sums up to each place": (THREE, '["cumsum","a",0]', '{"data":[1,3,6],"dims":[3]}\n', 3 + 3),
    "the place of the greatest of what is computed": (
        THREE, '["argmax",["neg","a"],0]', '{"data":[0],"dims":[]}\n', 3 + 1 + 3,
    ),
    "what is taken": (
        THREE, '["take",["neg","a"],["add","a","a"],0]', '{"data":[-3,0,0],"dims":[3]}\n', 3 + 3 + 3,
    ),
    "a name read twice": (
        THREE, '["let","b",["neg","a"],["mul","b","b"]]', '{"data":[1,4,9],"dims":[3]}\n', 3 + 3,
    ),
    "a name that nothing reads": (THREE, '["let","b",["neg","a"],"a"]', ROW[2], 3),
    "a name over another": (
        THREE,
        '["let","b",["sum","a",[0]],["let","c",["neg","b"],["add","c","b"]]]',
        '{"data":[0],"dims":[]}\n',
        1 + 3 + 1 + 1,
    ),
    "products of a name": (
        MATRICES,
        '["let","n",["neg",["neg","l"]],["contract","n","r",[[1,0]]]]',
        PRODUCT_LINE,
        2 * 6 + 4 + 4 * 3,
    ),
}
TOO_MANY_WORKERS, TOO_MANY_STEPS = "error 19 TooManyWorkers\n", "error 20 TooManySteps\n"
TOO_MANY_SECONDS = "error 21 TooManySeconds\n"
UNKNOWN_INPUT, BAD_WORKERS = "error 8 UnknownInput\n", "error 5 BadWorkers\n"
NOT_JSON, TOO_LONG = "error 2 NotJson\n", "error 1 TooLong\n"
GREATEST = 2**64 - 1
# 50 contractions of 2^30 products each, in a sum.
WIDE = '["broadcast","b",[1024,1024]]'
DEAR = f'["contract",{WIDE},{WIDE},[[1,0]]]'
for _ in range(49):
    DEAR = f'["add",["contract",{WIDE},{WIDE},[[1,0]]],{DEAR}]'
ONE = '"b":{"dims":[1,1],"data":[1]}'
# Of each both operands are computed, and there are 2^20 places; and 49 sums of them at each place.
DEAR_STEPS = 50 * (2**30 + 3 * 2**20) + 49 * 2**20
# A log has no steps of a request that isn't planned.
NO_STEPS = "-"


def text_of(inputs, expr, workers=WORKERS, version=2):
    return request(inputs, expr, version=version, workers=workers)


def asked(server, options, *texts):
    """The answers to some texts, standard error and the status."""
    return server.run(server.requests(*texts), options)


def expected(server, *lines):
    """Answers as these lines say them, nothing on standard error, and the status."""
    return server.answers(*lines), "", 0


def counted(server):
    """Texts with their lines and their steps, by name."""
    found = {name: (text_of(*it[:2]), *it[2:]) for name, it in COUNTED.items()}
    if server is FRAMES:
        found.update({name: (text_of(*it[:2], version=3), *it[2:]) for name, it in OF_VERSION_3.items()})
    return found


EVERY = [(server, name) for server in SERVERS for name in counted(server)]
PLAIN, NEG = counted(LINES)["a name"], counted(LINES)["a value each"]
LONG = (text_of(ONE, DEAR), TOO_MANY_STEPS, DEAR_STEPS)
FAULT = (text_of(THREE, '["neg","b"]'), UNKNOWN_INPUT, NO_STEPS)
MANY_WORKERS = (text_of(THREE, '["neg","a"]', workers=257), BAD_WORKERS, NO_STEPS)
ALONE = (text_of(*ROW[:2], workers=1), *PLAIN[1:])


@pytest.mark.parametrize("server, name", EVERY, ids=[f"{it.name}-{name}" for it, name in EVERY])
def test_steps(server, name):
    text, line, steps = counted(server)[name]
    for options in [], most(steps=steps):
        assert asked(server, options, text, PLAIN[0]) == expected(server, line, ROW[2]), options
    if steps:
        wanted = expected(server, TOO_MANY_STEPS, ROW[2], TOO_MANY_STEPS)
        assert asked(server, most(steps=steps - 1), text, PLAIN[0], text) == wanted


def refused(asked_for, line):
    """A request that a limit refuses by this line."""
    return asked_for[0], line, asked_for[2]


# Options, and requests with their lines and, for the log, their steps.
OPTIONS = {
    "as many workers": (most(workers=WORKERS), [PLAIN, ALONE]),
    "too many workers": (most(workers=WORKERS - 1), [refused(PLAIN, TOO_MANY_WORKERS), ALONE]),
    "no worker": (most(workers=0), [refused(it, TOO_MANY_WORKERS) for it in (PLAIN, ALONE)]),
    "workers before steps": (most(workers=1, steps=2), [refused(NEG, TOO_MANY_WORKERS)] * 2),
    "the other order": (most(steps=2, workers=1), [refused(NEG, TOO_MANY_WORKERS)]),
    "the last one counts": (most(steps=0) + most(steps=3), [NEG]),
    "the greatest": (most(steps=GREATEST, workers=GREATEST), [NEG]),
    "behind an equals sign": (["--most-steps=2", "--most-workers=1"], [refused(NEG, TOO_MANY_WORKERS)]),
    "the last one counts, behind an equals sign": ([*most(steps=0), "--most-steps=3"], [NEG]),
    "zeros before a number, and a sign": (["--most-steps=003", "--most-workers", "+2"], [NEG]),
    "faults come first": (most(workers=0, steps=0), [FAULT, MANY_WORKERS]),
    "what takes long": (most(steps=1_000_000), [LONG, PLAIN]),
    "no second": (most(seconds=0), [refused(it, TOO_MANY_SECONDS) for it in (PLAIN, NEG, ALONE)]),
    "a second": (most(seconds=1), [PLAIN, refused(LONG, TOO_MANY_SECONDS), NEG]),
    "enough seconds": (most(seconds=3600), [NEG, PLAIN]),
    "the most seconds": (most(seconds=GREATEST), [NEG]),
    "the last number of seconds counts": (most(seconds=0) + most(seconds=3600), [NEG]),
    "faults before seconds": (most(seconds=0), [FAULT, MANY_WORKERS]),
    "steps before seconds": (most(seconds=0, steps=2), [refused(NEG, TOO_MANY_STEPS)]),
    "too many steps": (most(steps=2), [refused(NEG, TOO_MANY_STEPS), PLAIN, refused(NEG, TOO_MANY_STEPS)]),
    "faults": ([], [FAULT, PLAIN, MANY_WORKERS, PLAIN]),
}


@each_server
@pytest.mark.parametrize("options, wanted", OPTIONS.values(), ids=OPTIONS)
def test_limits(server, options, wanted):
    texts, lines, _ = zip(*wanted)
    assert asked(server, options, *texts) == expected(server, *lines)


def most_bytes(number):
    return ["--most-bytes", str(number)]


@each_server
def test_most_bytes(server):
    """A request of as many bytes is answered; a longer one is too long, and the next is answered."""
    (text, line, _), (other, plain, _) = NEG, PLAIN
    size = len(server.sent(text)) - (server is LINES)
    assert len(server.sent(other)) - (server is LINES) < size
    for most, wanted in (size, line), (size - 1, TOO_LONG):
        assert asked(server, most_bytes(most), text, other, text) == expected(server, wanted, plain, wanted)
    assert asked(server, [*most_bytes(0), *most_bytes(GREATEST)], text) == expected(server, line)
    assert asked(server, most_bytes(0), text) == expected(server, TOO_LONG)


@each_server
def test_most_bytes_are_not_kept(server):
    """A request that fits in no memory is too long by the limit, and lacks memory without it."""
    values = 2**20
    text = text_of(f'"a":{{"dims":[{values}],"data":{[1000000] * values}}}', '["sum","a",[0]]')
    for options, wanted in (most_bytes(10_000), TOO_LONG), ([], NO_MEMORY):
        got = server.run(server.requests(text, PLAIN[0]), options, before=LITTLE_MEMORY)
        assert got == expected(server, wanted, PLAIN[1]), options


MISSING, NOT_A_NUMBER = "a number is missing", "the value is not a whole number below 2^64"
NO_OPTION, NO_VALUE = "no such option", "takes no value"
# Options that are refused, with the name of the first that is wrong, and why.
REFUSED = {
    "--most-steps": ("--most-steps", MISSING),
    "--log --most-workers": ("--most-workers", MISSING),
    "--most-workers 1 --most-steps": ("--most-steps", MISSING),
    "--most-steps x": ("--most-steps", NOT_A_NUMBER),
    "--most-bytes x": ("--most-bytes", NOT_A_NUMBER),
    "--log --most-bytes": ("--most-bytes", MISSING),
    "--most-seconds x": ("--most-seconds", NOT_A_NUMBER),
    "--log --most-seconds": ("--most-seconds", MISSING),
    "--most-steps -1": ("--most-steps", NOT_A_NUMBER),
    "--most-steps=": ("--most-steps", NOT_A_NUMBER),
    "--most-workers=1=2": ("--most-workers", NOT_A_NUMBER),
    f"--most-steps {GREATEST + 1}": ("--most-steps", NOT_A_NUMBER),
    f"--most-steps={GREATEST + 1}": ("--most-steps", NOT_A_NUMBER),
    "--most-steps --log": ("--most-steps", NOT_A_NUMBER),
    "--most 1": ("--most", NO_OPTION),
    "--most-step=1": ("--most-step", NO_OPTION),
    "--log 1": ("1", NO_OPTION),
    "1": ("1", NO_OPTION),
    "--help 1": ("1", NO_OPTION),
    "--version -x": ("-x", NO_OPTION),
    "--log=1": ("--log", NO_VALUE),
    "--help=": ("--help", NO_VALUE),
    "-h=1 --most": ("-h", NO_VALUE),
    "--version=1": ("--version", NO_VALUE),
}


def usage_of(server, *options):
    out, complaint, status = asked(server, options or ["--help"])
    assert (complaint, status) == ("", 0)
    return out.decode()


@each_server
@pytest.mark.parametrize("words", REFUSED)
def test_refused_options(server, words):
    complaint = f"{os.path.basename(server.program)}: {': '.join(REFUSED[words])}\n{usage_of(server)}"
    assert asked(server, words.split(), PLAIN[0]) == (b"", complaint, 2)


@each_server
def test_help_and_version(server):
    program = os.path.basename(server.program)
    usage = usage_of(server)
    assert usage.startswith(f"usage: {program} ")
    assert usage == usage_of(server, "-h") == usage_of(server, "--log", "--help", "--version")
    with open(os.path.join(TOP, "VERSION"), encoding="ascii") as file:
        assert asked(server, ["--version", "--help"]) == (f"{program} {file.read()}".encode(), "", 0)


COMMANDS = {"lines": LINES, "frames": FRAMES, "run": None, "explain": None}
SOME = {"a limit": (most(steps=2), TOO_MANY_STEPS), "a log": (["--log"], NEG[1])}


@pytest.mark.parametrize("options, line", SOME.values(), ids=SOME)
@pytest.mark.parametrize("name, server", COMMANDS.items(), ids=COMMANDS)
def test_commands(name, server, options, line):
    """./lines and ./frames take the options, and ./run and ./explain don't."""
    data = (server or LINES).requests(NEG[0], PLAIN[0])
    env = {**os.environ, "TENSOR_RUN_BUILD": "no"}
    words = [os.path.join(TOP, name), *options]
    got = subprocess.run(words, input=data, env=env, capture_output=True, check=False)
    wanted = (expected(server, line, ROW[2])[0], 0) if server else (b"", 2)
    assert (got.stdout, got.returncode) == wanted


ENTRY = re.compile(
    r"request=(\d+) bytes=(\d+) answered=(\d+) fault=(\d+) name=(\w+) steps=(\d+|-) us=(\d+)\n"
)
# Too little memory for the values of WIDE, 2^20 of 8 bytes.
LITTLE_MEMORY = "ulimit -v 10000; "


def entries(log):
    """What the lines of a log say but for microseconds, and the microseconds."""
    found = list(map(ENTRY.fullmatch, log.splitlines(keepends=True)))
    assert all(found), log
    return [(*map(int, it.group(1, 2, 3, 4)), *it.group(5, 6)) for it in found], [int(it[7]) for it in found]


def entry(number, size, answer, line, steps=NO_STEPS):
    """What a log says of a request of `size` bytes with this answer, but for microseconds."""
    fault, name = line.split()[1:] if line.startswith("error ") else (0, "ok")
    return number, size, len(answer), int(fault), name, str(steps)


def entries_of(server, wanted):
    """What a log says of these requests; a line's feed isn't counted."""
    return [
        entry(number, len(server.sent(text)) - (server is LINES), server.answer(line), line, steps)
        for number, (text, line, steps) in enumerate(wanted, 1)
    ]


def see_log(server, options, wanted):
    """Tries the log beside other options."""
    texts, lines, _ = zip(*wanted)
    began = time.monotonic()
    out, log, status = asked(server, options, *texts)
    passed = (time.monotonic() - began) * 1e6
    found, micros = entries(log)
    assert (out, "", status) == expected(server, *lines)
    assert found == entries_of(server, wanted)
    assert sum(micros) <= passed


@each_server
@pytest.mark.parametrize("options, wanted", OPTIONS.values(), ids=OPTIONS)
def test_log(server, options, wanted):
    see_log(server, ["--log", *options], wanted)
    see_log(server, [*options, "--log"], wanted)


@each_server
def test_log_of_each(server):
    see_log(server, ["--log", "--log"], [*counted(server).values()])
    assert asked(server, ["--log"]) == (b"", "", 0)


@each_server
@pytest.mark.parametrize("streams", ["2>&-", "2>/dev/full"])
def test_log_that_is_not_written(server, streams):
    got = server.run(server.sent(PLAIN[0]) * 300, ["--log"], streams)
    assert got == expected(server, *[ROW[2]] * 300)


@each_server
def test_log_of_no_memory(server):
    wanted = (text_of(ONE, f'["neg",{WIDE}]', workers=1), NO_MEMORY, 2 * 2**20), PLAIN
    texts, lines, _ = zip(*wanted)
    out, log, status = server.run(server.requests(*texts), ["--log"], before=LITTLE_MEMORY)
    assert (out, "", status) == expected(server, *lines)
    assert entries(log)[0] == entries_of(server, wanted)


@each_server
def test_log_of_a_wait(server):
    """The wait for the rest of a request isn't counted."""
    data, pipe = server.sent(PLAIN[0]), subprocess.PIPE
    pipes = {"stdin": pipe, "stdout": pipe, "stderr": pipe}
    with subprocess.Popen([server.program, "--log"], env={}, bufsize=0, **pipes) as child:
        child.stdin.write(data[:-1])
        time.sleep(0.5)
        began = time.monotonic()
        child.stdin.write(data[-1:])
        log = child.stderr.readline().decode()
        passed = (time.monotonic() - began) * 1e6
        child.stdin.close()
        child.stdout.read()
    assert [it <= passed for it in entries(log)[1]] == [True]


TOO_MANY_BYTES = 16_777_217
# Bytes that are no request, and the size that the log says, and the answer's line.
NO_REQUESTS = {
    "no JSON in a line": (LINES, b"{\n", 1, NOT_JSON),
    "an empty line": (LINES, b"\n", 0, NOT_JSON),
    "a long line": (LINES, b"1" * (TOO_MANY_BYTES + 4) + b"\n", TOO_MANY_BYTES, TOO_LONG),
    "no JSON in a frame": (FRAMES, frame(b"{", [7]), 16 + 1 + 8, NOT_JSON),
    "a long header": (FRAMES, frame(b"1" * (TOO_MANY_BYTES + 4)), 16 + TOO_MANY_BYTES + 4, TOO_LONG),
}


@pytest.mark.parametrize("name", NO_REQUESTS)
def test_log_of_no_request(name):
    server, data, size, line = NO_REQUESTS[name]
    more, more_size = (b"[\n", 1) if server is LINES else (frame(b""), 16)
    out, log, status = server.run(data + more, ["--log"])
    assert (out, "", status) == expected(server, line, NOT_JSON)
    answers = server.answer(line), server.answer(NOT_JSON)
    assert entries(log)[0] == [entry(1, size, answers[0], line), entry(2, more_size, answers[1], NOT_JSON)]


def test_log_of_an_input_that_is_cut():
    out, log, status = LINES.run(b"{", ["--log"])
    assert (out, entries(log)[0], status) == (NOT_JSON.encode(), [entry(1, 1, NOT_JSON, NOT_JSON)], 0)
    assert FRAMES.run(frame(b"{}")[:-1], ["--log"]) == (b"", READ_FAULT, 1)
