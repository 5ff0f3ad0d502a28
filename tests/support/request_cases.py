"""The texts of crates/request_cases and of tests/cases/version_3.cases, each with its answer's line."""

import glob
import os
import re

from hostile import TOP

PATHS = sorted(glob.glob(os.path.join(TOP, "crates", "request_cases", "data", "*.cases")))
VERSION_3 = os.path.join(TOP, "tests", "cases", "version_3.cases")


def cases_of(path):
    """Each text of a file with its answer's line; crates/request_cases/README.md describes the form."""
    names, version, inputs, text = {}, 1, "", None

    def full(line):
        return re.sub(r"<([\w-]+)>", lambda it: names.get(it[1], it[0]), line)

    with open(path, encoding="utf-8") as file:
        lines = file.read().split("\n")
    for line in lines:
        word, _, rest = line.partition(" ")
        if line in ("", "large") or line.startswith("#"):
            continue
        if word == "let":
            name, _, rest = rest.partition(" ")
            names[name] = full(rest)
        elif word == "version":
            version = int(rest)
        elif word == "inputs":
            inputs = full(rest)
        elif word == "text":
            text = full(rest)
        elif word == "=":
            yield text, full(rest)
        else:
            fields = f'"version":{version},"workers":2,"block":4'
            text = f'{{{fields},"inputs":{inputs},"expr":{full(line)}}}'


def texts():
    """The texts of crates/request_cases."""
    return [text.encode() for path in PATHS for text, _ in cases_of(path)]


def explanations(name):
    """What stands in a file of tests/cases behind each blank line: a text or a frame in one line, and the lines
    that ./explain prints of it."""
    with open(os.path.join(TOP, "tests", "cases", f"{name}.cases"), "rb") as file:
        cases = file.read().rstrip(b"\n").split(b"\n\n")[1:]
    return [it.split(b"\n", 1) for it in cases]
