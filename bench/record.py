"""What benches write as JSON, from which bench/plot draws: the machine, the date, the command and the
figures."""

import datetime
import json
import os
import re
import subprocess
import sys

TOP = os.path.dirname(os.path.dirname(os.path.abspath(__file__)))
COMPILER = os.environ.get("CXX", "c++")
HEADERS = os.environ.get("EIGEN_HEADERS", "/usr/include/eigen3")


def place(bench):
    """Returns the file for the figures of a bench, if none is named."""
    return os.path.join(TOP, "out", "bench", bench, "figures.json")


def first_line(*words):
    try:
        ended = subprocess.run(words, capture_output=True, text=True, cwd=TOP, check=False)
    except OSError:
        return ""
    return ended.stdout.split("\n")[0]


def found(path, pattern):
    """Returns what a pattern finds in a file, or an empty text."""
    try:
        with open(path, encoding="utf-8") as file:
            match = re.search(pattern, file.read())
    except OSError:
        match = None
    return match[1] if match else ""


def machine():
    macros = os.path.join(HEADERS, "Eigen", "src", "Core", "util", "Macros.h")
    parts = [found(macros, rf"EIGEN_{it}_VERSION (\d+)") for it in ("WORLD", "MAJOR", "MINOR")]
    return {
        "processor": found("/proc/cpuinfo", r"model name\s*: (.*)"),
        "processors": len(os.sched_getaffinity(0)),
        "kernel": os.uname().release,
        "huge pages": found("/sys/kernel/mm/transparent_hugepage/enabled", r"\[(\w+)\]"),
        "load before": os.getloadavg()[0],
        "compiler": first_line(COMPILER, "--version"),
        "eigen": ".".join(filter(None, parts)),
        "built for": found(os.path.join(TOP, "out", "tensor_run.built"), r"\nbuilt for (\S+)\n$"),
        "revision": first_line("git", "rev-parse", "--short", "HEAD"),
    }


def begun(rounds, more):
    """Returns the head of a bench's figures, with what only this bench knows of the machine. It is made
    before anything is built or timed, since it has the load of the minute before."""
    command = os.path.relpath(os.path.abspath(sys.argv[0]), TOP)
    return {
        "command": " ".join([command, *sys.argv[1:]]),
        "date": datetime.date.today().isoformat(),
        "rounds": rounds,
        "machine": {**machine(), **more},
    }


def write(figures, path):
    os.makedirs(os.path.dirname(os.path.abspath(path)), exist_ok=True)
    with open(path, "w", encoding="utf-8") as file:
        json.dump(figures, file, indent=1)
        file.write("\n")
    print(f"written to {path}")
