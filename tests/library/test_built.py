"""Tests of the examples in C++ and Rust, and of the headers that the builders of expressions make there.

tests/support/built.cpp and the example in Rust print a header for each expression of
tests/cases/built.cases. A new expression is a line of that file, and a call of both builders.
"""

import json
import os
import re
import shutil

import pytest

from calling import ARCHIVE, Library, header
from framing import GREATEST, LEAST
from fuzzing import operations
from hostile import SUPPORT, TOP, output

# What the builders in C++ and Rust make, and the inputs: their dims and values.
BUILT = os.path.join(TOP, "tests", "cases", "built.cases")
BUILT_OVER = {
    "a": ([2, 3], [7, -7, LEAST, GREATEST, 0, 3]),
    "b": ([2, 3], [2, 0, -1, 1, 5, 7]),
    "c": ([3, 2], [1, -2, 3, -4, 5, -6]),
}
EIGEN = "/usr/include/eigen3"


@pytest.fixture(scope="session")
def compiled_cpp(tmp_path_factory):
    """Compiles a program in C++ against the library, and returns its path."""
    compiler = next(filter(shutil.which, ("c++", "g++", "clang++")), None)
    if not compiler:
        pytest.skip("no C++ compiler (Debian's g++)")
    room = tmp_path_factory.mktemp("built")

    def compile_one(source, *words):
        program = room / os.path.basename(source)[: -len(".cpp")]
        warnings = ["-Wall", "-Wextra", "-Werror", "-pthread", f"-I{TOP}/include", *words]
        output(compiler, "-std=c++20", *warnings, source, ARCHIVE, "-o", program)
        return program

    return compile_one


def test_cpp_example(compiled_cpp):
    if not os.path.isdir(EIGEN):
        pytest.skip("no Eigen (Debian's libeigen3-dev)")
    example = compiled_cpp(f"{TOP}/examples/cpp/arrays.cpp", "-isystem", EIGEN)
    why = 'UnknownInput at /expr/2: no input is named "c": the inputs are "a", "b"'
    assert output(example) == f"5000000\n5000000\nfault 8 {why}\n"


def test_cpp_example_of_expressions(compiled_cpp):
    example = compiled_cpp(f"{TOP}/examples/cpp/expressions.cpp")
    why = 'at /expr: the operands of "add" must have the same dims; they have [2, 2] and [2, 3]'
    assert output(example) == f"2 13 18 1 100 25 \n0 1 \nfault 12 ShapeMismatch {why}\n"


def assert_built(got):
    """Compares the headers that a builder makes with the expressions written by hand: node by node,
    and by their answers."""
    library, headers = Library(), got.split("\n")[:-1]
    with open(BUILT, encoding="ascii") as file:
        by_hand = file.read().split("\n")[1:-1]
    assert len(headers) == len(by_hand)
    for built, expr in zip(headers, by_hand):
        asked = json.loads(built)
        named = {it: "abc"[int(it)] for it in sorted(asked["inputs"])}
        text = json.dumps(asked["expr"], separators=(",", ":"))
        for name, other in {**named, "t0": "s", "t1": "t"}.items():
            text = text.replace(f'"{name}"', f'"{other}"')
        assert text == expr
        inputs = ",".join(f'"{it}":{{"dims":{BUILT_OVER[it][0]}}}' for it in named.values())
        values = [value for it in named.values() for value in BUILT_OVER[it][1]]
        wanted = library.line(header(inputs, expr, 3), values)
        assert wanted.startswith("{") and library.line(built, values) == wanted


def test_built_expressions_have_each_operation():
    with open(BUILT, encoding="ascii") as file:
        assert {*re.findall(r'\["(\w+)"', file.read())} == {"let", *operations.OPERATIONS_OF[3]}


def test_expressions_in_cpp(compiled_cpp):
    assert_built(output(compiled_cpp(f"{SUPPORT}/built.cpp")))



def test_rust_example(rust):
    wanted = "[11, 22, 33] of dims [3]\nfault 12 ShapeMismatch\n[-48]\n[27]\n"
    assert output(rust / "tensor") == wanted


def test_expressions_in_rust(rust):
    assert_built(output(rust / "built"))
