"""Tests of docs/request.schema.json beside the reference of tests/fuzzing, over drawn texts and the
examples.

The schema has to accept each text that the reference answers. It has to refuse a text with a fault
of form, 3 to 6 and 9 to 11. Other texts aren't compared: a schema can't see whether dims and data
fit, and a fault of names or dims may hide a later fault of form. --count sets how many texts are
drawn; every second is nearly valid.
"""

import glob
import json
import os
import random
import re

import pytest

from fuzzing import grammar, reference, spoiling
from fuzzing.rules import Fault
from hostile import TOP

jsonschema = pytest.importorskip("jsonschema", reason="no jsonschema (Debian's python3-jsonschema)")

COUNT, PARTS = 2_000, 5
OF_THE_FORM = {3, 4, 5, 6, 9, 10, 11}
# A whole number by its value, as JSON Schema counts, that is none as it is written: 5.0, -0.
BY_VALUE = re.compile(rb"\d\.0|\d[eE]|-0")


@pytest.fixture(scope="module")
def validator():
    with open(os.path.join(TOP, "docs", "request.schema.json"), encoding="utf-8") as file:
        schema = json.load(file)
    jsonschema.Draft202012Validator.check_schema(schema)
    return jsonschema.Draft202012Validator(schema)


def fault_of(text):
    """The number of a text's first fault, by the reference; 0 where there is none."""
    try:
        reference.read(text)
    except Fault as fault:
        return fault.number
    return 0


def check(validator, text):
    fault = fault_of(text)
    if fault in (1, 2):
        return
    accepted = validator.is_valid(json.loads(text))
    assert accepted or fault != 0, f"refused, and it is a request: {text!r}"
    is_fault_seen = not accepted or fault not in OF_THE_FORM or BY_VALUE.search(text)
    assert is_fault_seen, f"accepted, and its fault is {fault}: {text!r}"


@pytest.mark.parametrize("part", range(PARTS))
def test_drawn_texts(validator, pytestconfig, seed, part):
    for number in range(part, pytestconfig.getoption("--count") or COUNT, PARTS):
        source = random.Random(f"{seed} {number}")
        request = grammar.request(source)
        if number % 2:
            request = spoiling.nearly(source, request)
        check(validator, spoiling.written(source, request))


EXAMPLES = sorted(glob.glob(os.path.join(TOP, "examples", "*.json")))


@pytest.mark.parametrize("path", EXAMPLES, ids=os.path.basename)
def test_examples(validator, path):
    with open(path, "rb") as file:
        check(validator, file.read())
