"""Texts that are drawn: valid requests, requests that are nearly valid, and spoilt bytes."""

import random

from fuzzing import grammar, spoiling
from fuzzing.rules import VERSIONS

KINDS = ("valid", "nearly valid", "spoilt")


def text_of(seed, kind, number, versions=VERSIONS):
    """The text of a case of these versions. Equal arguments make equal texts."""
    source = random.Random(f"{seed} {kind} {number}")
    request = grammar.request(source, versions)
    if kind == "nearly valid" or kind == "spoilt" and source.random() < 0.3:
        request = spoiling.nearly(source, request)
    text = spoiling.written(source, request)
    return spoiling.spoilt(source, text) if kind == "spoilt" else text
