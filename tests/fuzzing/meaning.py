"""The definitions of specs/ as functions that answer texts and frames, and the texts that
tests/test_meaning.py and tools/mutants ask them."""

import functools
import itertools
import json
import re

from framing import NoFrame, framed, parts
from hostile import SCALAR, request
from hostile_texts import SMALL
from notation.answers import Answers
from request_cases import VERSION_3, cases_of
from request_cases import texts as texts_of_cases

from . import reference, spoiling
from .drawing import KINDS, text_of
from .rules import FRAME_VERSIONS, MOST_BYTES

# The most places that the definitions compute, all nodes of an expression together, and the most
# bytes of a text that they read.
MOST_PLACES, LONGEST = 1_500, 2_500
# One of so many texts is made a frame; one of so many answers about UTF-8 is compared.
EACH, TENTH = 8, 10
OF_NODES = "of many nodes"
# A power of ten that takes long, since the definitions compute it as a whole number.
FAR = re.compile(rb"[eE][+-]?\d{5}")


def decoded(is_utf8):
    """Whether a text is UTF-8, by Python, which is quicker than the definition. Each tenth answer
    is compared with the definition's."""
    numbers = itertools.count()

    def says(text):
        try:
            bytes(text).decode()
            is_text = True
        except UnicodeDecodeError:
            is_text = False
        if next(numbers) % TENTH == 0 and is_utf8(text) != is_text:
            raise ValueError(f"{bytes(text)!r:.200} is UTF-8, or isn't")
        return is_text

    return says


@functools.lru_cache(1)
def definitions():
    """The definitions, which a process reads once."""
    answers = Answers()
    answers.running.changed("Rattle.core.specs.Str.is_utf8", decoded)
    return answers


def case_counts():
    """How often each case of a definition answered, by the definition's name and its number."""
    counts = {}
    for item, number, _, count in definitions().cases():
        name = item.path.replace("Rattle.", "", 1).replace(".specs.", "/")
        counts[name, number] = count
    return counts


def wanted_of(text):
    """The reference's line and status, or none where an answer has too many places."""
    return reference.answer(text, MOST_PLACES)


def short(name, some):
    """The texts that are read quickly. A text past the limit is, since no more is read of it."""
    some = [it for it in some if name == OF_NODES or not LONGEST < len(it) <= MOST_BYTES]
    return [it for it in some if not FAR.search(it)]


def limits():
    """Texts at the limits, and JSON that is no request."""
    yield from (text for text, _ in SMALL.values())
    yield b" " * (MOST_BYTES + 1)
    yield from (b"null", b"true", b"7", b'"a"', b"[]", b"{}")
    yield from (request(f'"a":{it}', '"a"') for it in ("null", "true", "7", '"a"', "[]", "{}"))


def of_many_nodes():
    """Texts of the most nodes that a text may have, and of one more."""
    trees = [spoiling.grown("a", 1_000), ["add", spoiling.grown("a", 999), "nobody"]]
    return [request('"a":{"dims":[1],"data":[1]}', json.dumps(it)) for it in trees]


def of_version_3(count, seed):
    """Texts of the version that only frames have: worked examples, and drawn ones."""
    found = [text.encode() for text, _ in cases_of(VERSION_3)]
    versions = {3: FRAME_VERSIONS[3]}
    for kind in KINDS[:2]:
        found += [text_of(seed, kind, number, versions) for number in range(count // EACH)]
    return found


def frames(texts):
    """Frames of these texts, and two that have too many values or too few. Each is a header, values
    and the line that answers it."""
    for text in texts:
        wanted = reference.answer(text, MOST_PLACES, FRAME_VERSIONS)
        try:
            header, values = parts(framed(text))[0][0]
        except NoFrame:
            continue
        if wanted is not None:
            yield header, values, wanted[0]
    header, values = parts(framed(request(SCALAR, '"a"')))[0][0]
    yield header, values * 2, b"error 7 BadTensor\n"
    yield header, [], b"error 7 BadTensor\n"


def texts(count, seed):
    """All texts that are read quickly, by what they are."""
    found = {"of request_cases": texts_of_cases(), "at the limits": [*limits()]}
    found[OF_NODES] = of_many_nodes()
    for kind in KINDS:
        found[kind] = [text_of(seed, kind, number) for number in range(-(-count // len(KINDS)))]
    return {name: short(name, some) for name, some in found.items()}


def all_frames(count, seed):
    """The frames that are asked: some of the texts of request_cases, and those of version 3."""
    some = short("", texts_of_cases())[::EACH] + short("", of_version_3(count, seed))
    return [*frames(some)]
