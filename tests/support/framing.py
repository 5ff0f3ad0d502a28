"""Frames: made of texts and of answers' lines, and read again."""

import json
import struct

SIZES = struct.Struct("<QQ")
LEAST, GREATEST = -(2**63), 2**63 - 1


class NoFrame(Exception):
    """A text that no frame says the same as."""


class Number(str):
    """A number as a text has it."""


def frame(header, values=()):
    """The bytes of a frame."""
    return SIZES.pack(len(header), len(values)) + header + struct.pack(f"<{len(values)}q", *values)


def parts(data):
    """The frames of some bytes, each as its header and values, and what stands behind them."""
    found = []
    while len(data) >= SIZES.size:
        h, v = SIZES.unpack_from(data)
        size = SIZES.size + h + 8 * v
        if len(data) < size:
            break
        body = data[SIZES.size : size]
        found.append((body[:h], list(struct.unpack(f"<{v}q", body[h:]))))
        data = data[size:]
    return found, data


def refused(word):
    raise NoFrame(word)


def once(members):
    """The members of an object, whose names differ."""
    if len(dict(members)) < len(members):
        raise NoFrame("a name stands twice")
    return dict(members)


def value_of(text):
    """The JSON value of a text, with its numbers as they are written."""
    how = {"parse_int": Number, "parse_float": Number, "parse_constant": refused}
    try:
        return json.loads(text.decode(), object_pairs_hook=once, **how)
    except (ValueError, RecursionError) as error:
        raise NoFrame(error) from error


def written(value):
    """The text of a JSON value, with its numbers as they were written."""
    if isinstance(value, Number):
        return str(value)
    if isinstance(value, list):
        return "[" + ",".join(map(written, value)) + "]"
    if isinstance(value, dict):
        return "{" + ",".join(f"{json.dumps(k)}:{written(it)}" for k, it in value.items()) + "}"
    return json.dumps(value)


def whole(value):
    """A whole number of 64 bits and a sign, as a text has it."""
    if not isinstance(value, Number) or value == "-0":
        raise NoFrame(value)
    try:
        number = int(value)
    except ValueError as error:
        raise NoFrame(error) from error
    if not LEAST <= number <= GREATEST:
        raise NoFrame(value)
    return number


def values_in(tensor):
    """The values of a tensor that has as many as its dims say."""
    if not isinstance(tensor, dict) or tensor.keys() != {"dims", "data"}:
        raise NoFrame("not a tensor")
    if not all(isinstance(it, list) for it in tensor.values()):
        raise NoFrame("not lists")
    values, size = [whole(it) for it in tensor["data"]], 1
    for it in tensor["dims"]:
        size *= whole(it)
    if size != len(values):
        raise NoFrame("another number of values")
    return values


def framed(text):
    """The frame that says what a text does: its values stand behind it, in the order of the names."""
    request = value_of(text)
    if not isinstance(request, dict) or not isinstance(request.get("inputs"), dict):
        raise NoFrame("no inputs")
    inputs, values = request["inputs"], []
    for name in sorted(inputs, key=lambda it: it.encode(errors="surrogatepass")):
        values += values_in(inputs[name])
    request["inputs"] = {name: {"dims": it["dims"]} for name, it in inputs.items()}
    return frame(written(request).encode(), values)


def is_frames_own(text):
    """Whether a text says a version that frames alone have, so that a frame of it says more."""
    try:
        request = value_of(text)
    except NoFrame:
        return False
    return isinstance(request, dict) and request.get("version") == "3"


def answered(line):
    """The frame that says what an answer's line does, as its header and values."""
    if line.startswith("error "):
        return line.rstrip("\n").encode(), []
    answer = json.loads(line)
    return json.dumps({"dims": answer["dims"]}, separators=(",", ":")).encode(), answer["data"]
