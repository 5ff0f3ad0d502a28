"""Making a text smaller as long as something holds of it."""

import json

from .spoiling import Odd, Writer

MOST_TRIES = 5_000


def whole(text):
    """A whole number, or one that is written in another way."""
    return int(text) if len(text) < 30 and str(int(text)) == text else Odd(text)


READER = json.JSONDecoder(parse_int=whole, parse_float=Odd, parse_constant=Odd)


def smaller_values(value):
    """Values that are a step smaller: a part is left out, lifted out, or made plain."""
    if isinstance(value, list):
        for at, it in enumerate(value):
            yield value[:at] + value[at + 1 :]
            yield it
            yield from (value[:at] + [less] + value[at + 1 :] for less in smaller_values(it))
    elif isinstance(value, dict):
        for key, it in value.items():
            yield {other: value[other] for other in value if other != key}
            yield from ({**value, key: less} for less in smaller_values(it))
    elif isinstance(value, str) and len(value) > 1:
        yield "a"
    elif type(value) is int and abs(value) > 1:
        yield from (1, value // 2)


def smaller_texts(text):
    """Texts that are a step smaller: of the JSON value, and else of the bytes."""
    try:
        value = READER.decode(text.decode())
    except (ValueError, RecursionError):
        value = None
    if value is not None:
        for it in smaller_values(value):
            yield Writer().text(it).encode("utf-8", "surrogatepass")
    length = len(text) // 2
    while length:
        yield from (text[:at] + text[at + length :] for at in range(0, len(text), length))
        length //= 2


def shrunk(text, holds):
    """A smaller text of which it still holds."""
    tries, found = 0, True
    while found:
        found = False
        for it in smaller_texts(text):
            tries += 1
            if tries > MOST_TRIES:
                return text
            if len(it) < len(text) and holds(it):
                text, found = it, True
                break
    return text
