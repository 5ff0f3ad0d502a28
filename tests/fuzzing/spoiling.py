"""Requests that are nearly valid, texts of requests, and bytes that are spoilt.

A new operation that has checks gets a function in BROKEN.
"""

import json

from .operations import OPERATIONS_OF
from .rules import FIELDS, FRAME_VERSIONS, is_let

# What a part of a request may be replaced by.
JUNK = [None, True, False, 0, 1, -1, 2, 3, 6, 7, 8, 9, 63, 64, 65, 127, 255, 256, 257]
JUNK += [1_048_576, 1_048_577, 2**31, 2**32]
JUNK += [2**63 - 1, 2**63, 2**64 - 1, 2**64, -(2**63), -(2**63) - 1, 1.0, 0.5, 1e300, "", "a", "b"]
JUNK += [[], {}, [0], [1], [[]], [0, 0], [[0, 0]], [True], ["a"], ["neg", "a"], ["add", "a"]]
JUNK += [["div"], {"a": 1}, {"dims": [], "data": [5]}, {"dims": [0], "data": []}]
JUNK += [{"dims": [1] * rank, "data": [1]} for rank in (7, 8, 9)]
# What else it may be in version 3.
WIDEST = [268_435_456, 268_435_457]
JUNK_OF = {1: JUNK, 2: JUNK, 3: [*JUNK, *WIDEST, ["let"], ["let", "y", "a", "a"]]}
# A tree of many nodes stands over an input of so few places.
SMALL = {1: 8, 2: 8, 3: 2}
ENDS = [0, 1, 5, 6, 7, 8, 9, 1_024, 1_048_576, 1_048_577, 2**63 - 1, 2**63]
WORDS = [*OPERATIONS_OF[3], *sorted(FIELDS), "div", "Add", "dims", "data", "x"]
ENDS_OF = {1: ENDS, 2: ENDS, 3: [*ENDS, *WIDEST]}
WORDS_OF = {1: WORDS, 2: WORDS, 3: [*WORDS, "let", "y", "y0"]}
ODD_NUMBERS = ["1.0", "1e0", "-0", "0.0", "1E2", "10e-1", "18446744073709551616", "1e400"]
ODD_NUMBERS += ["-1e-400", "01", "+1", "1.", ".5", "--1", "1e", "0x10", "NaN", "Infinity"]
ODD_NUMBERS += ["9" * 400]
BYTES = [0x00, 0x0A, 0x20, 0x22, 0x2C, 0x2D, 0x30, 0x3A, 0x5B, 0x5C, 0x5D, 0x7B, 0x7D, 0x7F, 0x80]
BYTES += [0xC0, 0xE2, 0xED, 0xF4, 0xFE, 0xFF]


class Odd(float):
    """A number that is written as this text."""

    def __new__(cls, text):
        made = super().__new__(cls)
        made.text = text
        return made


def places_in(value, inside=()):
    """The ways down to all parts of a value that stand in a list or an object."""
    if isinstance(value, (list, dict)):
        for key in range(len(value)) if isinstance(value, list) else list(value):
            yield (*inside, key)
            yield from places_in(value[key], (*inside, key))


def at_end(value, way):
    """The part at the end of a way."""
    for key in way:
        value = value[key]
    return value


def in_tree(request):
    """The ways down to the expression and to all parts of it."""
    return [way for way in places_in(request) if way[0] == "expr"]


def changed(random, old, whole, number):
    """Something in place of a part of a request of the version of this number: a neighbour, another
    part, or of another kind."""
    kind = random.random()
    if kind < 0.15 or isinstance(old, bool) or old is None:
        return random.choice(JUNK_OF[number])
    if isinstance(old, int):
        if kind < 0.35:
            return Odd(random.choice(ODD_NUMBERS))
        return random.choice([old + 1, old - 1, old - 1, -old, old * 2, *ENDS_OF[number]])
    if isinstance(old, str) and kind < 0.6:
        return random.choice([random.choice(WORDS_OF[number]), old + random.choice("ab ")])
    if isinstance(old, list) and old and kind < 0.6:
        at = random.randrange(len(old))
        return random.choice([old[:at] + old[at + 1 :], old[: at + 1] + old[at:], old[::-1]])
    return at_end(whole, random.choice(list(places_in(whole))))


def part_to_change(random, request):
    """The way down to a part: any, one of the tree, or a number or a list of numbers there."""
    ways, tree = list(places_in(request)), in_tree(request)
    numbers = [way for way in tree if is_number(at_end(request, way))]
    return random.choice(random.choice([it for it in (ways, tree, numbers) if it] or [[()]]))


def is_number(value):
    """Whether a value is a number, or a list of them."""
    if isinstance(value, list):
        return all(type(it) in (int, bool, list) for it in value)
    return type(value) in (int, bool)


# How a request is spoilt, by functions of it and of the number of the version that it had.


def with_changes(random, request, number):
    """A request of which up to three parts were changed, left out or put in."""
    for _ in range(random.choice([1, 1, 1, 2, 3])):
        way = part_to_change(random, request)
        if not way:
            return copied(changed(random, request, [request], number))
        holder = at_end(request, way[:-1])
        kind = random.random()
        if kind < 0.1:
            del holder[way[-1]]
        elif kind < 0.2 and isinstance(holder, dict):
            # A copy, since another change may come inside of it.
            holder[random.choice(WORDS_OF[number])] = copied(random.choice(JUNK_OF[number]))
        else:
            # A copy, since a part may come from inside or outside of itself.
            holder[way[-1]] = copied(changed(random, holder[way[-1]], request, number))
    return request


def of_other_version(random, request, number):
    """A request that says another version, at times with workers or a rank at the limits."""
    request["version"] = random.choice([1, 2]) if number == 3 else 3 - number
    if random.random() < 0.3:
        request["workers"] = random.choice([64, 65, 256, 257])
    if random.random() < 0.3:
        request["inputs"]["ones"] = {"dims": [1] * random.randint(6, 9), "data": [1]}
        request["expr"] = random.choice(["ones", request["expr"]])
    return request


def of_ones(count):
    """A tensor of so many places."""
    return ["broadcast", "one", [count]]


# What an operation may be replaced by, by functions of how many places a tensor may have, and of its
# operands and arguments.


def broken_strides(_, x, steps):
    return [["stride", x, it] for it in ([*steps, 1], steps[1:], [0] * len(steps), [*steps[1:], 0])]


def broken_pads(_, x, pairs):
    far, past = [[it, 2**63 - 1] for it, _ in pairs], [[2**63, it] for _, it in pairs]
    broken = ([*pairs, [0, 0]], pairs[1:], far, past, [it[:1] for it in pairs])
    return [["pad", x, it] for it in broken]


def broken_contractions(_, x, y, pairs):
    past = [[2**63, it] for _, it in pairs], [[it, 2**63] for it, _ in pairs]
    return [["contract", x, y, it] for it in (pairs * 2, pairs[1:], [*pairs, [8, 0]], *past)]


def broken_concats(most, x, y, axis):
    broken = [["concat", x, ["sum", y, [0]], axis], ["concat", ["sum", x, [0]], y, axis]]
    broken += [["concat", x, ["sum", y, [0]], 8]]
    broken += [["concat", x, y, it] for it in (axis + 1, max(axis - 1, 0), 8, 2**63 - 1)]
    large, half = of_ones(most), of_ones(most // 2)
    return [*broken, ["concat", large, large, 0], ["concat", large, half, 1]]


def broken_convolutions(most, x, kernel, axes):
    none, other_axes = [0] * len(axes), [axes[1:], axes * 2, [*axes, 8], [7, *axes[1:]]]
    # Only the last dimension of a kernel is 0, or too long.
    one_zero, one_long = [1] * len(axes[1:]) + [0], [1] * len(axes[1:]) + [2_000]
    other_kernels = [["sum", kernel, [0]], ["slice", kernel, none, none], x]
    other_kernels += [["slice", kernel, none, one_zero], ["broadcast", kernel, one_long]]
    broken = [["convolve", x, kernel, it] for it in other_axes]
    broken += [["convolve", x, it, axes] for it in other_kernels]
    many = ["convolve", of_ones(most), of_ones(most // 2), [0]]
    return [*broken, ["convolve", kernel, x, axes], many]


def broken_along(name):
    """Those of an operation along an axis."""

    def broken(_, x, axis):
        lower = [[name, ["sum", x, [0]], axis], [name, x, [axis]]]
        return [*lower, *([name, x, it] for it in (axis + 1, 8, 2**63 - 1))]

    return broken


def broken_takes(most, x, indices, axis):
    deep, wide = (["reshape", "one", [1] * rank] for rank in (8, 2))
    broken = [["take", x, indices, it] for it in (axis + 1, 8, 2**63 - 1, [axis])]
    broken += [["take", ["sum", x, [0]], indices, axis], ["take", indices, x, axis]]
    broken += [["take", it, deep, axis] for it in (x, wide)]
    large = ["broadcast", wide, [2, 1]], of_ones(most)
    return [*broken, ["take", x, of_ones(most), axis], ["take", *large, 1]]


# By name; most of what they give fails one of the operation's checks.
BROKEN = {"stride": broken_strides, "pad": broken_pads, "contract": broken_contractions}
BROKEN.update({"concat": broken_concats, "convolve": broken_convolutions, "take": broken_takes})
BROKEN.update({it: broken_along(it) for it in ("cumsum", "cumprod", "argmax", "argmin")})


def has_checks_to_break(node):
    return isinstance(node, list) and node and isinstance(node[0], str) and node[0] in BROKEN


def with_broken_check(random, request, number):
    """A request of which one of these operations was replaced so, if it has any."""
    ways = [way for way in in_tree(request) if has_checks_to_break(at_end(request, way))]
    if not ways:
        return with_changes(random, request, number)
    way = random.choice(ways)
    holder = at_end(request, way[:-1])
    name, *parts = holder[way[-1]]
    most = FRAME_VERSIONS[number].most_places
    holder[way[-1]] = copied(random.choice(BROKEN[name](most, *parts)))
    request["inputs"].setdefault("one", {"dims": [1], "data": [1]})
    return request


def broken_lets(random, let, names):
    """What a let may be replaced by, most of which has a fault; `names` are those that are there."""
    word, name, first, rest = let
    other = f"{name}y"
    yield [word, random.choice([*names, name]), first, [word, name, first, rest]]
    yield [word, random.choice([*names, other]), first, rest]
    yield [word, random.choice(JUNK), first, rest]
    yield random.choice([let[:1], let[:2], let[:3], [*let, rest], [word, first, rest]])
    # Where none may stand: in its own first part, as an operand, behind an operation's name.
    yield [word, name, [word, other, first, other], rest]
    yield random.choice([["neg", let], ["add", let, let], [[word], name, first, rest]])
    yield [word, name, first, ["neg", [word, other, rest, other]]]
    # Its own name in its first part, both parts turned round, or no let for the name.
    yield [word, name, ["neg", name], rest]
    yield [word, name, rest, first]
    yield rest


def lets_in(request, number):
    """The ways down to the lets in front that have all their parts."""
    way = ("expr",)
    while is_let(FRAME_VERSIONS[number], it := at_end(request, way)) and len(it) == 4:
        yield way
        way = (*way, 3)


def with_broken_let(random, request, number):
    """A request of which a let in front was replaced so, one that is put there if it has none."""
    inputs = list(request["inputs"])
    if not list(lets_in(request, number)):
        request["expr"] = ["let", "y0", random.choice([*inputs, "a"]), request["expr"]]
    ways = list(lets_in(request, number))
    way = random.choice(ways)
    names = inputs + [at_end(request, it)[1] for it in ways if it != way]
    broken = list(broken_lets(random, at_end(request, way), names))
    at_end(request, way[:-1])[way[-1]] = copied(random.choice(broken))
    return request


def nodes_in(tree):
    """About how many nodes a tree has: names in lists of arguments count too."""
    if isinstance(tree, list) and tree and isinstance(tree[0], str):
        return 1 + sum(map(nodes_in, tree[1 + (tree[0] == "let") :]))
    return int(isinstance(tree, str))


def grown(name, count):
    """A tree of so many nodes over one input, which has its dims."""
    if count % 2 == 0:
        return ["neg", grown(name, count - 1)]
    if count == 1:
        return name
    half = (count - 1) // 2
    return ["add", grown(name, half), grown(name, count - 1 - half)]


def with_many_nodes(random, request, number):
    """A request whose expression has about as many nodes as it may, by a tree in a leaf's place."""
    inputs = request["inputs"]
    small = {name for name, it in inputs.items() if len(it["data"]) <= SMALL[number]}
    leaves = [way for way in in_tree(request) if way[-1] != 0 and is_leaf(request, way, small)]
    if not leaves:
        return with_changes(random, request, number)
    way = random.choice(leaves)
    most = FRAME_VERSIONS[number].most_nodes
    count = random.randint(-2, 2) + most - nodes_in(request["expr"]) + 1
    at_end(request, way[:-1])[way[-1]] = grown(at_end(request, way), count)
    return request


def is_leaf(request, way, names):
    it = at_end(request, way)
    return isinstance(it, str) and it in names


# What is done to a request, one after the other.
SPOILERS = [[with_changes]] * 6 + [[of_other_version], [of_other_version, with_changes]]
SPOILERS += [[with_broken_check]] * 3 + [[with_broken_check, with_changes]]
SPOILERS = SPOILERS * 2 + [[with_many_nodes]]
WITH_LETS = [[with_broken_let]] * 6 + [[with_broken_let, with_broken_let]]
WITH_LETS += [[with_broken_let, with_changes], [with_broken_let, of_other_version]]
SPOILERS_OF = {1: SPOILERS, 2: SPOILERS, 3: [*SPOILERS, *WITH_LETS]}


def nearly(random, request):
    """A request that is nearly valid."""
    request = json.loads(json.dumps(request))
    number = request["version"]
    for spoil in random.choice(SPOILERS_OF[number]):
        request = spoil(random, request, number)
    return request


def copied(value):
    if isinstance(value, list):
        return [copied(it) for it in value]
    return {key: copied(it) for key, it in value.items()} if isinstance(value, dict) else value


class Writer:
    """Writes a JSON value as text, in the plain way or in one of the many others."""

    def __init__(self, random=None):
        self.random = random
        chances = {"spaced": 0.2, "escaped": 0.1, "shuffled": 0.5, "doubled": 0.05, "ascii": 0.5}
        for name, chance in chances.items():
            setattr(self, name, random is not None and random.random() < chance)

    def space(self):
        if not self.spaced:
            return ""
        count = self.random.choice([0, 0, 1, 2])
        return "".join(self.random.choice(" \t\n\r") for _ in range(count))

    def text(self, value):
        return self.space() + self.bare(value) + self.space()

    def bare(self, value):
        if isinstance(value, str):
            return self.string(value)
        if isinstance(value, Odd):
            return value.text
        if isinstance(value, list):
            return "[" + (",".join(map(self.text, value)) or self.space()) + "]"
        if isinstance(value, dict):
            return "{" + (",".join(self.members(value)) or self.space()) + "}"
        return json.dumps(value)

    def members(self, value):
        pairs = list(value.items())
        if self.shuffled:
            self.random.shuffle(pairs)
        if self.doubled and pairs:
            # Of a key that stands twice the last one counts, so this changes nothing.
            at = self.random.randrange(len(pairs))
            pairs.insert(self.random.randint(0, at), (pairs[at][0], self.random.choice(JUNK)))
        keys = [self.space() + self.string(key) + self.space() for key, _ in pairs]
        return [f"{key}:{self.text(it)}" for key, (_, it) in zip(keys, pairs)]

    def string(self, value):
        if not self.escaped:
            return json.dumps(value, ensure_ascii=self.ascii)
        return '"' + "".join(map(self.letter, value)) + '"'

    def letter(self, letter):
        if self.random.random() < 0.5:
            return json.dumps(letter, ensure_ascii=False)[1:-1]
        units = letter.encode("utf-16-be")
        parts = [units[at : at + 2].hex() for at in range(0, len(units), 2)]
        return "".join("\\u" + self.random.choice([it, it.upper()]) for it in parts)


def written(random, value):
    """The bytes of a JSON value."""
    return Writer(random).text(value).encode("utf-8")


def spoilt(random, text):
    """Bytes of which some were turned, cut, doubled, or put in."""
    text = bytearray(text)
    for _ in range(random.choice([1, 1, 1, 2, 4])):
        at = random.randint(0, len(text))
        to = min(len(text), at + random.choice([1, 1, 2, 3, 8, 50]))
        kind = random.randrange(9)
        digits = [it for it, byte in enumerate(text) if 0x30 <= byte <= 0x39]
        if kind == 8 and digits:
            text[random.choice(digits)] = random.randrange(0x30, 0x3A)
        elif kind == 0:
            del text[at:]
        elif kind == 1:
            del text[at:to]
        elif kind == 2:
            text[at:at] = text[at:to]
        elif kind == 3:
            text[at:at] = bytes([random.choice(BYTES)])
        elif kind == 4:
            other = random.randint(0, len(text))
            text[at:to] = text[other : other + random.choice([1, 2, 8])]
        elif kind == 5:
            text[at:to] = random.choice(ODD_NUMBERS).encode()
        elif at < len(text):
            text[at] = random.choice(BYTES) if kind == 6 else text[at] ^ (1 << random.randrange(8))
    return bytes(text)
