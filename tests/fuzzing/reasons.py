"""The reason of a request text's fault, worked out by a count of its own from the rules of
docs/REQUEST.md: which check fails there first, and the numbers, dims and names that it is about.

Nothing here is shared with the program but how the sentences are put. Of a text that is no JSON the
line, the column and the byte of its reason are compared with one another.
"""

import json
import math
import re

from .operations import OPERATIONS_OF, contract_dims, others
from .rules import FORMS, VALUES, VERSIONS, is_value
from .wording import COUNTS, FORM_WORDS, ITEMS, MEANT, NAMES_OF

MOST_SHOWN = 60
MOST_NAMES = 5
MOST_WORD = 2**64 - 1
MOST_BYTES = 16_777_216
NUMBER = re.compile(r"-?\d+(?:\.\d+)?(?:e[-+]?\d+)?")
BROKEN = re.compile(r"(EOF while parsing|[a-z A-Z]+) at line (\d+) column (\d+) \(byte (\d+)\)")


# What stands somewhere


def found(value):
    """A value, or how long it is."""
    if isinstance(value, list) and value:
        return f"a list of length {len(value)}"
    if isinstance(value, dict) and value:
        return f"an object of {len(value)} members"
    if isinstance(value, str) and len(value.encode()) > MOST_SHOWN:
        return f"a string of {len(value.encode())} bytes"
    return json.dumps(value, ensure_ascii=False)


def quoted(name):
    count = len(name.encode())
    return f"a name of {count} bytes" if count > MOST_SHOWN else found(name)


# Fields and tensors


def fields(value):
    if not isinstance(value, dict):
        return f"a request is an object of five fields; this is {found(value)}"
    known = ["version", "workers", "block", "inputs", "expr"]
    for name in known:
        if name not in value:
            return f'the field "{name}" is missing'
    name = min((it for it in value if it not in known), key=str.encode)
    return f"a request has no field {quoted(name)}"


def illegal(version, dims):
    """Why dims aren't legal, where they aren't."""
    if len(dims) > version.most_rank:
        rank = f"the rank of these dims is {len(dims)}"
        return f"{rank}; version {version.number} allows at most {version.most_rank}"
    product = math.prod(max(it, 1) for it in dims)
    if product <= version.most_places:
        return None
    zero = " (a 0 counts as 1)" if 0 in dims else ""
    many = f"at least {MOST_WORD}" if product >= MOST_WORD else product
    return f"the product of the dims {dims}{zero} is {many}; it may be at most {version.most_places}"


def tensor(version, value):
    if not isinstance(value, dict):
        return f"a tensor is an object of dims and data; this is {found(value)}"
    for name in "dims", "data":
        if name not in value:
            return f"the tensor has no {name}"
    if len(value) != 2:
        return f"a tensor has the members dims and data only; this one has {len(value)} members"
    dims, data = value["dims"], value["data"]
    if not isinstance(dims, list):
        return f"dims must be a list of whole numbers of at least 0; this is {found(dims)}"
    for it in dims:
        if type(it) is not int or it < 0:
            return f"dims must be whole numbers of at least 0; one of these is {found(it)}"
    return illegal(version, dims) or numbers(dims, data)


def numbers(dims, data):
    if not isinstance(data, list):
        return f"data must be a list of whole numbers; this is {found(data)}"
    for at, it in enumerate(data):
        if not is_value(it):
            which = f"the one at index {at} is {found(it)}"
            return f"data must be whole numbers from {VALUES.start} to {VALUES.stop - 1}; {which}"
    shown = json.dumps(dims, separators=(",", ":"))
    return f"data must have one number for each place of the dims {shown}; it has {len(data)}"


# Nodes


def unknown_input(inputs, name):
    names = [quoted(it) for it in sorted(inputs, key=str.encode)]
    more = " and others" if len(names) > MOST_NAMES else ""
    said = f"the inputs are {', '.join(names[:MOST_NAMES])}{more}" if names else "there are none"
    return f"no input is named {quoted(name)}: {said}"


def unknown_operation(version, name):
    if not isinstance(name, str):
        return f"a node begins with the name of an operation; this one begins with {found(name)}"
    first = next((it for it, known in OPERATIONS_OF.items() if name in known), None)
    if first is not None:
        whose = "" if first in VERSIONS else " (frames only)"
        this = f"this is a text of version {version.number}"
        return f"{found(name)} is an operation of version {first}{whose}; {this}"
    meant = f": {MEANT[name]}" if name in MEANT else ""
    return f"no operation of version {version.number} is named {quoted(name)}{meant}"


def no_node(value):
    if is_value(value):
        as_node = ["constant", "x", value]
        assert FORMS["value"](as_node[2])
        return f'a number is not an expression; ["constant",x,{value}] has the number at each place of x'
    known = "the name of an input or a list that begins with an operation"
    return f"an expression is {known}; this is {found(value)}"


def arity(version, node):
    operands, forms, *_ = OPERATIONS_OF[version.number][node[0]]
    names = NAMES_OF.get(node[0], [])
    assert len(names) == len(forms)
    takes = COUNTS[operands] + (f" and then {' and '.join(names)}" if names else "")
    count = len(node) - 1
    follow = "element follows" if count == 1 else "elements follow"
    return f'"{node[0]}" takes {takes}; {count} {follow} it'


def argument(version, node, at):
    operands, forms, *_ = OPERATIONS_OF[version.number][node[0]]
    form, value = forms[at - operands - 1], node[at]
    name, what = NAMES_OF[node[0]][at - operands - 1], f"this is {found(value)}"
    if form in ITEMS and isinstance(value, list):
        bad = next(k for k, it in enumerate(value) if not ITEMS[form](it))
        what = f"the item at index {bad} is {found(value[bad])}"
    return f'{name} of "{node[0]}" must be {FORM_WORDS[form]}; {what}'


# Own checks: each a function of the version, the operands' dims and the arguments.


def count_of(name, items, dims):
    if len(items) != len(dims):
        has = f"{len(dims)} in all; it has {len(items)}"
        return f"{name} must have one item for each dimension of {dims}, {has}"
    return None


def zero_in(name, items):
    if 0 in items:
        return f"each item of {name} must be at least 1; the one at index {items.index(0)} is 0"
    return None


def axes_in(name, axes, dims):
    for at, axis in enumerate(axes):
        if axis >= len(dims):
            return f"{name} must be axes of the dims {dims}; the one at index {at} is {axis}"
        if axis in axes[:at]:
            return f"{name} must not repeat an axis; {axis} is there twice"
    return None


def result(version, dims):
    """Why the dims of a result aren't legal, of which one may be past 64 bits."""
    for axis, it in enumerate(dims):
        if it > MOST_WORD:
            along = f"along axis {axis} the result has more than {MOST_WORD} places"
            return f"{along}; the product of its dims may be at most {version.most_places}"
    return illegal(version, dims)


def broadcast(version, dims, counts):
    repeated = [it * count for it, count in zip(dims, counts)]
    wrong = count_of("COUNTS", counts, dims) or zero_in("COUNTS", counts)
    return wrong or result(version, repeated)


def slice_of(_version, dims, offsets, extents):
    wrong = count_of("OFFSETS", offsets, dims) or count_of("EXTENTS", extents, dims)
    for axis, (offset, extent, it) in enumerate(zip(offsets, extents, dims)):
        if not wrong and offset + extent > it:
            past = f"is more than the dimension {it} of axis {axis}"
            return f"offset {offset} plus extent {extent} {past}"
    return wrong


def reshape(version, dims, sizes):
    places = f"{math.prod(sizes)} places; the dims {dims} of the operand have {math.prod(dims)}"
    return illegal(version, sizes) or f"SIZES {sizes} have {places}"


def chip(_version, dims, offset, axis):
    if axis >= len(dims):
        return f"AXIS {axis} is not an axis of the dims {dims}"
    return f"OFFSET must be below the dimension {dims[axis]} of AXIS {axis}; it is {offset}"


def pad(version, dims, pairs):
    padded = [before + it + after for it, (before, after) in zip(dims, pairs)]
    return count_of("PAIRS", pairs, dims) or result(version, padded)


def concat(version, first, second, axis):
    if len(first) != len(second):
        return f"both operands must have the same rank; their dims are {first} and {second}"
    if axis >= len(first):
        return f"AXIS {axis} is not an axis of the dims {first}"
    for at, (it, other) in enumerate(zip(first, second)):
        if at != axis and it != other:
            same = f"may differ only at axis {axis}; they differ at axis {at}"
            return f"the dims {first} and {second} {same}"
    joined = [it + second[axis] * (at == axis) for at, it in enumerate(first)]
    return illegal(version, joined)


def contract(version, left, right, pairs):
    firsts, seconds = [it[0] for it in pairs], [it[1] for it in pairs]
    wrong = axes_in("the first numbers of PAIRS", firsts, left)
    wrong = wrong or axes_in("the second numbers of PAIRS", seconds, right)
    for i, j in [] if wrong else pairs:
        if left[i] != right[j]:
            of_second = f"axis {j} of the second is {right[j]} long"
            return f"axis {i} of the first operand is {left[i]} long; {of_second}"
    kept = [left[it] for it in others(firsts, left)] + [right[it] for it in others(seconds, right)]
    return wrong or illegal(version, kept) or many(version, kept, [left[it] for it in firsts])


def many(version, dims, summed):
    """Says that sums of products are too many. It is the last check."""
    places, each = math.prod(dims), math.prod(summed)
    many = f"{places * each} products; at most {version.most_products} are allowed"
    return f"{places} places of {each} products each are {many}"


def convolve(version, dims, kernel, axes):
    if wrong := axes_in("AXES", axes, dims):
        return wrong
    if len(kernel) != len(axes):
        return f"the kernel must have one dimension for each of AXES, {len(axes)} in all; its dims are {kernel}"
    for axis, it in zip(axes, kernel):
        if not 1 <= it <= dims[axis]:
            has = f"the kernel has the length {it}; the operand has the length {dims[axis]}"
            return f"along axis {axis} {has}"
    along = dict(zip(axes, kernel))
    return many(version, [it - along.get(axis, 1) + 1 for axis, it in enumerate(dims)], kernel)


CHECKS = {
    "broadcast": broadcast,
    "slice": slice_of,
    "shuffle": lambda _, dims, order: count_of("ORDER", order, dims) or axes_in("ORDER", order, dims),
    "reshape": reshape,
    "chip": chip,
    "reverse": lambda _, dims, flags: count_of("FLAGS", flags, dims),
    "contract": contract,
    "stride": lambda _, dims, steps: count_of("STEPS", steps, dims) or zero_in("STEPS", steps),
    "pad": pad,
    "concat": concat,
    "convolve": convolve,
}


def own_checks(version, inputs, node):
    """Why a node's own checks fail, whose operands and arguments have no fault."""
    operands, forms, *_ = OPERATIONS_OF[version.number][node[0]]
    dims = [dims_of(version, inputs, it) for it in node[1 : operands + 1]]
    if forms:
        checks = CHECKS.get(node[0], lambda _, dims, axes: axes_in("AXES", axes, dims))
        return checks(version, *dims, *node[operands + 1 :])
    *first, last = map(str, dims)
    shown = f"{', '.join(first)} and {last}"
    return f'the operands of "{node[0]}" must have the same dims; they have {shown}'


def dims_of(version, inputs, tree):
    """The result dims of a tree without a fault."""
    if isinstance(tree, str):
        return inputs[tree]["dims"]
    operands, _, dims, _ = OPERATIONS_OF[version.number][tree[0]]
    below = [dims_of(version, inputs, it) for it in tree[1 : operands + 1]]
    return dims(version, *below, *tree[operands + 1 :])


# The walk


def nodes(tree):
    """How many nodes a tree without a fault has."""
    if isinstance(tree, str):
        return 1
    operands = OPERATIONS_OF[max(VERSIONS)][tree[0]][0]
    return 1 + sum(map(nodes, tree[1 : operands + 1]))


def nodes_before(tree, steps):
    """How many nodes the walk meets before the one at the end of these steps."""
    count = 0
    for at in steps:
        count += 1 + sum(map(nodes, tree[1:at]))
        tree = tree[at]
    return count


def at_end(value, steps):
    for it in steps:
        value = value[it]
    return value


def of_node(number, version, request, steps):
    """The reason of a fault of the expression, or of a part of it."""
    node = at_end(request, steps)
    if number == 8:
        return unknown_input(request["inputs"], node)
    if number == 9:
        is_head = steps[-1] == 0
        return unknown_operation(version, node) if is_head else no_node(node)
    if number == 10:
        return arity(version, node)
    if number == 11:
        return argument(version, at_end(request, steps[:-1]), steps[-1])
    most = version.most_nodes
    if number == 14 and nodes_before(request["expr"], steps[1:]) >= most:
        return f"this is the {most + 1}st node; an expression may have at most {most}"
    return own_checks(version, request["inputs"], node)


def reason(number, request, steps):
    """The reason of the fault of this number that a request has at these steps."""
    value = at_end(request, steps)
    if number == 3:
        return fields(value)
    if number == 4:
        return f"version must be 1 or 2; this is {found(value)}"
    version = VERSIONS[request["version"]]
    if number == 5:
        rule = f"workers must be a whole number from 1 to {version.most_workers}"
        return f"in version {version.number} {rule}; this is {found(value)}"
    if number == 6:
        return f"block must be a whole number from 1 to {2**20}; this is {found(value)}"
    if number == 7:
        whole = f"inputs must be an object of tensors; this is {found(value)}"
        return whole if steps == ["inputs"] else tensor(version, value)
    return of_node(number, version, request, steps)


def same(said, own):
    """Whether two sentences are the same, where a float may be written in two ways."""
    pairs = zip(NUMBER.findall(said), NUMBER.findall(own))
    numbers_same = all(it == other or is_float(it, other) for it, other in pairs)
    return numbers_same and NUMBER.sub("0", said) == NUMBER.sub("0", own)


def is_float(text, other):
    return not (text.lstrip("-").isdigit() or other.lstrip("-").isdigit()) and float(text) == float(other)


# Texts that can't be read


def is_broken_there(text, said):
    """Whether the line, the column and the byte of what is no JSON are one place of the text."""
    try:
        text.decode("utf-8")
    except UnicodeDecodeError as error:
        return said == f"the bytes from byte {error.start} on are not UTF-8"
    parts = BROKEN.fullmatch(said)
    if not parts:
        return False
    line, column, byte = (int(it) for it in parts.groups()[1:])
    begin = text.rfind(b"\n", 0, byte) + 1
    is_end = parts[1].startswith("EOF")
    in_line = byte - begin + (not is_end)
    return (byte == len(text) or not is_end) and (line, column) == (
        1 + text.count(b"\n", 0, byte),
        in_line,
    )


def is_true(text, request, fault, said):
    """Whether what is said of a fault, a number and steps, is what this count says."""
    number, steps = fault
    if number == 1:
        return said == f"a text may have at most {MOST_BYTES} bytes; this one has more" and (
            len(text) > MOST_BYTES
        )
    if number == 2:
        return is_broken_there(text, said)
    return same(said, reason(number, request, steps))
