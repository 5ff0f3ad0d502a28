"""The operations of a request, by name: their result dims and their values, one index list after
another, as docs/REQUEST.md has them.

A new one is a line of OPERATIONS, of ADDED for version 2, or of ALONG_AN_AXIS for version 3; on
values a row of elementwise.py instead, a reduction one of REDUCTIONS. A version is a line of
OPERATIONS_OF and of VERSIONS in rules.py.
"""

import itertools
import math
import operator

from .elementwise import ON_INTEGERS, POINTWISE
from .rules import VALUES, are_legal, need


def wrap(number):
    """A number modulo 2^64, in the range of the data."""
    return (number + 2**63) % 2**64 - 2**63


def size(dims):
    return math.prod(dims)


# Index lists


def index_lists(dims):
    """All index lists, the first index fastest."""
    if 0 in dims:
        return
    for falling in itertools.product(*map(range, reversed(dims))):
        yield falling[::-1]


def place(dims, index):
    """Where the value at an index list stands."""
    return sum(index[k] * math.prod(dims[:k]) for k in range(len(dims)))


class Tensor:
    """Dims, and the value at each index list."""

    def __init__(self, dims, values):
        self.dims, self.values = dims, values

    @staticmethod
    def of(dims, value_at):
        return Tensor(dims, [value_at(index) for index in index_lists(dims)])

    def at(self, index):
        return self.values[place(self.dims, index)]


# Operations. Each has a function of the version, its operands' dims and its arguments, which
# answers the result dims or raises the fault, and one of the result dims, its operands and its
# arguments, which answers the result.


def same_dims(_version, *dims):
    need(all(it == dims[0] for it in dims), 12)
    return dims[0]


def pointwise(operands, function, _numpys):
    def work(dims, *tensors):
        return Tensor(dims, [wrap(function(*them)) for them in zip(*(it.values for it in tensors))])

    return operands, [], same_dims, work


def constant_dims(_version, dims, _value):
    return dims


def constant(dims, _x, value):
    return Tensor.of(dims, lambda _index: value)


def broadcast_dims(version, dims, counts):
    need(len(counts) == len(dims), 12)
    need(all(it >= 1 for it in counts), 13)
    return legal(version, [it * count for it, count in zip(dims, counts)])


def legal(version, dims):
    need(are_legal(version, dims), 14)
    return dims


def broadcast(dims, x, _counts):
    return Tensor.of(dims, lambda index: x.at([i % d for i, d in zip(index, x.dims)]))


def slice_dims(_version, dims, offsets, extents):
    need(len(offsets) == len(extents) == len(dims), 12)
    need(all(o + e <= d for o, e, d in zip(offsets, extents, dims)), 13)
    return extents


def slice_of(dims, x, offsets, _extents):
    return Tensor.of(dims, lambda index: x.at([i + o for i, o in zip(index, offsets)]))


def shuffle_dims(_version, dims, order):
    need(len(order) == len(dims), 12)
    need(sorted(order) == list(range(len(dims))), 13)
    return [dims[axis] for axis in order]


def shuffle(dims, x, order):
    return Tensor.of(dims, lambda index: x.at([index[order.index(k)] for k in range(len(dims))]))


def reshape_dims(version, dims, sizes):
    legal(version, sizes)
    need(size(sizes) == size(dims), 12)
    return sizes


def reshape(dims, x, _sizes):
    return Tensor(dims, x.values)


def chip_dims(_version, dims, offset, axis):
    need(axis < len(dims), 13)
    need(offset < dims[axis], 13)
    return dims[:axis] + dims[axis + 1 :]


def chip(dims, x, offset, axis):
    return Tensor.of(dims, lambda index: x.at([*index[:axis], offset, *index[axis:]]))


def reverse_dims(_version, dims, flags):
    need(len(flags) == len(dims), 12)
    return dims


def reverse(dims, x, flags):
    def turned(index):
        return [d - 1 - i if flag else i for i, d, flag in zip(index, dims, flags)]

    return Tensor.of(dims, lambda index: x.at(turned(index)))


def stride_dims(_version, dims, steps):
    need(len(steps) == len(dims), 12)
    need(all(it >= 1 for it in steps), 13)
    return [(it + step - 1) // step for it, step in zip(dims, steps)]


def stride(dims, x, steps):
    return Tensor.of(dims, lambda index: x.at([i * step for i, step in zip(index, steps)]))


def pad_dims(version, dims, pairs):
    need(len(pairs) == len(dims), 12)
    return legal(version, [before + it + after for it, (before, after) in zip(dims, pairs)])


def pad(dims, x, pairs):
    def value_at(index):
        inner = [i - before for i, (before, _) in zip(index, pairs)]
        return x.at(inner) if all(0 <= i < d for i, d in zip(inner, x.dims)) else 0

    return Tensor.of(dims, value_at)


def concat_dims(version, first, second, axis):
    need(len(first) == len(second), 12)
    need(axis < len(first), 13)
    need(all(first[k] == second[k] for k in range(len(first)) if k != axis), 12)
    return legal(version, [*first[:axis], first[axis] + second[axis], *first[axis + 1 :]])


def concat(dims, x, y, axis):
    def value_at(index):
        past = index[axis] - x.dims[axis]
        return x.at(index) if past < 0 else y.at([*index[:axis], past, *index[axis + 1 :]])

    return Tensor.of(dims, value_at)


def axes_are_there(axes, dims):
    need(all(it < len(dims) for it in axes) and len(set(axes)) == len(axes), 13)


def others(axes, dims):
    return [axis for axis in range(len(dims)) if axis not in axes]


def reduced_dims(_version, dims, axes):
    axes_are_there(axes, dims)
    return [dims[axis] for axis in others(axes, dims)]


def put(rank, *parts):
    """An index list of so many indices, of parts that are each axes and the indices there."""
    index = [None] * rank
    for axes, indices in parts:
        for axis, it in zip(axes, indices):
            index[axis] = it
    return index


def reduction(combine):
    def work(dims, x, axes):
        kept, rank = others(axes, x.dims), len(x.dims)
        dropped = [x.dims[axis] for axis in axes]

        def value_at(index):
            inner = index_lists(dropped)
            return wrap(combine([x.at(put(rank, (kept, index), (axes, it))) for it in inner]))

        return Tensor.of(dims, value_at)

    return reduced_dims, work


def contract_dims(version, left, right, pairs):
    firsts, seconds = [it[0] for it in pairs], [it[1] for it in pairs]
    axes_are_there(firsts, left)
    axes_are_there(seconds, right)
    need(all(left[i] == right[j] for i, j in pairs), 12)
    kept = [left[axis] for axis in others(firsts, left)]
    dims = legal(version, kept + [right[axis] for axis in others(seconds, right)])
    need(size(dims) * size([left[axis] for axis in firsts]) <= version.most_products, 14)
    return dims


def contract(dims, x, y, pairs):
    firsts, seconds = [it[0] for it in pairs], [it[1] for it in pairs]
    of_x, of_y = others(firsts, x.dims), others(seconds, y.dims)
    paired = [x.dims[axis] for axis in firsts]

    def product(index, it):
        left = put(len(x.dims), (of_x, index[: len(of_x)]), (firsts, it))
        right = put(len(y.dims), (of_y, index[len(of_x) :]), (seconds, it))
        return x.at(left) * y.at(right)

    def value_at(index):
        return wrap(sum(product(index, it) for it in index_lists(paired)))

    return Tensor.of(dims, value_at)


def convolve_dims(version, dims, kernel, axes):
    axes_are_there(axes, dims)
    need(len(kernel) == len(axes), 12)
    need(all(1 <= k <= dims[axis] for k, axis in zip(kernel, axes)), 13)
    along = dict(zip(axes, kernel))
    found = [it - along.get(axis, 1) + 1 for axis, it in enumerate(dims)]
    need(size(found) * size(kernel) <= version.most_products, 14)
    return found


def convolve(dims, x, kernel, axes):
    def under(index, it):
        along = dict(zip(axes, it))
        return x.at([i + along.get(axis, 0) for axis, i in enumerate(index)])

    def value_at(index):
        return wrap(sum(under(index, it) * kernel.at(it) for it in index_lists(kernel.dims)))

    return Tensor.of(dims, value_at)


def without(dims, axis):
    need(axis < len(dims), 13)
    return [*dims[:axis], *dims[axis + 1 :]]


def up_to_each(combine, none):
    def dims_of(_version, dims, axis):
        without(dims, axis)
        return dims

    def work(dims, x, axis):
        found = {}
        for index in index_lists(dims):
            before = *index[:axis], index[axis] - 1, *index[axis + 1 :]
            found[index] = wrap(combine(found.get(before, none), x.at(index)))
        return Tensor(dims, [*found.values()])

    return dims_of, work


def first_of(best):
    def work(dims, x, axis):
        def value_at(index):
            line = [x.at([*index[:axis], it, *index[axis:]]) for it in range(x.dims[axis])]
            return line.index(best(line)) if line else 0

        return Tensor.of(dims, value_at)

    return lambda _version, dims, axis: without(dims, axis), work


def take_dims(version, dims, indices, axis):
    others = without(dims, axis)
    return legal(version, [*others[:axis], *indices, *others[axis:]])


def take(dims, x, indices, axis):
    behind = axis + len(indices.dims)

    def value_at(index):
        it = indices.at(index[axis:behind])
        is_there = 0 <= it < x.dims[axis]
        return x.at([*index[:axis], it, *index[behind:]]) if is_there else 0

    return Tensor.of(dims, value_at)


LEAST, GREATEST = VALUES.start, VALUES.stop - 1

# By name: how many operands, the forms of the arguments, and both functions.
OPERATIONS = {
    "constant": (1, ["value"], constant_dims, constant),
    "broadcast": (1, ["sizes"], broadcast_dims, broadcast),
    "slice": (1, ["sizes", "sizes"], slice_dims, slice_of),
    "shuffle": (1, ["sizes"], shuffle_dims, shuffle),
    "reshape": (1, ["sizes"], reshape_dims, reshape),
    "chip": (1, ["size", "size"], chip_dims, chip),
    "reverse": (1, ["flags"], reverse_dims, reverse),
    "contract": (2, ["pairs"], contract_dims, contract),
}
# Those that version 2 adds.
ADDED = {
    "stride": (1, ["sizes"], stride_dims, stride),
    "pad": (1, ["pairs"], pad_dims, pad),
    "concat": (2, ["size"], concat_dims, concat),
    "convolve": (2, ["sizes"], convolve_dims, convolve),
}
# Those that version 3 adds.
ALONG_AN_AXIS = {
    "cumsum": (1, ["size"], *up_to_each(operator.add, 0)),
    "cumprod": (1, ["size"], *up_to_each(operator.mul, 1)),
    "argmax": (1, ["size"], *first_of(max)),
    "argmin": (1, ["size"], *first_of(min)),
    "take": (2, ["size"], take_dims, take),
}
REDUCTIONS = {
    "sum": sum,
    "prod": math.prod,
    "maximum": lambda them: max(them, default=LEAST),
    "minimum": lambda them: min(them, default=GREATEST),
    "all": lambda them: all(it != 0 for it in them),
    "any": lambda them: any(it != 0 for it in them),
}
OPERATIONS.update({name: pointwise(*it) for name, it in POINTWISE.items()})
OPERATIONS.update({name: (1, ["sizes"], *reduction(it)) for name, it in REDUCTIONS.items()})
OPERATIONS_OF = {1: OPERATIONS, 2: {**OPERATIONS, **ADDED}}
OPERATIONS_OF[3] = {**OPERATIONS_OF[2], **ALONG_AN_AXIS}
OPERATIONS_OF[3].update({name: pointwise(*it) for name, it in ON_INTEGERS.items()})


def cost_of(name, dims, operands, arguments):
    """How many index lists an operation goes over, whose operands have these dims."""
    if name == "contract":
        return size(dims) * (1 + size([operands[0][it[0]] for it in arguments[0]]))
    if name == "convolve":
        return size(dims) * (1 + size(operands[1]))
    return size(dims) + size(operands[0])
