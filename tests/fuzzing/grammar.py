"""Valid requests at random, by the grammar of docs/REQUEST.md: each part is made for the dims that
it is to have, from the root down.

A new operation is a call of Grammar with its name in MAKERS, or in MAKERS_OF for versions 2 and 3;
one on values and a reduction are there by the tables of elementwise.py and operations.py.
"""

import math

from .elementwise import ON_INTEGERS, POINTWISE, named
from .operations import REDUCTIONS
from .rules import MOST_SIZE, VERSIONS

# How many places a part has at most, mostly and now and then; how deep an expression goes.
FEW, MANY = 64, 2_500
OF_MANY = 0.005
DEEPEST = 5

ENDS = [-(2**63), -(2**63) + 1, -(2**32), -(2**31), -(2**31) - 1, 2**31 - 1, 2**31, 2**32, 2**62]
ENDS += [2**63 - 1, 2**63 - 2, 3037000500, -3037000500]
NAMES = ["a", "b", "", "add", "A", 'quo"te', "back\\slash", "line\nfeed", "\0", "\x7f", "é"]
NAMES += ["日本", "\U0001f600", "dims", "sum of all", "\ufeff", "\uffff", "/", "data"]

SIZES = [0, 1, 1, 1, 2, 2, 2, 2, 2, 3, 3, 3, 3, 4, 4, 5, 7]
LARGE_SIZES = [6, 8, 9, 11, 12, 16, 17, 24, 33, 40, 64, 100, 1_025, 2_049]
WORKERS = [1, 1, 2, 2, 2, 3, 3, 4, 4, 8]
BLOCKS = [1, 1, 2, 3, 4, 7, 16, 64, 1_048_576]

UNARY, BINARY = named(POINTWISE, 1), named(POINTWISE, 2)
UNARY_OF = {1: UNARY, 2: UNARY, 3: UNARY + named(ON_INTEGERS, 1) * 2}
BINARY_OF = {1: BINARY, 2: BINARY, 3: BINARY + named(ON_INTEGERS, 2) * 2}
# The calls of a grammar that make an operation, the more often the more operations they stand for.
MAKERS = ["unary"] * 2 + ["binary"] * 5 + ["select", "constant", "broadcast", "slice", "shuffle"]
MAKERS += ["reshape", "chip", "reverse", "chain"] + ["reduction"] * 4 + ["contraction"] * 3
MAKERS_OF = {1: MAKERS, 2: MAKERS + ["stride", "pad", "concat", "convolution"] * 2}
MAKERS_OF[3] = MAKERS_OF[2] + ["binary"] * 5 + ["scan", "location", "taking"] * 2
# Counts of a shift: from below 0 to past 63.
COUNTS = range(-2, 67)
# How many lets stand in front in version 3, and what else their names may be.
LETS = [0, 0, 0, 1, 1, 2, 3, 4]
LET_NAMES = [*NAMES, "let", "y0"]
# The calls that make what stands behind them.
ABOVE_LETS = ["node", "binary", "chain", "chain", "select"]


def value(random):
    """A number of the data's range, small or at an end of some range."""
    kind = random.random()
    if kind < 0.6:
        return random.randint(-2, 2)
    if kind < 0.8:
        return random.choice(ENDS)
    return random.randrange(-(2**63), 2**63) >> random.randrange(64)


class Grammar:
    """The inputs of one request, which grow as its expression does, and the dims of its lets."""

    def __init__(self, random, version):
        self.random, self.version, self.inputs, self.bound = random, version, {}, {}
        self.places = MANY if random.random() < OF_MANY else FEW
        self.sizes = SIZES + LARGE_SIZES * (self.places == MANY)

    def dimension(self):
        return self.random.choice(self.sizes)

    def dims(self):
        """Dims of no more places than there may be."""
        dims = []
        while len(dims) < self.version.most_rank and self.random.random() < 0.7:
            dims.append(self.dimension())
        while not self.fits(dims):
            dims[self.random.randrange(len(dims))] = 1
        return dims

    def leaf(self, dims):
        """The name of an input of these dims, an old one where there is one."""
        if self.is_bound(dims, 0.8):
            return self.one_bound(dims)
        old = [name for name, it in self.inputs.items() if it["dims"] == dims]
        if old and self.random.random() < 0.6:
            return self.random.choice(old)
        name = self.new_name(NAMES)
        data = [self.value() for _ in range(math.prod(dims))]
        self.inputs[name] = {"dims": dims, "data": data}
        return name

    def new_name(self, names):
        """One of these names, or a longer one where it is there already."""
        name = self.random.choice(names)
        while name in self.inputs or name in self.bound:
            name += self.random.choice("abxyz")
        return name

    def is_bound(self, dims, chance):
        """Whether a let's name is to stand here, where one has these dims; else nothing is drawn."""
        return dims in self.bound.values() and self.random.random() < chance

    def one_bound(self, dims):
        """A let's name, of a tensor of these dims."""
        return self.random.choice([name for name, it in self.bound.items() if it == dims])

    def whole(self, dims, depth):
        """A whole expression of these dims, in front of which lets may stand: of an input or of
        more, of its own dims or of others, each used or not."""
        count = self.random.choice(LETS) if self.version.has_let else 0
        front = []
        for _ in range(count):
            own = self.random.choice([dims, dims, dims, self.dims()])
            first = self.node(own, self.random.randint(0, depth))
            front.append(["let", self.new_name(LET_NAMES), first])
            self.bound[front[-1][1]] = own
        maker = self.random.choice(ABOVE_LETS) if front else "node"
        expr = getattr(self, maker)(dims, depth)
        for it in reversed(front):
            expr = [*it, expr]
        return expr

    def value(self):
        """A value of an input, in version 3 at times one that counts places."""
        if self.version.number == 3 and self.random.random() < 0.2:
            return self.random.choice(COUNTS)
        return value(self.random)

    def fits(self, dims):
        is_rank = len(dims) <= self.version.most_rank
        return is_rank and math.prod(max(it, 1) for it in dims) <= self.places

    def node(self, dims, depth):
        """An expression of these dims."""
        if self.is_bound(dims, 0.2):
            return self.one_bound(dims)
        if depth == 0 or self.random.random() < 0.1:
            return self.leaf(dims)
        maker = self.random.choice(MAKERS_OF[self.version.number])
        return getattr(self, maker)(list(dims), depth - 1) or self.leaf(dims)

    def unary(self, dims, depth):
        return [self.random.choice(UNARY_OF[self.version.number]), self.node(dims, depth)]

    def binary(self, dims, depth):
        return [self.one_binary(), self.node(dims, depth), self.node(dims, depth)]

    def one_binary(self):
        """The name of an operation on two values."""
        return self.random.choice(BINARY_OF[self.version.number])

    def chain(self, dims, depth):
        """Operations one after the other, most of them with one and the same operand."""
        expr, operand = self.node(dims, depth), self.node(dims, min(depth, 1))
        for _ in range(self.random.randint(2, 5)):
            sides = [expr, operand if self.random.random() < 0.9 else self.leaf(dims)]
            self.random.shuffle(sides)
            expr = [self.one_binary(), *sides]
        return expr

    def select(self, dims, depth):
        return ["select", *(self.node(dims, depth) for _ in range(3))]

    def constant(self, dims, depth):
        return ["constant", self.node(dims, depth), value(self.random)]

    def broadcast(self, dims, depth):
        counts, below = [], []
        for it in dims:
            parts = [part for part in range(1, it + 1) if it % part == 0] or [0]
            below.append(self.random.choice(parts))
            counts.append(it // below[-1] if it else self.random.randint(1, 4))
        return ["broadcast", self.node(below, depth), counts]

    def slice(self, dims, depth):
        offsets, below = [], []
        for it in dims:
            offsets.append(self.random.choice([0, 0, 1, 2]))
            below.append(it + offsets[-1] + self.random.choice([0, 0, 1]))
        return ["slice", self.node(below, depth), offsets, dims] if self.fits(below) else None

    def shuffle(self, dims, depth):
        order = self.random.sample(range(len(dims)), len(dims))
        below = [dims[order.index(axis)] for axis in range(len(dims))]
        return ["shuffle", self.node(below, depth), order]

    def reshape(self, dims, depth):
        places, below = math.prod(dims), []
        while len(below) < self.version.most_rank - 1 and self.random.random() < 0.6:
            parts = [it for it in range(1, places + 1) if places % it == 0]
            below.append(self.random.choice(parts or [self.dimension()]))
            places = places // below[-1] if below[-1] else 0
        below.insert(self.random.randint(0, len(below)), places)
        return ["reshape", self.node(below, depth), dims] if self.fits(below) else None

    def chip(self, dims, depth):
        axis, there = self.random.randint(0, len(dims)), self.random.randint(1, 4)
        below = [*dims[:axis], there, *dims[axis:]]
        if not self.fits(below):
            return None
        return ["chip", self.node(below, depth), self.random.randrange(there), axis]

    def reverse(self, dims, depth):
        flags = [self.random.random() < 0.5 for _ in dims]
        return ["reverse", self.node(dims, depth), flags]

    def stride(self, dims, depth):
        steps, below = [], []
        for it in dims:
            steps.append(self.random.choice([1, 1, 2, 3] + [7, MOST_SIZE] * (it < 2)))
            few = min(steps[-1], 4)
            below.append((it - 1) * steps[-1] + self.random.randint(1, few) if it else 0)
        return ["stride", self.node(below, depth), steps] if self.fits(below) else None

    def pad(self, dims, depth):
        pairs, below = [], []
        for it in dims:
            there = self.random.choice([it, self.random.randint(0, it)])
            before = self.random.randint(0, it - there)
            pairs.append([before, it - there - before])
            below.append(there)
        return ["pad", self.node(below, depth), pairs]

    def concat(self, dims, depth):
        if not dims:
            return None
        axis = self.random.randrange(len(dims))
        cut = self.random.randint(0, dims[axis])
        parts = [[*dims[:axis], it, *dims[axis + 1 :]] for it in (cut, dims[axis] - cut)]
        return ["concat", *(self.node(it, depth) for it in parts), axis]

    def convolution(self, dims, depth):
        there = [axis for axis, it in enumerate(dims) if it]
        axes = self.random.sample(there, min(len(there), self.random.choice([0, 1, 1, 2, 3])))
        kernel, below = [self.random.choice([1, 1, 2, 2, 3, 5]) for _ in axes], list(dims)
        for axis, it in zip(axes, kernel):
            below[axis] += it - 1
        if not (self.fits(kernel) and self.fits(below)):
            return None
        return ["convolve", self.node(below, depth), self.node(kernel, depth), axes]

    def woven(self, kept, more):
        """Dims of both lists in some order, and the axes of those of the second, in their order."""
        below = [(it, None) for it in kept]
        for number, it in enumerate(more):
            below.insert(self.random.randint(0, len(below)), (it, number))
        axes = [[mark for _, mark in below].index(number) for number in range(len(more))]
        # What was kept stays in order, since the others were put in between.
        return [it for it, _ in below], axes

    def reduction(self, dims, depth):
        more = [self.dimension() for _ in range(self.random.choice([0, 1, 1, 2, 3]))]
        below, axes = self.woven(dims, more)
        if not self.fits(below):
            return None
        return [self.random.choice([*REDUCTIONS]), self.node(below, depth), axes]

    def contraction(self, dims, depth):
        cut = self.random.randint(0, len(dims))
        paired = [self.dimension() for _ in range(self.random.choice([0, 1, 1, 1, 2]))]
        left, firsts = self.woven(dims[:cut], paired)
        right, seconds = self.woven(dims[cut:], paired)
        if not (self.fits(left) and self.fits(right)):
            return None
        pairs = [list(it) for it in zip(firsts, seconds)]
        return ["contract", self.node(left, depth), self.node(right, depth), pairs]

    def scan(self, dims, depth):
        if not dims:
            return None
        axis = self.random.randrange(len(dims))
        return [self.random.choice(["cumsum", "cumprod"]), self.node(dims, depth), axis]

    def location(self, dims, depth):
        below, axes = self.woven(dims, [self.dimension()])
        if not self.fits(below):
            return None
        return [self.random.choice(["argmax", "argmin"]), self.node(below, depth), *axes]

    def taking(self, dims, depth):
        """Some dims in a row are those of the indices."""
        begin = self.random.randint(0, len(dims))
        end = self.random.randint(begin, len(dims))
        below = [*dims[:begin], self.dimension(), *dims[end:]]
        if not self.fits(below):
            return None
        return ["take", self.node(below, depth), self.node(dims[begin:end], depth), begin]


def request(random, versions=VERSIONS):
    """A valid request of one of these versions, as a JSON value."""
    version = random.choice(list(versions.values()))
    grammar = Grammar(random, version)
    expr = grammar.whole(grammar.dims(), random.randint(1, DEEPEST))
    while random.random() < 0.2:
        grammar.leaf(grammar.dims())
    most = version.most_workers
    return {
        "version": version.number,
        "workers": random.choice([*WORKERS, most, random.randint(1, most)]),
        "block": random.choice([*BLOCKS, random.randint(1, version.most_places)]),
        "inputs": grammar.inputs,
        "expr": expr,
    }
