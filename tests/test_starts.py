"""Counts the threads that the program starts for a request.

That a plan uses its workers and its block no clause says, and no line shows: one leaf a step, or one
worker, would print the same. A step starts as many of the request's workers as are worth their start,
but no more than it has leaves, and none where that is one. How many these are is computed here once
more, from what each step costs. So this also tells which steps are run: where an operand is computed
as it is read, no pool is opened for it. support/refusals.c counts the starts. A new request is a row
of REQUESTS: its inputs, its expression, its line, and its steps by workers and block.
"""

import math
from typing import NamedTuple

import pytest

from hostile import line_of, request

pytestmark = pytest.mark.usefixtures("programs")

# In nanoseconds: a pool, a worker's start counted three times, a leaf; and of a thousand values that are
# written, joined, negated, squared, read along a view, added up, multiplied and added up, packed, slid over.
POOL, START, LEAF = 40_000, 180_000, 400
WRITTEN, JOINED, NEG, SQUARE, WALK, ADDED_UP = 1_000, 1_200, 200, 400, 250, 400
MULTIPLIED, PACKED, SLID = 200, 350, 2_000
MOST_SHARDS = 1_024
MOST_PLACES = 1_048_576


class Step(NamedTuple):
    """How long a step takes to compute its values, how many they are, about how many leaves the program
    estimates, and how many there are."""

    cost: int
    values: int
    estimated: int
    leaves: int

    def best(self, workers):
        """The least number of these workers that take the least time."""
        work = self.cost + self.values * WRITTEN // 1_000
        shared, alone = work + self.estimated * LEAF, self.values * JOINED // 1_000 + POOL
        times = [work] + [shared // n + alone + START * n for n in range(2, workers + 1)]
        return times.index(min(times)) + 1

    def started(self, workers):
        """How many of these workers are started."""
        count = min(self.best(workers), self.leaves)
        return count if count > 1 else 0


def cut(places, block):
    """Into how many blocks places are cut."""
    return -(-places // block)


def ranges(places, each, block):
    """A step that computes each place by itself; a thousand of them take `each` ns."""
    return Step(places * each // 1_000, places, places // block, cut(places, block))


def shards(values, places, costs, block):
    """A step that combines places to few values; each part of a thousand places costs an item of `costs`."""
    inner = places // values
    count = cut(inner, max(block, cut(inner, MOST_SHARDS)))
    leaves = 1 if places <= block else values * count
    cost = sum(places * each // 1_000 for each in costs)
    return Step(cost, values, min(values * MOST_SHARDS, places // block), leaves)


def runs(values, places, costs, block, leaves):
    """A step that combines places to many values, in `leaves` leaves."""
    cost = sum(places * each // 1_000 for each in costs)
    return Step(cost, values, values // block, leaves)


def columns(sizes, places, leaves):
    """A contraction of `sizes` rows, columns and products; its operands have `places` places."""
    rows, across, width = sizes
    cost = (rows * across * width * MULTIPLIED + places * PACKED) // 1_000
    return Step(cost, rows * across, 0, leaves)


def over(places, operation, times=1):
    """An operation over itself, `times` times, over `places` places."""
    return f'["{operation}",' * times + f'["broadcast","a",[{places}]]' + "]" * times


def summed(expr):
    return f'["sum",{expr},[0]]'


def tensor(value, *dims):
    """The line of a tensor of equal values."""
    return line_of([value] * math.prod(dims), dims)


ONE = '"a":{"dims":[1],"data":[1]}'

TIMES, WIDTH = 110, 8


def dearest(places):
    """The most work that a text has room for, multiplied; a thousand places take DEAREST."""
    expr = factor = over(places, "square", TIMES)
    for _ in range(WIDTH - 1):
        expr = f'["mul",{expr},{factor}]'
    return expr


DEAREST = WIDTH * (TIMES * SQUARE + WALK) + (WIDTH - 1) * SQUARE


def crossing(count, each, block):
    """The fewest places to add up, of which a thousand take `each` ns, that are worth `count` of 64
    workers."""
    below = 0
    for bit in reversed(range(MOST_PLACES.bit_length())):
        more = below + 2**bit
        if shards(1, more, (each, ADDED_UP), block).best(64) < count:
            below = more
    return below + 1


def crossings():
    """Just below and just above where a second, a fourth and a 32nd worker are worth it."""
    found = {}
    for count, expr_of, each, block in (
        *((it, lambda places: over(places, "square", 4), 4 * SQUARE + WALK, 65_536) for it in (2, 4)),
        (32, dearest, DEAREST, 4_096),
    ):
        above = crossing(count, each, block)
        for name, places in (("just below", above - 1), ("at", above)):
            settings = {(64, block): [shards(1, places, (each, ADDED_UP), block)]}
            asked = ONE, summed(expr_of(places)), tensor(places), settings
            found[f"{name} {places:,} places, for {count}"] = asked
    return found


MANY = 1_000_000
DEAR, DEAR_EACH = 8, 8 * SQUARE + WALK
COMPUTED = over(MANY, "square", DEAR)


def each_block(made, *settings):
    """The steps that are made for a block, for each number of workers and block."""
    return {(workers, block): made(block) for workers, block in settings}


def dear_sum(block):
    return [shards(1, MANY, (DEAR_EACH, ADDED_UP), block)]


def dear_product(block):
    """Two operands, and their products."""
    products = (MANY * MULTIPLIED + 2 * MANY * PACKED) // 1_000
    cost = 2 * (MANY * DEAR_EACH // 1_000) + products
    return [shards(1, MANY, (), block)._replace(cost=cost)]


# Places of two sums, of which one is cheap and one is dear.
SAME, DEARER = 262_144, 20


def same(each, block):
    return shards(1, SAME, (each + WALK, ADDED_UP), block)


# A square of 1,000,000 values, each of 40 products. Each leaf adds up its own values where all are added
# up, or each column. All workers compute the values before they are added up where the rows are added
# up or something else is made first; and so the values of a convolution.
SIDE, DEEP = 1_000, 40
PLACES = SIDE * SIDE
ONES = ",".join(["1"] * SIDE)
LINES = f'"a":{{"dims":[{SIDE},1],"data":[{ONES}]}},"b":{{"dims":[1,{SIDE}],"data":[{ONES}]}}'
PRODUCT = f'["contract",["broadcast","a",[1,{DEEP}]],["broadcast","b",[{DEEP},1]],[[1,0]]]'


def square(leaves):
    """Leaves of whole columns."""
    return columns((SIDE, SIDE, DEEP), 2 * SIDE * DEEP, leaves)


# By workers and block: one leaf, five of 224 columns, and 32 of 32.
SQUARES = {(64, PLACES): square(1), (64, PLACES // 4): square(5), (2, 4_096): square(32)}

# 64 by 64 values, each of 8,192 products; an operation of the operands is repeated.
LONG = 8_192
PAIR = (
    f'"a":{{"dims":[64,2],"data":[{",".join(["1"] * 128)}]}},'
    f'"b":{{"dims":[2,64],"data":[{",".join(["1"] * 128)}]}}'
)


def of_operands(times):
    first, second = (
        '["neg",' * times + f'["broadcast",{it}]' + "]" * times
        for it in ('"a",[1,4096]', '"b",[4096,1]')
    )
    return f'["sum",["contract",{first},{second},[[1,0]]],[0,1]]'


def operand(times, block):
    return ranges(64 * LONG, times * NEG + WALK, block)


LONG_PRODUCT = columns((64, 64, LONG), 2 * 64 * LONG, 2)

# 256 by 1,024 values, each of 256 products.
WIDE = '["contract",["broadcast","one",[256,256]],["broadcast","one",[256,1024]],[[1,0]]]'


def wide(leaves):
    return columns((256, 1_024, 256), 256 * 256 + 256 * 1_024, leaves)


# 100,000 dear values, which are added up a thousand, or one at a time.
RUN, RUN_EACH = 100_000, 40 * SQUARE + WALK
RUNS = over(RUN, "square", 40)
APART = over("1000,100", "square", 40).replace('"a"', '"one"')


def added(values, block, leaves):
    return runs(values, RUN, (RUN_EACH, ADDED_UP), block, leaves)


REQUESTS = {
    **crossings(),
    "values": (
        ONE,
        RUNS,
        tensor(1, RUN),
        each_block(
            lambda block: [ranges(RUN, RUN_EACH, block)],
            *((64, RUN), (64, RUN // 2), (64, 4_096), (3, 4_096), (1, 4_096)),
        ),
    ),
    # Leaves of a place take longer than all places do.
    "values by blocks of a place": (
        ONE,
        over(RUN, "neg"),
        tensor(-1, RUN),
        each_block(lambda block: [ranges(RUN, NEG + WALK, block)], (64, 1), (4, 1)),
    ),
    "a sum of computed values": (
        ONE,
        summed(COMPUTED),
        tensor(MANY),
        each_block(dear_sum, (64, MANY), (64, MANY // 2), (64, 65_536), (2, 4_096), (1, 4_096)),
    ),
    "an inner product of computed values": (
        ONE,
        f'["contract",{COMPUTED},{COMPUTED},[[0,0]]]',
        tensor(MANY),
        each_block(dear_product, (64, MANY), (64, MANY // 2), (64, 65_536), (2, 4_096)),
    ),
    "a sum of cheap values": (
        ONE,
        summed(over(SAME, "neg")),
        tensor(-SAME),
        each_block(lambda block: [same(NEG, block)], (64, 16_384)),
    ),
    "a sum of as many dear ones": (
        ONE,
        summed(over(SAME, "square", DEARER)),
        tensor(SAME),
        each_block(lambda block: [same(DEARER * SQUARE, block)], (64, 16_384), (2, 16_384)),
    ),
    "both and more, each by its own cost": (
        ONE,
        f'["add",{summed(over(SAME, "neg"))},'
        f'["add",{summed(over(SAME, "square", DEARER))},{summed(COMPUTED)}]]',
        tensor(MANY),
        each_block(
            lambda block: [same(NEG, block), same(DEARER * SQUARE, block), *dear_sum(block)],
            (64, 16_384),
            (4, 16_384),
        ),
    ),
    "a sum of a contraction": (
        LINES,
        f'["sum",{PRODUCT},[0,1]]',
        tensor(PLACES * DEEP),
        {setting: [it] for setting, it in SQUARES.items()},
    ),
    "sums of the columns of a contraction": (
        LINES,
        f'["sum",{PRODUCT},[0]]',
        tensor(SIDE * DEEP, SIDE),
        {setting: [it] for setting, it in SQUARES.items()},
    ),
    "sums of the rows of a contraction": (
        LINES,
        f'["sum",{PRODUCT},[1]]',
        tensor(SIDE * DEEP, SIDE),
        {(2, 4_096): [square(32), runs(SIDE, PLACES, (ADDED_UP,), 4_096, 8)]},
    ),
    "a sum of what is made of a contraction": (
        LINES,
        f'["sum",["abs",{PRODUCT}],[0,1]]',
        tensor(PLACES * DEEP),
        {(2, 4_096): [square(32), shards(1, PLACES, (NEG, ADDED_UP), 4_096)]},
    ),
    # What is slid over is soon computed, by one thread.
    "a sum of a convolution": (
        ONE,
        summed(f'["convolve",["broadcast","a",[{MANY}]],"a",[0]]'),
        tensor(MANY),
        {
            (4, 65_536): [
                ranges(MANY, WALK, 65_536),
                Step(MANY * (MULTIPLIED + SLID) // 1_000, MANY, MANY // 65_536, 16),
                shards(1, MANY, (ADDED_UP,), 65_536),
            ]
        },
    ),
    "a sum of a contraction of what is soon computed": (
        PAIR,
        of_operands(4),
        tensor(64 * 64 * LONG),
        {(2, 4_096): [LONG_PRODUCT], (1, 4_096): [LONG_PRODUCT]},
    ),
    "a sum of a contraction of what takes long": (
        PAIR,
        of_operands(20),
        tensor(64 * 64 * LONG),
        {
            (2, 65_536): [operand(20, 65_536), operand(20, 65_536), LONG_PRODUCT],
            (1, 65_536): [LONG_PRODUCT],
        },
    ),
    # Leaves of 256 columns, or as many as there are for each worker's turn, but 128 at least.
    "a sum of a contraction of many columns": (
        '"one":{"dims":[1,1],"data":[1]}',
        f'["sum",{WIDE},[0,1]]',
        tensor(256 * 1_024 * 256),
        {
            (64, 262_144): [wide(1)],
            (2, 4_096): [wide(4)],
            (3, 4_096): [wide(6)],
            (64, 4_096): [wide(8)],
        },
    ),
    "long runs": (
        ONE,
        f'["sum",["reshape",{RUNS},[1000,100]],[0]]',
        tensor(1_000, 100),
        {(64, RUN): [added(100, RUN, 1)], (4, 1_000): [added(100, 1_000, 12)]},
    ),
    # The operand is computed before.
    "runs of one": (
        ONE,
        f'["sum",["reshape",{RUNS},[1,{RUN}]],[0]]',
        tensor(1, RUN),
        {
            (4, 1_000): [
                ranges(RUN, RUN_EACH, 1_000),
                runs(RUN, RUN, (ADDED_UP,), 1_000, 100),
            ]
        },
    ),
    "runs along the second axis": (
        '"one":{"dims":[1,1],"data":[1]}',
        f'["sum",{APART},[1]]',
        tensor(100, 1_000),
        {(4, 1_000): [added(1_000, 1_000, 12)]},
    ),
}


RUNS_OF_REQUESTS = {
    f"{name}, {workers} workers and blocks of {block}": (*asked, workers, block, steps)
    for name, (*asked, settings) in REQUESTS.items()
    for (workers, block), steps in settings.items()
}


@pytest.mark.parametrize("name", RUNS_OF_REQUESTS)
def test_starts(refusals, name):
    inputs, expr, line, workers, block, steps = RUNS_OF_REQUESTS[name]
    version = 2 if workers > 64 or '"convolve"' in expr else 1
    assert refusals.run(request(inputs, expr, version, workers, block)) == (line, "", 0)
    wanted = [it.started(workers) for it in steps]
    assert refusals.starts == sum(wanted), wanted
