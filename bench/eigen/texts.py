"""The requests that bench/eigen/run times: texts by name, workers and block.

A request whose answer would be long ends in a sum. So mainly starting, reading, making the operands and
the work are timed, and little printing. The requests of `numbers` are all reading and printing instead.
requests.cpp has these forms too, and answers no others.
"""

import math
import random

BLOCK = 4096
SQUARE = '["broadcast","a",[{0},{0}]]'
LINE = '["broadcast","a",[{0}]]'
MOST_PLACES = 1_048_576


def numbers(count, seed, bound=2**63):
    """Returns numbers in [-bound, bound), equal ones at each call."""
    source = random.Random(seed)
    return [source.randrange(-bound, bound) for _ in range(count)]


def listed(items):
    return "[" + ",".join(map(str, items)) + "]"


def text(inputs, expr, workers):
    members = ",".join(
        f'"{name}":{{"dims":{listed(dims)},"data":{listed(values)}}}'
        for name, (dims, values) in inputs.items()
    )
    version = 2 if '"convolve"' in expr else 1
    return (
        f'{{"version":{version},"workers":{workers},"block":{BLOCK},'
        f'"inputs":{{{members}}},"expr":{expr}}}'
    )


def nest(count, front, inner, back):
    return front * count + inner + back * count


def squares(times, expr, lowest_bit=0, bound=2**63):
    """Returns a request over squares of 64 by 64 numbers, repeated `times` along both axes."""
    a, b = SQUARE.format(times), SQUARE.format(times).replace('"a"', '"b"')
    inputs = {"a": ([64, 64], [it | lowest_bit for it in numbers(4096, 3, bound)])}
    if "{b}" in expr:
        inputs["b"] = [64, 64], numbers(4096, 4, bound)
    return inputs, expr.replace("{a}", a).replace("{b}", b)


def sums_of_three(axis):
    """Returns sums of x*y+x along an axis of 128 by 128 by 64 places, added up."""
    a = '["broadcast","a",[8,8,4]]'
    b = a.replace('"a"', '"b"')
    inputs = {"a": ([16] * 3, numbers(4096, 3)), "b": ([16] * 3, numbers(4096, 4))}
    return inputs, whole(f'["sum",["add",["mul",{a},{b}],{a}],[{axis}]]')


def cubes(dims, times, expr):
    return {"a": (dims, numbers(math.prod(dims), 5))}, expr.replace(
        "{a}", f'["broadcast","a",{listed(times)}]'
    )


def convolved(dims, times, kernel):
    """Returns the sum of a convolution of numbers, repeated along each axis, with a kernel."""
    places, weights = 64 ** len(dims), kernel ** len(dims)
    axes = listed(range(len(dims)))
    inputs = {"a": (dims, numbers(places, 7)), "k": ([kernel] * len(dims), numbers(weights, 8))}
    return inputs, f'["sum",["convolve",["broadcast","a",{listed(times)}],"k",{axes}],{axes}]'


def whole(expr):
    return f'["sum",{expr},[0,1]]'


def added(count, bound=2**63):
    """Returns a request that adds two lists of `count` numbers, and prints the sums."""
    inputs = {"a": ([count], numbers(count, 1, bound)), "b": ([count], numbers(count, 2, bound))}
    return inputs, '["add","a","b"]'


def worked_out(places):
    """Returns (x + x) * x over `count` places, added up. The text has at most 64 numbers."""
    count = min(places, 64)
    a = LINE.format(places // count)
    return {"a": ([count], numbers(count, 6))}, f'["sum",["mul",["add",{a},{a}],{a}],[0]]'


def nested():
    return {"a": ([MOST_PLACES], [1] * MOST_PLACES)}, nest(124, '["add","a",', '"a"', "]")


CHIP = '["chip",["slice",["reverse",{a},[true,true,false]],[1,1,0],[1023,511,2]],1,2]'
CONTRACTED = '["contract",["add",{{a}},{{b}}],["mul",{{a}},{{b}}],{}]'
# By name: what a request is, and its inputs and expression.
REQUESTS = {
    "numbers-2": ("2 numbers and 2, added", lambda: added(2)),
    "numbers-40000": ("40,000 numbers and as many, added", lambda: added(40_000)),
    "numbers-400000": ("400,000 numbers and as many, added", lambda: added(400_000)),
    "nested-124": ("124 sums of a list, nested", nested),
    "sums-20": (
        "20 sums in a chain",
        lambda: squares(16, whole(nest(20, '["add",', "{a}", ",{a}]"))),
    ),
    "products-20": (
        "20 products in a chain",
        lambda: squares(16, whole(nest(20, '["mul",', "{a}", ",{a}]"))),
    ),
    "select": (
        "a select over a comparison",
        lambda: squares(16, whole('["select",["lt",{a},{b}],{a},{b}]')),
    ),
    "sum": ("the sum of all", lambda: squares(16, whole("{a}"))),
    "sum-of-products": (
        "the sum of all of x*y",
        lambda: squares(16, whole('["mul",{a},{b}]')),
    ),
    "greatest-of-products": (
        "the greatest of all of x*y",
        lambda: squares(16, '["maximum",["mul",{a},{b}],[0,1]]'),
    ),
    "products-over-the-first": (
        "sums of x*y+x over the first axis",
        lambda: squares(16, '["sum",["add",["mul",{a},{b}],{a}],[0]]'),
    ),
    "products-over-the-second": (
        "sums of x*y+x over the second axis",
        lambda: squares(16, '["sum",["add",["mul",{a},{b}],{a}],[1]]'),
    ),
    "products-over-the-first-of-three": (
        "sums of x*y+x over the first of three axes",
        lambda: sums_of_three(0),
    ),
    "products-over-the-middle-of-three": (
        "sums of x*y+x over the middle of three axes",
        lambda: sums_of_three(1),
    ),
    "products-over-the-last-of-three": (
        "sums of x*y+x over the last of three axes",
        lambda: sums_of_three(2),
    ),
    "sums-over-the-first": ("sums over the first axis", lambda: squares(16, '["sum",{a},[0]]')),
    "sums-over-the-second": ("sums over the second axis", lambda: squares(16, '["sum",{a},[1]]')),
    # Of odd numbers: others would soon have the product 0.
    "product": ("the product of all", lambda: squares(16, '["prod",{a},[0,1]]', lowest_bit=1)),
    "inner-product": (
        "an inner product",
        lambda: squares(16, '["contract",{a},{b},[[0,0],[1,1]]]'),
    ),
    "shuffle": (
        "a shuffle of three axes",
        lambda: cubes([10] * 3, [10] * 3, '["sum",["shuffle",{a},[2,0,1]],[0,1,2]]'),
    ),
    "shuffle-six": (
        "a shuffle of six axes",
        lambda: cubes(
            [10] * 3 + [1] * 3,
            [1] * 3 + [10] * 3,
            '["sum",["shuffle",{a},[5,1,4,3,0,2]],[0,1,2,3,4,5]]',
        ),
    ),
    "steps-50": (
        "50 tiny steps",
        lambda: squares(1, whole(nest(50, '["sum",', '"a"', ",[]]"))),
    ),
    "chip": (
        "a chip of a slice of a reverse",
        lambda: cubes([64, 64, 1], [16, 8, 2], whole(CHIP)),
    ),
    "contraction-512": (
        "a contraction of 512 by 512 by 512",
        lambda: squares(8, whole('["contract",{a},{a},[[1,0]]]')),
    ),
    "contraction-1024": (
        "a contraction of 1,024 by 1,024 by 1,024",
        lambda: squares(16, whole('["contract",{a},{a},[[1,0]]]')),
    ),
    "contraction-small": (
        "a contraction of 512, of 32 bits",
        lambda: squares(8, whole('["contract",{a},{a},[[1,0]]]'), bound=2**31),
    ),
    "contraction-operations": (
        "a contraction of 512, of sums and products",
        lambda: squares(8, whole(CONTRACTED.format("[[1,0]]"))),
    ),
    "contraction-turned": (
        "the same of both operands turned",
        lambda: squares(8, whole(CONTRACTED.format("[[0,1]]"))),
    ),
    "contraction-pairs": (
        "a contraction of two pairs of axes",
        lambda: cubes([64, 16, 4], [1, 8, 32], whole('["contract",{a},{a},[[1,1],[2,2]]]')),
    ),
    "convolution-3": (
        "a square of 1,024 under 3 by 3",
        lambda: convolved([64, 64], [16, 16], 3),
    ),
    "convolution-16": (
        "a square of 1,024 under 16 by 16",
        lambda: convolved([64, 64], [16, 16], 16),
    ),
    "convolution-64": (
        "a list of 1,048,576 under 64",
        lambda: convolved([64], [16384], 64),
    ),
}
# By size: requests that are all reading and printing, and requests that are all work.
SIZES = [4**power for power in range(11)]
PRINTED = {size: lambda size=size: added(size, 100_000) for size in SIZES}
WORKED = {size: lambda size=size: worked_out(size) for size in SIZES}
