"""Compares contractions with sums of products, at the edges of the sizes from which the program
computes them another way.

Rows, columns and products lie around the numbers from which seven products of halves do for eight,
odd and even, whole tiles and not. Numbers lie at both ends of 64 and of 32 bits, and anywhere. Each
shape is asked for with another of the numbers of workers and blocks below, and with none, one or both
operands computed where the others are parts of inputs. Of each shape every 97th value is compared, of
a third of the shapes the sum of all values, and of another third the sum of each column. Smaller
contractions are over two pairs of axes, along which numbers repeat, in their order or turned, so that
the places of a row's values lie in turns of several lengths. A new shape is a number of a tuple.
"""

import itertools
import random

import pytest

from hostile import line_of, request, run

np = pytest.importorskip("numpy", reason="no numpy (Debian's python3-numpy)")
pytestmark = pytest.mark.usefixtures("programs")

# Rows, columns and products; and of contractions over two pairs of axes the rows and columns, the sizes
# of these axes that are written down, and how often each is repeated.
SIZES = list(itertools.product((255, 256, 289), (258, 1023, 1024, 1281), (255, 256, 513, 769)))
PAIRED = list(itertools.product((3, 5, 33, 70), (2, 7, 19), ((4, 6), (1, 9)), ((16, 5), (3, 31))))
# Which operands are computed.
COMPUTED = ((False, False), (True, True), (True, False), (False, True))
STEP = 97
# How many numbers of a row are written down; they are repeated along it.
PERIOD = 13
SEED = 5
VERSION = 2


def end_of(bits):
    """Numbers at both ends of `bits` bits, and past them by one where there is room."""
    low, high = -(2 ** (bits - 1)), 2 ** (bits - 1) - 1
    past = [low - 1, high + 1] if bits < 64 else []
    return lambda source: source.choice([low, low + 1, -1, 0, 1, high - 1, high, *past])


KINDS = (end_of(64), end_of(32), lambda source: source.randrange(-(2**63), 2**63))
# The kinds of numbers, each with numbers of workers and of places a block, in turns.
TURNS = list(itertools.product(KINDS, ((1, 1_048_576), (2, 1), (3, 1_048_576), (64, 1), (4, 4_096))))


def turn_of(number):
    """The kind of a case's numbers, its workers and places a block, and a source of its own."""
    return *TURNS[number % len(TURNS)], random.Random(f"{SEED} {number}")


def drawn(source, kind, dims):
    """Numbers of a kind: the text of an input, and an array whose arithmetic wraps."""
    numbers = [kind(source) for _ in range(np.prod(dims))]
    text = f'{{"dims":{list(dims)},"data":{numbers}}}'.replace(" ", "")
    return text, np.array(numbers, np.int64).view(np.uint64).reshape(dims, order="F")


def operand(name, drawn_numbers, products, is_computed):
    """An input's entry, an expression of rows in which its numbers repeat, and their array."""
    text, array = drawn_numbers
    rows, times = len(array), -(-products // PERIOD)
    expr = f'["slice",["broadcast","{name}",[1,{times}]],[0,0],[{rows},{products}]]'
    array = np.tile(array, (1, times))[:, :products]
    entry = f'"{name}":{text}'
    return (entry, f'["neg",{expr}]', -array) if is_computed else (entry, expr, array)


@pytest.mark.parametrize("number", range(len(SIZES)), ids=["{} by {} of {}".format(*it) for it in SIZES])
def test_sizes(number):
    (rows, columns, products), (kind, (workers, block), source) = SIZES[number], turn_of(number)
    is_first, is_second = source.choice(COMPUTED)
    a, left, first = operand("a", drawn(source, kind, (rows, PERIOD)), products, is_first)
    b, right, second = operand("b", drawn(source, kind, (columns, PERIOD)), products, is_second)
    whole, places = f'["contract",{left},{right},[[1,1]]]', np.arange(0, rows * columns, STEP)
    values = (first[places % rows] * second[places // rows]).sum(1)
    asked = {f'["stride",["reshape",{whole},[{rows * columns}]],[{STEP}]]': line_of(values, values.shape)}
    if number % 3 == 0:
        asked[f'["sum",{whole},[0,1]]'] = line_of([first.sum(0) @ second.sum(0)], [])
    if number % 3 == 1:
        asked[f'["sum",{whole},[0]]'] = line_of(second @ first.sum(0), [columns])
    for expr, line in asked.items():
        assert run(request(f"{a},{b}", expr, VERSION, workers, block)) == (line, "", 0), expr


def repeated(name, rows, axes, source_and_kind):
    """An input's entry, an expression of rows along two axes in each of which numbers repeat, the array
    of it, and these axes: they stand before the rows or behind them."""
    source, kind = source_and_kind
    is_before = source.random() < 0.5
    dims, times = ((*it, of_rows) if is_before else (of_rows, *it) for it, of_rows in zip(axes, (rows, 1)))
    text, array = drawn(source, kind, dims)
    expr = f'["broadcast","{name}",{list(times)}]'.replace(" ", "")
    return f'"{name}":{text}', expr, np.tile(array, times), (0, 1) if is_before else (1, 2)


@pytest.mark.parametrize("number", range(len(PAIRED)), ids=["{} by {}, {} {}".format(*it) for it in PAIRED])
def test_two_pairs_of_axes(number):
    (rows, columns, *axes), (kind, (workers, block), source) = PAIRED[number], turn_of(number)
    a, left, first, of_first = repeated("a", rows, axes, (source, kind))
    b, right, second, of_second = repeated("b", columns, axes, (source, kind))
    pairs = str([list(it) for it in zip(of_first, of_second)]).replace(" ", "")
    values = np.tensordot(first, second, (of_first, of_second))
    text = request(f"{a},{b}", f'["contract",{left},{right},{pairs}]', VERSION, workers, block)
    assert run(text) == (line_of(values.ravel("F"), values.shape), "", 0)
