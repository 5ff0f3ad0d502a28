"""Tests of expressions with their axes in reverse order: each operation alone, and random ones, over
inputs in both orders."""

import random
import unittest
from array import array

import tensor_client as client
from tensor_client import tensor
from tensor_client.rewriting.mirrored import MIRRORS, lie_mirrored, mirrored, reversed_axes
from tensor_client.results import Result
from tensor_client.tensors import Tensor
from asking import OneWay, each_way
from fuzzing.elementwise import ON_INTEGERS, POINTWISE
from fuzzing.operations import REDUCTIONS
from test_asked import method

DIMS = (3, 4, 2)
SEED, DRAWN, STEPS = 1, 200, 5
# For each operation, an expression over two tensors of these dims, one of them in C order.
EACH = {
    "constant": lambda x, y: x.constant(5),
    "broadcast": lambda x, y: x.broadcast(2, 1, 3),
    "slice": lambda x, y: x.slice([1, 0, 1], [2, 3, 1]),
    "shuffle": lambda x, y: x.shuffle(1, 2, 0),
    "reverse": lambda x, y: x.reverse(True, False, False),
    "stride": lambda x, y: x.stride(2, 1, 1),
    "pad": lambda x, y: x.zeros_around([(1, 0), (0, 2), (0, 0)]),
    "concat": lambda x, y: x.concat(y, 1),
    "chip": lambda x, y: x.chip(1, 0),
    "reshape": lambda x, y: x.in_dims([4, 6]),
    "contract": lambda x, y: x.contract(y, [(1, 1), (0, 0)]),
    "convolve": lambda x, y: x.convolve(y.slice([0, 0, 0], [2, 3, 1]).in_dims([2, 3]), 0, 1),
    "take": lambda x, y: x.taken(y.chip(1, 2), 1),
}
for name, (count, *_) in {**POINTWISE, **ON_INTEGERS}.items():
    EACH[name] = lambda x, y, it=name, more=count - 1: method(x, it)(*(y, x)[:more])
for reduction in REDUCTIONS:
    EACH[reduction] = lambda x, y, it=reduction: x.reduced(it, [2, 0])
for along in "cumsum cumprod argmax argmin".split():
    EACH[along] = lambda x, y, it=along: x.along(it, 0)


def in_numpys_order(dims, first=0):
    """Returns a tensor of counted values in C order."""
    numbers = array("q", range(first, first + client.rules.product(dims)))
    return Tensor(memoryview(numbers), dims, turned=True)


def in_columns(dims):
    """Returns a tensor of other values, in column-major order."""
    return tensor([it * it % 11 - 5 for it in range(client.rules.product(dims))], dims=dims)


def joined_to(source, x):
    """Returns an operation on an expression and another one."""
    y = in_numpys_order(x.shape, 3) if source.random() < 0.5 else in_columns(x.shape)
    axis = source.randrange(x.ndim)
    return source.choice([x - y, y.concat(x, axis), x.contract(y, [(axis, axis)]), (x < y).select(y, x)])


def longer(source, x):
    """Returns an expression over another one, by a random operation."""
    if x.ndim == 0 or x.ndim > 5 or x.size > 2_000:
        return x.in_dims([x.size])
    axis, order = source.randrange(x.ndim), [*range(x.ndim)]
    source.shuffle(order)
    sizes = [source.randint(min(it, 1), it) for it in x.shape]
    offsets = [source.randint(0, it - size) for it, size in zip(x.shape, sizes)]
    return source.choice(
        [
            lambda: joined_to(source, x),
            lambda: x.shuffle(order),
            lambda: x.slice(offsets, sizes),
            lambda: x.sum(axis),
            lambda: x.along(source.choice(["cumsum", "argmax"]), axis),
            lambda: x.taken(x.in_dims([x.size])[:3] % 5, axis),
            lambda: x.max(axis) - x if axis == 0 else x.reduced("prod", order[:2]),
            lambda: x.reshape(x.shape[0], -1) if x.size else -x,
            lambda: x.in_dims([1, *x.shape]),
            lambda: x.stride([source.randint(1, 2) for _ in order]),
            lambda: x.reverse([it > axis for it in order]),
            lambda: x.zeros_around([(it, 1) for it in order]),
            lambda: x.convolve([1, -2][: x.shape[axis]], axis) if x.shape[axis] else x,
        ]
    )()


class Mirrored(OneWay):
    """Expressions with equal values, and their axes in reverse order."""

    def agree(self, expr):
        found = mirrored(expr)
        self.assertEqual(found.dims, expr.dims[::-1])
        self.assertEqual(found.truth, expr.truth)
        wanted, answer = self.ask(expr), self.ask(reversed_axes(found))
        self.assertEqual((answer.dims, answer.values), (wanted.dims, wanted.values), repr(expr))

    def test_each_operation(self):
        self.assertEqual(set(EACH), set(MIRRORS))
        x, y = in_numpys_order(DIMS), in_columns(DIMS)
        for name, made in EACH.items():
            for expr in made(x, y), made(y, x), made(x, x):
                with self.subTest(name):
                    self.assertEqual(expr.operation, name)
                    self.agree(expr)

    def test_drawn_expressions(self):
        for number in range(DRAWN):
            source = random.Random(f"{SEED} {number}")
            x = in_numpys_order(tuple(source.randint(0, 4) or 1 for _ in range(source.randint(1, 4))))
            for _ in range(STEPS):
                x = longer(source, x)
            with self.subTest(number):
                self.agree(x)


class Asked(unittest.TestCase):
    """Which expressions are asked for with reversed axes, and how."""

    def test_when_it_is_asked_so(self):
        x, few = in_numpys_order((64, 64, 2)), tensor([[[1, 2]]])
        for expr in x.sum(1), x + few, -x, x.sum():
            self.assertTrue(lie_mirrored(expr))
            found = [Result(expr, turned=it).asked(expr) for it in (True, False)]
            self.assertEqual([it.dims for it in found], [expr.dims[::-1], expr.dims])
            self.assertFalse(any(it.turned for it in inputs(found[0])))
        for expr in few + 1, x + in_columns((64, 64, 2)):
            self.assertFalse(lie_mirrored(expr))
            self.assertIs(Result(expr, turned=False).asked(expr), expr)

    def test_what_stands_twice(self):
        total = in_numpys_order((64, 64)).sum(0)
        found = mirrored(total * total)
        self.assertIs(*found.operands)

    def test_what_is_not_known(self):
        x = in_numpys_order((64, 64))
        self.assertIsNone(mirrored(client.Expr("unheard_of", [x])))


def inputs(expr):
    """Returns the tensors of an expression."""
    found, left = [], [expr]
    while left:
        it = left.pop()
        left += it.operands
        if isinstance(it, Tensor):
            found.append(it)
    return found


each_way(globals(), Mirrored, ("library", "frames", "reference library"))

if __name__ == "__main__":
    unittest.main()
