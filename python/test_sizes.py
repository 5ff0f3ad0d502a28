#!/usr/bin/env python3
"""Tests of tensors of more values than the versions of texts have, by the library and by frames, and
by numpy. They are of some millions; `python3 python/test_sizes.py --large` has 2^24 and 2^27 too, which
take some minutes and 8 GB of memory."""

import itertools
import sys
import unittest

import tensor_client as client
from tensor_client import Expr, compile, placeholder, tensor, where
from tensor_client.rules import FIRST_ELEMENTS
from asking import OneWay, each_way, only_by

try:
    import numpy
except ImportError:
    numpy = None

COUNTS = [FIRST_ELEMENTS + 1, 2**21, 2**21 + 1]
LARGE_COUNTS = [2**24, 2**27]


def counts():
    """How many values there are, by turns."""
    return COUNTS + LARGE_COUNTS * ("--large" in sys.argv)


def line(count):
    """Numbers of the whole range, some of them small."""
    values = numpy.arange(count, dtype=numpy.int64)
    values *= 0x9E3779B97F4A7C15 - 2**64
    values >>= values & 31
    return values


def matrix(count):
    """Values in rows of 128, in C order, without an incomplete last row."""
    return line(count)[: count // 128 * 128].reshape(-1, 128)


@unittest.skipIf(numpy is None, "numpy isn't installed")
class Sizes(OneWay):
    """Many values, place by place, moved, combined, and bound."""

    def agree(self, expr, wanted, **settings):
        found = self.ask(expr, **settings).array()
        wanted = numpy.asarray(wanted)
        self.assertEqual(found.shape, wanted.shape)
        self.assertTrue(numpy.array_equal(found, wanted), repr(expr))

    def each(self):
        for count in counts():
            with self.subTest(count=count):
                yield count

    def test_lines(self):
        for count in self.each():
            array = line(count)
            x = tensor(array)
            self.agree(x * 3 - 1, array * 3 - 1, workers=2)
            self.agree(where(x > 0, x, ~x), numpy.where(array > 0, array, ~array), workers=2)
            self.agree(x[::-3], array[::-3])
            self.agree(x[count - 2 :], array[count - 2 :])
            self.agree(client.diff(x), numpy.diff(array))
            self.agree(client.roll(x, 5), numpy.roll(array, 5))
            for name in ("sum", "max", "min"):
                self.agree(getattr(x, name)(), getattr(array, name)(), workers=2)
            for name in ("cumsum", "cumprod", "argmax", "argmin"):
                self.agree(getattr(client, name)(x), getattr(numpy, name)(array), workers=2)
            offsets = array % (2 * count) - count
            self.agree(x[offsets], array[offsets])
            self.agree((x * 2)[tensor(offsets) + 0], array[offsets] * 2, workers=2)

    def test_rows(self):
        for count in self.each():
            array = matrix(count)
            x = tensor(array)
            self.agree(x.T, array.T)
            self.agree(x.sum(axis=0), array.sum(axis=0))
            self.agree(x.max(axis=1), array.max(axis=1))
            self.agree(x - x.min(axis=0), array - array.min(axis=0), workers=2)
            self.agree(x.convolve([1, -2, 1], 1), array[:, 2:] - 2 * array[:, 1:-1] + array[:, :-2])
            self.agree(x[:, :3] @ [1, 10, 100], array[:, :3] @ [1, 10, 100])
            for axis in (0, 1):
                for name in ("cumsum", "cumprod", "argmax", "argmin"):
                    wanted = getattr(numpy, name)(array, axis)
                    self.agree(getattr(x, name)(axis), wanted, workers=2)
                    self.agree(getattr(-x, name)(axis), getattr(numpy, name)(-array, axis))
                offsets = line(1_000) % array.shape[axis]
                self.agree(x.take(offsets, axis), array.take(offsets, axis), workers=2)

    def test_products(self):
        """More products than the versions of texts have. Drawn values of the result are compared, and its
        product with a line."""
        left, right = line(2 * 2_048**2).reshape(2, 2_048, 2_048)
        rows, row = line(64) % 2_048, line(2_048)
        columns = rows[::-1]
        found = self.ask(tensor(left) @ right, workers=4).array()
        self.assertEqual(found.shape, left.shape)
        wanted = (left[rows] * right[:, columns].T).sum(axis=1)
        self.assertTrue(numpy.array_equal(found[rows, columns], wanted))
        self.assertTrue(numpy.array_equal(found @ row, left @ (right @ row)))

    def test_products_under_a_kernel(self):
        array, kernel = line(2**18), line(2**13)
        found = self.ask(tensor(array).convolve(kernel, 0), workers=4).array()
        self.assertEqual(found.shape, (2**18 - 2**13 + 1,))
        for place in range(0, len(found), 9_973):
            self.assertEqual(found[place], array[place : place + 2**13] @ kernel)

    def test_too_many_products(self):
        x = tensor([[1]]).broadcast(16_384, 16_384)
        expr = Expr("contract", [x, x], [[[1, 0]]])
        self.assertRaises(client.TooLarge, self.ask, expr)

    def test_operations_that_are_combined(self):
        """In runs of each length round a piece of 1,024 values, and all together."""
        for length in (0, 1, 3, 1023, 1024, 1025, 2048, 3000):
            array = line(5 * length).reshape(5, length)
            x, wanted = tensor(array), array * (array - 7)
            expr = x * (x - 7)
            for name in ("sum", "prod", "all", "any") + ("max", "min") * (length > 0):
                for axis in (0, 1, None):
                    found = getattr(expr, name)(axis=axis)
                    self.agree(found, getattr(wanted, name)(axis=axis), workers=2)

    def test_shuffles(self):
        for count in self.each():
            cube = line(count)[: count // 1_995 * 1_995].reshape(19, 105, -1)
            x = tensor(cube)
            for order in itertools.permutations(range(3)):
                self.agree(x.transpose(*order), cube.transpose(order), workers=3)
            self.agree(x.transpose(2, 0, 1)[5:-6], cube.transpose(2, 0, 1)[5:-6])
            self.agree(x.cumsum(1) - x.argmax(1)[:, None], cube.cumsum(1) - cube.argmax(1)[:, None])
            self.agree(x[:, [7, 3, 104, 3, -1]], cube[:, [7, 3, 104, 3, -1]])

    def test_what_is_made_large(self):
        for count in self.each():
            row = line(1_000)
            x = tensor(row).broadcast(count // 1_000 + 1)
            self.agree(x[-1_001:], numpy.tile(row, 2)[-1_001:])
            self.agree(x.sum(), (row * (count // 1_000 + 1)).sum())

    def test_what_is_bound(self):
        for count in self.each():
            array = line(count)
            x = tensor(array)
            total = x - x.max()
            self.agree(total * total + x.max(), (array - array.max()) ** 2 + array.max())
            long, wanted = x, array
            for number in range(12):
                long, wanted = long ^ number, wanted ^ number
            for workers in (1, 3):
                self.agree(long * long[::-1], wanted * wanted[::-1], workers=workers)

    def test_arrays_that_take_an_answer(self):
        for count in self.each():
            array = matrix(count)
            for out in (numpy.empty_like(array), numpy.empty(array.shape[::-1], int).T):
                self.ask(tensor(array) + 1, out=out, workers=2)
                self.assertTrue(numpy.array_equal(out, array + 1))

    @only_by("library")
    def test_compiled(self):
        for count in self.each():
            array = line(count)
            x = placeholder(count)
            f = compile((x * 5 - 1)[::-1], workers=2)
            for _ in range(2):
                self.assertTrue(numpy.array_equal(f(array).array(), (array * 5 - 1)[::-1]))


each_way(globals(), Sizes, ("library", "frames"))

if __name__ == "__main__":
    unittest.main(argv=[it for it in sys.argv if it != "--large"])
