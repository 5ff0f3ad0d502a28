"""Tests of the client's operations along one axis. On random arrays, also empty ones, they are compared
with numpy in each way to evaluate, and as texts have them. On arrays of some hundred thousand values
they are computed in parts. The tests are skipped if numpy isn't installed."""

import math
import unittest

import tensor_client as client
from tensor_client import tensor
from tensor_client.rewriting.bindings import ALONG_AN_AXIS
from tensor_client.rewriting.texts import as_in_texts
from asking import OneWay, each_way
from drawn import ByNumpy
from test_asked import TEXTS
from test_sizes import line

try:
    import numpy
except ImportError:
    numpy = None


# Dims with some hundred thousand values: one line, a few long or many short lines, and three axes.
MANY = [(300_007,), (3, 100_003), (61, 71, 83)]


def first_of(array, axis, first):
    """Returns numpy's argmax or argmin; 0 for an empty axis."""
    if array.shape[axis]:
        return first(array, axis)
    return numpy.zeros(array.shape[:axis] + array.shape[axis + 1 :], dtype=numpy.int64)


def taken(array, indices, axis):
    """Returns numpy's take, with 0 for an index out of range: a zero is put after each line."""
    length = array.shape[axis]
    zeros = numpy.zeros_like(array, shape=array.shape[:axis] + (1,) + array.shape[axis + 1 :])
    is_there = (indices >= 0) & (indices < length)
    there = numpy.where(is_there, indices, length)
    return numpy.concatenate([array, zeros], axis).take(there, axis)


@unittest.skipIf(numpy is None, "numpy isn't installed")
class AlongAxes(ByNumpy):
    """Operations along one axis on random arrays, compared with numpy."""

    def along(self, operation, wanted):
        for source in self.each_trial(operation):
            for dims in ([1 + source.upto(2), *source.dims()], [2, 0, 3]):
                array = source.array(dims)
                for axis in range(array.ndim):
                    expr = tensor(array).along(operation, axis)
                    for it in (expr, as_in_texts(expr)):
                        self.agree(it, wanted(array, axis), source)
                if array.size:
                    for axis in (None, 0, -1):
                        expr = getattr(tensor(array), operation)(axis)
                        self.agree(expr, getattr(numpy, operation)(array, axis), source)

    def test_cumsum(self):
        self.along("cumsum", lambda array, axis: array.cumsum(axis))

    def test_cumprod(self):
        self.along("cumprod", lambda array, axis: array.cumprod(axis))

    def test_argmax(self):
        self.along("argmax", lambda array, axis: first_of(array, axis, numpy.argmax))

    def test_argmin(self):
        self.along("argmin", lambda array, axis: first_of(array, axis, numpy.argmin))

    def test_take(self):
        for source in self.each_trial("take"):
            array = source.array([source.upto(3), *source.dims()])
            for axis, length in enumerate(array.shape):
                dims = source.dims()[:2]
                for most in (length, 5):
                    count = int(numpy.prod(dims))
                    numbers = [source.source.randint(-most, most) for _ in range(count)]
                    indices = numpy.array(numbers, dtype=numpy.int64).reshape(dims)
                    for offsets in (tensor(indices), tensor(indices) + 0):
                        expr = tensor(array).taken(offsets, axis)
                        wanted = taken(array, indices, axis)
                        self.agree(expr, wanted, source)
                        self.agree(as_in_texts(expr), wanted, source)
                    # In an expression, negative offsets count from the end too, and others out of range give 0.
                    known = numpy.where(indices < 0, indices + length, indices)
                    expr = client.take(array, tensor(indices) + 0, axis)
                    self.agree(expr, taken(array, known, axis), source)

    def test_take_as_numpy(self):
        for source in self.each_trial("offsets"):
            array = source.array([1 + source.upto(2), 1 + source.upto(2), *source.dims(least=1)])
            for axis, length in [(None, array.size), *enumerate(array.shape)]:
                dims = source.dims()[:2]
                count = int(numpy.prod(dims))
                numbers = [source.source.randrange(-length, length) for _ in range(count)]
                indices = numpy.array(numbers, dtype=numpy.int64).reshape(dims)
                # Texts have no remainder.
                modes = [("raise", 1), ("clip", 3)] + [("wrap", 3)] * (self.way not in TEXTS)
                for mode, most in modes:
                    wanted = numpy.take(array, indices * most, axis, mode=mode)
                    found = client.take(array, indices * most, axis, mode=mode)
                    self.agree(found, numpy.asarray(wanted), source)

    def test_every_operation_is_here(self):
        self.assertLessEqual({f"test_{it}" for it in ALONG_AN_AXIS}, set(dir(self)))


@unittest.skipIf(numpy is None, "numpy isn't installed")
class ManyAlongAxes(OneWay):
    """Operations along one axis on some hundred thousand values, in parts, compared with numpy."""

    def agree(self, expr, wanted):
        for workers in (1, 2, 4):
            found = self.ask(expr, workers=workers).array()
            numpy.testing.assert_array_equal(found, wanted, f"{expr!r} on {workers}")

    def each(self):
        """Yields arrays in both orders of memory, with each of their axes."""
        for dims in MANY:
            values = line(math.prod(dims))
            for order in "CF"[: len(dims)]:
                array = values.reshape(dims, order=order)
                for axis in range(len(dims)):
                    with self.subTest(dims=dims, order=order, axis=axis):
                        yield array, axis

    def test_cumulative(self):
        for array, axis in self.each():
            self.agree(tensor(array).cumsum(axis), array.cumsum(axis))
            # A product of odd numbers isn't 0.
            self.agree(tensor(array | 1).cumprod(axis), (array | 1).cumprod(axis))

    def test_first_places(self):
        for array, axis in self.each():
            # With only five different values, the greatest and the least are at many places.
            for it in (array, array % 5):
                self.agree(tensor(it).argmax(axis), it.argmax(axis))
                self.agree(tensor(it).argmin(axis), it.argmin(axis))

    def test_take(self):
        for array, axis in self.each():
            length = array.shape[axis]
            # Some of the offsets are out of range.
            indices = line(length) % (length + 2) - 1
            self.agree(tensor(array).taken(tensor(indices), axis), taken(array, indices, axis))


each_way(globals(), AlongAxes)
each_way(globals(), ManyAlongAxes, ("library", "frames"))

if __name__ == "__main__":
    unittest.main()
