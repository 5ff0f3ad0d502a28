"""Random arrays for the tests, equal at each run, and the comparison of results over them with
numpy's."""

import random

from tensor_client import GREATEST, LEAST
from asking import OneWay

try:
    import numpy
except ImportError:
    numpy = None

TRIALS = 4


class Random:
    """Arrays of random dims and values, in either order of memory, equal at each run."""

    def __init__(self, seed):
        self.source = random.Random(seed)

    def upto(self, most):
        return self.source.randrange(most + 1)

    def dims(self, least=0):
        return [self.upto(3) + least for _ in range(self.upto(4))]

    def array(self, dims):
        near = [-2, -1, 0, 0, 1, 2, LEAST, GREATEST]
        count = int(numpy.prod(dims, dtype=int))
        values = [
            self.source.choice([self.source.randrange(LEAST, GREATEST + 1), *near])
            for _ in range(count)
        ]
        return numpy.array(values, dtype=numpy.int64).reshape(dims, order="CF"[self.upto(1)])

    def some(self, count):
        """A list of some of this many axes, in any order."""
        return self.source.sample(range(count), self.upto(count))

    def index(self, dim):
        """A number or a slice, of either sign, for an axis of this many places."""
        if self.upto(2) == 0:
            return self.source.randrange(-dim, dim)
        ends = [self.source.choice([None, self.source.randrange(-dim - 1, dim + 2)]) for _ in "ab"]
        return slice(*ends, self.source.choice([None, 1, 2, 3, -1, -2]))

    def indices(self, dims):
        """Indices of several forms, for these dims."""
        full = tuple(map(self.index, dims))
        yield full
        yield full[0]
        yield full[:1]
        yield (..., full[-1])
        yield (full[0], ..., None, full[-1])
        yield (None, *full[:2])

    def request(self):
        return {"workers": 1 + self.upto(3), "block": 1 + self.upto(8)}


class ByNumpy(OneWay):
    """Compares expressions over random arrays with numpy's results."""

    def agree(self, expr, wanted, source):
        found = self.ask(expr, **source.request())
        self.assertEqual(found.dims, expr.dims)
        self.assertEqual(found.dims, wanted.shape)
        numpy.testing.assert_array_equal(found.array(), wanted.astype(numpy.int64))

    def each_trial(self, operation):
        for trial in range(TRIALS):
            with self.subTest(operation=operation, trial=trial):
                yield Random(f"{operation} {trial}")
