"""The numbers that benches compute with. A linear congruential generator of the whole range makes them,
as in bench/arrays/rounds.h."""

import numpy

SEED, MULTIPLIER, INCREMENT, ALL = 1, 6_364_136_223_846_793_005, 1_442_695_040_888_963_407, 2**64


def numbers(count):
    """Returns `count` numbers, as an int64 array. The numbers so far give as many further ones at once.

    >>> numbers(2).tolist() == [7806831264735756412, 9396908728118811419 - ALL]
    True
    """
    found = numpy.empty(count, dtype=numpy.uint64)
    found[:1] = (SEED * MULTIPLIER + INCREMENT) % ALL
    many, multiplier, increment = 1, MULTIPLIER, INCREMENT
    while many < count:
        more = min(many, count - many)
        numpy.multiply(found[:more], numpy.uint64(multiplier), out=found[many : many + more])
        found[many : many + more] += numpy.uint64(increment)
        many += more
        increment = (multiplier * increment + increment) % ALL
        multiplier = multiplier * multiplier % ALL
    return found.view(numpy.int64)


def total(array):
    """Returns the sum of an array's values, wrapped, as bench/arrays/rounds.h prints it."""
    return int(numpy.asarray(array).view(numpy.uint64).sum(dtype=numpy.uint64))
