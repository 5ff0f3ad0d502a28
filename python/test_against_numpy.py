"""Tests of the client on random arrays: each operation, and each of numpy's ways to use arrays, is
compared with numpy, in each way to evaluate. They are skipped if numpy isn't installed."""

import unittest

import tensor_client as client
from tensor_client import GREATEST, LEAST, concat, contract, full, tensor, where
from tensor_client.rewriting.bindings import ALONG_AN_AXIS
from tensor_client.rules import slid
from asking import WAYS, each_way, only_by
from drawn import ByNumpy
from fuzzing.elementwise import ON_INTEGERS, POINTWISE
from fuzzing.operations import wrap
from test_asked import TEXTS, documented, method

try:
    import numpy
except ImportError:
    numpy = None

# Functions that numpy has from version 2 on.
LATER = {"bitwise_count"}
REDUCTIONS = {
    "sum": lambda a, axes: a.sum(axis=axes),
    "prod": lambda a, axes: a.prod(axis=axes),
    "maximum": lambda a, axes: a.max(axis=axes, initial=LEAST),
    "minimum": lambda a, axes: a.min(axis=axes, initial=GREATEST),
    "all": lambda a, axes: (a != 0).all(axis=axes),
    "any": lambda a, axes: (a != 0).any(axis=axes),
}


def by_numpy(count, meaning, name):
    """Returns numpy's function of an operation on values, or, for an older numpy, one made of its meaning."""
    if name in LATER and not hasattr(numpy, name):
        own = numpy.frompyfunc(lambda *them: wrap(meaning(*them)), count, 1)
        return lambda *arrays: numpy.asarray(own(*arrays))
    return getattr(numpy, name)


def convolved(array, kernel, axes):
    """Convolves by numpy: the parts of an array under each value of the kernel are added up."""
    total = numpy.zeros(slid(array.shape, kernel.shape, axes), dtype=numpy.int64)
    for index in numpy.ndindex(kernel.shape):
        part = [slice(None)] * array.ndim
        for axis, at in zip(axes, index):
            part[axis] = slice(at, at + total.shape[axis])
        total = total + array[tuple(part)] * kernel[index]
    return total


@unittest.skipIf(numpy is None, "numpy isn't installed")
class AgainstNumpy(ByNumpy):
    """Each operation on random arrays, compared with numpy."""

    def of_each(self, operations):
        """Compares operations on values, also for a second operand that may count places."""
        for operation, row in operations.items():
            for source in self.each_trial(operation):
                dims = source.dims()
                arrays = [source.array(dims) for _ in range(row[0])]
                for some in (arrays, [arrays[0], *(it % 70 for it in arrays[1:])]):
                    expr = method(tensor(some[0]), operation)(*map(tensor, some[1:]))
                    with numpy.errstate(all="ignore"):
                        self.agree(expr, by_numpy(*row)(*some), source)

    def test_elementwise(self):
        self.of_each(POINTWISE)

    # Operations that only frames have.
    @only_by(*(it for it in WAYS if it not in TEXTS))
    def test_on_integers(self):
        self.of_each(ON_INTEGERS)

    def test_reductions(self):
        for operation, wanted in REDUCTIONS.items():
            for source in self.each_trial(operation):
                array = source.array(source.dims())
                axes, reduce = source.some(array.ndim), method(tensor(array), operation)
                self.agree(reduce(axes), wanted(array, tuple(axes)), source)
                self.agree(reduce(), wanted(array, None), source)

    def test_constant(self):
        for source in self.each_trial("constant"):
            array, value = source.array(source.dims()), int(source.array([])[()])
            self.agree(tensor(array).constant(value), numpy.full_like(array, value), source)
            self.agree(tensor(array) + value, array + numpy.int64(value), source)
            self.agree(full(array.shape, value), numpy.full_like(array, value), source)

    def test_broadcast(self):
        for source in self.each_trial("broadcast"):
            array = source.array(source.dims())
            counts = [1 + source.upto(2) for _ in array.shape]
            self.agree(tensor(array).broadcast(counts), numpy.tile(array, counts), source)

    def test_slice(self):
        for source in self.each_trial("slice"):
            array = source.array(source.dims())
            offsets = [source.upto(it) for it in array.shape]
            extents = [source.upto(it - offset) for it, offset in zip(array.shape, offsets)]
            part = tuple(slice(it, it + extent) for it, extent in zip(offsets, extents))
            self.agree(tensor(array).slice(offsets, extents), array[part], source)

    def test_shuffle(self):
        for source in self.each_trial("shuffle"):
            array = source.array(source.dims())
            order = source.source.sample(range(array.ndim), array.ndim)
            self.agree(tensor(array).shuffle(order), array.transpose(order), source)

    def test_reshape(self):
        for source in self.each_trial("reshape"):
            array = source.array(source.dims())
            sizes = [1, array.size] if source.upto(1) else list(array.shape[::-1])
            self.agree(tensor(array).reshape(sizes), array.reshape(sizes), source)
            flat = array.reshape(sizes, order="F")
            self.agree(tensor(array).reshape(sizes, order="F"), flat, source)

    def test_chip(self):
        for source in self.each_trial("chip"):
            array = source.array([3, *source.dims(least=1)])
            axis = source.upto(array.ndim - 1)
            offset = source.upto(array.shape[axis] - 1)
            self.agree(tensor(array).chip(offset, axis), array.take(offset, axis), source)

    def test_reverse(self):
        for source in self.each_trial("reverse"):
            array = source.array(source.dims())
            axes = source.some(array.ndim)
            flags = [axis in axes for axis in range(array.ndim)]
            self.agree(tensor(array).reverse(flags), numpy.flip(array, axes), source)

    def test_stride(self):
        for source in self.each_trial("stride"):
            array = source.array(source.dims())
            steps = [1 + source.upto(3) for _ in array.shape]
            part = tuple(slice(None, None, it) for it in steps)
            self.agree(tensor(array).stride(steps), array[part], source)

    def test_pad(self):
        for source in self.each_trial("pad"):
            array = source.array([2, *source.dims()])
            pairs = [(source.upto(2), source.upto(2)) for _ in array.shape]
            self.agree(tensor(array).pad(pairs), numpy.pad(array, pairs), source)

    def test_concat(self):
        for source in self.each_trial("concat"):
            left = source.array([2, *source.dims()])
            axis, dims = source.upto(left.ndim - 1), list(left.shape)
            dims[axis] = source.upto(3)
            right = source.array(dims)
            wanted = numpy.concatenate([left, right], axis)
            self.agree(concat(left, right, axis), wanted, source)
            self.agree(tensor(left).concat(right, axis), wanted, source)

    def test_convolve(self):
        for source in self.each_trial("convolve"):
            array = source.array([2, *source.dims(least=1)])
            axes = source.some(array.ndim)
            kernel = source.array([1 + source.upto(array.shape[axis] - 1) for axis in axes])
            wanted = convolved(array, kernel, axes)
            self.agree(tensor(array).convolve(kernel, axes), wanted, source)

    def test_contract(self):
        for source in self.each_trial("contract"):
            left = source.array(source.dims())
            ours = source.some(left.ndim)
            theirs = source.source.sample(range(len(ours)), len(ours))
            dims = [None] * len(ours) + [1 + source.upto(2)]
            for axis, at in zip(ours, theirs):
                dims[at] = left.shape[axis]
            right = source.array(dims)
            wanted = numpy.asarray(numpy.tensordot(left, right, (ours, theirs)))
            self.agree(contract(left, right, list(zip(ours, theirs))), wanted, source)

    def test_every_operation_is_here(self):
        alone = documented() - {*POINTWISE, *ON_INTEGERS, *REDUCTIONS, *ALONG_AN_AXIS}
        self.assertLessEqual({f"test_{it}" for it in alone}, set(dir(self)))

    def test_operators_with_arrays(self):
        left, right = numpy.array([[1, 2], [3, 4]]), numpy.array([[5, 0], [7, 8]])
        for expr, wanted in (
            (left - tensor(right) * 2, left - right * 2),
            (tensor(left) - right, left - right),
            ((left < tensor(right)) | (tensor(left) == 3), (left < right) | (left == 3)),
            (~(tensor(right) >= 7) & (1 - tensor(left) != 0), ~(right >= 7) & (1 - left != 0)),
            (numpy.int64(3) - tensor(left), 3 - left),
            (where(tensor(left) < right, left, -1), numpy.where(left < right, left, -1)),
            (abs(-tensor(left).sum(0)) * 2, left.sum(0) * 2),
        ):
            numpy.testing.assert_array_equal(self.ask(expr).array(), wanted.astype(numpy.int64))

    def test_arrays_in_and_out(self):
        array = numpy.arange(24, dtype=numpy.int16).reshape(2, 3, 4)
        for it in (array, numpy.asfortranarray(array), array[:, ::-1], array > 5):
            found = numpy.asarray(self.ask(tensor(it)))
            numpy.testing.assert_array_equal(found, it.astype(int))
        self.assertEqual(tensor(array).nested(), array.tolist())
        self.assertEqual(tensor(array.tolist()).values, tensor(array).values)

    def test_broadcasting(self):
        for source in self.each_trial("broadcasting"):
            array = source.array([2, 3, *source.dims(least=1)])
            dims = [1 if source.upto(1) else it for it in array.shape]
            other = source.array(dims[source.upto(2) :])
            self.agree(tensor(array) + other, array + other, source)
            self.agree(tensor(other) * array, other * array, source)
            self.agree(other < tensor(array), other < array, source)
            chosen = numpy.where(other > 0, array, other)
            self.agree(where(tensor(other) > 0, array, other), chosen, source)

    def test_indexing(self):
        for source in self.each_trial("indexing"):
            array = source.array([3, 4, *source.dims(least=1)])
            for index in source.indices(array.shape):
                self.agree(tensor(array)[index], numpy.asarray(array[index]), source)

    def test_reshape_by_both_orders(self):
        for source in self.each_trial("reshape"):
            array = source.array([2, 3, 4, 1 + source.upto(2)])
            for sizes in ([-1], [4, -1], [3, 2, -1, 2], [1, 24, -1, 1]):
                for order in "CF":
                    wanted = array.reshape(sizes, order=order)
                    self.agree(tensor(array).reshape(sizes, order=order), wanted, source)

    def test_named_axes(self):
        for source in self.each_trial("axes"):
            array = source.array([2, 3, 1 + source.upto(2)])
            for name in ("sum", "prod", "max", "min"):
                for axis in (None, 0, -1, (0, -1), (1,)):
                    for keepdims in (False, True):
                        settings = {"axis": axis, "keepdims": keepdims}
                        wanted = numpy.asarray(getattr(array, name)(**settings))
                        self.agree(getattr(tensor(array), name)(**settings), wanted, source)
                        self.agree(getattr(client, name)(array, **settings), wanted, source)
            for name in ("all", "any"):
                wanted = numpy.asarray(getattr(numpy, name)(array, axis=-1, keepdims=True))
                self.agree(getattr(client, name)(array, axis=-1, keepdims=True), wanted, source)

    def test_products(self):
        for source in self.each_trial("products"):
            a, b, c = source.array([3, 4]), source.array([4, 5]), source.array([2, 3, 4])
            x, y = source.array([4]), source.array([2, 4, 5])
            for left, right in ((a, b), (a, x), (x, b), (x, x), (c, b), (c, y), (x, y), (a, y)):
                self.agree(tensor(left) @ right, numpy.asarray(left @ right), source)
                self.agree(left @ tensor(right), numpy.asarray(left @ right), source)
            self.agree(tensor(c).dot(b), c.dot(b), source)
            self.agree(client.tensordot(c, b, 1), numpy.tensordot(c, b, 1), source)
            axes = [1, 2], [0, 1]
            self.agree(client.tensordot(c, a, axes), numpy.tensordot(c, a, axes), source)
            for labels, arrays in (
                ("ij,jk->ik", (a, b)),
                ("ij,jk", (a, b)),
                ("ij,jk->ki", (a, b)),
                ("hij,jk->kh", (c, b)),
                ("ij->ji", (a,)),
                ("ij->", (a,)),
                ("ij,k->kij", (a, x)),
                ("hij,ij->h", (c, a)),
            ):
                wanted = numpy.asarray(numpy.einsum(labels, *arrays))
                self.agree(client.einsum(labels, *arrays), wanted, source)

    def test_functions_of_numpy(self):
        # Only functions that call a method. Others ask an expression for its values, which it refuses.
        for source in self.each_trial("numpy"):
            array = source.array([3, 4])
            x = tensor(array) + 1
            for call in (
                lambda it: numpy.sum(it, axis=0),
                lambda it: numpy.max(it, axis=1, keepdims=True),
                lambda it: numpy.clip(it, -1, 1),
                lambda it: numpy.reshape(it, (4, 3)),
                lambda it: numpy.transpose(it),
            ):
                self.agree(call(x), call(array + 1), source)

    def test_arrays_in_lists(self):
        for source in self.each_trial("lists"):
            arrays = [source.array([2, 3]) for _ in range(3)]
            for listed in (arrays, [it.tolist() for it in arrays], [*map(tensor, arrays)]):
                self.agree(tensor(listed), numpy.array(arrays), source)
            self.agree(tensor([arrays[0] > 0] * 2), numpy.array([arrays[0] > 0] * 2), source)
            self.agree(tensor([*arrays[0][0]]), arrays[0][0], source)


each_way(globals(), AgainstNumpy)

if __name__ == "__main__":
    unittest.main()
