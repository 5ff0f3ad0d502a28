"""Tests of memory: which of numpy's arrays are copied and which are refused, where answers are written,
and by how many threads. They are skipped if numpy isn't installed."""

import os
import pickle
import unittest
import unittest.mock

import tensor_client as client
from tensor_client import tensor, where
from tensor_client import threads
from tensor_client.library import POOLS, arrays_of, library_of
from tensor_client.memory import as_memory, memory_for, overlaps, place_of
from tensor_client.requests import Settings, framed
from tensor_client.threads import LEAST, parts_worth, products
from asking import WAYS, referring

try:
    import numpy
except ImportError:
    numpy = None


@unittest.skipIf(numpy is None, "numpy isn't installed")
class Memory(unittest.TestCase):
    """Arrays that are handed over without a copy, arrays that are copied, and arrays that are refused."""

    def shares(self, x, array):
        return numpy.shares_memory(numpy.asarray(x.own), array)

    def test_arrays_that_are_not_copied(self):
        flat = numpy.arange(6)
        large = numpy.arange(6_000)
        for array in (
            flat,
            flat.reshape(2, 3, order="F"),
            flat.reshape(2, 3).T,
            flat[2:4],
            flat.reshape(2, 3),
            large.reshape(60, 100),
            large.reshape(10, 20, 30),
        ):
            x, more = tensor(array), tensor(array) + 1
            self.assertTrue(self.shares(x, array))
            is_kept = x.is_mirrored or array.flags.f_contiguous
            self.assertEqual(numpy.shares_memory(framed(x, Settings()).held[0], array), is_kept)
            self.assertEqual(x.nested(), array.tolist())
            array[...] = 3
            for ask in self.ways():
                self.assertEqual(set(ask(more).values), {4})
            # Writing into the array changes the tensor.
            array[...] = 7
            self.assertEqual(set(x.values), {7})
            numpy.testing.assert_array_equal(x.array(), array)

    def test_arrays_that_are_copied(self):
        flat = numpy.arange(6)
        odd = numpy.frombuffer(bytearray(25), numpy.uint8)[1:].view(numpy.int64)
        read_only = numpy.arange(3)
        read_only.flags.writeable = False
        for array in (
            flat[::2],
            flat.reshape(2, 3)[:, ::2],
            flat.astype(numpy.int32),
            flat.astype(">i8"),
            flat > 2,
            odd,
            numpy.zeros((2, 0), dtype=numpy.int64),
        ):
            x = tensor(array)
            self.assertFalse(self.shares(x, array))
            self.assertEqual(x.nested(), array.astype(int).tolist())
        self.assertEqual(tensor(read_only).values, [0, 1, 2])

    def test_arrays_in_the_common_order(self):
        rows = numpy.arange(5_000).reshape(50, 100)
        blocks = numpy.arange(6_000).reshape(10, 20, 30)
        for array in (rows, blocks, blocks[::2], rows.T):
            x = tensor(array)
            is_kept = array.flags.c_contiguous or array.flags.f_contiguous
            self.assertEqual(numpy.shares_memory(numpy.asarray(x.own), array), is_kept)
            numpy.testing.assert_array_equal(x.array(), array)
            self.assertEqual(x.nested(), array.tolist())
            self.assertEqual(x.values, array.ravel(order="F").tolist())
            numpy.testing.assert_array_equal(pickle.loads(pickle.dumps(x)).array(), array)
        column = numpy.arange(100)
        for ask in self.ways():
            for expr, wanted in (
                (tensor(rows) * 2 + column, rows * 2 + column),
                (tensor(rows) @ tensor(rows).T, rows @ rows.T),
                (tensor(rows).sum(axis=1), rows.sum(axis=1)),
                (tensor(rows)[3:, ::-2], rows[3:, ::-2]),
                (tensor(blocks) - tensor(blocks[::-1].copy()), blocks - blocks[::-1]),
                (tensor(blocks).sum(axis=(0, 2)), blocks.sum(axis=(0, 2))),
                (tensor(rows) + tensor(numpy.asfortranarray(rows)), rows + rows),
                (where(tensor(rows) > 50, tensor(rows), 0), numpy.where(rows > 50, rows, 0)),
            ):
                found = ask(expr)
                numpy.testing.assert_array_equal(found.array(), wanted)
                self.assertEqual(found.nested(), wanted.tolist())

    def ways(self):
        """Returns the ways that are there and hand values over as they lie."""
        for way, (_, is_there, opened) in WAYS.items():
            if is_there and way in ("library", "frames", "reference library"):
                with self.subTest(way=way), opened() as ask:
                    yield ask

    def test_what_others_lend(self):
        flat = numpy.arange(5_000)

        class Lent:
            __array_interface__ = flat.__array_interface__
            of = flat

        class Packed:
            def __dlpack__(self, **more):
                return flat.__dlpack__(**more)

            def __dlpack_device__(self):
                return flat.__dlpack_device__()

        for lent in (Lent(), Packed(), flat.data, flat.reshape(50, 100).data):
            x = tensor(lent)
            self.assertTrue(numpy.shares_memory(numpy.asarray(x.own), flat))
            self.assertEqual(sorted(x.values), flat.tolist())
        self.assertRaises(TypeError, tensor, numpy.ones(2).data)

    def test_memories_that_overlap(self):
        flat = numpy.arange(10)
        for one, other, wanted in (
            (flat, flat, True),
            (flat[:5], flat[4:], True),
            (flat[:5], flat[5:], False),
            (flat[2:3], flat, True),
            (flat[:0], flat, False),
        ):
            for memory, beside in (one.data, other.data), (other.data, one.data):
                self.assertEqual(overlaps(memory, [(place_of(beside), len(beside))]), wanted)

    def test_the_array_of_an_answer(self):
        for way, (_, is_there, opened) in WAYS.items():
            # By lines the values are a text, of which an array is made.
            if not is_there or way in ("process", "lines"):
                continue
            with self.subTest(way=way), opened() as ask:
                for size in (0, 3, 10_000):
                    found = ask(tensor(numpy.arange(size)) * 2)
                    self.assertEqual(found.values, list(range(0, 2 * size, 2)))
                    array = found.array()
                    # Compared by its letter, since numpy has two integer types of 8 bytes.
                    self.assertEqual(array.dtype.char, numpy.dtype(numpy.int64).char)
                    array += 1
                    self.assertEqual(found.values, list(range(1, 2 * size, 2)))
                    again = ask(found - 1)
                    self.assertEqual(again.values, list(range(0, 2 * size, 2)))

    def test_truths_are_kept(self):
        x = tensor(numpy.array([False, True]))
        x.array()[0] = True
        self.assertEqual((x.values, x.truth, x.array().dtype), ([0, 1], True, bool))

    def test_pickled_tensors(self):
        for x in (tensor([[1, 2], [3, 4]]), tensor(numpy.arange(4).reshape(2, 2)), tensor([])):
            again = pickle.loads(pickle.dumps(x))
            self.assertEqual((again.dims, again.values), (x.dims, x.values))

    def test_as_an_array(self):
        x = tensor(numpy.arange(3))
        self.assertEqual(numpy.asarray(x, dtype=float).dtype, float)
        self.assertFalse(self.shares(x, numpy.array(x)))
        self.assertTrue(self.shares(x, numpy.asarray(x)))

    def test_arrays_that_are_refused(self):
        masked = numpy.ma.masked_array([1, 2], mask=[False, True])
        for array in (
            masked,
            numpy.matrix([[1]]),
            numpy.array([1.0]),
            numpy.float64(1),
            numpy.array([1, 2], dtype=object),
            numpy.array([1j]),
            numpy.array(["1"]),
        ):
            self.assertRaises(TypeError, tensor, array)
            if array.dtype.kind in "fc" and array is not masked:
                self.assertEqual((tensor([1, 2]) + array).tolist(), [1 + array, 2 + array])
            else:
                self.assertRaises(TypeError, lambda it: tensor([1, 2]) + it, array)
        self.assertRaises(OverflowError, tensor, numpy.array([2**63], dtype=numpy.uint64))


@unittest.skipIf(numpy is None, "numpy isn't installed")
class Out(unittest.TestCase):
    """Answers that are written into existing arrays."""

    def test_arrays_that_take_an_answer(self):
        flat, rows = numpy.arange(5_000), numpy.arange(5_000).reshape(50, 100)
        for ask in Memory.ways(self):
            for array in (flat, rows, numpy.asfortranarray(rows), flat[:3], rows[:2]):
                wanted = array * 2 + 1
                for out in (numpy.zeros(array.shape, dtype=int), numpy.zeros_like(array)):
                    found = ask(tensor(array) * 2 + 1, out=out)
                    numpy.testing.assert_array_equal(out, wanted)
                    numpy.testing.assert_array_equal(found.array(), wanted)

    def test_an_array_that_is_an_input_too(self):
        for ask in Memory.ways(self):
            for array in (numpy.arange(5_000), numpy.arange(5_000).reshape(50, 100)):
                wanted = array[::-1] - array * 3
                ask(tensor(array)[::-1] - tensor(array) * 3, out=array)
                numpy.testing.assert_array_equal(array, wanted)

    def test_arrays_that_take_none(self):
        x = tensor(numpy.arange(6_000))
        read_only = numpy.arange(6_000)
        read_only.flags.writeable = False
        for ask in Memory.ways(self):
            for out in ([0] * 6_000, numpy.zeros(6_000), numpy.zeros(6_000, ">i8"), read_only):
                self.assertRaises(TypeError, ask, x + 1, out=out)
            gaps, few = numpy.zeros(12_000, int)[::2], numpy.zeros(5_999, int)
            for out in (gaps, few, few[:6_000].reshape(7, 857)):
                before = out.copy()
                self.assertRaises(ValueError, ask, x + 1, out=out)
                numpy.testing.assert_array_equal(out, before)
            wrong = client.Expr("add", [x, tensor(1)])
            self.assertRaises(client.ShapeMismatch, ask, wrong, out=numpy.zeros(1, int))


class Threads(unittest.TestCase):
    """Parts of an answer, on threads."""

    def test_parts_that_are_worth_it(self):
        x = tensor(range(5))
        for size, workers, shared, count in (
            (0, 4, 0, 1),
            (5, 4, 0, 1),
            (LEAST * 3, 8, 0, 3),
            (LEAST * 9, 4, 0, 4),
            (10**6, 1, 0, 1),
            (LEAST * 9, 4, LEAST, 4),
            (LEAST * 9, 4, LEAST * 3, 3),
            (LEAST * 9, 4, LEAST * 5, 1),
            (LEAST * 9, 4, LEAST * 10, 1),
        ):
            self.assertEqual(parts_worth(x + 1, size, workers, lambda it=shared: it), count)
        # Values that more operations make are worth parts of fewer values.
        for operations, size, count in (3, LEAST, 1), (7, LEAST, 2), (19, LEAST, 5), (19, LEAST // 8, 1):
            chain = sum(range(operations), x)
            self.assertEqual(parts_worth(chain, size, 8, lambda: 0), count)
            self.assertEqual(parts_worth(chain, size, 8, lambda it=size: it), 1)
        # For a reduction the combined values count, and for other operations along an axis the result's.
        rows = tensor([0] * LEAST * 3, dims=(LEAST, 3))
        for expr, size, shared, count in (
            (rows.sum(0), 3, 0, 3),
            (rows.sum(1), LEAST, 0, 3),
            (rows.sum(1), LEAST, 2 * LEAST, 1),
            (rows.sum(), 1, 0, 1),
            (rows.argmax(0), 3, 0, 3),
            (rows.argmin(1), LEAST, 0, 3),
            (rows.argmin(1), LEAST, 2 * LEAST, 1),
            (rows.argmax(), 1, 0, 1),
            (rows.cumsum(0), 3 * LEAST, 0, 3),
            (rows.cumprod(1), 3 * LEAST, 3 * LEAST, 1),
            (rows.taken([0] * 96, 1), 96 * LEAST, 0, 8),
            (rows.taken([2, 0], 1), 2 * LEAST, LEAST, 2),
        ):
            self.assertEqual(parts_worth(expr, size, 8, lambda it=shared: it), count)

    def test_sums_of_products(self):
        x = tensor(numpy.ones((6, 4), int) if numpy else [[1] * 4] * 6)
        for expr, wanted in (
            (x, 1),
            (x.sum(), 1),
            (x * x, 1),
            (x @ x.T, 4),
            (client.contract(x, x, [(0, 0), (1, 1)]), 24),
            (client.contract(x, x, []), 1),
            (x.convolve([[1, 2, 3], [4, 5, 6]], 0, 1), 6),
            (client.Expr("contract", [x, client.Expr("later", [x])], [[[0, 0]]]), 1),
        ):
            self.assertEqual(products(expr), wanted)
        # The shared work is little beside this many products.
        self.assertEqual(parts_worth(x @ x.T, LEAST * 4, 4, lambda: LEAST * 4), 4)

    def test_nothing_is_asked_for_one_part(self):
        def asked():
            raise AssertionError

        x = tensor(range(5))
        for size, workers in ((10**6, 1), (2 * LEAST - 1, 8), (0, 4)):
            self.assertEqual(parts_worth(x, size, workers, asked), 1)
        self.assertRaises(AssertionError, parts_worth, x, 2 * LEAST, 2, asked)

    def test_what_parts_share(self):
        for _, library in (referring(), *[(None, it) for it in [library_of()] if it]):
            rows = tensor([[1, 2, 3], [4, 5, 6]])
            for expr, wanted in (
                (rows + 1, 0),
                (rows.reduced("sum", [0]) * 2, 3),
                ((rows * 2).reduced("sum", [0]), 6),
                (rows.contract(rows, [(0, 0)]), 0),
                (rows.contract(rows * 2, [(0, 0)]), 6),
                (rows.cumsum(0), 0),
                ((rows * 2).cumsum(0), 6),
                ((rows * 2).argmax(0) * 2, 6 + 3),
                (rows.taken([1, 0], 1), 0),
            ):
                asked = framed(expr, Settings())
                arrays = arrays_of([as_memory(it) for it in asked.held])
                self.assertEqual(library.shared(asked, arrays), wanted)
            wrong = framed(client.Expr("later", [rows]), Settings())
            arrays = arrays_of([as_memory(it) for it in wrong.held])
            self.assertRaises(client.UnknownOp, library.shared, wrong, arrays)

    @unittest.skipIf(numpy is None, "numpy isn't installed")
    def test_parts_of_answers(self):
        large = numpy.arange(5_003) * 7
        rows = large[:5_000].reshape(50, 100)
        for ask in Memory.ways(self):
            with unittest.mock.patch.object(threads, "LEAST", 1_000):
                for workers in (1, 3, 8):
                    for array in (large, rows):
                        out = numpy.zeros_like(array)
                        ask(tensor(array) * 3 - 1, workers=workers, out=out)
                        numpy.testing.assert_array_equal(out, array * 3 - 1)
                found = ask(tensor(rows).sum(axis=1) * 2, workers=4)
                numpy.testing.assert_array_equal(found.array(), rows.sum(axis=1) * 2)
                for name in "cumsum cumprod argmax argmin".split():
                    for axis in (0, 1):
                        found = ask(getattr(tensor(rows), name)(axis), workers=4)
                        wanted = getattr(rows, name)(axis)
                        numpy.testing.assert_array_equal(found.array(), wanted)

    @unittest.skipIf(numpy is None, "numpy isn't installed")
    def test_columns_of_a_reduction(self):
        array = numpy.arange(1, 5_004) * 7 % 1_001 - 500
        for ask in Memory.ways(self):
            with unittest.mock.patch("tensor_client.library.FEWEST", 1_000):
                for held in array, array[:5_000].reshape(50, 100), array[array != 0], array * 0:
                    for name in "sum prod max min all any".split():
                        expr, wanted = getattr(tensor(held), name)(), getattr(held, name)()
                        for workers in (1, 3, 8):
                            found = ask(expr, workers=workers)
                            self.assertEqual((found.values, found.truth), ([wanted], expr.truth))
                        self.assertEqual(ask(expr, workers=2, version=2).values, [wanted])

    def test_a_pool_stays(self):
        for _, library in (referring(), *[(None, it) for it in [library_of()] if it]):
            with unittest.mock.patch.dict(POOLS, clear=True):
                self.assertEqual(library.pool(), library.pool())
                self.assertEqual([*POOLS], [library.path])
                library.pool_close(library.pool())

    def test_a_fault_of_parts(self):
        for _, library in (referring(), *[(None, it) for it in [library_of()] if it]):
            asked = framed(tensor([1] * 8) + 1, Settings())
            function = library.pool_evaluate, asked.header
            arrays = arrays_of([as_memory(it) for it in asked.held])
            for parts in (1, 4):
                self.assertRaises(
                    client.BadTensor, library.fill, function, arrays, 0, memory_for(8), parts
                )

    @unittest.skipUnless(hasattr(os, "fork") and library_of(), "there is no fork, or no library")
    def test_a_child(self):
        """A child doesn't have its parent's threads, and opens a pool of its own."""
        x = tensor([0] * 2 * LEAST) + 1
        client.run(x, workers=2, way="library")
        self.assertIn(library_of().path, POOLS)
        child = os.fork()
        if not child:
            is_right = not POOLS and client.run(x, workers=2, way="library").values == [1] * 2 * LEAST
            os._exit(0 if is_right and POOLS else 1)
        self.assertEqual(os.waitpid(child, 0)[1], 0)


if __name__ == "__main__":
    unittest.main()
