"""Tests of tensors in place of numpy's arrays: printed, as numbers and truth values, in loops, and in
numpy's own functions."""

import random
import sys
import unittest
import unittest.mock

from tensor_client import Expr, Tensor, tensor
from asking import by_reference

try:
    import numpy
except ImportError:
    numpy = None


def rows(*dims):
    """Numbers of several lengths, as nested lists."""
    source = random.Random(repr(dims))
    if not dims:
        return source.choice([source.randrange(-9, 10), source.randrange(-(10**6), 10**6)])
    return [rows(*dims[1:]) for _ in range(dims[0])]


class Shown(unittest.TestCase):
    """What print and repr show."""

    def test_rows(self):
        x = tensor([[1, -20], [3, 4]])
        self.assertEqual(str(x), "[[  1 -20]\n [  3   4]]")
        self.assertEqual(repr(x), "tensor([[  1, -20],\n        [  3,   4]])")
        self.assertEqual((str(tensor(7)), repr(tensor(7))), ("7", "tensor(7)"))
        self.assertEqual(repr(tensor([[], []])), "tensor([], dims=(2, 0))")
        self.assertEqual(f"{tensor([7]):3}|{x[0]!r}", "  7|<chip, dims (2,), 3 nodes>")
        made = {"tensor": tensor}
        self.assertEqual(eval(repr(x), made).nested(), x.nested())
        self.assertLess(len(repr(tensor(range(10**6)))), 80)

    @unittest.skipIf(numpy is None, "numpy isn't installed")
    def test_rows_as_numpy_shows_them(self):
        for dims in (
            (),
            (3,),
            (60,),
            (2, 3),
            (3, 30),
            (2, 2, 3),
            (2, 1, 2, 2),
            (2000,),
            (1001, 2),
            (8, 200),
            (30, 4, 10),
            (1, 0),
            (1, 1),
        ):
            source = numpy.random.default_rng(sum(dims))
            for most in (10, 10**9, 2**62):
                array = source.integers(-most, most, dims)
                for order in "CF":
                    x = tensor(array.copy(order))
                    with self.subTest(dims=dims, most=most):
                        self.assertEqual(str(x), str(array))
                        if array.size:
                            told = {"separator": ", ", "prefix": "tensor(", "suffix": ")"}
                            shown = numpy.array2string(array, **told)
                            self.assertEqual(repr(x), f"tensor({shown})")


class Values(unittest.TestCase):
    """Expressions and tensors as numbers, as truth values and as lists."""

    def setUp(self):
        asked = by_reference()
        ask = asked.__enter__()
        self.addCleanup(asked.__exit__, None, None, None)
        patched = unittest.mock.patch("tensor_client.running.run", ask)
        patched.start()
        self.addCleanup(patched.stop)

    def test_what_is_run_for_its_value(self):
        d = tensor([[0, 3], [3, 0]])
        if (d == d.T).all():
            self.assertEqual(int(d.max()), 3)
        else:
            self.fail("not the same")
        self.assertFalse((d + d).sum() == 11)
        self.assertEqual([*range(d.max())], [0, 1, 2])
        self.assertEqual("abcd"[d.max()], "d")
        self.assertEqual((d.sum().item(), (d + 1).tolist()), (6, [[1, 4], [4, 1]]))
        self.assertEqual(float(d.sum()), 6.0)
        total = d.sum()
        self.assertEqual(repr(total), "<sum, dims (), 2 nodes>")
        self.assertEqual((f"{total:3d}", repr(total)), ("  6", "<sum, dims (), 2 nodes, ran once>"))
        self.assertEqual((str(total), repr(total)), ("6", "<sum, dims (), 2 nodes, ran 2 times>"))
        self.assertEqual(([*(d + 1)[0]], 4 in d + 1, 9 in d + 1), ([1, 4], True, False))
        for wrong in (lambda: bool(d == d), lambda: bool(d.sum(axis=0))):
            self.assertRaises(TypeError, wrong)
        for wrong in (lambda: int(d), lambda: int(d + 1)):
            self.assertRaises(ValueError, wrong)

    def test_tensors_are_gone_over(self):
        self.assertEqual([*tensor([5, 6])], [5, 6])
        found = [*tensor([[1, 2], [3, 4], [5, 6]])]
        self.assertEqual([it.values for it in found], [[1, 2], [3, 4], [5, 6]])
        self.assertTrue(all(isinstance(it, Tensor) for it in found))
        a, b = tensor([[1, 2], [3, 4]])
        self.assertEqual((a + b).tolist(), [4, 6])
        self.assertTrue(3 in tensor([[1, 2], [3, 4]]) and 7 not in tensor([1]))

    def test_tensors_are_not_written(self):
        x = tensor([1, 2])
        with self.assertRaisesRegex(TypeError, r"x\.at\[i\]\.set\(v\)"):
            x[0] = 5
        y = x
        y += 1
        self.assertEqual((x.values, y.tolist()), ([1, 2], [2, 3]))


@unittest.skipIf(numpy is None, "numpy isn't installed")
class Places(unittest.TestCase):
    """Other values at some places, compared with numpy."""

    def test_places(self):
        source = numpy.random.default_rng(1)
        for dims in ((6,), (3, 4), (2, 3, 4)):
            array = source.integers(-9, 9, dims)
            every = (Ellipsis, 0), (0,), (slice(1, None),), (slice(None, None, -2),), ([0, 1],)
            twice = ([1, 1, 0],), (Ellipsis, [0, 0, 2])
            for index in (*every, *twice, (array > 0,), (array > 99,)):
                with self.subTest(dims=dims, index=index), by_reference() as ask:
                    with unittest.mock.patch("tensor_client.running.run", ask):
                        self.alike(array, index, source)

    def alike(self, array, index, source):
        values = source.integers(-9, 9, array[index].shape)
        for x in (tensor(array), tensor(array) + 0):
            for given in (7, values, tensor(values), tensor(values) * 1):
                wanted, more = array.copy(), array.copy()
                wanted[index] = given
                numpy.add.at(more, index, given)
                numpy.testing.assert_array_equal(x.at[index].set(given), wanted)
                numpy.testing.assert_array_equal(x.at[index].add(given), more)
        numpy.testing.assert_array_equal(tensor(array), array)

    def test_places_by_tensors(self):
        with by_reference() as ask, unittest.mock.patch("tensor_client.running.run", ask):
            x = tensor([[3, 9, 1], [4, 0, 7]])
            found = x.at[x > 3].set(0), x.at[[0, 1], x.argmax(axis=1)].set(5), (x > 3).at[0].set(True)
            self.assertEqual(found[0].tolist(), [[3, 0, 1], [0, 0, 0]])
            self.assertEqual(found[1].tolist(), [[3, 5, 1], [4, 0, 5]])
            self.assertEqual(found[2].tolist(), [[True] * 3, [True, False, True]])
            for wrong in (lambda: x.at[2].set(0), lambda: x.at[tensor([2]) + 0].set(0)):
                self.assertRaises(IndexError, wrong)
            self.assertRaises(ValueError, x.at[0].set, [1, 2])


@unittest.skipIf(numpy is None, "numpy isn't installed")
class Lent(unittest.TestCase):
    """Values that other libraries borrow without a copy, and numbers without a sign."""

    def test_protocols(self):
        array = numpy.arange(6).reshape(2, 3)
        with by_reference() as ask, unittest.mock.patch("tensor_client.running.run", ask):
            for x in (tensor(array), tensor(array) + 0):
                numpy.testing.assert_array_equal(numpy.from_dlpack(x), array)
                self.assertEqual(x.__dlpack_device__(), (1, 0))
                if sys.version_info >= (3, 12):
                    numpy.testing.assert_array_equal(numpy.asarray(memoryview(x)), array)
                self.assertEqual(memoryview(x.__buffer__(0)).tolist(), array.tolist())
            truths = ask(tensor(array) > 2)

            class Taken:
                __array_interface__ = truths.__array_interface__

            numpy.testing.assert_array_equal(numpy.asarray(Taken()), array > 2)
            self.assertEqual(numpy.asarray(truths).dtype, bool)
            self.assertTrue(numpy.shares_memory(numpy.asarray(tensor(array)), array))

    def test_numbers_without_a_sign(self):
        array, many = numpy.arange(-3, 3), numpy.uint64(0x9E3779B97F4A7C15)
        bits, several = many.astype(numpy.int64), numpy.full(6, many)
        with by_reference() as ask, numpy.errstate(over="ignore"):
            for given, like in ((many, bits), (several, several.view(numpy.int64))):
                for call in (
                    lambda it, by: it + by,
                    lambda it, by: by - it,
                    lambda it, by: it * by,
                    lambda it, by: by * it,
                    lambda it, by: it ^ by,
                    lambda it, by: by & it,
                    lambda it, by: it | by,
                    lambda it, by: it == by,
                ):
                    found, wanted = ask(call(tensor(array), given)), call(array, like)
                    numpy.testing.assert_array_equal(found.array(), wanted)
            for wrong in (
                lambda: tensor(array) < many,
                lambda: tensor(array) // many,
                lambda: many % tensor(array),
                lambda: tensor(several),
                lambda: tensor(array) * 2**63,
            ):
                self.assertRaises(OverflowError, wrong)


@unittest.skipIf(numpy is None, "numpy isn't installed")
class Functions(unittest.TestCase):
    """numpy's own functions, over tensors and over expressions that haven't run."""

    def test_tensors_are_arrays(self):
        array = numpy.array([[3, 1, 2], [9, 8, 7]])
        x = tensor(array)
        for call in (
            lambda it: numpy.sort(it),
            lambda it: numpy.mean(it),
            lambda it: numpy.unique(it),
            lambda it: numpy.nonzero(it),
            lambda it: numpy.sum(it, axis=0),
            lambda it: numpy.concatenate([it, it], axis=1),
            lambda it: numpy.vstack([array, it]),
            lambda it: numpy.sqrt(it),
            lambda it: numpy.add(it, 1),
            lambda it: numpy.floor_divide(it, 2),
            lambda it: numpy.bitwise_xor(it, 5),
            lambda it: numpy.add.reduce(it),
            lambda it: numpy.maximum.accumulate(it, axis=1),
            lambda it: numpy.linalg.norm(it),
            lambda it: numpy.array_equal(it, array),
            lambda it: numpy.where(numpy.asarray(it) > 2, it, 0),
            lambda it: numpy.einsum("ij->j", it),
            lambda it: numpy.median(it, axis=1),
            lambda it: numpy.allclose(array, it),
            lambda it: numpy.arange(12)[it],
        ):
            found, wanted = call(x), call(array)
            self.assertNotIsInstance(found, Expr)
            numpy.testing.assert_equal(found, wanted)
        numpy.testing.assert_array_equal(x, array)
        total = numpy.zeros((2, 3), int)
        total += x
        numpy.add(total, x, out=total)
        numpy.testing.assert_array_equal(total, array * 2)
        self.assertEqual(numpy.asarray(x, dtype=float).dtype, float)

    def test_an_operator_is_an_expression(self):
        array = numpy.array([1, 2])
        for x in (tensor([3, 4]), tensor([3, 4]) * 1):
            for found in (
                array + x,
                array - x,
                array * x,
                array @ x,
                array < x,
                array == x,
                numpy.int64(3) - x,
                array**2 * x,
            ):
                self.assertIsInstance(found, Expr)

    def test_what_is_not_answered(self):
        array = numpy.array([[3, 1, 2], [9, 8, 7]])
        x = tensor(array) + 0
        with by_reference() as ask:
            for call in (
                lambda it: numpy.concatenate([it, array], axis=1),
                lambda it: numpy.add(it, 1),
                lambda it: numpy.multiply(array, it),
                lambda it: numpy.where(it > 2, it, 0),
                lambda it: numpy.argmax(it, axis=1),
                lambda it: numpy.argmin(it, axis=0, keepdims=True),
                lambda it: numpy.cumsum(it, axis=1),
                lambda it: numpy.cumprod(it),
                lambda it: numpy.take(it, [[2, 0], [-1, 1]], axis=1),
                lambda it: numpy.take(it, it % 6),
                lambda it: numpy.roll(it, 1),
                lambda it: numpy.pad(it, 1, mode="edge"),
                lambda it: numpy.tensordot(it, it),
                lambda it: numpy.linalg.matrix_power(it[:, :2], 3),
                lambda it: numpy.add.reduce(it),
                lambda it: numpy.floor_divide(array, it),
                lambda it: -array % it,
                lambda it: array >> it,
            ):
                found = call(x)
                self.assertIsInstance(found, Expr)
                numpy.testing.assert_array_equal(ask(found).array(), call(array))
            for call in (
                lambda it: numpy.sqrt(it * it),
                lambda it: numpy.mean(it),
                lambda it: numpy.unique(it),
                lambda it: numpy.add(array, it, out=array.copy()),
                lambda it: numpy.true_divide(array, it),
                lambda it: array / it,
                lambda it: numpy.asarray(it),
                lambda it: array[it > 2],
            ):
                with unittest.mock.patch("tensor_client.running.run", ask):
                    numpy.testing.assert_array_equal(call(x), call(array))
        self.assertRaisesRegex(TypeError, "written", lambda: numpy.sqrt(array, out=x))


if __name__ == "__main__":
    unittest.main()
