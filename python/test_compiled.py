"""Tests of compiled expressions: the results of calls, the order of arrays, and that an expression is
read only once. They run with the library if it is built, with the reference, and without a library."""

import random
import threading
import unittest
import unittest.mock

import tensor_client as client
from tensor_client import compile, placeholder, tensor, where
from tensor_client import threads
from tensor_client.library import library_of
from asking import by_reference, referring

try:
    import numpy
except ImportError:
    numpy = None


class Ways:
    """Tests with the libraries that are there, and without one."""

    def libraries(self):
        with unittest.mock.patch("tensor_client.compiled.library_of", return_value=None):
            with by_reference() as ask:
                with self.subTest(library="none"), unittest.mock.patch(
                    "tensor_client.compiled.run", lambda it, *_, **more: ask(it, **more)
                ):
                    yield None
        functions, library = referring()
        for name, it in (("reference", library), ("library", library_of())):
            if it is not None:
                with unittest.mock.patch("tensor_client.compiled.library_of", return_value=it):
                    with self.subTest(library=name):
                        yield it
        self.assertEqual(functions.owed, [])


class Compiled(Ways, unittest.TestCase):
    """Compiled expressions and functions, with numpy or without."""

    def test_an_expression(self):
        for _ in self.libraries():
            y, x = placeholder(2, "y"), placeholder((2, 2), "x")
            f = compile(x * 10 - y)
            self.assertEqual(f([1, 2], [[1, 2], [3, 4]]).nested(), [[9, 18], [29, 38]])
            # Arrays are in the order in which the placeholders were made, or are named.
            self.assertEqual(f([0, 5], x=[[1, 2], [3, 4]]).nested(), [[10, 15], [30, 35]])
            self.assertEqual(f(x=[[0, 0], [0, 0]], y=[1, 2]).nested(), [[-1, -2], [-1, -2]])
            self.assertEqual(f(tensor([1, 2]), [[1, 1], [1, 1]]).dims, (2, 2))

    def test_what_is_refused(self):
        for _ in self.libraries():
            f = compile(placeholder(2, "x") + placeholder(2, "y"))
            for wrong in (
                lambda: f([1, 2]),
                lambda: f([1, 2], [1, 2], [1, 2]),
                lambda: f([1, 2], z=[1, 2]),
                lambda: f([1, 2], [1.5, 2]),
                lambda: compile(5),
                lambda: client.run(placeholder(2) + 1),
                lambda: client.request(placeholder(2)),
                lambda: compile(lambda x: 1 if x.sum() > 0 else x)([1, 2]),
            ):
                self.assertRaises(TypeError, wrong)
            for wrong in (lambda: f([1, 2], [1, 2, 3]), lambda: f([1, 2], 3)):
                self.assertRaises(client.ShapeMismatch, wrong)

    def test_constants_and_arguments_alike(self):
        for _ in self.libraries():
            constant = tensor([100, 200])
            x, y = placeholder(2), placeholder(2)
            f = compile(x - y + constant * constant)
            same = tensor([1, 2])
            self.assertEqual(f(same, same).values, [10_000, 40_000])
            self.assertEqual(f(same, [0, 1]).values, [10_001, 40_001])
            self.assertEqual(f(constant, constant).values, [10_000, 40_000])
            self.assertEqual(compile(constant + 1)().values, [101, 201])
            # A function may also have arguments that it doesn't use.
            self.assertEqual(compile(lambda x, y: x * 2)([1], [2, 3]).values, [2])
            self.assertEqual(compile(lambda: constant)().values, [100, 200])

    def test_more_than_ten(self):
        for _ in self.libraries():
            places = [placeholder() for _ in range(12)]
            total = places[11]
            order = 3, 10, 0, 1, 2, 4, 5, 6, 7, 8, 9
            for at in order:
                total = total * 10 + places[at]
            wanted = 11
            for at in order:
                wanted = wanted * 10 + at
            self.assertEqual(compile(total)(*range(12)).item(), wanted)

    def test_a_function(self):
        for library in self.libraries():
            traced = []

            @compile(workers=2)
            def f(x, y=None):
                """What it does."""
                traced.append(x.dims)
                return where(x > y, x, y).sum(axis=0)

            self.assertEqual((f.__name__, f.__doc__), ("f", "What it does."))
            for _ in range(3):
                self.assertEqual(f([1, 5], [3, 4]).item(), 8)
                self.assertEqual(f([[1, 5]], [3, 4]).values, [3, 5])
                self.assertEqual(f(x=[1, 5], y=2).item(), 7)
            self.assertEqual(traced, [(2,), (1, 2), (2,)])

    def test_it_is_read_once(self):
        for library in self.libraries():
            if library is None:
                continue
            x = placeholder(3)
            f = compile(x * 2 + 1)
            with unittest.mock.patch.object(library, "prepare", wraps=library.prepare) as prepared:
                with unittest.mock.patch.object(library, "evaluate", side_effect=AssertionError):
                    for it in range(5):
                        found = f([it, 0, -it])
                        self.assertEqual(found.values, [2 * it + 1, 1, 1 - 2 * it])
            self.assertEqual(prepared.call_count, 1)

    def test_faults(self):
        for library in self.libraries():
            x = placeholder(2)
            wrong = compile(client.Expr("later", [x], dims=(2,)))
            self.assertRaises(client.UnknownOp, wrong, [1, 2])
            if library is not None:
                f = compile(x + 1)
                f([1, 2])
                with unittest.mock.patch.object(library, "run_plan", return_value=-14):
                    self.assertRaises(client.TooLarge, f, [1, 2])
                with unittest.mock.patch.object(library, "run_plan", return_value=-101):
                    self.assertRaises(client.ProgramFailed, f, [1, 2])

    def test_several_threads(self):
        for _ in self.libraries():
            x, wrong = placeholder(4), []
            f, many = compile((x * x).sum()), compile(placeholder(100) * 2)

            def ask(number):
                for it in range(20):
                    if f([number, it, 0, 1]).item() != number**2 + it**2 + 1:
                        wrong.append((number, it))
                    if many([number + it] * 100).values != [2 * (number + it)] * 100:
                        wrong.append((number, it))

            made = [threading.Thread(target=ask, args=(it,)) for it in range(16)]
            for it in made:
                it.start()
            for it in made:
                it.join()
            self.assertEqual(wrong, [])


@unittest.skipIf(numpy is None, "numpy isn't installed")
class Arrays(Ways, unittest.TestCase):
    """Compiled expressions over arrays in each order of memory."""

    def test_arrays_in_each_order(self):
        source = random.Random(7)
        for dims in ((3, 4), (60, 70), (2, 3, 4), (0, 4), (5,)):
            x, y = placeholder(dims), placeholder(dims[-1:])
            array = numpy.arange(numpy.prod(dims)).reshape(dims) * 3
            gaps = numpy.zeros((*dims[:-1], dims[-1] * 2), int)[..., ::2]
            gaps[...] = array
            read_only = array.copy()
            read_only.flags.writeable = False
            orders = [array, numpy.asfortranarray(array), array[..., ::-1], gaps, read_only,
                      array.astype(numpy.int16), array.tolist()]
            line = numpy.arange(dims[-1])
            for _ in self.libraries():
                f = compile(x * 2 - y)
                for _ in range(6):
                    it = source.choice(orders)
                    if isinstance(it, list) and 0 in dims:
                        continue
                    wanted = numpy.asarray(it, dtype=int) * 2 - line
                    found = f(it, line)
                    numpy.testing.assert_array_equal(found.array(), wanted)
                    self.assertEqual(found.nested(), wanted.tolist())

    def test_slices_without_gaps_and_with_gaps(self):
        array = numpy.arange(6_000).reshape(60, 10, 10)
        x = placeholder(array.shape)
        for slices in (
            lambda it: it[2:-3] * 2 + 1,
            lambda it: it[..., 1:] - it[..., :-1],
            lambda it: (it[5:50] - it[4:49]).sum(0),
            lambda it: it[7:7] + it[8:8],
        ):
            wanted = slices(array)
            for _ in self.libraries():
                f = compile(slices(x))
                for it in (array, numpy.asfortranarray(array)):
                    numpy.testing.assert_array_equal(f(it).array(), wanted)
                    numpy.testing.assert_array_equal(client.run(slices(tensor(it))).array(), wanted)
        for _ in self.libraries():
            own = array.copy()
            compile(x[1:] - x[:-1])(own, out=own[1:])
            numpy.testing.assert_array_equal(own[1:], array[1:] - array[:-1])

    def test_arrays_that_take_an_answer(self):
        rows = numpy.arange(4_200).reshape(60, 70)
        x = placeholder((60, 70))
        for _ in self.libraries():
            f = compile(x[::-1] * 2 + 1)
            for out in (numpy.zeros((60, 70), int), numpy.zeros((70, 60), int).T):
                for it in (rows, numpy.asfortranarray(rows)):
                    found = f(it, out=out)
                    numpy.testing.assert_array_equal(out, rows[::-1] * 2 + 1)
                    numpy.testing.assert_array_equal(found.array(), out)
            own = rows.copy()
            f(own, out=own)
            numpy.testing.assert_array_equal(own, rows[::-1] * 2 + 1)
            for wrong in (numpy.zeros((60, 69), int), numpy.zeros((60, 140), int)[:, ::2]):
                self.assertRaises(ValueError, f, rows, out=wrong)
            few, small = compile(placeholder(2) + 1), numpy.zeros(2, int)
            few([1, 2], out=small)
            self.assertEqual(small.tolist(), [2, 3])

    def test_workers(self):
        large = numpy.arange(5_003) * 7
        for _ in self.libraries():
            with unittest.mock.patch.object(threads, "LEAST", 1_000):
                f = compile(placeholder(5_003) * 3 - 1, workers=4)
                for _ in range(2):
                    numpy.testing.assert_array_equal(f(large).array(), large * 3 - 1)

    def test_values_are_those_at_the_call(self):
        few = numpy.array([1, 2])
        for _ in self.libraries():
            few[:] = 1, 2
            f = compile(placeholder(2) * tensor(few))
            self.assertEqual(f(few).values, [1, 4])
            few[0] = 3
            self.assertEqual(f(few).values, [9, 4])
            rows = numpy.array([[1, 2], [3, 4]])
            g = compile(placeholder((2, 2)) + tensor(rows))
            self.assertEqual(g([[0, 0], [0, 0]]).nested(), [[1, 2], [3, 4]])
            rows[0, 1] = 7
            self.assertEqual(g([[0, 0], [0, 0]]).nested(), [[1, 7], [3, 4]])

    def test_an_expression_with_many_nodes(self):
        # Reversing the axes of inputs would take too many nodes, so inputs are copied.
        array = numpy.arange(6).reshape(2, 3)
        x = placeholder((2, 3))
        total = x
        for _ in range(300):
            total = total + x
        for _ in self.libraries():
            self.assertEqual(compile(total)(array).nested(), (array * 301).tolist())


if __name__ == "__main__":
    unittest.main()
