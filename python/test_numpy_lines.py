"""Tests of the lines in lines/, as users of numpy write them. Each line gives what numpy gives, or says
why it doesn't. They are skipped if numpy isn't installed."""

import glob
import inspect
import operator
import os
import re
import unittest
import unittest.mock
import warnings

import tensor_client as client
from tensor_client import GREATEST, LEAST, Expr, tensor
from tensor_client.functions import delegated
from asking import OneWay, by_reference, each_way

try:
    import numpy
except ImportError:
    numpy = None

FOLDER = os.path.join(os.path.dirname(os.path.realpath(__file__)), "lines")
# Files whose lines aren't equal for numpy and the client, or go over many values.
OTHERS = "over_many_values", "of_some_versions", "of_numpy", "refused", "array_api"
# Files that are compared once, over tensors and over expressions that haven't run.
OF_USERS = "as_users_write_them", "by_all_arguments", "beside_arrays", "at_the_ends"
DIMS = {"a": (3, 4), "b": (3, 4), "c": (2, 3, 4), "m": (4, 4), "v": 5, "w": 5}
# The client's own functions.
OWN = {"answer", "compile", "contract", "placeholder", "request", "run", "tensor"}


def lines_of(name):
    """Returns the lines of a file, except the first, which says what they are."""
    with open(os.path.join(FOLDER, f"{name}.txt"), encoding="utf-8") as text:
        return text.read().split("\n")[1:-1]


def lines():
    """Returns the lines of all files that are equal for numpy and for the client."""
    names = sorted(os.path.basename(it)[:-4] for it in glob.glob(os.path.join(FOLDER, "*.txt")))
    return [line for it in names if it not in OTHERS + OF_USERS for line in lines_of(it)]


def paired(name):
    """Returns the lines of a file, each with the text after its bar."""
    return [line.rsplit(" | ", 1) for line in lines_of(name)]


def arrays(seed):
    """Returns random arrays: of small numbers at first, and then of the whole range."""
    source = numpy.random.default_rng(seed)
    found = {name: source.integers(-3, 4, dims) for name, dims in DIMS.items()}
    if seed:
        for it in found.values():
            it.flat[:2] = source.permutation([LEAST, GREATEST])
    return {**found, "n": source.integers(0, 4, 6)}


def evaluated(line, module, names):
    """Returns the value of a line, with the names of a module and of arrays. Statements may come before
    the value. They write only into arrays of their own."""
    *statements, value = line.split("; ")
    scope = {"np": module, "numpy": numpy, **names}
    with warnings.catch_warnings(), numpy.errstate(over="ignore"):
        # numpy warns if scalars wrap.
        warnings.simplefilter("ignore")
        exec("\n".join(statements), scope)
        return eval(value, scope)


def parts(found):
    """Returns the items of nested lists, one after another."""
    if isinstance(found, (list, tuple)):
        return [part for it in found for part in parts(it)]
    return [found]


class Alike(OneWay):
    """Compares results with numpy's."""

    def agree(self, found, wanted):
        self.assertEqual(len(parts(found)), len(parts(wanted)))
        for it, by_numpy in zip(parts(found), parts(wanted)):
            by_numpy = numpy.asarray(by_numpy)
            if isinstance(it, Expr):
                answered = self.ask(it)
                self.assertEqual(it.dims, answered.dims)
                it = answered.array()
            self.assertEqual(numpy.shape(it), by_numpy.shape)
            self.assertEqual(numpy.asarray(it).dtype.kind, by_numpy.dtype.kind)
            if by_numpy.dtype.kind in "fc":
                # Sums of fractions depend on the order in memory.
                numpy.testing.assert_allclose(it, by_numpy, rtol=1e-12)
            else:
                numpy.testing.assert_array_equal(it, by_numpy)


@unittest.skipIf(numpy is None, "numpy isn't installed")
class Lines(Alike):
    """Each line over tensors and over arrays, compared with numpy."""

    def test_lines(self):
        for seed in range(2):
            given = arrays(seed)
            tensors = {name: tensor(it) for name, it in given.items()}
            with unittest.mock.patch("tensor_client.running.run", self.ask):
                for line in lines():
                    with self.subTest(line=line, seed=seed):
                        wanted = evaluated(line, numpy, given)
                        self.agree(evaluated(line, client, tensors), wanted)
                        if not seed and line.startswith("np."):
                            self.agree(evaluated(line, client, given), wanted)

    def test_lines_of_numpy(self):
        for seed in range(2):
            given = arrays(seed)
            tensors = {name: tensor(it) for name, it in given.items()}
            with unittest.mock.patch("tensor_client.running.run", self.ask):
                for line in lines_of("of_numpy"):
                    wanted = evaluated(line, numpy, given)
                    for names in (tensors, {name: it + 0 for name, it in tensors.items()}):
                        with self.subTest(line=line, seed=seed):
                            self.agree(evaluated(line, client, names), wanted)

    def test_lines_of_users(self):
        for line in [line for name in OF_USERS for line in lines_of(name)]:
            given = arrays(0)
            tensors = {name: tensor(it) for name, it in given.items()}
            exprs = {name: it + 0 for name, it in tensors.items()}
            wanted = evaluated(line, numpy, given)
            for names in (tensors, exprs):
                with self.subTest(line=line):
                    self.agree(evaluated(line, client, names), wanted)

    def test_names_of_some_versions(self):
        given = arrays(1)
        tensors = {name: tensor(it) for name, it in given.items()}
        for line, other in paired("of_some_versions"):
            with self.subTest(line=line):
                wanted = evaluated(other, numpy, given)
                self.agree(evaluated(line, client, tensors), wanted)
                if hasattr(numpy, line[3:].partition("(")[0]):
                    self.agree(evaluated(line, client, tensors), evaluated(line, numpy, given))


@unittest.skipIf(numpy is None, "numpy isn't installed")
class Many(Alike):
    """Lines over many values, for which the reference would take minutes."""

    def test_lines_over_many_values(self):
        source = numpy.random.default_rng(5)
        given = {
            "g": source.choice([-1, 1], 5_000),
            "h": source.choice([-1, 1], (3, 2_000)),
            "k": source.integers(0, 10, 300_000),
            "t": source.integers(-(2**63), 2**63, 1_000_000, dtype=numpy.int64),
        }
        tensors = {name: tensor(it) for name, it in given.items()}
        for line in lines_of("over_many_values"):
            with self.subTest(line=line):
                wanted = evaluated(line, numpy, given)
                self.agree(evaluated(line, client, tensors), wanted)


class Refused(unittest.TestCase):
    """What is refused, and names that don't exist here."""

    @unittest.skipIf(numpy is None, "numpy isn't installed")
    def test_refused(self):
        given = arrays(0)
        names = {name: tensor(it) for name, it in given.items()}
        with by_reference() as ask, unittest.mock.patch("tensor_client.running.run", ask):
            for line, word in paired("refused"):
                with self.subTest(line=line):
                    with self.assertRaises((TypeError, ValueError, AttributeError)) as raised:
                        evaluated(line, client, names)
                    self.assertIn(word, str(raised.exception))

    def test_no_name_is_refused_without_advice(self):
        x = tensor([1, 2])
        for name in delegated.WRITING:
            for owner in (client, x, x + 1, client.linalg):
                if name != "at":
                    with self.assertRaisesRegex(AttributeError, f"has no '{name}': a tensor isn't"):
                        getattr(owner, name)
        for name in delegated.IN_PLACE:
            with self.assertRaisesRegex(AttributeError, rf"{name}\(x\) is a function"):
                getattr(x, name)

    @unittest.skipIf(numpy is None, "numpy isn't installed")
    def test_each_name_of_numpy(self):
        functions = [it for it in dir(numpy) if callable(getattr(numpy, it, None))]
        refused = delegated.WRITING | delegated.IN_PLACE
        for owner, names in ((client, functions), (tensor(1), dir(numpy.ndarray))):
            for name in names:
                if not name.startswith("_") and name not in refused:
                    self.assertTrue(hasattr(owner, name), name)

    @unittest.skipIf(numpy is None, "numpy isn't installed")
    def test_names_of_the_array_api(self):
        x = tensor([[5]])
        self.assertIs(x.__array_namespace__(), client)
        owners = {"": (client, numpy), "x": (x, x.array())}
        owners.update((it, (getattr(client, it), getattr(numpy, it))) for it in ("linalg", "fft"))
        for name, who in paired("array_api"):
            owner, _, last = name.rpartition(".")
            ours, numpys = owners[owner]
            with self.subTest(name=name):
                if who == "python":
                    self.assertFalse(hasattr(ours, last))
                    self.by_other_methods(last, ours, numpys)
                elif who == "later":
                    self.assertEqual(hasattr(ours, last), hasattr(numpys, last))
                else:
                    self.assertTrue(hasattr(ours, last))
                    self.assertEqual(who != "numpy", ours is not numpys and last in dir(ours))
        self.assertRaises(TypeError, operator.setitem, x, 0, 1)

    def by_other_methods(self, name, x, array):
        """Python's own way with a method that isn't there: by one that isn't in place."""
        if name == "__complex__":
            self.assertEqual(complex(x), complex(array))
        else:
            wanted = getattr(operator, f"__{name[3:]}")(array, array)
            self.assertEqual(getattr(operator, name)(x, x).tolist(), wanted.tolist())

    def test_a_name_that_is_none(self):
        with self.assertRaisesRegex(AttributeError, "'arange'"):
            client.arrange
        with unittest.mock.patch.multiple(delegated, numpy=None):
            for owner in (tensor(1), client.linalg):
                self.assertRaisesRegex(AttributeError, "numpy", getattr, owner, "zzzzz")
            self.assertRaisesRegex(TypeError, "numpy isn't installed", lambda: tensor(1) / 2)
        self.assertFalse(hasattr(client, "no_name_of_this_form"))
        self.assertFalse(hasattr(tensor(1) + 1, "_no_name_of_this_form"))

    def test_every_function_has_a_line(self):
        pairs = (it[0] for it in paired("of_some_versions"))
        text = "\n".join([*lines(), *lines_of("of_numpy"), *pairs])
        for name in client.__all__:
            it = getattr(client, name)
            if inspect.isroutine(it) and name not in OWN:
                self.assertTrue(re.search(rf"\bnp\.(linalg\.)?{name}\(", text), name)


each_way(globals(), Lines, ("library", "frames", "reference library"))
each_way(globals(), Many, ("library", "frames"))

if __name__ == "__main__":
    unittest.main()
