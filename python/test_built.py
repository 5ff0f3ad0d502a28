"""Tests of what the client makes without a program: tensors, expressions, texts, and errors when an
expression is written."""

import importlib.util
import inspect
import os
import pathlib
import pickle
import shutil
import subprocess
import sys
import tempfile
import unittest
from importlib import metadata

import tensor_client as client
from tensor_client import GREATEST, LEAST, Expr, concat, contract, full, tensor, where
from tensor_client.faults import fault_made
from tensor_client.requests import VERSIONS, Settings, framed
from test_asked import documented, method

HERE = os.path.dirname(os.path.realpath(__file__))
# A user's program, whose types have to be right.
USER = """
from typing import Callable

import tensor_client as tc
from tensor_client import Session, Tensor, einsum, run, tensor, where

x = tensor([[1, 2], [3, 4]])
y = (x @ x.T + 2 * x - x[0] * 3)[:, ::-1].clip(0, 5).reshape(4, order="F")
rows, columns = x.shape
most: int = int(run(y.max(axis=0, keepdims=True))) + rows * columns
x.sum(axes=0)  # type: ignore[call-arg]
tc.max(x, axes=0)  # type: ignore[call-arg]
chosen: tc.Expr = x[0].T.at[0].set(5) + tc.maximum.reduce(x) - tc.clip(x, 0, 1).squeeze()
order: Tensor = tc.sort(x[x > 1])
found: Tensor = run(where(~(x > 2) & (x != 0), x, -x), workers=2, timeout=1.5)
half: float = (x * 0.5).sum()
no_number: int = x * 2  # type: ignore[assignment]
no_text: str = tc.unique(x)  # type: ignore[assignment]
no_rows: str = tc.atleast_2d(x)  # type: ignore[assignment]
no_grid: str = tc.meshgrid(x, x)[0]  # type: ignore[assignment]
no_places: str = tc.bincount(x[0])  # type: ignore[assignment]
total: int = sum(found.values) + run(tc.sum(x)).item()
if (x == x.T).all():
    most = int(tc.cumsum(x, axis=1).max()) + x.argmax().item()
times: Callable[..., Tensor] = tc.compile(x * tc.placeholder((2, 2)), workers=2)
again: Tensor = times([[1, 2], [3, 4]])
with Session(workers=4, way="frames") as s:
    part = s.keep(einsum("ij,jk->ik", x, x))
    print(s.run(part**2).nested(), len(part), most, total)
"""


class Built(unittest.TestCase):
    """What is made without the program."""

    def test_every_operation_is_a_method(self):
        for operation in documented():
            self.assertTrue(callable(method(tensor(1), operation)))

    def test_lists(self):
        for nested, dims, values in (
            (5, (), [5]),
            ([], (0,), []),
            ([[], []], (2, 0), []),
            ([[1, 2, 3], [4, 5, 6]], (2, 3), [1, 4, 2, 5, 3, 6]),
            ([[[1, 2], [3, 4]], [[5, 6], [7, 8]]], (2, 2, 2), [1, 5, 3, 7, 2, 6, 4, 8]),
        ):
            made = tensor(nested)
            self.assertEqual((made.dims, made.values, made.nested()), (dims, values, nested))
        self.assertEqual(tensor([1, 4, 2, 5, 3, 6], (2, 3)).nested(), [[1, 2, 3], [4, 5, 6]])

    def test_values_that_are_refused(self):
        for value in (1.0, [1.5], "1", ["1"], None, [[1], 2][::-1], tensor(1) + 1, [tensor(1) + 1]):
            self.assertRaises(TypeError, tensor, value)
        for value in (GREATEST + 1, [0, LEAST - 1], 10**5000):
            self.assertRaises(OverflowError, tensor, value)
        for value in ([[1], 2], [[1, 2], [3]], [[[1]], [2]]):
            self.assertRaises(ValueError, tensor, value)
        self.assertEqual(tensor([LEAST, GREATEST]).values, [LEAST, GREATEST])
        self.assertEqual(tensor([True, False]).values, [1, 0])
        for values in (range(5), range(9, -9, -4), range(LEAST, 2**63, 2**62), range(0)):
            self.assertEqual(tensor(values).values, list(values))
        far = range(LEAST, 2**63, 2**64 - 1)
        self.assertEqual(tensor(far).values, [LEAST, GREATEST])
        for values in (range(2**63, 2**63 + 2), range(0, 2**64, 2**63)):
            self.assertRaises(OverflowError, tensor, values)
        for values, dims in (([1, 2, 3], (2, 2)), ([1], [3]), ([], [])):
            self.assertRaises(client.BadTensor, tensor, values, dims)

    def test_arguments_that_are_refused(self):
        x = tensor([[1, 2]])
        for refused in (
            lambda: x.chip(True, 0),
            lambda: x.chip(1.5, 0),
            lambda: x.reverse(0, 1),
            lambda: x.sum("0"),
            lambda: contract(x, x, [(0, False)]),
            lambda: client.request(x, workers=True),
            lambda: where("1", 2, 3),
            lambda: 1 if x < 2 else 0,
            lambda: 1 if x else 0,
            lambda: list(tensor(1)),
            lambda: x.sum(out=[]),
            lambda: x.clip(0, 1, out=[]),
            lambda: pow(x, 2, 3),
            lambda: len(tensor(1)),
            lambda: [1, 2, 3][tensor([1])],
            lambda: [1, 2][tensor(True)],
            lambda: x[True],
            lambda: x["a"],
        ):
            self.assertRaises(TypeError, refused)
        for refused in (lambda: x.max(axes=0), lambda: client.max(x, axes=0)):
            self.assertRaisesRegex(TypeError, "maximum has no axes=: its axes are axis=", refused)
        self.assertRaises(OverflowError, lambda: x + 2**63)
        self.assertRaises(OverflowError, lambda: x.sum(2**63))

    def test_faults_where_they_are_written(self):
        x, y = tensor([[1, 2, 3], [4, 5, 6]]), tensor([1, 2])
        wide, long = tensor([[1]]).broadcast(16_384, 16_384), tensor([1]).broadcast(2**28)
        for fault, refused in (
            (client.TooLarge, lambda: wide @ wide.slice([0, 0], [16_384, 4_097])),
            (client.TooLarge, lambda: long.convolve(long.slice([0], [4_097]), 0)),
            (client.ShapeMismatch, lambda: x + y),
            (client.ShapeMismatch, lambda: where(x > 1, x, y)),
            (client.ShapeMismatch, lambda: x.broadcast(2)),
            (client.OutOfRange, lambda: x.broadcast(2, 0)),
            (client.TooLarge, lambda: x.broadcast(2**27, 1)),
            (client.ShapeMismatch, lambda: x.slice([0], [1])),
            (client.OutOfRange, lambda: x.slice([0, 2], [1, 2])),
            (client.BadArgument, lambda: x.slice([0, -1], [1, 1])),
            (client.ShapeMismatch, lambda: x.shuffle(0)),
            (client.OutOfRange, lambda: x.shuffle(0, 0)),
            (client.ShapeMismatch, lambda: x.reshape(4, 2)),
            (client.ShapeMismatch, lambda: x.reshape(4, -1)),
            (client.BadArgument, lambda: x.reshape(-1, -1)),
            (client.TooLarge, lambda: y.reshape([1] * 8 + [2])),
            (client.OutOfRange, lambda: x.chip(0, 9)),
            (client.OutOfRange, lambda: x.chip(2, 0)),
            (client.ShapeMismatch, lambda: x.reverse(True)),
            (client.OutOfRange, lambda: x.sum(5)),
            (client.OutOfRange, lambda: x.sum(axis=(0, -2))),
            (client.OutOfRange, lambda: x.max(axis=2)),
            (client.OutOfRange, lambda: x.stride(0, 1)),
            (client.ShapeMismatch, lambda: x.stride(1)),
            (client.ShapeMismatch, lambda: x.pad([(1, 1)] * 3)),
            (client.BadArgument, lambda: x.pad(-1)),
            (client.ShapeMismatch, lambda: concat(x, y, 0)),
            (client.OutOfRange, lambda: concat(x, x, 2)),
            (client.ShapeMismatch, lambda: contract(x, y, [(1, 0)])),
            (client.OutOfRange, lambda: contract(x, y, [(2, 0)])),
            (client.ShapeMismatch, lambda: x.convolve(y, 0, 1)),
            (client.OutOfRange, lambda: y.convolve([1, 2, 3], 0)),
            (client.OutOfRange, lambda: x.cumsum(2)),
            (client.OutOfRange, lambda: x.argmax(-3)),
            (client.OutOfRange, lambda: x.take([0, 3], 1)),
            (client.OutOfRange, lambda: x.taken([0], 2)),
            (client.TooLarge, lambda: x.taken(full([1] * 8, 0), 0)),
            (client.ShapeMismatch, lambda: x @ x),
            (client.OutOfRange, lambda: x[2]),
            (client.OutOfRange, lambda: x[0, 0, 0]),
            (client.ShapeMismatch, lambda: client.stack([x, y])),
        ):
            with self.assertRaises(fault) as raised:
                refused()
            self.assertIsInstance(raised.exception, ValueError)
            self.assertIn(": ", str(raised.exception))
        for refused in (
            lambda: client.einsum("ij->ik", x),
            lambda: client.concatenate([]),
            lambda: x.reshape(3, 2, order="A"),
            lambda: x**-1,
            lambda: int(x + 1),
            lambda: (x + 1).item(),
            lambda: client.einsum("ij,jk", x),
            lambda: x.pad(1, mode="none"),
            lambda: tensor([]).pad(1, mode="edge"),
            lambda: tensor([]).argmax(),
            lambda: client.split(x, 2, axis=1),
            lambda: client.squeeze(x, 1),
            lambda: client.bincount([1, -1]),
            lambda: client.histogram(x, [3, 1]),
            lambda: client.digitize(x, [1, 3, 2]),
            lambda: client.searchsorted([1], x, side="middle"),
            lambda: client.matrix_power(x, 2),
            lambda: x.pad((1, 2, 3, 4)),
        ):
            self.assertRaises(ValueError, refused)

    def test_faults_keep_their_text(self):
        for fault in (client.ShapeMismatch("why"), client.NotJson(), fault_made(99, "New")):
            again = pickle.loads(pickle.dumps(fault))
            self.assertEqual((str(again), again.number), (str(fault), fault.number))

    def test_one_value(self):
        self.assertEqual((int(tensor([[7]])), tensor(7).item(), bool(tensor([0]))), (7, 7, False))
        self.assertRaises(ValueError, tensor([1, 2]).item)
        self.assertRaises(TypeError, bool, tensor([1, 2]))
        self.assertEqual((len(tensor([[1], [2]])), tensor([[1], [2]]).shape), (2, (2, 1)))

    def test_a_request(self):
        x = tensor([[1, 2], [3, 4]])
        self.assertEqual(
            client.request(where(x < 2, x.shuffle(1, 0), x), workers=3, block=7),
            '{"version":1,"workers":3,"block":7,'
            '"inputs":{"x0":{"dims":[2,2],"data":[1,3,2,4]}},'
            '"expr":["select",["lt","x0",["constant","x0",2]],["shuffle","x0",[1,0]],"x0"]}',
        )

    def test_the_version_that_operations_ask_for(self):
        VERSIONS["later"] = 2
        try:
            text = client.request(-Expr("later", [tensor(1)], [[1]]))
        finally:
            del VERSIONS["later"]
        self.assertIn('"version":2', text)
        self.assertIn('"expr":["neg",["later","x0",[1]]]', text)

    def test_the_version_of_a_request(self):
        x, ones = tensor([1, 2]), full([1] * 6, 1)
        for version, expr, settings in (
            (1, x + x, {}),
            (1, x, {"workers": 64}),
            (1, ones, {}),
            (2, x, {"workers": 65}),
            (2, x.stride(2), {}),
            (2, x.pad([(0, 0)]) + 1, {}),
            (2, concat(x, x, 0).sum(), {}),
            (2, x.convolve([1, 1], 0), {"workers": 64}),
            (2, ones.reshape([1] * 7), {}),
            (2, tensor([1], [1] * 7).sum(), {}),
            (2, ones.reshape([1] * 7).sum(), {}),
            (2, contract(ones, x, []).sum(), {}),
            (1, x.cumsum(0) + x.argmin(), {}),
            (2, x.take([1, 0, 0, 1]) * x.cumprod().max(), {"version": 2}),
            (1, x.stride(2), {"version": 1}),
            (2, x, {"version": 2}),
        ):
            text = client.request(expr, **settings)
            self.assertTrue(text.startswith(f'{{"version":{version},'), text)
        one = tensor([1])
        many = one.broadcast(65_537).convolve(one.broadcast(32_513), 0)
        for version, expr in ((2, one.broadcast(65_536).convolve(one.broadcast(32_512), 0)), (3, many)):
            self.assertIn(b'{"version":%d,' % version, framed(expr, Settings()).header[:14])
        with self.assertRaisesRegex(client.BadVersion, "more than 1,073,741,824 products"):
            client.request(many)

    def test_dims_that_are_known_here(self):
        x = tensor([[1, 2, 3], [4, 5, 6]])
        wide, long = tensor([[1]]).broadcast(16_384, 16_384), tensor([1]).broadcast(2**28)
        for expr, dims in (
            # As many products as there may be, and some fewer.
            (wide @ wide.slice([0, 0], [16_384, 4_096]), (16_384, 4_096)),
            (long.convolve(long.slice([0], [4_096]), 0), (2**28 - 4_095,)),
            (x.stride(1, 2), (2, 2)),
            (x.stride([3, 3]), (1, 1)),
            (x.pad([(1, 0), (2, 3)]), (3, 8)),
            (concat(x, [[7], [8]], 1), (2, 4)),
            (x.concat(x, 0), (4, 3)),
            (Expr("later", [x]) + 1, None),
            (x.convolve([1, 1], 1), (2, 2)),
            (x.convolve([[1], [2], [3]], [1, 0]), (2, 1)),
            (x.convolve(5), (2, 3)),
            (x.cumprod(1), (2, 3)),
            (x.argmin(-1), (2,)),
            (x.argmin(0, keepdims=True), (1, 3)),
            (x.argmax(keepdims=True), (1, 1)),
            (x.taken([[0, 1]], 1), (2, 1, 2)),
            (x.take(tensor(1) + 0, 0), (3,)),
        ):
            self.assertEqual(expr.dims, dims)

    def test_docstrings_have_an_example_each(self):
        names = [it for it in vars(client).items() if not it[0].startswith("_")]
        for kind in (Expr, client.Tensor, client.Session):
            for name in dir(kind):
                if not name.startswith("_"):
                    names.append((f"{kind.__name__}.{name}", getattr(kind, name)))
        for name, it in names:
            if inspect.isfunction(it) or isinstance(it, property):
                self.assertRegex(it.__doc__ or "", ">>> |^As the function `", name)

    def test_short_texts_of_objects(self):
        x = tensor(list(range(1000)))
        self.assertEqual(repr(tensor([1, 2])), "tensor([1, 2])")
        self.assertEqual(repr(x + 1), "<add, dims (1000,), 4 nodes>")
        self.assertEqual(repr(client.placeholder((2, 3), "x")), "<placeholder x, dims (2, 3)>")
        self.assertIn("of 1 arrays", repr(client.compile(client.placeholder(2) + 1)))

    def test_deep_and_wide_trees(self):
        deep = wide = tensor(1)
        for _ in range(20_000):
            deep = -deep
        for _ in range(2_000):
            wide = wide + wide
        self.assertEqual(client.request(deep).count("neg"), 20_000)
        self.assertRaises(client.TooLong, client.request, wide)
        self.assertLess(len(repr(wide)), 80)

    def test_what_is_too_long_says_why(self):
        shared = tensor([1, 2]) * 3
        for _ in range(30):
            shared = shared * shared + shared
        with self.assertRaisesRegex(client.TooLong, "nodes: too many to count.*in parts"):
            client.request(shared)
        many = [tensor(range(2**20 - it)) for it in range(4)]
        with self.assertRaisesRegex(client.TooLong, "bytes.* values in it: the library"):
            client.request(sum((it.sum() for it in many), tensor(0)))
        lots = client.concatenate([tensor(range(2**20 - it)).sum().reshape(1) for it in range(17)])
        with self.assertRaisesRegex(client.TooLong, "values in all.* 16,777,216: run a part"):
            framed(lots, Settings(version=2))
        self.assertIn(b'{"version":3,', framed(lots, Settings()).header[:14])
        for wrong, said in (
            (
                lambda: client.request(client.take(range(10**6), [7, 5, 6] * 9999)),
                "taking 29,997 offsets of 1,000",
            ),
            (lambda: full((300, 99, 99), 1) @ full((300, 99, 99), 1), "run a part at a time"),
            (lambda: full((16_384, 16_385), 1), "run a part at a time"),
            (lambda: full([1] * 9, 1), "reshape some into one"),
        ):
            with self.assertRaisesRegex(client.TooLarge, said):
                wrong()

    def test_chains_are_balanced_where_they_nest_too_deep(self):
        one = tensor(1)
        short, long = one, one
        for _ in range(5):
            short = short + one
        for _ in range(999):
            long = long + one
        self.assertEqual(deepest(client.request(short)), 6)
        text = client.request(long)
        self.assertEqual(text.count("add"), 999)
        self.assertLess(deepest(text), 16)
        self.assertIn('["sub",["add",', client.request(long - one))
        # What a long chain subtracts is summed, and subtracted once.
        mixed, products, bounds = tensor(7), one, one
        for it in range(300):
            mixed = mixed + tensor(it) - (tensor(-it) - one)
            products, bounds = tensor(it) * products, bounds.cwise_max(it)
        text = client.request(mixed)
        self.assertEqual((text.count("sub"), text.count("add")), (1, 899))
        for expr in (mixed, products, bounds, one - (one - long)):
            self.assertLess(deepest(client.request(expr)), 24)


class Installed(unittest.TestCase):
    """The package as others install and use it."""

    def run_in(self, folder, *words, **names):
        env = {**os.environ, "PYTHONDONTWRITEBYTECODE": "1", **names}
        said = subprocess.run(words, cwd=folder, env=env, capture_output=True, text=True)
        self.assertEqual(said.returncode, 0, said.stdout + said.stderr)
        return said.stdout

    @unittest.skipUnless(importlib.util.find_spec("pip"), "there is no pip: nothing was installed")
    def test_pip_without_a_network(self):
        with tempfile.TemporaryDirectory() as folder:
            pip = [sys.executable, "-m", "pip", "install", "--no-index", "--target", folder]
            self.run_in(folder, *pip, HERE)
            told = "import tensor_client as it; print(it.__version__, it.__file__)"
            said = self.run_in("/", sys.executable, "-c", told, PYTHONPATH=folder).split()
            self.assertEqual(said[0], client.__version__)
            self.assertTrue(said[1].startswith(folder), said)
            self.assertIn("py.typed", os.listdir(os.path.dirname(said[1])))
            told = metadata.PathDistribution(next(pathlib.Path(folder).glob("*.dist-info"))).metadata
            self.assertIn("Typing :: Typed", told.get_all("Classifier"))
            self.assertEqual(told["Description-Content-Type"], "text/markdown")
            self.assertIn("# A client in Python\n", told.get_payload())

    @unittest.skipUnless(shutil.which("mypy"), "there is no mypy: no user's types were looked at")
    def test_types_of_a_user(self):
        with tempfile.TemporaryDirectory() as folder:
            with open(os.path.join(folder, "user.py"), "w", encoding="utf-8") as file:
                file.write(USER)
            mypy = ["mypy", "--strict", "--cache-dir", os.devnull, "user.py"]
            self.run_in(folder, *mypy, MYPYPATH=HERE)

    def test_what_is_exported(self):
        self.assertTrue(set(client.__all__) <= set(dir(client)))
        for name, it in vars(client).items():
            if not inspect.ismodule(it) and not name.startswith("_"):
                self.assertIn(name, client.__all__)


def deepest(text):
    """Returns how many arrays and objects of a text are inside one another."""
    depth = found = 0
    for it in text:
        depth += (it in "[{") - (it in "]}")
        found = max(found, depth)
    return found


if __name__ == "__main__":
    unittest.main()
