"""Tests of what the client asks, in each way: all ways give equal answers and faults. The programs and
the library are the repository's own, or the ones that the environment names."""

import os
import re
import unittest

import tensor_client as client
from tensor_client import GREATEST, LEAST, Expr, concat, contract, tensor, where
from tensor_client.faults import FAULTS
from tensor_client.finding import TOP
from asking import OneWay, each_way


# The ways that ask by texts, which have no version 3.
TEXTS = "process", "lines"


def method(expr, operation):
    """Returns the method of an operation. If the name is a word of Python, an underscore follows it. If
    numpy's method of this name means something else, the request's operation has another name."""
    others = {"reshape": "in_dims", "pad": "zeros_around"}
    others.update((it, it + "_") for it in ("not", "and", "or"))
    return getattr(expr, others.get(operation, operation))


def wrapped(value, count):
    """Returns the result of the loop of differences below, by Python's numbers."""
    for it in range(count):
        value = it - (value - GREATEST - it) + 1
    return (value + 2**63) % 2**64 - 2**63


def text_of(name):
    with open(os.path.join(TOP, "docs", name), encoding="utf-8") as text:
        return text.read()


def documented():
    """Returns the operations in the tables of docs/REQUEST.md and docs/FRAMES.md, except `let`, which is
    no method."""
    tables = text_of("REQUEST.md") + text_of("FRAMES.md")
    cells = re.findall(r'(?m)^\| (`\["\w+", [^|]*) \|', tables)
    return {name for cell in cells for name in re.findall(r'"(\w+)"', cell)} - {"let"}


class Asked(OneWay):
    """Answers and faults."""

    def faults(self, fault, number, expr, **settings):
        with self.assertRaises(fault) as raised:
            self.ask(expr, **settings)
        self.assertEqual((raised.exception.number, raised.exception.name), (number, fault.__name__))
        self.assertTrue(str(raised.exception).startswith(f"error {number} {fault.__name__}"))

    def test_without_numpy(self):
        x, y = tensor([[1, 2, 3], [4, 5, 6]]), tensor([[7, 8], [9, 10], [11, 12]])
        for expr, nested in (
            (x, [[1, 2, 3], [4, 5, 6]]),
            (x + x * 2, [[3, 6, 9], [12, 15, 18]]),
            (10 - x, [[9, 8, 7], [6, 5, 4]]),
            (x.sum(), 21),
            (x.sum(0) * 2, [10, 14, 18]),
            (x.sum([]), [[1, 2, 3], [4, 5, 6]]),
            (x.shuffle(1, 0), [[1, 4], [2, 5], [3, 6]]),
            (contract(x, y, [(1, 0)]), [[58, 64], [139, 154]]),
            (where(x < 4, x, -1), [[1, 2, 3], [-1, -1, -1]]),
            (x.slice([0, 0], [2, 0]) + 5, [[], []]),
            (x.slice([0, 0], [0, 3]) + 5, []),
            (tensor([]), []),
            (tensor(LEAST) - 1, GREATEST),
            (x.stride(1, 2), [[1, 3], [4, 6]]),
            (x.stride(2, GREATEST), [[1]]),
            (x.pad([(0, 1), (1, 0)]), [[0, 1, 2, 3], [0, 4, 5, 6], [0, 0, 0, 0]]),
            (concat(x, [[7], [8]], 1), [[1, 2, 3, 7], [4, 5, 6, 8]]),
            (x.concat(x * 2, 0).chip(2, 0), [2, 4, 6]),
            (x.convolve([10, 1], 1), [[12, 23], [45, 56]]),
            (x.convolve([[1, 10], [100, 1000]], 1, 0), [[5241, 6352]]),
            (x.convolve(2), [[2, 4, 6], [8, 10, 12]]),
            (x.cumsum(1) - x.cumprod(axis=0), [[0, 1, 3], [0, -1, -3]]),
            (x.argmax(1) + (x * x).argmin(1), [2, 2]),
            (x.take([2, 0, -3, 1], 1), [[3, 1, 1, 2], [6, 4, 4, 5]]),
            (x.taken([2, 0, -3, 3], 1), [[3, 1, 0, 0], [6, 4, 0, 0]]),
            (x[(x - 3).argmin(1)], [[1, 2, 3], [1, 2, 3]]),
            (tensor([1, 2]).reshape([1] * 7 + [2]).sum(), 3),
        ):
            self.assertEqual(self.ask(expr).nested(), nested)
            self.assertEqual(self.ask(expr, workers=3, block=2).nested(), nested)
            self.assertEqual(self.ask(expr, workers=256, block=1).nested(), nested)

    def test_truth_is_kept(self):
        mask = self.ask(tensor([1, 5, 9]) > 3)
        self.assertEqual(self.ask(~mask & (tensor([1, 0, 1]) == 1)).values, [1, 0, 0])
        self.assertFalse(self.ask(tensor([1, 5]) + 1).truth)

    def test_many_tensors(self):
        # In the order of names, x10 is the third of x0 to x11.
        parts = [tensor([it, -it], dims=(2,)) for it in range(12)]
        found = self.ask(client.stack(parts, axis=1))
        self.assertEqual(found.nested(), [list(range(12)), [-it for it in range(12)]])
        again = self.ask(found - found.chip(0, 0).sum())
        self.assertEqual(again.values[-2:], [11 - 66, -11 - 66])

    def test_dims_that_are_not_known_here(self):
        x = tensor([[1, 2, 3], [4, 5, 6]])
        for expr, nested in (
            (Expr("sum", [x], [[0]]), [5, 7, 9]),
            (Expr("neg", [x], dims=(1, 2)), [[-1, -2, -3], [-4, -5, -6]]),
            (Expr("chip", [x], [0, 1], dims=(7, 5)), [1, 4]),
            (Expr("neg", [tensor(7)], dims=(10**12,)), -7),
            (Expr("sum", [tensor([])], [[0]]), 0),
        ):
            self.assertEqual(self.ask(expr).nested(), nested)

    def test_faults_of_a_request(self):
        x, y = tensor([1, 2]), tensor([1, 2, 3])
        self.faults(client.BadVersion, 4, x, version=1000)
        for workers in (0, 1000, -1, 257):
            self.faults(client.BadWorkers, 5, x, workers=workers)
        self.faults(client.BadWorkers, 5, x, workers=65, version=1)
        for block in (0, 2**40):
            self.faults(client.BadBlock, 6, x, block=block)
        self.faults(client.BadTensor, 7, tensor([1], [1] * 7), version=1)
        self.faults(client.UnknownOp, 9, Expr("div", [x, x]))
        for expr in (x.stride(1), x.pad([(1, 1)]), concat(x, y, 0), y.convolve(x, 0)):
            self.faults(client.UnknownOp, 9, expr, version=1)
        self.faults(client.BadArity, 10, Expr("add", [x]))
        self.faults(client.BadArgument, 11, Expr("chip", [x], [-1, 0]))
        self.faults(client.ShapeMismatch, 12, Expr("add", [x, y]))
        self.faults(client.OutOfRange, 13, Expr("sum", [x], [[1]]))
        self.faults(client.TooLarge, 14, Expr("broadcast", [x], [[2**20]]))
        self.faults(client.TooLarge, 14, x.reshape([1] * 6 + [2]), version=1)
        self.assertEqual(self.ask(x).values, [1, 2])
        self.assertEqual(self.ask(x.cumsum(0) * x.argmax(), version=2).values, [1, 3])

    def test_nesting(self):
        deep, sums, mixed, products = tensor(1), tensor(1), tensor(LEAST), tensor(3)
        for _ in range(126):
            deep = -deep
        for _ in range(200):
            sums, products = sums + tensor(1), products * tensor(3)
        for it in range(90):
            mixed = tensor(it) - (mixed - GREATEST - tensor(it)) + 1
        self.assertEqual(self.ask(deep).values, [1])
        self.assertEqual(self.ask(sums).values, [201])
        self.assertEqual(self.ask(mixed).values, [wrapped(LEAST, 90)])
        self.assertEqual(self.ask(products).values, [(3**201 + 2**63) % 2**64 - 2**63])
        for _ in range(300):
            deep = -(deep * 3 + 1)
        value = 1
        for _ in range(300):
            value = -(value * 3 + 1)
        self.assertEqual(self.ask(deep).values, [(value + 2**63) % 2**64 - 2**63])
        parts = 501 if self.way in TEXTS else 5_001
        joined = self.ask(client.concatenate([[it] for it in range(parts)]))
        self.assertEqual(joined.values, list(range(parts)))

    def test_every_fault_of_the_table_is_a_class(self):
        table = re.findall(r"(?m)^\| (\d+) \| (\w+) \| ", text_of("REQUEST.md"))
        self.assertEqual(
            {(int(number), name) for number, name in table},
            {(it.number, it.name) for it in FAULTS.values()},
        )


each_way(globals(), Asked)

if __name__ == "__main__":
    unittest.main()
