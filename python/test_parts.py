"""Tests of expressions that are longer or deeper than one request may be: loops of some thousand steps,
in each way that is there, compared with Python."""

import time
import unittest
import unittest.mock

import tensor_client as client
from tensor_client import tensor
from tensor_client.rewriting.parts import in_parts
from asking import OneWay, each_way

# The results of the loops are known for this many steps.
FEW, MANY = 120, 1_200


def step(x, add, multiply):
    """Applies a step of a generator of numbers."""
    return x * multiply + add


def loop(x, count, multiply=6364136223846793005, add=1442695040888963407):
    for _ in range(count):
        x = step(x, add, multiply)
    return x


def wrapped(value):
    return (value + 2**63) % 2**64 - 2**63


class Loops(OneWay):
    """Loops that are too long for one request."""

    def test_a_generator_of_numbers(self):
        few = self.way.startswith("reference") or self.way == "process"
        for count in (FEW, MANY if few else 10_000):
            wanted = [wrapped(loop(it, count)) for it in (1, 2, 3)]
            self.assertEqual(self.ask(loop(tensor([1, 2, 3]), count)).values, wanted)

    def test_what_stands_twice(self):
        x, value = tensor([3, 5]), [3, 5]
        for _ in range(200):
            x, value = x * x + x, [wrapped(it * it + it) for it in value]
        self.assertEqual(self.ask(x).values, value)
        self.assertEqual(self.ask((x + x).sum()).item(), wrapped(2 * sum(value)))

    def test_faults(self):
        deep = loop(client.Expr("later", [tensor([1, 2])], dims=(2,)), 200)
        self.assertRaises(client.UnknownOp, self.ask, deep)


class Parts(unittest.TestCase):
    """The number of parts, and the time in which an expression is built."""

    def test_parts(self):
        asked = []

        def ask(expr):
            asked.append((expr.nodes, expr.depth))
            return tensor([0] * len(expr))

        found = in_parts(loop(tensor([1, 2]), 1_000), 300, 100, ask)
        self.assertEqual((found.dims, len(asked)), ((2,), 20))
        self.assertTrue(all(nodes <= 300 and depth <= 100 for nodes, depth in asked))
        self.assertTrue(found.nodes <= 300 and found.depth <= 100)
        few = loop(tensor([1, 2]), 5)
        self.assertIs(in_parts(few, 300, 100, ask), few)

    def test_no_part_is_kept(self):
        kept = []

        def ask(expr):
            found = tensor([0, 0])
            kept.append(found)
            return found

        in_parts(loop(tensor([1, 2]), 1_000), 300, 100, ask)
        self.assertEqual(len({id(it) for it in kept}), len(kept))

    def test_compiled(self):
        x = client.placeholder(2)
        if client.library.library_of():
            found = client.compile(loop(x, 1_000))([1, 2])
            self.assertEqual(found.values, [wrapped(loop(it, 1_000)) for it in (1, 2)])
            with self.assertRaisesRegex(client.TooLarge, "in parts"):
                client.compile(loop(x, 3_000))([1, 2])

    def test_it_is_built_in_line(self):
        def seconds(count):
            began = time.process_time()
            self.assertEqual(loop(tensor([1]), count).depth, 2 * count + 2)
            return time.process_time() - began

        least = min(seconds(1_000) for _ in range(3))
        self.assertLess(min(seconds(8_000) for _ in range(3)), 40 * least)


each_way(globals(), Loops)

if __name__ == "__main__":
    unittest.main()
