"""Tests of what a request binds by `let`: which parts, in which order, how many nodes the request then
has, and which version. Also programs whose loops are one request, compared with numpy in each way that
has bindings."""

import contextlib
import itertools
import json
import unittest
import unittest.mock

import tensor_client as client
from tensor_client import Expr, compile, concat, placeholder, tensor, threads, where
from tensor_client.rewriting.bindings import LEAST_NODES, MOST_BOUND, bindings_of
from tensor_client.length import MOST_NODES
from tensor_client.library import library_of
from tensor_client.requests import MOST_NESTED, Settings, framed, nested
from asking import OneWay, by_reference, each_way, only_by, referring

try:
    import numpy
except ImportError:
    numpy = None

# The ways that ask by frames, or by headers of frames.
WAYS = "library", "frame", "frames", "reference frames", "reference library"
ROWS = tensor([[1, 2, 3], [4, 5, 6]])
# The steps of a loop that one request has.
STEPS = 48


def chain(expr, nodes):
    """Elementwise operations over an expression, which have this many nodes with it."""
    for _ in range(nodes - 1):
        expr = -expr
    return expr


def asked(expr, **settings):
    """Returns the JSON value of a frame's header."""
    return json.loads(framed(expr, Settings(**settings)).header)


def lets(tree):
    """Returns the bindings at the beginning of a tree, each as its name and its tree, and the tree after
    them."""
    found = []
    while isinstance(tree, list) and tree[0] == "let":
        found.append(tree[1:3])
        tree = tree[3]
    return found, tree


def nodes_of(tree):
    """Returns how many nodes a tree has."""
    if not isinstance(tree, list):
        return 1
    front, rest = lets(tree)
    if front:
        return nodes_of(rest) + sum(1 + nodes_of(it) for _, it in front)
    return 1 + sum(nodes_of(it) for it in tree[1:] if isinstance(it, str) or is_node(it))


def is_node(it):
    return isinstance(it, list) and len(it) > 0 and isinstance(it[0], str)


class Bound(unittest.TestCase):
    """What is bound, and how it is asked for."""

    def bound(self, expr, *parts):
        found = bindings_of(expr)
        self.assertEqual([id(it) for it in found.bound], [id(it) for it in parts])
        said = asked(expr)
        self.assertEqual(len(lets(said["expr"])[0]), len(parts))
        self.assertEqual(found.nodes, nodes_of(said["expr"]))
        self.assertEqual(said["version"] == 3, bool(parts))

    def test_what_combines_values(self):
        for part in (
            ROWS.sum(0),
            (ROWS * 2).max(1),
            ROWS @ ROWS.T,
            ROWS.convolve([1, 10], 1),
            (ROWS > 1).any(),
        ):
            self.bound(part * part, part)
            self.bound(part + 1, *[])
            self.bound(part - (part > 3) * 2, part)

    def test_what_is_worked_out_place_by_place(self):
        for nodes in (2, LEAST_NODES - 1):
            part = chain(ROWS, nodes)
            self.bound(part * part)
        for nodes in (LEAST_NODES, LEAST_NODES + 1):
            part = chain(ROWS, nodes)
            self.bound(part * part, part)
            self.bound(part.reshape(3, 2, order="F") + part.sum(), part)
            self.bound(part + 1)

    def test_places_that_are_asked_for(self):
        rows = chain(tensor([[1, 2], [3, 4], [5, 6], [7, 8]]), LEAST_NODES)
        # A part is bound if all its rows are asked for, and not for some of them. Repeated rows count once.
        self.bound(rows[0] + rows[2])
        self.bound(rows[:2] - rows[2:], rows)
        self.bound(rows + rows[0], rows)
        self.bound(rows[0].broadcast(9) + rows[1].broadcast(9))
        self.bound(rows[:1].sum() + rows[1:2].max())
        self.bound(rows.sum() + rows[0], rows)
        # In a long expression, parts are bound whatever is asked for.
        part = chain(tensor(range(2**20)), LEAST_NODES)
        few = part
        for _ in range(6):
            few = chain(few[: few.size // 3] + few[-(few.size // 3) :], LEAST_NODES)
        self.assertEqual(len(bindings_of(few).bound), 6)
        self.assertLess(bindings_of(few).nodes, 200)

    def test_inputs_stand_as_they_are(self):
        total = ROWS
        for _ in range(40):
            total = total + ROWS
        self.bound(total)
        self.bound(tensor(7))

    def test_what_stands_below(self):
        # The sum is used once, in a short part that is used twice.
        total = ROWS.sum(0)
        part = ROWS - total
        self.bound(part * part, total)
        # The sum is used once in a bound part, or once more beside it.
        long = chain(part, LEAST_NODES)
        self.bound(long * long, long)
        self.bound(long * long + total, total, long)
        # A part that is evaluated as a list is one node of the expression above.
        self.bound(chain(total, LEAST_NODES - 1) * chain(total, 2), total)

    def test_in_order_of_dependence(self):
        first = ROWS.sum(0)
        second = (first * first).max([])
        third = chain(second + first, LEAST_NODES)
        self.bound(third * third + second, first, second, third)
        said = lets(asked(third * third + second)["expr"])
        self.assertEqual([name for name, _ in said[0]], ["y0", "y1", "y2"])
        self.assertEqual(said[0][0][1], ["sum", "x0", [0]])
        self.assertEqual(said[0][1][1], ["maximum", ["mul", "y0", "y0"], []])
        self.assertEqual(said[1], ["add", ["mul", "y2", "y2"], "y1"])

    def test_a_header(self):
        part = ROWS.sum(0)
        self.assertEqual(
            framed(part * part + 1, Settings()).header.decode(),
            '{"version":3,"workers":1,"block":4096,"inputs":{"x0":{"dims":[2,3]},"x1":{"dims":[1]}},'
            '"expr":["let","y0",["sum","x0",[0]],'
            '["add",["mul","y0","y0"],["broadcast","x1",[3]]]]}',
        )

    def test_no_text_binds(self):
        part = ROWS.sum(0)
        for expr in (part * part, chain(ROWS, 20) * chain(ROWS, 20)):
            text = client.request(expr)
            self.assertTrue(text.startswith('{"version":1,'))
            self.assertNotIn("let", text)
        for version in (1, 2):
            said = asked(part * part, version=version)
            self.assertEqual(said["expr"], ["mul", ["sum", "x0", [0]], ["sum", "x0", [0]]])
        self.assertEqual(asked(part * part, version=3), asked(part * part))

    def test_parts_of_equal_values_are_not_the_same(self):
        self.bound(ROWS.sum(0) * ROWS.sum(0))

    def test_nodes_count_once(self):
        part = ROWS * 3
        for _ in range(90):
            part = part * part + part
        self.assertGreater(part.nodes, 2**90)
        said = asked(part)
        self.assertEqual(bindings_of(part).nodes, nodes_of(said["expr"]))
        self.assertLess(bindings_of(part).nodes, 2_000)
        self.assertLessEqual(nested(json.dumps(said)), MOST_NESTED)

    def test_more_than_can_be_bound(self):
        part = ROWS
        for _ in range(3 * MOST_BOUND):
            part = chain(part * part, LEAST_NODES)
        bound = bindings_of(part).bound
        self.assertEqual(len(bound), MOST_BOUND)
        with self.assertRaisesRegex(client.TooLarge, "nodes: too many.* 10,000 and.*in parts"):
            framed(part, Settings())
        # Parts above the limit are written as often as they are used.
        part = chain(ROWS.sum(), 2)
        for _ in range(MOST_BOUND + 2):
            part = (part * part).sum()
        self.assertEqual(len(lets(asked(part)["expr"])[0]), MOST_BOUND)
        self.assertLess(nodes_of(asked(part)["expr"]), MOST_NODES)

    def test_what_would_nest_too_deep(self):
        # A deep part is bound after each 60 operations, and a part that is used twice isn't bound.
        deep = ROWS.sum()
        for number in range(90):
            part = tensor([number]).sum()
            deep = (deep - part * part) * part
        self.assertEqual(len(bindings_of(deep).bound), 90)
        self.assertEqual(len(lets(asked(deep)["expr"])[0]), 3)
        self.assertLessEqual(nested(json.dumps(asked(deep))), MOST_NESTED)
        for count in (119, 1_200, 3_000):
            long = chain(ROWS, count)
            self.assertLessEqual(nested(json.dumps(asked(long))), MOST_NESTED)
            self.assertEqual(len(lets(asked(long)["expr"])[0]), (count - 2) // 59 * (count > 120))
        self.assertRaisesRegex(client.TooLarge, "in parts", asked, chain(ROWS, 9_999))
        self.assertRaisesRegex(client.TooLarge, "in parts", asked, chain(ROWS, 200), version=2)
        # Chains are balanced, and end at bound parts.
        total = ROWS.sum()
        part = total * total
        for number in range(200):
            part = part + total + tensor(number)
        said = asked(part)
        self.assertEqual(len(lets(said["expr"])[0]), 1)
        self.assertLess(nested(json.dumps(said)), 20)


class Versions(unittest.TestCase):
    """The version that a frame asks for, and what a text says."""

    def test_the_version_of_a_frame(self):
        few, many = ROWS, client.concatenate([[it] for it in range(500)])
        for _ in range(499):
            few = few + ROWS
        flat = tensor([], (2_097_152, 0))
        for version, expr, settings in (
            (1, ROWS + 1, {}),
            (1, -few, {}),
            (2, many, {}),
            (3, -(-few), {}),
            (3, concat(many, [1], 0), {}),
            (2, ROWS.stride(1, 2), {}),
            (3, ROWS.stride(1, 2) // 2, {}),
            (1, tensor([1]).broadcast(1_048_576), {}),
            (3, tensor([1]).broadcast(1_048_577).sum(), {}),
            (3, flat, {}),
            (3, flat.sum(1), {}),
            (1, ROWS, {"block": 1_048_576}),
            (3, ROWS, {"block": 1_048_577}),
            (2, ROWS, {"workers": 65}),
            (1, ROWS // 2, {"version": 1}),
            (3, ROWS, {"version": 3}),
        ):
            self.assertEqual(asked(expr, **settings)["version"], version, repr(expr))

    def test_what_no_text_has(self):
        for expr in (ROWS // 2, tensor([1]).broadcast(1_048_577), tensor([], (2_097_152, 0))):
            with self.assertRaisesRegex(client.BadVersion, "no text has version 3.*library and"):
                client.request(expr)
        self.assertTrue(client.request(chain(ROWS, 1_001)).startswith('{"version":1'))

    def test_the_nodes_of_a_text(self):
        wide = client.concatenate([[it] for it in range(501)])
        answers = [f'{{"data":{list(range(it))},"dims":[{it}]}}\n' for it in (245, 512, 501)]
        with unittest.mock.patch("tensor_client.running.answered_once") as answered:
            answered.side_effect = lambda path, text, seconds: answers.pop(0)
            with contextlib.suppress(client.Fault, IndexError):
                client.run(wide, program="tensor_run")
        self.assertGreater(answered.call_count, 1)
        for it in answered.call_args_list:
            self.assertLessEqual(nodes_of(json.loads(it.args[1])["expr"]), 1_000)


def floyd_and_warshall(ways, minimum):
    """Steps through the nodes of a graph in turn, this many times."""
    for node in itertools.islice(itertools.cycle(range(len(ways))), STEPS):
        ways = minimum(ways, ways[:, node, None] + ways[node])
    return ways


def smoothed(heat, pad):
    """Applies three steps of a stencil: four times each value, plus its neighbours, shifted back."""
    for _ in range(3):
        wide = pad(heat, 1, mode="edge")
        near = wide[2:, 1:-1] + wide[:-2, 1:-1] + wide[1:-1, 2:] + wide[1:-1, :-2]
        heat = heat * 4 + near - (heat > 90) * near
    return heat


class Loops(OneWay):
    """Loops, each of which is one request."""

    def asked_once(self, expr, **settings):
        """Returns the answer to one request."""
        counted = [
            unittest.mock.patch(f"tensor_client.{it}.framed", wraps=framed)
            for it in ("library", "running")
        ]
        with counted[0] as library, counted[1] as running:
            found = self.ask(expr, **settings)
        self.assertEqual(library.call_count + running.call_count, 1)
        return found

    def test_without_numpy(self):
        part = ROWS
        for _ in range(60):
            part = part * part + part - 1
        value = list(range(1, 7))
        for _ in range(60):
            value = [(it * it + it - 1 + 2**63) % 2**64 - 2**63 for it in value]
        self.assertEqual(self.asked_once(part).nested(), [value[:3], value[3:]])
        total = (ROWS * 2).sum(0)
        again = where(total > 12, total, total * total) - total.max()
        self.assertEqual(self.asked_once(again, workers=3, block=1).values, [82, -4, 0])

    @unittest.skipIf(numpy is None, "numpy isn't installed")
    def test_programs(self):
        source = numpy.random.default_rng(3)
        ways = source.integers(1, 99, (12, 12))
        heat = source.integers(0, 100, (9, 11))
        for expr, wanted in (
            (
                floyd_and_warshall(tensor(ways), client.minimum),
                floyd_and_warshall(ways, numpy.minimum),
            ),
            (smoothed(tensor(heat), client.pad), smoothed(heat, numpy.pad)),
            (
                client.matrix_power(tensor(ways), 1_000),
                numpy.linalg.matrix_power(ways, 1_000),
            ),
        ):
            numpy.testing.assert_array_equal(self.asked_once(expr).array(), wanted)

    # The reference would take minutes.
    @only_by(*(it for it in WAYS if not it.startswith("reference")))
    @unittest.skipIf(numpy is None, "numpy isn't installed")
    def test_many_values(self):
        source = numpy.random.default_rng(4)
        ways, heat = source.integers(1, 10**6, (300, 300)), source.integers(0, 100, (700, 800))
        for expr, wanted in (
            (
                floyd_and_warshall(tensor(ways), client.minimum),
                floyd_and_warshall(ways, numpy.minimum),
            ),
            (smoothed(tensor(heat), client.pad), smoothed(heat, numpy.pad)),
        ):
            numpy.testing.assert_array_equal(self.asked_once(expr).array(), wanted)
            out = numpy.zeros(wanted.shape, int)
            self.ask(expr, workers=4, out=out)
            numpy.testing.assert_array_equal(out, wanted)


class Parts(unittest.TestCase):
    """The library with several threads, and compiled expressions."""

    def libraries(self):
        functions, library = referring()
        for it in (library, library_of()):
            if it is not None:
                with self.subTest(library=it.path):
                    yield it
        self.assertEqual(functions.owed, [])

    def test_each_part_by_all_threads(self):
        long = chain(tensor(range(4_200)), LEAST_NODES + LEAST_NODES % 2 + 1)
        expr = long * long - long.sum()
        wanted = [it * it - 4_199 * 2_100 for it in range(4_200)]
        for library in self.libraries():
            patched = unittest.mock.patch("tensor_client.library.framed", wraps=framed)
            few = unittest.mock.patch("tensor_client.library.FEWEST", 4_000)
            with unittest.mock.patch.object(threads, "LEAST", 1_000), few, patched as frames:
                found = library.run(expr, Settings(4))
            self.assertEqual(found.values, wanted)
            self.assertEqual(frames.call_count, 2)
            # With few values it is one request.
            few = chain(ROWS, LEAST_NODES)
            self.assertEqual(library.run((few * few).sum(), Settings(4)).item(), 91)

    def test_compiled(self):
        for library in self.libraries():
            x = placeholder((2, 3))
            total = chain(x, LEAST_NODES + LEAST_NODES % 2 + 1)
            with unittest.mock.patch("tensor_client.compiled.library_of", return_value=library):
                for workers in (1, 4):
                    f = compile(total * total - total.sum(0), workers=workers)
                    for _ in range(2):
                        found = f([[1, 2, 3], [4, 5, 6]])
                        self.assertEqual(found.nested(), [[-4, -3, 0], [11, 18, 27]])

    def test_a_plan_of_many_numbers(self):
        for library in self.libraries():
            with unittest.mock.patch("tensor_client.compiled.library_of", return_value=library):
                x = placeholder(2)
                many = client.concatenate([x + it for it in range(1_000)])
                found = compile(many.reshape(1_000, 2).sum(0))([5, 7])
                self.assertEqual(found.values, [5_000 + 499_500, 7_000 + 499_500])

    def test_faults_of_parts(self):
        with by_reference() as ask:
            part = Expr("later", [ROWS], dims=(2, 3)).sum(0)
            self.assertRaises(client.UnknownOp, ask, part * part)


each_way(globals(), Loops, WAYS)

if __name__ == "__main__":
    unittest.main()
