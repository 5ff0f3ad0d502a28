"""Tests of the programs in programs/: each gives what its lines in numpy give, in each way."""

import glob
import importlib.util
import os
import random
import unittest

import tensor_client
from asking import OneWay, each_way

try:
    import numpy
except ImportError:
    numpy = None

FOLDER = os.path.join(os.path.dirname(os.path.realpath(__file__)), "programs")
TRIALS = 3


class Source:
    """Random arrays, equal at each run."""

    def __init__(self, seed):
        self.source = random.Random(seed)

    def matrix(self, rows, columns, least, greatest):
        return self.stack(1, rows, columns, least, greatest)[0]

    def stack(self, count, rows, columns, least=-1000, greatest=1000):
        values = [self.source.randint(least, greatest) for _ in range(count * rows * columns)]
        return numpy.array(values, dtype=numpy.int64).reshape(count, rows, columns)


class Client:
    """The client's functions, with `run` in one of the ways."""

    def __init__(self, run):
        self.run = run

    def __getattr__(self, name):
        return getattr(tensor_client, name)


def programs():
    for path in sorted(glob.glob(os.path.join(FOLDER, "*.py"))):
        name = os.path.basename(path)[:-3]
        spec = importlib.util.spec_from_file_location(name, path)
        module = importlib.util.module_from_spec(spec)
        spec.loader.exec_module(module)
        yield name, module


@unittest.skipIf(numpy is None, "numpy isn't installed")
class Programs(OneWay):
    """Each program on random arrays, compared with numpy."""

    def test_programs(self):
        for name, module in programs():
            for trial in range(TRIALS):
                with self.subTest(program=name, trial=trial):
                    inputs = module.inputs(Source(f"{name} {trial}"))
                    found = self.ask(module.client(Client(self.ask), *inputs), workers=2)
                    wanted = module.numpy(numpy, *inputs)
                    numpy.testing.assert_array_equal(found.array(), wanted.astype(numpy.int64))


class Files(unittest.TestCase):
    """The programs as files."""

    def test_all_are_found(self):
        self.assertEqual(len(list(programs())), 18)


each_way(globals(), Programs)

if __name__ == "__main__":
    unittest.main()
