#!/usr/bin/env python3
"""Has a Dask cluster evaluate tensor expressions: an array block by block, a reduction whose parts
are combined, and a list of expressions, by a process that each worker keeps open.

usage: PYTHONPATH=python python3 examples/dask/blocks.py [ADDRESS]

ADDRESS is that of a scheduler, as tcp://one.example:8786, whose workers find the client and the
library or a program where they run. Without it two workers are started on this machine.
"""

import sys

import dask.array
import numpy
from distributed import Client, LocalCluster, WorkerPlugin, get_worker
from tensor_client import Session, run, tensor, where

VALUES = numpy.empty(0, numpy.int64)


def squares(block):
    """The squares of a block's values, but 0 where they are below 0."""
    x = tensor(block)
    return run(where(x < 0, 0, x * x)).array()


def sums(block, axis, keepdims):
    """The sums of a block over some axes, or of such sums."""
    return run(tensor(block).sum(axis=axis, keepdims=keepdims)).array()


class KeptOpen(WorkerPlugin):
    """A process that answers what the tasks of a worker ask, one after another."""

    def setup(self, worker):
        worker.session = Session()

    def teardown(self, worker):
        worker.session.close()


def answered(expr):
    return get_worker().session.run(expr).nested()


def main():
    here = {"n_workers": 2, "threads_per_worker": 1, "host": "127.0.0.1", "dashboard_address": None}
    cluster = sys.argv[1] if sys.argv[1:] else LocalCluster(**here)
    with Client(cluster) as client:
        # Eight blocks; the squares wrap, as numpy's do.
        array = numpy.arange(-1_000_000, 1_000_000).reshape(2_000, 1_000) * 4_000_000_000
        x = dask.array.from_array(array, chunks=(500, 500))
        y = x.map_blocks(squares, dtype=VALUES.dtype, meta=VALUES)
        total = dask.array.reduction(y, sums, sums, axis=0, dtype=VALUES.dtype, meta=VALUES)
        wanted = numpy.where(array < 0, 0, array * array)
        print(y.npartitions, "blocks as numpy has them:", (y.compute() == wanted).all())
        print("their sums as numpy has them:", (total.compute() == wanted.sum(axis=0)).all())
        client.register_worker_plugin(KeptOpen())
        expressions = [tensor([number, 10]) * tensor([[1], [2]]) for number in range(5)]
        print(*client.gather(client.map(answered, expressions)))


if __name__ == "__main__":
    main()
