"""Batched products: the product of each two matrices of two stacks."""


def inputs(source):
    return [source.stack(6, 3, 4), source.stack(6, 4, 5)]


def client(tc, left, right):
    return tc.tensor(left) @ right


def numpy(np, left, right):
    return left @ right
