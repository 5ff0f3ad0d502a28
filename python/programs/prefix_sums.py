"""Prefix sums: the sum of each value and all before it."""


def inputs(source):
    return [source.matrix(1, 60, -1000, 1000)[0]]


def client(tc, values):
    return tc.cumsum(values)


def numpy(np, values):
    return np.cumsum(values)
