"""A checksum of many values: their sum, and the sum of each times its place, as Fletcher's has it,
modulo 2**64."""


def inputs(source):
    return [source.matrix(200, 250, -(2**63), 2**63 - 1)]


def client(tc, values):
    x = tc.tensor(values).ravel()
    return tc.stack([x.sum(), (x * range(x.size)).sum()])


def numpy(np, values):
    x = values.ravel()
    with np.errstate(over="ignore"):
        return np.stack([x.sum(), (x * np.arange(x.size)).sum()])
