"""Counting by comparisons: how many values of each row lie in each of four ranges."""

BOUNDS = [0, 25, 50, 75, 100]


def inputs(source):
    return [source.matrix(8, 40, 0, 99)]


def client(tc, values):
    x = tc.tensor(values)
    return tc.stack(
        [((x >= low) & (x < high)).sum(axis=1) for low, high in zip(BOUNDS, BOUNDS[1:])], axis=1
    )


def numpy(np, values):
    return np.stack([np.histogram(row, BOUNDS)[0] for row in values])
