"""Moving windows: the greatest of each five values that follow one another."""

WIDTH = 5


def inputs(source):
    return [source.matrix(1, 50, -99, 99)[0]]


def client(tc, values):
    x, count = tc.tensor(values), len(values) - WIDTH + 1
    return tc.stack([x[at : at + count] for at in range(WIDTH)]).max(axis=0)


def numpy(np, values):
    return np.lib.stride_tricks.sliding_window_view(values, WIDTH).max(axis=1)
