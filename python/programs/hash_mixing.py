"""Hash mixing: a polynomial of each row's values modulo 2**64, as one product with powers."""

BASE = 6364136223846793005


def inputs(source):
    return [source.matrix(6, 20, -(2**63), 2**63 - 1)]


def client(tc, rows):
    x = tc.tensor(rows)
    count, powers = x.shape[1], [1]
    for _ in range(count - 1):
        powers.append((powers[-1] * BASE + 2**63) % 2**64 - 2**63)
    return x @ powers[::-1]


def numpy(np, rows):
    found = np.zeros(len(rows), dtype=np.int64)
    with np.errstate(over="ignore"):
        for column in rows.T:
            found = found * np.int64(BASE) + column
    return found
