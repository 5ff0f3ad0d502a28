"""XOR checksums of rows of bytes, by comparisons, which a text has too: a bit of a number is
how often the number has passed a multiple of that power of 2, counted up and down in turn."""

BITS = range(8)
# How much each bound from 1 to 255 that is reached changes each bit.
CHANGES = [
    [(1 if bound >> bit & 1 else -1) if bound % (1 << bit) == 0 else 0 for bit in BITS]
    for bound in range(1, 256)
]


def inputs(source):
    return [source.matrix(4, 9, 0, 255)]


def client(tc, rows):
    bits = (tc.tensor(rows)[..., None] >= range(1, 256)) @ CHANGES
    # A product of 1 and -1 is below 0 where an odd number of bits is set.
    return ((1 - 2 * bits).prod(axis=1) < 0) @ [1 << bit for bit in BITS]


def numpy(np, rows):
    return np.bitwise_xor.reduce(rows, axis=1)
