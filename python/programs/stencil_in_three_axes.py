"""A stencil in three axes: two steps in which heat flows from each cell to its six neighbours, and
none leaves the block."""

STEPS, SHARE = 2, 3
SIDE = [[0, 0, 0], [0, 1, 0], [0, 0, 0]]
KERNEL = [SIDE, [[0, 1, 0], [1, 0, 1], [0, 1, 0]], SIDE]


def inputs(source):
    return [source.stack(5, 6, 7, 0, 1000)]


def client(tc, block):
    heat = tc.tensor(block)
    for _ in range(STEPS):
        flows = tc.pad(heat, 1, mode="edge").convolve(KERNEL, 0, 1, 2) - 6 * heat
        heat = tc.run(heat * 6 * SHARE + flows)
    return heat


def numpy(np, block):
    heat = block
    for _ in range(STEPS):
        wide = np.pad(heat, 1, mode="edge")
        near = [np.roll(wide, by, axis)[1:-1, 1:-1, 1:-1] for by in (1, -1) for axis in range(3)]
        heat = heat * 6 * SHARE + sum(near) - 6 * heat
    return heat
