"""Three generations of Conway's game of life, on a board whose edges stay empty."""

GENERATIONS = 3


def inputs(source):
    return [source.matrix(10, 14, 0, 1)]


def client(tc, board):
    alive = tc.tensor(board)
    for _ in range(GENERATIONS):
        around = alive.pad(1).convolve(tc.ones((3, 3)), 0, 1) - alive
        alive = tc.run((around == 3) | ((alive == 1) & (around == 2)))
    return alive


def numpy(np, board):
    alive = board
    for _ in range(GENERATIONS):
        wide = np.pad(alive, 1)
        rows, columns = alive.shape
        near = [wide[i : i + rows, j : j + columns] for i in range(3) for j in range(3)]
        around = sum(near) - alive
        alive = ((around == 3) | ((alive == 1) & (around == 2))).astype(np.int64)
    return alive
