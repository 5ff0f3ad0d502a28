"""The integer cosine transform of H.264: each block of four by four between the matrix and its
transpose."""

MATRIX = [[1, 1, 1, 1], [2, 1, -1, -2], [1, -1, -1, 1], [1, -2, 2, -1]]


def inputs(source):
    return [source.matrix(4, 4, -255, 255)]


def client(tc, block):
    matrix = tc.tensor(MATRIX)
    return matrix @ block @ matrix.T


def numpy(np, block):
    matrix = np.array(MATRIX)
    return matrix @ block @ matrix.T
