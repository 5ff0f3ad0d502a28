"""Powers of a matrix: how many ways of 13 steps lead from each node of a graph to each other."""

STEPS = 13


def inputs(source):
    return [source.matrix(9, 9, 0, 1)]


def client(tc, graph):
    # By squares; what is kept is worked out once, and stands twice in the next product.
    found, square, left = None, tc.tensor(graph), STEPS
    while left:
        if left % 2:
            found = square if found is None else tc.run(found @ square)
        square, left = tc.run(square @ square), left // 2
    return found


def numpy(np, graph):
    return np.linalg.matrix_power(graph, STEPS)
