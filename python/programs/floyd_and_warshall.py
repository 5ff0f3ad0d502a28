"""Floyd and Warshall's shortest ways between all nodes of a graph: through each node in turn, a way
that is shorter than the one that was known."""

FAR = 10**9


def inputs(source):
    lengths = source.matrix(9, 9, 1, 60)
    # Two thirds of the edges aren't there.
    return [lengths + (lengths > 20) * FAR]


def client(tc, graph):
    ways = tc.tensor(graph)
    for node in range(len(graph)):
        # It stands three times in the next step, and is worked out once.
        ways = tc.run(tc.minimum(ways, ways[:, node, None] + ways[node]))
    return ways


def numpy(np, graph):
    ways = graph
    for node in range(len(graph)):
        ways = np.minimum(ways, ways[:, node, None] + ways[node])
    return ways
