"""One-hot and gather: rows of a table by their numbers, as a product with a matrix of 0 and 1."""


def inputs(source):
    return [source.matrix(7, 5, -50, 50), source.matrix(1, 11, 0, 6)[0]]


def client(tc, table, numbers):
    one_hot = tc.tensor(numbers)[:, None] == range(len(table))
    return one_hot @ table


def numpy(np, table, numbers):
    return table[numbers]
