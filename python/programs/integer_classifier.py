"""An integer classifier: the class whose weights give the highest score, for each of many images of
8 bits, and behind them how many of the images are told right."""


def inputs(source):
    images, weights = source.matrix(20, 16, -128, 127), source.matrix(16, 5, -9, 9)
    return [images, weights, source.matrix(1, 5, -500, 500)[0], source.matrix(1, 20, 0, 4)[0]]


def client(tc, images, weights, bias, labels):
    told = (tc.tensor(images) @ weights + bias).argmax(axis=1)
    return tc.append(told, (told == labels).sum())


def numpy(np, images, weights, bias, labels):
    told = (images @ weights + bias).argmax(axis=1)
    return np.append(told, (told == labels).sum())
