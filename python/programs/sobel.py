"""Sobel's edges: how much an image changes along both axes, by two kernels, as the sum of both
without their signs."""

KERNEL = [[1, 0, -1], [2, 0, -2], [1, 0, -1]]


def inputs(source):
    return [source.matrix(12, 15, 0, 255)]


def client(tc, image):
    kernel, wide = tc.tensor(KERNEL), tc.pad(image, 1, mode="edge")
    return abs(wide.convolve(kernel, 0, 1)) + abs(wide.convolve(kernel.T, 0, 1))


def numpy(np, image):
    kernel, wide = np.array(KERNEL), np.pad(image, 1, mode="edge")
    windows = np.lib.stride_tricks.sliding_window_view(wide, (3, 3))
    return sum(abs((windows * it).sum(axis=(2, 3))) for it in (kernel, kernel.T))
