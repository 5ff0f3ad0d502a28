"""An image under a kernel: each pixel becomes the weighted sum of the nine around it."""

KERNEL = [[1, 2, 1], [2, 4, 2], [1, 2, 1]]


def inputs(source):
    return [source.matrix(12, 15, 0, 255)]


def client(tc, image):
    return tc.tensor(image).pad(1).convolve(KERNEL, 0, 1)


def numpy(np, image):
    wide, found = np.pad(image, 1), np.zeros_like(image)
    for i in range(3):
        for j in range(3):
            found += KERNEL[i][j] * wide[i : i + image.shape[0], j : j + image.shape[1]]
    return found
