"""A cumulative histogram of an image's shades, in eight bins, and by it the image with its shades
spread evenly: each pixel becomes how many pixels are in its bin or a darker one."""

EDGES = range(0, 257, 32)


def inputs(source):
    return [source.matrix(12, 15, 0, 255)]


def client(tc, image):
    counts, _ = tc.histogram(image, EDGES)
    upto = tc.run(tc.cumsum(counts))
    return upto[tc.digitize(image, EDGES) - 1]


def numpy(np, image):
    counts, _ = np.histogram(image, EDGES)
    upto = np.cumsum(counts)
    return upto[np.digitize(image, EDGES) - 1]
