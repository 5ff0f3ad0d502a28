"""Requests whose plans have each kind of step, by name, each with the line that answers it."""

from hostile import DEPTH, MATRICES, TILES, line_of, request

# Both matrices again and again, so that two workers are worth their start.
LEFT = f'["broadcast","l",[{TILES},{DEPTH}]]'
RIGHT = f'["broadcast","r",[{DEPTH},{TILES}]]'
# A reduction of a contraction and one of a movement, with an operand that is computed.
SUMS = f'["sum",["contract",{LEFT},["neg",{RIGHT}],[[1,0]]],[1]]'
GREATEST = f'["maximum",["shuffle",{LEFT},[1,0]],[0]]'
EACH_STEP = f'["add",{SUMS},{GREATEST}]'
EACH_VALUES = [3 - (22 + 28) * DEPTH * TILES, 6 - (49 + 64) * DEPTH * TILES] * TILES
# A sum of computed values, in two shards.
TIMES = 11
SHARDED = '["sum",' + '["neg",["square",' * TIMES + LEFT + "]]" * TIMES + ",[0,1]]"
SHARDED_VALUE = -TILES * DEPTH * sum(pow(it, 2**TIMES, 2**64) for it in (1, 4, 2, 5, 3, 6))
# A contraction of 64 columns, of which a leaf has 32.
WIDE = f'["contract",{LEFT},{RIGHT},[[1,0]]]'
WIDE_COLUMNS = [[it * DEPTH for it in (22, 49)] * TILES, [it * DEPTH for it in (28, 64)] * TILES]
# Each operation of version 2, over and below one another.
JOINED = '["concat","l",["stride","l",[1,2]],1]'
SLID = f'["convolve",["pad",{JOINED},[[1,0],[0,1]]],["neg","r"],[1,0]]'
SLID_VALUES = [-28, -86, -22, -74, -28, -85, -14, -42]
# Those over and below matrices again and again, added up.
WIDTH = 288
LEFT_TOO = f'["broadcast","l",[{TILES},{WIDTH}]]'
MANY_JOINED = f'["concat",{LEFT_TOO},["stride",{LEFT_TOO},[1,2]],1]'
MANY_SLID = (
    f'["sum",["convolve",["pad",{MANY_JOINED},[[1,0],[0,1]]],'
    '["neg",["broadcast","r",[4,4]]],[1,0]],[0,1]]'
)


def many_slid():
    """The sum of what each number of the kernel gives: of what lies under it in all places."""
    pair = [it + it[::2] + [0] for it in ([1, 2, 3] * WIDTH, [4, 5, 6] * WIDTH)]
    rows = [[0] * len(pair[0]), *pair * TILES]
    kernel = [[[1, 2], [3, 4], [5, 6]][it % 3] * 4 for it in range(12)]
    down, along = len(rows) - 7, len(pair[0]) - 11
    return -sum(
        times * sum(sum(it[across : across + along]) for it in rows[below : below + down])
        for across, column in enumerate(kernel)
        for below, times in enumerate(column)
    )


# Requests whose workers are started.
STARTING = {
    "a sum in shards": (
        request(MATRICES, SHARDED, block=3 * TILES * DEPTH),
        line_of([SHARDED_VALUE], []),
    ),
    "a contraction": (
        request(MATRICES, WIDE, block=1),
        line_of(sum(WIDE_COLUMNS * TILES, []), [2 * TILES, 2 * TILES]),
    ),
    "each kind of step": (
        request(MATRICES, EACH_STEP, block=1_024),
        line_of(EACH_VALUES, [2 * TILES]),
    ),
    "many values of version 2": (
        request(MATRICES, MANY_SLID, version=2, block=4_096),
        line_of([many_slid()], []),
    ),
}
# Requests that a thread answers alone.
ALONE = {
    "a sum over an empty axis": (
        request('"a":{"dims":[0,3],"data":[]}', '["sum","a",[0]]', block=1),
        line_of([0, 0, 0], [3]),
    ),
    "a fault": (request(MATRICES, '["add","l","r"]'), "error 12 ShapeMismatch\n"),
    "few values of version 2": (
        request(MATRICES, SLID, version=2, block=1),
        line_of(SLID_VALUES, [2, 4]),
    ),
}
