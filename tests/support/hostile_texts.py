"""Texts that mean a program harm, by name, each with the line that answers it: small ones, and ones of
up to 16 MiB, which are functions that make their pieces."""

from functools import partial

from hostile import FIVE, MATRICES, PRODUCT, SCALAR, request

MOST_BYTES = 16_777_216
PIECE = 4_096

GREATEST = 2**63 - 1
NOT_JSON = "error 2 NotJson\n"
BAD_FIELD = "error 3 BadField\n"
BAD_WORKERS = "error 5 BadWorkers\n"
BAD_BLOCK = "error 6 BadBlock\n"
BAD_TENSOR = "error 7 BadTensor\n"
UNKNOWN_INPUT = "error 8 UnknownInput\n"
UNKNOWN_OP = "error 9 UnknownOp\n"
BAD_ARITY = "error 10 BadArity\n"
BAD_ARGUMENT = "error 11 BadArgument\n"
OUT_OF_RANGE = "error 13 OutOfRange\n"
TOO_LARGE = "error 14 TooLarge\n"
TWO = '"a":{"dims":[2],"data":[1,2]}'
NINE = '"a":{"dims":[1],"data":[9]}'
NINE_LINE = '{"data":[9],"dims":[1]}\n'
ONE = '"one":{"dims":[1,1],"data":[1]}'
ONES = '["broadcast","one",[1024,1024]]'
MOST = '["broadcast","a",[1048576]]'
HALF = '["broadcast","a",[524288]]'
SUMS = '["slice",' + '["sum",' * 120 + ONES + ",[]]" * 120 + ",[1023,1023],[1,1]]"
PRODUCTS = f'["slice",["contract",{ONES},{ONES},[[1,0]]],[1023,1023],[1,1]]'

CONTRACTION = request(MATRICES, PRODUCT)
ROW = request(SCALAR, '"a"')
# What stands in that text before its one number, before its expression, and inside its first name.
BEFORE_DATUM = ROW[: ROW.index(b"5]")]
BEFORE_EXPR = ROW[: ROW.rindex(b'"a"')]
BEFORE_NAME = ROW[: ROW.index(b'a"')]
BEFORE_EXPR_2 = BEFORE_EXPR.replace(b'"version":1', b'"version":2')


def settings(version, workers, block, more=""):
    """A request of no input with these settings and more fields."""
    text = request("", '"a"', version, workers, block)
    return text[:-1] + more.encode() + b"}"


def of_two(expr, version=1):
    return request(TWO, expr, version)


def of_nine(expr):
    return request(NINE, expr, version=2)


SMALL = {
    "a row": (ROW, FIVE),
    "a letter behind a row": (ROW + b"x", NOT_JSON),
    "blanks behind a row": (ROW + b" \t\r\n" * 1_000, FIVE),
    "a zero byte behind a row": (ROW + b"\0", NOT_JSON),
    "a mark of the byte order": (b"\xef\xbb\xbf" + ROW, NOT_JSON),
    # One fault mended after the other.
    "version 3": (settings(3, 0, 0), "error 4 BadVersion\n"),
    "no workers": (settings(1, 0, 0), BAD_WORKERS),
    "a block of no place": (settings(1, 1, 0), BAD_BLOCK),
    "no input": (settings(1, 1, 1), UNKNOWN_INPUT),
    "an unknown field": (settings(1, 1, 1, ',"x":1'), BAD_FIELD),
    "65 workers": (settings(1, 65, 0), BAD_WORKERS),
    "257 workers in version 2": (settings(2, 257, 0), BAD_WORKERS),
    "256 workers in version 2": (settings(2, 256, 0), BAD_BLOCK),
    "no input in version 2": (settings(2, 256, 1), UNKNOWN_INPUT),
    # Operations that version 2 adds.
    **{
        f"{it} in version 1": (request(SCALAR, f'["{it}","a"]'), UNKNOWN_OP)
        for it in ("stride", "pad", "concat", "convolve")
    },
    "seven axes in version 1": (request(f'"a":{{"dims":{[1] * 7},"data":[5]}}', '"a"'), BAD_TENSOR),
    **{f"the expression {it}": (request(SCALAR, it), UNKNOWN_OP) for it in ("[]", "7", "null", '[1,"a"]')},
    "a sum of one operand": (request(SCALAR, '["add","a"]'), BAD_ARITY),
    "dims whose product passes 64 bits": (
        request('"a":{"dims":[4294967296,4294967296],"data":[]}', '"a"'),
        BAD_TENSOR,
    ),
    "a dim past the limit beside a 0": (request('"a":{"dims":[0,1048577],"data":[]}', '"a"'), BAD_TENSOR),
    # Arguments at the greatest size, and one past it.
    "the greatest offset": (of_two(f'["slice","a",[{GREATEST}],[{GREATEST}]]'), OUT_OF_RANGE),
    "a greater offset": (of_two(f'["slice","a",[{GREATEST + 1}],[{GREATEST}]]'), BAD_ARGUMENT),
    "a greater size": (of_two(f'["slice","a",[{GREATEST}],[{GREATEST + 1}]]'), BAD_ARGUMENT),
    "the greatest count": (of_two(f'["broadcast","a",[{GREATEST}]]'), TOO_LARGE),
    "a greater count": (of_two(f'["broadcast","a",[{GREATEST + 1}]]'), BAD_ARGUMENT),
    "the most products": (request(ONE, PRODUCTS), '{"data":[1024],"dims":[1,1]}\n'),
    # Arguments at the greatest size, and results past the limits, in version 2.
    "the greatest stride": (of_nine(f'["stride","a",[{GREATEST}]]'), NINE_LINE),
    "a greater stride": (of_nine(f'["stride","a",[{GREATEST + 1}]]'), BAD_ARGUMENT),
    "a stride of 0": (of_nine('["stride","a",[0]]'), OUT_OF_RANGE),
    "the greatest padding": (of_nine(f'["pad","a",[[{GREATEST},{GREATEST}]]]'), TOO_LARGE),
    "a greater padding": (of_nine(f'["pad","a",[[0,{GREATEST + 1}]]]'), BAD_ARGUMENT),
    "the greatest axis of a concat": (of_nine(f'["concat","a","a",{GREATEST}]'), OUT_OF_RANGE),
    "a concat past the most places": (of_nine(f'["concat",{MOST},"a",0]'), TOO_LARGE),
    "the greatest axis of a convolve": (of_nine(f'["convolve","a","a",[{GREATEST}]]'), OUT_OF_RANGE),
    "a convolve past the most products": (of_nine(f'["convolve",{MOST},{HALF},[0]]'), TOO_LARGE),
    "a convolve of one place": (of_nine(f'["convolve",{MOST},{MOST},[0]]'), '{"data":[84934656],"dims":[1]}\n'),
    "nine axes in version 2": (of_nine(f'["reshape","a",{[1] * 9}]'), TOO_LARGE),
}


def repeated(prefix, unit, suffix, length=MOST_BYTES):
    """As many of a unit as a text of this length has room for, in pieces."""
    count = (length - len(prefix) - len(suffix)) // len(unit)
    yield prefix
    for first in range(0, count, PIECE):
        yield unit * min(PIECE, count - first)
    yield suffix


def listed(prefix, unit, suffix):
    """As many of a unit as a text has room for, with a comma between two."""
    return repeated(prefix + unit, b"," + unit, suffix)


def many_keys(count):
    """A request of this many inputs."""
    before, after = request('""', "").split(b'""', maxsplit=1)
    yield before
    for number in range(count):
        yield b'%s"%06d":{"dims":[],"data":[5]}' % (b"," if number else b"", number)
    yield after[:-1] + b'"%06d"}' % (count - 1)


def one_name(unit):
    """A request whose one name is written twice and fills the text."""
    after = b'":{"dims":[],"data":[5]}},"expr":"'
    half = (MOST_BYTES - len(BEFORE_NAME) - len(after) - 2) // 2
    yield from repeated(BEFORE_NAME, unit, b"", len(BEFORE_NAME) + half)
    yield from repeated(after, unit, b'"}', len(after) + half + 2)


def one_key(count):
    """A request whose one input is written this many times."""
    before, after = request('""', '"a"').split(b'""', maxsplit=1)
    yield before + SCALAR.encode()
    for _ in range(1, count):
        yield b"," + SCALAR.encode()
    yield after


def of_units(*parts):
    return partial(repeated, *parts)


def of_lists(*parts):
    return partial(listed, *parts)


LARGE = {
    "brackets that open": (of_units(b"", b"[", b""), NOT_JSON),
    "brackets that open, and braces": (of_units(b"", b'{"":[', b""), NOT_JSON),
    "blanks": (of_units(b"", b" ", b""), NOT_JSON),
    "one string": (of_units(b'"', b"a", b'"'), BAD_FIELD),
    "one string of escapes": (of_units(b'"', b"\\n", b'"'), BAD_FIELD),
    "one string without end": (of_units(b'"', b"a", b""), NOT_JSON),
    "halves of surrogate pairs": (of_units(b'"', b"\\ud800", b'"'), NOT_JSON),
    "a name of \\u0000": (partial(one_name, b"\\u0000"), FIVE),
    "a name of letters": (partial(one_name, b"a"), FIVE),
    "a key 100,000 times": (partial(one_key, 100_000), FIVE),
    "a key as often as there is room": (partial(one_key, 600_000), FIVE),
    "400,000 keys": (partial(many_keys, 400_000), FIVE),
    "keys without a name": (of_lists(b"{", b'"":0', b"}"), BAD_FIELD),
    "digits": (of_units(b"", b"9", b""), NOT_JSON),
    "digits behind a point": (of_units(b"0.", b"3", b""), BAD_FIELD),
    "a datum of digits": (of_units(BEFORE_DATUM, b"1", b'.5]}},"expr":"a"}'), NOT_JSON),
    "numbers": (of_lists(b"[", b"0", b"]"), BAD_FIELD),
    "empty lists": (of_lists(b"[", b"[]", b"]"), BAD_FIELD),
    "lists of a number": (of_lists(b"[", b"[0]", b"]"), BAD_FIELD),
    "lists in lists, 126 deep": (of_lists(b"[", b"[" * 126 + b"]" * 126, b"]"), BAD_FIELD),
    "empty objects": (of_lists(b"[", b"{}", b"]"), BAD_FIELD),
    "objects of a name": (of_lists(b"[", b'{"a":1}', b"]"), BAD_FIELD),
    "objects without a name": (of_lists(b"[", b'{"":0}', b"]"), BAD_FIELD),
    "objects in objects, 126 deep": (
        of_lists(b"[", b'{"":' * 126 + b"0" + b"}" * 126, b"]"),
        BAD_FIELD,
    ),
    "operands without end": (of_lists(BEFORE_EXPR + b'["add",', b'"a"', b"]}"), BAD_ARITY),
    "axes without end": (of_lists(BEFORE_EXPR + b'["sum","a",[', b"0", b"]]}"), OUT_OF_RANGE),
    "pairs without end": (
        of_lists(BEFORE_EXPR_2 + b'["pad","a",[', b"[0,0]", b"]]}"),
        "error 12 ShapeMismatch\n",
    ),
    "dims without end": (
        of_lists(BEFORE_NAME + b'a":{"dims":[', b"1", b'],"data":[5]}},"expr":"a"}'),
        BAD_TENSOR,
    ),
    "sums of sums, 120 deep": (
        partial(iter, [request(ONE, SUMS, block=65_536)]),
        '{"data":[1],"dims":[1,1]}\n',
    ),
}
