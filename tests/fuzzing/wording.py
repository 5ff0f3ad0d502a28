"""The words of the reasons of faults: what arguments, forms and other names of operations are called."""

from .rules import MOST_SIZE, VALUES, is_pair, is_size

NAMES_OF = {
    "constant": ["VALUE"],
    "broadcast": ["COUNTS"],
    "slice": ["OFFSETS", "EXTENTS"],
    "shuffle": ["ORDER"],
    "reshape": ["SIZES"],
    "chip": ["OFFSET", "AXIS"],
    "reverse": ["FLAGS"],
    "contract": ["PAIRS"],
    "stride": ["STEPS"],
    "pad": ["PAIRS"],
    "concat": ["AXIS"],
    "convolve": ["AXES"],
    **dict.fromkeys(("sum", "prod", "maximum", "minimum", "all", "any"), ["AXES"]),
    **dict.fromkeys(("cumsum", "cumprod", "argmax", "argmin", "take"), ["AXIS"]),
}
FORM_WORDS = {
    "size": f"a whole number from 0 to {MOST_SIZE}",
    "sizes": f"a list of whole numbers from 0 to {MOST_SIZE}",
    "pairs": f"a list of lists of two whole numbers from 0 to {MOST_SIZE}",
    "flags": "a list of truth values",
    "value": f"a whole number from {VALUES.start} to {VALUES.stop - 1}",
}
ITEMS = {"sizes": is_size, "pairs": is_pair, "flags": lambda it: isinstance(it, bool)}
COUNTS = {1: "one operand", 2: "two operands", 3: "three operands"}
MEANT = {
    **dict.fromkeys(("const", "fill"), '"constant" has one value at each place'),
    **dict.fromkeys(("matmul", "dot"), '"contract" sums products over pairs of axes'),
    **dict.fromkeys(("transpose", "permute"), '"shuffle" reorders the axes'),
    "max": '"maximum" reduces axes, and "cwise_max" takes two tensors',
    "min": '"minimum" reduces axes, and "cwise_min" takes two tensors',
    "product": '"prod" reduces axes, and "mul" takes two tensors',
}
