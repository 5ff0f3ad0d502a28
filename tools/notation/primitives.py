"""Words that no file defines: numbers, truth values and lists, as values of Python.

A number is an int, a list and a pair are tuples, a record is a dict, and a value of another data type
is a tuple of its constructor's name and arguments. All these are words of the kit, and mean what the
kit's files say.
"""

import re

# By module, each word and its meaning in Python. Numbers in braces stand for its arguments. An argument
# that is there twice may be evaluated twice.
WORDS = {
    "Prim": "tt = (); ◌,◌ = {0}, {1}",
    "Prim.Native.Nat": "zero = 0; suc = {0} + 1; ◌+◌ = {0} + {1}; ◌-◌ = max({0} - {1}, 0); "
    "◌*◌ = {0} * {1}; ◌/◌ = {0} // {1} if {1} else 0; ◌%◌ = {0} % {1} if {1} else {0}; "
    "◌^◌ = {0} ** {1}; min = min({0}, {1}); max = max({0}, {1}); "
    "bit_and = {0} & {1}; bit_or = {0} | {1}; bit_xor = {0} ^ {1}",
    "lib.Dec": "leb = {0} <= {1}; ltb = {0} < {1}; eqb = {0} == {1}",
    "mathlib.Core.Bool": "true = True; false = False; not = not {0}; cond = {1} if {0} else {2}; "
    "◌&&◌ = {0} and {1}; ◌||◌ = {0} or {1}",
    "Rattle.core.specs.Bool": "if◌then◌else◌ = {1} if {0} else {2}",
    "mathlib.Core.List.Defs": "[] = (); ◌∷◌ = ({0},) + {1}; ◌++◌ = {0} + {1}; "
    "map = tuple(map({0}, {1}))",
    "lib.ListN": "length = len({0}); take = {1}[:{0}]; drop = {1}[{0}:]; "
    "get_or = {0}[{1}] if {1} < len({0}) else {2}",
    "lib.IntN": "pos = {0}; negsuc = -1 - {0}; ◌+ℤ◌ = {0} + {1}; ◌-ℤ◌ = {0} - {1}; "
    "◌*ℤ◌ = {0} * {1}",
    # As it is defined, but only the case that holds is evaluated.
    "Rattle.core.specs.Ordering": "match_ordering = {{'Less': lambda: {1}, 'Equal': lambda: {2}, "
    "'Greater': lambda: {3}}}[{0}[0]]()",
    "lib.Chars": "codes = tuple(map(ord, {0}))",
    # As it is defined, but without as many steps as the number.
    "lib.Count": "ones = bin({0}).count('1')",
    # Floats are only tested for a nearest one: a format is the least number without it.
    "lib.Ieee": "binary64 = 2**1024 - 2**970; "
    "round = ('fin', {1}, None, None) if {2} < {0} * {3} else ('inf', {1})",
}
# Words in patterns: the test that a value fits, and the arguments that it then has.
PATTERNS = {
    "Prim.Native.Nat.zero": ("{} == 0", []),
    "Prim.Native.Nat.suc": ("{} > 0", ["({} - 1)"]),
    "mathlib.Core.Bool.true": ("{}", []),
    "mathlib.Core.Bool.false": ("not {}", []),
    "mathlib.Core.List.Defs.[]": ("not {}", []),
    "mathlib.Core.List.Defs.◌∷◌": ("{}", ["{}[0]", "{}[1:]"]),
    "lib.IntN.pos": ("{} >= 0", ["{}"]),
    "lib.IntN.negsuc": ("{} < 0", ["(-1 - {})"]),
}
# By its whole name, the number of each word's arguments and its template.
PRIMITIVES = {
    f"{module}.{name}": (len(set(re.findall(r"\{\d\}", template))), template)
    for module, words in WORDS.items()
    for name, _, template in (it.partition(" = ") for it in words.split("; "))
}
