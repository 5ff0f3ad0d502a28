"""Where the fault of a request text is, found by a walk of its own over the rules of docs/REQUEST.md.

Nothing here is shared with the program, and of the reference that works out answers only how JSON
is read, the forms of arguments, and what each operation says of dims.
"""

from .operations import OPERATIONS_OF
from .reference import is_tensor, parse
from .rules import FIELDS, FORMS, VERSIONS, Fault, is_let, is_whole


class Place(Exception):
    """A fault, and the steps to its place from the root."""

    def __init__(self, number, steps):
        super().__init__(number, steps)
        self.number, self.steps = number, steps


def pointer(steps):
    """Steps as a JSON pointer (RFC 6901)."""
    return "".join(f"/{escaped(it)}" for it in steps)


def escaped(step):
    return str(step).replace("~", "~0").replace("/", "~1")


def shown(steps):
    """The place as the lines have it: its pointer, where a few letters are as JSON escapes them."""
    return "".join(f"\\u{ord(it):04x}" if it < " " or it in '":\\' else it for it in pointer(steps))


class Tree:
    """A walk over an expression that knows where it is."""

    def __init__(self, version, inputs):
        self.version, self.left = version, version.most_nodes
        self.known = {name: it["dims"] for name, it in inputs.items()}

    def whole(self, tree, steps):
        """The same as below, of the whole expression, in front of which lets may stand."""
        while is_let(self.version, tree):
            self.count(steps)
            if len(tree) != 4:
                raise Place(10, steps)
            if not isinstance(tree[1], str) or tree[1] in self.known:
                raise Place(11, [*steps, 1])
            self.known[tree[1]] = self.dims(tree[2], [*steps, 2])
            tree, steps = tree[3], [*steps, 3]
        return self.dims(tree, steps)

    def count(self, steps):
        if self.left == 0:
            raise Place(14, steps)
        self.left -= 1

    def dims(self, tree, steps):
        """The result dims of what stands at these steps, or the place of its first fault."""
        self.count(steps)
        if isinstance(tree, str):
            if tree not in self.known:
                raise Place(8, steps)
            return self.known[tree]
        if not isinstance(tree, list) or tree == []:
            raise Place(9, steps)
        known = OPERATIONS_OF[self.version.number]
        if not isinstance(tree[0], str) or tree[0] not in known:
            raise Place(9, [*steps, 0])
        operands, forms, dims_of, _ = known[tree[0]]
        if len(tree) - 1 != operands + len(forms):
            raise Place(10, steps)
        below = [self.dims(tree[at], [*steps, at]) for at in range(1, operands + 1)]
        for at, form in enumerate(forms, operands + 1):
            if not FORMS[form](tree[at]):
                raise Place(11, [*steps, at])
        try:
            return dims_of(self.version, *below, *tree[operands + 1 :])
        except Fault as fault:
            raise Place(fault.number, steps) from None


def look(fields, versions):
    """The dims of what a text's value asks for, or its first fault."""
    if not isinstance(fields, dict) or fields.keys() != FIELDS:
        raise Place(3, [])
    if not is_whole(fields["version"], min(versions), max(versions)):
        raise Place(4, ["version"])
    version, inputs = versions[fields["version"]], fields["inputs"]
    if not is_whole(fields["workers"], 1, version.most_workers):
        raise Place(5, ["workers"])
    if not is_whole(fields["block"], 1, version.most_places):
        raise Place(6, ["block"])
    if not isinstance(inputs, dict):
        raise Place(7, ["inputs"])
    for name in sorted(inputs, key=str.encode):
        if not is_tensor(version, inputs[name]):
            raise Place(7, ["inputs", name])
    return Tree(version, inputs).whole(fields["expr"], ["expr"])


def find(text, versions=VERSIONS):
    """The value of a text, where it is JSON; its fault, as a number and the steps to the place, or
    None; and the dims of its result, or None."""
    value = None
    try:
        value = parse(text)
        return value, None, look(value, versions)
    except Fault as fault:
        return value, (fault.number, []), None
    except Place as found:
        return value, (found.number, found.steps), None
