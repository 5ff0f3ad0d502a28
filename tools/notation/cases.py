"""Cases of definitions, as trees: patterns on the left of `=`, and one term on the right.

A term is a tuple that begins with its kind: ("name", its parts), ("value", a number or a text),
("call", head, arguments), ("function", name, body), ("part", term, names), ("record", the record
that it changes or none, fields).
"""

import ast
import functools

from .modules import words_of

# How tightly each operation binds, as the kit's files have it.
BINDS = {"+": 65, "-": 65, "*": 70, "/": 70, "%": 70, "^": 75, "∷": 67, "++": 65}
BINDS.update({"==": 40, "&&": 35, "||": 30, "+ℤ": 6, "-ℤ": 6, "*ℤ": 7})
GOES_ON_RIGHT = {"^", "∷"}
ENDS = {None, ")", "}", ";", ",", "=", "then", "else", "in", "."}
# The names of what `if`, `then` and `else` make of three terms, and a comma of two.
IF, PAIR = ("name", ("if◌then◌else◌",)), ("name", ("◌,◌",))


class Reader:
    """Reads the words of a case from the left. After the last word comes None."""

    def __init__(self, words):
        self.text, self.words = " ".join(words), iter(words)
        self.next = next(self.words)

    def take(self, *wanted):
        """Returns the next word. If words are wanted, it has to be one of them."""
        word, self.next = self.next, next(self.words, None)
        if wanted and word not in wanted:
            raise ValueError(f"{word} in {self.text}")
        return word

    def behind(self, word):
        """Returns the term after a word."""
        self.take(word)
        return self.term()

    def case(self, name):
        """Returns the patterns and the term of a case."""
        self.take(name)
        patterns, body = self.atoms(), self.behind("=")
        self.take(None)
        return patterns, body

    def term(self, least=0):
        """Returns a term whose operations bind at least this tightly."""
        head, *arguments = self.atoms() or self.take("a term")
        left = ("call", head, tuple(arguments)) if arguments else head
        while BINDS.get(self.next, -1) >= least:
            word = self.take()
            right = self.term(BINDS[word] + (word not in GOES_ON_RIGHT))
            left = "call", ("name", (f"◌{word}◌",)), (left, right)
        return left

    def atoms(self):
        """Returns patterns or arguments."""
        found = []
        while self.next not in ENDS and self.next not in BINDS:
            found.append(self.atom())
        return found

    def atom(self):
        """Returns a term that is one word, or that begins with a word or a bracket."""
        word = self.take()
        if word[0] == '"' or word[0].isdigit():
            return "value", ast.literal_eval(word)
        if word == "if":
            return "call", IF, (self.term(), self.behind("then"), self.behind("else"))
        if word == "λ":
            return self.function()
        if word == "let":
            # What is bound is the argument of a function.
            name, bound = self.take(), self.behind("=")
            return "call", ("function", name, self.behind("in")), (bound,)
        if word not in ("(", "record"):
            return "name", tuple(word.split("."))
        term = self.bracket() if word == "(" else self.record()
        if self.next not in ENDS and self.next[0] == ".":
            return "part", term, tuple(self.take()[1:].split("."))
        return term

    def function(self):
        """Returns a function, which takes its names one after the other."""
        name = self.take()
        return "function", name, self.behind(".") if self.next == "." else self.function()

    def bracket(self):
        """Returns a term or a pair, up to the end of the bracket. The second part of a pair may be a
        pair too."""
        term = self.term()
        return term if self.take(",", ")") == ")" else ("call", PAIR, (term, self.bracket()))

    def record(self):
        """Returns a record, or a changed copy of one."""
        base, fields = None if self.next == "{" else self.atom(), []
        self.take("{")
        while self.next != "}":
            fields.append((self.take(), self.behind("=")))
            if self.next == ";":
                self.take()
        self.take("}")
        return "record", base, tuple(fields)


@functools.lru_cache(None)
def cases_of(item):
    """Returns the cases of a definition: the line of each, its patterns and its term."""
    # The parameters of the modules around it come first.
    above = [("name", (name,)) for name, _ in item.section]
    read = [(it[0][0], *Reader(words_of(it)).case(item.name)) for it in item.chunks[1:]]
    if not read:
        raise ValueError(f"{item.path} has no cases")
    return [(line, above + patterns, body) for line, patterns, body in read]
