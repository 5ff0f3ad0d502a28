"""Files of the notation: what each imports by name, and its definitions and types."""

import re

from crates import CRATES

WORD = re.compile(r'"(?:[^"\\]|\\.)*"|[(){};,]|[^\s(){};,"]*[^\s(){};,".]|\.')
# A comment; or a string, in which two dashes begin no comment.
COMMENT = re.compile(r'("(?:[^"\\]|\\.)*")|(?:^|(?<=\s))--(?=\s|$).*')
MODIFIERS = ("abbrev", "unfoldable", "pub")
# How a definition begins, word by word; any other line is a case of the last one.
SIGNATURE = re.compile(r"\S+ (\{[^{}]*\} )?: ")
# Lines without a meaning of their own.
SILENT = ("mod", "open", "infix", "infixl", "infixr", "unfolding")


def words_of(chunk):
    """Returns the words of numbered lines. A name is one word, with the names after its dots."""
    return [word for _, line in chunk for word in WORD.findall(line)]


def chunks_of(lines):
    """Returns lines in chunks. A line that is indented further, or closes a bracket, belongs to the
    lines above."""
    chunks = []
    for at, line in lines:
        indents = [len(it) - len(it.lstrip()) for it in (line, lines[0][1])]
        if indents[0] == indents[1] and line.strip() != "}":
            chunks.append([])
        chunks[-1].append((at, line))
    return chunks


def head_of(chunk):
    """Returns how many lines of a chunk there are up to the word `where`."""
    return 1 + next(at for at, (_, line) in enumerate(chunk) if line.split()[-1] == "where")


def parameters(words):
    """Returns how many arguments a constructor of this type takes, without arguments in braces."""
    text, last = re.sub(r"\{[^{}]*\} →", "", " ".join(words)), ""
    while text != last:
        last = text
        # From the inside: (x y : T) stands for two types, and any other (T) for one.
        text = re.sub(r"\(([^():]*):[^()]*\)", lambda it: " → ".join(it[1].split()), text)
        text = re.sub(r"\([^():]*\)", "it", text)
    return text.count("→")


class Item:
    """A definition, a data type or a record: its lines, without comments, in chunks."""

    def __init__(self, module, kind, name, section, chunk):
        self.module, self.kind, self.name, self.section = module, kind, name, section
        self.chunks, self.path = [chunk], f"{module.path}.{name}"


class Module:
    """A file, read as far as the chunks of its lines."""

    def __init__(self, path, file):
        self.path, self.file = path, file
        # Whether it is a file of this repository, and not of the kit.
        self.is_ours = file.startswith(f"{CRATES}/")
        self.items, self.constructors, self.aliases = {}, {}, {}
        # No file imports the value of `Unit` and the constructor of pairs.
        self.opened = {"tt": ("Prim", "tt"), "◌,◌": ("Prim", "◌,◌")}
        with open(file, encoding="utf-8") as text:
            self.text = text.read().split("\n")
        self.take_up()

    def take_up(self):
        """Reads the text, without comments and empty lines."""
        lines = [COMMENT.sub(lambda it: it[1] or "", line).rstrip() for line in self.text]
        self.read([it for it in enumerate(lines, 1) if it[1]], [])

    def read(self, lines, section):
        """Reads the definitions in some lines, inside modules with these parameters."""
        last = None
        for chunk in chunks_of(lines):
            words = words_of(chunk)
            while words[0] in MODIFIERS:
                words.pop(0)
            head = words[0]
            if head == "use":
                self.bring_in(words[1:])
            elif head in ("module", "mutual"):
                end = head_of(chunk) if head == "module" else 1
                names = re.findall(r"\(([^(){}:]+) : ", " ".join(words_of(chunk[:end])))
                own = [(it, chunk[0][0]) for it in " ".join(names).split()]
                self.read(chunk[end:], section + own)
            elif head in ("data", "record"):
                item = self.items[words[1]] = Item(self, head, words[1], section, chunk)
                behind = chunks_of(chunk[head_of(chunk) :]) if head == "data" else ()
                for typed in map(words_of, behind):
                    of = typed.index(":")
                    count = parameters(typed[of + 1 :])
                    self.constructors.update(dict.fromkeys(typed[:of], (item, count)))
            elif SIGNATURE.match(" ".join(words)):
                last = self.items[head] = Item(self, "definition", head, section, chunk)
            elif last and head not in SILENT:
                last.chunks.append(chunk)

    def bring_in(self, words):
        """Reads a line `use`: of some names of a module, or of a module with a name of its own."""
        path, names = words[0].replace(".TheVariants", ""), " ".join(words[3:-1]).split(",")
        if "{" in words:
            named = [it.split() for it in names if it.strip()]
            self.opened.update((it[-1], (path, it[0])) for it in named)
        else:
            self.aliases[words[2] if words[1:] else path.rpartition(".")[2]] = path
