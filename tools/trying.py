"""Tries the edits of a crate over the proved crates below it. One check tries edits of many functions.

A function's proof uses its own body and the contracts of other functions. So one check of several
changed functions judges each of them, by the goals of that function that are not proved. An edit that
a check does not judge is tried again in the next round: a second edit of one function, or an edit of
a function whose proof waits for another. A check of the whole crate tries the rest: edits outside
functions, functions without a unique name of the prover, and edits that no round has judged.
"""

import os
import re
import shutil
import subprocess
import tempfile

from naming import function_at

# What the prover prints if a goal isn't proved: at a place of a source, or also of a proof.
GOAL = re.compile(r"note: (src/\S+?):(\d+):\d+: (?:it is not proved|`search` found no proof)")
REFUSAL = re.compile(rf"\S+:\d+:\d+: error|{GOAL.pattern}")
# What it prints if it begins no proof: about a source, or about a name that `--only` asks for.
ERROR = re.compile(r"(?:\./)?(src/\S+?):(\d+):\d+: error")
QUOTED = re.compile(r"`([^`]+)`")
# These lines judge nothing. The edit took away a name that a proof needs, or the prover can't read the
# form of the body. No contract has refused the edit.
NO_GOAL = re.compile(
    r"has no field|is not in scope|has no `|was not admitted|borrow checker does not cover"
)
PARTS = "src", "specs", "proofs"
LONGEST_CHECK = 7200


class Edit:
    """An edit: its path and name, its changes, the functions that it changes, whether it changes more
    than functions, and the reason if it can't be applied."""

    def __init__(self, path, sources):
        self.path, self.name = path, os.path.basename(path).removesuffix(".edit")
        self.sources, self.changes = sources, []
        with open(path, encoding="utf-8") as lines:
            for line in lines.read().split("\n"):
                word, _, rest = line.partition(":")
                if word == "file":
                    file = rest.strip()
                elif word == "old":
                    old = rest.removeprefix(" ")
                elif word == "new":
                    self.changes.append((file, old, rest.removeprefix(" ")))
        self.functions, self.is_wide = set(), False
        self.why = "" if self.applied({}) else "a text doesn't stand in its file once"

    def applied(self, texts):
        """Returns these texts with the edit's changes, or None if a change can't be made there."""
        texts = dict(texts)
        for file, old, new in self.changes:
            text = texts.get(file) or self.sources.text(file)
            if text.count(old) != 1:
                return None
            if function := function_at(file, text, text.index(old)):
                self.functions.add(function)
            # Text before an item is another item, which a changed function calls.
            self.is_wide |= not function and not new.endswith(old)
            texts[file] = text.replace(old, new)
        return texts

    def proofs(self):
        return {it.proof() for it in self.functions}

    def asked(self):
        """Returns the prover's names of the functions, as `--only` takes them."""
        return {"::".join(self.sources.path_of(it)) for it in self.functions}

    def needs_whole(self):
        """Returns the reason if no check of functions can judge the edit, or None."""
        if not self.functions:
            return "it changes no function's body"
        unnamed = next((it for it in self.functions if not self.sources.path_of(it)), None)
        return unnamed and f"the prover has no one name for {'::'.join([*unnamed.module, unnamed.name])}"

    def lines_of(self, pattern, lines, texts):
        """Returns the lines of this pattern whose places are in the edit's functions, as these texts
        have them."""
        found = []
        for line, at in [(it, at) for it in lines if (at := pattern.match(it))]:
            text = texts.get(at[1]) or self.sources.text(at[1])
            place = len("".join(text.splitlines(True)[: int(at[2])])) - 1
            if function_at(at[1], text, place) in self.functions:
                found.append(line)
        return found


class Trial:
    """A crate, the prover's command for it, its edits, and a folder for what the checks keep."""

    def __init__(self, crate, words, edits, room):
        self.crate, self.edits, self.room = crate, edits, room
        kept = os.path.join(room, f"{crate.name}.kept")
        self.words = [*words, "--jobs", "1", "--incremental", kept]
        # The edits that a check of the whole crate tries, and why.
        self.alone = {}

    def judged(self):
        """Yields each edit and the word for it, when it is judged."""
        for it in [it for it in self.edits if it.why]:
            yield it, f"SAYS NOTHING: {it.why}"
        left = [it for it in self.edits if not it.why]
        self.alone = {it: why for it in left if (why := it.needs_whole())}
        while left := [it for it in left if it not in self.alone]:
            together = next_round(left)
            words = self.words_for(together)
            yield from words.items()
            if not words:
                self.alone = {it: "no check of its functions judges it" for it in together} | self.alone
            left = [it for it in left if it not in words]
        for it, why in self.alone.items():
            yield it, self.word_alone(it, why)

    def words_for(self, edits):
        """Returns the words for the edits that one check of their functions judges. If the check begins
        no proof, the edits that it names are tried apart from the others."""
        texts = with_all(edits)
        asked = sorted(set().union(*(it.asked() for it in edits)))
        status, lines = self.check(texts, [f"--only={it}" for it in asked])
        if status is None:
            return {it: f"SAYS NOTHING: {lines[-1]}" for it in edits}
        if lines[-1].startswith("only="):
            found = {it: self.word_for(it, lines, texts) for it in edits}
            return {it: word for it, word in found.items() if word}
        if len(edits) == 1:
            self.alone[edits[0]] = f"a check of its functions says {told(lines)}"
            return {}
        quoted = set(QUOTED.findall(lines[-1]))
        blamed = [it for it in edits if it.asked() & quoted or it.lines_of(ERROR, lines, texts)]
        if not 0 < len(blamed) < len(edits):
            blamed = edits[len(edits) // 2 :]
        return self.words_for([it for it in edits if it not in blamed]) | self.words_for(blamed)

    def word_for(self, edit, lines, texts):
        """Returns the word for an edit, if what the prover says of its functions judges it."""
        own, said = edit.lines_of(GOAL, lines, texts), []
        for function in edit.functions:
            *module, name = path = edit.sources.path_of(function) or (function.name,)
            begin = f"fn {self.crate.name}::{'::'.join(path)}: "
            said += [it.removeprefix(begin) for it in lines if it.startswith(begin)]
            proofs = name, f"+{name}", f"+{function.cycle}"
            folders = tuple("/".join(["./proofs", *module, it, ""]) for it in proofs)
            own += [it for it in lines if it.startswith(folders) and ": error: " in it]
        own += [it for it in said if it.startswith("no proof: expected")]
        if first := next((it for it in own if not NO_GOAL.search(it)), None):
            return f"refused: {first}"
        is_proved = len(said) == len(edit.functions) and all(re.match("proved\\b", it) for it in said)
        return "PROVED" if is_proved and not edit.is_wide else None

    def word_alone(self, edit, why):
        """Returns the word for an edit by a check of the whole crate, and why it needs one."""
        status, lines = self.check(edit.applied({}), [])
        if status == 0:
            return "PROVED"
        if not lines[-1].startswith("logic=not-proved"):
            return f"SAYS NOTHING: {told(lines)}"
        goals = [it for it in lines if REFUSAL.match(it)]
        if first := next((it for it in goals if not NO_GOAL.search(it)), None):
            return f"refused by a check of the whole crate, since {why}: {first}"
        return f"SAYS NOTHING: {told(goals or lines)}"

    def check(self, texts, flags):
        """Checks a copy of the crate with these texts. Returns the status and the lines that were
        printed."""
        with tempfile.TemporaryDirectory(prefix="edit-", dir=self.room) as room:
            for part in PARTS:
                if os.path.isdir(os.path.join(self.crate.folder, part)):
                    shutil.copytree(os.path.join(self.crate.folder, part), os.path.join(room, part))
            for file, text in texts.items():
                with open(os.path.join(room, file), "w", encoding="utf-8") as out:
                    out.write(text)
            how = {"cwd": room, "stdin": subprocess.DEVNULL, "stdout": subprocess.PIPE}
            how |= {"stderr": subprocess.STDOUT, "text": True, "errors": "replace"}
            words = [*self.words, *flags, "src/lib.rt"]
            try:
                ran = subprocess.run(words, **how, check=False, timeout=LONGEST_CHECK)
            except subprocess.TimeoutExpired:
                return None, [f"no verdict in {LONGEST_CHECK} s"]
        # An indented line belongs to the line above.
        return ran.returncode, re.sub(r"\n +", " ", ran.stdout).rstrip("\n").split("\n")


def next_round(left):
    """Returns edits for one round: as many as change different functions, or one that changes more."""
    if wide := [it for it in left if it.is_wide]:
        return wide[:1]
    changed, together, texts = set(), [], {}
    for it in left:
        if not changed & it.proofs() and (after := it.applied(texts)):
            changed, texts = changed | it.proofs(), after
            together.append(it)
    return together


def with_all(edits):
    """Returns the texts with the changes of all these edits."""
    texts = {}
    for it in edits:
        texts = it.applied(texts)
    return texts


def told(lines):
    """Returns the line that says why there is no verdict."""
    return next((it for it in lines if ": error" in it), lines[-1])
