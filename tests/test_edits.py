"""tools/edits over a small crate, with a stand-in for the prover: by which names it asks for functions,
and what it says of edits that are refused, are proved, or aren't judged. The crate's sources, the
prover's names of its functions and its edits stand below; a new case is an edit of EDITS.
"""

import json
import os
import re
import shutil
import subprocess
import sys

import pytest

from naming import function_at

TOP = os.path.dirname(os.path.dirname(os.path.abspath(__file__)))
INLINED = """impl Count {
    fn one(&self) -> u64 {
        1
    }

    #[inline(always)]
    #[cycle(calls)]
    pub(crate) fn two(&self) -> u64 {
        2
    }
}
"""
SCRIPTS = [f"tools/{it}" for it in ("edits", "naming.py", "trying.py")]
SCRIPTS += [f"build/{it}" for it in ("crates.py", "lanes", "usage.py")]
SOURCES = {
    "lib": "pub mod count;\n",
    "count": """pub struct Count<K, A> {}

impl<K, A> Count<K, A> {
    pub fn one(&self) -> u64 {
        let one = 1;
        one
    }

    pub fn two(&self) -> u64 {
        let two = 2;
        two
    }
}
""",
    "rows": """pub struct RowsFault {}

impl From<AllocError> for RowsFault {
    fn from(error: AllocError) -> RowsFault {
        let made = error;
        made
    }
}

pub trait Rows<J>: Sized {
    fn drain_with(self) -> Vec<J>;

    final fn drain_all(self) -> Vec<J> {
        let drained = self;
        drained
    }
}

impl<J, A: Allocator, Q: Kept<J>> Rows<J> for Queue<Q> {
    fn drain_with(self) -> Vec<J> {
        let kept = self;
        kept
    }
}
""",
    "rows/passing": """impl<A: Allocator> Count<Rowed, A> {
    pub fn pass_all(&self) -> bool {
        let passed = 0;
        passed
    }
}
""",
    "taken": """pub struct Block {}

impl Block {
    fn fill(&self) {
        let taken = 0;
    }
}
""",
    "scanned": """pub struct Block {}

impl Block {
    fn fill(&self) {
        let scanned = 0;
    }
}
""",
    "limits": "pub const MOST: u64 = 7;\n\npub fn half() -> u64 {\n    let half = MOST / 2;\n    half\n}\n",
}
# The prover's name of the function that each text stands in.
NAMES = {
    "let one": "count::Count::one",
    "let two": "count::Count::two",
    "let made": "rows::RowsFaultFromAllocError::from",
    "let drained": "rows::Rows::drain_all",
    "let kept": "rows::QueueRows::drain_with",
    "let passed": "rows::passing::Count+Rowed+A::pass_all",
    "let taken": "taken::Block::fill",
    "let scanned": "scanned::Block::fill",
    "let half": "limits::half",
}
# It finds a goal that isn't proved where a source says `wrong`, misses a name where one says `a_name`, has
# no proof where one says `uncovered`, reads none that says `unreadable`, doesn't end where one says
# `endless`, and gives no verdict on the whole crate where one says `vague`.
PROVER = """#!{python}
import os, sys, time

names, asked = {names}, [it[7:] for it in sys.argv if it.startswith("--only=")]
with open("{asked}", "a") as file:
    print(*asked, file=file)
files = [os.path.join(at, it) for at, _, names_there in os.walk("src") for it in names_there]
lines = [(file, number, line) for file in files for number, line in enumerate(open(file), 1)]
for unknown in [it for it in asked if it not in names.values()]:
    print("rattle: error: `small` has no function `" + unknown + "`: help: write another")
    sys.exit(2)
if any("endless" in it[2] for it in lines):
    time.sleep(60)
for file, number, line in [it for it in lines if "unreadable" in it[2]]:
    print(f"{{file}}:{{number}}:5: error[E0000]: a text that is no text")
    sys.exit(1)
refused = [it for it in lines if "wrong" in it[2]]
for file, number, line in refused:
    print(f"note: {{file}}:{{number}}:9: it is not proved that the result is right (`goal-{{number}}`)")
for file, number, line in [it for it in lines if "a_name" in it[2]]:
    print("./proofs/count/Count/one/Answers.antt:1:1: error: `goal`: record `Goals`\\n  has no field `gone`")
    refused.append(line)
for file, number, line in [it for it in lines if "uncovered" in it[2]]:
    print("./proofs/count/Count/one/Answers.antt: error: the borrow checker does not cover it")
    refused.append(line)
vague = [it for it in lines if "vague" in it[2]]
if vague and not asked:
    print("rattle: no verdict")
    sys.exit(3)
for it in [it for it in asked if not refused + vague]:
    print(f"fn small::{{it}}: proved, may wait")
print(f"only={{len(asked)}} proved=0" if asked else f"logic={{'not-proved' if refused else 'proved'}}")
sys.exit(1 if refused else 0)
"""


# It proves nothing.
KIT = """#!/bin/sh
case $1 in
    doc) echo {room}/kit/START-HERE.md ;;
    ci) echo "rt: small NOT PROVED" && exit 1 ;;
esac
"""


class Repository:
    """A repository of one crate, which is proved, and a kit whose prover is the stand-in."""

    def __init__(self, room):
        self.room, self.crate = room, room / "crates" / "small"
        for it in SCRIPTS:
            (room / it).parent.mkdir(exist_ok=True)
            shutil.copy2(os.path.join(TOP, it), room / it)
        self.write("build/seconds", "small 10\n")
        self.write("crates.txt", "small:\n")
        self.write("HANDLES", "")
        self.write("crates/small/edits/named/none.md", "")
        for module, text in SOURCES.items():
            self.write(f"crates/small/src/{module}.rt", text)
        self.name(NAMES.values())
        self.write("bin/rt", KIT.format(room=room), 0o755)
        prover = PROVER.format(python=sys.executable, names=NAMES, asked=room / "asked")
        self.write("kit/bin/rattle", prover, 0o755)
        self.env = {**os.environ, "PATH": f"{room / 'bin'}:{os.environ['PATH']}", "RT_JOBS": "2"}

    def write(self, path, text, mode=0o644):
        (self.room / path).parent.mkdir(parents=True, exist_ok=True)
        (self.room / path).write_text(text)
        (self.room / path).chmod(mode)

    def name(self, names):
        """Has the crate's library list these functions."""
        listed = [[f"small::{it}", {}] for it in names]
        self.write("crates/small/out/rlib/small.rlib/toolchain/mir.json", json.dumps(listed))

    def edit(self, name, old, new, is_named=False):
        """Adds an edit of the source that has this text."""
        module = next(module for module, text in SOURCES.items() if old in text)
        folder = "edits/named" if is_named else "edits"
        self.write(f"crates/small/{folder}/{name}.edit", f"file: src/{module}.rt\nold: {old}\nnew: {new}\n")

    def ask(self, *words):
        words = [sys.executable, self.room / "tools" / "edits", *words]
        return subprocess.run(words, capture_output=True, text=True, env=self.env, check=False)

    def run(self):
        """The status of tools/edits, the word for each edit, its last line, and what each check was asked."""
        ran = self.ask("--gate")
        assert not ran.stderr
        *lines, last = ran.stdout.splitlines()
        found = dict(it.removeprefix("small/").split(": ", 1) for it in lines)
        checks = (self.room / "asked").read_text().splitlines()
        return ran.returncode, found, last, [it.split() for it in checks]


@pytest.fixture
def repository(tmp_path):
    return Repository(tmp_path)


@pytest.mark.parametrize("text", NAMES)
def test_a_function_is_asked_for_by_the_name_that_the_prover_has_for_it(repository, text):
    repository.edit("wrong", text, f"wrong {text}")
    status, words, _, checks = repository.run()
    assert checks == [[NAMES[text]]]
    assert words["wrong"].startswith("refused: note: src/") and status == 0


def test_edits_of_different_functions_are_tried_in_one_check(repository):
    for number, text in enumerate(NAMES):
        repository.edit(f"wrong-{number}", text, f"wrong {text}")
    status, words, last, checks = repository.run()
    assert [sorted(it) for it in checks] == [sorted(NAMES.values())]
    assert all(it.startswith("refused: note: src/") for it in words.values()) and status == 0
    assert f"{len(NAMES)} drawn of {len(NAMES)}, {len(NAMES)} refused" in last


def test_a_name_that_the_library_lacks_sends_one_edit_alone_to_a_whole_check(repository):
    repository.name(it for it in NAMES.values() if not it.endswith("pass_all"))
    repository.edit("unknown", "let passed", "wrong")
    repository.edit("one", "let one", "wrong")
    repository.edit("two", "let two", "wrong")
    status, words, _, checks = repository.run()
    assert [sorted(it) for it in checks] == [["count::Count::one", "count::Count::two"], []]
    assert words["one"].startswith("refused: ") and words["two"].startswith("refused: ")
    assert "no one name for rows::passing::pass_all: note: src/" in words["unknown"] and status == 0


def test_a_name_that_the_prover_refuses_sends_one_edit_alone_to_a_whole_check(repository):
    repository.name([*NAMES.values(), "limits::unheard"])
    repository.write("crates/small/src/limits.rt", SOURCES["limits"].replace("half()", "unheard()"))
    repository.edit("unknown", "let half", "wrong")
    for number, text in enumerate(it for it in NAMES if it != "let half"):
        repository.edit(f"wrong-{number}", text, f"wrong {text}")
    status, words, _, checks = repository.run()
    assert [len(it) for it in checks] == [9, 8, 1, 0]
    assert words.pop("unknown").startswith("refused by a check of the whole crate, ")
    assert all(it.startswith("refused: ") for it in words.values()) and status == 0


def test_an_edit_that_does_not_compile_fails_the_run_and_spoils_no_other(repository):
    repository.edit("bad", "let one", "unreadable")
    repository.edit("wrong", "let passed", "wrong")
    status, words, _, _ = repository.run()
    assert words["wrong"].startswith("refused: ")
    assert words["bad"].startswith("SAYS NOTHING: src/count.rt:5:5: error[E0000]") and status == 1


@pytest.mark.parametrize(
    "new, word",
    [
        ("same", "PROVED"),
        ("vague", "SAYS NOTHING: rattle: no verdict"),
        ("a_name", "SAYS NOTHING: ./proofs/"),
        ("uncovered", "SAYS NOTHING: ./proofs/"),
    ],
    ids=["proved", "no verdict", "refused for a name alone", "refused for its form alone"],
)
@pytest.mark.parametrize("is_named", [False, True], ids=["drawn", "named"])
def test_an_edit_that_no_goal_refuses_fails_the_run(repository, new, word, is_named):
    repository.edit("wrong", "let passed", "wrong")
    repository.edit("unjudged", "let one", new, is_named)
    status, words, last, _ = repository.run()
    assert words["wrong"].startswith("refused: ")
    assert words["unjudged"].startswith(word) and status == 1
    assert ", 1 refused" in last


@pytest.mark.parametrize(
    "text, name",
    [("fn one", "one"), ("1\n", "one"), ("#[inline", "two"), ("fn two", "two"), ("2\n", "two")],
)
def test_a_place_lies_in_a_function_from_its_attributes_on(text, name):
    found = function_at("src/rows/inlined.rt", INLINED, INLINED.index(text))
    assert found.name == name and found.module == ("rows", "inlined")
    assert found.block.type == "Count" and found.cycle == {"one": None, "two": "calls"}[name]


def test_a_check_without_end_fails_the_run(repository):
    script = repository.room / "tools" / "trying.py"
    script.write_text(re.sub("LONGEST_CHECK = .*", "LONGEST_CHECK = 1", script.read_text()))
    repository.edit("endless", "let one", "endless")
    status, words, _, _ = repository.run()
    assert words == {"endless": "SAYS NOTHING: no verdict in 1 s"} and status == 1


def test_an_edit_whose_functions_are_proved_takes_no_check_of_the_whole_crate(repository):
    repository.edit("same", "let passed", "let the_same")
    status, words, _, checks = repository.run()
    assert words == {"same": "PROVED"} and checks == [[NAMES["let passed"]]] and status == 1


def test_a_constant_is_tried_by_a_check_of_the_whole_crate(repository):
    repository.edit("most", "MOST: u64 = 7", "MOST: u64 = 8 /* wrong */")
    status, words, _, checks = repository.run()
    assert checks == [[]] and status == 0
    assert words["most"].startswith("refused by a check of the whole crate, since it changes no ")


def test_the_gate_tries_all_named_edits_and_draws_the_same_others_again(repository):
    script = repository.room / "tools" / "edits"
    budget = "BUDGET = 300"
    assert budget in script.read_text()
    script.write_text(script.read_text().replace(budget, "BUDGET = 3"))
    for number, text in enumerate(NAMES):
        repository.edit(f"wrong-{number}", text, f"wrong {text}")
    repository.edit("named", "let half", "wrong again", is_named=True)
    status, words, last, _ = repository.run()
    assert "named" in words and status == 0
    assert 1 < len(words) < len(NAMES) and f"{len(words) - 1} drawn of {len(NAMES)}" in last
    assert repository.run()[1] == words


def test_without_the_libraries_there_is_no_verdict(repository):
    repository.edit("wrong", "let passed", "wrong")
    shutil.rmtree(repository.crate / "out")
    ran = repository.ask("--gate")
    assert ran.returncode == 2 and "no library of small" in ran.stderr


def test_of_a_crate_that_is_not_proved_there_is_no_verdict(repository):
    repository.edit("wrong", "let passed", "wrong")
    ran = repository.ask("small")
    assert (ran.returncode, ran.stdout) == (2, "") and ran.stderr.endswith("as they stand: small\n")
