"""Tests of tools/wrong-bodies: what it reads of kept outputs of `rt`, what its sums cover, and how it tries wrong bodies.

`tools/wrong-bodies --self-test` runs them. In the place of `rt` stands a program that takes each line with the word WRONG for a goal
that isn't proved, and can't read the word BROKEN.
"""

import os
import pathlib
import shutil
import subprocess
import sys
import tempfile
import time
import unittest

from edits import Edit, Span
from sources import Sources
from sums import Sums
from verdicts import Verdict, refused_alone

TOOLS = pathlib.Path(__file__).resolve().parent
LOW_FILE, HIGH_FILE, SPECS = "crates/low/src/lib.rt", "crates/high/src/lib.rt", "crates/low/specs/Words.antt"
LINES = "docs/wrong-bodies.txt"

LOW = """pub struct Count(pub u8); // a count
pub fn next(n: u8) -> u8
    ensures { result ≡ n + 1 }
{
    n + 1
}
pub fn other(n: u8) -> u8
    ensures { result ≡ n }
{
    n
}
impl Count {
    pub fn after(&self) -> u8
        ensures { result ≡ 6 }
    {
        6
    }
}
pub struct Other;
impl Other {
    pub fn after(&self) -> u8
        ensures { result ≡ 5 }
    {
        5
    }
}
"""

HIGH = """pub const MOST: u8 = twice(8);
const fn twice(n: u8) -> u8
    ensures { result ≡ n + n }
{
    n + n
}
pub fn first(n: u8) -> u8
    ensures { result ≡ n }
{
    let one = n;
    one
}
impl Link for Queue {
    fn second(&self) -> u8
        ensures { result ≡ 2 }
    {
        2
    }
}
fn silent() {
    let nothing = 0;
}
use low::Count;
fn after(n: u8) -> u8 {
    low::next(Count(n).0)
}
ghost use Rattle.high.specs.High.{high};
fn next(n: u8) -> u8
    ensures { result ≡ high }
{
    let two = n;
    after(two)
}
"""

WORDS = """-- a word
abbrev pub word : N
word = below

abbrev pub below : N
below = 1

abbrev pub spare : N
spare = 0
"""

HIGH_WORDS = """use Rattle.low.specs.Words.{word}

abbrev pub high : N
high = word
"""

EDITS = {
    "one": ("    let one = n;", "    let one = WRONG;"),
    "two": ("        2", "        WRONG"),
    "again": ("    one\n".strip("\n"), "    WRONG"),
    "silent": ("    let nothing = 0;", "    let nothing = WRONG;"),
    "limit": ("pub const MOST: u8 = twice(8);", "pub const MOST: u8 = WRONG;"),
    "const": ("    n + n", "    WRONG"),
    "next": ("    let two = n;", "    let two = WRONG;"),
    "harmless": ("    let one = n;", "    let one = n + 0;"),
    "broken": ("    let one = n;", "    let one = BROKEN;"),
    # by this one another function fails than the one that it changes
    "far": ("    let one = n;", "    let one = FAR;"),
}

RT = """#!/usr/bin/env python3
import pathlib
import sys
import time

top, here = pathlib.Path(__file__).parent, pathlib.Path.cwd()
with open(top / "asked", "a") as log:
    log.write(sys.argv[1] + "\\n")
if (top / "slow").exists():
    time.sleep(600)
if sys.argv[1] == "must-fail":
    for edit in sorted((here / "crates" / sys.argv[2] / "must-fail").glob("*.edit")):
        is_wrong = "WRONG" in edit.read_text() or "FAR" in edit.read_text()
        print(f"rt: must-fail {sys.argv[2]}/{edit.name}: " + ("refused, as it must be" if is_wrong else "NOT REFUSED: the crate is proved"))
    sys.exit()
(here / "out/incremental").mkdir(parents=True, exist_ok=True)
text = (here / "src/lib.rt").read_text()
if "BROKEN" in text:
    sys.exit("error[name]: src/lib.rt:9:15: there is no BROKEN")
wrong = [number for number, line in enumerate(text.split("\\n"), 1) if "WRONG" in line] + [4] * ("FAR" in text)
for number in wrong:
    print(f"note: src/lib.rt:{number}:5: it is not proved that what the function ensures holds")
print("logic=not-proved" if wrong else "logic=proved functions=4")
"""


class Example(unittest.TestCase):
    """A repository of two crates, with wrong bodies of the upper one and a program in the place of `rt`."""

    def setUp(self):
        room = tempfile.TemporaryDirectory()
        self.addCleanup(room.cleanup)
        self.top = pathlib.Path(room.name)
        files = {LOW_FILE: LOW, HIGH_FILE: HIGH, SPECS: WORDS, "crates/high/specs/High.antt": HIGH_WORDS}
        files |= {"crates.txt": "low: arrayvec\nhigh: low # the upper one\n", "HANDLES": "Handles allowed: none.\n", "tests/crates/list.txt": "", LINES: "gone/one 0\n", "rt": RT}
        for path, text in files.items():
            self.write(path, text)
        (self.top / "rt").chmod(0o755)
        shutil.copytree(TOOLS, self.top / "tools", ignore=shutil.ignore_patterns("__pycache__"))
        self.environment = {**os.environ, "RT": str(self.top / "rt"), "XDG_CACHE_HOME": str(self.top / "cache")}

    def write(self, path, text):
        (self.top / path).parent.mkdir(parents=True, exist_ok=True)
        (self.top / path).write_text(text)

    def change(self, path, old, new):
        text = (self.top / path).read_text()
        self.assertIn(old, text)
        self.write(path, text.replace(old, new))

    def edits(self, *names):
        """Writes these wrong bodies, and gives them."""
        paths = {it: f"crates/high/wrong-bodies/{it}.edit" for it in names}
        for name, path in paths.items():
            self.write(path, "file: src/lib.rt\nold: {}\nnew: {}\n".format(*EDITS[name]))
        return [Edit(self.top / it) for it in paths.values()]

    def tried(self, *words):
        """Runs tools/wrong-bodies. Gives its status, its last line, what `rt` was asked for, and the wrong bodies that have a line then."""
        ran = subprocess.run([sys.executable, self.top / "tools/wrong-bodies", *words], env=self.environment, stdout=subprocess.PIPE, text=True)
        self.said = ran.stdout.splitlines()
        asked = self.top / "asked"
        words = asked.read_text().split() if asked.exists() else []
        asked.unlink(missing_ok=True)
        lines = (self.top / LINES).read_text().splitlines()
        return ran.returncode, self.said[-1], words, [it.split()[0].removeprefix("high/") for it in lines if it != "gone/one 0"]


class Outputs(unittest.TestCase):
    """What is read of outputs of `rt` that were kept."""

    def test_a_check_tells_whose_goals_are_not_proved(self):
        verdict = Verdict((TOOLS / "said/check.txt").read_text())
        self.assertEqual((True, False), (verdict.is_there, verdict.is_proved))
        lines = {("src/number.rt", 21), ("src/number.rt", 28), ("src/number.rt", 35), ("src/outbox.rt", 61), ("src/writing.rt", 10)}
        self.assertEqual(lines, verdict.lines)
        self.assertEqual({f"proofs/{it}" for it in ("writing/pack", "reading/data_of", "reading/from_words")}, verdict.folders)

    def test_what_tells_nothing_of_a_contract(self):
        calls = "fn low::after: no proof: it calls `low::off`, which is not proved\nlogic=not-proved\n"
        names_what_is_gone = "./proofs/first/Answers.antt:3:5: error: `returns`: `c.one` has no field `two`\nlogic=not-proved\n"
        for said in calls, names_what_is_gone:
            self.assertEqual((set(), set()), (Verdict(said).lines, Verdict(said).folders))
        self.assertFalse(Verdict("error[type]: src/lib.rt:3:5: these types differ\n").is_there)

    def test_the_names_that_must_fail_saw_refused(self):
        ends = {"one": "refused, as it must be: src/lib.rt:3:1: why", "two": "NOT REFUSED", "three": "BAD EDIT", "four": "NOT TRIED"}
        said = "".join(f"rt: must-fail low/{name}.edit: {end}\n" for name, end in ends.items())
        self.assertEqual({"one"}, refused_alone(said))


class Spans(Example):
    """Which function a wrong body changes."""

    def span(self, edit):
        return edit.span(Sources(self.top).crate("high"), self.top / "crates/high", {"src/lib.rt": HIGH})

    def test_the_function_whose_body_it_changes(self):
        one, two = self.edits("one", "two")
        span = self.span(one)
        self.assertEqual(("src/lib.rt", 7, 12, "proofs/first"), (span.path, span.first, span.last, span.folder))
        self.assertEqual("proofs/QueueLink/second", self.span(two).folder)
        # a type's function may stand in another file than the type
        (self.top / "crates/high/proofs/queue/QueueLink/second").mkdir(parents=True)
        self.assertEqual("proofs/queue/QueueLink/second", self.span(two).folder)

    def test_none_where_others_may_see_what_it_changes_or_where_it_changes_two(self):
        one, two, *seen = self.edits("one", "two", "silent", "limit", "const")
        one.changes += two.changes
        self.assertEqual([None] * 4, [self.span(it) for it in (one, *seen)])
        self.assertIsNone(two.applied({"src/lib.rt": HIGH + HIGH}))

    def test_its_attributes_are_of_a_function_and_another_is_not_blamed(self):
        self.change(HIGH_FILE, "pub fn first", "#[inline]\npub fn first")
        first = Sources(self.top).crate("high").functions[None, "first"][0]
        span = Span("src/lib.rt", "first", first, (self.top / HIGH_FILE).read_text())
        self.assertEqual((7, 13), (span.first, span.last))
        said = "note: src/lib.rt:{}:5: it is not proved that it holds\nlogic=not-proved\n"
        self.assertTrue(Verdict(said.format(9)).blames([span]))
        self.assertFalse(Verdict(said.format(9) + said.format(17)).blames([span]))


class SumsOfWrongBodies(Example):
    """What a sum covers."""

    def is_covered(self, name, *change):
        edit = f"crates/high/wrong-bodies/{name}.edit"
        before = Sums(self.top).of("high", Edit(self.top / edit))
        self.change(*change)
        return before != Sums(self.top).of("high", Edit(self.top / edit))

    def test_of_one_function_its_contract_and_what_its_body_sees_are_covered_and_nothing_else(self):
        self.edits("next", "two")
        self.write("crates/high/proofs/Lib.antt", "use Rattle.high.specs.Words.{word}\n")
        for is_covered, *change in (
            (True, HIGH_FILE, "ensures { result ≡ high }", "ensures { high ≡ result }"),
            (True, HIGH_FILE, "    after(two)", "    after(two + 0)"),
            (True, HIGH_FILE, "    low::next(Count(n).0)", "    low::next(n)"),
            (True, LOW_FILE, "result ≡ n + 1", "result ≡ 1 + n"),
            # a function of the name that the body calls, of a type that the body sees, and of another
            (True, LOW_FILE, "result ≡ 6", "6 ≡ result"),
            (False, LOW_FILE, "result ≡ 5", "5 ≡ result"),
            (True, SPECS, "below = 1", "below = 2"),
            (True, "crates/high/wrong-bodies/next.edit", "WRONG", "3"),
            (False, "crates/high/wrong-bodies/two.edit", "WRONG", "3"),
            (False, HIGH_FILE, "    2\n", "    1 + 1\n"),
            (False, HIGH_FILE, "ensures { result ≡ 2 }", "ensures { 2 ≡ result }"),
            (False, HIGH_FILE, "    after(two + 0)", "    // why\n    after(two  + 0)"),
            (False, "crates/high/proofs/Lib.antt", "{word}", "{word, below}"),
            (False, LOW_FILE, "    n + 1\n", "    1 + n\n"),
            (False, LOW_FILE, "result ≡ n }", "result ≡ n + 0 }"),
            (False, SPECS, "-- a word", "-- some word"),
            (False, SPECS, "spare = 0", "spare = 1"),
        ):
            self.assertEqual(is_covered, self.is_covered("next", *change), change)

    def test_of_what_others_may_see_all_that_the_proof_of_the_crate_reads_is_covered(self):
        self.edits("silent")
        for is_covered, *change in (
            (True, HIGH_FILE, "    2\n", "    1 + 1\n"),
            (True, LOW_FILE, "result ≡ n + 1", "result ≡ 1 + n"),
            (True, LOW_FILE, "Count(pub u8)", "Count(pub u16)"),
            (True, SPECS, "below = 1", "below = 2"),
            (False, HIGH_FILE, "    let one", "    // why\n        let  one"),
            (False, LOW_FILE, "    n + 1\n", "    1 + n\n"),
            (False, LOW_FILE, "// a count", "// how many"),
            (False, LOW_FILE, "result ≡ n }", "result ≡ n + 0 }"),
            (False, SPECS, "spare = 0", "spare = 1"),
        ):
            self.assertEqual(is_covered, self.is_covered("silent", *change), change)


class Trials(Example):
    """How wrong bodies are tried, and what is noted."""

    def test_those_of_different_functions_are_tried_by_one_check(self):
        self.edits("one", "two", "again", "silent", "limit")
        # the crate as it stands; one and two; again; and the others alone
        all_five = ["again", "limit", "one", "silent", "two"]
        self.assertEqual((0, "5 passed, 0 failed", ["check", "check", "check", "must-fail"], all_five), self.tried("high"))

    def test_what_the_line_or_the_machine_knows_is_not_tried_again(self):
        self.edits("one", "two")
        self.tried()
        known = (0, "0 passed, 0 failed", [], ["one", "two"])
        self.write(LINES, "")
        self.assertEqual(known, self.tried("--changed"))
        shutil.rmtree(self.top / "cache")
        self.assertEqual(known, self.tried("--changed"))
        self.edits("silent")
        self.assertEqual((0, "1 passed, 0 failed", ["must-fail"], ["one", "silent", "two"]), self.tried("--changed"))
        # what a function that ensures nothing is changed to may be seen by all
        self.change(HIGH_FILE, "    2\n", "    1 + 1\n")
        self.change("crates/high/wrong-bodies/two.edit", "        2", "        1 + 1")
        self.assertEqual((0, "2 passed, 0 failed"), self.tried("--changed")[:2])

    def test_one_that_is_broken_or_far_is_tried_alone_and_the_others_without_it(self):
        for name, status, last in ("far", 0, "2 passed, 0 failed"), ("broken", 1, "1 passed, 1 failed"):
            self.edits("two", name)
            # the crate as it stands; both; each of the two; and this one alone
            lines = ["two"] if status else [name, "two"]
            self.assertEqual((status, last, ["check"] * 4 + ["must-fail"], lines), self.tried())
            (self.top / f"crates/high/wrong-bodies/{name}.edit").unlink()
        self.assertIn("high/broken: NOT REFUSED", self.said)

    def test_one_that_is_let_through_fails_again_and_has_no_line(self):
        self.edits("two", "silent", "harmless")
        for words, last in ((), "2 passed, 1 failed"), (("--changed",), "0 passed, 1 failed"):
            status, said, _, lines = self.tried(*words)
            self.assertEqual((1, last, ["silent", "two"]), (status, said, lines))
            self.assertIn("high/harmless: NOT REFUSED", self.said)

    def test_those_of_two_crates_are_tried_side_by_side(self):
        self.edits("one", "two")
        self.write("crates/low/wrong-bodies/lower.edit", "file: src/lib.rt\nold:     n + 1\nnew:     WRONG\n")
        status, last, _, lines = self.tried()
        self.assertEqual((0, "3 passed, 0 failed", ["one", "two", "low/lower"]), (status, last, lines))

    def test_a_run_that_is_ended_ends_its_checks_and_removes_its_copies(self):
        self.edits("one", "two")
        self.write("slow", "")
        (self.top / "rooms").mkdir()
        how = {"env": {**self.environment, "TMPDIR": str(self.top / "rooms")}, "stdout": subprocess.PIPE}
        with subprocess.Popen([sys.executable, self.top / "tools/wrong-bodies"], **how) as ran:
            while not (self.top / "asked").exists():
                time.sleep(0.01)
            ran.terminate()
            ran.communicate(timeout=60)
        self.assertEqual((143, []), (ran.returncode, list((self.top / "rooms").iterdir())))


def self_test():
    suite = unittest.defaultTestLoader.loadTestsFromName(__name__)
    return 0 if unittest.TextTestRunner().run(suite).wasSuccessful() else 1
