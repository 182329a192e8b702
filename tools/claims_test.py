"""Tests of tools/claims, tools/maps and tools/way on a crate of their own, which `tools/claims --self-test` runs."""

import pathlib
import shutil
import subprocess
import sys
import tempfile

from checks import Checks

TOOLS = pathlib.Path(__file__).resolve().parent

FILES = {
    "crates/demo/src/lib.rt": """//! A `pub fn in_a_comment() ensures wrong { }`.
ghost use Rattle.demo.specs.Words.{few};
mod hidden;
pub use hidden::{Queue, Link, MemLink};

/// The law.
pub fn law()
    // All is well.
    ensures { '{' }
{}

pub fn read(bytes: &[u8; 4]) -> u8
    requires { few bytes }
    // What comes is carried,
    // and nothing else.
    ensures carried { result ≡ 1 }
    ensures only { result }
{
    let text = "ensures in_a_string {";
    0
}

pub fn length() -> usize {
    0
}

pub fn run()
    // It runs.
    ensures ran { '1' }
{
    length();
    link.send::<u8>(bytes);
}

pub fn run_by()
    // It runs, too.
    ensures ran { '1' }
{
    run();
}

pub fn law_run()
    // It runs well.
    ensures { few '1' }
{}

pub fn law_steps()
    // There is a first step.
    ensures begin { '1' }
    // All stays well after a step.
    ensures stay { '2' }
{}
""",
    "crates/demo/src/hidden.rt": """ghost use Rattle.demo.specs.Limits.{IsWhole};
pub fn unexported()
    ensures said { x }
{}

impl<T: Into<u8>> Queue<T> {
    pub const fn take(&self) -> u8 where T: Copy
        // The oldest goes.
        ensures { IsWhole x }
    {
        0
    }
}

pub trait Link {
    fn send(&mut self) -> u8
        // A failure is counted.
        ensures failed { x };
}

impl Link for MemLink {
    fn send(&mut self) -> u8
        // It waits in the queue.
        ensures queued { x }
    {
        0
    }
}

impl Link for Kept {
    /// All is kept
    /// for good.
    ghost kept = { λ old new.
        old };

    #[inline(never)]
    fn send(&mut self) -> u8 {
        look(b"hide(");
        0
    }
}

/// Looks.
fn look(bytes: &[u8]) -> u8
where
    u8: Copy,
{
    hide(bytes)
}

fn hide(bytes: &[u8])
    ensures { hidden }
{}

pub fn law_hidden() {}
""",
    "crates/demo/specs/Words.antt": """use Rattle.demo.specs.Limits.{most}

-- fewer than the limit
abbrev pub few : ℕ → Type 0
few n = n < most

abbrev pub unused : ℕ
unused = 7
""",
    "crates/demo/specs/Limits.antt": """abbrev pub most : ℕ
most = 4

pub record IsWhole (n : ℕ) : Type 0 where
  pub first : n ≡ 1
  pub second : n ≡ 2
""",
    "docs/PROVED.md": """# Demo

The `only` of `read`, and `law` and `Queue::take`.

| Promise | Call | Clause | Rests on | Met by |
|---|---|---|---|---|
| a | [`law`](../crates/demo/src/lib.rt) | its one clause | [here](#demo) | nothing to meet |
| b | [`Queue::take`](../crates/demo/src/hidden.rt) | `first`, `second` | nothing | |
| c | [`MemLink::send`](../crates/demo/src/hidden.rt) | `queued` | nothing |

## What you must read to believe it

| Law | Read |
|---|---|
| [`Queue::take`](../crates/demo/src/hidden.rt) | demo: Limits |
| [`read`](../crates/demo/src/lib.rt) | demo: Limits, Words |

## The program

| Promise | Call | Clause | Rests on | Met by |
|---|---|---|---|---|
| d | [`run`](../crates/demo/src/lib.rt) | `ran` | nothing | |
| e | [`run_by`](../crates/demo/src/lib.rt) | `ran` | the program calls `run`, which this call wraps |
| f | [`run_by`](../crates/demo/src/lib.rt) | `ran` | the same |
| g | [`law_run`](../crates/demo/src/lib.rt) | its one clause | nothing | [`law`](../crates/demo/src/lib.rt): all is well |
| h | [`law_steps`](../crates/demo/src/lib.rt) | `stay` | nothing | `begin` |
| i | [`law_steps`](../crates/demo/src/lib.rt) | `begin` | nothing | nothing to meet: it is so |

## From `main` to the files

| Call | Clause | Leads on by |
|---|---|---|
| [`main`](../crates/chaosd/src/main.rt) | | `main` starts |
| [`start`](../crates/chaosd/src/main.rt) | | |
| [`run`](../crates/demo/src/lib.rt) | `ran` | it sends |
| [`Link::send`](../crates/demo/src/hidden.rt) | `failed` | |
| [`Kept::send`](../crates/demo/src/hidden.rt) | `failed`, `kept` | |
| [`look`](../crates/demo/src/hidden.rt) | | |
| [`hide`](../crates/demo/src/hidden.rt) | its one clause | |
| [`law_run`](../crates/demo/src/lib.rt) | its one clause | |
| [`few`](../crates/demo/specs/Words.antt) | | |
| [`most`](../crates/demo/specs/Limits.antt) | | |
""",
    "README.md": """# Front

| Promise | Call | Clause |
|---|---|---|
| a | [`read`](crates/demo/src/lib.rt) | `carried` |

[Elsewhere](https://example.org/x), [there](docs/PROVED.md#demo).
""",
    "docs/TRUST.md": """# Trust

## Below the code

| It rests on | Why |
|---|---|
| `arrayvec`, `sha2` | nothing |
""",
    "crates.txt": "# NAME: libraries\nother: arrayvec\nthird: demo arrayvec sha2 # `hex`: none\ndemo:\nchaosd: demo\n",
    "crates/chaosd/src/main.rt": """fn main() {
    start();
}

fn start() {
    // It isn't run_by that runs.
    let text = "run_by";
    run();
}
""",
    "crates/demo/proofs/Lib.antt": "pub mod First\npub mod Second\npub mod Third\n",
    "crates/demo/proofs/First.antt": "-- one\n",
    "crates/demo/proofs/Second.antt": "-- two\n",
    "crates/demo/proofs/Third.antt": "-- three\n",
    "crates/demo/proofs/lib/read/Answers.antt": "-- goals\n",
    "crates/demo/CALLING.md": """# Demo

## How it is proved

| In `proofs/` | Shows | Answers the goals of |
|---|---|---|
| `First`, `Second` | this | `law`, `take`, `Queue::take` |
| `Third` | that | through `First` or in `MemLinkLink::send`, `MemLinkLink::TheImpl` |
""",
}
LIB, HIDDEN, WORDS, LIMITS, PROVED, README, TRUST, CRATES, MAIN, *_, MAP = FILES
CHANGED = "a clause of `{}` changed since this row was read: read both, then tools/claims --accept"
DEFINED = "docs/proved.sums:1: definitions of demo changed on which rows rest: read the rows on them, then tools/claims --accept"
ADDED = "the row of `read` adds no definition of demo: {}"
READ = "| [`read`](../crates/demo/src/lib.rt) | demo: Limits, Words |\n"
UNNAMED = CRATES + ":{}: no row of docs/TRUST.md, Below the code, names the library {}"
NEVER = PROVED + ":{}: chaosd never calls `{}`, and the row doesn't say what that call wraps"
BY_LAW, AT_LIB = "[`law`](../crates/demo/src/lib.rt): all is well", "](../crates/demo/src/lib.rt)"
UNMET = PROVED + ":{}: no law shows that the premises of `{}` can be met: link a law, or write nothing to meet"
NO_COLUMN = PROVED + ":{}: `{}` is a law, and the table has no column Met by"
SILENT = "`{}` of demo has no sentence above its first `ensures`: say there, behind `//`, what it promises"

CHANGES = [
    # what changes, words of a file, words in their place, and what is said then
    ("what isn't in a row", LIB, "usize {\n    0", "usize {\n    1", []),
    ("a layout and a comment", LIB, "ensures carried { result", "ensures carried { // why\n        result", []),
    ("a definition that no row rests on", WORDS, "unused = 7", "unused = 8", []),
    ("a clause under a row of README", LIB, "result ≡ 1", "result ≡ 2", [f"{README}:5: {CHANGED.format('read')}", f"{PROVED}:3: {CHANGED.format('read')}"]),
    ("what it requires", LIB, "few bytes", "bytes", [
        f"{README}:5: {CHANGED.format('read')}", f"{PROVED}:16: {ADDED.format('Limits')}", f"{PROVED}:16: {ADDED.format('Words')}",
        f"{PROVED}:3: {CHANGED.format('read')}",
    ]),  # fmt: skip
    ("a definition below", LIMITS, "most = 4", "most = 5", [DEFINED]),
    ("a record", LIMITS, "n ≡ 2", "n ≡ 3", [DEFINED]),
    ("a row that names no call", README, "[`read`]", "[`write`]", [f"{README}:5: `write` is no public call of demo"]),
    ("a row that names a clause that isn't there", README, "`carried`", "`spelled`", [f"{README}:5: `read` has no clause `spelled`"]),
    ("a row of a call that isn't exported", README, "lib.rt) | `carried`", "hidden.rt) | `said`", [f"{README}:5: `read` stands in {LIB}"]),
    ("a row without a link", README, "[`read`](crates/demo/src/lib.rt)", "`read`", [f"{README}:5: `read` is no link to the source file of a call"]),
    ("a row without clauses", README, "`carried`", "all", [f"{README}:5: no clauses: all; write `name`, `name`, or its one clause"]),
    ("a row of one clause of two", README, "`carried`", "its one clause", [
        f"{README}:5: `read` has no clause without a name", f"{README}:5: `read` has other clauses than one",
    ]),  # fmt: skip
    ("a field that isn't there", PROVED, "`second`", "`third`", [f"{PROVED}:8: `Queue::take` has no clause `third`"]),
    ("a clause of the trait alone", PROVED, "`queued`", "`failed`", [f"{PROVED}:9: `MemLink::send` has no clause `failed`"]),
    ("a text that names no clause", PROVED, "`only` of", "`never` of", [f"{PROVED}:3: `read` has no clause `never`"]),
    ("a text that names no call", PROVED, "`law` and", "`law_none` and", [f"{PROVED}:3: `law_none` is no public call"]),
    ("a function without a sentence", LIB, "    // All is well.\n", "", [f"{LIB}:8: {SILENT.format('law')}"]),
    ("a sentence that is a doc comment", LIB, "    // All is well.", "    /// All is well.", [f"{LIB}:9: {SILENT.format('law')}"]),
    ("a trait without a sentence", HIDDEN, "        // A failure is counted.\n", "", [f"{HIDDEN}:17: {SILENT.format('Link::send')}"]),
    ("an implementation without one", HIDDEN, "        // It waits in the queue.\n", "", [f"{HIDDEN}:23: {SILENT.format('MemLink::send')}"]),
    ("a link to no file", README, "docs/PROVED.md#demo", "docs/NONE.md", [f"{README}:7: the link docs/NONE.md leads nowhere"]),
    ("a link to no heading", PROVED, "#demo", "#other", [f"{PROVED}:7: the link #other names no heading"]),
    ("a row that leaves out a file to read", PROVED, "demo: Limits, Words", "demo: Words", [f"{PROVED}:16: the row of `read` leaves out demo: Limits"]),
    ("a row of a file that its clauses don't cite", PROVED, "demo: Limits |", "demo: Limits, Words |", [
        f"{PROVED}:15: the row of `Queue::take` adds no definition of demo: Words",
    ]),
    ("a row of a file that the row above has", PROVED, READ, READ + READ, [f"{PROVED}:17: {ADDED.format(it)}" for it in ("Limits", "Words")]),
    ("a definition that cites another file no more", WORDS, "n < most", "n < 4", [f"{PROVED}:16: {ADDED.format('Limits')}", DEFINED]),
    ("a row of files to read without a link", PROVED, READ, "| `read` | demo: Limits, Words |\n", [f"{PROVED}:16: `read` is no link to the source file of a call"]),
    ("no table of files to read", PROVED, "## What you", "## What", [f"{PROVED}:1: no table stands below What you must read to believe it"]),
    ("a library that isn't named", TRUST, "`arrayvec`, `sha2`", "`arrayvec`", [UNNAMED.format(3, "sha2")]),
    ("a library of two crates that isn't named", TRUST, "`arrayvec`, `sha2`", "`sha2`", [UNNAMED.format(2, "arrayvec")]),
    ("a library that is named in another column", TRUST, "`sha2` | nothing", "none | `sha2`", [UNNAMED.format(3, "sha2")]),
    ("a library that is named in another section", TRUST, "## Below the code", "## Above", [UNNAMED.format(2, "arrayvec"), UNNAMED.format(3, "sha2")]),
    ("a call that the program no longer makes", MAIN, "    run();\n", "", [NEVER.format(22, "run")]),
    ("a call that no function of the chain makes", MAIN, "    start();\n", "", [NEVER.format(22, "run")]),
    ("a call of a crate that the program doesn't stand on", CRATES, "chaosd: demo", "chaosd: arrayvec", [NEVER.format(22, "run")]),
    ("rows that don't say what their call wraps", PROVED, ", which this call wraps", "", [NEVER.format(it, "run_by") for it in (23, 24)]),
    ("a library more", CRATES, "sha2", "hex sha2", [UNNAMED.format(3, "hex")]),
    ("a clause by which a law is met", LIB, "ensures { '{' }", "ensures { '}' }", [f"{PROVED}:{it}: {CHANGED.format('law')}" for it in (25, 7)]),
]

MET = [
    # the same of the column of what meets a law, in docs/PROVED.md
    ("a law that nothing meets", " | nothing to meet |", " | |", [UNMET.format(7, "law")]),
    ("a row that ends before the column", " | nothing to meet |", " |", [UNMET.format(7, "law")]),
    ("a law that nothing meets yet", "nothing to meet |", "nothing yet |", [UNMET.format(7, "law")]),
    ("a law that words alone meet", BY_LAW, "all runs", [UNMET.format(25, "law_run")]),
    ("a law that nothing has to meet", BY_LAW, "nothing to meet", []),
    ("a law that two others meet", BY_LAW, f"`begin` of [`law_steps`{AT_LIB} and {BY_LAW}", []),
    ("a law that is met by a call", BY_LAW, f"[`read`{AT_LIB}", [f"{PROVED}:25: `law_run` is met by `read`, which is no law"]),
    ("a law that is met by a law elsewhere", BY_LAW, "[`law`](../crates/demo/src/hidden.rt)", [f"{PROVED}:25: `law` stands in {LIB}"]),
    ("a law that is met by one that isn't there", BY_LAW, f"[`law_of_all`{AT_LIB}", [
        f"{PROVED}:25: `law_of_all` is no public call", f"{PROVED}:25: `law_of_all` is no public call of demo",
    ]),
    ("a law that is met by itself", BY_LAW, f"[`law_run`{AT_LIB}", [
        f"{PROVED}:25: `law_run` isn't met by itself: name the clause that is the example, without a link",
    ]),
    ("a law that is met by one with premises", BY_LAW, f"[`law_steps`{AT_LIB}", [
        f"{PROVED}:25: `law_run` is met by `law_steps`, whose own premises have to be met",
    ]),
    ("a clause that is met by itself", "| `begin` |\n", "| `stay` |\n", [
        f"{PROVED}:26: `law_steps` isn't met by the clause that the row is about: name another clause",
    ]),
    ("a law that is met by a clause that isn't there", "| `begin` |\n", "| `began` |\n", [f"{PROVED}:26: `law_steps` has no clause `began`"]),
    ("a cell of a call that is no law", "`ran` | nothing | |", "`ran` | nothing | nothing to meet |", [
        f"{PROVED}:22: `run` is no law, so nothing stands in its row below Met by",
    ]),
    ("tables with laws and without the column", " Met by |", " |", [NO_COLUMN.format(*it) for it in [(25, "law_run"), (26, "law_steps"), (27, "law_steps"), (7, "law")]]),
    ("a table with the column and without a law", "| a | [`law`", "| a | [`read`", [
        f"{PROVED}:5: the table has a column Met by, and no row of a law", f"{PROVED}:7: `read` has no clause without a name",
        f"{PROVED}:7: `read` has other clauses than one",  f"{PROVED}:7: `read` is no law, so nothing stands in its row below Met by",
    ]),
]

MAPS = [
    # what changes, words of the map, words in their place, and what tools/maps says then
    ("a map of a file that isn't there", "`Third`", "`Fourth`", [f"{MAP} has no row for proofs/Third.antt", f"{MAP} maps proofs/Fourth.antt, which isn't there"]),
    ("a file in no row", "`First`, `Second`", "`First`", [f"{MAP} has no row for proofs/Second.antt"]),
    ("a file in no row, where Lib.antt has the order", "| `Third`", "\n`proofs/Lib.antt` has the order: `Third`", []),
    ("a function that isn't there", "`law`", "`lore`", [f"{MAP} names `lore`, which is no function of the sources"]),
    ("a function of another type", "`Queue::take`", "`Link::take`", [f"{MAP} names `Link::take`, which is no function of the sources"]),
    ("an implementation that isn't there", "MemLinkLink::TheImpl", "QueueLink::TheImpl", [f"{MAP} names `QueueLink::TheImpl`, which is no function of the sources"]),
    ("functions of a row that isn't there", "through `First`", "through `law`", [f"{MAP} names `law`, which is no row of the map"]),
]

AT_HIDDEN, IN_WORDS = "](../crates/demo/src/hidden.rt)", "](../crates/demo/specs/Words.antt)"
WAYS = [
    # what changes, a file, words of the file, words in their place, and what tools/way says then
    ("a call that isn't made", MAIN, "    run();\n", "", [f"{PROVED}:35: `start` doesn't call `run`"]),
    ("a call that a comment and a string name", PROVED, f"[`run`{AT_LIB} | `ran` | it", f"[`run_by`{AT_LIB} | `ran` | it", [
        f"{PROVED}:35: `start` doesn't call `run_by`", f"{PROVED}:36: `run_by` doesn't call `Link::send`",
    ]),
    ("a way that begins elsewhere", PROVED, "| [`main`](../crates/chaosd/src/main.rt) | | `main` starts |\n", "", [
        f"{PROVED}:33: the way begins with `start`, and not with the `main` of chaosd",
    ]),
    ("a call that isn't there", PROVED, "[`look`", "[`looks`", [f"{PROVED}:38: `looks` isn't a function of hidden.rt"]),
    ("a call of another file", PROVED, f"[`look`{AT_HIDDEN}", f"[`look`{AT_LIB}", [f"{PROVED}:38: `look` isn't a function of lib.rt"]),
    ("a row that links nothing", PROVED, f"[`look`{AT_HIDDEN}", "`look`", [f"{PROVED}:38: `look` is no link to a source file or a file of specs/"]),
    ("an implementation of another trait", HIDDEN, "impl Link for Kept", "impl Send for Kept", [
        f"{PROVED}:37: `Kept::send` has no clause `failed`", f"{PROVED}:37: `Link::send` doesn't call `Kept::send`",
    ]),
    ("a clause that isn't there", PROVED, "`failed`, `kept`", "`fails`, `keeps`", [
        f"{PROVED}:37: `Kept::send` has no clause `fails`", f"{PROVED}:37: `Kept::send` has no clause `keeps`",
    ]),
    ("a clause without a name that isn't there", PROVED, f"[`look`{AT_HIDDEN} | |", f"[`look`{AT_HIDDEN} | its one clause |", [
        f"{PROVED}:38: `look` has no clause without a name",
    ]),
    ("a row that names no clause of a call", PROVED, "| `failed` | |", "| | |", [f"{PROVED}:36: `Link::send` has clauses, and the row names none"]),
    ("a row that names clauses in words", PROVED, f"[`look`{AT_HIDDEN} | |", f"[`look`{AT_HIDDEN} | none yet |", [
        f"{PROVED}:38: `look` has no clauses, and the row names none yet",
    ]),
    ("a law that isn't public", PROVED, f"[`law_run`{AT_LIB} | its one clause | |", f"[`law_hidden`{AT_HIDDEN} | | |", [
        f"{PROVED}:40: `law_hidden` is no public call of demo", f"{PROVED}:41: nothing that the row of `law_hidden` names rests on `few`",
    ]),
    ("a call below a law", PROVED, f"| [`few`{IN_WORDS} |", f"| [`look`{AT_HIDDEN} | | |\n| [`few`{IN_WORDS} |", [
        f"{PROVED}:41: `look` is no law, and stands below `law_run`", f"{PROVED}:42: nothing that the row of `look` names rests on `few`",
    ]),
    ("a way without a law", PROVED, f"| [`law_run`{AT_LIB} | its one clause | |\n", "", [
        f"{PROVED}:40: nothing that the row of `hide` names rests on `few`", f"{PROVED}:41: the way leads to no law",
    ]),
    ("a definition on which no clause rests", WORDS, "n < most", "n < 4", [f"{PROVED}:42: nothing that the row of `few` names rests on `most`"]),
    ("a definition that isn't there", PROVED, "[`few`", "[`fewer`", [
        f"{PROVED}:41: nothing that the row of `law_run` names rests on `fewer`", f"{PROVED}:42: nothing that the row of `fewer` names rests on `most`",
    ]),
    ("no way", PROVED, "## From `main`", "## From `start`", [f"{PROVED}:1: no table stands below From `main` to the files"]),
]
SHOWN = """\
crates/chaosd/src/main.rt:1: main
    fn main()
    no clause
  => `main` starts

crates/chaosd/src/main.rt:5: start
    fn start()
    no clause

crates/demo/src/lib.rt:27: run
    pub fn run()
    // It runs.
    ensures ran { '1' }
  => it sends

crates/demo/src/hidden.rt:16: Link::send
    fn send(&mut self) -> u8
    // A failure is counted.
    ensures failed { x };

crates/demo/src/hidden.rt:37: Kept::send
    fn send(&mut self) -> u8
    crates/demo/src/hidden.rt:18: the clause of its trait
    // A failure is counted.
    ensures failed { x };
    crates/demo/src/hidden.rt:33: a ghost member of its type
    /// All is kept
    /// for good.
    ghost kept = { λ old new.
        old };

crates/demo/src/hidden.rt:44: look
    /// Looks.
    fn look(bytes: &[u8]) -> u8
    no clause

crates/demo/src/hidden.rt:51: hide
    fn hide(bytes: &[u8])
    // no sentence stands above this clause
    ensures { hidden }

crates/demo/src/lib.rt:42: law_run
    pub fn law_run()
    // It runs well.
    ensures { few '1' }

crates/demo/specs/Words.antt:4: few
    -- fewer than the limit
    abbrev pub few : ℕ → Type 0
    few n = n < most

crates/demo/specs/Limits.antt:1: most
    abbrev pub most : ℕ
    most = 4

"""


class Example:
    """A repository of one crate and two documents."""

    def __init__(self, folder):
        self.top = pathlib.Path(folder).resolve()
        for path, text in FILES.items():
            self.write(path, text)
        shutil.copytree(TOOLS, self.top / "tools", ignore=shutil.ignore_patterns("__pycache__"))
        subprocess.run(["git", "init", "-q"], cwd=self.top, check=True)
        (self.top / ".gitignore").write_text("tools\n")

    def write(self, path, text):
        (self.top / path).parent.mkdir(parents=True, exist_ok=True)
        (self.top / path).write_text(text)

    def claims(self, *words, tool="claims"):
        """Runs tools/claims, or another tool. Gives its status, and the lines that it wrote."""
        ran = subprocess.run([sys.executable, self.top / "tools" / tool, *words], stdout=subprocess.PIPE, stderr=subprocess.STDOUT, text=True)
        return ran.returncode, ran.stdout.splitlines()

    def tried(self, checks, change, tool, *words):
        """Checks that what is changed is passed or refused by a tool as it should be, and takes the change back."""
        what, path, old, new, wanted = change
        checks.same(f"{what}: its words are there", old in FILES[path], True)
        self.write(path, FILES[path].replace(old, new))
        status, lines = self.claims(*words, tool=tool)
        seen = status, sorted(lines) if status else []
        checks.same(f"{what} is {'refused' if wanted else 'passed'}", seen, (bool(wanted), wanted))
        self.write(path, FILES[path])


def self_test():
    """Shows that what is right passes, and that what is wrong is refused for what is wrong with it."""
    checks = Checks()
    with tempfile.TemporaryDirectory() as folder:
        example = Example(folder)
        checks.same("rows that were never read are refused", example.claims()[0], 1)
        checks.same("they are accepted", example.claims("--accept"), (0, ["8 calls were read with their rows: 9 sums"]))
        checks.same("and then pass", example.claims()[0], 0)
        for change in CHANGES:
            example.tried(checks, change, "claims")
        for what, *change in MET:
            example.tried(checks, (what, PROVED, *change), "claims")
        checks.same("a map that is right passes", example.claims(tool="maps"), (0, []))
        for what, *change in MAPS:
            example.tried(checks, (what, MAP, *change), "maps")
        checks.same("a way that is right is printed", example.claims(tool="way"), (0, SHOWN.splitlines()))
        checks.same("and passes", example.claims("--check", tool="way"), (0, []))
        for change in WAYS:
            example.tried(checks, change, "way", "--check")
        example.write(README, FILES[README].replace("`carried`", "`spelled`"))
        checks.same("nothing is accepted where a row is wrong", example.claims("--accept")[0], 1)
    print(f"{checks.all} checks of tools/claims, {checks.failed} failed")
    return 1 if checks.failed else 0
