"""Tests the Makefile, tools/stamp and tools/demo: what a program is called, by the stamp beside it, and when one is built anew."""

import os
import pathlib
import re
import shutil
import subprocess
import tempfile

from tests.support import LONG, PROGRAM, ROOT, Case

TOOLS = ["Makefile", "README.md", "examples/hello.file", "tools/demo", "tools/stamp", "tools/stamps.py"]
# In place of the kit's command, of the compiler without proof and of the prover: the tested program stands for what the last two build.
KIT = """#!/bin/sh
echo "kit-1 logic 0123456789abcdef"
"""
BUILDER = """#!/bin/sh
echo "{said}" >&2
mkdir -p {folder} && cp "$TESTED" {folder}/chaosd && tools/stamp write {folder}/chaosd {how}
"""
COMPILED, PROVED = "compiled anew", "proved anew"
MADE = {
    "crates.txt": "one:\n",
    "HANDLES": "none\n",
    "crates/chaosd/src/main.rt": "fn main() {}\n",
    "kit": KIT,
    "tools/checked": BUILDER.format(said=COMPILED, folder="out/checked", how="checked"),
    "tools/build": BUILDER.format(said=PROVED, folder="crates/chaosd/out", how="proved"),
}
# The words of tools/stamp behind the name of what was built from these sources.
IS_PROVED = "was built from these sources: proved\n"
IS_TRIED = "was built from these sources: checked, not proved. It is much slower than the proved program, and for trying; `make` builds the proved one\n"


class Stamp(Case):
    """Programs in a folder like the sources', which are called proved or not."""

    seconds = 10

    def setUp(self):
        room = tempfile.TemporaryDirectory()
        self.addCleanup(room.cleanup)
        self.top = pathlib.Path(room.name)
        for place, text in MADE.items():
            (self.top / place).parent.mkdir(parents=True, exist_ok=True)
            (self.top / place).write_text(text)
            (self.top / place).chmod(0o755)
        for place in TOOLS:
            (self.top / place).parent.mkdir(parents=True, exist_ok=True)
            shutil.copy(ROOT / place, self.top / place)
        self.program, self.source = self.top / "bin/chaosd", self.top / "crates/chaosd/src/main.rt"

    def tool(self, *words):
        """What one of the tools ends with: its status, and all that it printed."""
        how = {"stdout": subprocess.PIPE, "stderr": subprocess.STDOUT, "text": True, "timeout": LONG}
        environment = {**os.environ, "RT": str(self.top / "kit"), "TESTED": str(PROGRAM)}
        ended = subprocess.run(words, cwd=self.top, env=environment, **how)
        return ended.returncode, ended.stdout

    def is_called(self, name, reason, is_built=False):
        """What is called proved, or isn't for this reason: by the tool, and by `make`, which then proves it anew."""
        status, said = self.tool("tools/stamp", "check", self.program)
        is_right = status == 0 and not said if not reason else status == 1 and f"isn't called proved: {reason}\n" in said
        problems = [] if is_right else [f"tools/stamp check: {status} {said}"]
        status, said = self.tool("make", "-q", "bin/chaosd")
        problems += [] if status == (1 if reason else 0) else [f"make -q bin/chaosd: {status} {said}"]
        status, said = self.tool("tools/stamp", "built", self.program)
        words = f"{self.program} {IS_TRIED if reason else IS_PROVED}" if is_built else f"isn't called built from these sources: {reason}\n"
        problems += [] if status == (0 if is_built else 1) and words in said else [f"tools/stamp built: {status} {said}"]
        self.check(name, problems)

    def stamp(self, how):
        self.assertEqual((0, ""), self.tool("tools/stamp", "write", self.program, how))

    def test_only_what_was_proved_from_these_sources_is_called_proved(self):
        self.program.parent.mkdir()
        shutil.copy(PROGRAM, self.program)
        self.is_called("a program that is newer than the sources, and has no stamp", "chaosd.stamp isn't there")
        self.stamp("checked")
        self.is_called("a program that was compiled without proof", "it was checked, not proved", is_built=True)
        self.stamp("proved")
        self.is_called("a program that was proved", "", is_built=True)
        (self.top / "crates/chaosd/wrong-bodies").mkdir()
        (self.top / "crates/chaosd/wrong-bodies/one.edit").write_text("file: src/main.rt\n")
        (self.top / "crates/chaosd/out").mkdir()
        (self.top / "crates/chaosd/out/chaosd").write_text("built\n")
        self.is_called("it still is where what it isn't built from is new", "", is_built=True)
        held, times = self.source.read_text(), self.source.stat()
        self.source.write_text("fn main() { }\n")
        os.utime(self.source, ns=(times.st_atime_ns, times.st_mtime_ns))
        self.is_called("a program of other sources, whatever their time", "it was built from other sources than these")
        self.source.write_text(held)
        self.is_called("it is again where they are what they were", "", is_built=True)
        (more := self.source.with_name("more.rt")).write_text("")
        self.is_called("one source more", "it was built from other sources than these")
        more.unlink()
        with self.program.open("ab") as file:
            file.write(b"\0")
        self.is_called("another program in its place", "chaosd.stamp is of another program")
        self.program.with_name("chaosd.stamp").write_text("how: proved\n")
        self.is_called("a stamp of another form", "chaosd.stamp is no stamp")

    def test_a_stamp_says_how_and_by_which_logic(self):
        self.program.parent.mkdir()
        shutil.copy(PROGRAM, self.program)
        for how, words in [("proved", "proved"), ("checked", "checked, not proved")]:
            self.stamp(how)
            status, said = self.tool("tools/stamp", "print", self.program)
            lines = dict(line.split(": ", 1) for line in said.splitlines())
            self.check("it is printed", [] if status == 0 and [*lines] == ["how", "sources", "logic", "program"] else [said])
            self.assertEqual((words, "0123456789abcdef"), (lines["how"], lines["logic"]))
        self.program.with_name("chaosd.stamp").unlink()
        self.assertEqual((1, f"{self.program}: chaosd.stamp isn't there\n"), self.tool("tools/stamp", "print", self.program))

    def makes(self, name, wish, built, ending):
        """What `make` builds anew for this wish, if anything, and how what it says of the program ends."""
        status, said = self.tool("make", wish)
        anew = [it for it in (COMPILED, PROVED) if it in said]
        is_same = self.program.is_file() and self.program.read_bytes() == PROGRAM.read_bytes() and os.access(self.program, os.X_OK)
        self.check(name, [] if status == 0 and is_same and anew == built and ending in said else [f"make {wish}: {status} {said}"])

    def test_make_try_compiles_what_is_not_built_and_a_later_make_proves_it(self):
        self.makes("it compiles the program at first", "try", [COMPILED], f"bin/chaosd {IS_TRIED}")
        self.is_called("and leaves a stamp that says so", "it was checked, not proved", is_built=True)
        self.makes("and does nothing where that is there", "try", [], f"bin/chaosd {IS_TRIED}")
        for wish in ["dist", "install"]:
            self.check(f"make {wish} takes it", [] if "tools/build" not in self.tool("make", "-n", wish)[1] else ["it is proved"])
        self.makes("make proves it, and builds it anew", "all", [PROVED], "")
        self.is_called("which the stamp then says", "", is_built=True)
        self.makes("make try leaves a proved program alone", "try", [], f"bin/chaosd {IS_PROVED}")
        self.source.write_text("fn main() { }\n")
        for wish in ["dist", "install"]:
            self.check(f"make {wish} proves anew what is of other sources", [] if "tools/build" in self.tool("make", "-n", wish)[1] else ["it is taken"])
        self.makes("but not a program of other sources", "try", [COMPILED], f"bin/chaosd {IS_TRIED}")
        (self.top / "tools/checked").write_text("#!/bin/sh\necho 'a fault of main.rt' >&2\nexit 1\n")
        self.program.with_name("chaosd.stamp").unlink()
        status, said = self.tool("make", "try")
        self.check("what isn't compiled is told", [] if status and "a fault of main.rt\n" in said and "was built" not in said else [said])

    def test_the_demo_shows_a_session_by_what_is_built_and_names_what_to_try_next(self):
        self.makes("it compiles the program where none is there", "demo", [COMPILED], IS_TRIED)
        self.makes("and takes what was tried", "demo", [], "T8 H2 CLOSE 39\n")
        self.stamp("proved")
        self.makes("and what was proved", "demo", [], IS_PROVED)
        _, said = self.tool("make", "demo")
        script = (self.top / "examples/hello.file").read_text().splitlines()
        lines = said.partition(":\n")[2].partition("\n\n")[0].splitlines()
        self.check("each command stands before its reply", [] if lines[::2] == [f"> {it}" for it in script] else [said])
        self.check("which has its tid", [] if [it.split()[0] for it in lines[1::2]] == [it.split()[0] for it in script] else [said])
        named = re.findall(r"^  (?:mkdir -p files && )?(bin/chaosd .*)\n", said, re.M)
        self.assertEqual(["serve", "put", "lab"], [it.split()[1] for it in named])
        pages = (self.top / "README.md").read_text() + (ROOT / "docs/LABORATORY.md").read_text()
        self.check("its last commands are those of the pages", [it for it in named if f"\n$ {it}\n" not in pages])
