"""Tests tools/version: it names each place of the version, refuses two that differ, and writes another number into all of them."""

import pathlib
import re
import shutil
import subprocess
import tempfile

from tests.support import PATIENCE, ROOT, Checking

# The files that name the version, and those that the tool reads beside them.
FILES = ["crates/chaosd_line/src/help.rt", "docs/chaosd.1", "docs/OPERATING.md", "tests/followed.txt", "tests/line.py"]
COPIED = [*FILES, "CHANGELOG.md", "tools/version"]
FROM, TO = "0.1.0", "7.8.9"


class Version(Checking):
    """A folder with the files that name the version."""

    seconds = 2

    def setUp(self):
        room = tempfile.TemporaryDirectory()
        self.addCleanup(room.cleanup)
        self.top = pathlib.Path(room.name)
        for place in COPIED:
            (self.top / place).parent.mkdir(parents=True, exist_ok=True)
            shutil.copy(ROOT / place, self.top / place)
        for words in [["init", "--quiet"], ["add", "--all"]]:
            subprocess.run(["git", *words], cwd=self.top, check=True, timeout=PATIENCE)

    def tool(self, *words):
        """The status of the tool, and what it printed."""
        how = {"stdout": subprocess.PIPE, "stderr": subprocess.STDOUT, "text": True, "timeout": PATIENCE}
        ended = subprocess.run([self.top / "tools/version", *words], cwd=self.top, **how)
        return ended.returncode, ended.stdout

    def is_refused(self, name, words, piece):
        status, said = self.tool(*words)
        self.check(name, [] if status and piece in said else [f"{status} {said}"])

    def test_each_place_is_named_with_its_number(self):
        status, said = self.tool()
        self.assertEqual(0, status, said)
        self.assertEqual(set(FILES), {line.split(":")[0] for line in said.splitlines()})
        self.assertEqual(1, len({line.split(": ")[1] for line in said.splitlines()}))

    def test_places_that_differ_and_places_that_it_does_not_know_are_refused(self):
        manual, held = self.top / "docs/chaosd.1", (self.top / "docs/chaosd.1").read_text()
        manual.write_text(re.sub(r"Poltxegun \d+\.\d+\.\d+", f"Poltxegun {TO}", held))
        self.is_refused("another number", [], f"docs/chaosd.1:3: {TO}\n")
        manual.write_text(re.sub(r"^\.Os .*\n", "", held, flags=re.M))
        self.is_refused("no number", [], "docs/chaosd.1: names no version")
        manual.write_text(held + f".\\\" chaosd {FROM}\n")
        self.is_refused("one place more", [], "is no place of tools/version")

    def test_another_number_stands_in_all_places_and_over_what_was_unreleased(self):
        changes = (self.top / "CHANGELOG.md").read_text().partition("## [Unreleased]\n")[2]
        status, said = self.tool(TO)
        self.assertEqual(0, status, said)
        self.assertEqual({TO}, {line.split(": ")[1] for line in said.splitlines()})
        cut = re.search(rf"^## \[Unreleased\]\n\n## \[{re.escape(TO)}\] - \d{{4}}-\d\d-\d\d\n", (self.top / "CHANGELOG.md").read_text(), re.M)
        self.check("the changes have its number and a date", [] if cut and cut.string[cut.end() :] == changes else ["they haven't"])
        self.is_refused("once more", [TO], "has 7.8.9 already")
        self.is_refused("no number", ["7.8"], "tools/version NUMBER")
