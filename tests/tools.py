"""Tests what the tools make of names: a name that isn't there is reported before anything is compiled or proved, tests name what they need,
and what pages say of tools, tests and functions names such."""

import importlib
import os
import re
import subprocess
import unittest

from tests.support import LONG, ROOT, Checking, folder

# In place of the kit's command: nothing may be compiled or proved.
ENVIRONMENT = {**os.environ, "RT": "false", "RUSTC": "false"}
COMMAND = re.compile(r"python3 -m unittest tests\.(\w+)(?: -k (\w+))?")
NEEDED = re.compile(r'checked\("(\w+)"(?:, "(--\w+)")?\)')


def ended(*words, environment=ENVIRONMENT):
    """The status of a tool, and all that it printed."""
    how = {"stdin": subprocess.DEVNULL, "stdout": subprocess.PIPE, "stderr": subprocess.STDOUT, "text": True, "timeout": LONG}
    ran = subprocess.run(words, cwd=ROOT, env=environment, **how)
    return ran.returncode, ran.stdout


class Names(Checking):
    """Names that aren't there."""

    def test_a_name_that_is_not_there_is_reported_before_anything_is_compiled(self):
        for words, wanted in [
            (["tools/test", "xyzzy"], "no test is named xyzzy\n"),
            (["tools/test", "chaos_dialogues", "copies", "xyzzy", "plugh"], "no test is named xyzzy or plugh\n"),
            (["tools/test-program", "copies", "xyzzy"], "no test is named xyzzy\n"),
            (["tools/wrong-bodies", "--changed", "chaos_conn", "xyzzy"], "crates/xyzzy/wrong-bodies isn't there: "),
            (["tools/costs", "chaos_conn", "xyzzy"], "crates/xyzzy isn't there\n"),
        ]:
            status, said = ended(*words)
            is_so = status == 1 and said.startswith(wanted) and said.count("\n") == 1
            self.check(" ".join(words), [] if is_so else [f"status {status}: {said}"])

    def test_a_kit_that_is_not_there_is_reported_at_once(self):
        for words in [["tools/gate"], ["tools/build", "chaosd"], ["tools/checked", "chaosd"], ["tools/fmt"]]:
            status, said = ended(*words, environment={**os.environ, "RT": "xyzzy"})
            is_so = status != 0 and said == "there is no command xyzzy on the path: README.md names the kit that has it\n"
            self.check(" ".join(words), [] if is_so else [f"status {status}: {said}"])


class Mutants(Checking):
    """Mutants that are left to try."""

    def test_they_are_counted_and_none_is_tried(self):
        with folder() as here:
            status, said = ended("tools/wrong-bodies", "--count", "chaos_window", environment={**ENVIRONMENT, "XDG_CACHE_HOME": str(here)})
            kept = list(here.iterdir())
        many = len(list((ROOT / "crates/chaos_window/wrong-bodies").glob("*.edit")))
        self.assertEqual((0, []), (status, kept), said)
        self.assertRegex(said, rf"\Achaos_window: (\d+) of {many}\n\1 to try\n\Z")


class Commands(Checking):
    """Commands that run some tests."""

    def test_each_command_for_tests_of_a_file_names_tests(self):
        for place in ["CONTRIBUTING.md", "tests/__init__.py", "tests/support.py"]:
            commands = COMMAND.findall((ROOT / place).read_text())
            problems = [] if commands else ["there is none"]
            for file, word in commands:
                loader = unittest.TestLoader()
                loader.testNamePatterns = [f"*{word}*"]
                is_there = loader.loadTestsFromName(f"tests.{file}").countTestCases()
                problems += [] if is_there else [f"tests/{file}.py has no test with {word} in its name"]
            self.check(place, problems)


class Architecture(Checking):
    """Names in docs/ARCHITECTURE.md."""

    def section(self, heading):
        return (ROOT / "docs/ARCHITECTURE.md").read_text().partition(f"\n## {heading}\n")[2].partition("\n## ")[0]

    def test_each_tool_is_in_the_table(self):
        named = {it.removeprefix("tools/") for it in re.findall(r"`([^`]+)`", self.section("Beside the crates"))}
        tools = {it.name for it in (ROOT / "tools").iterdir() if it.is_file() and not it.suffix}
        self.assertEqual(set(), tools - named)

    def test_each_function_of_the_lists_is_there_and_counted(self):
        sources = " ".join(it.read_text() for it in sorted((ROOT / "crates").glob("*/src/**/*.rt")))
        there, total, text = set(re.findall(r"\bfn (\w+)", sources)), 0, self.section("Function by function")
        for part, names, count in re.findall(r"^\| ([\w ]+) \| (`.*) \| (\d+) \|$", text, re.M):
            named = re.findall(r"`([^`]+)`", names)
            # `NAME of Host and Conn` is two functions
            found, total = len(named) + names.count(" of Host and Conn"), total + int(count)
            self.check(part, [] if found == int(count) else [f"{found} functions and not {count}"])
        self.check("their sum", [] if f" {total} functions:" in text else [f"{total} functions"])
        names = set(re.findall(r"`([^`]+)`", text)) - {"lab"}  # a subcommand that has no function of its name
        self.check("each is there", sorted(it for it in names if it.rpartition("::")[2] not in there))


class Needs(Checking):
    """Programs that tests need."""

    def test_each_file_of_tests_names_the_programs_that_it_needs(self):
        for file in sorted((ROOT / "tests").glob("*.py")):
            wanted = {" ".join(reversed([it for it in found if it])) for found in NEEDED.findall(file.read_text())}
            if not wanted:
                continue
            module = importlib.import_module(f"tests.{file.stem}")
            classes = [it for it in vars(module).values() if isinstance(it, type) and it.__module__ == module.__name__]
            named = {" ".join(it.needs) for it in classes if issubclass(it, Checking) and it.needs}
            self.check(file.name, [] if wanted == named else [f"{named} and not {wanted}"])

    def test_only_the_programs_are_named_that_the_tests_need(self):
        for names, wanted in [(["mistakes"], ""), (["seals", "lines.Words"], "random_seals\nexample_lines\n"), (["memory.Lines"], "")]:
            status, said = ended("tools/test-program", "--needs", *names)
            same = (status, sorted(said.split("\n"))) == (0, sorted(wanted.split("\n")))
            self.check(" ".join(names), [] if same else [f"status {status}: {said}"])
