"""Plays the whole program in the worlds of tests/simulator/, which seeds decide: the server and its clients over networks, disks and
clocks that fail, and kills. docs/SIMULATOR.md says what is judged. `make simulate SEED=.. RUNS=..` plays more.

SIMULATE_SECONDS says for how long, in place of a minute; SIMULATE_SEED the first seed, which is otherwise the clock's.
"""

import os
import re
import shlex
import shutil
import subprocess
import time
import unittest

from tests.support import IS_CHECKED, LONG, PROGRAM, ROOT, Case, Checking, folder

SECONDS = int(os.environ.get("SIMULATE_SECONDS", 60))
SEED = int(os.environ.get("SIMULATE_SEED", time.time_ns() // 1_000 % 1_000_000_000))
COMPILER = os.environ.get("RUSTC", "rustc")
FAST = ROOT / "out/checked/chaosd-fast"
# Other tests run meanwhile.
JOBS = max(1, len(os.sched_getaffinity(0)) // 2)
# Seeds that failed once, each as the simulator's words, are played again.
KEPT = ROOT / "tests/simulator/seeds.txt"
SUMMARY = re.compile(r"(\d+) runs, (\d+) steps, (\d+) failed, (\d+) runs a second")
# Fewer runs are no test: where a machine is busy, the seconds are too few.
LEAST_RUNS = 20
SAME = [1, 2, 3]


def require_compiler():
    if not shutil.which(COMPILER):
        raise unittest.SkipTest(f"there is no {COMPILER}, which compiles the simulator")


def played():
    """The program that is played: the one that is tested, or a fast one in place of one that has the sanitizer's runtime."""
    if not IS_CHECKED:
        return PROGRAM
    if not FAST.is_file():
        raise unittest.SkipTest(f"{FAST.relative_to(ROOT)} isn't there: `tools/checked --fast chaosd` compiles it")
    return FAST


def simulate(*words):
    """The status of the simulator, and what it printed."""
    line = [ROOT / "tools/simulate", "--program", played(), *map(str, words)]
    how = {"stdin": subprocess.DEVNULL, "stdout": subprocess.PIPE, "stderr": subprocess.STDOUT, "text": True, "errors": "replace"}
    ended = subprocess.run(line, timeout=SECONDS + LONG, **how)
    return ended.returncode, ended.stdout


def kept_seeds():
    """The words of each seed that is kept."""
    lines = [line.partition("#")[0].strip() for line in KEPT.read_text().splitlines()]
    return [shlex.split(line) for line in lines if line]


def problems_of_seconds(status, said):
    """What is wrong with a run for some seconds."""
    summary = SUMMARY.fullmatch(said.rstrip().rpartition("\n")[2])
    if status or not summary or summary[3] != "0":
        return [f"status {status}", *said.splitlines()]
    return [] if int(summary[1]) >= LEAST_RUNS else [f"{summary[1]} runs are too few"]


class Simulations(Case):
    """Runs of the simulator."""

    seconds = SECONDS + 20
    needs = ["--fast", "chaosd"]

    @classmethod
    def setUpClass(cls):
        super().setUpClass()
        require_compiler()
        played()

    def test_each_run_from_a_seed_of_the_clock_is_as_it_has_to_be(self):
        status, said = simulate("--seed", SEED, "--seconds", SECONDS, "--jobs", JOBS)
        last = said.rstrip().rpartition("\n")[2]
        self.check(f"{SECONDS} seconds from seed {SEED}: {last}", problems_of_seconds(status, said))

    def test_seeds_that_failed_once_pass(self):
        for words in kept_seeds():
            status, said = simulate(*words)
            self.check(" ".join(words), [f"status {status}", *said.splitlines()] if status else [])

    def test_a_seed_always_runs_alike(self):
        for seed in SAME:
            runs = [simulate("--seed", seed, "--digest") for _ in range(2)]
            is_told = runs[0][0] == 0 and runs[0][1].strip()
            self.check(f"seed {seed}: {runs[0][1].strip()}", [] if is_told and runs[0] == runs[1] else [str(it) for it in runs])

    def test_a_word_that_the_simulator_does_not_know_is_a_mistake_status_2(self):
        self.assertEqual(2, simulate("--nonsense")[0])


class Words(Checking):
    """The words of tools/simulate."""

    seconds = 20

    def setUp(self):
        require_compiler()

    def ended(self, *words):
        """The status of the tool without a kit, so that nothing can be compiled but the simulator, and what it printed."""
        how = {"stdin": subprocess.DEVNULL, "stdout": subprocess.PIPE, "stderr": subprocess.STDOUT, "text": True}
        ran = subprocess.run([ROOT / "tools/simulate", *words], env={**os.environ, "RT": "false"}, timeout=LONG, **how)
        return ran.returncode, ran.stdout

    def test_each_wrong_word_is_reported_before_a_program_is_compiled(self):
        for words, wanted in [(["--nonsense", "1"], "--nonsense is no option"), (["--seed"], "--seed needs a value"), (["one"], "one is one word too many")]:
            status, said = self.ended(*words)
            self.check(" ".join(words), [] if status == 2 and said.startswith(f"simulator: {wanted}\n") else [f"status {status}: {said}"])

    def test_the_help_and_the_page_have_the_same_words(self):
        status, said = self.ended("--help")
        self.assertEqual(0, status, said)
        found = re.compile(r"(?<![\w-])--[a-z][a-z-]*")
        table = (ROOT / "docs/SIMULATOR.md").read_text().partition("| Words | Do |")[2].partition("\n\n")[0]
        self.assertEqual(set(found.findall(said.partition("simulator PROGRAM")[2])), set(found.findall(table)))


class Parts(Checking):
    """The tests of the simulator's own parts."""

    seconds = 20

    def test_the_parts_of_the_simulator_pass_their_tests(self):
        require_compiler()
        with folder() as here:
            made = here / "tests"
            compiled = subprocess.run(
                [COMPILER, "--edition", "2021", "-O", "--test", "-o", made, ROOT / "tests/simulator/main.rs"],
                stdout=subprocess.PIPE, stderr=subprocess.STDOUT, text=True,
            )  # fmt: skip
            self.assertEqual(0, compiled.returncode, compiled.stdout)
            how = {"stdout": subprocess.PIPE, "stderr": subprocess.STDOUT, "text": True, "errors": "replace"}
            ran = subprocess.run([made], cwd=here, env={**os.environ, "CHAOSD": str(PROGRAM)}, timeout=LONG, **how)
        self.assertEqual(0, ran.returncode, ran.stdout)
