"""Runs random dialogues between two hosts, a short run from each of some seeds. One of the seeds is the clock's; `make dialogues SEED=..`
runs any of them again, at length.
"""

import os
import subprocess
import time
from concurrent.futures import ThreadPoolExecutor

from tests.support import Checking, checked

SEEDS = [2, 3, 4, 5, 6, 7, 8]
PACKETS = 17_000
# of those from SEEDS, over the network of the law; the others are of two hosts that get hostile packets too
OVER_THE_NETWORK = 100_000
# Seconds: a program that is compiled with checks reads some four hundred packets in one.
PATIENCE = 600

# a run is worth little that reads fewer items than one for so many packets
PACKETS_PER_ITEM = 200


def run(*words):
    """Runs the program, and gives its status and what it printed."""
    line = [checked("random_dialogues"), *map(str, words)]
    ended = subprocess.run(line, capture_output=True, text=True, timeout=PATIENCE)
    return ended.returncode, ended.stdout


def count(told, what):
    """The number that a line of what was printed tells."""
    return sum(int(line.split()[-1]) for line in told.splitlines() if line.startswith(f"{what} "))


def problems_of(seed, status, told):
    """What is wrong with the run from a seed."""
    lines = told.splitlines()
    if status or lines[:2] != [f"seed {seed}", f"packets {PACKETS}"] or lines[-1:] != ["ok"]:
        return [f"status {status}", *lines]
    items = count(told, "items read")
    return [] if items * PACKETS_PER_ITEM >= PACKETS else [f"{items} items read of {PACKETS} packets"]


class Dialogues(Checking):
    """Runs of random_dialogues."""

    seconds = 120
    needs = ["random_dialogues"]

    def test_all_that_a_user_of_each_host_sees_is_as_it_has_to_be(self):
        seeds = [*SEEDS, time.time_ns() // 1_000]
        with ThreadPoolExecutor(len(os.sched_getaffinity(0))) as lanes:
            runs = list(lanes.map(lambda seed: run(seed, PACKETS), seeds))
        for seed, (status, told) in zip(seeds, runs):
            self.check(f"{PACKETS} packets from seed {seed}", problems_of(seed, status, told))
        over = sum(count(told, "over the network of the law") for _, (_, told) in zip(SEEDS, runs))
        self.check(f"{OVER_THE_NETWORK} packets over the network of the law", [] if over >= OVER_THE_NETWORK else [f"{over}"])

    def test_a_seed_always_runs_alike(self):
        self.assertEqual(run(2, 5_000), run(2, 5_000))

    def test_words_that_are_no_numbers_are_a_mistake_status_2(self):
        self.assertEqual((2, ""), run("nonsense"))
