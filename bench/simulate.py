#!/usr/bin/env python3
"""Counts the runs and steps of the simulator in a second: of one job, and of as many as there are processors.

    make bench-simulate, or bench/simulate.py [PROGRAM]

PROGRAM is bin/chaosd by default. A step is a call of the C library by a process. The seeds are the same each time, from 1 on, and each
figure is the best of three runs.
"""

import os
import pathlib
import re
import subprocess
import sys

ROOT = pathlib.Path(__file__).resolve().parent.parent
PROGRAM = ROOT / "bin/chaosd"
SECONDS, TIMES = 10, 3
SUMMARY = re.compile(r"(\d+) runs, (\d+) steps, (\d+) failed, (\d+) runs a second")
MARKS = "<!-- simulate: written by make bench -->", "<!-- end of simulate -->"


def played(program, jobs):
    """The runs and the steps of some seconds, each a second, of so many jobs."""
    line = [ROOT / "tools/simulate", "--program", program, "--seed", "1", "--seconds", str(SECONDS), "--jobs", str(jobs)]
    said = subprocess.run(line, capture_output=True, text=True).stdout
    found = SUMMARY.fullmatch(said.strip().rpartition("\n")[2])
    if not found or found[3] != "0":
        sys.exit(f"the simulator fails, or isn't there:\n{said}")
    return int(found[1]) / SECONDS, int(found[2]) / SECONDS


def main():
    program = pathlib.Path(sys.argv[1]).resolve() if len(sys.argv) > 1 else PROGRAM
    if not program.is_file():
        sys.exit(f"{program} isn't there: run make first")
    print(f"{MARKS[0]}\njobs|runs a second|steps a second\n---|---|---")
    for jobs in sorted({1, len(os.sched_getaffinity(0))}):
        runs, steps = max(played(program, jobs) for _ in range(TIMES))
        print(f"{jobs}|{runs:,.0f}|{steps:,.0f}", flush=True)
    print(MARKS[1])


if __name__ == "__main__":
    main()
