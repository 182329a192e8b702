#!/usr/bin/env python3
"""Times `chaosd lab` beside a plain Rust program that prints the same, on scripts of 8,000 and 16,000 items and on scripts of ticks that
send a full window again, and measures the memory that they take.

    bench/lab.py [PROGRAM]

PROGRAM is bin/chaosd by default. The plain program is built for the same processors (x86-64-v2). Each figure is the least of
ten runs, taken in turn, and the outputs have to be the same. Where valgrind or perf is there, the instructions of a line, and of a
copy that is sent again, are counted too, which don't vary with what else the machine does. Memory is the most that a process ever
held, as the system counts it, and never less than that of the Python that starts it, some 20 MB.
"""

import filecmp
import os
import pathlib
import subprocess
import sys
import tempfile
import time

sys.dont_write_bytecode = True

from beside import count_each  # noqa: E402

HERE = pathlib.Path(__file__).resolve().parent
RUNS = 10

OPENING = b"ends %d %d %d %d 1\ndeliver 0\naccept 100\ndeliver 1\ndeliver 2\n"


def in_turn(items):
    """A script of so many items: each is written, comes and is read, and the STS that tells so comes. Four lines an item."""
    lines = [OPENING % (2, 2, 2, 2)]
    for item in range(items):
        lines.append(b"write a 200 some bytes..\ndeliver %d\nread b\ndeliver %d\n" % (3 + 2 * item, 4 + 2 * item))
    return b"".join(lines)


def sent_again(ticks):
    """A script that fills a window of 64 and has all of it sent again so often."""
    lines = [OPENING % (64, 64, 64, 64), b"write a 200 some bytes..\n" * 64]
    for tick in range(1, ticks + 1):
        lines.append(b"tick a %d\ndeliver 1\n" % (500 * tick))
    return b"".join(lines)


def ticks_within(size):
    """The longest script of at most so many bytes that fills a window of 64 and has all of it sent again."""
    parts = [sent_again(0)]
    length = len(parts[0])
    for tick in range(1, size):
        parts.append(b"tick a %d\ndeliver 1\n" % (500 * tick))
        length += len(parts[-1])
        if length > size:
            return b"".join(parts[:-1])


SCRIPTS = {
    "8,000 items in turn": in_turn(8_000),
    "16,000 items in turn": in_turn(16_000),
    "64 items, sent again 120 times": sent_again(120),
    "64 items, sent again 240 times": sent_again(240),
    "64 items, sent again by 1 MiB of ticks": ticks_within(1_048_576),
}


def run(command, text, out):
    """Runs the command on the text, and gives the seconds that it took and the most memory that it held, in MB. What it wrote stays in
    its file: memory that this program held when it started the command would count as the command's."""
    with open(text, "rb") as reader, open(out, "wb") as writer:
        start = time.perf_counter()
        process = subprocess.Popen(command, stdin=reader, stdout=writer)
        _, status, used = os.wait4(process.pid, 0)
        spent = time.perf_counter() - start
    assert status == 0, f"{command} ended with {status}"
    return spent, used.ru_maxrss / 1024


def bench(programs, folder):
    """The least time and the most memory of each program on each script."""
    best, most = {}, {}
    for name, script in SCRIPTS.items():
        text = f"{folder}/script"
        pathlib.Path(text).write_bytes(script)
        for _ in range(RUNS):
            for program, command in programs.items():
                spent, held = run(command, text, f"{folder}/{program}.out")
                best[name, program] = min(best.get((name, program), spent), spent)
                most[name, program] = max(most.get((name, program), held), held)
        same = filecmp.cmp(f"{folder}/chaosd.out", f"{folder}/plain.out", shallow=False)
        assert same, f"{name}: the outputs differ"
    return best, most


def main():
    chaosd = pathlib.Path(sys.argv[1]).resolve() if len(sys.argv) > 1 else HERE.parent / "bin/chaosd"
    with tempfile.TemporaryDirectory() as folder:
        plain = f"{folder}/plain_lab"
        build = ["rustc", "--edition=2021", "-O", "-C", "target-cpu=x86-64-v2", "-o", plain, HERE / "plain_lab.rs"]
        subprocess.run(build, check=True)
        programs = {"chaosd": [chaosd, "lab"], "plain": [plain]}
        best, most = bench(programs, folder)
        count_each("16,000 items in turn", programs, [in_turn(16_000), in_turn(0)], 64_000, "line")
        count_each("64 items, sent again 240 times", programs, [sent_again(240), sent_again(0)], 240 * 64, "copy")
    for name in SCRIPTS:
        ours, theirs = best[name, "chaosd"], best[name, "plain"]
        held, held_plain = most[name, "chaosd"], most[name, "plain"]
        print(f"{name}: chaosd {ours * 1000:.1f} ms, plain Rust {theirs * 1000:.1f} ms, ratio {ours / theirs:.2f};", end=" ")
        print(f"memory {held:.1f} MB, plain Rust {held_plain:.1f} MB")
    for less, more in [list(SCRIPTS)[:2], list(SCRIPTS)[2:4]]:
        print(f"{more} over {less}: {best[more, 'chaosd'] / best[less, 'chaosd']:.2f}")


if __name__ == "__main__":
    main()
