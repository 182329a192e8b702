#!/usr/bin/env python3
"""Times `chaosd show` beside a plain Rust program that prints the same, on inputs of nearly 1 MiB.

    bench/show.py [PROGRAM]

PROGRAM is bin/chaosd by default. The plain program is built for the same processors (x86-64-v2). Each figure is the least processor
time of many runs, taken in turn, so that what else the machine does counts little; the outputs have to be the same. Where valgrind or
perf is there, the instructions of a line are counted too, which don't vary at all.
"""

import pathlib
import resource
import subprocess
import sys
import tempfile

sys.dont_write_bytecode = True

from beside import count_each  # noqa: E402

HERE = pathlib.Path(__file__).resolve().parent
LIMIT = 1_048_576
RUNS = 100
WISHED_RATIO = 1.1
STATUS = "43 48 01 00 07 00 00 04 01 01 02 01 01 02 03 05 00 00 00 10 00 12 00 0D"
PACKET = "800001E8010102010102030500050010" + "".join(f"{n % 256:02X}" for n in range(488))
LETTER = "80000001010102010102030500050010" + "0041"


def filled(line):
    """As many of these lines as an input may have."""
    return (line + "\n").encode() * (LIMIT // (len(line) + 1))


INPUTS = {
    "short lines": filled(STATUS),
    "long lines": filled("43480100" + PACKET),
    "empty lines": filled(""),
    "four long packets a line": filled("43480204" + 4 * PACKET),
    "eight short packets a line": filled("43480208" + 8 * LETTER),
}


def spent_below():
    """The processor time of the programs that were run so far, in seconds."""
    used = resource.getrusage(resource.RUSAGE_CHILDREN)
    return used.ru_utime + used.ru_stime


def run(command, text, out):
    """Runs the command on the text, and gives the processor time that it took, in seconds, and what it wrote."""
    with open(text, "rb") as reader, open(out, "wb") as writer:
        before = spent_below()
        subprocess.run(command, stdin=reader, stdout=writer, check=False)
        spent = spent_below() - before
    return spent, pathlib.Path(out).read_bytes()


def main():
    chaosd = pathlib.Path(sys.argv[1]).resolve() if len(sys.argv) > 1 else HERE.parent / "bin/chaosd"
    with tempfile.TemporaryDirectory() as folder:
        plain = f"{folder}/plain_show"
        subprocess.run(["rustc", "-O", "-C", "target-cpu=x86-64-v2", "-o", plain, HERE / "plain_show.rs"], check=True)
        programs = {"chaosd": [chaosd, "show"], "plain": [plain]}
        for name, content in INPUTS.items():
            text = f"{folder}/input"
            pathlib.Path(text).write_bytes(content)
            best, seen = {}, {}
            for _ in range(RUNS):
                for program, command in programs.items():
                    spent, seen[program] = run(command, text, f"{folder}/output")
                    best[program] = min(best.get(program, spent), spent)
            assert seen["chaosd"] == seen["plain"], f"{name}: the outputs differ"
            ratio = best["chaosd"] / best["plain"]
            print(f"{name}: chaosd {best['chaosd'] * 1000:.1f} ms, plain Rust {best['plain'] * 1000:.1f} ms, ratio {ratio:.2f} (wish: {WISHED_RATIO})", flush=True)
            count_each(name, programs, [content, b""], content.count(b"\n"), "line")


if __name__ == "__main__":
    main()
