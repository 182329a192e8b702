#!/usr/bin/env python3
"""Times `chaosd loop`, `serve` and `ask` beside plain Rust programs that do the same, and looks at the memory of `serve`.

    make bench-loop, or bench/loop.py [PROGRAM]

PROGRAM is bin/chaosd by default. The plain program is built for the same processors (x86-64-v2). Each figure is the least of
several runs, taken in turn, beyond what a run without a command takes, and the outputs have to be the same. Where valgrind or
perf is there, the instructions of `loop` outside the system are counted too, which don't vary with what else the machine does.
"""

import contextlib
import pathlib
import re
import signal
import subprocess
import sys
import tempfile
import time

sys.dont_write_bytecode = True

from beside import count_each  # noqa: E402
from copiers import FILE_DATA, FILE_LIMIT  # noqa: E402
from line import free_ports  # noqa: E402

HERE = pathlib.Path(__file__).resolve().parent
PROGRAM = HERE.parent / "bin/chaosd"

RUNS = 25
WISHED_RATIO = 1.2
WISHED_MEMORY = 8_192

# commands after which the memory of `serve` is looked at, and the seconds that they may take
COMMANDS = 100_000
PATIENCE = 20


def joined(lines):
    return "".join(line + "\n" for line in lines).encode()


def files_script(files, pieces):
    """So many files of so many pieces, each written and read, and the number of commands."""
    text = "".join(chr(0x21 + n % 50) for n in range(FILE_DATA))
    lines = ["T  LOGIN LISPM"]
    for n in range(files):
        lines += [f"T H OPEN WRITE^F{n}", *[f"T H WRITE^{text}"] * pieces, "T H CLOSE"]
        lines += [f"T H OPEN READ^F{n}", *["T H READ"] * (pieces + 1), "T H CLOSE"]
    return joined(lines), len(lines)


def reading_script():
    """A file of 1 MiB is read, and the number of commands."""
    reads = ["T H READ"] * (FILE_LIMIT // FILE_DATA + 2)
    lines = ["T  LOGIN LISPM", "T H OPEN READ^FILE", *reads, "T H CLOSE"]
    return joined(lines), len(lines)


def run(command, script, out):
    """Runs the command on a script, and gives the seconds that it took and what it wrote."""
    with open(out, "wb") as writer, open(script, "rb") as reader:
        start = time.perf_counter()
        subprocess.run(command, stdin=reader, stdout=writer, check=True)
        spent = time.perf_counter() - start
    return spent, pathlib.Path(out).read_bytes()


def timed(name, commands, script, count, folder):
    """Runs all commands in turn. Prints the nanoseconds of one of the script's commands for each program, and gives the seconds
    of the whole script."""
    full, empty = f"{folder}/full", f"{folder}/empty"
    pathlib.Path(full).write_bytes(script)
    pathlib.Path(empty).write_bytes(b"")
    best, seen = {}, {}
    for _ in range(RUNS):
        for program, command in commands.items():
            start, _ = run(command, empty, f"{folder}/output")
            spent, seen[program] = run(command, full, f"{folder}/output")
            best[program, "start"] = min(best.get((program, "start"), start), start)
            best[program] = min(best.get(program, spent), spent)
    assert seen["chaosd"] == seen["plain"], f"{name}: the outputs differ"
    whole = {program: best[program] - best[program, "start"] for program in commands}
    ours, plain = (whole[program] * 1e9 / count for program in ["chaosd", "plain"])
    print(f"{name}: chaosd {ours:.0f} ns a command, plain Rust {plain:.0f} ns, ratio {ours / plain:.2f} (wish: {WISHED_RATIO})")
    return whole


@contextlib.contextmanager
def serving(program, folder):
    """A server on the folder, and the line that asks it."""
    port, client = free_ports(2)
    words = [program, "serve", "401", f"127.0.0.1:{port}", folder, f"402=127.0.0.1:{client}"]
    server = subprocess.Popen(words, stderr=subprocess.PIPE)
    try:
        server.stderr.readline()
        yield server, [program, "ask", "402", f"127.0.0.1:{client}", "401", f"401=127.0.0.1:{port}"]
    finally:
        server.send_signal(signal.SIGTERM)
        server.communicate()


def bench_loop(programs, folder):
    script, count = files_script(8, 250)
    commands = {name: [program, "loop"] for name, program in programs.items()}
    timed(f"loop, {count} commands", commands, script, count, folder)
    count_each(f"loop, {count} commands", commands, [script, b""], count, "command")


def bench_ask(programs, folder):
    """A file of 1 MiB is read from a server in another process."""
    shared = pathlib.Path(folder) / "shared"
    shared.mkdir()
    (shared / "FILE").write_bytes(bytes(0x21 + n % 50 for n in range(FILE_LIMIT)))
    script, count = reading_script()
    with contextlib.ExitStack() as stack:
        commands = {name: stack.enter_context(serving(program, shared))[1] for name, program in programs.items()}
        whole = timed("ask of serve, 1 MiB", commands, script, count, folder)
    for name, spent in whole.items():
        print(f"    {name}: {spent * 1000:.1f} ms, {count / spent:,.0f} commands/s, {FILE_LIMIT / spent / 1e6:.1f} MB/s")


def memory_of(process):
    """The resident memory of a process, in kB."""
    status = pathlib.Path(f"/proc/{process.pid}/status").read_text()
    return int(re.search(r"VmRSS:\s+(\d+)", status)[1])


def bench_memory(programs, folder):
    """The memory of `serve` over many commands of many clients, one after another."""
    shared = pathlib.Path(folder) / "stored"
    shared.mkdir()
    script, count = files_script(8, 120)
    text = pathlib.Path(folder) / "script"
    text.write_bytes(script)
    with serving(programs["chaosd"], shared) as (server, command):
        seen, done, start = [memory_of(server)], 0, time.perf_counter()
        while done < COMMANDS and time.perf_counter() - start < PATIENCE:
            run(command, text, f"{folder}/output")
            done += count
            seen.append(memory_of(server))
        spent = time.perf_counter() - start
    print(
        f"memory of serve: {seen[0]} kB before a command, {seen[1]} kB after {count} and {seen[-1]} kB after {done}, at most "
        f"{max(seen)} kB (wish: below {WISHED_MEMORY}, and flat), {done / spent:,.0f} commands/s"
    )


def main():
    program = pathlib.Path(sys.argv[1]).resolve() if len(sys.argv) > 1 else PROGRAM
    if not program.is_file():
        sys.exit(f"{program} isn't there: run make first")
    with tempfile.TemporaryDirectory() as folder:
        plain = f"{folder}/plain_loop"
        words = ["rustc", "--edition=2021", "-O", "-C", "target-cpu=x86-64-v2", "-o", plain, HERE / "plain_loop.rs"]
        subprocess.run(words, check=True)
        programs = {"chaosd": program, "plain": plain}
        for bench in [bench_loop, bench_ask, bench_memory]:
            bench(programs, folder)


if __name__ == "__main__":
    main()
