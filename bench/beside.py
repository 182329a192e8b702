#!/usr/bin/env python3
"""Times the libraries beside the same in plain Rust: `python3 bench/beside.py` for all benches, or with their names.

Each bench is programs that print the same lines, `what operations nanoseconds`, and where they have one what all came to, which has to
be the same: bench/NAME.rt.in over copies of the crates, proved and built by rt (another by RT=..) in a folder of its own, and
bench/plain_NAME.rs, built by rustc, with a second rival for some. All are run ten times, in turn, and each figure is the least. Where
valgrind or perf is there, the instructions of a whole run are counted too, which don't vary with what else the machine does. It takes
some minutes, most of them for the proofs.
"""

import os
import pathlib
import re
import shutil
import subprocess
import sys
import tempfile

HERE = pathlib.Path(__file__).resolve().parent
ROOT = HERE.parent
RT = os.environ.get("RT", "rt")
RUNS = 10

# the libraries that the program of a bench names; crates of this repository below them come along
BENCHES = {
    "codec": ["chaos_link", "chaos_packet", "arrayvec"],
    "links": ["chaos_chudp", "chaos_link"],
    "window": ["chaos_window", "chaos_packet"],
    "host": ["chaos_host", "chaos_conn", "chaos_packet"],
    "file": ["chaos_file"],
    "seal": ["chaos_seal", "chaos_link", "chaos_packet", "arrayvec"],
    "turn": ["file_server", "chaos_node", "chaos_file", "chaos_host", "chaos_conn", "chaos_link", "chaos_packet", "arrayvec"],
}

# the rivals of a bench that has more than one: what a line of each says behind its name
RIVALS = {"turn": {"turn": "", "turn_2": ", beside no walks"}, "seal": {"seal": "", "seal_openssl": ", beside OpenSSL"}}


def lines_of_crates():
    """The lines of crates.txt, by the crate's name."""
    lines = (line for line in (ROOT / "crates.txt").read_text().splitlines() if ":" in line and not line.startswith("#"))
    return {line.split(":")[0]: line for line in lines}


def with_those_below(names, lines):
    """These crates and all that they stand on in this repository."""
    found = set()
    waiting = list(names)
    while waiting:
        name = waiting.pop()
        if name in lines and name not in found:
            found.add(name)
            waiting += lines[name].split(":")[1].split()
    return sorted(found)


def build_proved(name, folder):
    """The program over the crates, in a small repository of its own."""
    top, program = pathlib.Path(folder), f"bench_{name}"
    lines = lines_of_crates()
    crates = with_those_below(BENCHES[name], lines)
    for crate in crates:
        # what earlier checks kept comes along, so that only the program is proved anew
        shutil.copytree(ROOT / "crates" / crate, top / "crates" / crate)
    listed = [lines[crate] for crate in crates] + [f"{program}: {' '.join(BENCHES[name])}", ""]
    (top / "crates.txt").write_text("\n".join(listed))
    (top / "HANDLES").write_text((ROOT / "HANDLES").read_text())
    source = top / "crates" / program / "src"
    source.mkdir(parents=True)
    (source / "main.rt").write_text((HERE / f"{name}.rt.in").read_text())
    ran = subprocess.run([RT, "run"], cwd=source.parent, capture_output=True, text=True)
    if ran.returncode:
        sys.exit(f"{name}: the program could not be proved\n{ran.stdout}{ran.stderr}")
    return str(source.parent / "out" / program)


def build_plain(name, folder):
    """The plain Rust program, for the processor that rt builds for."""
    program = f"{folder}/plain_{name}"
    options = ["--edition=2021", "-C", "opt-level=3", "-C", "target-cpu=x86-64-v2"]
    subprocess.run(["rustc", *options, "-o", program, HERE / f"plain_{name}.rs"], check=True)
    return program


def figures(program):
    """What the program tells: of each line its name, operations and what they came to, and the nanoseconds of one of them."""
    told = subprocess.run([program], capture_output=True, text=True, check=True).stdout
    rows = [line.split() for line in told.splitlines()]
    return {(what, int(count), *sums): int(spent) / int(count) for what, count, spent, *sums in rows}


def instructions(command, script=b""):
    """How many instructions a run of the command on the script takes outside the system, as valgrind counts them or perf; None
    where neither can."""
    if shutil.which("valgrind"):
        counter, count = ["valgrind", "--tool=callgrind", "--callgrind-out-file=/dev/null"], rb"Collected : (\d+)"
    elif shutil.which("perf"):
        counter, count = ["perf", "stat", "-x", ",", "-e", "instructions:u"], rb"(\d+),.*instructions"
    else:
        return None
    ran = subprocess.run([*counter, *command], input=script, stdout=subprocess.DEVNULL, stderr=subprocess.PIPE)
    told = re.search(count, ran.stderr)
    return int(told[1]) if told else None


def count_all(name, ours, rivals):
    """Prints what our program takes in instructions beside each rival, of what a line says behind its name, or that none were counted."""
    counted, others = instructions([ours]), [(behind, instructions([rival])) for behind, rival in rivals]
    for behind, plain in others:
        if counted is None or plain is None:
            print(f"{name}: instructions aren't counted: neither valgrind nor perf can here", flush=True)
            return
        both = f"{counted / 1e6:.0f} million instructions, plain Rust {plain / 1e6:.0f} million"
        print(f"{name}: the whole run{behind}: {both}, ratio {counted / plain:.2f}", flush=True)


def count_each(name, commands, scripts, count, unit):
    """Prints the instructions of one of so many units of a script for each program, beyond those of a run on a script without them,
    which stands beside it, or that none were counted."""
    runs = {program: [instructions(command, script) for script in scripts] for program, command in commands.items()}
    if any(None in both for both in runs.values()):
        print(f"{name}: instructions aren't counted: neither valgrind nor perf can here", flush=True)
        return
    ours, plain = ((runs[program][0] - runs[program][1]) / count for program in ["chaosd", "plain"])
    print(f"{name}: chaosd {ours:.0f} instructions a {unit}, plain Rust {plain:.0f}, ratio {ours / plain:.2f}", flush=True)


def bench(name):
    """Runs all programs in turn, and prints a line for each figure and rival."""
    rivals = RIVALS.get(name, {name: ""})
    with tempfile.TemporaryDirectory() as folder:
        programs = {"chaos": build_proved(name, folder)} | {rival: build_plain(rival, folder) for rival in rivals}
        best = {}
        for _ in range(RUNS):
            for kind, program in programs.items():
                for key, spent in figures(program).items():
                    best[kind, key] = min(best.get((kind, key), spent), spent)
        keys = [key for kind, key in best if kind == "chaos"]
        agree = all((rival, key) in best for rival in rivals for key in keys)
        assert agree, f"{name}: the programs disagree: {sorted(best)}"
        for rival, behind in rivals.items():
            for key in keys:
                ours, plain = best["chaos", key], best[rival, key]
                what = key[0].replace("_", " ") + behind
                print(f"{name}: {what}: {ours:.1f} ns, plain Rust {plain:.1f} ns, ratio {ours / plain:.2f}", flush=True)
        count_all(name, programs["chaos"], [(behind, programs[rival]) for rival, behind in rivals.items()])


def main():
    names = sys.argv[1:] or list(BENCHES)
    for name in names:
        bench(name)


if __name__ == "__main__":
    main()
