#!/usr/bin/env python3
"""Counts the system calls of chaosd: those of `serve`, `ask` and `loop` for a command in lock step, those of copies of 1 MiB with their
datagrams, beside plain Rust, and the flushes of small files.

    make bench-calls, or bench/calls.py [PROGRAM]

PROGRAM is bin/chaosd by default. In lock step strace counts the calls of a script of some thousand commands and of one without any; the
difference is that of the commands. A copy is counted as a whole, with the start of the client; of the server, what it calls until it
serves is left out. perf counts the calls of a copy, of these two processes alone. Where perf can't, strace does, and slows a copy so
much that packets go again that nobody lost. The counts vary where a datagram isn't there in time, and with --carriage 2, where they say
how many packets were there at once: each is the median of some copies. Where neither is there, the table stays empty.
"""

import contextlib
import dataclasses
import os
import pathlib
import shutil
import signal
import statistics
import subprocess
import sys
import tempfile
from collections.abc import Callable

sys.dont_write_bytecode = True

from copiers import build_plain, content_of, spent_by  # noqa: E402
from copies import ours_of, small_files, write_all  # noqa: E402
from line import Place, free_ports  # noqa: E402
from loop import PROGRAM, files_script  # noqa: E402

# what is told by name: datagrams that go, datagrams that are waited or asked for, changes between waiting and asking, the replies
# of a script and its lines
NAMES = ["sendto", "recvfrom", "ioctl", "read", "write"]
FLUSHES = ["fsync", "fdatasync"]
EVENTS = ["syscalls:sys_enter_sendto", "raw_syscalls:sys_enter"]
COPIES = 3


def counts(told):
    """The calls of each name that strace told."""
    rows = (line.split() for line in pathlib.Path(told).read_text().splitlines())
    return {row[-1]: int(row[3]) for row in rows if len(row) >= 5 and row[3].isdigit() and row[-1] != "total"}


def tracing(told):
    """The words that stand before a program whose calls strace counts."""
    return ["strace", "-c", "-f", "-o", str(told)]


def counts_of_perf(told):
    """The calls that perf told: datagrams that go, and all others."""
    rows = (line.split(",") for line in pathlib.Path(told).read_text().splitlines())
    sent, whole = [int(row[0]) for row in rows if len(row) > 2 and row[2] in EVENTS]
    return {"sendto": sent, "others": whole - sent}


def tracing_by_perf(told):
    """The words that stand before a program whose calls perf counts."""
    return ["perf", "stat", "-x", ",", "-o", str(told), "-e", ",".join(EVENTS)]


def can_perf(folder):
    """Whether perf counts calls here."""
    if not shutil.which("perf"):
        return False
    told = pathlib.Path(folder) / "perf"
    subprocess.run([*tracing_by_perf(told), "true"], stderr=subprocess.DEVNULL)
    with contextlib.suppress(OSError, ValueError):
        return bool(counts_of_perf(told))
    return False


@dataclasses.dataclass
class Counter:
    """What counts the calls of a program: the words that stand before its own, and how what they tell is read."""

    words: Callable
    read: Callable


STRACE, PERF = Counter(tracing, counts), Counter(tracing_by_perf, counts_of_perf)


@contextlib.contextmanager
def serving(words, told):
    """A server whose calls are counted, while the block runs."""
    server = subprocess.Popen([*tracing(told), *words], stderr=subprocess.PIPE)
    try:
        server.stderr.readline()
        yield
    finally:
        own = pathlib.Path(f"/proc/{server.pid}/task/{server.pid}/children").read_text().split()
        os.kill(int(own[0]), signal.SIGTERM)
        server.communicate()


def run(words, script, told):
    with open(script, "rb") as reader:
        subprocess.run([*tracing(told), *words], stdin=reader, stdout=subprocess.DEVNULL, check=True)
    return counts(told)


def asked(program, script, folder):
    """The calls of `serve` and of `ask` in a run over a script."""
    server_port, port = free_ports(2)
    shared = pathlib.Path(folder) / "shared"
    shared.mkdir(exist_ok=True)
    words = [program, "serve", "401", f"127.0.0.1:{server_port}", shared, f"402=127.0.0.1:{port}"]
    with serving(words, f"{folder}/serve"):
        ask = run([program, "ask", "402", f"127.0.0.1:{port}", "401", f"401=127.0.0.1:{server_port}"], script, f"{folder}/ask")
    return {"serve": counts(f"{folder}/serve"), "ask": ask}


def looped(program, script, folder):
    return {"loop": run([program, "loop"], script, f"{folder}/loop")}


def tell(name, full, empty, commands):
    spent = {call: (full[call] - empty.get(call, 0)) / commands for call in full}
    told = ", ".join(f"{spent.get(call, 0):.2f} {call}" for call in NAMES)
    others = sum(count for call, count in spent.items() if call not in NAMES)
    print(f"{name}: {sum(spent.values()):.2f} system calls a command: {told}, {others:.2f} others")


def tell_lock_step(program, folder):
    text, commands = files_script(4, 300)
    full, empty = pathlib.Path(folder) / "full", pathlib.Path(folder) / "empty"
    full.write_bytes(text)
    empty.write_bytes(b"")
    for runs in [asked, looped]:
        whole, none = runs(program, full, folder), runs(program, empty, folder)
        for name in whole:
            tell(f"{name}, {commands} commands", whole[name], none[name], commands)


def copied(copier, way, files, folder, counter=STRACE):
    """The calls of the client and of the server in a copy of these files; where there are none, of a server that only starts."""
    with tempfile.TemporaryDirectory(dir=folder) as name:
        top = pathlib.Path(name)
        here, far = top / "here", top / "far"
        here.mkdir()
        far.mkdir()
        write_all(here if way == "put" else far, files)
        with copier.serving(Place(), far, top / "scratch", counter.words(top / "server")):
            if files:
                spent_by([*counter.words(top / "client"), *copier.client(way, list(files))], here)
        client = counter.read(top / "client") if files else {}
        return {"client": client, "server": counter.read(top / "server")}


def median_of(runs, end, names=None):
    """The median over some copies of how often one end made calls of these names, or any."""
    return round(statistics.median(sum(count for call, count in run[end].items() if names is None or call in names) for run in runs))


def print_copies(copiers, folder, counter):
    """A row for each copier: datagrams each way and all calls of both ends, for a put and a get."""
    print("<!-- calls: written by make bench -->", "1 MiB, put/get|datagrams there|back|the client's calls|the server's", sep="\n")
    print("---|---|---|---|---")
    for name, copier in copiers.items():
        rows = []
        for way in ["put", "get"]:
            start = copied(copier, way, {}, folder, counter)["server"]
            runs = [copied(copier, way, {"FILE": content_of()}, folder, counter) for _ in range(COPIES)]
            sent = [median_of(runs, end, ["sendto"]) for end in ["client", "server"]]
            whole = [median_of(runs, "client"), median_of(runs, "server") - sum(start.values())]
            rows.append([*sent, *whole])
        print(name, *[f"{put:,}/{got:,}" for put, got in zip(*rows)], sep="|", flush=True)
    print("<!-- end of calls -->", flush=True)


def tell_flushes(copiers, folder):
    """The flushes of 500 small files at the end that writes them, and of its folder."""
    files = small_files()
    for name, copier in copiers.items():
        told = []
        for way, end in [("put", "server"), ("get", "client")]:
            run = copied(copier, way, files, folder)
            told.append(f"{sum(run[end].get(call, 0) for call in FLUSHES):,} in a {way}")
        print(f"flushes of {len(files)} files: {name}: {', '.join(told)}", flush=True)


def main():
    program = pathlib.Path(sys.argv[1]).resolve() if len(sys.argv) > 1 else PROGRAM
    if not program.is_file():
        sys.exit(f"{program} isn't there: run make first")
    with tempfile.TemporaryDirectory() as folder:
        copiers = ours_of(program, build_plain(folder))
        has_strace, counter = bool(shutil.which("strace")), PERF if can_perf(folder) else STRACE
        if has_strace:
            tell_lock_step(program, folder)
            tell_flushes({name: it for name, it in copiers.items() if "carriage 1" in name and "window 13" in name}, folder)
        else:
            print("    strace isn't installed: no calls of commands and no flushes are counted")
        print(f"    {'perf' if counter is PERF else 'strace'} counts the calls of copies")
        print_copies(copiers if has_strace or counter is PERF else {}, folder, counter)


if __name__ == "__main__":
    main()
