#!/usr/bin/env python3
"""Times copies on loopback beside plain Rust and the programs that a user would take instead: a file of 1 MiB, and 500 small files by
one command; on a tmpfs, where a flush costs nothing, and on the disk.

    make bench-copies, or bench/copies.py [PROGRAM [RUNS]]

PROGRAM is bin/chaosd by default. Each figure is the least of RUNS runs, 15 by default and a third of them on the disk, taken in turn,
with the start of the client, and each file is compared. The files of the disk lie in out/. chaosd and plain Rust flush each file and its
folder where they write it; curl with nginx, scp and atftp flush nothing. What can't run here is said and left out.
"""

import contextlib
import pathlib
import random
import subprocess
import sys
import tempfile

sys.dont_write_bytecode = True

from copiers import Atftp, Chaosd, Curl, Scp, build_plain, content_of, told_by  # noqa: E402
from line import Place  # noqa: E402

ROOT = pathlib.Path(__file__).resolve().parent.parent
PROGRAM, DISK, TMPFS = ROOT / "bin/chaosd", ROOT / "out", pathlib.Path("/dev/shm")
RUNS, SLOW_RUNS = 15, 3
SMALL, SIZES = 500, (100, 4_000)
# the copy that is held against its aims, and the rivals of each figure
JUDGED = "chaosd, window 64, carriage 2"
AIMS = {"1 MiB": ["atftp, window 32", "curl"], "500 files": ["curl"]}
PROCESSOR_AIM = 6.0
# how much longer a copy may take whose datagrams are sealed
SEALED_AIM = 1.5
# why an aim is missed
WHY_SLOWER = {
    "1 MiB": "Which of the two is faster changes from run to run.",
    "500 files": "Each file is flushed and renamed, which curl doesn't do.",
}
WHY_SEALED = "Nearly all instructions of both ends are those of SHA-256."


def file_system(folder):
    """The name of the file system that a folder is on."""
    return subprocess.run(["stat", "-f", "-c", "%T", folder], capture_output=True, text=True).stdout.strip()


def small_files():
    """Files of 100 to 4,000 bytes, by their names."""
    chance = random.Random(1981)
    return {f"F{n:03}": content_of(chance.randint(*SIZES)) for n in range(SMALL)}


def write_all(folder, files):
    for name, content in files.items():
        (folder / name).write_bytes(content)


def clear(folder, files):
    for name in files:
        (folder / name).unlink(missing_ok=True)


class Running:
    """A copier whose server runs, and the folders at both ends."""

    def __init__(self, name, copier, top):
        self.name, self.copier = name, copier
        self.far, self.here = top / "far", top / "here"
        self.least = {}

    def copied(self, what, files):
        """Puts the files and gets them back, and keeps what each took where it is the least."""
        write_all(self.here, files)
        for way, target in [("put", self.far), ("get", self.here)]:
            clear(target, files)
            spent = self.copier.copied(way, list(files), self.here)
            for name, content in files.items():
                assert (target / name).read_bytes() == content, f"{self.name}: {way} of {name} differs"
            for figure in ["seconds", "processor"]:
                seen = self.least.get((what, way, figure), float("inf"))
                self.least[what, way, figure] = min(seen, getattr(spent, figure))
        clear(self.far, files)
        clear(self.here, files)


def ours_of(program, plain):
    """chaosd with both windows and both carriages, and plain Rust with both carriages, by their names."""
    ours = {f"chaosd, window {window}, carriage {carriage}": (window, carriage) for window in [13, 64] for carriage in [1, 2]}
    sealed = {f"{name}, sealed": Chaosd(name, program, *own, has_key=True) for name, own in ours.items() if own[0] == 13}
    rivals = {f"plain Rust, window 13, carriage {carriage}": Chaosd("plain Rust", plain, carriage=carriage) for carriage in [1, 2]}
    return {name: Chaosd(name, program, *own) for name, own in ours.items()} | sealed | rivals


def copiers_of(program, plain):
    """Each copier that can run here, by its name."""
    copiers = ours_of(program, plain) | {"curl": Curl(), "scp": Scp(), "atftp, window 32": Atftp()}
    missing = {name: copier.missing() for name, copier in copiers.items()}
    for name, why in missing.items():
        if why:
            print(f"    {name} is left out: {why}", flush=True)
    return {name: copier for name, copier in copiers.items() if not missing[name]}


def all_copied(copiers, folder, runs):
    """The least of each figure of each copier, with both ends below a folder; a copier that fails is left out from then on."""
    files = {"1 MiB": {"FILE": content_of()}, "500 files": small_files()}
    with contextlib.ExitStack() as stack:
        top = pathlib.Path(stack.enter_context(tempfile.TemporaryDirectory(dir=folder)))
        top.chmod(0o755)
        running = []
        for n, (name, copier) in enumerate(copiers.items()):
            each = Running(name, copier, top / str(n))
            each.far.mkdir(parents=True)
            each.here.mkdir()
            try:
                stack.enter_context(copier.serving(Place(), each.far, top / str(n) / "scratch"))
                running.append(each)
            except (OSError, subprocess.SubprocessError) as fault:
                print(f"    {name} is left out: {told_by(fault)}", flush=True)
        for run in range(runs):
            for each in list(running):
                if each.name == "scp" and run >= SLOW_RUNS:
                    continue
                try:
                    for what in files if each.copier.several else ["1 MiB"]:
                        each.copied(what, files[what])
                except (OSError, subprocess.SubprocessError) as fault:
                    print(f"    {each.name} is left out: {told_by(fault)}", flush=True)
                    running.remove(each)
    return {each.name: each.least for each in running}


def cell(least, what, figure="seconds"):
    """Both ways in milliseconds."""
    if not least or (what, "get", figure) not in least:
        return ""
    return "/".join(f"{least[what, way, figure] * 1000:.1f}" for way in ["put", "get"])


def print_table(memory, disk):
    print("<!-- copies: written by make bench -->")
    print("put/get in ms|1 MiB|the client's processor|500 files|1 MiB on the disk|500 files on the disk", "---|" * 5 + "---", sep="\n")
    for name, least in memory.items():
        cells = [cell(least, "1 MiB"), cell(least, "1 MiB", "processor"), cell(least, "500 files")]
        print(name, *cells, *[cell(disk.get(name), what) for what in ["1 MiB", "500 files"]], sep="|")
    print("<!-- end of copies -->", flush=True)


def print_missed(memory):
    ours = memory[JUDGED]
    for what, rivals in AIMS.items():
        for way in ["put", "get"]:
            for rival in [rival for rival in rivals if rival in memory]:
                ratio = ours[what, way, "seconds"] / memory[rival][what, way, "seconds"]
                if ratio > 1:
                    print(f"missed: `copies`, a {way} of {what} beside {rival}: {ratio:.2f}, aim 1.0. {WHY_SLOWER.get(what, '')}".rstrip())
    for name, sealed in memory.items():
        clear_one = memory.get(name.removesuffix(", sealed"))
        for way in ["put", "get"] if name.endswith(", sealed") and clear_one else []:
            ratio = sealed["1 MiB", way, "seconds"] / clear_one["1 MiB", way, "seconds"]
            if ratio > SEALED_AIM:
                print(f"missed: `copies`, a {way} of 1 MiB, {name}: {ratio:.2f} times as long as in clear, aim {SEALED_AIM}. {WHY_SEALED}")
    for way in ["put", "get"]:
        spent = ours["1 MiB", way, "processor"] * 1000
        if spent > PROCESSOR_AIM:
            print(f"missed: `copies`, the client's processor time in a {way} of 1 MiB: {spent:.1f} ms, aim {PROCESSOR_AIM}.")


def main():
    words = sys.argv[1:]
    program = pathlib.Path(words[0]).resolve() if words else PROGRAM
    runs = int(words[1]) if len(words) > 1 else RUNS
    if not program.is_file():
        sys.exit(f"{program} isn't there: run make first")
    DISK.mkdir(exist_ok=True)
    memory, system = TMPFS if TMPFS.is_dir() else pathlib.Path(tempfile.gettempdir()), file_system(DISK)
    if file_system(memory) != "tmpfs" or system == "tmpfs":
        print(f"    no tmpfs beside a disk here: {memory} is on {file_system(memory)}, {DISK} on {system}")
    with tempfile.TemporaryDirectory() as folder:
        copiers = copiers_of(program, build_plain(folder))
        both = [all_copied(copiers, memory, runs), all_copied(copiers, DISK, max(1, runs // 3))]
    print_table(*both)
    print_missed(both[0])


if __name__ == "__main__":
    main()
