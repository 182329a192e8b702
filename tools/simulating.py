"""The simulator of tests/simulator/, which is compiled where it isn't kept, and what a run of it says. `tools/simulate`, `tools/planted`,
`tools/coverage` and the bench stand on it."""

import os
import pathlib
import re
import shutil
import subprocess
import tempfile

import checking
import rooms
import stamps

SOURCES = rooms.TOP / "tests/simulator"
PROVED = rooms.TOP / "bin/chaosd"
COMPILER = os.environ.get("RUSTC", "rustc")
OPTIONS = ["--edition", "2021", "-O"]
MISSING = f"left out: the simulator, since there is no {COMPILER}, which compiles it"
# The last line of a run.
SUMMARY = re.compile(r"(?P<runs>\d+) runs, (?P<steps>\d+) steps, (?P<failed>\d+) failed, (?P<speed>\d+) runs a second")


class NoCompiler(Exception):
    """There is no rustc here."""


def sum_of_sources(options):
    """The sum of all that the simulator is made from."""
    version = subprocess.run([COMPILER, "--version"], stdout=subprocess.PIPE, check=True).stdout
    parts = [version, str(options).encode()]
    for file in sorted(SOURCES.glob("*.rs")):
        parts += [file.name.encode(), file.read_bytes()]
    return checking.digest(*parts)


def simulator(name="simulator", options=()):
    """The path of the simulator, compiled with these options more where it isn't kept as its sources are."""
    if not shutil.which(COMPILER):
        raise NoCompiler(MISSING)
    checking.KEPT.mkdir(parents=True, exist_ok=True)
    kept, note, wanted = checking.KEPT / name, checking.KEPT / f"{name}.sum", sum_of_sources(options)
    if kept.is_file() and note.is_file() and note.read_text() == f"{wanted} {checking.digest(kept.read_bytes())}\n":
        return kept
    with tempfile.TemporaryDirectory(prefix=f"{name}-", dir=checking.KEPT) as room:
        made, sum_file = pathlib.Path(room) / "made", pathlib.Path(room) / "sum"
        line = [COMPILER, *OPTIONS, *options, "-o", made, SOURCES / "main.rs"]
        ran = subprocess.run(line, stdin=subprocess.DEVNULL, stdout=subprocess.PIPE, stderr=subprocess.STDOUT, text=True)
        if ran.returncode:
            raise checking.NotCompiled(f"{ran.stdout}the simulator isn't compiled: what is wrong stands above")
        sum_file.write_text(f"{wanted} {checking.digest(made.read_bytes())}\n")
        made.replace(kept)
        sum_file.replace(note)
    return kept


def program():
    """The program to play: bin/chaosd where it was proved from these sources, else a fast one without proof, which is compiled where it
    isn't kept."""
    if not stamps.Stamp(PROVED).unproved():
        return PROVED
    return checking.keep(checking.fast("chaosd"))
