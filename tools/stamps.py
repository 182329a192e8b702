"""Stamps: beside a program, what says from which sources it was built, and how. `tools/stamp` reads and writes them."""

import hashlib
import os
import pathlib
import re
import subprocess

TOP = pathlib.Path(__file__).resolve().parent.parent
# folders of crates/ that no program is built from
OTHERS = {"out", "must-fail", "wrong-bodies"}
PROVED, CHECKED = "proved", "checked, not proved"
FORM = re.compile(r"how: (.*)\nsources: ([0-9a-f]{64})\nlogic: (\w+)\nprogram: ([0-9a-f]{64})\n")


def sources():
    """The files that programs are built from, by their paths below the top, sorted."""
    found = [TOP / "crates.txt", TOP / "HANDLES"]
    for folder, names, files in os.walk(TOP / "crates"):
        names[:] = [it for it in names if it not in OTHERS]
        found += [pathlib.Path(folder, it) for it in files]
    return sorted(it.relative_to(TOP).as_posix() for it in found if it.is_file())


def sum_of_sources():
    """The SHA-256 of a list of the SHA-256 of each source, as `sha256sum` prints it."""
    lines = [f"{hashlib.sha256((TOP / it).read_bytes()).hexdigest()}  {it}\n" for it in sources()]
    return hashlib.sha256("".join(lines).encode()).hexdigest()


def sum_of(program):
    return hashlib.sha256(program.read_bytes()).hexdigest()


def logic():
    """The logic that the kit proves by, as `rt version` names it."""
    said = subprocess.run([os.environ.get("RT", "rt"), "version"], stdout=subprocess.PIPE, text=True, check=True).stdout
    found = re.search(r"\blogic (\w+)", said)
    if not found:
        raise ValueError(f"`rt version` names no logic: {said.strip()}")
    return found[1]


def stamp_of(program):
    """Where the stamp of a program stands."""
    return program.with_name(f"{program.name}.stamp")


class Changed(Exception):
    """The sources changed while the program was built."""


def write(program, how, begun):
    """Writes the stamp of a program that was built so, from the sources that had the sum `begun` when the build began."""
    stamp = stamp_of(program)
    stamp.unlink(missing_ok=True)
    if sum_of_sources() != begun:
        raise Changed(f"the sources changed while {program.name} was built, so it gets no stamp: build it again")
    part = stamp.with_name(f"{stamp.name}.part")
    part.write_text(f"how: {how}\nsources: {begun}\nlogic: {logic()}\nprogram: {sum_of(program)}\n")
    part.replace(stamp)


class Stamp:
    """What the stamp beside a program says. `why` is why it says nothing of the program, and else empty."""

    def __init__(self, program):
        self.program, self.how, self.sources, self.logic, self.why = program, "", "", "", ""
        try:
            found = FORM.fullmatch(stamp_of(program).read_text())
            is_its_own = found and found[4] == sum_of(program)
        except FileNotFoundError as fault:
            self.why = f"{pathlib.Path(fault.filename).name} isn't there"
        else:
            if is_its_own:
                self.how, self.sources, self.logic = found[1], found[2], found[3]
            else:
                self.why = f"{stamp_of(program).name} is of another program" if found else f"{stamp_of(program).name} is no stamp"

    def unbuilt(self):
        """Why the program isn't called built from these sources, or an empty text where it was, proved or not."""
        return self.why or ("" if self.sources == sum_of_sources() else "it was built from other sources than these")

    def unproved(self):
        """Why the program isn't called proved, or an empty text where it was proved from these sources."""
        return self.why or ("" if self.how == PROVED else f"it was {self.how}") or self.unbuilt()
