"""Which crates there are, of the product and of tests, and rooms to compile one in.

A room is a folder with a copy of the texts of a crate and of all below it. The sources of a crate of tests end in .rt.in, since
`rt` wants each .rt file in a crate that it proves; in a room they end in .rt. `rt` locks what it works on, so two crates that are
compiled at once need a room each.
"""

import os
import pathlib
import re
import shutil

TOP = pathlib.Path(__file__).resolve().parent.parent
RT = os.environ.get("RT", "rt")
PARTS = ("src", "specs", "data")


class Crate:
    """A crate of crates.txt or of tests/crates/list.txt: its line, its folder, and the names of all that stand right below it."""

    def __init__(self, line, folder):
        name, _, below = line.partition(":")
        self.line, self.name, self.below = line, name.split()[0], below.split()
        self.folder = folder / self.name
        self.is_program = any((self.folder / "src" / it).is_file() for it in ("main.rt", "main.rt.in"))

    def files(self):
        """The files that a room has of it, sorted."""
        return sorted(it for part in PARTS for it in (self.folder / part).rglob("*") if it.is_file())


def crates_of(list_of_crates, folder):
    """The crates of a list, by name."""
    lines = [it.partition("#")[0].strip() for it in list_of_crates.read_text().split("\n")]
    return {it.name: it for it in (Crate(line, folder) for line in lines if line)}


PRODUCT = crates_of(TOP / "crates.txt", TOP / "crates")
TESTS = crates_of(TOP / "tests/crates/list.txt", TOP / "tests/crates")
ALL = {**PRODUCT, **TESTS}


def with_all_below(*names):
    """Those crates and all that they stand on, each after those below it."""
    found = {}

    def add(crate):
        for it in crate.below:
            if it in ALL and it not in found:
                add(ALL[it])
        found[crate.name] = crate

    for name in names:
        add(ALL[name])
    return list(found.values())


def link(file, to):
    """Links what was proved to another place, or copies it where that is on another file system: `rt` replaces such a file, and never
    writes into it. Any other file is copied."""
    if str(file).endswith(".oantt") or "/rlib/" in str(file):
        try:
            return os.link(file, to)
        except OSError:
            pass
    return shutil.copy2(file, to)


def name_in_room(source):
    """The name that a file has in a room, which may be a path."""
    return source.with_suffix("") if source.suffix == ".in" else source


def put_in(room, crates):
    """Puts the texts of those crates into the room."""
    for crate in crates:
        for source in crate.files():
            place = room / "crates" / crate.name / name_in_room(source.relative_to(crate.folder))
            place.parent.mkdir(parents=True, exist_ok=True)
            shutil.copyfile(source, place)


def furnish(room, name):
    """Furnishes the room for that crate, and gives the crate's folder in it."""
    crates = with_all_below(name)
    put_in(room, crates)
    (room / "crates.txt").write_text("".join(f"{it.line}\n" for it in crates))
    shutil.copy(TOP / "HANDLES", room)
    return room / "crates" / name


def as_module(text, name, others):
    """The text of a file of a crate of tests, where that crate and the others are modules of one."""
    text = re.sub(r"\bcrate::", f"crate::{name}::", text.replace("#![tactic(auto)]\n", ""))
    return re.sub(rf"^(\s*use )({'|'.join(others)})::", r"\1crate::\2::", text, flags=re.M)


def furnish_together(room, together, names):
    """Furnishes the room for one crate, of which those crates of tests, and those below them, are modules: so what they stand on is
    compiled once. Gives the crate's folder."""
    crates = with_all_below(*names)
    product, tests = [it for it in crates if it.name in PRODUCT], [it for it in crates if it.name in TESTS]
    put_in(room, product)
    folder, others = room / "crates" / together, [it.name for it in tests]
    for crate in tests:
        for source in crate.files():
            path = name_in_room(source.relative_to(crate.folder / "src"))
            place = folder / "src" / (f"{crate.name}.rt" if path.name == "lib.rt" else crate.name / path)
            place.parent.mkdir(parents=True, exist_ok=True)
            place.write_text(as_module(source.read_text(), crate.name, others))
    (folder / "src/lib.rt").write_text("#![tactic(auto)]\n\n" + "".join(f"mod {it};\n" for it in others))
    below = dict.fromkeys(below for it in tests for below in it.below if below not in TESTS)
    lines = [*(it.line for it in product), f"{together}: {' '.join(below)}"]
    (room / "crates.txt").write_text("".join(f"{it}\n" for it in lines))
    shutil.copy(TOP / "HANDLES", room)
    return folder
