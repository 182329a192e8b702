"""docs/LIBRARY.md: its code stands in the programs that it is of, and its signatures are those of the sources."""

import re
import sys

from tests.support import ROOT, Checking

sys.path.insert(0, str(ROOT / "tools"))
from sources import Sources  # noqa: E402

PAGE = ROOT / "docs/LIBRARY.md"
PROGRAMS = [
    ROOT / "tests/crates/example_reverse/src/main.rt.in",
    ROOT / "tests/crates/example_echo_udp/src/main.rt.in",
    ROOT / "crates/example_echo/src/main.rt",
    ROOT / "crates/example_lines/src/main.rt",
]
SIGNATURE = re.compile(r"fn (\w+)::(\w+)(.*)")


def blocks():
    """The lines of the page's code, by block, without comments and empty lines."""
    for block in re.findall(r"^```rust\n(.*?)^```", PAGE.read_text(), re.M | re.S):
        yield [line.strip() for line in block.split("\n") if line.strip() and not line.strip().startswith("//")]


def plain(signature):
    """A signature in one line, as the page has it."""
    text = re.sub(r"\s+", " ", signature).strip()
    return re.sub(r", \)", ")", text.replace("( ", "("))


def heads_of(sources, owner, name):
    """The signatures of the functions of this name in the sources, without what stands before the name."""
    found = [each for crate in sources.names() for each in sources.crate(crate).functions.get((owner, name), [])]
    return [plain(each.head).partition(f"fn {name}")[2] for each in found if each.is_public]


class Library(Checking):
    def test_its_code_is_the_programs(self):
        program = {line.strip() for file in PROGRAMS for line in file.read_text().split("\n")}
        lines = [line for block in blocks() for line in block if not SIGNATURE.match(line)]
        self.check("each line stands in a program", [line for line in lines if line not in program] if lines else ["no line"])

    def test_its_signatures_are_those_of_the_sources(self):
        sources = Sources(ROOT)
        signatures = [found for block in blocks() for line in block if (found := SIGNATURE.fullmatch(line))]
        wrong = [found[0] for found in signatures if found[3] not in heads_of(sources, found[1], found[2])]
        self.check("each is a function's", wrong if signatures else ["no signature"])
