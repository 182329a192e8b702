"""Tests tools/ladder: draws the pictures of the documents again, and counts what stands in each ladder. The picture of the crates, which
graphviz draws, has those of crates.txt. The picture of copies over lines has the figures of docs/SPEED.md."""

import collections
import re
import subprocess
import sys
from xml.etree import ElementTree

from tests.support import DONE, PATIENCE, ROOT, Case, folder, run

LADDER = ROOT / "tools/ladder"
LAYERS = ROOT / "tools/layers"
PICTURES = ROOT / "docs/pictures"
DOCUMENTS = [ROOT / "docs/LABORATORY.md", ROOT / "docs/PROTOCOL.md", ROOT / "docs/ARCHITECTURE.md", ROOT / "docs/SPEED.md"]
LOGIN = ROOT / "examples/login"
SCRIPTS = sorted(path for path in ROOT.glob("examples/*lab/*") if path.suffix != ".txt")


def drawn(*words):
    """What the tool does with these words."""
    return subprocess.run([sys.executable, LADDER, *words], capture_output=True, text=True, timeout=PATIENCE)


def texts(svg):
    """All texts of a picture."""
    return ["".join(text.itertext()) for text in ElementTree.fromstring(svg).iter("{http://www.w3.org/2000/svg}text")]


def classes(svg):
    """How often each class stands in it."""
    elements = ElementTree.fromstring(svg).iter()
    return collections.Counter(name for each in elements for name in each.get("class", "").split())


def closed(arrows):
    """All crates of these arrows, each with all that it stands on."""
    below = {name: set() for arrow in arrows for name in arrow}
    for _ in below:
        for upper, lower in arrows:
            below[upper] |= {lower, *below[lower]}
    return below


ALL_FORMS = """ends 2 1 3 2 7
deliver 0
accept 100
deliver 1
window b 1
serve
write a 201 <&>
write a 014
tick b 500
deliver 9
deliver 2
later than ever
close a good\\20bye
"""
ALL_RESULTS = """copy 0 a RFC num 7 ack 0
delivered Requested
accepted 100
copy 1 b OPN num 100 ack 7
delivered Dropped NotOpen
announced 1
copy 2 b STS num 0 ack 7
served ended Open
wrote 8
copy 3 a DAT num 8 ack 100
wrote 9
copy 4 a EOF num 9 ack 100
ticked resent 2
copy 5 b OPN num 100 ack 7
copy 6 b DWD num 101 ack 7
refused 1 NoSuchCopy
refused 2 Stale
so be it
closed
copy 7 a CLS num 0 ack 0
stored a 2 b 1
"""


class Ladders(Case):
    """The pictures of the documents, and the tools that draw them."""

    seconds = 3

    def test_the_pictures_are_those_that_the_tools_draw_and_stand_in_documents(self):
        """The pictures of docs/pictures are those that the tool draws, and each stands in a document."""
        with folder() as here:
            ended = drawn("--pictures", here)
            self.check("the tool draws all pictures", [ended.stderr] * bool(ended.returncode or ended.stderr))
            made = {path.name: path.read_text() for path in here.iterdir()}
        there = {path.name for path in PICTURES.iterdir()}
        self.check("there is a picture of each script", [] if len(made) == len(SCRIPTS) + 1 else [f"{sorted(made)} of {len(SCRIPTS)} scripts"])
        made |= {name: (PICTURES / name).read_text() for name in ["layers.svg", "packets.svg"]}
        made["lines.svg"] = subprocess.run([sys.executable, ROOT / "bench/plot.py", ROOT / "docs/SPEED.md"], capture_output=True, text=True).stdout
        self.check("no others are there", [f"{name}" for name in sorted(there ^ set(made))])
        for name in sorted(there & set(made)):
            same = (PICTURES / name).read_text() == made[name]
            self.check(f"{name} is drawn as it is there", [] if same else ["another is drawn: `make pictures`"])
        shown = {name for document in DOCUMENTS for name in re.findall(r"\]\((?:docs/)?pictures/([\w.]+)\)", document.read_text())}
        self.check("documents show pictures that are there", sorted(shown - there))
        self.check("each picture stands in a document", sorted(there - shown))

    def test_the_picture_of_the_crates_has_those_of_crates_txt(self):
        """docs/pictures/layers.svg has the crates of crates.txt, and says of each on which others it stands."""
        lines = subprocess.run([LAYERS], stdout=subprocess.PIPE, text=True, timeout=PATIENCE).stdout.splitlines()
        wanted = closed([(line.split()[0], it) for line in lines if "->" in line for it in line.split()[3:-1]])
        titles = ElementTree.parse(PICTURES / "layers.svg").iter("{http://www.w3.org/2000/svg}title")
        seen = closed([it.text.split("->") for it in titles if "->" in it.text])
        other = [name for name in {**seen, **wanted} if seen.get(name) != wanted.get(name)]
        self.check("layers.svg has the crates of crates.txt", [f"not {', '.join(other)}: `make pictures`"] if other else [])

    def test_a_picture_has_each_delivery_each_loss_and_each_text(self):
        """Each picture has an arrow for each delivery, a cross for each copy that never comes, and what was written and read."""
        for script in SCRIPTS:
            output = script.with_suffix(".txt").read_text()
            svg = drawn(script, script.with_suffix(".txt")).stdout
            count, seen = classes(svg), texts(svg)
            # those of the script, and those that `settle` printed
            deliveries = re.findall(r"^deliver (\d+)$", script.read_text() + output, re.M)
            copies = re.findall(r"^copy (\d+) [ab] (\S+)", output, re.M)
            lost = len({number for number, _ in copies} - set(deliveries))
            refused = len(re.findall(r"^refused [12]", output, re.M))
            wanted = {"arrow": len(deliveries) - refused + lost, "cross": 2 * lost, "label": len(copies)}
            problems = [f"{count[name]} of {name} and not {number}" for name, number in wanted.items() if count[name] != number]
            problems += [f"no label of copy {number}" for number, kind in copies if not any(text.startswith(f"{number} {kind}") for text in seen)]
            for line in re.findall(r"^read \d{3} (.*)$", output, re.M):
                problems += [] if any(f"“{line[:36]}" in text for text in seen) else [f"nobody reads {line}"]
            self.check(f"{script.name}: arrows, crosses and texts", problems)

    def test_a_script_of_every_form_is_drawn(self):
        """A script of every form, and of a form that isn't known."""
        with folder() as here:
            script, output = here / "all.lab", here / "all.txt"
            script.write_text(ALL_FORMS)
            output.write_text(ALL_RESULTS)
            svg = drawn(script, output).stdout
        count, seen = classes(svg), texts(svg)
        wanted = ["A", "sends 2, receives 1", "B", "sends 3, receives 2", "2 stored", "1 stored", "0 RFC 7", "1 OPN 100 ack 7", "2 STS ack 7"]
        wanted += ["4 EOF 9 ack 100", "5 OPN 100 ack 7 again", "6 DWD 101 ack 7", "7 CLS", "request", "Requested", "accept 100", "Dropped NotOpen"]
        wanted += ["window 1", "serve → ended Open", "write 201 “<&>” → 8", "write EOF → 9", "500 ms → resent 2", "deliver 9 → refused: NoSuchCopy"]
        wanted += ["deliver 2 → refused: Stale", "later than ever → so be it", "close “good\\20bye”"]
        self.check("a script of every form: its texts", [f"no {text!r} in {seen}" for text in wanted if text not in seen])
        self.check("its refusals are red", [] if count["refused"] == 3 else [f"{count['refused']} are"])
        self.check("its lost copies end in a cross", [] if count["cross"] == 2 * 6 else [f"{count['cross'] // 2} do"])

    def test_reports_of_show_are_drawn_and_a_mistake_is_told(self):
        """What `show` says of examples/login.hex is what that picture is drawn from, through a file or a pipe."""
        reports = LOGIN.with_suffix(".txt").read_bytes()
        self.check("show < examples/login.hex", run(["show"], LOGIN.with_suffix(".hex").read_bytes()).problems(DONE, reports, b""))
        seen = texts(drawn(LOGIN.with_suffix(".txt")).stdout)
        wanted = ["000401", "000402", "“FILE”", "“T1  LOGIN LISPM”", "receipt 65534, window 13", "1 RFC 65534", "7 CLS"]
        self.check("its picture: texts", [f"no {text!r} in {seen}" for text in wanted if text not in seen])
        for name, words in [("no words", []), ("three words", ["a", "b", "c"]), ("a file of no packets", [ROOT / "crates.txt"]), ("no script", [ROOT / "crates.txt"] * 2)]:
            ended = drawn(*words)
            self.check(f"{name}: told on standard error", [] if ended.returncode == 1 and ended.stderr and not ended.stdout else [f"{ended}"])
