"""Tests the vectors of examples/vectors: what the program reports and sends now is what stands there."""

import re
import subprocess

from tests.chudp_reference import decode, encode, report
from tests.support import DONE, PROGRAM, REFUSED, ROOT, Case, folder, run

VECTORS = ROOT / "examples/vectors"
TOOL = ROOT / "tools/vectors"
PATIENCE = 120
FAULTS = ["1 Short", "2 BadMark", "3 BadVersion", "4 Packet 1 Short", "4 Packet 2 BadCount", "4 Packet 3 Truncated", "5 Trailing"]
FAULTS += ["6 BadNumber", "7 TooLong", "8 PacketAt 2 1 Short", "8 PacketAt 2 2 BadCount", "8 PacketAt 2 3 Truncated"]
CHUDP_FAULTS = ["1 TooLong", "2 Short", "3 BadVersion", "4 BadFunction", "5 BadSum", "6 Packet 2 BadCount", "6 Packet 3 Truncated", "7 Trailing"]
NAMES = ["RFC", "OPN", "CLS", "FWD", "ANS", "SNS", "STS", "LOS", "LSN", "EOF", "UNC", "DAT", "DWD"]


def files_of(place):
    return {path.name: path.read_text() for path in place.glob("*.txt")}


def blocks_of(name):
    """The blocks of a file without empty lines in its reports: what each shows, the datagram, and the report."""
    for block in files_of(VECTORS)[name].rstrip("\n").split("\n\n"):
        lines = block.split("\n")
        told = [line[2:] for line in lines if line.startswith("# ")]
        digits, *reported = lines[len(told) :]
        yield told, bytes.fromhex(digits), "\n".join(line[2:] for line in reported)


def difference(old, new):
    """The first line in which two texts differ."""
    pairs = zip(old.splitlines() + [""], new.splitlines() + [""])
    line = next((line for line, (one, other) in enumerate(pairs, 1) if one != other), 0)
    return f"line {line} is new: {(new.splitlines() + [''] * line)[line - 1]!r}"


def remade(old):
    """What the tool makes, and what it says where it fails. It is made again where it differs: the timers of two processes may cross."""
    for _ in range(3):
        with folder() as here:
            ran = subprocess.run([TOOL, PROGRAM, here], capture_output=True, text=True, timeout=PATIENCE)
            new = files_of(here)
        if new == old:
            break
    return new, [ran.stderr] * bool(ran.returncode or ran.stderr)


class Vectors(Case):
    """The files of examples/vectors."""

    seconds = 10

    def test_they_are_what_the_program_reports_and_sends(self):
        old = files_of(VECTORS)
        new, problems = remade(old)
        self.check("tools/vectors runs to its end", problems)
        for name in sorted(old.keys() | new.keys()):
            problems = [] if old.get(name) == new.get(name) else [difference(old.get(name, ""), new.get(name, ""))]
            self.check(f"{name} is what the program reports and sends", problems)

    def test_each_fault_and_each_named_opcode_stands_there(self):
        single = files_of(VECTORS).get("datagrams.txt", "")
        self.check("each fault of a datagram stands there", [fault for fault in FAULTS if f"\n  fault {fault}\n" not in single])
        missing = [name for name in NAMES if not re.search(rf"^  op \d{{3}} {name}$", single, re.M)]
        self.check("each opcode with a name stands there", missing)

    def test_each_datagram_of_chudp_is_reported_so_by_the_program_and_by_the_reference(self):
        found = list(blocks_of("chudp.txt"))
        for told, datagram, reported in found:
            is_refused = reported.startswith("fault ")
            ended = run(["show", "--chudp"], datagram.hex().encode() + b"\n")
            problems = ended.problems(REFUSED if is_refused else DONE, reported.encode() + b"\n", b"")
            if report(datagram) != reported:
                problems.append(f"the reference reports {report(datagram)!r}")
            self.check(f"chudp.txt: {told[0]}", problems)
        faults = {reported.removeprefix("fault ") for _, _, reported in found if reported.startswith("fault ")}
        self.check("each fault of CHUDP stands there, and no other", sorted(faults.symmetric_difference(CHUDP_FAULTS)))

    def test_each_good_datagram_of_chudp_is_written_again_by_the_reference(self):
        """But where a block says that something is ignored."""
        for told, datagram, reported in blocks_of("chudp.txt"):
            if reported.startswith("fault ") or told[0].endswith(" is ignored."):
                continue
            words, to, sender = decode(datagram)
            again = encode(words, to, sender)
            self.check(f"chudp.txt, again: {told[0]}", [] if again == datagram else [again.hex(" ")])

    def test_each_session_begins_with_a_request_and_ends_with_a_cls(self):
        """Or, where the CLS is lost, with the EOF again and a LOS."""
        for name, end in [("session.txt", ["EOF", "CLS"]), ("losses.txt", ["EOF", "CLS", "EOF", "LOS"]), ("recovery.txt", ["EOF", "CLS"])]:
            ops = re.findall(r"^  op \d{3} (\w+)$", files_of(VECTORS).get(name, ""), re.M)
            problems = [] if ops[:1] == ["RFC"] and ops[-len(end) :] == end else [f"{ops}"]
            self.check(f"{name} is a whole connection", problems)

    def test_the_page_has_each_last_line_of_a_sealed_datagram(self):
        last = [block.rstrip("\n").rpartition("\n")[2].strip() for block in files_of(VECTORS).get("sealed.txt", "").split("\n\n")]
        page = set(re.findall(r"^  - `([^`]+)`: ", (VECTORS / "README.md").read_text(), re.M))
        forms = {re.sub(r"^(hello|fault) .*", r"\1 ..", it) for it in last}
        self.check("each form of a last line", [f"{it} isn't in both" for it in sorted(forms ^ page)])
