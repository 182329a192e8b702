"""Tests tools/wireshark/chaosnet.lua by tshark: a FILE session between `serve` and `ask`, and 2,000 datagrams, good and bad,
which tshark and `chaosd show` have to read alike, field by field; of CHUDP tshark and tests/chudp_reference.py.

Captures are written by the test itself, from datagrams that it made or that a relay between the two programs saw, so that no right
to capture is needed.
"""

import os
import pathlib
import random
import re
import shutil
import struct
import subprocess
import tempfile
import unittest

from tests.chudp_reference import in_chudp, random_datagram, report, summed
from tests.packets import ANS, CLS, DATA, EOF, FWD, LOS, LSN, OPN, RFC, SNS, STS, datagram
from tests.scripts import text_of
from tests.seal_reference import SEAL_BYTES, Head, sealed
from tests.support import (
    CLIENT, DATA_LIMIT, DONE, LONG, PROGRAM, ROOT, SERVER, Case, Checking, Relay, at, folder, free_ports, run, serving,
)  # fmt: skip

DISSECTOR = ROOT / "tools/wireshark/chaosnet.lua"
PROTOCOL = ROOT / "docs/PROTOCOL.md"
SCRIPTS = ROOT / "docs/SCRIPTS.md"
HELLO, LOGIN = ROOT / "examples/hello.file", ROOT / "examples/login.hex"

# The sockets that stand in the captures, as in the README.
SERVER_PORT, CLIENT_PORT = 9001, 9002
NO_SERVER = b"No server for this contact name."
MARK_1, MARK_2 = b"CH\x01\x00", b"CH\x02"
# What the texts of docs/SCRIPTS.md were printed by.
DOCUMENTED = "4.0"

COUNT, SEED = 2_000, 1981


# Captures, and what tshark says of them.


def captured(datagrams, most=65_535):
    """A capture (pcap, raw IP) of datagrams, each with the ports of its two sockets on 127.0.0.1; at most so many bytes of each
    frame were kept."""
    here = bytes([127, 0, 0, 1])
    pieces = [struct.pack("<IHHiIII", 0xA1B2C3D4, 2, 4, 0, 0, 65_535, 101)]
    for number, (source, target, payload) in enumerate(datagrams):
        udp = struct.pack(">4H", source, target, 8 + len(payload), 0) + payload
        ip = struct.pack(">BBHHHBBH4s4s", 0x45, 0, 20 + len(udp), number % 65_536, 0, 64, 17, 0, here, here)
        frame = (ip + udp)[:most]
        pieces.append(struct.pack("<4I", 0, number * 1_000, len(frame), len(ip) + len(udp)) + frame)
    return b"".join(pieces)


class Tshark:
    """tshark with the dissector, in a home of its own."""

    def __init__(self, home):
        self.home = pathlib.Path(home)
        self.environment = os.environ | {"HOME": home, "WIRESHARK_CONFIG_DIR": home, "LC_ALL": "C.UTF-8"}
        self.said = ""

    def run(self, datagrams, *words):
        """What it prints for these datagrams, or for a capture of them. What it says of Lua is kept."""
        capture = self.home / "capture.pcap"
        capture.write_bytes(datagrams if isinstance(datagrams, bytes) else captured(datagrams))
        line = ["tshark", "-r", capture, "-X", f"lua_script:{DISSECTOR}", *words]
        ended = subprocess.run(line, env=self.environment, capture_output=True, text=True, timeout=2 * LONG)
        self.said += "".join(line + "\n" for line in ended.stderr.splitlines() if "Running as" not in line)
        return ended.stdout

    def fields(self, datagrams, names, *words):
        """The values of these fields, a row a frame."""
        named = [word for name in names for word in ("-e", name)]
        text = self.run(datagrams, "-T", "fields", "-E", "separator=/t", "-E", "occurrence=a", *named, *words)
        return [line.split("\t") for line in text.splitlines()]

    def frames(self, datagrams, wanted, *words):
        """The numbers of the frames that a display filter keeps."""
        return [int(row[0]) for row in self.fields(datagrams, ["frame.number"], "-Y", wanted, *words)]

    def version(self):
        return subprocess.run(["tshark", "--version"], capture_output=True, text=True).stdout.split()[2]


def differences(seen, wanted, limit=3):
    """The first places where two lists differ."""
    pairs = [f"{n}: {one!r} and not {other!r}" for n, (one, other) in enumerate(zip(seen, wanted), 1) if one != other]
    return pairs[:limit] + ([f"there are {len(seen)} and not {len(wanted)}"] if len(seen) != len(wanted) else [])


# A session between `serve` and `ask`.


class Noting(Relay):
    """A network that notes each datagram, with the two sockets that stand for its ends in the captures."""

    def __init__(self, port, server, client):
        super().__init__(port, (server, client))
        self.name_of = {server: SERVER_PORT, client: CLIENT_PORT}
        self.seen = []

    def passed(self, datagram, port):
        self.seen.append((self.name_of[self.other[port]], self.name_of[port], datagram))
        return super().passed(datagram, port)


def watched(command, words, given=b""):
    """What a client printed, and the datagrams between it and `serve`."""
    with serving() as server:
        (client,) = free_ports(1)
        network = Noting(server.peers[0], server.port, client)
        network.start()
        ended = run([command, "402", at(client), *(it.format(f"401={at(server.peers[0])}") for it in words)], given)
        network.close()
    return ended, network.seen


def session(script):
    """What `ask` printed for a script, and the datagrams between it and `serve`."""
    return watched("ask", ["401", "{}"], script)


PARTS = ["tid", "handle", "command", "answer", "user", "mode", "path", "length", "bytes"]
HELLO_TEXT = b'(DEFUN HELLO () (PRINT "HELLO, WORLD"))'
# Each command of examples/hello.file with its reply, by their parts.
HELLO_PARTS = [
    (["T1", "", "LOGIN", "", "LISPM", "", "", "", ""], ["T1", "", "", "LOGIN", "LISPM", "", "", "", ""]),
    (["T2", "H1", "OPEN", "", "", "WRITE", "HELLO.LISP", "", ""], ["T2", "H1", "", "OPEN", "", "", "", "0", ""]),
    (["T3", "H1", "WRITE", "", "", "", "", "", HELLO_TEXT.hex()], ["T3", "H1", "", "WRITE", "", "", "", "39", ""]),
    (["T4", "H1", "CLOSE", "", "", "", "", "", ""], ["T4", "H1", "", "CLOSE", "", "", "", "39", ""]),
    (["T5", "H2", "OPEN", "", "", "READ", "HELLO.LISP", "", ""], ["T5", "H2", "", "OPEN", "", "", "", "39", ""]),
    (["T6", "H2", "READ", "", "", "", "", "", ""], ["T6", "H2", "", "READ", "", "", "", "", HELLO_TEXT.hex()]),
    (["T7", "H2", "READ", "", "", "", "", "", ""], ["T7", "H2", "", "EOF", "", "", "", "", ""]),
    (["T8", "H2", "CLOSE", "", "", "", "", "", ""], ["T8", "H2", "", "CLOSE", "", "", "", "39", ""]),
]


LINE_PARTS = [*PARTS, "path.to", "error.code", "error.text"]
# Commands, then replies, with their parts by name; where there is None, the line is of no form.
COMMANDS = [
    (b"T1  RENAME\x8dA.LISP\x8dB", {"tid": "T1", "command": "RENAME", "path": "A.LISP", "path.to": "B"}),
    (b"T1  DELETE\x8dA\x8dB", {"tid": "T1", "command": "DELETE", "path": "A^B"}),
    (b"T1 H WRITE\x8d^\x8d\\", {"tid": "T1", "handle": "H", "command": "WRITE", "bytes": "5e8d5c"}),
    (b"T1 H WRITE\x8d", {"tid": "T1", "handle": "H", "command": "WRITE"}),
    (b"T1 H READ 1", None),
    (b"T1  LOGIN", None),
    (b"T1 H OPEN APPEND", None),
    (b"T1", None),
    (b"", None),
]
REPLIES = [
    (b"T1  RENAME", {"tid": "T1", "answer": "RENAME"}),
    (b"T1 H OPEN 1048576", {"tid": "T1", "handle": "H", "answer": "OPEN", "length": "1048576"}),
    (b"T1 H READ\x8d\x00\x8d", {"tid": "T1", "handle": "H", "answer": "READ", "bytes": "008d"}),
    (b"  ERROR SYN Bad command syntax.", {"answer": "ERROR", "error.code": "SYN", "error.text": "Bad command syntax."}),
    (b"T1 H EOF 1", None),
    (b"T1 H WRITE", None),
]


# The same datagrams through tshark and `show`.

KNOWN = [1, 2, 3, 4, 5, 6, 7, 9, 10, 12, 13, 0o200, 0o201, 0o277, 0o300, 0o377]
ENDS = [(0o401, 0), (0o401, 0o1001), (0o402, 0o1405), (0o402, 0), (0o177777, 0o177777)]
TEXTS = [b"FILE", b"FILE 1 2", b"T1  LOGIN LISPM", b"T2 H OPEN READ\x8dA.LISP", b"T  ERROR SYN Bad command syntax.", b"T H WRITE\x8d^\\\x00"]
TEXTS += [b"T H OPEN 9999999999999999999999", b"T H RENAME\x8dA\x8dB\x8dC", b"T  LOGIN \xff", b"FILE\x00 \x8d", b"  ERROR  "]


def random_words(dice):
    """A packet as words, with whatever in its free halves."""
    op = dice.choice(KNOWN) if dice.random() < 0.8 else dice.randrange(256)
    body = dice.choice([dice.randbytes(dice.randrange(9)), dice.randbytes(dice.randrange(DATA_LIMIT + 1)), dice.choice(TEXTS)])
    ends = [dice.choice(ENDS) if dice.random() < 0.9 else (dice.randrange(65_536), dice.randrange(65_536)) for _ in range(2)]
    numbers = dice.randrange(65_536), dice.randrange(65_536)
    header = struct.pack(">BBH6H", op, dice.randrange(256), dice.randrange(16) << 12 | len(body), *ends[0], *ends[1], *numbers)
    body += dice.randbytes(len(body) % 2)
    return header + b"".join(body[at : at + 2][::-1] for at in range(0, len(body), 2))


def several(dice):
    """A datagram of version 2."""
    number = dice.randrange(1, 9)
    return MARK_2 + bytes([number]) + b"".join(random_words(dice) for _ in range(number))


def with_bytes(payload, at, new):
    return payload[:at] + bytes(new) + payload[at + len(new) :]


# What makes a good datagram another, mostly a bad one.
HARMS = [
    lambda dice, good: good[: dice.randrange(1, len(good))],
    lambda dice, good: good[: dice.randrange(1, 24)],
    lambda dice, good: good + dice.randbytes(dice.randrange(1, 5)),
    lambda dice, good: good.ljust(dice.randrange(2_015, 2_026), b"x"),
    lambda dice, good: with_bytes(good, dice.randrange(2), [dice.randrange(256)]),
    lambda dice, good: with_bytes(good, 2, [dice.choice([0, 1, 4, 255]), dice.randrange(3)]),
    lambda dice, good: with_bytes(good, 3, [dice.randrange(12)]),
    lambda dice, good: with_bytes(good, 6, struct.pack(">H", dice.randrange(489, 65_536))),
    lambda dice, good: dice.randbytes(dice.randrange(1, 40)),
]


def made_up():
    """The datagrams, a fifth of them of version 2 and half of them harmed. None is empty: UDP hands an empty one to no dissector."""
    dice = random.Random(SEED)
    goods = [several(dice) if dice.random() < 0.2 else MARK_1 + random_words(dice) for _ in range(COUNT)]
    return [dice.choice(HARMS)(dice, good) if dice.random() < 0.5 else good for good in goods]


FIELDS = ["op", "fwd", "count", "dst.addr", "dst.index", "src.addr", "src.index", "num", "ack", "receipt", "window", "data"]


def packets_of(values, name_list):
    """The reports of a datagram's packets, from tshark's fields. Each field has a value for each packet that has it."""
    rest = {name: value.split(",") if value else [] for name, value in zip(FIELDS, values)}
    take = {name: (lambda name=name: rest[name].pop(0)) for name in FIELDS}
    for name in name_list:
        op, fwd, count, *ends, num, ack = (int(take[field]()) for field in FIELDS[:9])
        named = f"op {op:03o}" + ("" if name == f"{op:03o}" else f" {name}")
        lines = [named, f"fwd {fwd} count {count}", "to {:06o} {:06o}".format(*ends[:2]), "from {:06o} {:06o}".format(*ends[2:])]
        lines.append(f"num {num} ack {ack}")
        if op in (OPN, STS) and count >= 4:
            lines.append(f"receipt {take['receipt']()} window {take['window']()}")
        elif count:
            lines.append("data " + bytes.fromhex(take["data"]()).hex(" ").upper())
        yield "\n".join(lines)


def names_in(info):
    """The names of the opcodes of a datagram's packets, from its line in the list of packets."""
    return re.findall(r"\d{6}:\d{6} → \d{6}:\d{6} \[(\w+)\]", info)


def reports_of(rows):
    """What `show` would print, from what tshark prints."""
    for fault, packets, info, *values in rows:
        if fault:
            yield fault
            continue
        reports = list(packets_of(values, names_in(info)))
        yield "\n\n".join(([f"carriage 2 packets {packets}"] if packets else []) + reports)


def shown(datagrams):
    """The report of each datagram, by `show`, in several runs, since an input has a limit. One of several packets begins with their
    number."""
    for first in range(0, len(datagrams), 200):
        ended = run(["show"], "\n".join(payload.hex() for payload in datagrams[first : first + 200]).encode())
        blocks = iter(ended.out.decode().removesuffix("\n").split("\n\n"))
        for block in blocks:
            several = re.fullmatch(r"carriage 2 packets (\d)", block)
            yield "\n\n".join([block] + [next(blocks) for _ in range(int(several[1]) if several else 0)])


# CHUDP.

CHUDP_PORT, OTHER_PORT = 42_042, 9_003
# A status, data of one byte, and a request for a contact that nobody serves: each to 000401 from 000402.
CHUDP_STS = bytes.fromhex("01 01 00 00 07 00 00 04 01 01 02 01 01 02 03 05 00 00 00 10 00 12 00 0D 01 01 01 02 EF C0")
CHUDP_DAT = bytes.fromhex("01 01 00 00 80 00 00 01 01 01 02 01 01 02 03 05 00 05 00 10 00 41 01 01 01 02 76 9C")
CHUDP_RFC = bytes.fromhex("01 01 00 00 01 00 00 04 01 01 00 00 01 02 03 05 00 07 00 00 4F 4E 45 4E 01 01 01 02 63 4D")
# The success of a binding by STUN, with an address.
STUN = bytes.fromhex("01 01 00 0C 21 12 A4 42") + bytes(12) + bytes.fromhex("00 20 00 08 00 01 00 00 00 00 00 00")

# Each fault with a datagram that has it, the opcode where a packet is read all the same, and the status of the sum where there is one.
CHUDP_FAULTS = [
    ("fault 1 TooLong", CHUDP_STS + bytes(2_020), "", ""),
    ("fault 2 Short", CHUDP_STS[:3], "", ""),
    ("fault 2 Short", CHUDP_STS[:24], "", ""),
    ("fault 2 Short", CHUDP_STS[:-1], "", ""),
    ("fault 3 BadVersion", b"\x02" + CHUDP_STS[1:], "", ""),
    ("fault 4 BadFunction", b"\x01\x02" + CHUDP_STS[2:], "", ""),
    ("fault 5 BadSum", CHUDP_STS[:-1] + b"\xc1", "7", "0"),
    ("fault 5 BadSum", CHUDP_STS[:20] + b"\x01" + CHUDP_STS[21:], "7", "0"),
    ("fault 6 Packet 2 BadCount", summed(CHUDP_STS[:6] + b"\x01\xe9" + CHUDP_STS[8:]), "7", "1"),
    ("fault 6 Packet 3 Truncated", summed(CHUDP_STS[:6] + b"\x00\x05" + CHUDP_STS[8:]), "7", "1"),
    ("fault 7 Trailing", summed(CHUDP_STS[:6] + b"\x00\x02" + CHUDP_STS[8:]), "7", "1"),
]


def chudp_reports_of(rows):
    """What `show --chudp` would print, from what tshark prints."""
    for fault, to, sender, total, info, *values in rows:
        if fault:
            yield fault
            continue
        (packet,) = packets_of(values, names_in(info))
        yield f"{packet}\ntrailer to {int(to):06o} from {int(sender):06o}\nsum {int(total, 16):04X}"


# docs/PROTOCOL.md and docs/SCRIPTS.md.


def documented_session():
    """The datagrams of one FILE command, from the table in docs/PROTOCOL.md."""
    rows = re.findall(r"^ +\d  ([0-9A-F]{2} 00 [0-9A-F ]+)$", PROTOCOL.read_text(), re.M)
    return [MARK_1 + bytes.fromhex(row) for row in rows]


def documented_commands():
    """The commands of the section on Wireshark, each with what it prints."""
    _, _, section = SCRIPTS.read_text().partition("\n## In Wireshark\n")
    for block in re.findall(r"```text\n(.*?)```", section.partition("\n## ")[0], re.S):
        for command in re.split(r"^\$ ", block, flags=re.M)[1:]:
            line, _, text = command.partition("\n")
            yield line, text


@unittest.skipUnless(shutil.which("tshark"), "tshark isn't there: `apt-get install tshark` gives it")
class Dissecting(Checking):
    """Tests by a tshark that has nothing to say of the dissector."""

    def setUp(self):
        home = tempfile.TemporaryDirectory()
        self.addCleanup(home.cleanup)
        self.tshark = Tshark(home.name)

    def tearDown(self):
        self.check("tshark has nothing to say of the dissector", self.tshark.said.splitlines())


class Chudp(Dissecting):
    """What tshark shows of CHUDP by the dissector."""

    seconds = 15

    def test_the_packet_the_hops_and_the_sum_are_shown(self):
        rows = [
            (CHUDP_STS, ["7", "0", "18", "13", "", "", "257", "258", "0xefc0", "1", "", ""]),
            (CHUDP_DAT, ["128", "5", "", "", "41", "", "257", "258", "0x769c", "1", "", ""]),
            (CHUDP_RFC, ["1", "7", "", "", "4e4f4e45", "NONE", "257", "258", "0x634d", "1", "", ""]),
        ]
        seen = [(CLIENT_PORT, CHUDP_PORT, each) for each, _ in rows]
        names = ["op", "num", "receipt", "window", "data", "contact", "chudp.to", "chudp.from", "chudp.sum", "chudp.sum.status"]
        names += ["fault", "malformed"]
        table = self.tshark.fields(seen, [f"chaosnet.{name}" for name in names])
        self.check("three datagrams, typed", differences(table, [row for _, row in rows]))
        columns = ["-o", 'gui.column.format:"Protocol","%p","Info","%i"']
        texts = [line.split(None, 1) for line in self.tshark.run(seen, *columns).splitlines()]
        wanted = [["Chaosnet", "000402:001405 → 000401:001001 [STS] Ack=16 Receipt=18 Window=13"]]
        wanted += [["Chaosnet", "000402:001405 → 000401:001001 [DAT] Num=5 Ack=16 A"]]
        wanted += [["Chaosnet", "000402:001405 → 000401:000000 [RFC] Num=7 NONE"]]
        self.check("and their lines in the list of packets", differences(texts, wanted))

    def test_each_fault_is_marked(self):
        seen = [(CLIENT_PORT, CHUDP_PORT, each) for _, each, _, _ in CHUDP_FAULTS]
        names = ["fault", "op", "chudp.sum.status", "chudp.fault.code", "stream"]
        table = self.tshark.fields(seen, [f"chaosnet.{name}" for name in names])
        wanted = [[fault, op, status, fault.split()[1], ""] for fault, _, op, status in CHUDP_FAULTS]
        self.check("the faults of CHUDP, typed", differences(table, wanted))
        reports = [report(each) for _, each, _, _ in CHUDP_FAULTS]
        self.check("the reference says so too", differences(reports, [row[0] for row in wanted]))
        frames = self.tshark.frames(seen, "chaosnet.malformed and _ws.expert.severity == error")
        self.check("each is an expert information", differences(frames, list(range(1, len(seen) + 1))))
        text = self.tshark.run(seen[6:7], "-V")
        self.check("what a wrong sum should be is shown", [] if "Sum: 0xefc1 [wrong: it should be 0xefc0]" in text else [text])

    def test_chudp_is_recognized_by_its_head_by_its_port_and_by_what_went_before(self):
        other, argued = b"\x02" + CHUDP_STS[1:], with_bytes(CHUDP_STS, 2, b"\x0a\x0b")
        seen = [(CLIENT_PORT, OTHER_PORT, each) for each in (other, argued, CHUDP_STS[:24], STUN)]
        seen += [(CLIENT_PORT, CHUDP_PORT, each) for each in (other, argued, CHUDP_STS[:24])]
        seen += [(CLIENT_PORT, SERVER_PORT, CHUDP_STS), (SERVER_PORT, CLIENT_PORT, argued), (SERVER_PORT, CLIENT_PORT, other)]
        for name, words, frames in [
            ("at its port, by its head, and what goes between the same sockets later", [], [5, 6, 7, 8, 9, 10]),
            ("on a port of the preference", ["-o", f"chaosnet.chudp_ports:{OTHER_PORT}"], [1, 2, 3, 4, 8, 9, 10]),
            ("on a port that is decoded as it", ["-d", f"udp.port=={OTHER_PORT},chaosnet.chudp"], list(range(1, 11))),
        ]:
            self.check(f"recognized: {name}", differences(self.tshark.frames(seen, "chaosnet.chudp", *words), frames))
        rows = self.tshark.fields(seen[5:6], ["chaosnet.chudp.args", "chaosnet.chudp.sum.status", "chaosnet.fault"])
        self.check("arguments that aren't 0 are shown, and are no fault", differences(rows, [["0a0b", "1", ""]]))
        own = datagram(STS, (SERVER, 1), (CLIENT, 1), 0, 0, bytes(4))
        rows = self.tshark.fields([(CLIENT_PORT, CHUDP_PORT, own), (CLIENT_PORT, OTHER_PORT, own)], ["chaosnet.fault", "chaosnet.op"])
        self.check("the own carriage is a fault at the port of CHUDP alone", differences(rows, [["fault 3 BadVersion", ""], ["", "7"]]))
        for kept in (3, 25, len(CHUDP_STS) - 1):
            cut, words = captured(seen[7:8], 28 + kept), ["-d", f"udp.port=={SERVER_PORT},chaosnet.chudp"]
            rows = self.tshark.fields(cut, ["chaosnet.cut", "chaosnet.fault"], *words)
            self.check(f"a datagram of CHUDP of which {kept} bytes were kept is cut, and has no fault", differences(rows, [["1", ""]]))

    def test_connections_and_file_are_shown_as_of_the_own_carriage(self):
        me, host, new = (CLIENT, 0o1405), (SERVER, 0), (SERVER, 1)
        up = [datagram(RFC, host, me, 65_535, 0, b"FILE"), datagram(DATA, new, me, 0, 7, b"T  LOGIN M")]
        up += [datagram(DATA, new, me, 1, 7, b"T  X")]
        down = [datagram(OPN, me, new, 7, 65_535, bytes(4)), datagram(DATA, me, new, 8, 0, b"T  LOGIN M")]
        order = [up[0], down[0], up[1], up[1], down[1], up[2]]
        own = [(CLIENT_PORT, SERVER_PORT, each) if each in up else (SERVER_PORT, CLIENT_PORT, each) for each in order]
        seen = [(one, other, in_chudp(each, SERVER, CLIENT)) for one, other, each in own]
        parts = ["line", "form", "command_in", "reply_in", *LINE_PARTS]
        names = ["op", "stream", "contact", "analysis.first_in", *(f"file.{part}" for part in parts)]
        both = [self.tshark.fields(each, [f"chaosnet.{name}" for name in names], "-2") for each in (own, seen)]
        self.check("a session of FILE is shown alike in both", differences(both[1], both[0]))
        frames = self.tshark.frames(seen, 'chaosnet.chudp and chaosnet.file.user == "M"')
        self.check("and its commands and replies are found", differences(frames, [3, 4, 5]))

    def test_what_tshark_and_the_reference_read_is_alike(self):
        dice = random.Random(SEED)
        datagrams = [each for each in (random_datagram(dice) for _ in range(COUNT)) if each]
        seen = [(CLIENT_PORT, CHUDP_PORT, each) for each in datagrams]
        names = ["chaosnet.fault", "chaosnet.chudp.to", "chaosnet.chudp.from", "chaosnet.chudp.sum", "_ws.col.Info"]
        names += [f"chaosnet.{it}" for it in FIELDS]
        wanted = [report(each) for each in datagrams]
        missing = {fault for fault, _, _, _ in CHUDP_FAULTS} - set(wanted)
        self.check(f"among {len(datagrams)} datagrams each fault stands", sorted(missing))
        reports = list(chudp_reports_of(self.tshark.fields(seen, names)))
        self.check(f"{len(datagrams)} datagrams of CHUDP are read by tshark and by the reference alike", differences(reports, wanted))
        self.check("nothing stops the dissector of CHUDP", differences(self.tshark.frames(seen, "_ws.lua.error"), []))


# Seals.

KEY, GREATEST_NUMBER = bytes(range(32)), 2**64 - 1


class Seals(Dissecting):
    """What tshark shows of sealed datagrams."""

    seconds = 5

    def test_the_seal_and_what_it_holds_are_shown(self):
        """A request, a hello, a bundle of two packets with the greatest numbers, and a payload that is none."""
        me, host, new = (CLIENT, 0o1405), (SERVER, 0), (SERVER, 1)
        request, status = datagram(RFC, host, me, 5, 0, b"FILE"), datagram(STS, new, me, 0, 258, bytes(4))
        heads = [Head(SERVER, CLIENT, 20, 0, 1), Head(CLIENT, SERVER, 30, 20, 1), Head(*[65_535] * 2, *[GREATEST_NUMBER] * 3), Head(SERVER, CLIENT, 20, 30, 3)]
        payloads = [request, b"", MARK_2 + b"\x02" + status[4:] * 2, MARK_1]
        seen = [(CLIENT_PORT, SERVER_PORT, sealed(KEY, head, payload)) for head, payload in zip(heads, payloads)]
        names = [*(f"seal.{name}" for name in ["to", "from", "session", "peer", "counter", "length", "tag"]), "version", "packets", "op", "fault"]
        table = self.tshark.fields(seen, [f"chaosnet.{name}" for name in names])
        more = [["3,1", "", "1", ""], ["3", "", "", ""], ["3,2", "2", "7,7", ""], ["3,1", "", "", "fault 4 Packet 1 Short"]]
        wanted = [[*map(str, head), str(len(payload)), one[-16:].hex()] for head, payload, (_, _, one) in zip(heads, payloads, seen)]
        self.check("four sealed datagrams, field by field", differences(table, [[*one, *rest] for one, rest in zip(wanted, more)]))
        texts = self.tshark.run(seen[:2], "-o", 'gui.column.format:"Info","%i"').splitlines()
        lines = ["[Sealed] 000402:001405 → 000401:000000 [RFC] Num=5 FILE", "[Sealed, empty] To: 000402, From: 000401, Counter: 1"]
        self.check("and their lines in the list of packets", differences([text.strip() for text in texts], lines))
        text = self.tshark.run(seen[:1], "-V")
        self.check("a seal doesn't encrypt, and its tag isn't checked", [it for it in ["24 [not encrypted]", " [not checked]"] if it not in text])

    def test_a_seal_is_recognized_and_its_faults_are_told(self):
        good = sealed(KEY, Head(SERVER, CLIENT, 20, 30, 1))
        rows = [(good, "", ""), (good[:-1], "fault 1 Short", "1"), (with_bytes(good, 3, [1]), "fault 2 BadVersion", "2"), (good[:4], "fault 1 Short", "1")]
        seen = [(CLIENT_PORT, SERVER_PORT, one) for one, _, _ in rows]
        table = self.tshark.fields(seen, ["chaosnet.fault", "chaosnet.seal.fault.code"])
        self.check("the faults of a seal, typed", differences(table, [[fault, code] for _, fault, code in rows]))
        alone = [(CLIENT_PORT + n, OTHER_PORT, one) for n, (one, _, _) in enumerate(rows)]
        self.check("by its mark, version and length alone", differences(self.tshark.frames(alone, "chaosnet"), [1]))
        for kept in (4, SEAL_BYTES - 1):
            rows = self.tshark.fields(captured(seen[:1], 28 + kept), ["chaosnet.cut", "chaosnet.fault"])
            self.check(f"a seal of which {kept} bytes were kept is cut, and has no fault", differences(rows, [["1", ""]]))

    def test_connections_and_file_are_shown_as_in_clear(self):
        me, host, new = (CLIENT, 0o1405), (SERVER, 0), (SERVER, 1)
        up = [datagram(RFC, host, me, 65_535, 0, b"FILE"), datagram(DATA, new, me, 0, 7, b"T  LOGIN M")]
        down = [datagram(OPN, me, new, 7, 65_535, bytes(4)), datagram(DATA, me, new, 8, 0, b"T  LOGIN M")]
        order = [up[0], down[0], up[1], up[1], down[1]]
        own = [(CLIENT_PORT, SERVER_PORT, each) if each in up else (SERVER_PORT, CLIENT_PORT, each) for each in order]
        seen = [(*ports, sealed(KEY, Head(SERVER, CLIENT, 20, 30, n), each)) for n, (*ports, each) in enumerate(own, 1)]
        names = ["op", "stream", "contact", "analysis.first_in", *(f"file.{part}" for part in ["line", "command_in", "reply_in", *LINE_PARTS])]
        both = [self.tshark.fields(each, [f"chaosnet.{name}" for name in names], "-2") for each in (own, seen)]
        self.check("a session of FILE is shown alike in both", differences(both[1], both[0]))
        self.check("nothing stops the dissector of seals", differences(self.tshark.frames(seen, "_ws.lua.error"), []))


class Dissector(Dissecting, Case):
    """What tshark shows by the dissector."""

    seconds = 20

    def test_the_session_of_the_example_is_shown_line_by_line(self):
        """The session of examples/hello.file: nothing is given but the capture."""
        ended, seen = session(HELLO.read_bytes())
        self.check("ask and serve speak through the relay", ended.problems(DONE))
        names = ["chaosnet.file.line", *(f"chaosnet.file.{part}" for part in PARTS)]
        rows = self.tshark.fields(seen, names, "-Y", "chaosnet.file and not chaosnet.analysis.retransmission")
        lines = [line for pair in zip(HELLO.read_text().splitlines(), ended.out.decode().splitlines()) for line in pair]
        self.check("FILE's commands and replies are those of the script and of `ask`", differences([row[0] for row in rows], lines))
        self.check("and so are their parts", differences([row[1:] for row in rows], [row for pair in HELLO_PARTS for row in pair]))
        ops = [int(payload[4]) for _, _, payload in seen]
        rows = self.tshark.fields(seen, ["chaosnet.op", "chaosnet.stream", "chaosnet.contact", "chaosnet.fault"])
        wanted = [[str(op), "0", "FILE" if op == RFC else "", ""] for op in ops]
        self.check("each datagram is recognized by its mark, and of one stream", differences(rows, wanted))
        first = {kind: n for n, kind in reversed(list(enumerate(ops, 1)))}
        problems = [] if {RFC, OPN, STS, DATA, EOF, CLS} <= set(first) else [f"there are {ops}"]
        self.check("there are RFC, OPN, STS, data, EOF and CLS", problems)

    def test_a_copy_is_shown_as_its_page_says(self):
        """The lines that docs/SCRIPTS.md has for a capture while a copy happens, for a capture of one."""
        ended, seen = watched("put", ["{}", str(HELLO)])
        self.check("put and serve speak through the relay", ended.problems(DONE))
        ports, shown = re.search(r"`tshark -i lo -f 'udp portrange ([\d-]+)' -Y (\w+)`", SCRIPTS.read_text()).groups()
        tables = "".join((ROOT / f"examples/{name}.hosts").read_text() for name in ["client", "server"])
        of_tables = sorted(set(re.findall(r":(\d+)", tables)))
        self.check("the ports are those of the examples", [] if ports == f"{of_tables[0]}-{of_tables[-1]}" else [ports])
        self.check("the filter shows each datagram", differences(self.tshark.frames(seen, shown), list(range(1, len(seen) + 1))))
        rows = self.tshark.fields(seen, ["chaosnet.file.line"], "-Y", f"{shown}.file and not {shown}.analysis.retransmission")
        told = [next((it for it in row[0].split("^")[0].split() if it in ("LOGIN", "OPEN", "WRITE", "CLOSE")), None) for row in rows]
        self.check("the other shows commands and replies", differences(told[::2], told[1::2]) + ([] if len(told) == 8 and all(told) else [str(rows)]))

    def test_a_reply_names_its_command_and_what_comes_again_is_told(self):
        me, host, new = (CLIENT, 0o1405), (SERVER, 0), (SERVER, 1)
        up = [datagram(RFC, host, me, 65_535, 0, b"FILE 1 2"), datagram(DATA, new, me, 0, 7, b"T  LOGIN M"), datagram(DATA, new, me, 1, 7, b"T  X")]
        down = [datagram(OPN, me, new, 7, 65_535, bytes(4)), datagram(DATA, me, new, 8, 0, b"T  LOGIN M")]
        down += [datagram(DATA, me, new, 9, 1, b"T  ERROR UKC Unknown command.")]
        order = [up[0], down[0], up[1], up[1], up[2], down[2], down[1], down[1]]
        seen = [(CLIENT_PORT, SERVER_PORT, each) if each in up else (SERVER_PORT, CLIENT_PORT, each) for each in order]
        names = ["chaosnet.file.command_in", "chaosnet.file.reply_in", "chaosnet.analysis.first_in", "chaosnet.args", "chaosnet.file.error.code"]
        wanted = [["", "", "", "1 2", ""], ["", "", "", "", ""], ["", "7", "", "", ""], ["", "7", "3", "", ""], ["", "6", "", "", ""]]
        wanted += [["5", "", "", "", "UKC"], ["3", "", "", "", ""], ["3", "", "7", "", ""]]
        self.check("commands and replies find each other, and what comes again is told", differences(self.tshark.fields(seen, names, "-2"), wanted))
        for wanted, frames in [
            ("chaosnet.op == 0200 and chaosnet.file.command", [3, 4, 5]),
            ("chaosnet.op >= 0200 and chaosnet.file.answer", [6, 7, 8]),
            ("chaosnet.dst.addr == 0401", [1, 3, 4, 5]),
            ("chaosnet.src.index == 01405", [1, 3, 4, 5]),
            ("chaosnet.addr == 0402 and chaosnet.index == 01405", list(range(1, 9))),
            ("chaosnet.op == OPN", [2]),
            ("chaosnet.op == 1", [1]),
            ("chaosnet.analysis.retransmission", [4, 8]),
            ("chaosnet.file.form", [5]),
            ("chaosnet.file.error", [6]),
            ("chaosnet.file.error.code == \"UKC\"", [6]),
        ]:
            self.check(f"the filter {wanted}", differences(self.tshark.frames(seen, wanted), frames))

    def test_the_data_of_a_packet_is_shown_by_its_opcode(self):
        me, host = (CLIENT, 1), (SERVER, 0)
        rows = [
            (RFC, b"TIME", ["TIME", "", "", "", "", "54494d45"]),
            (LSN, b"FILE a\x8d b", ["FILE", "a^ b", "", "", "", b"FILE a\x8d b".hex()]),
            (CLS, NO_SERVER, ["", "", "No server for this contact name.", "", "", NO_SERVER.hex()]),
            (LOS, b"gone", ["", "", "gone", "", "", "676f6e65"]),
            (FWD, b"^\\", ["", "", r"\5e\5c", "", "", "5e5c"]),
            (ANS, b"A", ["", "", "", "", "", "41"]),
            (OPN, b"\x01\x00\x0d\x01\xff", ["", "", "", "1", "269", ""]),
            (STS, b"\x01\x00\x0d", ["", "", "", "", "", "01000d"]),
            (SNS, b"", [""] * 6),
        ]
        seen = [(CLIENT_PORT, SERVER_PORT, datagram(op, host, me, 0, 0, body)) for op, body, _ in rows]
        names = [f"chaosnet.{name}" for name in ["contact", "args", "text", "receipt", "window", "data"]]
        self.check("contact, arguments, text and status, typed", differences(self.tshark.fields(seen, names), [row for _, _, row in rows]))

    def test_commands_and_replies_are_shown_with_their_parts(self):
        me, host, new = (CLIENT, 1), (SERVER, 0), (SERVER, 1)
        front = [datagram(RFC, host, me, 0, 0, b"FILE"), datagram(OPN, me, new, 0, 0, bytes(4))]
        up = [datagram(DATA, new, me, n, 0, line) for n, (line, _) in enumerate(COMMANDS, 1)]
        down = [datagram(DATA, me, new, n, 0, line) for n, (line, _) in enumerate(REPLIES, 1)]
        seen = [(CLIENT_PORT, SERVER_PORT, each) for each in front + up + down]
        rows = self.tshark.fields(seen, [f"chaosnet.file.{part}" for part in ["line", "form", *LINE_PARTS]])[2:]
        for (line, parts), (shown, *row) in zip(COMMANDS + REPLIES, rows):
            wanted = ["", *(parts.get(part, "") for part in LINE_PARTS)] if parts else ["1"]
            text = text_of(line).decode()
            self.check(f"{line!r}", differences([shown, row if parts else row[:1]], [text, wanted]))
        self.check("each is a line of FILE", differences([len(rows)], [len(COMMANDS + REPLIES)]))

    def test_a_datagram_is_recognized_by_its_mark_by_what_went_before_and_by_its_port(self):
        """What is taken for Chaosnet: by the mark and a version, after one such, and on a port that was named."""
        good = datagram(STS, (SERVER, 1), (CLIENT, 1), 0, 0, bytes(4))
        other = with_bytes(good, 0, b"XY")
        seen = [(CLIENT_PORT, SERVER_PORT, each) for each in (other, good[:2], with_bytes(good, 2, b"\x04"), b"")]
        seen += [(CLIENT_PORT, SERVER_PORT, good), (SERVER_PORT, CLIENT_PORT, other), (CLIENT_PORT + 1, SERVER_PORT, other)]
        for name, words, frames in [
            ("the mark and a version, and what goes between the same sockets later", [], [5, 6]),
            ("all but the empty one, on a port of the preference", ["-o", f"chaosnet.ports:{SERVER_PORT}"], [1, 2, 3, 5, 6, 7]),
            ("and on a port that is decoded as it", ["-d", f"udp.port=={SERVER_PORT},chaosnet"], [1, 2, 3, 5, 6, 7]),
        ]:
            self.check(f"recognized: {name}", differences(self.tshark.frames(seen, "chaosnet", *words), frames))
        for kept in (4, 19, len(good) - 1):
            rows = self.tshark.fields(captured(seen[4:5], 28 + kept), ["chaosnet.cut", "chaosnet.fault"])
            self.check(f"a datagram of which {kept} bytes were kept is cut, and has no fault", differences(rows, [["1", ""]]))

    def test_what_tshark_and_show_read_is_alike(self):
        """The same datagrams, field by field."""
        datagrams = made_up()
        seen = [(CLIENT_PORT, SERVER_PORT, each) for each in datagrams]
        names = ["chaosnet.fault", "chaosnet.packets", "_ws.col.Info", *(f"chaosnet.{name}" for name in FIELDS)]
        rows = self.tshark.fields(seen, names, "-d", f"udp.port=={SERVER_PORT},chaosnet")
        wanted = list(shown(datagrams))
        faults = [report.split()[1] for report in wanted if report.startswith("fault")]
        problems = [] if set(faults) == set("12345678") and len(faults) > COUNT / 4 else [f"{len(faults)}, only {set(faults)}"]
        self.check(f"among {COUNT} datagrams each fault stands", problems)
        several = sum(report.startswith("carriage 2") for report in wanted)
        self.check("and several of version 2 that are read", [] if several > COUNT / 20 else [f"{several} are too few"])
        self.check(f"{COUNT} datagrams are read by tshark and by `show` alike", differences(list(reports_of(rows)), wanted))
        stopped = self.tshark.frames(seen, "_ws.lua.error", "-d", f"udp.port=={SERVER_PORT},chaosnet")
        self.check("nothing stops the dissector", differences(stopped, []))
        piped = self.tshark.run(seen, "-T", "fields", "-e", "udp.payload")
        self.check("`show` reads what tshark prints of udp.payload", differences(piped.split(), [each.hex() for each in datagrams]))

    def test_the_packets_of_version_2_are_read_each_and_its_faults_told(self):
        """Version 2: two packets in a datagram, and each of its faults, typed."""
        sts = bytes.fromhex("0700 0004 0101 0201 0102 0305 0000 0010 0012 000D")
        dat = bytes.fromhex("8000 0001 0101 0201 0102 0305 0005 0010 0041")
        greatest = bytes.fromhex("8000 01E8 0101 0201 0102 0305 0005 0010") + bytes(DATA_LIMIT)
        rows = [
            (b"\x02" + sts + dat, "", "7,128"),
            (b"\x03" + sts + dat, "fault 8 PacketAt 3 1 Short", "7,128"),
            (b"\x01" + sts + dat, "fault 5 Trailing", "7"),
            (b"\x00" + sts + dat, "fault 6 BadNumber", ""),
            (b"\x09" + sts + dat, "fault 6 BadNumber", ""),
            (b"\x04" + greatest * 4, "", "128,128,128,128"),
            (b"\x04" + greatest * 4 + b"x", "fault 7 TooLong", ""),
            (b"\x02" + sts + dat[:2] + b"\x01\xe9" + dat[4:], "fault 8 PacketAt 2 2 BadCount", "7,128"),
            (b"\x02" + sts + dat[:-1], "fault 8 PacketAt 2 3 Truncated", "7,128"),
            (b"", "fault 1 Short", ""),
        ]
        seen = [(CLIENT_PORT, SERVER_PORT, MARK_2 + rest) for rest, _, _ in rows]
        table = self.tshark.fields(seen, ["chaosnet.fault", "chaosnet.op"])
        self.check("datagrams of version 2, typed", differences(table, [[fault, ops] for _, fault, ops in rows]))
        reports = list(shown([payload for _, _, payload in seen]))
        fronts = [fault or f"carriage 2 packets {len(ops.split(','))}" for _, fault, ops in rows]
        self.check("and `show` says so too", differences([report.partition("\n")[0] for report in reports], fronts))

    def test_the_datagrams_of_the_example_are_those_of_the_documents(self):
        hexes = [bytes.fromhex(line) for line in LOGIN.read_text().splitlines()]
        self.check("examples/login.hex has the datagrams of the table", differences(documented_session(), hexes))

    def test_the_documents_show_what_their_commands_print(self):
        """Where tshark is the one by which they were printed."""
        if not self.tshark.version().startswith(DOCUMENTED):
            self.skipTest(f"tshark is {self.tshark.version()}, and docs/SCRIPTS.md shows what {DOCUMENTED} prints")
        with folder() as home:
            for name in ["examples", "tools"]:
                (home / name).symlink_to(ROOT / name)
            (home / "bin").mkdir()
            (home / "bin/chaosd").symlink_to(PROGRAM)
            environment = {"HOME": str(home), "PATH": os.environ["PATH"], "LC_ALL": "C.UTF-8"}
            commands = list(documented_commands())
            for line, text in commands:
                out = subprocess.run(["bash", "-c", line], cwd=home, env=environment, capture_output=True, text=True).stdout
                self.check(f"$ {line}", differences(out.strip().splitlines(), text.splitlines()))
            self.check("the section has commands", [] if commands else ["it has none"])
