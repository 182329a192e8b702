"""Tests the library for C, crates/chaos_ncp: each of its calls (tests/ncp.c), and the example that gets a file of `chaosd serve` with it.
The header examples/c/chudp.h needs no library: tests/chudp.c."""

import pathlib
import random
import re
import shutil
import subprocess
import sys
import tempfile
import unittest

from tests.chudp_reference import Fault, decode, encode, octets_of, random_datagram, random_hops, random_words
from tests.support import BAD_LINE, CLIENT, DONE, FAULT, REFUSED, ROOT, Case, Checking, Lossy, at, finished, free_ports, network_before, serving

sys.path.insert(0, str(ROOT / "tools"))
import rooms  # noqa: E402

LIBRARY = ROOT / "crates/chaos_ncp/out/libchaos_ncp.a"
WARNINGS = ["-std=c11", "-Wall", "-Wextra", "-Wpedantic", "-Werror", "-D_POSIX_C_SOURCE=200809L"]


def why_not():
    """Why the example can't be built, or an empty text. The library is proved, or it isn't there: nothing compiles it without proof."""
    if not shutil.which("cc"):
        return "cc isn't there, which examples/c/get.c needs"
    if not shutil.which(rooms.RT):
        return f"{rooms.RT} isn't there, whose kit has the calls of malloc for libchaos_ncp.a"
    sources = [it for crate in rooms.with_all_below("chaos_ncp") for it in crate.files()]
    if not LIBRARY.is_file() or LIBRARY.stat().st_mtime < max(it.stat().st_mtime for it in sources):
        return "libchaos_ncp.a isn't built from these sources: `tools/build chaos_ncp` proves and builds it"
    return ""


CRATE = ROOT / "crates/chaos_ncp"
# What a parameter of an export is in C. A `Global` takes no bytes, so C passes nothing for it.
IN_C = {
    "Global": [], "&mut Handle": ["chaos_ncp *"], "u8": ["uint8_t "], "u16": ["uint16_t "], "u64": ["uint64_t "], "&mut u8": ["uint8_t *"],
    "&mut u16": ["uint16_t *"], "&mut u64": ["uint64_t *"], "&[u8]": ["const uint8_t *", "size_t "], "&mut [u8]": ["uint8_t *", "size_t "],
}  # fmt: skip


def in_capitals(name):
    """A name of Rust's as the header has it: `NoNode` as `NO_NODE`."""
    return re.sub(r"(?<!^)([A-Z])", r"_\1", name).upper()


def exports():
    """The types in C of each export's parameters, by the sources."""
    text = "".join(it.read_text() for it in sorted((CRATE / "src").glob("*.rt")))
    for name, parameters in re.findall(r'pub extern "C" fn (\w+)\((.*?)\) -> i32', text, re.S):
        types = [re.sub(r"\s+", " ", it).split(": ", 1)[1] for it in parameters.split(",") if it.strip()]
        yield name, [each for it in types for each in IN_C[it.strip()]]


def is_framed(datagram):
    """Whether head, length and sum of a datagram are those of CHUDP. The library refuses what is wrong with its packet."""
    try:
        decode(datagram)
    except Fault as fault:
        return str(fault).startswith(("6 ", "7 "))
    return True


class Header(Checking):
    """include/chaos_ncp.h, which nothing else holds against the library."""

    def setUp(self):
        self.text = (CRATE / "include/chaos_ncp.h").read_text()

    def test_it_declares_each_export_as_the_sources_have_it(self):
        declared = re.findall(r"^int32_t (\w+)\((.*)\);$", self.text, re.M)
        seen = {name: [re.sub(r"\w+$", "", it) for it in parameters.split(", ")] for name, parameters in declared}
        self.assertEqual(seen, dict(exports()))

    def test_its_numbers_are_those_of_the_sources(self):
        seen = {name: int(number) for name, number in re.findall(r"CHAOS_NCP_(\w+) = (-?\d+)", self.text)}
        text = (CRATE / "src/fault.rt").read_text() + (CRATE / "src/talking.rt").read_text()
        wanted = {in_capitals(name): int(number) for name, number in re.findall(r"(?:Fault|State)::(\w+) => (-?\d+),", text)}
        # no connection that has a number is inactive
        self.assertEqual({**seen, "INACTIVE": 0}, wanted)


@unittest.skipUnless(shutil.which("cc"), "cc isn't there, which examples/c/chudp.h needs")
class Chudp(Checking):
    """examples/c/chudp.h, beside the reader and writer of CHUDP in Python."""

    @classmethod
    def setUpClass(cls):
        made = tempfile.TemporaryDirectory(prefix="chudp-")
        cls.addClassCleanup(made.cleanup)
        cls.program, cls.dice = pathlib.Path(made.name) / "chudp", random.Random(42042)
        subprocess.run(["cc", *WARNINGS, "-I", ROOT / "examples/c", ROOT / "tests/chudp.c", "-o", cls.program], check=True)

    def turned(self, how, datagrams):
        """What the header makes of each datagram."""
        given = "".join(f"{it.hex()}\n" for it in datagrams)
        ran = subprocess.run([self.program, how], input=given, capture_output=True, text=True)
        self.check(f"{how} reads each line", [ran.stderr] if ran.returncode or ran.stderr else [])
        return [bytes.fromhex(it) for it in ran.stdout.splitlines()]

    def test_each_datagram_of_version_1_becomes_one_of_chudp_and_comes_back(self):
        packets = [(random_words(self.dice), *random_hops(self.dice)) for _ in range(2_000)]
        own = [b"CH\x01\x00" + octets_of(words) for words, _, _ in packets]
        framed = self.turned("wrap", [it + octets_of(hops) for it, (_, *hops) in zip(own, packets)])
        self.check("wrapped", [] if framed == [encode(*it) for it in packets] else ["another datagram"])
        self.check("and unwrapped", [] if self.turned("unwrap", framed) == own else ["another datagram"])

    def test_what_is_no_chudp_is_refused_before_its_packet_is_looked_at(self):
        datagrams = [random_datagram(self.dice) for _ in range(4_000)]
        wanted = [b"CH\x01\x00" + it[4:-6] if is_framed(it) else b"" for it in datagrams]
        self.check("each", [] if self.turned("unwrap", datagrams) == wanted else ["another datagram"])
        self.check("some are refused", [] if 500 < wanted.count(b"") < 3_500 else [str(wanted.count(b""))])


class Library(Case):
    """The program of examples/c, which knows the library by its header alone."""

    seconds = 15

    @classmethod
    def setUpClass(cls):
        super().setUpClass()
        if why := why_not():
            raise unittest.SkipTest(why)
        made = tempfile.TemporaryDirectory(prefix="ncp-")
        cls.addClassCleanup(made.cleanup)
        cls.program, cls.calls = pathlib.Path(made.name) / "get", pathlib.Path(made.name) / "calls"
        kit = pathlib.Path(shutil.which(rooms.RT)).resolve().parent.parent
        for source, program in [("examples/c/get.c", cls.program), ("tests/ncp.c", cls.calls)]:
            what = [ROOT / source, LIBRARY, kit / "c/liblibc_c.a"]
            subprocess.run(["cc", *WARNINGS, "-I", ROOT / "crates/chaos_ncp/include", *what, "-o", program], check=True)

    def test_each_call_does_what_the_header_says(self):
        ended = finished(subprocess.Popen([self.calls], stdout=subprocess.PIPE, stderr=subprocess.PIPE))
        self.check("the first call that doesn't", ended.problems(DONE, b"", b""))

    def get(self, here, there, name):
        """A run of the program, from the port `here`, of a server at the port `there`."""
        words = [f"{CLIENT:o}", str(here), f"401={at(there)}", name]
        return finished(subprocess.Popen([self.program, *words], stdin=subprocess.DEVNULL, stdout=subprocess.PIPE, stderr=subprocess.PIPE))

    def test_files_of_each_size_come_as_they_are(self):
        with serving() as server:
            for count in [0, 1, 484, 489, 100_000]:
                content = random.Random(count).randbytes(count)
                (server.folder / "FILE").write_bytes(content)
                ended = self.get(server.peers[0], server.port, "FILE")
                self.check(f"{count:,} bytes", ended.problems(DONE, None, b"") or ([] if ended.out == content else ["another content"]))

    def test_a_file_comes_over_a_network_that_loses_repeats_and_reorders(self):
        content = random.Random(1981).randbytes(5_000)
        with serving() as server, network_before(server, Lossy) as network:
            (server.folder / "FILE").write_bytes(content)
            ended = self.get(network.peers[0], network.port, "FILE")
            self.check("the file", ended.problems(DONE, None, b"") or ([] if ended.out == content else ["another content"]))
            self.check("the network", [] if network.lost else ["it lost nothing"])

    def test_what_the_server_refuses_is_told_and_ends_the_connection(self):
        with serving() as server:
            for name, wanted in [("NONE", b"get: FNF No such file.\n"), (".", b"get: ILP Illegal path.\n")]:
                self.check(name, self.get(server.peers[0], server.port, name).problems(REFUSED, b"", wanted))
                self.check("the server hears of the end", [] if b" ends: " in server.line_with(b" ends: ") else ["it logs none"])

    def test_a_server_that_does_not_answer_is_told_in_time(self):
        with serving() as server:
            (other,) = free_ports(1)
            wanted = f"get: no answer from 401={at(other)}\n".encode()
            self.check("no server", self.get(server.peers[0], other, "FILE").problems(FAULT, b"", wanted))

    def test_bad_lines_are_refused(self):
        for words in [[], ["402"], ["9", "9002", "401=127.0.0.1:9001", "F"], ["402", "0", "401=127.0.0.1:9001", "F"], ["402", "9002", "401", "F"],
                      ["402", "9002", "401=localhost:9001", "F"], ["402", "9002", "401=127.0.0.1:9001", "F" * 65]]:  # fmt: skip
            process = subprocess.Popen([self.program, *words], stdout=subprocess.PIPE, stderr=subprocess.PIPE)
            self.check(str(words), finished(process).problems(BAD_LINE, b"", [b"get: "]))
