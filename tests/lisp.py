"""Tests the second end, examples/lisp, against `chaosd`: either serves the other, over UDP. It wants SBCL (`apt-get install sbcl`); where
clisp and ecl are there they run its tests in memory, too. The client for a Lisp machine, lispm.lisp, runs over a stand-in for its Chaosnet.
"""

import itertools
import re
import shutil
import struct
import subprocess

from tests.sealing import called, sealed_serving
from tests.second import (
    FIRST, LISP, LONG, MACHINE, SECOND, begun, canonical_problems, finished, needs_lisp, network_before, packets_of, ran, serving,
)
from tests.support import BAD_LINE, CLIENT, DONE, FILE_LIMIT, REFUSED, SERVER, Case, Checking, at, folder, free_ports, stored_problems

SIZES = [0, 1, 447, 448, 449, 100_000, FILE_LIMIT]
TEXT, LISP_TEXT = b"(A)\n\tB\x08\x0c", b"(A)\x8d\x89B\x88\x8c"
MOST_LINES, MOST_COLUMNS = 1_400, 100
# What is no part of the end itself: its tests, and the client for a Lisp machine, which has lines of its own.
APART, OF_MACHINE, MOST_OF_MACHINE = ["tests.lisp", "memory.lisp", "stand-in.lisp", "lispm.lisp"], "lispm.lisp", 150
# The functions of the package CHAOS that the Lisp Machine Manual describes, as far as lispm.lisp calls them.
OF_CHAOS = {"connect", "state", "open-state", "may-transmit", "get-pkt", "return-pkt", "pkt-opcode", "pkt-nbytes", "pkt-string"}
OF_CHAOS |= {"set-pkt-string", "send-pkt", "get-next-pkt", "finish-conn", "close-conn"}
# Forms that came to Common Lisp after the Lisp machines' systems.
LATER = re.compile(r"\((?:handler-\w+|define-condition|destructuring-bind|defgeneric|defmethod|read-sequence)\b|(?<!')\(lambda\b")
MODES = re.compile(r";;; -\*- .*Base: 10; Readtable: CL; Syntax: Common-Lisp -\*-\n")
TESTS = LISP / "tests.lisp"


def content_of(size):
    """So many bytes, of every value."""
    return (bytes(range(256)) * (size // 256 + 1))[:size]


class Sources(Checking):
    """What can be read."""

    def test_the_sources_keep_to_their_sizes(self):
        texts = {path.name: path.read_text() for path in sorted(LISP.glob("*.lisp"))}
        lines = sum(text.count("\n") for name, text in texts.items() if name not in APART)
        self.check(f"the end in Lisp has fewer than {MOST_LINES} lines without its tests", [] if lines < MOST_LINES else [f"it has {lines}"])
        lines = texts[OF_MACHINE].count("\n")
        self.check(f"{OF_MACHINE} has fewer than {MOST_OF_MACHINE} lines", [] if lines < MOST_OF_MACHINE else [f"it has {lines}"])
        wide = [f"{name}: {line}" for name, text in texts.items() for line in text.splitlines() if len(line) > MOST_COLUMNS]
        self.check(f"no line of it has more than {MOST_COLUMNS} columns", wide)
        sockets = [name for name, text in texts.items() if "sb-bsd-sockets" in text]
        self.check("one file of it knows sockets", [] if sockets == ["udp.lisp"] else sockets)

    def test_what_a_lisp_machine_loads_keeps_to_its_words(self):
        """What a Lisp machine loads calls functions of CHAOS that its manual describes, and has no form that is newer than its systems."""
        loaded = {name: (LISP / name).read_text() for name in (OF_MACHINE, "client.lisp")}
        called = {name for text in loaded.values() for name in re.findall(r"\bchaos:([a-z-]+)", text)}
        self.check("what a Lisp machine loads calls what its manual describes", [] if called == OF_CHAOS else [f"{called ^ OF_CHAOS}"])
        newer = [f"{name}: {found}" for name, text in loaded.items() for found in LATER.findall(text)]
        self.check("what a Lisp machine loads has no newer form", newer)
        without = [name for name, text in loaded.items() if not MODES.match(text)]
        self.check("what a Lisp machine loads says its base and its readtable", without)


class InMemory(Checking):
    """Its own tests, the test vectors among them, over a link in memory by each Lisp that is there."""

    seconds = 30

    def run_by(self, name, *words):
        if not shutil.which(name):
            self.skipTest(f"{name} isn't there: `apt-get install {name}` gives it")
        with folder() as empty:
            ended = subprocess.run([name, *words, f"{empty}/"], capture_output=True, text=True, timeout=2 * LONG)
        last = (ended.stdout.splitlines() or [""])[-1]
        is_well = ended.returncode == 0 and last.endswith(" passed, 0 failed") and not last.startswith("0 ")
        self.check(f"its tests in memory run under {name}: {last}", [] if is_well else [ended.stdout[-600:] + ended.stderr[-600:]])

    def test_its_tests_in_memory_run_under_sbcl(self):
        self.run_by("sbcl", "--script", TESTS)

    def test_its_tests_in_memory_run_under_clisp(self):
        self.run_by("clisp", "-q", TESTS)

    def test_its_tests_in_memory_run_under_ecl(self):
        self.run_by("ecl", "--shell", TESTS, "--")


@needs_lisp
class WordsOfLisp(Case):
    """What its command line takes, and what it says."""

    seconds = 20

    def test_where_no_server_is_that_is_told(self):
        """Where no server is, that is told, and the next file isn't tried."""
        with folder() as here:
            own, nobody = free_ports(2)
            ended = ran(SECOND, ["get", "402", at(own), f"401={at(nobody)}", "A", "B"], cwd=here)
            told = [b"chaosd: A: no connection opened in ", b" ms\nchaosd: B: not tried\n"]
            self.check(f"get of nobody, {SECOND}: told, status 3", ended.problems(REFUSED, b"", told))

    def test_a_wrong_word_is_a_mistake(self):
        """Words that are not of their form are a mistake, found before anything is opened."""
        good = ["402", "127.0.0.1:9002", "401=127.0.0.1:9001"]
        bad = [["get", *good], ["get", *good, "A/B"], ["get", *good, "A", "A"], ["get", *good, ".A"], ["put", *good, "a/X", "b/X"]]
        bad += [["get", "--output", "X", *good, "A", "B"], ["put", "--as", "X", *good, "A", "B"], ["get", "--window", "65", *good, "A"]]
        bad += [["get", "8", *good[1:], "A"], ["get", "402", "127.0.0.1:09002", good[2], "A"], ["get", *good[:2], "401", "A"], ["nonsense"]]
        bad += [["get", "--timeout", "0", *good, "A"], ["put", "--timeout", "3601", *good, "A"], ["serve", "--timeout", "5", *good[:2], "F"]]
        bad += [["get", "--carriage", "3", *good, "A"], ["serve", *good[:2]], ["get", "--login", "A-B", *good, "A"], ["get", "--loud", *good, "A"]]
        bad += [["get", "--chudp", "--carriage", "1", *good, "A"], ["get", "--bridge", "3040", *good, "A"]]
        bad += [["get", "--contact", "A B", *good, "A"], ["serve", "--chudp", "--bridge", "8", *good[:2], "F"], ["get", *good[:2], "*=127.0.0.1:9001", "A"]]
        bad += [["serve", *good[:2], "F", "*"], ["serve", "--contact", "", *good[:2], "F"]]
        problems = []
        for words in bad:
            problems += [f"{words}: {problem}" for problem in ran(SECOND, words).problems(BAD_LINE, b"", [b"\n"])]
        self.check(f"{len(bad)} lines with a wrong word, {SECOND}: status 2", problems)


# Either end in either program.


@needs_lisp
class Pair(Case):
    """A client and a server, each in `chaosd` or in Lisp."""

    def named(self, what):
        return f"{what}, the client in {self.client} and the server in {self.server}".replace("in chaosd", "chaosd")


class ChaosdAsks(Pair):
    client, server = FIRST, SECOND


class LispAsks(Pair):
    client, server = SECOND, FIRST


class LispAsksLisp(Pair):
    client, server = SECOND, SECOND


class Files:
    """Whole files."""

    def test_files_of_many_sizes_go_both_ways_byte_for_byte(self):
        """Files of many sizes and of every byte value go both ways, byte for byte, and texts by the table of --text."""
        with serving(self.server) as (host, here):
            (here / "up").mkdir()
            for size in SIZES:
                (here / "up" / f"UP{size}").write_bytes(content_of(size))
                (host.folder / f"DOWN{size}").write_bytes(content_of(size))
            problems = ran(self.client, ["put", *host.words(), *[f"up/UP{size}" for size in SIZES]], cwd=here).problems(DONE, b"", b"")
            for size in SIZES:
                problems += stored_problems(host.folder / f"UP{size}", content_of(size))
            self.check(self.named(f"put of {SIZES} bytes"), problems + host.problems())
            problems = ran(self.client, ["get", *host.words(), *[f"DOWN{size}" for size in SIZES]], cwd=here).problems(DONE, b"", b"")
            for size in SIZES:
                problems += stored_problems(here / f"DOWN{size}", content_of(size))
            self.check(self.named(f"get of {SIZES} bytes"), problems + host.problems())
            (here / "T").write_bytes(TEXT)
            problems = ran(self.client, ["put", "--text", *host.words(), "T"], cwd=here).problems(DONE, b"", b"")
            problems += stored_problems(host.folder / "T", LISP_TEXT)
            problems += ran(self.client, ["get", "--text", "--output", "U", *host.words(), "T"], cwd=here).problems(DONE, b"", b"")
            self.check(self.named("--text both ways"), problems + stored_problems(here / "U", TEXT))

    def test_what_can_not_be_got_or_put_is_told_and_the_next_file_is_tried(self):
        """Errors come with their three letters and their text, and the next file is tried; a text that wouldn't come back is no text."""
        with serving(self.server) as (host, here):
            (host.folder / "GREATER").write_bytes(bytes(FILE_LIMIT + 1))
            (host.folder / "SUB").mkdir()
            (host.folder / "A").write_bytes(b"a")
            (here / "SUB").write_bytes(b"sub")
            (here / "T").write_bytes(b"\x8d")
            (here / "BIG").write_bytes(bytes(FILE_LIMIT + 1))
            told = b"chaosd: NONE: FNF No such file.\nchaosd: GREATER: TBG File too big.\nchaosd: SUB: STF Store fault.\n"
            ended = ran(self.client, ["get", *host.words(), "NONE", "GREATER", "SUB", "A"], cwd=here)
            self.check(self.named("get of what can't be got"), ended.problems(REFUSED, b"", told) + stored_problems(here / "A", b"a"))
            told = b"chaosd: SUB: STF Store fault.\nchaosd: BIG has more than 1048576 bytes\n"
            ended = ran(self.client, ["put", *host.words(), "SUB", "BIG", "T"], cwd=here)
            self.check(self.named("put of what can't be put"), ended.problems(REFUSED, b"", told) + stored_problems(host.folder / "T", b"\x8d"))
            place = b" at line 1, byte 1" if self.client == FIRST else b""
            told = b"chaosd: T has a byte 8D%s, which --text would not give back; leave --text out\n" % place
            ended = ran(self.client, ["put", "--text", *host.words(), "T"], cwd=here)
            self.check(self.named("put --text of a byte that wouldn't come back"), ended.problems(REFUSED, b"", told))


@needs_lisp
class BesideKeys(Case):
    """The end in Lisp, which has no keys, at a server that has a key with another host."""

    seconds = 20

    def test_a_client_in_lisp_is_served_beside_a_host_with_a_key(self):
        """And it isn't served in the name of that host."""
        content = content_of(20_000)
        with sealed_serving() as server, folder() as here:
            (here / "A").write_bytes(content)
            problems = called(server, server, "put", "A", cwd=here).problems(DONE, b"", b"")
            (here / "A").unlink()
            words = ["403", at(server.peers[1]), f"401={at(server.port)}"]
            problems += ran(SECOND, ["get", *words, "A"], cwd=here).problems(DONE, b"", b"") + stored_problems(here / "A", content)
            self.check("chaosd puts as a host with a key, and Lisp gets as a host without", problems)
            (here / "B").write_bytes(content)
            problems = ran(SECOND, ["put", *words, "B"], cwd=here).problems(DONE, b"", b"")
            (here / "B").unlink()
            problems += called(server, server, "get", "B", cwd=here).problems(DONE, b"", b"") + stored_problems(here / "B", content)
            self.check("and the other way round", problems)
            words = ["402", at(server.peers[0]), f"401={at(server.port)}"]
            ended = ran(SECOND, ["get", "--timeout", "3", "--output", "C", *words, "A"], cwd=here)
            self.check("Lisp isn't heard as the host with a key", ended.problems(REFUSED) + (["C is there"] if (here / "C").exists() else []))


class FilesChaosdAsks(Files, ChaosdAsks):
    seconds = 40


class FilesLispAsks(Files, LispAsks):
    seconds = 40


class FilesLispAsksLisp(Files, LispAsksLisp):
    seconds = 40


class Anew:
    """An end that is killed while a file travels, and begins again."""

    def test_a_server_that_begins_again_is_told_of_and_serves_the_next(self):
        """A server that is killed while a file travels, and started again: the client is told so, and the next one is served."""
        with serving(self.server) as (host, here), network_before(host) as (network, port, line):
            content = content_of(FILE_LIMIT)
            (host.folder / "A").write_bytes(content)
            with network.closed_after(port, 20):
                # a busy machine may take longer to start the server than a client waits by itself
                process = begun(self.client, ["get", "--window", "1", "--timeout", "250", *line, "A", "A2"], cwd=here)
                network.wait_for_last(port)
                host.end()
                host.start()
            told = b"chaosd: A: it knows no such connection: No such connection.\nchaosd: A2: not tried\n"
            self.check(self.named("the server is killed and begins again"), finished(process).problems(REFUSED, b"", told))
            problems = ran(self.client, ["get", *line, "A"], cwd=here).problems(DONE, b"", b"") + stored_problems(here / "A", content)
            self.check(self.named("and the next client is served"), problems)

    def test_a_client_that_begins_again_is_served_at_once(self):
        """A client that is killed while a file travels, and started again at the same address: it is served, three times, and does not wait until the
        server gives the connection up: no client waits for that long."""
        with serving(self.server) as (host, here), network_before(host) as (network, port, line):
            (host.folder / "A").write_bytes(content_of(FILE_LIMIT))
            (host.folder / "B").write_bytes(b"b")
            problems = []
            for _ in range(3):
                process = begun(self.client, ["get", "--window", "1", *line, "A"], cwd=here)
                network.wait_for(port, 20)
                process.kill()
                process.communicate()
                problems += ran(self.client, ["get", *line, "B"], cwd=here).problems(DONE, b"", b"") + stored_problems(here / "B", b"b")
            self.check(self.named("the client is killed and begins again"), problems)


class AnewChaosdAsks(Anew, ChaosdAsks):
    seconds = 60


class AnewLispAsks(Anew, LispAsks):
    seconds = 60


class AnewLispAsksLisp(Anew, LispAsksLisp):
    seconds = 60


class Windows:
    """Each pair of windows, by each carriage."""

    def test_each_pair_of_windows_carries_files_whole(self):
        """Each pair of windows carries files whole by each carriage, and none starves: that would take a retransmission for each file."""
        names, content = [f"F{n}" for n in range(16)], content_of(9_000)
        for (own, other), version in itertools.product([("1", "1"), ("1", "64"), ("64", "1"), ("13", "64")], ["1", "2"]):
            with serving(self.server, options=["--window", own, "--carriage", version]) as (host, here):
                for name in names:
                    (host.folder / name).write_bytes(content)
                ended = ran(self.client, ["get", "--window", other, "--carriage", version, *host.words(), *names], cwd=here)
                problems = ended.problems(DONE, b"", b"")
                for name in names:
                    problems += stored_problems(here / name, content)
                self.check(self.named(f"windows {own} and {other}, carriage {version}: get of 16 files"), problems)


class WindowsChaosdAsks(Windows, ChaosdAsks):
    seconds = 60


class WindowsLispAsks(Windows, LispAsks):
    seconds = 60


class BadNetwork:
    """A network that loses a fifth, repeats a fifth and holds a fifth back."""

    def test_a_file_goes_both_ways_in_datagrams_of_version_1(self):
        self.carry(20_000, "13", "1")

    def test_a_file_goes_both_ways_in_datagrams_of_version_2(self):
        self.carry(60_000, "64", "2")

    def carry(self, size, window, version):
        """A file of so many bytes goes both ways. All that was sent is canonical."""
        options = ["--window", window, "--carriage", version]
        content = content_of(size)
        with serving(self.server, options=options) as (host, here), network_before(host, bad=20) as (network, port, line):
            (here / "UP").write_bytes(content)
            (host.folder / "DOWN").write_bytes(content)
            problems = ran(self.client, ["put", *options, *line, "UP"], cwd=here).problems(DONE, b"", b"")
            problems += stored_problems(host.folder / "UP", content)
            problems += ran(self.client, ["get", *options, *line, "DOWN"], cwd=here).problems(DONE, b"", b"")
            problems += stored_problems(here / "DOWN", content)
            self.check(self.named(f"a bad network, window {window}, carriage {version}"), problems)
            for which, at_port in [(self.client, port), (self.server, host.port)]:
                problems = canonical_problems(network.sent[at_port])
                versions = {datagram[2] for datagram in network.sent[at_port]}
                problems += [] if versions == {int(version)} else [f"it sent versions {versions}"]
                self.check(f"what {which} sent there is canonical, and of version {version}", problems)


class BadNetworkChaosdAsks(BadNetwork, ChaosdAsks):
    seconds = 60


class BadNetworkLispAsks(BadNetwork, LispAsks):
    seconds = 60


class Sixteen:
    """Sixteen clients at once, each its own file."""

    def test_sixteen_clients_at_once(self):
        with serving(self.server, peers=16) as (host, here):
            for n in range(16):
                (host.folder / f"F{n}").write_bytes(content_of(30_000 + n))
            running = [begun(self.client, ["get", "--timeout", "600", *host.words(n), f"F{n}"], cwd=here) for n in range(16)]
            problems = []
            for n, process in enumerate(running):
                problems += finished(process).problems(DONE, b"", b"") + stored_problems(here / f"F{n}", content_of(30_000 + n))
            self.check(self.named("16 clients at once"), problems + host.problems())


class SixteenChaosdAsks(Sixteen, ChaosdAsks):
    seconds = 60


class SixteenLispAsks(Sixteen, LispAsks):
    seconds = 60


# CHUDP.

CHUDP, BRIDGE, CONTACT = ["--chudp"], 0o3040, "LISP-FILE"
FEW_SIZES = [0, 1, 488, 5_000, 100_000]


def chudp_problems(datagrams, to, me):
    """What is wrong with what an end sent as CHUDP: each datagram is canonical, and its trailer has these two addresses."""
    problems = []
    for each in datagrams:
        words = struct.unpack(f">{len(each) // 2}H", each)
        packets = packets_of(b"CH\x01\x00" + each[4:-6])
        is_one = len(packets) == 1 and packets[0][3] and len(each) % 2 == 0
        is_well = words[:2] == (0x0101, 0) and words[-3:-1] == (to, me) and sum(words[2:]) % 0xFFFF == 0
        problems += [] if is_one and is_well else [each.hex(" ")]
    return problems[:3] or ([] if datagrams else ["it sent nothing"])


class Both(Pair):
    """Files both ways, with options of the server and of the client."""

    def carry(self, of_server, of_client, sizes, what):
        with serving(self.server, options=of_server) as (host, here):
            for size in sizes:
                (here / f"UP{size}").write_bytes(content_of(size))
                (host.folder / f"DOWN{size}").write_bytes(content_of(size))
            words, problems = [*of_client, *host.words()], host.problems()
            problems += ran(self.client, ["put", *words, *[f"UP{size}" for size in sizes]], cwd=here).problems(DONE, b"", b"")
            problems += ran(self.client, ["get", *words, *[f"DOWN{size}" for size in sizes]], cwd=here).problems(DONE, b"", b"")
            for size in sizes:
                problems += stored_problems(host.folder / f"UP{size}", content_of(size))
                problems += stored_problems(here / f"DOWN{size}", content_of(size))
            self.check(self.named(what), problems + host.problems())


class ChudpLispAsksLisp(Both):
    """CHUDP between two ends in Lisp."""

    seconds = 40
    client, server = SECOND, SECOND

    def test_files_go_both_ways_in_chudp(self):
        self.carry(CHUDP, CHUDP, [*FEW_SIZES, FILE_LIMIT], "put and get in CHUDP")

    def test_a_contact_of_another_name_is_served(self):
        """A contact of another name is served to whoever asks for it, and to nobody else."""
        options = [*CHUDP, "--contact", CONTACT]
        self.carry(options, options, [1], f"contact {CONTACT}")
        with serving(SECOND, options=options) as (host, here):
            told = b"chaosd: A: it refused the connection: No server for this contact name.\n"
            ended = ran(SECOND, ["get", *CHUDP, *host.words(), "A"], cwd=here)
            self.check("the contact FILE is refused there", ended.problems(REFUSED, b"", told) + host.problems())

    def test_all_that_is_sent_over_a_bad_network_is_chudp(self):
        """A file goes both ways over a bad network. All that is sent is CHUDP, with a bridge's address in the trailer where it is given."""
        content = content_of(20_000)
        with serving(SECOND, options=CHUDP) as (host, here), network_before(host, bad=20) as (network, port, line):
            (here / "UP").write_bytes(content)
            words = [*CHUDP, "--bridge", f"{BRIDGE:o}", *line]
            problems = ran(SECOND, ["put", *words, "UP"], cwd=here).problems(DONE, b"", b"") + stored_problems(host.folder / "UP", content)
            problems += ran(SECOND, ["get", *words, "--output", "DOWN", "UP"], cwd=here).problems(DONE, b"", b"")
            self.check("a file goes both ways in CHUDP over a bad network", problems + stored_problems(here / "DOWN", content))
            self.check("the client's datagrams are CHUDP, to the bridge", chudp_problems(network.sent[port], BRIDGE, CLIENT))
            self.check("the server's datagrams are CHUDP, to the client", chudp_problems(network.sent[host.port], CLIENT, SERVER))

    def test_a_default_peer_is_the_place_of_all_hosts(self):
        """A server with the peer *=UDP, as behind a bridge, replies to each host there."""
        with serving(SECOND, options=CHUDP, of_all=True) as (host, here):
            (host.folder / "A").write_bytes(b"a")
            problems = []
            for address in ["402", "777", "177777"]:
                ended = ran(SECOND, ["get", *CHUDP, "--output", address, address, *host.words()[1:], "A"], cwd=here)
                problems += ended.problems(DONE, b"", b"") + stored_problems(here / address, b"a")
            self.check("a server with the peer *=UDP replies to each host there", problems + host.problems())

    def test_two_formats_do_not_mix(self):
        """An end that speaks CHUDP drops datagrams of version 1, and goes on serving."""
        with serving(SECOND, options=CHUDP) as (host, here):
            (host.folder / "A").write_bytes(b"a")
            ended = ran(SECOND, ["get", *host.words(), "A"], cwd=here)
            problems = ended.problems(REFUSED, b"", [b"chaosd: A: no connection opened in "])
            problems += ran(SECOND, ["get", *CHUDP, *host.words(), "A"], cwd=here).problems(DONE, b"", b"")
            problems += stored_problems(here / "A", b"a")
            self.check("an end that speaks CHUDP drops datagrams of version 1", problems + host.problems())


# The client for a Lisp machine.


def of_machine(host, here, forms, options=()):
    """How a Lisp machine, whose user is in the package CHAOSD, evaluates forms, and what each gives."""
    ended = ran(MACHINE, [*options, *host.words(), '(in-package "CHAOSD")', *forms], cwd=here)
    return ended, ended.out.decode("latin-1").splitlines()[1:]


@needs_lisp
class Machine:
    """The client for a Lisp machine, and a server."""

    seconds = 40
    options = []

    def named(self, what):
        return f"{what}, a Lisp machine's client and the server in {self.server}{''.join(f' {word}' for word in self.options)}"

    def test_files_come_and_go_whole(self):
        """Files of some sizes and of every byte value come and go whole, and no character is translated."""
        with serving(self.server, options=self.options) as (host, here):
            (here / "mine").mkdir()
            for size in FEW_SIZES:
                (host.folder / f"DOWN{size}").write_bytes(content_of(size))
                (here / "mine" / f"up{size}").write_bytes(content_of(size))
            (here / f"DOWN{FEW_SIZES[-1]}").write_bytes(b"what was there before")
            forms = [f'(get "oz" "DOWN{size}")' for size in FEW_SIZES] + [f'(put "oz" "UP{size}" "mine/up{size}")' for size in FEW_SIZES]
            ended, told = of_machine(host, here, [*forms, '(chaosd:get #o401 "UP1" "mine/one")'], self.options)
            wanted = [str(size) for size in [*FEW_SIZES, *FEW_SIZES, 1]]
            problems = ended.problems(DONE, None, b"") + ([] if told == wanted else [f"{told}"]) + host.problems()
            for size in FEW_SIZES:
                problems += stored_problems(here / f"DOWN{size}", content_of(size))
                problems += stored_problems(host.folder / f"UP{size}", content_of(size))
            self.check(self.named("files come and go whole"), problems + stored_problems(here / "mine/one", content_of(1)))

    def test_what_goes_wrong_is_an_error_and_leaves_the_files_as_they_were(self):
        """A file that is missing at either end, an illegal path, a refused contact and a host that isn't known are errors."""
        with serving(self.server, options=self.options) as (host, here):
            (here / "A").write_bytes(b"mine")
            (host.folder / "B").write_bytes(b"his")
            rows = [('(get "oz" "A")', "error: FNF No such file."), ('(put "oz" "A/B" "A")', "error: ILP Illegal path.")]
            rows += [('(put "oz" "B" "nothing")', "error: The file"), ('(get "mc" "B" "A")', 'error: no connection to FILE: "mc" is not a')]
            rows += [('(setq *contact* "NONE")', '"NONE"')]
            rows += [('(get "oz" "B" "A")', "error: no connection to NONE: No server for this contact name.")]
            rows += [('(setq *contact* "FILE")', '"FILE"'), ('(get "oz" "B")', "3")]
            ended, told = of_machine(host, here, [form for form, _ in rows], self.options)
            problems = ended.problems(REFUSED, None, b"") + ([] if len(told) == len(rows) else [f"{told}"])
            problems += [f"{form}: {line}" for (form, wanted), line in zip(rows, told) if not line.startswith(wanted)]
            for path, content in [(here / "A", b"mine"), (here / "B", b"his"), (host.folder / "B", b"his")]:
                problems += stored_problems(path, content)
            kept = sorted(path.name for path in host.folder.iterdir() if path.name != ".new")
            self.check(self.named("what goes wrong"), problems + ([] if kept == ["B"] else [f"{kept}"]) + host.problems())

    def test_a_server_with_a_small_window(self):
        """A server whose window is 1 serves a machine that has no more on its way."""
        with serving(self.server, options=[*self.options, "--window", "1"]) as (host, here):
            (host.folder / "A").write_bytes(content_of(20_000))
            ended, told = of_machine(host, here, ["(setq *window* 1)", '(get "oz" "A")', '(put "oz" "B" "A")'], self.options)
            problems = ended.problems(DONE, None, b"") + ([] if told == ["1", "20000", "20000"] else [f"{told}"])
            problems += stored_problems(here / "A", content_of(20_000)) + stored_problems(host.folder / "B", content_of(20_000))
            self.check(self.named("a window of 1"), problems + host.problems())


class MachineAsksChaosd(Machine, Case):
    server = FIRST


class MachineAsksLisp(Machine, Case):
    server = SECOND


class MachineAsksLispInChudp(Machine, Case):
    server, options = SECOND, CHUDP


# CHUDP of `chaosd`.


class ChudpChaosdAsks(Both):
    client, server = FIRST, SECOND
    seconds = 20

    def test_files_go_both_ways_in_chudp(self):
        self.carry(CHUDP, CHUDP, FEW_SIZES, "put and get in CHUDP")

    def test_a_contact_of_another_name_is_asked_for(self):
        options = [*CHUDP, "--contact", CONTACT]
        self.carry(options, options, [1], f"contact {CONTACT}")


class ChudpLispAsks(Both):
    client, server = SECOND, FIRST
    seconds = 20

    def test_files_go_both_ways_in_chudp(self):
        self.carry(CHUDP, CHUDP, FEW_SIZES, "put and get in CHUDP")

    def test_a_default_peer_is_the_place_of_all_hosts(self):
        with serving(FIRST, options=CHUDP, of_all=True) as (host, here):
            (host.folder / "A").write_bytes(b"a")
            ended = ran(SECOND, ["get", *CHUDP, "777", *host.words()[1:], "A"], cwd=here)
            self.check(self.named("the peer *=UDP"), ended.problems(DONE, b"", b"") + stored_problems(here / "A", b"a") + host.problems())


class MachineAsksChaosdInChudp(Machine, Case):
    server, options = FIRST, CHUDP
