"""Tests CHUDP, the framing of cbridge and other Chaosnet programs over UDP: `chaosd` with `--chudp` beside the reader and writer of
tests/chudp_reference.py, over the bridge of tests/bridge.py, and these two by themselves. No such program itself was ever tried."""

import contextlib
import random
import re
import shlex
import socket
import subprocess

from tests.bridge import BRD, MNT, RUT, bridging, own_address, subnet_of
from tests.chudp_reference import (
    Fault, checksum, decode, encode, in_chudp, octets_of, random_datagram, random_hops, random_words, report, summed, with_octets,
    words_of,
)  # fmt: skip
from tests.copying import copied, left_problems
from tests.packets import CLS, DATA, RFC, Peer, datagram
from tests.scripts import FILE_REPLIES, FILE_SCRIPT
from tests.serving import session_problems, unconnected_problems
from tests.support import (
    BAD_LINE, CLIENT, DONE, FAULT, FOR_LONG, INPUT_LIMIT, LONG, PATIENCE, REFUSED, ROOT, SERVER,
    Case, Checking, Serving, at, checked, finished, folder, free_ports, mixed_content, run, serving, started, stored_problems,
)  # fmt: skip

# A host of another subnet, and the bridge's addresses on both.
FAR = 0o1001
NEAR_BRIDGE, FAR_BRIDGE = 0o410, 0o1010
NO_SERVER = b"No server for this contact name."
CHUDP = ["--chudp"]
# How many random packets the program of tests/crates/random_chudp writes.
PACKETS = 20_000

# A status, data of one byte, and a request for a contact that nobody serves, each to 000401 from 000402; with what `show` reports.
STS = "01 01 00 00 07 00 00 04 01 01 02 01 01 02 03 05 00 00 00 10 00 12 00 0D 01 01 01 02 EF C0"
DAT = "01 01 00 00 80 00 00 01 01 01 02 01 01 02 03 05 00 05 00 10 00 41 01 01 01 02 76 9C"
NONE = "01 01 00 00 01 00 00 04 01 01 00 00 01 02 03 05 00 07 00 00 4F 4E 45 4E 01 01 01 02 63 4D"
STS_WORDS = [0x0700, 0x0004, 0o401, 0o1001, 0o402, 0o1405, 0, 16, 18, 13]
DAT_WORDS = [0x8000, 0x0001, 0o401, 0o1001, 0o402, 0o1405, 5, 16, 0x0041]
NONE_WORDS = [0x0100, 0x0004, 0o401, 0, 0o402, 0o1405, 7, 0, 0x4F4E, 0x454E]
VECTORS = [
    (STS, STS_WORDS, "op 007 STS\nfwd 0 count 4\nto 000401 001001\nfrom 000402 001405\nnum 0 ack 16\nreceipt 18 window 13\n", "EFC0"),
    (DAT, DAT_WORDS, "op 200 DAT\nfwd 0 count 1\nto 000401 001001\nfrom 000402 001405\nnum 5 ack 16\ndata 41\n", "769C"),
    (NONE, NONE_WORDS, "op 001 RFC\nfwd 0 count 4\nto 000401 000000\nfrom 000402 001405\nnum 7 ack 0\ndata 4E 4F 4E 45\n", "634D"),
]

GOOD = bytes.fromhex(STS)
FAULTS = [
    ("1 TooLong", GOOD + bytes(2_020)),
    ("2 Short", b""),
    ("2 Short", GOOD[:3]),
    ("2 Short", GOOD[:24]),
    ("2 Short", GOOD[:-1]),
    ("3 BadVersion", with_octets(GOOD, 0, [2])),
    ("3 BadVersion", datagram(RFC, (SERVER, 0), (CLIENT, 1), 0, 0, b"NONE")),
    ("4 BadFunction", with_octets(GOOD, 1, [2])),
    ("5 BadSum", with_octets(GOOD, 29, [0xC1])),
    ("5 BadSum", with_octets(GOOD, 20, [0x01])),
    ("5 BadSum", with_octets(GOOD, 25, [0x02])),
    ("6 Packet 2 BadCount", summed(with_octets(GOOD, 6, [0x01, 0xE9]))),
    ("6 Packet 3 Truncated", summed(with_octets(GOOD, 6, [0x00, 0x05]))),
    ("7 Trailing", summed(with_octets(GOOD, 6, [0x00, 0x02]))),
]


def listed(*pairs):
    """The names of what differs."""
    return [f"{name}: {seen!r} and not {wanted!r}"[:400] for name, seen, wanted in pairs if seen != wanted]


def fault_of(one):
    """The fault of a datagram, or None."""
    try:
        decode(one)
    except Fault as fault:
        return str(fault)


class Reference(Checking):
    """The reader and writer in Python."""

    def test_the_vectors_are_written_and_read(self):
        for text, words, _, _ in VECTORS:
            one = bytes.fromhex(text)
            problems = listed(("written", encode(words, SERVER, CLIENT), one), ("read", decode(one), (tuple(words), SERVER, CLIENT)))
            self.check(f"{text[:20]}..", problems)

    def test_each_fault_is_the_first_that_applies(self):
        self.check("the faults, typed", listed(*[(one.hex(" ")[:60], fault_of(one), name) for name, one in FAULTS]))

    def test_the_checksum_is_that_of_rfc_1071(self):
        rows = [("00 01 F2 03 F4 F5 F6 F7", 0x220D), ("", 0xFFFF), ("00 00", 0xFFFF)]
        rows += [("FF FF", 0), ("FF FF 00 01", 0xFFFE), ("80 00 80 00", 0xFFFE)]
        self.check("sums, typed", listed(*[(text, checksum(bytes.fromhex(text)), wanted) for text, wanted in rows]))
        wrapped = encode([0x0600, 0, 0, 0, 0, 0, 0xF9FF, 0], 0, 0)
        other, words = with_octets(wrapped, len(wrapped) - 2, b"\xff\xff"), words_of(wrapped[4:-6])
        problems = listed(("written", wrapped[-2:], bytes(2)), ("read", decode(wrapped).words, words), ("FFFF", decode(other).words, words))
        self.check("a sum of 0 is written 0000, and FFFF is taken", problems)

    def test_of_the_errors_of_one_bit_those_in_the_arguments_alone_are_taken(self):
        ones = [bytes.fromhex(text) for text, _, _, _ in VECTORS]
        flipped = [(one, at) for one in ones for at in range(8 * len(one))]
        taken = [at for one, at in flipped if not fault_of(with_octets(one, at // 8, [one[at // 8] ^ 1 << at % 8]))]
        self.check(f"{len(flipped)} errors of one bit", listed(("taken", taken, [*range(16, 32)] * 3)))


# A bridge and ends in Python.


class End:
    """A host that speaks CHUDP to a port. Empty datagrams that come are left out."""

    def __init__(self, to):
        self.socket = socket.socket(socket.AF_INET, socket.SOCK_DGRAM)
        (self.port,) = free_ports(1)
        self.socket.bind(("127.0.0.1", self.port))
        self.socket.settimeout(PATIENCE)
        self.to = to

    def send(self, one):
        self.socket.sendto(one, ("127.0.0.1", self.to))

    def receive(self):
        """The next datagram, or nothing where none comes in time."""
        with contextlib.suppress(TimeoutError):
            while True:
                seen, _ = self.socket.recvfrom(4_096)
                if seen:
                    return seen
        return b""

    def close(self):
        self.socket.close()


def packet(op, dst, src, num=0, ack=0, body=b""):
    """The words of a packet."""
    return words_of(datagram(op, dst, src, num, ack, body)[4:])


@contextlib.contextmanager
def ends_at(bridge, *addresses):
    """Ends in Python at a bridge."""
    with contextlib.ExitStack() as stack:
        ends = [stack.enter_context(contextlib.closing(End(bridge.port))) for _ in addresses]
        for address, end in zip(addresses, ends):
            bridge.add_host(address, end.port)
        yield ends


class Bridges(Checking):
    """The bridge, between ends in Python."""

    def test_a_packet_goes_to_its_destination_with_new_hops(self):
        words = packet(DATA, (FAR, 3), (SERVER, 4), 5, 6, b"ABC")
        routes = [RUT << 8, 8, 0, 0, 0, 0, 0, 0, 1, 10, 2, 10]
        onward = [words[0], words[1] + 0x1000, *words[2:]]
        with bridging() as bridge, ends_at(bridge, SERVER, FAR) as (near, far):
            near.send(encode(words, NEAR_BRIDGE, SERVER))
            seen = [near.receive(), far.receive(), far.receive()]
            wanted = [encode(routes, SERVER, NEAR_BRIDGE), encode(routes, FAR, FAR_BRIDGE), encode(onward, FAR, FAR_BRIDGE)]
            self.check("a RUT packet to each, and the packet, forwarded once, by other hops", listed(("seen", seen, wanted)))
            for op in (MNT, BRD):
                one = packet(op, (FAR if op == MNT else 0, 0), (SERVER, 0), 0, 0, b"AB")
                near.send(encode(one, NEAR_BRIDGE, SERVER))
                wanted = encode([one[0], one[1] + 0x1000, *one[2:]], FAR, FAR_BRIDGE)
                self.check(f"opcode {op:o} is passed on", listed(("seen", far.receive(), wanted)))
        own = [own_address(subnet_of(it)) for it in (SERVER, FAR)]
        self.check("the bridge's addresses", listed(("own", own, [NEAR_BRIDGE, FAR_BRIDGE])))
        self.check("the hops that came", listed(("hops", bridge.trailers, {(NEAR_BRIDGE, SERVER)})))

    def test_what_it_does_not_hand_on_is_counted(self):
        words = packet(DATA, (FAR, 3), (SERVER, 4), 5, 6, b"ABC")
        often, last = [[words[0], words[1] + (times << 12), *words[2:]] for times in (15, 14)]
        rows = [(name, one) for name, one in FAULTS if one]
        rows += [("forwarded too often", encode(often, NEAR_BRIDGE, SERVER))]
        strange = [packet(DATA, (0o1002, 3), (SERVER, 4)), packet(RUT, (FAR, 0), (SERVER, 0)), packet(DATA, (NEAR_BRIDGE, 0), (SERVER, 0))]
        rows += [("for no host", encode(one, NEAR_BRIDGE, SERVER)) for one in strange]
        with bridging() as bridge, ends_at(bridge, SERVER, FAR) as (near, far):
            for _, one in rows:
                near.send(one)
            near.send(encode(last, NEAR_BRIDGE, SERVER))
            seen = [far.receive(), far.receive()]
            self.check("what is handed on behind it is the one that may be", listed(("words", decode(seen[1]).words[1] >> 12, 15)))
        wanted = {name: sum(name == other for other, _ in rows) for name, _ in rows}
        self.check("each is counted by its name", listed(*[(name, bridge.tally[name], count) for name, count in wanted.items()]))

    def test_it_loses_repeats_harms_and_reorders_by_its_seed(self):
        one, fates = encode(packet(DATA, (FAR, 1), (SERVER, 1)), FAR, FAR_BRIDGE), []
        for _ in range(2):
            with bridging(lost=0.02, twice=0.02, seed=7) as bridge:
                fates.append([len(bridge.passed(one, bridge.port)) for _ in range(10_000)])
        self.check("the same seed has the same fates", listed(("fates", fates[1], fates[0])))
        shares = [fates[0].count(0), fates[0].count(2)]
        self.check("some 2% are lost and some 2% come twice", [] if all(100 < share < 300 for share in shares) else [f"{shares}"])
        with bridging(jitter=0.02, flipped=0.1, seed=7) as bridge, ends_at(bridge, SERVER, FAR) as (near, far):
            for number in range(100):
                near.send(encode(packet(DATA, (FAR, 1), (SERVER, 1), number), NEAR_BRIDGE, SERVER))
            seen = [far.receive() for _ in range(100 + 3)]
        numbers = [decode(one).words[6] for one in seen if not fault_of(one) and one[4] == DATA]
        self.check("they come in another order", [] if numbers != sorted(numbers) else ["they come in order"])
        self.check("some are harmed, and their sums say so", [] if "5 BadSum" in map(fault_of, seen) else ["none is"])


# `chaosd`, asked by a peer in Python.


class ChudpPeer(Peer):
    """A peer of a server that speaks CHUDP, without a bridge."""

    def framed(self, op, dst, src, *more):
        return in_chudp(datagram(op, dst, src, *more), dst[0], src[0])


def asked(peer, index):
    """Asks for a contact that nobody serves, from this index, and gives what differs in the next answer, which is to that index."""
    me, host = (peer.me[0], index), (SERVER, 0)
    peer.send(RFC, host, me, 7, 0, b"NONE")
    return peer.problems("the next answer", CLS, me, host, 0, 0, NO_SERVER)


@contextlib.contextmanager
def peer_of(options=CHUDP, make=ChudpPeer):
    with serving(options=options) as server, contextlib.closing(make(server)) as peer:
        yield server, peer


class Packets(Case):
    """A peer in Python: each packet counts to the byte."""

    seconds = 3

    def test_a_request_that_nobody_serves_is_refused_in_chudp(self):
        with peer_of() as (_, peer):
            peer.socket.sendto(bytes.fromhex(NONE), peer.server)
            wanted = encode(packet(CLS, (CLIENT, 0o1405), (SERVER, 0), 0, 0, NO_SERVER), CLIENT, SERVER)
            self.check("the CLS, to the byte", listed(("seen", peer.receive(), wanted)))
            for args in (b"\x0a\x0b", b"\xff\xff", b"\x00\x01"):
                request = with_octets(peer.framed(RFC, (SERVER, 0), peer.me, 7, 0, b"NONE"), 2, args)
                peer.socket.sendto(request, peer.server)
                self.check(f"arguments {args.hex()} are ignored", listed(("seen", peer.receive(), wanted)))

    def test_a_session_is_the_own_carriages_in_another_frame(self):
        host, new = (SERVER, 0), (SERVER, 1)
        with peer_of() as (_, peer):
            self.check("a peer without a connection is answered to the byte, or not at all", unconnected_problems(peer, host, new))
            self.check("a peer opens, asks and closes, each packet to the byte", session_problems(peer, host))

    def test_what_has_a_fault_gets_no_answer(self):
        host = (SERVER, 0)
        with peer_of() as (_, peer):
            request = peer.framed(RFC, host, (CLIENT, 1), 7, 0, b"NONE")
            self.check("a request", asked(peer, 1))
            for name, one in [
                ("a wrong sum", with_octets(request, len(request) - 1, [request[-1] ^ 1])),
                ("a wrong word", with_octets(request, 20, [request[20] ^ 1])),
                ("a wrong hop", with_octets(request, len(request) - 5, [request[-5] ^ 1])),
                ("another version", with_octets(request, 0, [2])),
                ("another function", with_octets(request, 1, [2])),
                ("a word behind the packet", summed(request[:-6] + b"AB" + request[-6:])),
                ("a word too few", summed(request[:-8] + request[-6:])),
                ("half a word", request + b"A"),
                ("no trailer", request[:-6]),
                ("the own carriage", datagram(RFC, host, (CLIENT, 1), 7, 0, b"NONE")),
                ("an empty datagram", b""),
            ]:
                peer.socket.sendto(one, peer.server)
                self.check(f"{name}: the next answer is that of the next request", asked(peer, 2))
        with peer_of((), Peer) as (_, peer):
            peer.socket.sendto(request, peer.server)
            self.check("CHUDP at a server without --chudp: likewise", asked(peer, 2))

    def test_packets_of_bridges_are_dropped_and_the_service_goes_on(self):
        with peer_of() as (server, peer):
            for op in (RUT, MNT, BRD):
                for dst in (0, SERVER):
                    peer.send(op, (dst, 0), peer.me, 0, 0, b"\x01\x00\x0a\x00")
                    self.check(f"opcode {op:o} to {dst:06o}", asked(peer, 3))
            self.check("a session", session_problems(peer, (SERVER, 0)))


class Hops(Case):
    """The hops that stand in the trailer of what `chaosd` sends."""

    seconds = 3

    def test_a_server_sends_to_the_bridge_what_is_for_a_host_without_an_entry(self):
        for options, hop in [([*CHUDP, "--bridge", f"{NEAR_BRIDGE:o}"], NEAR_BRIDGE), (CHUDP, FAR)]:
            with contextlib.closing(End(0)) as bridge, folder() as here:
                server = Serving(here, options=options, others=[f"*={at(bridge.port)}"])
                bridge.to = server.port
                with contextlib.closing(ChudpPeer(server)) as peer:
                    bridge.send(encode(packet(RFC, (SERVER, 0), (FAR, 5), 7, 0, b"NONE"), SERVER, NEAR_BRIDGE))
                    wanted = encode(packet(CLS, (FAR, 5), (SERVER, 0), 0, 0, NO_SERVER), hop, SERVER)
                    self.check(f"{' '.join(options)}: to a host without an entry", listed(("seen", bridge.receive(), wanted)))
                    self.check(f"{' '.join(options)}: to a host with one", asked(peer, 6))
                server.end()

    def test_a_client_sends_to_the_bridge_where_it_knows_one(self):
        known = [*CHUDP, "--bridge", f"{FAR_BRIDGE:o}"]
        rows = [
            (["get", *known, "{me}", "{own}", "401={bridge}", "A"], FAR_BRIDGE),
            (["get", *CHUDP, "{me}", "{own}", "401={bridge}", "A"], SERVER),
            (["delete", *known, "{me}", "{own}", "401={bridge}", "A"], FAR_BRIDGE),
            (["rename", *known, "{me}", "{own}", "401={bridge}", "A", "B"], FAR_BRIDGE),
            (["ask", *known, "{me}", "{own}", "401", "*={bridge}"], FAR_BRIDGE),
            (["ask", *known, "{me}", "{own}", "401", "401={bridge}"], SERVER),
            (["ask", *CHUDP, "{me}", "{own}", "401", "*={bridge}"], SERVER),
        ]
        for words, hop in rows:
            with contextlib.closing(End(0)) as bridge, folder() as here:
                places = {"me": f"{FAR:o}", "own": at(free_ports(1)[0]), "bridge": at(bridge.port)}
                pipe = subprocess.PIPE
                client = started([word.format(**places) for word in words], stdin=pipe, stdout=pipe, stderr=pipe, cwd=here)
                with contextlib.suppress(BrokenPipeError):
                    client.stdin.write(b"T  LOGIN M\n")
                    client.stdin.flush()
                seen = bridge.receive()
                client.kill()
                client.communicate()
            name = " ".join(words[:1] + [word for word in words if word[0] in "-*4"])
            problems = [fault_of(seen)] if fault_of(seen) else listed(("hops", decode(seen)[1:], (hop, FAR)))
            self.check(f"{name}: hops of what it sends", problems)


# Files.

# 300 sizes, each another, so that no file is taken for another's.
SIZES = [*range(200), *range(440, 456), *range(890, 900), *range(1_000, 15_800, 200)]


def through(bridge, subcommand, *names, options=(), **streams):
    """How a call of the server of one subnet ended by a host of the other, through a bridge."""
    (port,) = free_ports(1)
    bridge.add_host(FAR, port)
    words = [subcommand, *CHUDP, "--bridge", f"{FAR_BRIDGE:o}", *options, f"{FAR:o}", at(port), f"{SERVER:o}={at(bridge.port)}", *names]
    streams = {"stdin": subprocess.DEVNULL, "stdout": subprocess.PIPE, "stderr": subprocess.PIPE, **streams}
    return finished(started(words, **streams), patience=LONG)


@contextlib.contextmanager
def bridged(**manners):
    """A server on one subnet, and the bridge to the other."""
    with bridging(**manners) as bridge, folder() as kept:
        options = [*CHUDP, "--bridge", f"{NEAR_BRIDGE:o}", "--window", "64", "--retransmit", "100"]
        server = Serving(kept, peers=0, options=options, others=[f"*={at(bridge.port)}"])
        bridge.add_host(SERVER, server.port)
        try:
            yield server, bridge
        finally:
            server.end()


class Subnets(Case):
    """Two subnets, and a bridge that loses, repeats, reorders and harms."""

    seconds = 120

    def test_300_files_go_both_ways(self):
        contents = {f"F{number}.LISP": mixed_content(size) for number, size in enumerate(SIZES)}
        with bridged(lost=0.02, twice=0.02, flipped=0.01, jitter=0.002) as (server, bridge), folder() as here:
            for name, content in contents.items():
                (here / name).write_bytes(content)
            problems = through(bridge, "put", *contents, options=["--timeout", "600"], cwd=here).problems(DONE, b"", b"")
            for name, content in contents.items():
                problems += stored_problems(server.folder / name, content)
                (here / name).unlink()
            self.check(f"put of {len(contents)} files", problems)
            problems = through(bridge, "get", *contents, options=["--timeout", "600"], cwd=here).problems(DONE, b"", b"")
            for name, content in contents.items():
                problems += stored_problems(here / name, content)
            self.check(f"get of {len(contents)} files", problems + left_problems(here) + left_problems(server.folder))
        self.check("the hops of all that came", listed(("hops", bridge.trailers, {(NEAR_BRIDGE, SERVER), (FAR_BRIDGE, FAR)})))
        tally = dict(bridge.tally)
        problems = [] if bridge.lost > 20 and tally["RUT"] > 20 else [f"{bridge.lost}, {tally}"]
        self.check("much was lost, and there were RUT packets", problems)
        odd = {name: count for name, count in tally.items() if count and name not in ("came", "handed on", "RUT")}
        self.check("no datagram that came had a fault", listed(("odd", odd, {})))

    def test_a_file_is_renamed_and_deleted(self):
        with bridged(lost=0.02, twice=0.02) as (server, bridge):
            (server.folder / "A").write_bytes(b"(A)")
            problems = through(bridge, "rename", "A", "B").problems(DONE, b"", b"") + stored_problems(server.folder / "B", b"(A)")
            problems += through(bridge, "delete", "B").problems(DONE, b"", b"")
            left = [each.name for each in server.folder.iterdir() if not each.name.startswith(".")]
            self.check("rename and delete through a bridge", problems + listed(("left", left, [])))


class Direct(Case):
    """Two hosts without a bridge."""

    seconds = 5

    def test_each_client_speaks_chudp(self):
        content = mixed_content(100_000)
        with serving(options=CHUDP) as server, folder() as here:
            (here / "A").write_bytes(content)
            problems = copied(server, "put", "A", options=CHUDP, cwd=here).problems(DONE, b"", b"")
            self.check("put", problems + stored_problems(server.folder / "A", content))
            (here / "A").unlink()
            problems = copied(server, "get", "A", options=CHUDP, cwd=here).problems(DONE, b"", b"")
            self.check("get", problems + stored_problems(here / "A", content))
            problems = copied(server, "rename", "A", "B", options=CHUDP, cwd=here).problems(DONE, b"", b"")
            self.check("rename", problems + stored_problems(server.folder / "B", content))
            problems = copied(server, "delete", "B", options=CHUDP, cwd=here).problems(DONE, b"", b"")
            self.check("delete", problems + ([] if not (server.folder / "B").exists() else ["it is there"]))
            ended = run(server.words(options=[*CHUDP, *FOR_LONG]), FILE_SCRIPT, patience=LONG)
            self.check("ask", ended.problems(DONE, FILE_REPLIES, b""))

    def test_both_ends_need_it(self):
        for own, others in [(CHUDP, []), ([], CHUDP)]:
            with serving(options=others) as server:
                ended = run(server.words(options=[*own, "--timeout", "2"]), FILE_SCRIPT)
            name = f"ask {' '.join(own)} of serve {' '.join(others)}"
            self.check(f"{name}: no connection", ended.problems(REFUSED, b"no reply\n", [b"no connection opened in "]))


class Lines(Case):
    """Lines that are bad."""

    def test_options_that_do_not_fit_are_refused(self):
        own, other, third = (at(port) for port in free_ports(3))
        rows = [
            ("--chudp and --carriage 2", [*CHUDP, "--carriage", "2"], []),
            ("--bridge without --chudp", ["--bridge", "410"], []),
            ("two bridges", CHUDP, [f"*={other}", f"*={third}"]),
            ("a bridge's address of 0", [*CHUDP, "--bridge", "0"], []),
            ("a bridge's address out of form", [*CHUDP, "--bridge", "8"], []),
            ("a bridge's UDP address out of form", CHUDP, ["*=127.0.0.1"]),
            ("no `=` behind the star", CHUDP, [f"*{other}"]),
        ]
        with folder() as here:
            for name, options, peers in rows:
                host = f"401={other}"
                lines = [["serve", *options, "401", own, here, *peers], ["ask", *options, "402", own, "401", *(peers or [host])]]
                calls = [] if peers else [["get", "A"], ["put", "A"], ["delete", "A"], ["rename", "A", "B"]]
                lines += [[call, *options, "402", own, host, *names] for call, *names in calls]
                for line in lines:
                    ended = run(line)
                    problems = ended.problems(BAD_LINE, b"") + ([] if ended.err else ["it reported nothing"])
                    self.check(f"{line[0]} with {name}: status 2", problems)


# `chaosd show --chudp`, and many random packets beside the reference.

COUNT, SEED = 100_000, 1981


def shown_reports(datagrams):
    """The reports of datagrams by `chaosd show --chudp`, in several runs, since an input has a limit."""
    lines, size = [], 0
    for one in [*datagrams, None]:
        line = one.hex() + "\n" if one is not None else ""
        if one is None or size + len(line) > INPUT_LIMIT:
            ended = run(["show", *CHUDP], "".join(lines).encode(), patience=LONG)
            yield from ended.out.decode().removesuffix("\n").split("\n\n") if lines else []
            lines, size = [], 0
        lines.append(line)
        size += len(line)


def first_differences(rows, limit=3):
    """The first rows whose two reports differ: each has a datagram, and the report that was seen, and the one that is wanted."""
    return listed(*[row for row in rows if row[1] != row[2]][:limit])


class Shown(Case):
    """What `chaosd show --chudp` reports."""

    seconds = 60

    def test_the_vectors_are_reported_with_their_trailers(self):
        for text, _, lines, total in VECTORS:
            wanted = lines + f"trailer to 000401 from 000402\nsum {total}\n"
            self.check(f"{text[:20]}..", run(["show", *CHUDP], text.encode() + b"\n").problems(DONE, wanted.encode(), b""))

    def test_each_fault_is_reported(self):
        for name, one in FAULTS:
            ended = run(["show", *CHUDP], one.hex().encode() + b"\n")
            self.check(f"{name}: {one.hex()[:40]}", ended.problems(REFUSED, f"fault {name}\n".encode(), b""))
        ended = run(["show", *CHUDP], b"nonsense\n")
        self.check("a line of no digits", ended.problems(REFUSED, b"fault 0 Line\n", b""))
        ended = run(["show"], STS.encode() + b"\n")
        self.check("without --chudp it is no datagram", ended.problems(REFUSED, b"fault 2 BadMark\n", b""))

    def test_random_datagrams_are_reported_as_by_the_reference(self):
        dice = random.Random(SEED)
        datagrams = [random_datagram(dice) for _ in range(COUNT)]
        seen = list(shown_reports(datagrams))
        problems = listed(("reports", len(seen), len(datagrams)))
        problems += first_differences([(one.hex(), it, report(one)) for one, it in zip(datagrams, seen)])
        self.check(f"{COUNT} random datagrams, good and bad", problems)


def written_problems(lines):
    """What is wrong in lines of `WORDS TO FROM DATAGRAM`: a packet's words, of four hexadecimal digits each and nothing between them,
    with free halves of 0; next hop and last hop in octal; and the datagram in hexadecimal digits."""
    problems = []
    for number, line in enumerate(lines, 1):
        words, to, sender, one = line.split()
        wanted = encode(words_of(bytes.fromhex(words)), int(to, 8), int(sender, 8)).hex()
        if one.lower() != wanted:
            problems.append(f"line {number}: {one} and not {wanted}")
    return problems


class Written(Checking):
    """What the program of tests/crates/random_chudp writes, which prints such a line for each of so many random packets."""

    seconds = 60
    needs = ["random_chudp"]

    def test_the_lines_of_the_reference_itself_are_right(self):
        dice = random.Random(SEED)
        rows = [(random_words(dice), *random_hops(dice)) for _ in range(100)]
        lines = [f"{octets_of(words).hex()} {to:06o} {me:06o} {encode(words, to, me).hex().upper()}" for words, to, me in rows]
        self.check("100 lines", written_problems(lines))
        lines[41] = lines[41][:-1] + ("0" if lines[41][-1] != "0" else "1")
        self.check("a wrong sum is seen", listed(("problems", len(written_problems(lines)), 1)))

    def test_random_packets_are_written_as_by_the_reference(self):
        words = [checked("random_chudp"), str(SEED), str(PACKETS)]
        ended = finished(subprocess.Popen(words, stdout=subprocess.PIPE, stderr=subprocess.PIPE), patience=LONG)
        lines = ended.out.decode().splitlines()
        problems = ended.problems(DONE, None, b"") + written_problems(lines)[:3] + listed(("lines", len(lines), PACKETS))
        self.check(f"{PACKETS} random packets", problems)


# What the documents say.


class Documents(Checking):
    """The datagrams of the documents."""

    def test_the_datagrams_of_the_documents_are_those_of_the_tests(self):
        rows = re.findall(r"^(01 01 00 00 [0-9A-F ]+)$", (ROOT / "docs/PROTOCOL.md").read_text(), re.M)
        self.check("docs/PROTOCOL.md has the three datagrams", listed(("datagrams", rows, [text for text, _, _, _ in VECTORS])))
        text, _, lines, total = VECTORS[0]
        example = f"```text\n{text}\n```\n\nThis line gives:\n\n```text\n{lines}trailer to 000401 from 000402\nsum {total}\n```\n"
        self.check("docs/SCRIPTS.md has a report", [] if example in (ROOT / "docs/SCRIPTS.md").read_text() else ["it has another"])


def documented_calls(place):
    """The words of each call of `chaosd` in docs/NETWORK.md, with this UDP address in the place of each that stands there."""
    text = re.sub(r"192\.0\.2\.\d+:\d+", place, (ROOT / "docs/NETWORK.md").read_text())
    for line in re.findall(r"^\$ (.*)$", text, re.M):
        for part in line.split("|"):
            program, *words = shlex.split(part.partition("<")[0])
            if program == "chaosd":
                yield words


class Networks(Case):
    """The command lines of docs/NETWORK.md."""

    def test_the_program_reads_the_lines_of_the_page(self):
        """Each call ends where it opens its folder, which isn't there, or its socket, whose port is taken."""
        with contextlib.closing(End(0)) as taken, folder() as here:
            streams = {"stdin": subprocess.DEVNULL, "stdout": subprocess.PIPE, "stderr": subprocess.PIPE, "cwd": here}
            calls = list(documented_calls(at(taken.port)))
            self.check("the page has calls", [] if len(calls) > 5 else [f"{len(calls)}"])
            for words in calls:
                wanted, said = (DONE, b"") if words[0] == "show" else (FAULT, [b"can't open "])
                self.check(" ".join(words), finished(started(words, **streams)).problems(wanted, b"", said))
