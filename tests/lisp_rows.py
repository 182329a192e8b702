"""The rows of the table of a connection, and what else can be seen of an end from outside, played against `chaosd` and against the end
in Lisp alike."""

import os
import random
import re
import socket
import struct
import subprocess
import sys
import time
import unittest

from tests import lisp
from tests.packets import ANS, CLS, DATA, EOF, FWD, LOS, LSN, NO_NAME, OPN, RFC, SNS, STS, UNC, datagram
from tests.second import FIRST, LISP, SBCL, SECOND, Peer, begun, finished, needs_lisp, packets_of, ran, serving
from tests.support import CLIENT, DONE, REFUSED, ROOT, SERVER, USUAL_WINDOW, Case, at, folder, free_ports, stored_problems

NO_SERVER, NO_CONNECTION = b"No server for this contact name.", b"No such connection."
FULL = b"Connection table full."
# Seconds in which nothing comes, and in which something has to.
QUIET, SOON = 0.3, 180
COMMANDS = 160
# Of a host that probes every ten seconds, for ninety: seconds without a probe behind the last, and how many probes there are at least,
# and never, whatever else the machine does.
SILENT, LEAST_PROBES, MOST_PROBES = 30, 3, 10


def status(receipt, window=USUAL_WINDOW):
    return struct.pack("<2H", receipt % 65_536, window)


class Rows:
    """What is sent to a server, and what has to come for it."""

    def __init__(self, server):
        self.peer, self.problems = Peer(server), []

    def expect(self, name, *wanted):
        """The next packets are these, each an opcode, a number, an acknowledgement and data, and no more come."""
        for packet in wanted:
            seen = self.peer.receive(SOON)
            told = seen and (seen[0], seen[1][4], seen[1][5], seen[2])
            if told != packet or not seen[3]:
                self.problems.append(f"{name}: {told} and not {packet}")
        more = self.peer.receive(QUIET)
        self.problems += [f"{name}: {more} came besides"] if more else []

    def row(self, name, packet, *wanted, **ends):
        """A packet, and what it draws."""
        self.peer.send(*packet, **ends)
        self.expect(name, *wanted)


class Played:
    """A server that a test plays to a client, which gets the files A and B."""

    def __init__(self, which, here):
        self.port, client = free_ports(2)
        self.socket = socket.socket(socket.AF_INET, socket.SOCK_DGRAM)
        self.socket.bind(("127.0.0.1", self.port))
        self.socket.settimeout(SOON)
        self.client = ("127.0.0.1", client)
        self.process = begun(which, ["get", "402", at(client), f"401={at(self.port)}", "A", "B"], cwd=here)
        self.request = self.next()
        self.index, self.number = self.request[1][3], self.request[1][4]

    def next(self):
        """The next packet: an empty datagram, by which chaosd asks whether anybody listens, has none."""
        while not (received := self.socket.recv(2_048)):
            pass
        return packets_of(received)[0]

    def next_of(self, op):
        """The next packet of an opcode: others, as what is sent again, are passed over."""
        for _ in range(20):
            seen = self.next()
            if seen[0] == op:
                return seen
        return None

    def send(self, op, num=0, ack=0, body=b"", index=1):
        self.socket.sendto(datagram(op, (CLIENT, self.index), (SERVER, index), num, ack, body), self.client)

    def end(self):
        ended = finished(self.process)
        self.socket.close()
        return ended


def odd_commands():
    """A script of odd commands, each with what it should not have."""
    chance = random.Random(628)
    pick = lambda *those: chance.choice(those)
    script = ["T  LOGIN LISPM", "T H1 OPEN WRITE^A", "T H1 WRITE^abc", "T H1 CLOSE", "T X OPEN WRITE^Z", "T11", "", "T", "T ", "T  ", "T H "]
    script += ["T  RENAME^A^A", "T H1 OPEN READ^A", "T H1 OPEN READ^A", "T H1 WRITE^x", "T X READ", "T H1 READ", "T H1 READ", "T H1 READ"]
    script += [f"T H{n} OPEN WRITE^B" for n in range(2, 9)] + [f"T H{n} CLOSE" for n in range(4, 9)]
    for _ in range(COMMANDS):
        tid = pick("T", "T", "T", "T", "t9", "12345678", "123456789", "", "T-", r"\c4")
        handle = pick("", "", "", "H1", "H2", "H3", "H4", "h", "12345678", "123456789", "H.")
        word = pick("OPEN", "OPEN", "OPEN", "READ", "WRITE", "CLOSE", "RENAME", "DELETE", "LOGIN", "login", "LIST", "")
        path = pick("A", "B", "A.LISP", "A.", "A..B", "-", "_", ".A", "A/B", "A B", "", "x" * 64, "x" * 65, "B^A", "A^B", "Z^Z")
        rest = {"OPEN": pick(" READ^", " WRITE^", " READ^", " APPEND^", " READ", "^") + path}
        rest |= {"LOGIN": pick(" M", " ", "", " A-B", " " + "u" * 17, "^M")}
        rest |= {"READ": pick("", "", "", " ", "^"), "CLOSE": pick("", "", "^", " X")}
        rest |= {"WRITE": pick("^", "^abc", "^" + "w" * 448, "^" + "w" * 449, "", " x", r"^\00\ff^")}
        script.append(f"{tid} {handle} {word}" + rest.get(word, pick("^", "^", "^", "", " ") + path))
    return "".join(line + "\n" for line in script).encode()


def pick_front(chance):
    return chance.choice([b"CH\x01\x00", b"CH\x02\x01", b"CH\x02\x02", b"CH\x03\x00"])


def random_datagram(chance):
    """Rubbish, or a packet of random words, or the front of one; no request for FILE."""
    kind = chance.randrange(4)
    if kind == 0:
        return chance.randbytes(chance.randrange(80))
    count = chance.randrange(20)
    words = struct.pack(">3H", chance.randrange(65_536), count, SERVER) + chance.randbytes(10) + chance.randbytes(count + count % 2)
    datagram = pick_front(chance) + words
    return datagram[: chance.randrange(len(datagram))] if kind == 1 else datagram


class Ends:
    """An end that is seen from outside: `which` says whose."""

    def test_what_comes_to_no_connection_is_answered_to_the_byte_or_not_at_all(self):
        with serving(self.which) as (host, _):
            rows = Rows(host)
            none = {"to": (SERVER, 0o401)}
            rows.row("a contact that nobody has", (RFC, 7, 0, b"NONE"), (CLS, 0, 0, NO_SERVER), to=(SERVER, 0))
            rows.row("a contact in small letters", (RFC, 7, 0, b"file"), (CLS, 0, 0, NO_SERVER), to=(SERVER, 0))
            rows.row("the front of a contact", (RFC, 7, 0, b"FIL"), (CLS, 0, 0, NO_SERVER), to=(SERVER, 0))
            for op in [OPN, SNS, STS, EOF, DATA, 0o377]:
                rows.row(f"opcode {op:o} without a connection", (op, 1, 2, b"1234"), (LOS, 0, 0, NO_CONNECTION), **none)
            for op in [CLS, LOS, ANS, FWD, LSN, UNC, NO_NAME]:
                rows.row(f"opcode {op:o} without a connection", (op, 1, 2, b"1234"), **none)
            rows.row("a packet for another host", (RFC, 5, 0, b"FILE"), to=(SERVER + 1, 0))
            rows.row("a packet from address 0", (RFC, 5, 0, b"FILE"), to=(SERVER, 0), me=(0, 1))
            rows.row("an answer to a host that is no peer goes nowhere", (DATA, 1, 2, b"A"), to=(SERVER, 0o401), me=(0o777, 1))
            for rubbish in [b"", b"CH", b"CH\x01\x00", bytes(2_000), datagram(RFC, (SERVER, 0), rows.peer.me, 5, 0, b"FILE") + b"\x00"]:
                rows.peer.socket.sendto(rubbish, rows.peer.server)
            rows.expect("what is no datagram")
            rows.peer.close()
            self.check(f"{self.which}: what comes to no connection is answered to the byte, or not at all", rows.problems + host.problems())

    def test_the_rows_of_an_end_that_is_open(self):
        with serving(self.which) as (host, _):
            rows = Rows(host)
            peer = rows.peer
            rows.problems += peer.open(5)
            first, second, third = peer.first, (peer.first + 1) % 65_536, (peer.first + 2) % 65_536
            told = (STS, 0, 5, status(5))
            rows.expect("a status")
            rows.row("the request again", (RFC, 5, 0, b"FILE"), told, to=(SERVER, 0))
            rows.row("the request again, to its index", (RFC, 5, 0, b"FILE"), told)
            rows.row("a request with another number", (RFC, 6, 0, b"FILE"), to=(SERVER, 0))
            rows.row("a probe", (SNS, 0, first), told)
            rows.row("an OPN", (OPN, 9, first, status(first)), told)
            rows.row("an OPN without a status", (OPN, 9, first, b"123"))
            rows.row("a status", (STS, 0, first, status(first)))
            rows.row("a status without its bytes", (STS, 0, first, b"123"))
            rows.row("a status of what was never sent", (STS, 0, first + 9, status(first + 9)))
            for op in [UNC, ANS, FWD, LSN, NO_NAME]:
                rows.row(f"opcode {op:o}", (op, 0, first, b"1234"))
            rows.row("data that was read before", (DATA, 5, first, b"T  LOGIN X"), told)
            rows.row("data half a circle behind", (DATA, 5 + 32_768, first, b"T  LOGIN X"), told)
            rows.row("data past the window", (DATA, 5 + 14, first, b"T  LOGIN X"), told)
            rows.row("data from another index", (DATA, 6, first, b"T  LOGIN X"), (LOS, 0, 0, NO_CONNECTION), me=(CLIENT, 0o1406))
            rows.row("data to another index", (DATA, 6, first, b"T  LOGIN X"), (LOS, 0, 0, NO_CONNECTION), to=(SERVER, peer.at[1] ^ 0o400))
            rows.row("data behind a gap is held", (0o300, 7, first, b"T  DELETE\x8dA"))
            rows.row("and comes again", (0o300, 7, first, b"T  DELETE\x8dA"), told)
            login, gone = (DATA, second, 6, b"T  LOGIN M"), (DATA, third, 7, b"T  ERROR FNF No such file.")
            rows.row("the gap is filled, by data of opcode 277: replies come in order", (0o277, 6, first, b"T  LOGIN M"), login, gone)
            rows.row("EOF, which acknowledges all", (EOF, 8, third), (CLS, 0, 0, b""))
            rows.row("data after that", (DATA, 9, third, b"T"), (LOS, 0, 0, NO_CONNECTION))
            self.check(f"{self.which}: the rows of an open end, each packet to the byte", rows.problems + host.problems())
            peer.close()

    def test_opcodes_that_end_an_end_that_is_open(self):
        with serving(self.which) as (host, _):
            rows = Rows(host)
            peer = rows.peer
            for op in [CLS, LOS]:
                rows.problems = peer.open(5)
                rows.row(f"opcode {op:o} ends it", (op, 0, 0, b"Bye."))
                rows.row("data after that", (DATA, 6, peer.first, b"T"), (LOS, 0, 0, NO_CONNECTION))
                self.check(f"{self.which}: opcode {op:o} ends an open end", rows.problems)
            peer.close()

    def test_a_request_that_is_answered_by_no_opening_is_told(self):
        answers = [(CLS, b"it refused the connection"), (ANS, b"it answered in place of opening a connection")]
        answers += [(FWD, b"it says to ask elsewhere"), (LOS, b"it knows no such connection")]
        with folder() as here:
            for op, told in answers:
                server = Played(self.which, here)
                server.send(op, body=b"Go away.", index=0)
                ended = server.end()
                wanted = b"chaosd: A: %s: Go away.\nchaosd: B: not tried\n" % told
                self.check(f"{self.which}: a request that opcode {op:o} answers", ended.problems(REFUSED, b"", wanted))

    def test_the_rows_of_an_end_that_asked(self):
        with folder() as here:
            server = Played(self.which, here)
            request = server.request
            problems = [] if request[0] == RFC and request[1][:3] == (SERVER, 0, CLIENT) and request[2] == b"FILE" else [f"{request}"]
            server.send(OPN, 100, server.number, b"123")
            server.send(DATA, 101, server.number, b"early")
            again = server.next()
            problems += [] if again == request else [f"what is no opening drew {again}"]
            server.send(OPN, 100, server.number, status(server.number), index=0o1001)
            opened = server.next_of(STS)
            told = opened and (opened[1][:2], opened[1][4:], opened[2][:2])
            problems += [] if told == ((SERVER, 0o1001), (0, 100), status(100)[:2]) else [f"the opening drew {opened}"]
            server.send(OPN, 100, server.number, status(server.number), index=0o1001)
            login = server.next_of(DATA)
            problems += [] if login and login[2].endswith(b"  LOGIN CHAOSD") and login[1][4] == (server.number + 1) % 65_536 else [f"{login}"]
            problems += [] if server.next_of(STS) else ["the second opening drew no status"]
            server.send(DATA, 101, login[1][4], b"X  LOGIN CHAOSD", index=0o1001)
            told = b"chaosd: A: not an answer of FILE: X  LOGIN CHAOSD\nchaosd: B: not tried\n"
            self.check(f"{self.which}: an end that asked, row by row", problems + server.end().problems(REFUSED, b"", told))

    def test_of_17_connections_16_are_taken(self):
        """And the last is told so."""
        with serving(self.which) as (host, _):
            peer = Peer(host)
            for n in range(17):
                peer.send(RFC, 5, 0, b"FILE", to=(SERVER, 0), me=(CLIENT, n + 1))
            opened, refused, end = set(), [], time.monotonic() + SOON
            while len(opened) + len(refused) < 17 and time.monotonic() < end:
                seen = peer.receive(SOON)
                opened |= {seen[1][1]} if seen and seen[0] == OPN else set()
                refused += [seen[1][1]] if seen and seen[0] == CLS and seen[2] == FULL else []
            problems = [] if len(opened) == 16 and len(refused) == 1 and refused[0] not in opened else [f"{opened} and {refused}"]
            peer.close()
            self.check(f"{self.which}: of 17 connections 16 are taken", problems)


class EndOfChaosd(Ends, Case):
    seconds = 20
    which = FIRST


@needs_lisp
class EndOfLisp(Ends, Case):
    seconds = 30
    which = SECOND


class AnotherProgram(Case):
    """Another program in the place of the one in Lisp. Here that is the one in Lisp, by its path from the top."""

    seconds = 5

    @unittest.skipUnless(SBCL, "sbcl isn't there: `apt-get install sbcl` gives it")
    def test_it_is_run_from_every_folder_and_named(self):
        words, name = f"sbcl --script {(LISP / 'chaosd.lisp').relative_to(ROOT)}", "tests.lisp_rows.EndOfLisp.test_the_rows_of_an_end_that_asked"
        line = [sys.executable, ROOT / "tools/test-program", "--here", name]
        ran = subprocess.run(line, cwd=ROOT, env={**os.environ, "SECOND_PROGRAM": words}, capture_output=True, text=True, timeout=SOON)
        wanted = f"ok: {words}: an end that asked, row by row\n1 0\n"
        self.check("a program by its path from the top is run in another folder", [] if ran.stdout == wanted else [ran.stdout + ran.stderr])

    def test_the_classes_that_the_protocol_names_are_there(self):
        """Each takes a program in the place of the one in Lisp."""
        section = (ROOT / "docs/PROTOCOL.md").read_text().partition("## Check your implementation")[2].partition("\n## ")[0]
        named = re.findall(r"`(\w+)`", "".join(re.findall(r"^\| (`.*?) \|", section, re.M)))
        there = {**vars(lisp), **globals()}
        takes = [name for name in named if SECOND in (getattr(there.get(name), "which", None), getattr(there.get(name), "server", None))]
        self.check("each class of the page takes another program", [it for it in named if it not in [*takes, "Alike"]] if len(named) > 6 else [str(named)])


class Silence:
    """A peer that falls silent, and the end that waits for it."""

    def test_a_silent_peer_is_sent_the_reply_again_probed_and_given_up(self):
        """What a silent peer draws: the reply again, probes, and the end."""
        with serving(self.which) as (host, _):
            rows = Rows(host)
            peer = rows.peer
            problems = peer.open(5)
            reply = (peer.first + 1) % 65_536
            peer.send(DATA, 6, peer.first, b"T  LOGIN X")
            one, since = peer.receive(), peer.moment
            other, took = peer.receive(again=True), peer.moment - since
            problems += [] if one and one == other and took > 0.15 else [f"{one}, and after {took:.2f} s {other}"]
            peer.send(STS, 0, reply, status(reply))
            moments, others = [time.time()], []
            self.check(f"{self.which}: what isn't receipted is sent again, and not at once", problems)
            while len(moments) <= MOST_PROBES and (packet := peer.receive(SILENT)):
                moments += [peer.moment] if packet[0] == SNS else []
                others += [] if packet[0] == SNS else [packet]
            waits = [later - earlier for earlier, later in zip(moments, moments[1:])]
            is_probed = LEAST_PROBES <= len(waits) < MOST_PROBES and min(waits) > 9 and not others
            self.check(f"{self.which}: a silent peer is probed every ten seconds", [] if is_probed else [f"after {waits} s, and {others}"])
            peer.send(SNS, 0, reply)
            last = peer.receive()
            self.check(f"{self.which}: and given up after ninety", [] if last and last[0] == LOS else [f"{last}"])
            peer.close()


class SilenceToChaosd(Silence, Case):
    seconds = 120
    which = FIRST


@needs_lisp
class SilenceToLisp(Silence, Case):
    seconds = 122
    which = SECOND


@needs_lisp
class Alike(Case):
    """What both ends do alike."""

    seconds = 15

    def test_odd_commands_draw_the_same_replies_and_leave_the_same_folder(self):
        script, seen = odd_commands(), {}
        for which in (FIRST, SECOND):
            with serving(which) as (host, _):
                address, own, server = host.words()
                process = begun(FIRST, ["ask", address, own, "401", server], stdin=subprocess.PIPE)
                ended = finished(process, script)
                kept = {path.name: path.read_bytes() for path in host.folder.iterdir() if path.name != ".new"}
                told = b"".join(b"chaosd: handle %s was written and not closed, so its file was not kept\n" % name for name in [b"H2", b"h"])
                seen[which] = (ended.out.splitlines(), kept, ended.problems(DONE, None, told))
        first, other = seen[FIRST], seen[SECOND]
        lines = script.splitlines()
        problems = first[2] + other[2] + ([] if len(first[0]) == len(lines) else [f"{len(first[0])} replies"])
        pairs = zip(lines, first[0], other[0])
        problems += [f"{line!r}: {one!r} and {another!r}" for line, one, another in pairs if one != another][:3]
        codes = {reply.split(b" ERROR ")[1][:3] for reply in first[0] if b" ERROR " in reply}
        wanted = {b"SYN", b"UKC", b"ILP", b"HIU", b"NOH", b"WRK", b"NMH", b"FNF", b"FAE"}
        problems += [f"no {wanted - codes} among them"] if wanted - codes else []
        self.check(f"{len(lines)} odd commands draw the same replies from chaosd and from {SECOND}", problems)
        self.check("and leave the same folder", [] if first[1] == other[1] else [f"{sorted(first[1])} and {sorted(other[1])}"])

    def test_random_datagrams_leave_the_lisp_server_serving(self):
        """10,000 random datagrams leave the Lisp server serving."""
        chance = random.Random(10_000)
        with serving(SECOND, peers=2) as (host, here):
            (host.folder / "A").write_bytes(b"a")
            peer = Peer(host, 1)
            for n in range(10_000):
                peer.socket.sendto(random_datagram(chance), peer.server)
                if n % 50 == 0:
                    time.sleep(0.01)
            peer.close()
            problems = ran(FIRST, ["get", *host.words(), "A"], cwd=here).problems(DONE, b"", b"") + stored_problems(here / "A", b"a")
            self.check(f"10,000 random datagrams leave the server in {SECOND} serving", problems + host.problems())
