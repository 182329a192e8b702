"""Tests what `chaosd serve` tells who runs it: who asks from where, which files change, and what is wrong with its peers."""

import collections
import contextlib
import re
import select
import socket
import subprocess

from tests.flood import Packet
from tests.packets import CLS, DATA, OPN, RFC, Peer, datagram
from tests.scripts import FILE_SCRIPT
from tests.support import (
    BAD_LINE, CLIENT, DONE, LONG, REFUSED, ROOT, SERVER,
    Case, Serving, at, finished, folder, free_ports, line_of, run, serving, started,
)  # fmt: skip

# A script of an `ask` that writes, replaces, renames, reads and deletes a file, and fails to delete it again.
CHANGES = b"""T  LOGIN M
T A OPEN WRITE^OLD
T A WRITE^(a)
T A CLOSE
T B OPEN WRITE^OLD
T B CLOSE
T  RENAME^OLD^NEW
T C OPEN READ^NEW
T  DELETE^NEW
T  DELETE^NEW
"""


def ended(server, connections=0, last=None):
    """All lines that a server logs, once it logged the end of so many connections and this last line, and was ended."""
    lines = []
    while len([line for line in lines if b" ends: " in line]) < connections or last and last.encode() + b"\n" not in lines:
        lines.append(line_of(server.process.stderr))
        if not lines[-1]:
            break
    server.said += b"".join(lines)
    server.process.terminate()
    _, err = server.process.communicate(timeout=LONG)
    return (server.said + err).decode().splitlines()


def without_connections(lines):
    """What is told of hosts and files, without the program's name."""
    told = [line.removeprefix("chaosd: ") for line in lines[1:]]
    return [line for line in told if " connection " not in f" {line}"]


def changes(server):
    """What is told of a client that does `CHANGES`."""
    problems = [] if run(server.words(), CHANGES).status == DONE else ["the script did not end well"]
    return problems, without_connections(ended(server, connections=1))


def told_of(server):
    """What is wanted of `CHANGES`, beside the file that is read."""
    front = f"host 402 at {at(server.peers[0])}"
    return [f"{front} wrote OLD, 3 bytes", f"{front} replaced OLD, 0 bytes", f"{front} renamed OLD to NEW", f"{front} deleted NEW", f"{front} could not delete NEW: no such file"]


class Changes(Case):
    """Files that change."""

    seconds = 6

    def check_told(self, name, wanted, seen, problems):
        self.check(name, problems + ([] if seen == wanted else [f"it said {seen} and not {wanted}"]))

    def test_each_file_that_changes_is_told_with_the_host_and_its_udp_address(self):
        with serving() as server:
            problems, seen = changes(server)
            self.check_told("written, replaced, renamed and deleted", told_of(server), seen, problems)

    def test_log_all_tells_files_that_are_read_too(self):
        with serving(options=["--log", "all"]) as server:
            problems, seen = changes(server)
            wanted = told_of(server)
            wanted.insert(3, f"host 402 at {at(server.peers[0])} read NEW, 0 bytes")
            self.check_told("log all", wanted, seen, problems)

    def test_log_quiet_is_as_quiet(self):
        for options in (["--log", "quiet"], ["--quiet", "--log", "all"]):
            with serving(options=options) as server:
                problems = [] if line_of(server.process.stderr, 1) == b"" else ["it said something"]
                problems += [] if run(server.words(), CHANGES).status == DONE else ["the script did not end well"]
                lines = ended(server)
                self.check(f"{options}", problems + ([] if lines == [] else [f"it said {lines}"]))

    def test_of_two_clients_at_once_each_file_is_told_with_its_own_host(self):
        with serving(peers=4) as server:
            pipes = {"stdin": subprocess.PIPE, "stdout": subprocess.PIPE, "stderr": subprocess.PIPE}
            running = [started(server.words(n, ["--carriage", "2"]), **pipes) for n in range(4)]
            for n, process in enumerate(running):
                opened = b"".join(b"T H%d OPEN WRITE^F%d.%d\nT H%d CLOSE\n" % (k % 8, n, k, k % 8) for k in range(40))
                process.stdin.write(b"T  LOGIN M\n" + opened)
                process.stdin.flush()
            for process in running:
                process.communicate(timeout=LONG)
            told = without_connections(ended(server, connections=4))
            seen = [re.fullmatch(r"host 40(\d) at (\S+) wrote F(\d)\.\d+, 0 bytes", line) for line in told]
            right = [found and int(found[1]) == int(found[3]) + 2 and found[2] == at(server.peers[int(found[3])]) for found in seen]
            problems = [] if len(seen) == 160 and all(right) else [f"it said {told}"]
            self.check("160 files of four clients", problems)

    def test_the_time_stands_in_front_where_it_is_asked_for(self):
        with serving(options=["--log-time"]) as server:
            run(server.words(), CHANGES)
            form = re.compile(r"20\d\d-\d\d-\d\dT\d\d:\d\d:\d\dZ chaosd: .+")
            wrong = [line for line in ended(server, connections=1) if not form.fullmatch(line)]
            self.check("log-time", [f"it said {wrong}"] if wrong else [])


    def test_a_request_that_fails_is_logged_with_the_host(self):
        """A file that isn't there can't be got, deleted or renamed, and no file is renamed to the path of another."""
        script = b"T  LOGIN M\nT A OPEN READ^NONE\nT  DELETE^NONE\nT  RENAME^NONE^B\nT  RENAME^A^B\n"
        wanted = ["read NONE: no such file", "delete NONE: no such file", "rename NONE to B: no such file", "rename A to B: the new path is taken"]
        with serving() as server:
            for name in "AB":
                (server.folder / name).write_bytes(b"(a)")
            problems = [] if run(server.words(), script).status == DONE else ["the script did not end well"]
            got = run(["get", "402", at(server.peers[0]), f"401={at(server.port)}", "NONE"])
            problems += [] if got.status == REFUSED else [f"get ended with {got.status}"]
            front = f"host 402 at {at(server.peers[0])} could not"
            self.check_told("failed", [f"{front} {line}" for line in [*wanted, wanted[0]]], without_connections(ended(server, connections=2)), problems)


class Flooding(Case):
    """Requests that would fill a log."""

    seconds = 10

    # The most lines about connections in a second of the server's clock. A second of the time in front of a line has parts of two such.
    LIMIT = 20
    # What a flood does: 16 connections open, and all end.
    LINES = 32
    LEFT_OUT = re.compile(r"\S+ chaosd: (\d+) more like this, about connections")

    def open_and_close(self, server, peer, lowest):
        """Opens each of a server's 16 connections, and closes them. Meanwhile a host asks that the server doesn't know."""
        for index in range(lowest, lowest + 16):
            peer.sendto(datagram(RFC, (SERVER, 0), (CLIENT, index), 5, 0, b"FILE"), ("127.0.0.1", server.port))
        opened = {}
        while len(opened) < 16:
            seen = Packet(peer.recv(2_048))
            if seen.op == OPN and seen.for_index >= lowest:
                opened[seen.for_index] = seen.index
        peer.sendto(datagram(RFC, (SERVER, 0), (0o500, 1), 5, 0, b"NONE"), ("127.0.0.1", server.port))
        for index, other in opened.items():
            peer.sendto(datagram(CLS, (SERVER, other), (CLIENT, index)), ("127.0.0.1", server.port))

    def counts(self, lines):
        """How many lines each report says were left out."""
        return [int(found[1]) for line in lines if (found := self.LEFT_OUT.fullmatch(line))]

    def accounted(self, lines):
        """How many lines about connections there are, or were left out."""
        return sum(" connection " in line for line in lines) + sum(self.counts(lines))

    def flooded(self, server):
        """The lines of floods, up to a flood of which lines were left out, and how many floods there were."""
        lines, floods = [], 0
        with socket.socket(socket.AF_INET, socket.SOCK_DGRAM) as peer:
            peer.bind(("127.0.0.1", server.peers[0]))
            peer.settimeout(LONG)
            while floods < 50 and not self.counts(lines):
                floods += 1
                self.open_and_close(server, peer, 16 * floods)
                while self.accounted(lines) < self.LINES * floods and (line := line_of(server.process.stderr, LONG)):
                    lines.append(line.decode().rstrip())
        return lines, floods

    def test_of_a_flood_so_many_lines_a_second_are_logged_and_the_others_are_counted(self):
        with serving(options=["--log-time"]) as server:
            lines, floods = self.flooded(server)
            seconds = collections.Counter(line.split()[0] for line in lines if " connection " in line)
            problems = [] if self.counts(lines) else ["nothing was left out"]
            problems += [] if all(count <= 2 * self.LIMIT for count in seconds.values()) else [f"too many lines: {seconds}"]
            problems += [] if self.accounted(lines) == self.LINES * floods else [f"{self.accounted(lines)} lines of {floods} floods"]
            strangers = [line for line in lines if "host 500 asks from" in line]
            problems += [] if len(strangers) == 1 else ["the stranger is lost in the flood"]
            self.check("a flood of requests", problems)

    def test_a_change_is_never_left_out(self):
        script = b"T  LOGIN M\n" + b"".join(b"T A OPEN WRITE^F%d\nT A CLOSE\n" % n for n in range(100))
        with serving() as server:
            problems = [] if run(server.words(), script).status == DONE else ["the script did not end well"]
            wrote = [line for line in ended(server, connections=1) if " wrote F" in line]
            self.check("100 files", problems + ([] if len(wrote) == 100 else [f"it logged {len(wrote)}"]))


class Sending(Case):
    """A send that the system refuses."""

    seconds = 3

    def test_the_call_and_the_systems_reason_are_logged(self):
        with folder() as here, socket.socket(socket.AF_INET, socket.SOCK_DGRAM) as peer:
            server = Serving(here, others=["404=255.255.255.255:9"])
            peer.sendto(datagram(RFC, (SERVER, 0), (0o404, 7), 0, 0, b"NONE"), ("127.0.0.1", server.port))
            lines = [line_of(server.process.stderr, LONG).decode().rstrip() for _ in range(2)]
            server.end()
            wanted = "chaosd: sending to 255.255.255.255:9 failed: Permission denied (os error 13)"
            self.check("a send to a broadcast address", [] if wanted in lines else [f"it logged {lines}"])


class Again(Case):
    """What isn't acknowledged is sent again."""

    seconds = 4

    def test_retransmit_is_how_soon_a_server_sends_again(self):
        """Two servers send their OPN again and again, beside each other: one as soon as it may, and one after 500 milliseconds. Each waits
        twice as long each time, so that the second sends its fourth after 3.5 seconds, when the first has sent eight."""
        with serving(options=["--retransmit", "20"]) as soon, serving() as usual:
            with contextlib.closing(Peer(soon)) as first, contextlib.closing(Peer(usual)) as second:
                for peer in (first, second):
                    peer.send(RFC, (SERVER, 0), peer.me, 5, 0, b"FILE")
                came = {first.socket: 0, second.socket: 0}
                while came[second.socket] < 4 and (ready := select.select(list(came), [], [], LONG)[0]):
                    for each in ready:
                        each.recv(2_048)
                        came[each] += 1
                counts = list(came.values())
        self.check("20 ms beside 500 ms", [] if counts[1] == 4 and 6 < counts[0] < 11 else [f"so many came: {counts}"])


class Asking(Case):
    """Hosts that ask from where they aren't known."""

    seconds = 6

    def told_to(self, address, wanted):
        """The lines that a server of one peer logs of a client with this address, that asks several times from another socket and is
        not answered there; and what is wanted of it, by the two UDP addresses of the client and of the server's peer."""
        (other,) = free_ports(1)
        with serving() as server:
            words = ["ask", "--timeout", "3", address, at(other), "401", f"401={at(server.port)}"]
            process = started(words, stdin=subprocess.PIPE, stdout=subprocess.PIPE, stderr=subprocess.PIPE)
            finished(process, FILE_SCRIPT)
            line = wanted(at(other), at(server.peers[0]))
            return line, ended(server, last=line)[1:]

    def test_a_peer_that_asks_from_another_udp_address_is_told_once(self):
        line = "chaosd: host 402 asks from {}, and is answered at {}, where its PEER is"
        wanted, seen = self.told_to("402", line.format)
        problems = [] if seen.count(wanted) == 1 else [f"it said {seen}"]
        self.check("from where, and where it is answered", problems)

    def test_a_host_that_is_no_peer_is_told_once_with_its_udp_address_and_opens_nothing(self):
        wanted, seen = self.told_to("403", "chaosd: host 403 asks from {} and is no PEER".format)
        self.check("a stranger", [] if seen == [wanted] else [f"it said {seen}"])

    def test_only_peers_drops_what_comes_from_no_peers_socket(self):
        """A datagram of another socket that says that it is the peer's opens nothing; the peer's own does."""
        with serving(options=["--only-peers"]) as server:
            with socket.socket(socket.AF_INET, socket.SOCK_DGRAM) as liar:
                liar.sendto(datagram(RFC, (SERVER, 0), (CLIENT, 5), 5, 0, b"FILE"), ("127.0.0.1", server.port))
                for first in range(1, 65_536, 256):
                    liar.sendto(datagram(DATA, (SERVER, first), (CLIENT, 5), 6, 0, b"T  DELETE"), ("127.0.0.1", server.port))
                problems = [] if run(server.words(), CHANGES).status == DONE else ["its own peer is not served"]
            lines = ended(server, connections=1)
            opened = [line for line in lines if " opens connection " in line]
            problems += [] if len(opened) == 1 and "asks from" not in "".join(lines) else [f"it said {lines}"]
            self.check("only-peers", problems)


def shape(line):
    """A line of a log without what differs from run to run: UDP addresses, indices of connections, and the folder."""
    line = re.sub(r"\d+\.\d+\.\d+\.\d+:\d+", "UDP", line)
    return re.sub(r"serves \S+ at", "serves FOLDER at", re.sub(r"connection \d{6}", "connection INDEX", line))


class Page(Case):
    """The log of docs/OPERATING.md."""

    seconds = 8

    def test_a_run_logs_the_lines_of_the_page(self):
        """The page's lines stand in the log of a put, a get, a get of no file, and two clients that ask from unknown UDP addresses."""
        page = (ROOT / "docs/OPERATING.md").read_text().partition("\n## The log\n")[2]
        lines = re.search(r"^```\n(.*?)^```$", page, re.M | re.S)[1].splitlines()
        wanted = [shape(line) for line in lines if not line.startswith("#")]
        with serving(peers=2, options=["--log", "all"]) as server, folder() as here:
            (near, far), others, to = server.peers, free_ports(2), f"401={at(server.port)}"
            (here / "A.LISP").write_bytes(b"(DEFUN HELLO ())\n")
            problems = [] if run(["put", "--login", "SMITH", "402", at(near), to, here / "A.LISP"]).status == DONE else ["no put"]
            problems += [] if run(["get", "--output", here / "copy", "403", at(far), to, "A.LISP"]).status == DONE else ["no get"]
            problems += [] if run(["get", "--output", here / "none", "403", at(far), to, "B.LISP"]).status == REFUSED else ["B.LISP is there"]
            for address, other in zip(["404", "402"], others):
                run(["get", "--timeout", "3", "--output", here / "none", address, at(other), to, "A.LISP"])
            last = f"chaosd: host 402 asks from {at(others[1])}, and is answered at {at(near)}, where its PEER is"
            log = [shape(line) for line in ended(server, last=last)]
        rest = iter(log)
        problems += [f"no {line!r}, in its turn, in {log}" for line in wanted if line not in rest]
        self.check("the page's lines, in their order", problems if wanted else ["the page has no log"])


class Beginning(Case):
    """What a server tells when it begins."""

    seconds = 3

    def first_lines(self, peers):
        own, other = free_ports(2)
        words = [word.replace("OWN", at(own)).replace("OTHER", at(other)) for word in peers]
        with folder() as here:
            server = started(["serve", "--turns", "3", "401", at(own), here, *words], stdout=subprocess.PIPE, stderr=subprocess.PIPE)
            _, err = server.communicate(timeout=LONG)
        return [line.replace(at(own), "OWN").replace(at(other), "OTHER").replace(str(here), "HERE") for line in err.decode().splitlines()[:-1]]

    def check_first(self, name, peers, *wanted):
        seen = self.first_lines(peers)
        self.check(name, [] if seen == [f"chaosd: {line}" for line in wanted] else [f"it said {seen}"])

    def test_its_peers_are_named(self):
        first = "host 401 serves HERE at OWN to 403=127.0.0.1:9 402=OTHER"
        self.check_first("two peers", ["403=127.0.0.1:9", "402=OTHER"], first)

    def test_hosts_that_are_followed_are_named(self):
        self.check_first("alone", ["404=*"], "host 401 serves HERE at OWN to 404=*")
        first = "host 401 serves HERE at OWN to 402=OTHER 404=* 405=* *=127.0.0.1:9"
        self.check_first("beside a peer and a bridge", ["404=*", "402=OTHER", "*=127.0.0.1:9", "405=*"], first)

    def test_hosts_with_a_key_are_named(self):
        with folder() as here:
            (here / "key").write_text("0" * 64 + "\n")
            (here / "key").chmod(0o600)
            keyed = ["--key", str(here / "key")]
            first = "host 401 serves HERE at OWN to 402=OTHER, with a key for 402, and hears nobody in clear"
            self.check_first("one", [*keyed, "402=OTHER"], first)
            first = "host 401 serves HERE at OWN to 402=OTHER 404=*, with keys for 402 404, and hears nobody in clear"
            self.check_first("two", [*keyed, "402=OTHER", "404=*"], first)
            first = "host 401 serves HERE at OWN to 402=OTHER *=127.0.0.1:9, with a key for 402"
            self.check_first("beside a bridge", [*keyed, "402=OTHER", "*=127.0.0.1:9"], first)

    def test_what_can_answer_nobody_is_told(self):
        self.check_first("no peer", [], "host 401 serves HERE at OWN", "no PEER is given, so nobody is answered")
        itself = "PEER 401 has this host's own Chaosnet address, so what is sent there comes back here"
        self.check_first("itself", ["401=OTHER"], "host 401 serves HERE at OWN to 401=OTHER", itself)
        own = "PEER 402 is at this host's own UDP address, so it is never answered"
        self.check_first("its own UDP address", ["402=OWN"], "host 401 serves HERE at OWN to 402=OWN", own)

    def test_a_level_that_is_none_is_a_bad_line(self):
        (own,) = free_ports(1)
        with folder() as here:
            wrong = run(["serve", "--log", "loud", "401", at(own), here])
        self.check("log loud", wrong.problems(BAD_LINE, b"", [b"'loud' for '--log'", b"quiet, normal or all"]))


class ReadOnly(Case):
    """A server whose files don't change."""

    seconds = 3

    def test_what_would_change_a_file_is_a_store_fault_and_files_are_read(self):
        with serving(options=["--read-only"]) as server:
            (server.folder / "A").write_bytes(b"(A)")
            script = b"T  LOGIN M\nT H OPEN WRITE^A\nT H CLOSE\nT  RENAME^A^B\nT  DELETE^A\nT G OPEN READ^A\n"
            wanted = [b"T  LOGIN M", b"T H OPEN 0", b"T H ERROR STF Store fault."]
            wanted += [b"T  ERROR STF Store fault."] * 2 + [b"T G OPEN 3"]
            problems = run(server.words(), script).problems(DONE, b"\n".join(wanted) + b"\n", b"")
            (server.folder / "x").write_bytes(b"1")
            put = run(["put", "402", at(server.peers[0]), f"401={at(server.port)}", server.folder / "x"])
            problems += put.problems(REFUSED, b"", [b"STF Store fault."])
            left = {path.name: path.read_bytes() for path in server.folder.iterdir()}
            problems += [] if left == {"A": b"(A)", "x": b"1"} else [f"there are {left}"]
            front = f"host 402 at {at(server.peers[0])} could not"
            wanted = [f"{front} {what}: the server is read-only" for what in ("write A", "rename A to B", "delete A", "write x")]
            seen = without_connections(ended(server, connections=2))
            problems += [] if seen == wanted else [f"it logged {seen} and not {wanted}"]
            self.check("read-only", problems)
