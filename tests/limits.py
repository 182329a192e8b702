"""Tries limits that docs/OPERATING.md and docs/SECURITY.md name, and that no other test tries."""

import os
import pathlib
import re
import select
import signal
import socket
import subprocess

from tests.flood import Packet
from tests.hosts import ServingTable, place, written
from tests.packets import CLS, DATA, OPN, RFC, SNS, STS, datagram
from tests.pages import text_of
from tests.sealed import calm
from tests.sealing import called, sealed_serving
from tests.support import (
    CLIENT, DONE, FAULT, FOR_LONG, LONG, PROGRAM, SERVER, Case, Relay, Serving, at, finished, folder, free_ports, mixed_content,
    network_before, run, serving, stored_problems,
)  # fmt: skip

PAGE = text_of("docs/OPERATING.md")
# Whom no file belongs to, and the first port that such a user may have.
NOBODY, FIRST_PORT = 65_534, pathlib.Path("/proc/sys/net/ipv4/ip_unprivileged_port_start")


class Measuring(Relay):
    """A network that notes how long the longest datagram was."""

    longest = 0

    def passed(self, datagram, port):
        self.longest = max(self.longest, len(datagram))
        return [(datagram, port)]


class Bundles(Case):
    """Sealed datagrams of carriage 2."""

    seconds = 3

    def test_a_sealed_bundle_may_be_longer_than_an_ethernet_frame_carries(self):
        """A seal has 48 bytes, and a frame carries 1,472: a bundle of more than 1,424 goes in two fragments."""
        wanted = int(re.search(r"a bundle of more than ([\d,]+) bytes goes in two IP fragments", PAGE)[1].replace(",", ""))
        self.check("the page's limit", [] if wanted == 1_472 - 48 else [str(wanted)])
        with sealed_serving(options=["--carriage", "2", "--window", "64"]) as server, network_before(server, Measuring) as network, folder() as here:
            (here / "F").write_bytes(mixed_content(40_000))
            ended = called(server, network, "put", "F", options=["--carriage", "2", *FOR_LONG], cwd=here)
            problems = calm(ended).problems(DONE, b"", b"") + stored_problems(server.folder / "F", mixed_content(40_000))
            self.check("put", problems + ([] if 1_472 < network.longest <= 1_472 + 48 else [f"the longest datagram had {network.longest} bytes"]))


class Followed(Case):
    """A host that is answered where its last datagram came from."""

    seconds = 5

    def test_each_new_place_is_logged(self):
        first, second = free_ports(2)
        with folder() as here:
            server = Serving(here, peers=0, others=["404=*"])
            (here / "F").write_bytes(b"(f)")
            try:
                for port in [first, second]:
                    ended = run(["get", *FOR_LONG, "--output", "/dev/null", "404", at(port), f"401={at(server.port)}", "F"])
                    self.check(f"get from {port}", ended.problems(DONE, b"", b""))
                    line = server.line_with(b" is at ").decode()
                    self.check("and the log has it", [] if line == f"chaosd: host 404 is at {at(port)} now\n" else [line])
            finally:
                server.end()

    def test_it_does_not_go_with_only_peers(self):
        with folder() as here:
            ended = run(["serve", "--only-peers", "401", at(*free_ports(1)), here, "404=*"])
            self.check("serve --only-peers 404=*", [] if ended.status == 2 and b"--only-peers" in ended.err else [repr(ended.err)])


class Tables(Case):
    """A table that changes while `serve` runs."""

    seconds = 10

    def test_a_new_own_line_is_not_taken_before_a_restart(self):
        with place(clients=1, serves=False) as here:
            here.server = ServingTable(here)
            try:
                (other,) = free_ports(1)
                written(here.served, *here.served.read_text().replace(at(here.port), at(other)).splitlines())
                self.check("it is read", [] if b"read again" in here.server.line_with(b"hosts table") else ["nothing is logged"])
                (here.top / "A").write_bytes(b"a")
                self.check("the server is where it was", here.call("put", "A", "lispm:").problems(DONE, b"", b""))
            finally:
                here.server.end()

    def test_a_table_that_is_gone_changes_nothing(self):
        with place(clients=1, serves=False) as here:
            here.server = ServingTable(here)
            try:
                here.served.unlink()
                self.check("it is logged", [] if b"the hosts stay" in here.server.line_with(b"hosts table") else ["nothing is logged"])
                (here.top / "A").write_bytes(b"a")
                self.check("put", here.call("put", "A", "lispm:").problems(DONE, b"", b""))
            finally:
                here.server.end()


class Ports(Case):
    """A port below 1024."""

    def test_it_needs_a_capability(self):
        if FIRST_PORT.is_file() and int(FIRST_PORT.read_text()) < 1_024:
            self.skipTest("here everybody may have each port")
        user = {"user": NOBODY, "group": NOBODY} if os.getuid() == 0 else {}
        with folder() as here:
            here.chmod(0o755)
            streams = {"stdin": subprocess.DEVNULL, "stdout": subprocess.PIPE, "stderr": subprocess.PIPE}
            ended = finished(subprocess.Popen([PROGRAM, "serve", "--turns", "1", "401", "127.0.0.1:900", here], **streams, **user), patience=LONG)
        self.check("port 900", ended.problems(FAULT, b"", [b"can't open 127.0.0.1:900: Permission denied"]))


class Signals(Case):
    """What ends a server."""

    seconds = 2

    def test_sighup_ends_it(self):
        if signal.getsignal(signal.SIGHUP) == signal.SIG_IGN:
            self.skipTest("whoever runs the tests ignores SIGHUP, and so does what they start")
        self.check("the page has it", [] if "SIGHUP ends the server." in PAGE else ["it hasn't"])
        with serving() as server:
            server.process.send_signal(signal.SIGHUP)
            self.check("it ends", [] if server.process.wait(LONG) == -signal.SIGHUP else [str(server.process.returncode)])


class Times(Case):
    """How long an idle server lasts."""

    def test_the_days_of_the_page_are_the_default_turns_of_10_milliseconds(self):
        turns = int(re.search(r"turn takes some 10 ms \[default: (\d+)\]", run(["serve", "--help"]).out.decode())[1])
        days = int(re.search(r"An idle server ends after (\d+) days", PAGE)[1])
        self.check("days", [] if days == turns // 100 // 86_400 else [f"{turns} turns are {turns / 8_640_000} days"])


class Drawn(Case):
    """What a forged packet draws to the host that it names: docs/SECURITY.md has the counts."""

    seconds = 40

    # The bytes of the longest text of a CLS, and of what CHUDP adds to a packet beside the own carriage's four.
    LONGEST_TEXT, MORE_IN_CHUDP = len("No server for this contact name."), 6

    def drawn(self, server, *packet):
        """The socket of a server's peer, which has sent one packet and hears what comes."""
        peer = socket.socket(socket.AF_INET, socket.SOCK_DGRAM)
        self.addCleanup(peer.close)
        peer.bind(("127.0.0.1", server.peers[0]))
        peer.sendto(datagram(*packet), ("127.0.0.1", server.port))
        return peer

    def test_a_request_draws_so_many_datagrams_and_no_more(self):
        said = re.search(r"One request of (\d+) bytes draws (\d+) datagrams of (\d+) bytes at most in 30 seconds, and (\d+) with `--retransmit 20`", text_of("docs/SECURITY.md"))
        asks, usual, drawn, often = map(int, said.groups())
        request = (RFC, (SERVER, 0), (CLIENT, 5), 5, 0, b"FILE")
        self.check("the request's bytes", [] if len(datagram(*request)) == asks else [str(len(datagram(*request)))])
        with serving() as first, serving(options=["--retransmit", "20"]) as second:
            came = {self.drawn(server, *request): [] for server in (first, second)}
            # the server ends the connection by a CLS
            while waiting := [peer for peer, seen in came.items() if CLS not in {it[4] for it in seen}]:
                ready = select.select(waiting, [], [], LONG)[0]
                for peer in ready:
                    came[peer].append(peer.recv(2_048))
                if not ready:
                    break
        for most, seen in zip((usual, often), came.values()):
            opened = [it for it in seen if it[4] == OPN]
            problems = [] if 5 < len(opened) < len(seen) <= most and max(map(len, seen)) == drawn else [f"{len(seen)} came"]
            self.check(f"at most {most}, and the last is a CLS", problems + ([] if seen[-1][4] == CLS else ["no CLS came"]))

    def test_any_other_packet_draws_one_answer_of_so_many_bytes_at_most(self):
        most = int(re.search(r"Any other packet draws one answer at most, of (\d+) bytes at most", text_of("docs/SECURITY.md"))[1])
        with serving() as server:
            peer = self.drawn(server, STS, (SERVER, 1), (CLIENT, 8), 5, 0, bytes(4))
            for op, index, data in [(RFC, 0, b"NONE"), (DATA, 1, b"x"), (SNS, 1, b""), (STS, 1, bytes(4)), (0o12, 1, b""), (0o5, 1, b"")]:
                # what is drawn by the request that follows comes behind all that the packet draws
                for packet in [(op, (SERVER, index), (CLIENT, 9), 5, 0, data), (RFC, (SERVER, 0), (CLIENT, 7), 5, 0, b"NONE")]:
                    peer.sendto(datagram(*packet), ("127.0.0.1", server.port))
                peer.settimeout(LONG)
                seen = [peer.recv(2_048)]
                while Packet(seen[-1]).for_index != 7:
                    seen.append(peer.recv(2_048))
                sizes = [len(it) for it in seen if Packet(it).for_index == 9]
                problems = [] if len(sizes) < 2 and all(it + self.MORE_IN_CHUDP <= most for it in sizes) else [str(sizes)]
                self.check(f"opcode {op:o}", problems)
        longest = 20 + self.LONGEST_TEXT + self.MORE_IN_CHUDP
        self.check("the longest is a CLS in CHUDP", [] if longest == most else [str(longest)])
