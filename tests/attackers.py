"""Tests what one who sends forged datagrams gets of `chaosd`: of a client, of a server that sends to others, and of numbers that he guesses."""

import contextlib
import select
import socket
import struct
import threading
import time

from tests.packets import CLS, DATA, LOS, OPN, RFC, SNS, datagram
from tests.support import CLIENT, LONG, REFUSED, SERVER, Case, at, folder, free_ports, mixed_content, run, serving


def numbers(request):
    """The index and the first number of a request."""
    return struct.unpack(">2H", request[14:18])


class Refusing(threading.Thread):
    """A server that refuses each request, and keeps it with the moment when it came. Before, somebody else at another UDP address
    refuses it in its name, where that is wished."""

    def __init__(self, is_forged):
        super().__init__(daemon=True)
        (self.port,) = free_ports(1)
        self.socket = socket.socket(socket.AF_INET, socket.SOCK_DGRAM)
        self.socket.bind(("127.0.0.1", self.port))
        self.liar = socket.socket(socket.AF_INET, socket.SOCK_DGRAM) if is_forged else None
        self.requests, self.is_over = [], False

    def run(self):
        while not self.is_over:
            request, client = self.socket.recvfrom(2_048)
            if request[4:5] != bytes([RFC]):
                continue
            answer = lambda text: datagram(CLS, (CLIENT, numbers(request)[0]), (SERVER, 0), 0, 0, text)
            self.requests.append((time.time(), *numbers(request)))
            if self.liar:
                self.liar.sendto(answer(b"Forged."), client)
            self.socket.sendto(answer(b"Its own."), client)

    def end(self):
        self.is_over = True
        self.socket.sendto(b"", ("127.0.0.1", self.port))
        self.join()
        for each in [self.socket, self.liar]:
            if each:
                each.close()


@contextlib.contextmanager
def refusing(is_forged=False):
    server = Refusing(is_forged)
    server.start()
    try:
        yield server
    finally:
        server.end()


def lines(server, local, options=()):
    """A line of each client of this server, and what it is given."""
    own = ["402", at(free_ports(1)[0])]
    to = f"401={at(server.port)}"
    for name, words in [("get", ["A"]), ("put", [local]), ("delete", ["A"]), ("rename", ["A", "B"])]:
        yield name, [name, *options, *own, to, *words], b""
    yield "ask", ["ask", *options, *own, "401", to], b"T1  LOGIN LISPM\n"


class Elsewhere(Case):
    """What comes to a client from another UDP address than its server's."""

    seconds = 8

    def check_refusals(self, options, wanted, other, name):
        with refusing(is_forged=True) as server, folder() as here:
            (here / "A").write_bytes(b"(A)")
            for command, words, given in lines(server, here / "A", options):
                ended = run(words, given)
                problems = ended.problems(REFUSED, None, [b"refused the connection: " + wanted])
                problems += [f"it told {ended.err!r}"] if other in ended.err else []
                self.check(f"{command}{name}", problems)

    def test_a_client_drops_what_comes_from_another_udp_address(self):
        self.check_refusals([], b"Its own.", b"Forged", " drops what somebody else sends in its server's name")

    def test_any_source_takes_what_comes_from_anywhere(self):
        self.check_refusals(["--any-source"], b"Forged.", b"Its own", " --any-source takes what comes from another UDP address")


RUNS, CIRCLE = 20, 65_536


class Guesses(Case):
    """The numbers and indices from which `get` and `put` ask."""

    seconds = 6

    def requests_of(self, command):
        with refusing() as server, folder() as here:
            (here / "A").write_bytes(b"(A)")
            for _ in range(RUNS):
                run(next(words for name, words, _ in lines(server, here / "A") if name == command))
            return server.requests

    def test_nobody_can_tell_the_numbers_and_indices_of_the_next_run(self):
        for command in ["get", "put"]:
            seen = self.requests_of(command)
            # A clock's milliseconds lie in few of 32 parts of the circle, once the moment of the request is taken away.
            parts = {int(number - 1_000 * moment) % CIRCLE * 32 // CIRCLE for moment, _, number in seen}
            high = {index >> 8 for _, index, _ in seen}
            problems = [] if len(seen) == RUNS else [f"{len(seen)} requests came"]
            problems += [] if len(parts) >= 8 else [f"the numbers of {seen} are a clock's"]
            problems += [] if len(high) >= 12 else [f"the indices of {seen} are alike"]
            self.check(f"{command}: {RUNS} runs ask from numbers and indices that no clock gives", problems)


class Reflector(Case):
    """Requests in the name of a peer that never asked, and hears what comes of them."""

    seconds = 45

    # Seconds between probes, and seconds in which nothing comes once all is over.
    PROBED, QUIET = 4, 6

    def forge(self, server, forger):
        """Asks for 16 connections in the name of the peer, and for a file over each, as one who hears no answer: by indices that he knows,
        since they are given here, and without any acknowledgement."""
        victim = socket.socket(socket.AF_INET, socket.SOCK_DGRAM)
        victim.bind(("127.0.0.1", server.peers[0]))
        victim.settimeout(LONG)
        opened = {}
        for index in range(1, 17):
            forger.sendto(datagram(RFC, (SERVER, 0), (CLIENT, index), 5, 0, b"FILE"), ("127.0.0.1", server.port))
        while len(opened) < 16:
            seen = victim.recv(2_048)
            if seen[4] == OPN:
                (here, there) = struct.unpack(">H2xH", seen[10:16])
                opened[here] = there
        for index, there in opened.items():
            for n, command in enumerate([b"T1  LOGIN M", b"T2 H OPEN READ^F".replace(b"^", b"\x8d"), *[b"T3 H READ"] * 10]):
                forger.sendto(datagram(DATA, (SERVER, there), (CLIENT, index), 6 + n, 0, command), ("127.0.0.1", server.port))
        return victim, opened

    def received(self, victim, seconds):
        """What comes in so many seconds, but for the answers to probes of what is no connection."""
        end, came = time.monotonic() + seconds, []
        while select.select([victim], [], [], max(0, end - time.monotonic()))[0]:
            seen = victim.recv(2_048)
            came += [] if seen[4] == LOS else [seen]
        return came

    def test_a_server_sends_no_more_to_a_peer_that_never_asked(self):
        with serving(options=["--window", "64"]) as server, socket.socket(socket.AF_INET, socket.SOCK_DGRAM) as forger:
            (server.folder / "F").write_bytes(mixed_content(100_000))
            victim, opened = self.forge(server, forger)
            came, end = [b"all"], time.monotonic() + LONG / 10
            with victim:
                while came and time.monotonic() < end:
                    for index, there in opened.items():
                        forger.sendto(datagram(SNS, (SERVER, there), (CLIENT, index)), ("127.0.0.1", server.port))
                    came = self.received(victim, self.PROBED if len(came) > 1 else self.QUIET)
            problems = [f"{len(came)} datagrams still come in {self.PROBED} s"] if came else []
            ended = run(["get", "402", at(server.peers[0]), f"401={at(server.port)}", "--output", "/dev/null", "F"])
            self.check("16 forged requests, probed again and again, end, and nothing more is sent", problems)
            self.check("and the peer itself is served then", ended.problems(0, b"", b""))
