"""Tests `chaosd serve` and its clients where calls of their sockets and clocks fail, which a library brings about (tests/failsocket.c)."""

import contextlib
import errno
import os
import re
import socket
import unittest.mock

from tests.copying import copied
from tests.support import (
    DONE, FAULT, LONG, REFUSED, Case, Serving, at, finished, folder, free_ports, mixed_content, preloaded, run, serving, stored_problems,
)  # fmt: skip

LOST_SENDING = ["ENOBUFS", "EMSGSIZE", "EIO"]
LOST_RECEIVING = ["ENOMEM", "ENOBUFS", "ENETDOWN", "ENETUNREACH", "EHOSTUNREACH", "EIO"]
OVER = ["EBADF", "ENOTSOCK"]
LOGIN = b"T1  LOGIN LISPM\n"
# The fifth call and so many behind it fail.
FIRST, TIMES = 5, 8


def failing(library, call, name, times=TIMES, first=FIRST):
    """The environment of a program whose calls fail so."""
    words = {"FAIL_CALL": call, "FAIL_ERRNO": str(getattr(errno, name)), "FAIL_AT": str(first), "FAIL_TIMES": str(times)}
    return unittest.mock.patch.dict(os.environ, {"LD_PRELOAD": str(library), **words})


@contextlib.contextmanager
def faulty(library, call, name, times=TIMES, first=FIRST):
    """A server whose calls fail so, on a folder of its own."""
    with folder() as here:
        with failing(library, call, name, times, first):
            server = Serving(here)
        try:
            yield server
        finally:
            server.end()


class Failing(Case):
    """Calls that fail."""

    def setUp(self):
        room = folder()
        self.library = preloaded(room.__enter__(), "failsocket")
        self.addCleanup(room.__exit__, None, None, None)

    def copy_problems(self, server, is_failing=contextlib.nullcontext):
        """What is wrong with a put and a get of a file."""
        content = mixed_content(20_000)
        with folder() as here:
            (here / "UP").write_bytes(content)
            with is_failing():
                problems = copied(server, "put", "UP", cwd=here).problems(DONE, b"", b"")
            problems = problems or stored_problems(server.folder / "UP", content)
            with is_failing():
                problems += copied(server, "get", "UP", options=["--output", "DOWN"], cwd=here).problems(DONE, b"", b"")
            return problems or stored_problems(here / "DOWN", content)


class Lost(Failing):
    """A datagram that can't be sent or received is lost, and no more."""

    seconds = 30

    def check_each(self, call, names):
        for name in names:
            with faulty(self.library, call, name) as server:
                problems = self.copy_problems(server)
                problems += [] if server.process.poll() is None else [f"it ended with {server.process.returncode}"]
                self.check(f"{call} fails by {name} at a server, and it goes on", problems)
            with serving() as server:
                problems = self.copy_problems(server, lambda: failing(self.library, call, name))
                self.check(f"{call} fails by {name} at its clients, and they go on", problems)

    def test_a_datagram_that_can_not_be_sent_is_lost(self):
        self.check_each("sendto", LOST_SENDING)

    def test_a_datagram_that_can_not_be_received_is_lost(self):
        self.check_each("recvfrom", LOST_RECEIVING)


class Unsent(Failing):
    """A client that could not send, and for which no connection was opened."""

    seconds = 12

    def check_end(self, name, times, wanted):
        """Nobody answers at the server's port."""
        with socket.socket(socket.AF_INET, socket.SOCK_DGRAM) as silent:
            silent.bind(("127.0.0.1", 0))
            port = silent.getsockname()[1]
            wanted = wanted.replace(b"PLACE", at(port).encode())
            own, server = ["402", at(free_ports(1)[0])], f"401={at(port)}"
            for words, lead in [(["get", "--output", "/dev/null", *own, server, "A"], b"A: "), (["ask", *own, "401", server], b"")]:
                with failing(self.library, "sendto", name, times, 1):
                    ended = run([words[0], "--timeout", "2", *words[1:]], LOGIN)
                pattern = b"chaosd: " + lead + rb"no connection opened in \d+ ms: " + wanted
                problems = ended.problems(REFUSED) + ([] if re.fullmatch(pattern, ended.err) else [f"{ended.err!r}"])
                self.check(f"sendto fails {times} times by {name} at {words[0]}", problems)

    def test_the_fault_of_the_last_send_is_reported(self):
        for name in ["EINVAL", "ENETUNREACH", "EPERM"]:
            number = getattr(errno, name)
            reason = re.escape(f"{os.strerror(number)} (os error {number})".encode())
            self.check_end(name, 1_000_000, rb"sending to PLACE failed: " + reason + rb"\n")

    def test_a_fault_before_a_send_that_went_well_is_not(self):
        self.check_end("ENETUNREACH", 3, rb"does a server run at PLACE, and .*\n")

    def test_a_send_that_would_have_to_wait_is_no_fault(self):
        self.check_end("EAGAIN", 1_000_000, rb"does a server run at PLACE, and .*\n")


class Over(Failing):
    """A socket that is none any more ends a run, and the message names the call and the system's reason."""

    seconds = 8

    def check_told(self, whose, name, call, ended):
        verb, reason = b"sending" if call == "sendto" else b"receiving", os.strerror(getattr(errno, name)).encode()
        told = [line for line in ended.err.splitlines() if verb in line and reason in line]
        problems = ended.problems(FAULT) + ([] if told else [f"no line says {verb} and {reason}: {ended.err!r}"])
        self.check(f"{call} fails by {name} at {whose}: reported, status 1", problems)

    def test_a_socket_that_is_none_ends_a_server(self):
        for call in ["sendto", "recvfrom"]:
            for name in OVER:
                with faulty(self.library, call, name, times=1_000_000) as server:
                    content = mixed_content(2_000)
                    (server.folder / "F").write_bytes(content)
                    with folder() as here:
                        copied(server, "get", "F", options=["--timeout", "2"], cwd=here)
                    self.check_told("a server", name, call, finished(server.process, patience=LONG))

    def test_a_socket_that_is_none_ends_a_client(self):
        for call in ["sendto", "recvfrom"]:
            for name in OVER:
                with serving() as server, folder() as here:
                    (server.folder / "F").write_bytes(mixed_content(20_000))
                    with failing(self.library, call, name, times=1_000_000):
                        ended = copied(server, "get", "F", cwd=here)
                    self.check_told("a client", name, call, ended)


class Clocks(Failing):
    """A clock that can't be read once."""

    seconds = 8

    def test_one_read_of_the_clock_that_fails_does_not_end_a_server(self):
        for first in [20, 40, 80, 160]:
            with faulty(self.library, "clock_gettime", "EIO", 1, first) as server:
                problems = self.copy_problems(server)
                problems += [] if server.process.poll() is None else [f"it ended with {server.process.returncode}"]
            self.check(f"read {first} of a clock fails, and the server goes on", problems)
