"""Two programs that speak to each other: `chaosd`, and the end in Lisp, in each other's place."""

import contextlib
import os
import pathlib
import random
import select
import shlex
import shutil
import signal
import socket
import struct
import subprocess
import threading
import time
import unittest

from tests import support
from tests.packets import DATA, OPN, RFC, STS, datagram, turned
from tests.support import CLIENT, DONE, PROGRAM, ROOT, SERVER, USUAL_WINDOW, at, folder, free_ports, line_of, run

LISP = ROOT / "examples/lisp"
SBCL = shutil.which("sbcl")
# The words that start another implementation in place of the one in Lisp: docs/PROTOCOL.md, "Check your implementation". Tests run it in
# folders of their own, so a word that is a file's path becomes the whole path.
OTHER = [os.path.abspath(it) if os.path.exists(it) else it for it in shlex.split(os.environ.get("SECOND_PROGRAM", ""))]
# Seconds: a Lisp takes one to start, and more on a machine that does much else.
LONG = 300

# SO_TIMESTAMPNS of Linux, for which std's module has no name.
TIMESTAMPS = 35

# So many datagrams are no more than an input of `show` may be.
SHOWN = 200

# The third is a Lisp machine as far as one can be had: its client, over a stand-in for its Chaosnet.
FIRST, SECOND, MACHINE = "chaosd", os.environ.get("SECOND_PROGRAM") or "Lisp", "a Lisp machine"

needs_lisp = unittest.skipUnless(SBCL or OTHER, "sbcl isn't there: `apt-get install sbcl` gives it")


def words_of(which):
    """The words that start a program."""
    if which == FIRST:
        return [str(PROGRAM)]
    if which == SECOND and OTHER:
        return OTHER
    return [SBCL, "--script", str(LISP / ("chaosd.lisp" if which == SECOND else "stand-in.lisp"))]


def begun(which, words, **streams):
    """A program that runs. SIGINT ends it, as by default."""
    streams = {"stdin": subprocess.DEVNULL, "stdout": subprocess.PIPE, "stderr": subprocess.PIPE, **streams}
    return subprocess.Popen([*words_of(which), *words], preexec_fn=lambda: signal.signal(signal.SIGINT, signal.SIG_DFL), **streams)


def finished(process, given=None):
    """How a run ended."""
    return support.finished(process, given, LONG)


def ran(which, words, **streams):
    """A run to its end."""
    return finished(begun(which, words, **streams))


class Server:
    """A server of either kind on a folder, with peers from 000402 on, or one peer that is the place of all hosts."""

    def __init__(self, which, kept, peers=1, options=(), ports=None, of_all=False):
        self.which, self.folder, self.of_all = which, pathlib.Path(kept), of_all
        self.port, *self.peers = ports or free_ports(1 + peers)
        self.options, self.said = options, b""
        self.start()

    def start(self):
        words = ["*=" + at(self.peers[0])] if self.of_all else [f"{CLIENT + n:o}={at(port)}" for n, port in enumerate(self.peers)]
        self.process = begun(self.which, ["serve", *self.options, "401", at(self.port), str(self.folder), *words])
        self.said = line_of(self.process.stderr, LONG)
        threading.Thread(target=self.drain, args=(self.process.stderr,), daemon=True).start()

    def drain(self, stream):
        with stream:
            for line in stream:
                self.said += line

    def words(self, peer=0):
        """The words of a client's line that say who it is and where the server is."""
        return [f"{CLIENT + peer:o}", at(self.peers[peer]), f"401={at(self.port)}"]

    def problems(self):
        """What is wrong where it doesn't serve any more."""
        return [] if self.process.poll() is None else [f"the server ended with {self.process.returncode}: {self.said[-300:]!r}"]

    def end(self):
        self.process.kill()
        self.process.wait()
        self.process.stdout.close()


@contextlib.contextmanager
def serving(which, **options):
    """A server on a folder of its own, and a folder for its client."""
    with folder() as kept, folder() as here:
        server = Server(which, kept, **options)
        try:
            yield server, here
        finally:
            server.end()


class Network(threading.Thread):
    """A network between a server and a client, which is at the port that the server has for its peer. It notes what each sends, loses
    and repeats so many of a hundred datagrams, and holds as many back."""

    def __init__(self, port, server, client, bad=0):
        super().__init__(daemon=True)
        self.socket = socket.socket(socket.AF_INET, socket.SOCK_DGRAM)
        self.socket.bind(("127.0.0.1", port))
        self.other = {server: client, client: server}
        self.sent = {server: [], client: []}
        # How many datagrams of each are taken at most; None where all are.
        self.most = {server: None, client: None}
        self.bad, self.late, self.random = bad, [], random.Random(1981)
        self.start()

    def unlucky(self):
        return self.random.randrange(100) < self.bad

    def take(self, seen, source):
        """Hands a datagram of either end on, as often and when it comes. One of another port is nobody's."""
        port = source[1]
        if port not in self.other or len(self.sent[port]) == self.most[port]:
            return
        self.sent[port].append(seen)
        for _ in range(0 if self.unlucky() else 2 if self.unlucky() else 1):
            if self.unlucky():
                self.late.append((time.monotonic() + self.random.random() * 0.06, seen, self.other[port]))
            else:
                self.socket.sendto(seen, ("127.0.0.1", self.other[port]))

    def run(self):
        with contextlib.suppress(OSError, ValueError):
            while True:
                if select.select([self.socket], [], [], 0.005)[0]:
                    self.take(*self.socket.recvfrom(2_048))
                due = [one for one in self.late if one[0] <= time.monotonic()]
                self.late = [one for one in self.late if one not in due]
                for _, seen, port in due:
                    self.socket.sendto(seen, ("127.0.0.1", port))

    @contextlib.contextmanager
    def closed_after(self, port, count):
        """Loses all that the one at this port sends behind its first datagrams, which are so many, while a test does something. The test
        waits for these by `wait_for_last`."""
        self.most[port] = count
        try:
            yield
        finally:
            self.most[port] = None

    def wait_for_last(self, port):
        """Waits until all datagrams have come that are taken of the one at this port."""
        end = time.monotonic() + LONG
        while len(self.sent[port]) < self.most[port] and time.monotonic() < end:
            time.sleep(0.002)

    def wait_for(self, port, count):
        """Waits until the one at this port has sent so many datagrams more."""
        count, end = len(self.sent[port]) + count, time.monotonic() + LONG
        while len(self.sent[port]) < count and time.monotonic() < end:
            time.sleep(0.002)

    def close(self):
        self.socket.close()


@contextlib.contextmanager
def network_before(host, bad=0):
    """A network before a server; gives it, the client's port and the words of a client's line."""
    (port,) = free_ports(1)
    network = Network(host.peers[0], host.port, port, bad)
    try:
        yield network, port, ["402", at(port), f"401={at(host.peers[0])}"]
    finally:
        network.close()


def packets_of(datagram):
    """The packets of a datagram: opcode, the two ends, number, acknowledgement and data, and whether what is free is zero."""
    place, packets = 4, []
    while place < len(datagram):
        op, free, count = datagram[place], datagram[place + 1], struct.unpack(">H", datagram[place + 2 : place + 4])[0]
        ends = struct.unpack(">6H", datagram[place + 4 : place + 16])
        size = (count & 0xFFF) + count % 2
        words = datagram[place + 16 : place + 16 + size]
        data = turned(words)
        packets.append((op, ends, data[: count & 0xFFF], free == 0 and count < 0x1000 and not any(data[count & 0xFFF :])))
        place += 16 + size
    return packets


def canonical_problems(datagrams):
    """What is wrong with what an end sent: `show` refuses none, nothing is in what is free, and nothing was forwarded."""
    problems = [datagram.hex(" ") for datagram in datagrams if not all(packet[3] for packet in packets_of(datagram))][:1]
    for first in range(0, len(datagrams), SHOWN):
        given = b"".join(datagram.hex().encode() + b"\n" for datagram in datagrams[first : first + SHOWN])
        problems += run(["show"], given).problems(DONE, None, b"")
    return problems


class Peer:
    """One that speaks packets to a server, and notes no program's state: it sends what a test says."""

    def __init__(self, server, peer=0):
        self.socket = socket.socket(socket.AF_INET, socket.SOCK_DGRAM)
        self.socket.bind(("127.0.0.1", server.peers[peer]))
        self.socket.setsockopt(socket.SOL_SOCKET, TIMESTAMPS, 1)
        self.server, self.me = ("127.0.0.1", server.port), (CLIENT + peer, 0o1405)
        self.at, self.first, self.seen = (SERVER, 0), 0, set()
        # When the last datagram came to this machine, in seconds: a test may be late to take it.
        self.moment = 0.0

    def send(self, op, num=0, ack=0, body=b"", to=None, me=None):
        self.socket.sendto(datagram(op, to or self.at, me or self.me, num, ack, body), self.server)

    def receive(self, patience=LONG, again=False):
        """The next packet, or None where none comes in time. An item that was seen before, as it is sent again where the machine is
        slow, is left out, unless it is asked for."""
        end = time.monotonic() + patience
        with contextlib.suppress(TimeoutError):
            while (left := end - time.monotonic()) > 0:
                self.socket.settimeout(left)
                received, notes, _, _ = self.socket.recvmsg(2_048, 64)
                self.moment = sum(part * unit for part, unit in zip(struct.unpack("2q", notes[0][2]), (1, 1e-9)))
                packet = packets_of(received)[0]
                item = (packet[0], packet[1][:5])
                is_new = item not in self.seen or packet[0] not in (OPN, DATA)
                self.seen.add(item)
                if is_new or again:
                    return packet
        return None

    def open(self, number=5):
        """Asks for FILE and is opened. Gives what is wrong."""
        self.send(RFC, number, 0, b"FILE", to=(SERVER, 0))
        seen = self.receive()
        if seen is None or seen[0] != OPN:
            return [f"no OPN but {seen}"]
        self.at, self.first = (SERVER, seen[1][3]), seen[1][4]
        self.send(STS, 0, self.first, struct.pack("<2H", self.first, USUAL_WINDOW))
        return []

    def close(self):
        self.socket.close()
