"""The smallest client and the smallest server of docs/PROTOCOL.md, written as the page says, beside `chaosd` over a network that loses,
repeats and reorders."""

import contextlib
import random
import select
import socket
import struct
import threading
import time

from tests.packets import ANS, CLS, DATA, EOF, FWD, LOS, OPN, RFC, SNS, STS, datagram
from tests.second import packets_of
from tests.support import CLIENT, DONE, FOR_LONG, SERVER, Case, Lossy, at, folder, free_ports, network_before, run, serving, stored_problems

NL = b"\x8d"
WAIT, RETRANSMIT, PROBE, DOWN = 0.1, 0.5, 10, 90
CONTENT = random.Random(628).randbytes(5_000)
PARTS = [CONTENT[start : start + 448] for start in range(0, len(CONTENT), 448)]


class Over(Exception):
    """The connection is over."""


class End:
    """What both have: one connection, one packet that is kept, and none that is held."""

    def __init__(self, address, port, there):
        self.address, self.there, self.socket = address, ("127.0.0.1", there), socket.socket(socket.AF_INET, socket.SOCK_DGRAM)
        self.socket.bind(("127.0.0.1", port))
        self.theirs, self.is_open = None, False

    def begin(self, theirs):
        """Begins a connection, by chance with other numbers than the last."""
        self.theirs, self.sent, self.index = theirs, random.randrange(65_536), random.randrange(1, 65_536)
        self.window, self.kept, self.heard = 1, None, time.monotonic()
        self.probed = self.heard

    def send_to(self, end, index, op, num=0, ack=0, data=b""):
        self.socket.sendto(datagram(op, end, (self.address, index), num, ack, data), self.there)

    def keep(self, op, data):
        self.kept = op, data
        self.send_kept()

    def send_kept(self):
        op, data = self.kept
        self.send_to(self.theirs, self.index, op, self.sent, 0 if op == RFC else self.read, data)
        self.last = time.monotonic()

    def write(self, op, data=b""):
        self.sent = (self.sent + 1) % 65_536
        self.keep(op, data)

    def report(self):
        self.send_to(self.theirs, self.index, STS, 0, self.read, struct.pack("<2H", self.read, 1))

    def turn(self):
        """Receives, and ticks."""
        if select.select([self.socket], [], [], WAIT)[0] and (received := self.socket.recv(2_048)):
            op, (to, to_index, source, source_index, num, ack), data, _ = packets_of(received)[0]
            if to == self.address and source:
                self.arrive(op, to_index, (source, source_index), num, ack, data)
        if self.theirs:
            self.tick(time.monotonic())

    def tick(self, now):
        if now - self.heard >= DOWN:
            raise Over
        if self.kept and now - self.last >= RETRANSMIT:
            self.send_kept()
        elif self.is_open and now - max(self.heard, self.probed) >= PROBE:
            self.send_to(self.theirs, self.index, SNS, 0, self.read)
            self.probed = now

    def take(self, ack, status):
        if self.sent in (ack, *status[:1]):
            self.kept = None
        self.window = status[1] if status else self.window

    def arrive_open(self, op, num, ack, data):
        """A packet that comes to the open connection."""
        status = struct.unpack("<2H", data[:4]) if op in (OPN, STS) and len(data) >= 4 else ()
        if op in (CLS, LOS):
            raise Over
        if op == EOF or op >= DATA:
            self.take(ack, ())
            self.item(op, num, data)
        elif op == SNS or status:
            self.take(ack, status)
            if op != STS:
                self.report()
        else:
            return
        self.heard = time.monotonic()


class Client(End):
    """The client in ten steps."""

    def __init__(self, port, there):
        super().__init__(CLIENT, port, there)
        self.begin((SERVER, 0))
        self.read, self.items = 0, []
        self.keep(RFC, b"FILE")

    def arrive(self, op, index, source, num, ack, data):
        if index != self.index or source != (self.theirs if self.is_open else (SERVER, source[1])):
            return
        if self.is_open:
            self.arrive_open(op, num, ack, data)
        elif op == OPN and len(data) >= 4:
            self.theirs, self.read, self.is_open = source, num, True
            self.arrive_open(op, num, ack, data)
        elif op in (ANS, FWD, CLS, LOS):
            raise Over

    def item(self, op, num, data):
        if num == (self.read + 1) % 65_536:
            self.read = num
            self.items.append(data)
        self.report()

    def say(self, op, data=b""):
        while self.kept or not self.window or not self.is_open:
            self.turn()
        self.write(op, data)

    def ask(self, command):
        """The reply to a command."""
        self.say(DATA, command)
        while not self.items:
            self.turn()
        return self.items.pop()

    def end(self):
        with contextlib.suppress(Over):
            self.say(EOF)
            while self.kept:
                self.turn()


class Server(End, threading.Thread):
    """The smallest server. It keeps its files in memory, and knows the commands of `get` and `put`."""

    def __init__(self, port, peer):
        threading.Thread.__init__(self, daemon=True)
        End.__init__(self, SERVER, port, peer)
        self.port, self.peers, self.files, self.is_ended = port, [peer], {}, False

    def run(self):
        while not self.is_ended:
            try:
                self.turn()
            except Over:
                self.theirs, self.is_open = None, False

    def arrive(self, op, index, source, num, ack, data):
        if op == RFC and source == self.theirs:
            if num == self.request:
                self.report()
        elif op == RFC and data.split(b" ")[0] != b"FILE":
            self.send_to(source, 0, CLS, data=b"No server for this contact name.")
        elif op == RFC and self.theirs:
            self.send_to(source, 0, CLS, data=b"Connection table full.")
        elif op == RFC:
            self.begin(source)
            self.read, self.request, self.is_open = num, num, True
            self.keep(OPN, struct.pack("<2H", self.read, 1))
        elif source == self.theirs and index == self.index:
            self.arrive_open(op, num, ack, data)
        elif op in (OPN, EOF, SNS, STS) or op >= DATA:
            self.send_to(source, index, LOS, data=b"No such connection.")

    def item(self, op, num, data):
        if num != (self.read + 1) % 65_536 or self.kept or not self.window:
            self.report()
            return
        self.read = num
        if op == EOF:
            self.send_to(self.theirs, self.index, CLS)
            raise Over
        self.write(DATA, self.reply_to(data))

    def reply_to(self, command):
        tid, handle, rest = command.split(b" ", 2)
        word, _, body = rest.partition(NL)
        if word == b"OPEN WRITE":
            self.path, self.content, rest = body, b"", b"OPEN 0"
        elif word == b"OPEN READ":
            self.path, self.content, self.at = None, self.files[body], 0
            rest = b"OPEN %d" % len(self.content)
        elif word == b"WRITE":
            self.content += body
            rest = b"WRITE %d" % len(self.content)
        elif word == b"READ":
            part = self.content[self.at : self.at + 448]
            self.at += len(part)
            rest = b"READ" + NL + part if part else b"EOF"
        elif word == b"CLOSE":
            self.files |= {self.path: self.content} if self.path else {}
            rest = b"CLOSE %d" % len(self.content)
        return b" ".join([tid, handle, rest])

    def close(self):
        self.is_ended = True
        self.join()
        self.socket.close()


class Smallest(Case):
    """Each copies a file both ways."""

    seconds = 15

    def test_the_smallest_client_copies_a_file_both_ways(self):
        with serving() as server, network_before(server, Lossy) as network:
            client = Client(network.peers[0], network.port)
            asked = [b"T  LOGIN ME", b"T F OPEN WRITE" + NL + b"A", *(b"T F WRITE" + NL + it for it in PARTS), b"T F CLOSE"]
            asked += [b"T F OPEN READ" + NL + b"A", *[b"T F READ"] * len(PARTS), b"T F READ", b"T F CLOSE"]
            wanted = [b"T  LOGIN ME", b"T F OPEN 0", *(b"T F WRITE %d" % min(448 * n, 5_000) for n in range(1, len(PARTS) + 1)), b"T F CLOSE 5000"]
            wanted += [b"T F OPEN 5000", *(b"T F READ" + NL + it for it in PARTS), b"T F EOF", b"T F CLOSE 5000"]
            replies = [client.ask(it) for it in asked]
            client.end()
            client.socket.close()
            self.check("each reply", [f"{one} and not {other}" for one, other in zip(replies, wanted) if one != other])
            self.check("the file", stored_problems(server.folder / "A", CONTENT))
            self.check("the network loses", [] if network.lost else ["nothing"])

    def test_the_smallest_server_takes_and_gives_a_file(self):
        port, peer = free_ports(2)
        server = Server(port, peer)
        server.start()
        with contextlib.closing(server), network_before(server, Lossy) as network, folder() as here:
            words = ["402", at(network.peers[0]), f"401={at(network.port)}"]
            (here / "A").write_bytes(CONTENT)
            problems = run(["put", *FOR_LONG, *words, str(here / "A")]).problems(DONE, b"", b"")
            self.check("put", problems + ([] if server.files == {b"A": CONTENT} else [f"{list(server.files)}"]))
            (here / "A").unlink()
            problems = run(["get", *FOR_LONG, "--output", str(here / "A"), *words, "A"]).problems(DONE, b"", b"")
            self.check("get", problems + stored_problems(here / "A", CONTENT))
            self.check("the network loses", [] if network.lost else ["nothing"])
