"""Tests `example_lines`, the service over UDP that docs/LIBRARY.md walks through, against clients that speak datagrams."""

import re
import struct
import subprocess
import time

from tests.packets import CLS, DATA, EOF, OPN, RFC, STS, Peer, turned
from tests.support import CLIENT, PATIENCE, SERVER, USUAL_WINDOW, Checking, checked, finished, free_ports, line_of


class Server:
    """The program, with peers from 000402 on."""

    def __init__(self, peers):
        self.port, *self.peers = free_ports(1 + peers)
        words = [f"{SERVER:o}", str(self.port), *(f"{CLIENT + n:o}=127.0.0.1:{port}" for n, port in enumerate(self.peers))]
        self.process = subprocess.Popen([checked("example_lines"), *words], stdout=subprocess.PIPE, stderr=subprocess.PIPE)
        self.said = line_of(self.process.stdout, PATIENCE)

    def end(self):
        self.process.terminate()
        finished(self.process)


class Client(Peer):
    """A client of LINES: it writes, and gathers what comes back."""

    def __init__(self, server, peer=0):
        super().__init__(server, peer)
        self.there, self.num, self.read, self.text, self.has_ended = (SERVER, 0), 1, 0, b"", False
        self.send(RFC, self.there, self.me, self.num, 0, b"LINES")
        opened = self.until(OPN)
        self.there, self.read = struct.unpack(">HH", opened[12:16]), self.number(opened)
        self.acknowledge()

    @staticmethod
    def number(datagram):
        return struct.unpack(">H", datagram[16:18])[0]

    @staticmethod
    def acknowledged(datagram):
        return struct.unpack(">H", datagram[18:20])[0]

    def acknowledge(self):
        self.send(STS, self.there, self.me, 0, self.read, struct.pack("<HH", self.read, USUAL_WINDOW))

    def write(self, op, body=b""):
        self.num += 1
        self.send(op, self.there, self.me, self.num, self.read, body)

    def take(self):
        """Takes the next datagram: a text that comes next is gathered, and acknowledged."""
        datagram = self.receive()
        op, count = datagram[4], struct.unpack(">H", datagram[6:8])[0] % 4_096
        if op in (DATA, EOF) and self.number(datagram) == (self.read + 1) % 65_536:
            self.text += turned(datagram[20:])[:count]
            self.read, self.has_ended = self.number(datagram), op == EOF
            self.acknowledge()
        return datagram

    def until(self, op):
        while True:
            datagram = self.take()
            if datagram[4] == op:
                return datagram

    def gather(self, lines):
        """What came back, once there are so many lines."""
        while self.text.count(b"\n") < lines:
            self.take()
        return self.text


class Lines(Checking):
    """Lines that come back with the seconds in front."""

    seconds = 5
    needs = ["example_lines"]

    def setUp(self):
        self.server = Server(2)
        self.addCleanup(self.server.end)

    def clients(self):
        made = [Client(self.server, peer) for peer in range(2)]
        for it in made:
            self.addCleanup(it.close)
        return made

    def test_each_of_two_clients_at_once_gets_its_own_lines_back(self):
        ann, bob = self.clients()
        ann.write(DATA, b"One\nTw")
        bob.write(DATA, b"Bob's\n")
        ann.write(DATA, b"o\n\n")
        self.assertRegex(bob.gather(1), rb"^\d+ Bob's\n$")
        self.assertRegex(ann.gather(3), rb"^\d+ One\n\d+ Two\n\d+ \n$")

    def test_the_seconds_are_those_since_the_connection_began(self):
        begun = time.monotonic()
        ann, bob = self.clients()
        time.sleep(1.1)
        ann.write(DATA, b"late\n")
        seconds = int(ann.gather(1).split()[0])
        self.assertTrue(1 <= seconds <= time.monotonic() - begun, seconds)

    def test_many_lines_and_a_long_one_come_back_whole(self):
        ann, _ = self.clients()
        wanted = [b"x" * 480, *(b"%d" % number for number in range(100)), b"y" * 470]
        text = b"".join(it + b"\n" for it in wanted)
        for at in range(0, len(text), 488):
            ann.write(DATA, text[at : at + 488])
        lines = ann.gather(len(wanted)).split(b"\n")
        self.assertEqual([re.sub(rb"^\d+ ", b"", it) for it in lines], [*wanted, b""])

    def test_each_reply_acknowledges_its_item_to_a_client_with_one_in_flight(self):
        ann, _ = self.clients()
        text = b""
        for item in [b"one\n", b"two\n", b"\n", b"part of a line", b"x\n" * 244, b"end\n"]:
            ann.write(DATA, item)
            text += item
            while re.sub(rb"(?m)^\d+ ", b"", ann.text) != text:
                last = ann.take()
            self.assertEqual((last[4], ann.acknowledged(last)), (DATA, ann.num), item)
        ann.write(EOF)
        self.assertEqual(ann.acknowledged(ann.until(EOF)), ann.num)

    def test_an_eof_is_answered_by_one_and_the_slot_serves_the_next(self):
        ann, _ = self.clients()
        ann.write(DATA, b"last")
        ann.write(EOF)
        while not ann.has_ended:
            ann.take()
        self.assertRegex(ann.text, rb"^\d+ last$")
        ann.send(CLS, ann.there, ann.me)
        ann.me = (CLIENT, 0o2405)
        ann.close()
        again = Client(self.server)
        self.addCleanup(again.close)
        again.write(DATA, b"again\n")
        self.assertRegex(again.gather(1), rb"^\d+ again\n$")


class Words(Checking):
    """The words of the program."""

    needs = ["example_lines"]

    def test_bad_words_are_refused_with_how_they_go(self):
        for words in [[], ["401"], ["401", "x"], ["9", "9001"], ["401", "9001", "402"], ["401", "9001", "402=127.0.0.1"]]:
            process = subprocess.Popen([checked("example_lines"), *words], stdout=subprocess.PIPE, stderr=subprocess.PIPE)
            self.check(str(words), finished(process).problems(1, b"", [b"usage: example_lines ADDRESS PORT PEER.."]))
