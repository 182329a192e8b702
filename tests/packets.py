"""Packets as the datagrams that carry them, and a peer that speaks datagrams: another program, for whom each packet counts to the byte."""

import contextlib
import socket
import struct

from tests.support import CLIENT, PATIENCE

RFC, OPN, CLS, SNS, STS, LOS, EOF, DATA = 0o1, 0o2, 0o3, 0o6, 0o7, 0o11, 0o14, 0o200
FWD, ANS, LSN, UNC, NO_NAME = 0o4, 0o5, 0o12, 0o15, 0o16


def turned(data):
    """Bytes two to a word, the first in the low half, as words go with their high halves first; and back."""
    data += bytes(len(data) % 2)
    return b"".join(data[at : at + 2][::-1] for at in range(0, len(data), 2))


def datagram(op, dst, src, num=0, ack=0, body=b""):
    """A packet as a datagram of version 1, between two ends of an address and an index."""
    return struct.pack(">10H", 0x4348, 0x0100, op << 8, len(body), *dst, *src, num, ack) + turned(body)


def asks_for_file(datagram):
    """Whether a datagram of version 1 is a request for FILE."""
    return datagram[4:5] == bytes([RFC]) and turned(datagram[20:24]) == b"FILE"


class Peer:
    """A peer of a server that speaks datagrams, and sends what a test says."""

    def __init__(self, server, peer=0):
        self.socket = socket.socket(socket.AF_INET, socket.SOCK_DGRAM)
        self.socket.bind(("127.0.0.1", server.peers[peer]))
        self.socket.settimeout(PATIENCE)
        self.server, self.me = ("127.0.0.1", server.port), (CLIENT + peer, 0o1405)
        self.seen = set()

    def framed(self, *packet):
        """A packet as the datagram that carries it between this peer and the server."""
        return datagram(*packet)

    def send(self, *packet):
        self.socket.sendto(self.framed(*packet), self.server)

    def receive(self):
        """The next datagram. What is numbered and was seen before, as it is where the machine is slow, is left out."""
        while True:
            seen = self.socket.recv(2_048)
            op, ends, num = seen[4], seen[8:16], seen[16:18]
            if num == bytes(2) or (op, ends, num) not in self.seen:
                self.seen.add((op, ends, num))
                return seen

    def problems(self, name, *packet):
        """What differs from this packet in the next datagram."""
        wanted = self.framed(*packet)
        with contextlib.suppress(TimeoutError):
            seen = self.receive()
            return [] if seen == wanted else [f"{name}: {seen.hex(' ')} and not {wanted.hex(' ')}"]
        return [f"{name}: nothing came"]

    def close(self):
        self.socket.close()
