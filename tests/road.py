"""A road between a server and a client: a network that takes its time, and that loses, repeats, changes or refuses datagrams by a seed."""

import contextlib
import dataclasses
import heapq
import itertools
import random
import select
import time

from tests.support import Relay, free_ports


@dataclasses.dataclass
class Manners:
    """How a road carries: the seconds that a datagram takes each way, and as many more at most; the shares of those that are lost, that
    are there twice, and in which a bit changes; the most bytes that one may have; and the seed of all chance."""

    delay: float = 0.0
    jitter: float = 0.0
    lost: float = 0.0
    twice: float = 0.0
    flipped: float = 0.0
    most: int = 65_535
    seed: int = 1981


class Road(Relay):
    """A road of these manners, and of this client among the peers of its server. It counts what it was given and what it lost."""

    def __init__(self, port, ends, manners, peer=0):
        super().__init__(port, ends)
        self.server, self.manners = ends[0], manners
        self.peers = {peer: ends[1]}
        self.chance, self.count, self.lost = random.Random(manners.seed), 0, 0
        self.late, self.order = [], itertools.count()

    def run(self):
        while not self.is_over:
            wait = max(0, self.late[0][0] - time.monotonic()) if self.late else None
            if select.select([self.socket], [], [], wait)[0]:
                for each, to in self.taken():
                    extra = self.chance.random() * self.manners.jitter
                    heapq.heappush(self.late, (time.monotonic() + self.manners.delay + extra, next(self.order), each, to))
            while self.late and self.late[0][0] <= time.monotonic():
                self.hand_on(*heapq.heappop(self.late)[2:])

    def carries(self, datagram, is_clients):
        """Whether the road takes this datagram at all, which is the client's or the server's."""
        return True

    def passed(self, datagram, port):
        self.count += 1
        manners = self.manners
        is_lost = len(datagram) > manners.most or self.chance.random() < manners.lost
        if is_lost or not self.carries(datagram, port == self.server):
            self.lost += 1
            return []
        if self.chance.random() < manners.flipped and datagram:
            datagram = bytearray(datagram)
            datagram[self.chance.randrange(len(datagram))] ^= 1 << self.chance.randrange(8)
        return [(bytes(datagram), port)] * (2 if self.chance.random() < manners.twice else 1)


@contextlib.contextmanager
def road_before(server, peer=0, make=Road, **manners):
    """A road between a server and one of its peers."""
    (client,) = free_ports(1)
    road = make(server.peers[peer], (server.port, client), Manners(**manners), peer)
    road.start()
    try:
        yield road
    finally:
        road.close()
