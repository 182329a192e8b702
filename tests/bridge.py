"""A bridge between subnets for tests: it speaks CHUDP to any number of hosts, and hands packets on by their destinations.

It knows each host by its address, and hears nobody else. It answers nothing itself.
"""

import collections
import contextlib

from tests.chudp_reference import Fault, decode, encode
from tests.road import Manners, Road
from tests.support import free_ports

RUT, MNT, BRD = 0o10, 0o13, 0o16
MOST_FORWARDED, ONE_FORWARD = 15, 1 << 12
# The host of each subnet that is the bridge, and what a packet to each subnet costs, as its RUT packets report it.
OWN_HOST, COST = 0o10, 10
# A RUT packet goes to each host ahead of the first datagram that comes, and of every 40th behind it.
OFTEN = 40


def subnet_of(address):
    return address >> 8


def own_address(subnet):
    """The bridge's address on a subnet."""
    return subnet << 8 | OWN_HOST


class Bridge(Road):
    """A bridge at a port, to hosts, each with an address and a port. It loses, repeats, reorders and harms by its manners
    what it hands on. `tally` counts what became of what came, each fault by its name, and `trailers` has the hops of each trailer that
    came."""

    def __init__(self, port, manners):
        super().__init__(port, (port, port), manners)
        self.hosts, self.address_at = {}, {}
        self.tally, self.trailers = collections.Counter(), set()

    def add_host(self, address, port):
        """A host is at this port from now on."""
        self.hosts = {**self.hosts, address: port}
        self.address_at = {place: host for host, place in self.hosts.items()}

    def taken(self):
        """The datagrams that are handed on now that one came, with their ports."""
        datagram, (_, port) = self.socket.recvfrom(4_096)
        if port not in self.address_at:
            return []
        routes = [(self.routes(), host) for host in self.hosts] if self.tally["came"] % OFTEN == 0 else []
        self.tally["came"] += 1
        sent = [self.framed(words, host) for words, host in routes + self.routed(datagram, self.address_at[port])]
        return [each for one in sent for each in self.passed(*one)]

    def framed(self, words, host):
        """A packet in CHUDP for a host, and that host's port."""
        self.tally["RUT" if words[0] >> 8 == RUT else "handed on"] += 1
        return encode(words, host, own_address(subnet_of(host))), self.hosts[host]

    def routes(self):
        """The words of a RUT packet: the cost of each subnet."""
        costs = [word for subnet in sorted({subnet_of(host) for host in self.hosts}) for word in (subnet, COST)]
        return [RUT << 8, 2 * len(costs), 0, 0, 0, 0, 0, 0, *costs]

    def routed(self, datagram, sender):
        """The packet of a datagram, forwarded once more, with each host that it is for."""
        try:
            words, to, last = decode(datagram)
        except Fault as fault:
            self.tally[str(fault)] += 1
            return []
        self.trailers.add((to, last))
        if words[1] >> 12 == MOST_FORWARDED:
            self.tally["forwarded too often"] += 1
            return []
        forwarded = [words[0], words[1] + ONE_FORWARD, *words[2:]]
        hosts = self.destinations(words, sender)
        self.tally["for no host"] += not hosts
        return [(forwarded, host) for host in hosts]

    def destinations(self, words, sender):
        """The hosts that a packet is for: of a BRD all but its sender, of another the one that it names."""
        if words[0] >> 8 == BRD:
            return [host for host in self.hosts if host != sender]
        return [words[2]] if words[2] in self.hosts and words[0] >> 8 != RUT else []


@contextlib.contextmanager
def bridging(**manners):
    """A bridge that has no hosts yet."""
    bridge = Bridge(*free_ports(1), Manners(**manners))
    bridge.start()
    try:
        yield bridge
    finally:
        bridge.close()
