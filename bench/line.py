"""A line between two hosts that hands each packet on a while later, and loses a share of them. A line may have a rate and a queue.

Two network namespaces of Linux have a tun device each, and a relay in Python carries packets from one device to the other. All programs
of the benches run over it. Where the machine has no such devices, or the user may make none, a relay of UDP datagrams takes its place.
It carries chaosd alone: TCP has to see each packet itself, so curl and scp need the devices.
"""

import collections
import contextlib
import dataclasses
import fcntl
import itertools
import os
import pathlib
import random
import select
import shutil
import socket
import struct
import subprocess
import sys
import threading
import time

HERE = pathlib.Path(__file__).resolve()

# the addresses of a line with devices, and the most packets that wait for a device: more than a file of 1 MiB has
CLIENT, SERVER, NETWORK, WAITING = "10.81.0.1", "10.81.0.2", "10.81.0.0/24", "10000"
# how TCP's windows grow: Linux's own choice, whatever this machine has set
CONTROL = "cubic"
CONTROLS = pathlib.Path("/proc/sys/net/ipv4/tcp_available_congestion_control")
# the relay and both ends go before what else the machine does: the line alone is to be late
FIRST = ["nice", "-n", "-20"]
# the bytes of the headers of IP and UDP, which a line with a rate also carries
HEADERS = 28
TUN, TUNSETIFF, IFF_TUN, IFF_NO_PI = "/dev/net/tun", 0x400454CA, 0x0001, 0x1000

NUMBERS = itertools.count()


def free_ports(count):
    """Ports of 127.0.0.1 that nobody has."""
    sockets = [socket.socket(socket.AF_INET, socket.SOCK_DGRAM) for _ in range(count)]
    for each in sockets:
        each.bind(("127.0.0.1", 0))
    ports = [each.getsockname()[1] for each in sockets]
    for each in sockets:
        each.close()
    return ports


@dataclasses.dataclass(frozen=True)
class Manners:
    """How a line carries each way: the seconds that a packet takes, the share that is lost by a seed, the bytes a second (or 0 where no
    rate bounds the line), and the packets that wait at most for their turn."""

    delay: float = 0.0
    lost: float = 0.0
    seed: int = 1981
    rate: int = 0
    queue: int = 1_000

    def words(self):
        return [str(value) for value in dataclasses.astuple(self)]

    @classmethod
    def of_words(cls, words):
        return cls(float(words[0]), float(words[1]), *map(int, words[2:]))


class Way:
    """One direction of a line. A packet goes when those before it have gone, and takes its time then. A packet that finds the queue full
    is lost."""

    def __init__(self, manners, seed):
        self.manners, self.chance = manners, random.Random(seed)
        self.packets, self.waiting = collections.deque(), collections.deque()
        self.count = self.overflown = 0

    def put(self, packet, size):
        self.count += 1
        now, manners = time.monotonic(), self.manners
        if self.chance.random() < manners.lost:
            return
        goes = now
        if manners.rate:
            while self.waiting and self.waiting[0] <= now:
                self.waiting.popleft()
            if len(self.waiting) >= manners.queue:
                self.overflown += 1
                return
            goes = (self.waiting[-1] if self.waiting else now) + size / manners.rate
            self.waiting.append(goes)
        self.packets.append((goes + manners.delay, packet))

    def wait(self):
        """The seconds until the next packet is there, or None."""
        return max(0, self.packets[0][0] - time.monotonic()) if self.packets else None

    def there(self):
        """Each packet that is there by now."""
        while self.packets and self.packets[0][0] <= time.monotonic():
            yield self.packets.popleft()[1]


class Ways:
    """Both directions of a line, by what names their origin."""

    def __init__(self, manners, origins):
        self.ways = {origin: Way(manners, f"{manners.seed} {number}") for number, origin in enumerate(origins)}

    def wait(self):
        return min((it for it in (way.wait() for way in self.ways.values()) if it is not None), default=None)

    def there(self):
        for way in self.ways.values():
            yield from way.there()


def relay_of_devices(ends, manners):
    """Carries the packets of version 4 between two tun devices, until it is killed."""
    ways, other = Ways(manners, ends), {ends[0]: ends[1], ends[1]: ends[0]}
    while True:
        for end in select.select(ends, [], [], ways.wait())[0]:
            packet = os.read(end, 2_048)
            if packet[0] >> 4 == 4:
                ways.ways[end].put((packet, other[end]), len(packet))
        for packet, end in ways.there():
            os.write(end, packet)


class RelayOfDatagrams(threading.Thread):
    """Carries UDP datagrams between two ports of 127.0.0.1, until its socket is closed. It keeps each with its moment and its origin."""

    def __init__(self, ends, manners):
        super().__init__(daemon=True)
        self.ways, self.other = Ways(manners, ends), {ends[0]: ends[1], ends[1]: ends[0]}
        self.socket = socket.socket(socket.AF_INET, socket.SOCK_DGRAM)
        self.socket.bind(("127.0.0.1", 0))
        self.port = self.socket.getsockname()[1]
        self.carried = []

    def run(self):
        with contextlib.suppress(OSError, ValueError):
            while True:
                if select.select([self.socket], [], [], self.ways.wait())[0]:
                    datagram, (_, port) = self.socket.recvfrom(2_048)
                    if port in self.other:
                        self.carried.append((time.monotonic(), port, datagram))
                        self.ways.ways[port].put((datagram, self.other[port]), len(datagram) + HEADERS)
                for datagram, port in self.ways.there():
                    self.socket.sendto(datagram, ("127.0.0.1", port))


class Place:
    """Where a server and its client run: what stands before the words of each, where each receives, and where the other sees it."""

    def __init__(self, host="127.0.0.1", at_server=(), at_client=()):
        self.host, self.at_server, self.at_client = host, list(at_server), list(at_client)
        # each datagram that a relay of datagrams carried: its moment, the port of its origin, and its bytes
        self.carried = []
        if at_server:
            self.server = self.seen_server = f"{SERVER}:9001"
            self.client = self.seen_client = f"{CLIENT}:9002"
            self.port = 9003
        else:
            server, client, self.port = free_ports(3)
            self.server = self.seen_server = f"{host}:{server}"
            self.client = self.seen_client = f"{host}:{client}"


def run(*words):
    subprocess.run(words, check=True, stdout=subprocess.DEVNULL, stderr=subprocess.PIPE)


def device(space, name, address, control):
    """A tun device in a namespace, as its open file."""
    end = os.open(TUN, os.O_RDWR)
    fcntl.ioctl(end, TUNSETIFF, struct.pack("16sH", name.encode(), IFF_TUN | IFF_NO_PI))
    run("ip", "link", "set", name, "netns", space)
    run("ip", "-n", space, "addr", "add", f"{address}/24", "dev", name)
    run("ip", "-n", space, "link", "set", name, "up", "txqueuelen", WAITING)
    run("ip", "-n", space, "link", "set", "lo", "up")
    run("ip", "-n", space, "route", "replace", NETWORK, "dev", name, "src", address, "congctl", control)
    return end


@contextlib.contextmanager
def of_devices(manners, control=CONTROL):
    """A line between two namespaces, which are gone at the end."""
    name = f"chaosd{os.getpid()}n{next(NUMBERS)}"
    spaces, ends, relay = [f"{name}{side}" for side in "cs"], [], None
    try:
        for space, address in zip(spaces, [CLIENT, SERVER]):
            run("ip", "netns", "add", space)
            ends.append(device(space, f"ct{space[-10:]}", address, control))
        words = [*FIRST, sys.executable, HERE, *ends, *manners.words()]
        relay = subprocess.Popen(list(map(str, words)), pass_fds=ends)
        prefixes = [["ip", "netns", "exec", space, *FIRST] for space in reversed(spaces)]
        yield Place(SERVER, *prefixes)
    finally:
        if relay:
            relay.kill()
            relay.wait()
        for end in ends:
            os.close(end)
        for space in spaces:
            subprocess.run(["ip", "netns", "del", space], stderr=subprocess.DEVNULL)


@contextlib.contextmanager
def of_datagrams(manners, _control=CONTROL):
    """A relay between two ports, for chaosd alone."""
    place = Place()
    ports = [int(socket.rpartition(":")[2]) for socket in [place.server, place.client]]
    relay = RelayOfDatagrams(ports, manners)
    relay.start()
    place.seen_server = place.seen_client = f"127.0.0.1:{relay.port}"
    place.carried = relay.carried
    try:
        yield place
    finally:
        relay.socket.close()


def why_no_devices():
    """Why this machine has no line of devices, or None where it has one."""
    if not shutil.which("ip"):
        return "iproute2 isn't installed"
    try:
        with of_devices(Manners()):
            return None
    except (OSError, subprocess.CalledProcessError) as fault:
        told = getattr(fault, "stderr", None)
        return told.decode().strip() if told else str(fault)


def main():
    first, second, *words = sys.argv[1:]
    relay_of_devices([int(first), int(second)], Manners.of_words(words))


if __name__ == "__main__":
    main()
