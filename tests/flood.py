"""Floods `chaosd serve`, and tests that it answers an honest client meanwhile, in the memory that it had."""

import contextlib
import pathlib
import random
import socket
import struct
import subprocess
import tempfile
import time

from tests.packets import CLS, DATA, LOS, OPN, RFC, STS, datagram, turned
from tests.scripts import FILE_REPLIES, FILE_SCRIPT
from tests.support import CLIENT, DONE, IS_CHECKED, PATIENCE, SERVER, USUAL_WINDOW, Case, Serving, finished, folder, started

# The peer that floods, peers that can't be sent to, and a host that is no peer.
FLOODER, BROADCAST, UNREACHABLE, STRANGER = CLIENT + 1, 0o404, 0o405, 0o500

FLOOD = 65_536
# Datagrams that may wait at the server's socket: fewer than the system has room for.
BURST = 100
# Datagrams of a flood that a server takes in much less than 90 seconds.
PART = 2_048
# Packets that a datagram of version 2 may have.
BUNDLE = 8
# The growth of the server's memory that is still flat, in KiB: less than 4 bytes for each datagram. A program that was compiled with
# checks of its memory touches some 2,200 more, once, with the first datagrams: it keeps the frames of functions that have returned.
FLAT, FLAT_WHERE_CHECKED = 256, 4_096
CONNECTIONS = 16


# Datagrams.


def bundles(datagrams):
    """The packets of all these, in turn, in datagrams of version 2 with as many as each may have."""
    made = []
    for at in range(0, len(datagrams), BUNDLE):
        few = datagrams[at : at + BUNDLE]
        made.append(bytes([0x43, 0x48, 2, len(few)]) + b"".join(each[4:] for each in few))
    return made


def strange_indices():
    """Data for each index, from a peer's address and an index that no connection is with."""
    return [datagram(DATA, (SERVER, index), (FLOODER, 0o1234), index, index, b"data") for index in range(FLOOD)]


def random_bytes(seed):
    """Datagrams of any bytes, mostly short, and of the first bytes of either version of the carriage and then any."""
    chance = random.Random(seed)
    made = []
    for at in range(FLOOD):
        length = 2_100 if at % 4_096 == 0 else chance.randrange(64)
        begin = [b"", b"\x43\x48\x01\x00", b"", bytes([0x43, 0x48, 2, chance.randrange(10)])][at % 4]
        made.append(begin + chance.randbytes(length))
    # None is for the server by chance, or it would be answered.
    return [each for each in made if each[8:10] != struct.pack(">H", SERVER)]


def requests(contact, address):
    """Requests from one address and each of its indices."""
    return [datagram(RFC, (SERVER, 0), (address, index), index, 0, contact) for index in range(FLOOD)]


class Packet:
    """A packet that comes in a datagram of version 1."""

    def __init__(self, received):
        op, count, _, self.for_index, _, self.index, self.num, _ = struct.unpack(">8H", received[4:20])
        self.op = op >> 8
        self.data = turned(received[20:])[: count % 4_096]


class Service(Serving):
    """A server, with the socket of the peer that floods it."""

    def __init__(self, here):
        others = [f"{BROADCAST:o}=255.255.255.255:9", f"{UNREACHABLE:o}=192.0.2.1:9"]
        super().__init__(here, peers=2, options=["--quiet"], others=others)
        self.asked = 0
        # The number of the last packet that the flooder's own connection brought: what it sends acknowledges that.
        self.read = 0
        self.flooder = socket.socket(socket.AF_INET, socket.SOCK_DGRAM)
        self.flooder.bind(("127.0.0.1", self.peers[FLOODER - CLIENT]))
        self.flooder.settimeout(PATIENCE)
        self.flooder.connect(("127.0.0.1", self.port))

    def end(self):
        super().end()
        self.flooder.close()

    def memory(self):
        """How much memory the server has, in KiB."""
        for line in pathlib.Path(f"/proc/{self.process.pid}/status").read_text().splitlines():
            if line.startswith("VmRSS:"):
                return int(line.split()[1])
        return 0

    def growth_problems(self, before):
        """What is wrong where the server has more memory than before."""
        grown = self.memory() - before
        return [f"grown by {grown} KiB from {before}"] if grown > (FLAT_WHERE_CHECKED if IS_CHECKED else FLAT) else []

    def ask(self):
        """Starts an honest client that writes a file of its own and reads it."""
        self.asked += 1
        with tempfile.TemporaryFile() as script:
            script.write(FILE_SCRIPT.replace(b"A.LISP", b"F%d.LISP" % self.asked))
            script.seek(0)
            return started(self.words(), stdin=script, stdout=subprocess.PIPE, stderr=subprocess.PIPE)

    def answered(self, client=None):
        """What is wrong with a client's run, by default with a new one's."""
        return finished(client or self.ask()).problems(DONE, FILE_REPLIES)

    def received(self):
        """The next packet that comes back."""
        return Packet(self.flooder.recv(2_048))

    def flood(self, datagrams, burst=BURST):
        """Sends all of these. Behind each burst goes a question, and its answer is waited for, so that the server has taken
        what went before. Gives what is wrong, and how many packets of each opcode came back."""
        came = {}
        question = datagram(DATA, (SERVER, 0), (FLOODER, 0o177777))
        try:
            for at in range(0, len(datagrams), burst):
                for each in [*datagrams[at : at + burst], question]:
                    self.flooder.send(each)
                while ((answer := self.received()).op, answer.for_index) != (LOS, 0o177777):
                    came[answer.op] = came.get(answer.op, 0) + 1
        except TimeoutError:
            return ["the server doesn't answer"], came
        except ConnectionError:
            return ["the server is gone"], came
        return [], came

    def open_connection(self):
        """A connection of the flooding peer's, from its index 7: the server's index of it."""
        self.flooder.send(datagram(RFC, (SERVER, 0), (FLOODER, 7), 10, 0, b"FILE"))
        while True:
            seen = self.received()
            if (seen.op, seen.for_index) == (OPN, 7):
                self.read = seen.num
                told = struct.pack("<2H", seen.num, USUAL_WINDOW)
                self.flooder.send(datagram(STS, (SERVER, seen.index), (FLOODER, 7), 0, seen.num, told))
                return seen.index

    def is_replied(self, index, num, command):
        """Whether a command over that connection is replied to by the same text. It is sent again where that takes long."""
        end = time.monotonic() + PATIENCE
        while time.monotonic() < end:
            self.flooder.send(datagram(DATA, (SERVER, index), (FLOODER, 7), num, self.read, command))
            self.flooder.settimeout(0.5)
            try:
                for _ in range(1_000):
                    seen = self.received()
                    if (seen.op, seen.for_index, seen.index, seen.data) == (DATA, 7, index, command):
                        self.read = seen.num
                        return True
            except TimeoutError:
                pass
            finally:
                self.flooder.settimeout(PATIENCE)
        return False

    def ended(self):
        """What is wrong where the server doesn't run any more."""
        if self.process.poll() is None:
            return []
        return [f"serve ended with status {self.process.returncode}", repr(self.process.stderr.read())]


@contextlib.contextmanager
def service():
    """Such a server on a folder of its own."""
    with folder() as here:
        server = Service(here)
        try:
            yield server
        finally:
            server.end()


class Flooded(Case):
    """A flood that takes no slot."""

    def check_flood(self, name, datagrams, wanted, burst=BURST):
        """A client asks before, meanwhile and after. So many packets of each opcode have to come back."""
        with service() as server:
            # A second client finds all touched that a service touches once.
            self.check(f"{name}: a client is answered before", server.answered() + server.answered())
            before = server.memory()
            half = len(datagrams) // 2
            problems, came = server.flood(datagrams[:half], burst)
            client = server.ask()
            more, second = server.flood(datagrams[half:], burst)
            self.check(f"{name}: a client is answered meanwhile", server.answered(client))
            came = {op: came.get(op, 0) + second.get(op, 0) for op in {*came, *second}}
            more += [] if came == wanted else [f"came back: {came}"]
            self.check(f"{name}: the server takes all", problems + more)
            self.check(f"{name}: a client is answered behind it", server.answered())
            self.check(f"{name}: the memory stays flat", server.growth_problems(before))
            self.check(f"{name}: the service goes on", server.ended())


class Indices(Flooded):
    """Indices that no connection has: one LOS comes back for each."""

    seconds = 15

    def test_a_service_stands_a_flood_of_strange_indices(self):
        self.check_flood("65,536 strange indices", strange_indices(), {LOS: FLOOD})

    def test_a_service_stands_strange_indices_of_which_a_datagram_has_eight(self):
        # Each packet of a datagram is answered, and the answers to a burst have to find room here.
        few = BURST // BUNDLE
        self.check_flood("65,536 strange indices, 8 to a datagram", bundles(strange_indices()), {LOS: FLOOD}, few)


class Requests(Flooded):
    """Requests for a service that isn't there: one CLS comes back for each of a peer's, and nothing for a stranger's."""

    seconds = 15

    def test_a_service_stands_requests_of_strangers(self):
        self.check_flood("65,536 requests of strangers", requests(b"NONE", STRANGER), {})

    def test_a_service_stands_requests_of_strangers_of_which_a_datagram_has_eight(self):
        self.check_flood("65,536 requests of strangers, 8 to a datagram", bundles(requests(b"NONE", STRANGER)), {})

    def test_a_service_stands_requests_of_a_peer(self):
        self.check_flood("65,536 requests of a peer", requests(b"NONE", FLOODER), {CLS: FLOOD})


class Rubbish(Flooded):
    """Datagrams that are none: nothing comes back."""

    seconds = 10

    def test_a_service_stands_random_bytes(self):
        seed = time.time_ns() % 1_000_000
        self.check_flood(f"65,536 datagrams of random bytes, seed {seed}", random_bytes(seed), {})


class Slots(Case):
    """Floods that take slots, or go to peers that can't be sent to."""

    seconds = 60

    def test_a_connection_is_served_where_requests_take_all_other_slots(self):
        name = "65,536 requests of strangers for FILE"
        made = requests(b"FILE", STRANGER)
        with service() as server:
            self.check(f"{name}: a client is answered before", server.answered())
            index = server.open_connection()
            is_replied = server.is_replied(index, 11, b"T1  LOGIN LISPM")
            self.check(f"{name}: a connection is there", [] if is_replied else ["no reply to the first LOGIN"])
            problems, _ = server.flood(made[: 4 * CONNECTIONS])
            before, unserved = server.memory(), []
            # A peer that says nothing for 90 seconds is given up: this one asks behind each part of the flood.
            for n in range(FLOOD // PART):
                problems += server.flood(made[n * PART : (n + 1) * PART])[0]
                is_replied = server.is_replied(index, 12 + n, b"T%d  LOGIN LISPM" % (2 + n))
                unserved += [] if is_replied else [f"no reply to the LOGIN behind part {n + 1}"]
            self.check(f"{name}: the server takes all", problems)
            self.check(f"{name}: the connection is served", unserved)
            self.check(f"{name}: the memory stays flat", server.growth_problems(before))
            self.check(f"{name}: the service goes on", server.ended())

    def test_packets_for_peers_that_can_not_be_sent_to_are_lost_and_no_more(self):
        for name, address in [("255.255.255.255", BROADCAST), ("an address without a route", UNREACHABLE)]:
            with service() as server:
                made = [datagram(DATA, (SERVER, index), (address, 7), 0, 0, b"data") for index in range(100)]
                made.append(datagram(RFC, (SERVER, 0), (address, 7), 0, 0, b"FILE"))
                problems = server.answered()
                problems += server.flood(made)[0]
                self.check(f"a peer at {name} doesn't end the service", problems + server.answered() + server.ended())
