"""Tests `chaosd` over roads that are slow, lose, and refuse long datagrams, and beside others who send to its socket."""

import contextlib
import re
import socket
import subprocess
import threading
import time

from tests.copying import LOSSES, copied, copying
from tests.packets import DATA
from tests.road import Road, road_before
from tests.scripts import NO_REPLY
from tests.support import (
    DONE, FILE_LIMIT, LONG, REFUSED,
    Case, at, finished, folder, free_ports, mixed_content, serving, started, stored_problems,
)  # fmt: skip


class Slow(Case):
    """Roads on which a round trip takes longer than the two seconds after which a client asks from another index."""

    seconds = 200

    def test_files_are_got_and_put_where_a_datagram_takes_a_second_or_ten(self):
        content = mixed_content(2_000)
        with folder() as here, contextlib.ExitStack() as stack:
            running = []
            for delay in [1.1, 10]:
                for subcommand in ["get", "put"]:
                    server = stack.enter_context(serving())
                    road = stack.enter_context(road_before(server, delay=delay))
                    (name := here / f"{subcommand}{delay}").mkdir()
                    source, target = (name, server.folder) if subcommand == "put" else (server.folder, name)
                    (source / "F").write_bytes(content)
                    running.append((f"{subcommand}, {delay} s each way", copying(road, subcommand, "F", options=["--timeout", "120"], cwd=name), target))
            for name, process, target in running:
                problems = finished(process, patience=LONG).problems(DONE, b"", b"")
                self.check(name, problems or stored_problems(target / "F", content))


class Deaf(Road):
    """A road that falls silent towards one end once it has carried so much, until the other end has sent one item so many times. It notes
    when each of these came. It carries enough before that a slow first round trip counts no more."""

    CARRIED, TIMES = 400, 4

    def begin(self, is_clients):
        """What the client sends again is noted, or what the server does."""
        self.notes, self.moments = is_clients, {}
        self.is_deaf = False

    def carries(self, datagram, is_clients):
        if max(map(len, self.moments.values()), default=0) >= self.TIMES:
            return True
        self.is_deaf = self.is_deaf or self.count > self.CARRIED
        if is_clients == self.notes and datagram[4:5] >= bytes([DATA]) and self.is_deaf:
            self.moments.setdefault(datagram[8:18], []).append(time.monotonic())
        return not self.is_deaf or is_clients == self.notes

    def waits(self):
        """The seconds between an item and the same again, each time, where one was sent so often."""
        noted = max(self.moments.values(), key=len, default=[])
        return [b - a for a, b in zip(noted, noted[1:])] if len(noted) >= self.TIMES else []


# How long a machine may be too busy to measure a round trip, in seconds.
BUSY = 1_800


class Again(Case):
    """How soon an end sends again what isn't acknowledged. A put's client and a get's server measure that alike."""

    seconds = 20

    def wait_problems(self, subcommand, delay):
        """What is wrong with a copy, or with the waits of the end that sends the file."""
        content, names_client = mixed_content(120_000), subcommand == "put"
        # few packets are on their way at a time, so that none waits for many others
        few = ["--window", "4"]
        with serving(options=few) as server, road_before(server, make=Deaf, delay=delay) as road, folder() as here:
            road.begin(names_client)
            source, target = (here, server.folder) if names_client else (server.folder, here)
            (source / "F").write_bytes(content)
            problems = copied(road, subcommand, "F", options=[*few, "--timeout", "600"], cwd=here).problems(DONE, b"", b"")
            problems, waits = problems or stored_problems(target / "F", content), road.waits()
        is_soon = waits and waits[0] < 0.3
        # the first wait runs from a receipt, and not from the item; each end looks at its clock every 10 milliseconds
        is_doubled = all(1.5 < b / a < 3 for a, b in zip(waits[1:], waits[2:]))
        return problems + ([] if is_soon and is_doubled else [f"it was sent again after {waits} s"])

    def check_wait(self, subcommand, delay):
        """Where the machine is slow for a while, a round trip is measured as longer than it is: so it is tried again then."""
        begun, problems = time.monotonic(), ["it wasn't tried"]
        while problems and time.monotonic() < begun + BUSY:
            problems = self.wait_problems(subcommand, delay)
        whose = "client" if subcommand == "put" else "server"
        self.check(f"{delay * 1_000:.0f} ms each way: the {whose} sends again soon, not after half a second, and then waits twice as long", problems)

    def test_a_client_that_puts_measures_the_round_trip(self):
        for delay in [0.005, 0.02]:
            self.check_wait("put", delay)

    def test_a_server_that_is_read_measures_the_round_trip(self):
        for delay in [0.005, 0.02]:
            self.check_wait("get", delay)


class Counting(Road):
    """A road that counts the items that it carries, and those among them that it had carried before."""

    def begin(self):
        self.items, self.again = set(), 0

    def carries(self, datagram, is_clients):
        if datagram[4:5] >= bytes([DATA]):
            self.again += datagram[8:18] in self.items
            self.items.add(datagram[8:18])
        return True


class Twice(Case):
    """Roads that only delay. There each packet goes once."""

    seconds = 45

    def copy_problems(self, subcommand, delay, window):
        """What is wrong with a copy, or how many of its items went again."""
        content = mixed_content(120_000)
        with serving(options=["--window", str(window)]) as server, road_before(server, make=Counting, delay=delay) as road, folder() as here:
            road.begin()
            source, target = (here, server.folder) if subcommand == "put" else (server.folder, here)
            (source / "F").write_bytes(content)
            problems = copied(road, subcommand, "F", options=["--timeout", "600"], cwd=here).problems(DONE, b"", b"")
            problems = problems or stored_problems(target / "F", content)
        return problems + ([f"{road.again} of {len(road.items)} items went again"] if 100 * road.again > len(road.items) else [])

    def test_at_most_one_item_in_a_hundred_goes_twice(self):
        """On a machine that is busy for a while a road holds packets for longer than it should: so it is tried again then."""
        for delay, window in [(0.005, 1), (0.005, 2), (0.005, 64), (0.3, 64)]:
            for subcommand in ["put", "get"]:
                begun, problems = time.monotonic(), ["it wasn't tried"]
                while problems and time.monotonic() < begun + BUSY:
                    problems = self.copy_problems(subcommand, delay, window)
                self.check(f"{subcommand}, window {window}, {delay * 1_000:.0f} ms each way", problems)


class RoundTrips(Case):
    """How many round trips an operation on a short file takes. The first one opens the connection, and the last one ends it."""

    seconds = 20

    DELAY = 0.5

    def trips_problems(self, trips, subcommand, *names):
        """What is wrong with an operation, or how long it took where that is a round trip more than so many."""
        with serving() as server, road_before(server, delay=self.DELAY) as road, folder() as here:
            for place in [server.folder, here]:
                (place / "F").write_bytes(b"abc")
            begun = time.monotonic()
            ended, took = copied(road, subcommand, *names, cwd=here), time.monotonic() - begun
        return ended.problems(DONE, b"", b"") + ([] if took < 2 * self.DELAY * (trips + 1) else [f"it took {took:.1f} s"])

    def test_a_copy_takes_four_and_a_change_three(self):
        """On a machine that is busy for a while everything takes longer: so it is tried again then."""
        for trips, *words in [(4, "put", "F"), (4, "get", "F"), (3, "rename", "F", "G"), (3, "delete", "F")]:
            begun, problems = time.monotonic(), ["it wasn't tried"]
            while problems and time.monotonic() < begun + BUSY:
                problems = self.trips_problems(trips, *words)
            self.check(f"{words[0]} in {trips} round trips of {2 * self.DELAY:.0f} s", problems)


class Losing(Case):
    """Roads that lose one datagram in a hundred. `make bench-lines` times them."""

    seconds = 60

    def test_a_mebibyte_goes_both_ways_whole(self):
        content = mixed_content(FILE_LIMIT)
        for delay in [0.005, 0.02]:
            with serving(options=["--window", "64"]) as server, folder() as here:
                for subcommand, source, target in [("put", here, server.folder), ("get", server.folder, here)]:
                    (source / "F").write_bytes(content)
                    (target / "F").unlink(missing_ok=True)
                    with road_before(server, delay=delay, lost=0.01) as road:
                        # on a busy machine the road may hold packets for longer than a reply is usually waited for
                        ended = copied(road, subcommand, "F", options=["--timeout", "600", "--verbose"], cwd=here)
                    problems = ended.problems(DONE, b"", [b"F 1048576 bytes, "]) or stored_problems(target / "F", content)
                    problems += [] if re.search(LOSSES, ended.err) else [f"it reports no loss: {ended.err!r}"]
                    problems += [] if road.lost > 10 else [f"of {road.count} datagrams {road.lost} were lost"]
                    self.check(f"{subcommand}, {delay * 1_000:.0f} ms each way, 1% lost", problems)


class Measuring(Road):
    """A road that notes how long the longest datagram was."""

    longest = 0

    def carries(self, datagram, is_clients):
        self.longest = max(self.longest, len(datagram))
        return True


class Bundles(Case):
    """Roads that drop long datagrams: those of more than 1,400 bytes, as some firewalls do, and those that go in fragments."""

    seconds = 40

    def test_files_go_by_carriage_2_where_long_datagrams_are_dropped(self):
        content = mixed_content(40_000)
        for subcommand in ["put", "get"]:
            with serving(options=["--carriage", "2"]) as server, folder() as here:
                source, target = (here, server.folder) if subcommand == "put" else (server.folder, here)
                (source / "F").write_bytes(content)
                with road_before(server, most=1_400, lost=0.02) as road:
                    ended = copied(road, subcommand, "F", options=["--carriage", "2", "--timeout", "60"], cwd=here)
                problems = ended.problems(DONE, b"", b"") or stored_problems(target / "F", content)
                problems += [] if road.lost else ["nothing was lost"]
                self.check(f"{subcommand} --carriage 2 where datagrams of more than 1,400 bytes are dropped", problems)

    def test_carriage_2_sends_several_packets_at_once_and_no_fragments(self):
        """An Ethernet frame of 1,500 bytes carries 1,472 behind 20 of IP and 8 of UDP."""
        content = mixed_content(40_000)
        for subcommand in ["put", "get"]:
            with serving(options=["--carriage", "2"]) as server, folder() as here:
                source, target = (here, server.folder) if subcommand == "put" else (server.folder, here)
                (source / "F").write_bytes(content)
                with road_before(server, make=Measuring, most=1_472) as road:
                    ended = copied(road, subcommand, "F", options=["--carriage", "2"], cwd=here)
                problems = ended.problems(DONE, b"", b"") or stored_problems(target / "F", content)
                problems += [f"{road.lost} datagrams were longer than 1,472 bytes"] if road.lost else []
                problems += [] if road.longest > 2 * 508 else [f"the longest datagram had {road.longest} bytes"]
                self.check(f"{subcommand} --carriage 2 where fragments are dropped", problems)


class Junk(threading.Thread):
    """Sends what is no packet to a port, thousands of times a second, from a server's own socket and from another."""

    def __init__(self, own, port):
        super().__init__(daemon=True)
        self.own, self.to, self.is_over = own, ("127.0.0.1", port), threading.Event()

    def run(self):
        with socket.socket(socket.AF_INET, socket.SOCK_DGRAM) as other:
            while not self.is_over.wait(0.002):
                for each in [self.own, other] * 16:
                    each.sendto(b"junk", self.to)

    def end(self):
        self.is_over.set()
        self.join()


class OneWay(Road):
    """A road that loses all that the client sends for a while, once it has carried so much. What the server sends arrives."""

    CARRIED, SILENT = 100, 25

    since = None

    def carries(self, datagram, is_clients):
        if self.since is None and self.count > self.CARRIED:
            self.since = time.monotonic()
        return not is_clients or self.since is None or time.monotonic() - self.since > self.SILENT


class Timeouts(Case):
    """A reply is waited for as long as the option says, whatever else comes."""

    seconds = 40

    def check_beside_junk(self, name, words, given, out, told):
        own, port = free_ports(2)
        with socket.socket(socket.AF_INET, socket.SOCK_DGRAM) as silent:
            silent.bind(("127.0.0.1", port))
            junk = Junk(silent, own)
            junk.start()
            begun = time.monotonic()
            line = [word.format(own=at(own), server=at(port)) for word in words]
            process = started(line, stdin=subprocess.PIPE, stdout=subprocess.PIPE, stderr=subprocess.PIPE)
            ended, took = finished(process, given), time.monotonic() - begun
            junk.end()
        problems = ended.problems(REFUSED, out, [told]) + ([] if took >= 5 else [f"it waited for {took:.1f} s"])
        self.check(f"{name} --timeout 5 beside thousands of datagrams a second that are no packets", problems)

    def test_junk_does_not_end_a_wait(self):
        told = b"no connection opened in "
        words = ["--timeout", "5", "402", "{own}"]
        self.check_beside_junk("ask", ["ask", *words, "401", "401={server}"], b"T1  LOGIN LISPM\n", NO_REPLY, told)
        self.check_beside_junk("get", ["get", *words, "401={server}", "A"], b"", b"", told)

    def test_what_a_server_sends_again_does_not_end_a_wait(self):
        content = mixed_content(100_000)
        with serving(options=["--window", "64"]) as server, road_before(server, make=OneWay) as road, folder() as here:
            (server.folder / "F").write_bytes(content)
            problems = copied(road, "get", "F", options=["--timeout", "120"], cwd=here).problems(DONE, b"", b"")
            problems = problems or stored_problems(here / "F", content)
            problems += [] if road.since else ["nothing was lost"]
        self.check("get --timeout 120, whose own datagrams are lost for 25 s while the server's arrive", problems)
