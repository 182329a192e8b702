"""Tests that whoever stands on the way gets nothing of hosts that have a key: each attack does its harm in clear, and nothing under seal.

The attacker hears everything, changes and keeps back everything, and sends in everybody's name. He has every key but that of the two hosts.
"""

import contextlib
import select
import socket
import subprocess
import time

from tests.copying import copied, left_problems
from tests.packets import CLS, DATA, LOS, OPN, RFC, SNS, Peer, datagram, turned
from tests.road import road_before
from tests.seal_reference import HEAD_BYTES, SEAL_BYTES, TAG_BYTES, head_of, is_sealed, payload_of, sealed
from tests.sealed import calm
from tests.sealing import called, sealed_serving
from tests.support import (
    CLIENT, DONE, FOR_LONG, PATIENCE, REFUSED, SERVER,
    Case, Relay, at, folder, line_of, mixed_content, network_before, started, stored_problems,
)  # fmt: skip

FALSE_KEY = bytes(range(1, 33))
NO_SERVER = b"No server for this contact name."
PLAIN, STRANGER = 0o403, 0o777
READ = b" READ\x8d"


@contextlib.contextmanager
def attacked(make, is_sealed=True):
    """A server, and an attacker between it and host 402."""
    with sealed_serving(is_sealed) as server, network_before(server, make) as network:
        network.server = server.port
        yield server, network


# What an attacker makes of a datagram.


def inside(one):
    """The datagram in a seal, or the datagram itself where it is in clear."""
    return payload_of(one) if is_sealed(one) else one


def text_of(one):
    """The data bytes of the packet in a datagram, sealed or not."""
    packet = inside(one)
    return turned(packet[20:])[: int.from_bytes(packet[6:8], "big") & 0xFFF]


def with_text(one, text):
    """The datagram in a seal with other data bytes, as many as before."""
    packet = inside(one)
    return packet[:20] + turned(text + turned(packet[20:])[len(text) :])


def forgeries(one, packet):
    """What an attacker sends in the name of who sent this: a packet in clear; or where it is sealed, the packet in clear, under the seal of the
    other, and under a seal of his own, of this counter and of a later one."""
    if not is_sealed(one):
        return [packet]
    head = head_of(one)
    later = head._replace(counter=head.counter + 1_000)
    return [packet, one[:HEAD_BYTES] + packet + one[-TAG_BYTES:], *(sealed(FALSE_KEY, each, packet) for each in (head, later))]


def unharmed_problems(ended):
    """What is wrong with a call that does all its work under attack: a client may report that it refused a datagram."""
    other = [line for line in calm(ended).err.splitlines() if not line.startswith(b"chaosd: refused a datagram of ")]
    return ended.problems(DONE, b"") + [f"it reports {line}" for line in other]


# A bit that flips.


class Turning(Relay):
    """Turns the path FILE1 of a command into FILE3, by one bit, the first so many times."""

    left = 0

    def passed(self, one, port):
        found = text_of(one).find(b"FILE1") if port == self.server else -1
        if found < 0 or not self.left:
            return [(one, port)]
        self.left -= 1
        byte = (HEAD_BYTES if is_sealed(one) else 0) + 20 + ((found + 4) ^ 1)
        return [(one[:byte] + bytes([one[byte] ^ 2]) + one[byte + 1 :], port)]


def turning(times):
    def make(port, ends):
        network = Turning(port, ends)
        network.left = times
        return network

    return make


class Marring(Relay):
    """Turns an A of a file that the server gives into @, by one bit, once."""

    is_done = False

    def passed(self, one, port):
        found = one.find(b"AAAA") if port != self.server and not self.is_done else -1
        if found < 0:
            return [(one, port)]
        self.is_done = True
        return [(one[:found] + b"@" + one[found + 1 :], port)]


class Bits(Case):
    """Bits that flip on the way."""

    seconds = 60

    def left_after(self, is_sealed, times, options):
        """How a `delete FILE1` ended whose first commands say FILE3, and the files that are left."""
        with attacked(turning(times), is_sealed) as (server, network):
            for name in ("FILE1", "FILE2", "FILE3"):
                (server.folder / name).write_bytes(b"(A)")
            ended = called(server, network, "delete", "FILE1", options=options)
            left = sorted(each.name for each in server.folder.iterdir() if not each.name.startswith("."))
        return ended, left

    def test_one_flipped_bit_never_deletes_another_file(self):
        rows = [
            ("in clear another file is deleted, with status 0", False, 1, FOR_LONG, DONE, ["FILE1", "FILE2"]),
            ("under seal the file is deleted once the command comes whole", True, 3, FOR_LONG, DONE, ["FILE2", "FILE3"]),
            ("under seal none is deleted where it never does", True, 1_000_000, ["--timeout", "3"], REFUSED, ["FILE1", "FILE2", "FILE3"]),
        ]
        for name, has_keys, times, options, status, wanted in rows:
            ended, left = self.left_after(has_keys, times, options)
            self.check(name, ended.problems(status) + ([] if left == wanted else [f"{left} are left"]))

    def test_one_flipped_bit_in_clear_gives_a_wrong_file(self):
        with attacked(Marring, False) as (server, network), folder() as here:
            (server.folder / "F").write_bytes(b"A" * 64)
            ended = called(server, network, "get", "F", options=FOR_LONG, cwd=here)
            got = (here / "F").read_bytes()
        wrong = [] if got.count(b"@") == 1 and got.replace(b"@", b"A") == b"A" * 64 else [repr(got)]
        self.check("in clear a get has one wrong byte, with status 0", ended.problems(DONE) + wrong)

    def test_files_come_whole_where_any_bit_flips(self):
        """One bit of one datagram in 25."""
        contents = {f"F{number}": mixed_content(20_000 + number) for number in range(12)}
        with sealed_serving(options=["--retransmit", "50"]) as server, folder() as here:
            for name, content in contents.items():
                (here / name).write_bytes(content)
            for subcommand, target in [("put", server.folder), ("get", here)]:
                with road_before(server, flipped=0.04) as road:
                    problems = unharmed_problems(called(server, road, subcommand, *contents, options=["--timeout", "600"], cwd=here))
                for name, content in contents.items():
                    problems += stored_problems(target / name, content)
                self.check(f"{subcommand} of {len(contents)} files under seal", problems + left_problems(target))


# Bytes of another in a `get`.


class Answering(Relay):
    """Answers in the server's name before each of its datagrams, with another last byte in what is read. The server's own may be kept back."""

    keeps = False

    def passed(self, one, port):
        text = text_of(one)
        if port == self.server or READ not in text[:20]:
            return [(one, port)]
        false = with_text(one, text[:-1] + bytes([text[-1] ^ 1]))
        return [(each, port) for each in forgeries(one, false)] + ([] if self.keeps else [(one, port)])


class Keeping(Answering):
    keeps = True


class Opening(Relay):
    """Opens in the server's name each connection that a client asks for."""

    def passed(self, one, port):
        if port != self.server or inside(one)[4:5] != bytes([RFC]):
            return [(one, port)]
        index, number = (int.from_bytes(inside(one)[place : place + 2], "big") for place in (14, 16))
        opened = datagram(OPN, (CLIENT, index), (SERVER, 0o7777), 7, number, number.to_bytes(2, "little") + b"\x0d\x00")
        under_seal = sealed(FALSE_KEY, head_of(one)._replace(to=CLIENT, sender=SERVER), opened)
        return [(opened, self.other[port]), (under_seal, self.other[port]), (one, port)]


class Gets(Case):
    """What a `get` takes."""

    seconds = 40

    def got(self, make, is_sealed, options):
        """How a `get` of 2,000 bytes ended, what is wrong with the file, and whether it is there."""
        content = mixed_content(2_000)
        with attacked(make, is_sealed) as (server, network), folder() as here:
            (server.folder / "F").write_bytes(content)
            ended = called(server, network, "get", "F", options=options, cwd=here)
            return ended, stored_problems(here / "F", content), (here / "F").exists()

    def test_no_byte_of_another_comes_into_a_get(self):
        ended, wrong, _ = self.got(Answering, False, FOR_LONG)
        self.check("in clear a forged reply gives a wrong file, with status 0", ended.problems(DONE) + ([] if wrong else ["it is right"]))
        ended, wrong, _ = self.got(Answering, True, FOR_LONG)
        self.check("under seal the file is the server's", unharmed_problems(ended) + wrong)
        ended, _, is_there = self.got(Keeping, True, ["--timeout", "3"])
        self.check("and there is none where the server's replies are kept back", ended.problems(REFUSED) + (["it is there"] if is_there else []))
        ended, wrong, _ = self.got(Opening, True, FOR_LONG)
        self.check("under seal a forged OPN opens nothing", unharmed_problems(ended) + wrong)


# Requests in the name of another, and what they draw.


class Elsewhere:
    """A socket, and what comes to it. It may be at the UDP address of a host, as one who forges that."""

    def __init__(self, server, port=0):
        self.socket = socket.socket(socket.AF_INET, socket.SOCK_DGRAM)
        self.socket.bind(("127.0.0.1", port))
        self.server, self.sent = ("127.0.0.1", server.port), 0

    def send(self, one):
        self.socket.sendto(one, self.server)
        self.sent += len(one)

    def received(self):
        """What came by now."""
        found = []
        while select.select([self.socket], [], [], 0)[0]:
            found.append(self.socket.recv(4_096))
        return found

    def close(self):
        self.socket.close()


class Waiting(Peer):
    """Host 403, which has no key: once it has an answer, all that came to the server before was taken."""

    def __init__(self, server):
        super().__init__(server, 1)
        self.index = 0o1000

    def wait(self):
        """What is wrong with the answer to a request of a new index."""
        self.index += 1
        self.send(RFC, (SERVER, 0), (PLAIN, self.index), 7, 0, b"NONE")
        return self.problems("the answer to host 403", CLS, (PLAIN, self.index), (SERVER, 0), 0, 0, NO_SERVER)


@contextlib.contextmanager
def victim_of(server):
    """Host 402's UDP address in an attacker's hands, and host 403."""
    with contextlib.closing(Elsewhere(server, server.peers[0])) as attacker, contextlib.closing(Waiting(server)) as waiting:
        yield attacker, waiting


def requests(index):
    """What asks for a connection and for a file in the name of host 402: in clear, and under keys that aren't its."""
    host, me = (SERVER, 0), (CLIENT, index)
    packets = [datagram(RFC, host, me, 5, 0, b"FILE"), datagram(RFC, host, me, 5, 0, b"NONE"), datagram(SNS, (SERVER, 1), me)]
    packets += [datagram(DATA, (SERVER, 1), me, 6, 0, b"T1  LOGIN M"), datagram(DATA, (SERVER, 1), me, 6, 0, b"T1  DELETE\x8dF")]
    text = sealed(FALSE_KEY, (SERVER, CLIENT, 2**63, 0, index), packets[0])
    return [*packets, text, text[:-TAG_BYTES] + bytes(TAG_BYTES), b"CH\x02\x02" + packets[0][4:] + packets[3][4:]]


class Requests(Case):
    """Requests that are forged."""

    seconds = 20

    def test_forged_requests_draw_nothing(self):
        for has_keys in (False, True):
            with sealed_serving(has_keys) as server, victim_of(server) as (attacker, waiting):
                problems = []
                for index in range(1, 21):
                    for one in requests(index):
                        attacker.send(one)
                    problems += waiting.wait()
                came = attacker.received()
            opened = server.logged(b"402 opens connection")
            if has_keys:
                name = "under seal forged requests draw no byte, and open no connection"
                problems += [f"{len(came)} datagrams came"] * bool(came) + [f"{line}" for line in opened]
            else:
                name = "in clear they draw answers, and open connections"
                problems += [] if came and opened else [f"{len(came)} datagrams came, and {len(opened)} connections opened"]
            self.check(name, problems)

    def test_a_stranger_in_clear_is_not_heard(self):
        """He gives a Chaosnet address that no host of the table has, and hears no answer. Of the server's first index he tries each generation."""
        me, host, tried = (STRANGER, 1), (SERVER, 0), [(SERVER, index) for index in range(1, 65_536, 256)]
        blind = [[datagram(RFC, host, me, 5, 0, b"FILE")]]
        blind += [[datagram(DATA, new, me, 6, 0, b"T1  LOGIN M"), datagram(DATA, new, me, 7, 0, b"T2  DELETE\x8dF")] for new in tried]
        for has_keys in (False, True):
            with sealed_serving(has_keys, of_all=True) as server, contextlib.closing(Elsewhere(server)) as attacker, folder() as here:
                (server.folder / "F").write_bytes(b"(A)")
                for each in blind:
                    for one in each:
                        attacker.send(one)
                    time.sleep(0.01)
                ended = called(server, server, "get", "F", cwd=here)
            if has_keys:
                self.check("where each host has a key, a host of no entry deletes nothing", unharmed_problems(ended))
            else:
                self.check("in clear it deletes a file", ended.problems(REFUSED, b"", b"chaosd: F: FNF No such file.\n"))


# Connections that are ended by others.


class Closing(Relay):
    """Notes the last packet of each end, and ends the connection in the name of each."""

    def __init__(self, port, ends):
        super().__init__(port, ends)
        self.last = {}

    def passed(self, one, port):
        if inside(one):
            self.last[port] = one
        return [(one, port)]

    def attack(self):
        """256 CLS and LOS to each end, with each generation of the index."""
        for port, one in self.last.items():
            _, _, dst, index, src, other = (int.from_bytes(inside(one)[at : at + 2], "big") for at in range(4, 16, 2))
            for generation in range(256):
                for op in (CLS, LOS):
                    packet = datagram(op, (dst, index), (src, other ^ generation << 8), 0, 0, b"Forged.")
                    for each in forgeries(one, packet):
                        self.hand_on(each, port)


class Ends(Case):
    """Connections under attack."""

    seconds = 20

    def second_reply(self, is_sealed):
        """What `ask` prints for two commands, when all is done to end its connection in between; and how it ends."""
        with attacked(Closing, is_sealed) as (server, network):
            pipe = subprocess.PIPE
            line = ["ask", *server.options(), *FOR_LONG, "402", at(network.peers[0]), "401", f"401={at(network.port)}"]
            with started(line, stdin=pipe, stdout=pipe, stderr=pipe, bufsize=0) as asking:
                asking.stdin.write(b"T1  LOGIN LISPM\n")
                first = line_of(asking.stdout)
                network.attack()
                asking.stdin.write(b"T2  DELETE^A\n")
                second = line_of(asking.stdout)
                asking.stdin.close()
                return first + second, asking.wait(PATIENCE)

    def test_256_forged_cls_end_no_connection(self):
        told, status = self.second_reply(False)
        self.check("in clear they end it", [] if status == REFUSED and told == b"T1  LOGIN LISPM\nno reply\n" else [f"{status}: {told!r}"])
        told, status = self.second_reply(True)
        wanted = b"T1  LOGIN LISPM\nT2  ERROR FNF No such file.\n"
        self.check("under seal it goes on, at both ends", [] if status == DONE and told == wanted else [f"{status}: {told!r}"])


# Datagrams that are sent again.


class Recording(Relay):
    """Keeps what a client sends."""

    def __init__(self, port, ends):
        super().__init__(port, ends)
        self.kept = []

    def passed(self, one, port):
        self.kept += [one] * (port == self.server and bool(one))
        return [(one, port)]


class Repeating(Recording):
    """Repeats each datagram, and some that it carried before."""

    def passed(self, one, port):
        super().passed(one, port)
        return [(one, port)] * 3 + [(each, self.server) for each in self.kept[-40::7]]


class Replays(Case):
    """Recorded datagrams."""

    seconds = 60

    def recorded(self, server, here, make=Recording):
        """What host 402 sends to put a file, and to delete another."""
        (here / "A").write_bytes(mixed_content(1_000))
        (server.folder / "B").write_bytes(b"(B)")
        with network_before(server, make) as network:
            network.server = server.port
            problems = unharmed_problems(called(server, network, "put", "A", cwd=here))
            problems += unharmed_problems(called(server, network, "delete", "B"))
        problems += stored_problems(server.folder / "A", mixed_content(1_000)) + (["B is there"] if (server.folder / "B").exists() else [])
        return network.kept, problems

    def replayed(self, server, kept):
        """What comes to host 402 when all is sent again, twice; and what is wrong with host 403's answer behind it."""
        problems = []
        with victim_of(server) as (attacker, waiting):
            for one in kept * 2:
                attacker.send(one)
                problems += waiting.wait()
            return attacker, attacker.received(), problems

    def check_hellos(self, name, came, attacker):
        """What the server answers says its session, and no more."""
        size = sum(map(len, came))
        problems = [] if came and size <= attacker.sent else [f"{size} bytes for {attacker.sent}"]
        problems += [f"{len(one)} bytes: {one.hex()}" for one in came if len(one) != SEAL_BYTES or not is_sealed(one)]
        self.check(f"{name}, what it draws are hellos, of fewer bytes than were sent", problems)

    def undone_problems(self, server):
        """What is wrong where files were changed: A was taken away since, and B is back."""
        found = sorted(each.name for each in server.folder.iterdir() if not each.name.startswith("."))
        return ([] if found == ["B"] else [f"{found} are there"]) + stored_problems(server.folder / "B", b"(new)")

    def undo(self, server):
        (server.folder / "A").unlink()
        (server.folder / "B").write_bytes(b"(new)")

    def test_a_recorded_run_does_nothing_at_the_same_server_nor_at_one_that_was_restarted(self):
        with sealed_serving() as server, folder() as here:
            kept, problems = self.recorded(server, here)
            self.check("a put and a delete under seal, recorded", problems)
            self.undo(server)
            attacker, came, problems = self.replayed(server, kept)
            server.end()
            opened = server.logged(b"402 opens connection")
            self.check("at the same server it does nothing", problems + self.undone_problems(server) + ([] if len(opened) == 2 else [f"{opened}"]))
            self.check_hellos("at the same server", came, attacker)
            server.begin()
            attacker, came, problems = self.replayed(server, kept)
            problems += self.undone_problems(server) + [f"{line}" for line in server.logged(b"402 opens connection")]
            self.check("at a server that was restarted it does nothing", problems)
            self.check_hellos("at a server that was restarted", came, attacker)

    def test_the_same_in_clear_is_done_again_for_one_who_hears_the_index(self):
        """He gives each packet the index of the last OPN, which the restarted server has drawn."""
        with sealed_serving(False) as server, folder() as here:
            kept, problems = self.recorded(server, here)
            self.undo(server)
            server.end()
            server.begin()
            index = b""
            with victim_of(server) as (attacker, waiting):
                for one in kept * 2:
                    attacker.send(one[:10] + index + one[12:] if index and any(one[10:12]) else one)
                    problems += waiting.wait()
                    index = ([each[14:16] for each in attacker.received() if each[4] == OPN] or [index])[-1]
            problems += [] if self.undone_problems(server) else ["nothing was done"]
            self.check("in clear a restarted server does it again", problems + ([] if index else ["no OPN came"]))

    def test_a_network_that_repeats_everything_changes_nothing(self):
        with sealed_serving() as server, folder() as here:
            _, problems = self.recorded(server, here, Repeating)
        wrote = server.logged(b"wrote A")
        self.check("each datagram three times, and old ones between", problems + ([] if len(wrote) == 1 else [f"{wrote}"]))


class Mixed(Case):
    """A host with a key and a host without, at one server."""

    seconds = 10

    def test_a_host_without_a_key_is_served_in_clear_beside_one_with_a_key(self):
        content = mixed_content(20_000)
        with sealed_serving() as server, folder() as here:
            (here / "A").write_bytes(content)
            problems = copied(server, "put", "A", options=server.options(), cwd=here).problems(DONE, b"", b"")
            (here / "A").unlink()
            problems += copied(server, "get", "A", peer=1, cwd=here).problems(DONE, b"", b"") + stored_problems(here / "A", content)
            self.check("host 402 puts under seal, and host 403 gets in clear", problems)
            ended = copied(server, "delete", "A", options=["--timeout", "2"])
            self.check("host 402 in clear is not heard", ended.problems(REFUSED) + stored_problems(server.folder / "A", content))
            ended = copied(server, "delete", "A", options=[*server.options(), "--timeout", "2"], peer=1)
            self.check("nor is host 403 under the key of 402", ended.problems(REFUSED) + stored_problems(server.folder / "A", content))
