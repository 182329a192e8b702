"""Tests what `chaosd get` and `chaosd put` tell where no reply comes, or a wrong one, and files over a network that loses."""

import socket
import struct
import time

from tests.copying import changing, copied, copying, told_problems
from tests.packets import CLS, asks_for_file, datagram
from tests.support import (
    CLIENT, COPYING_WINDOW, DONE, FOR_LONG, LONG, SERVER, USUAL_WINDOW,
    Case, Lossy, Relay, finished, folder, free_ports, mixed_content, network_before, serving, stored_problems,
)  # fmt: skip


class Absent:
    """A server that isn't there, at a port that nobody has."""

    def __init__(self):
        self.port, *self.peers = free_ports(2)


class Nobody(Case):
    """A server that isn't there, or turns its client away."""

    seconds = 11

    def test_get_of_a_host_that_says_nothing_is_told_after_ten_seconds(self):
        server = Absent()
        with folder() as here, socket.socket(socket.AF_INET, socket.SOCK_DGRAM) as silent:
            silent.bind(("127.0.0.1", server.port))
            begun = time.monotonic()
            ended = copied(server, "get", "A", "B", cwd=here)
            hint = rb"does a server run at 127\.0\.0\.1:\d+, and does its hosts table \(or a PEER\) have host 402 at 127\.0\.0\.1:\d+\? A server that has a key for this host answers under seal alone"
            problems = told_problems(ended, rb"chaosd: A: no connection opened in \d{5} ms: " + hint + rb"\nchaosd: B: not tried\n")
            problems += [] if 9 < time.monotonic() - begun else ["it did not wait ten seconds"]
            self.check("get of a host that says nothing: told after ten seconds, the next is not tried", problems)

    def test_why_a_server_refuses_the_connection_is_told(self):
        server = Absent()
        with folder() as here, socket.socket(socket.AF_INET, socket.SOCK_DGRAM) as peer:
            peer.bind(("127.0.0.1", server.port))
            peer.settimeout(LONG)
            process = copying(server, "get", "A", "B", cwd=here)
            request, client = peer.recvfrom(2_048)
            while not asks_for_file(request):
                request, client = peer.recvfrom(2_048)
            index = struct.unpack(">H", request[14:16])[0]
            peer.sendto(datagram(CLS, (CLIENT, index), (SERVER, 0), 0, 0, b"Go away."), client)
            ended = finished(process, patience=LONG)
        problems = told_problems(ended, rb"chaosd: A: it refused the connection: Go away\.\nchaosd: B: not tried\n")
        self.check("get from a peer that refuses the connection: its text is told", problems)


class Collision(Relay):
    """A network whose server has a connection already, of the first index from which the client asks: of one that was killed. What that
    connection sends is lost."""

    def __init__(self, port, ends):
        super().__init__(port, ends)
        self.server, self.first = ends[0], None

    def passed(self, datagram, port):
        to, source = datagram[8:12], datagram[12:16]
        if port != self.server:
            return [] if to == self.first else [(datagram, port)]
        if self.first is None and asks_for_file(datagram):
            self.first = source
            number = struct.unpack(">H", datagram[16:18])[0]
            older = datagram[:16] + struct.pack(">H", (number + 100) % 65_536) + datagram[18:]
            return [(older, port), (datagram, port)]
        return [(datagram, port)]


class Dead(Case):
    """A server that has a connection of a client that was killed, with the address and the index of the next."""

    seconds = 4

    def test_the_next_client_asks_from_another_index(self):
        content = mixed_content(10_000)
        with serving() as server, network_before(server, Collision) as network, folder() as here:
            (here / "UP").write_bytes(content)
            begun = time.monotonic()
            problems = copied(network, "put", "UP", options=FOR_LONG, cwd=here).problems(DONE)
            took = time.monotonic() - begun
            problems += stored_problems(server.folder / "UP", content)
            problems += [] if took > 1.9 else [f"it took {took:.1f} seconds"]
            problems += [] if network.first else ["no request was seen"]
        self.check("put past the connection of a client that was killed: after 2 seconds, from another index", problems)


class Silence(Case):
    """A server that falls silent at the end."""

    seconds = 12

    def test_a_put_whose_close_has_no_reply_may_have_been_put(self):
        closing = []

        def deaf(is_clients, text):
            closing.extend([text] if is_clients and text.endswith(b" CLOSE") else [])
            return None if closing and not is_clients else text

        with changing(deaf) as (_, network), folder() as here:
            (here / "UP").write_bytes(mixed_content(1_000))
            (here / "MORE").write_bytes(b"more")
            ended = copied(network, "put", "UP", "MORE", cwd=here)
        unknown = rb"chaosd: UP: whether it was put isn't known, since its CLOSE got no reply: no reply came in \d{5} ms\n"
        problems = told_problems(ended, unknown + rb"chaosd: MORE: not tried\n")
        self.check("put without a reply to its CLOSE: that it isn't known is told", problems)


class Replies(Case):
    """Replies that are none of FILE."""

    def test_a_put_whose_write_is_answered_by_another_count_is_never_closed(self):
        with changing(lambda _, text: text.replace(b" WRITE 448", b" WRITE 449")) as (server, network), folder() as here:
            (here / "UP").write_bytes(mixed_content(1_000))
            (here / "MORE").write_bytes(b"more")
            ended = copied(network, "put", "UP", "MORE", cwd=here)
            problems = told_problems(ended, rb"chaosd: UP: not an answer of FILE: \d+ F WRITE 449\nchaosd: MORE: not tried\n")
            problems += [f"{each.name} was put" for each in server.folder.iterdir() if not each.name.startswith(".")]
            self.check("put whose WRITE is answered by another count: told, and its CLOSE is never said", problems)

    def test_a_get_whose_end_is_not_told_writes_nothing(self):
        with changing(lambda _, text: text.replace(b" EOF", b" END")) as (server, network), folder() as here:
            (server.folder / "UP").write_bytes(b"other")
            (here / "UP").write_bytes(b"own")
            ended = copied(network, "get", "UP", cwd=here)
            problems = told_problems(ended, rb"chaosd: UP: not an answer of FILE: \d+ F END\n")
            self.check("get whose end isn't told: nothing is written", problems + stored_problems(here / "UP", b"own"))


class Losing(Case):
    """A network that loses, repeats and reorders."""

    seconds = 30

    def check_copy(self, subcommand, version):
        content = mixed_content(40 * 448 + 9)
        with serving() as server, network_before(server, Lossy) as network, folder() as here:
            source, target = (here, server.folder) if subcommand == "put" else (server.folder, here)
            (source / "F").write_bytes(content)
            ended = copied(network, subcommand, "F", options=["--carriage", str(version)], patience=2 * LONG, cwd=here)
            problems = ended.problems(DONE, b"", b"") or stored_problems(target / "F", content)
        several = max((head[3] for head in network.heads if head[2] == 2), default=0)
        problems += [] if (several > 1) == (version == 2) else [f"at most {several} packets went out in a datagram of version 2"]
        told = network.windows
        problems += [f"windows of {told} were told"] if version == 1 and told != {USUAL_WINDOW, COPYING_WINDOW} else []
        self.check(f"{subcommand} --carriage {version} over a network that loses, repeats and reorders", problems)

    def test_a_put_comes_whole(self):
        for version in [1, 2]:
            self.check_copy("put", version)

    def test_a_get_comes_whole(self):
        for version in [1, 2]:
            self.check_copy("get", version)
