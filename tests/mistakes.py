"""Tests what a client tells where it calls no server that knows it: `ask`, `get`, `put`, `delete` and `rename`, each mistake by itself."""

import contextlib
import os
import pty
import select
import socket
import subprocess
import time

from tests.scripts import FILE_SCRIPT, NO_REPLY
from tests.support import (
    BAD_LINE, DONE, FOR_LONG, LONG, PROGRAM, REFUSED, Case, at, finished, folder, free_ports, line_of, run, serving, started,
)  # fmt: skip

PIPES = {"stdin": subprocess.PIPE, "stdout": subprocess.PIPE, "stderr": subprocess.PIPE}


def unopened(server, client):
    """What is wanted of a client that no connection was opened for."""
    question = b" ms: does a server run at %s, and does its hosts table (or a PEER) have host %s? A server that has a key for this host answers under seal alone\n"
    return [b"no connection opened in ", question % (server.encode(), client.encode())]


class Nobody(Case):
    """A port where no server listens."""

    seconds = 12

    def test_each_command_tells_it_and_does_not_wait(self):
        own, nobody = free_ports(2)
        server = f"401={at(nobody)}"
        wanted = b"no server listens at %s\n" % at(nobody).encode()
        with folder() as here:
            (here / "A").write_bytes(b"(A)")
            for name, words in [
                ("get", ["402", at(own), server, "--output", here / "B", "B"]),
                ("put", ["402", at(own), server, here / "A"]),
                ("delete", ["402", at(own), server, "A"]),
                ("rename", ["402", at(own), server, "A", "B"]),
            ]:
                problems = run([name, *FOR_LONG, *words]).problems(REFUSED, b"", [wanted])
                self.check(f"{name} tells it, status 3", problems)
            left = sorted(path.name for path in here.iterdir())
            self.check("nothing is left", [] if left == ["A"] else [f"there are {left}"])
        problems = run(["ask", *FOR_LONG, "402", at(own), "401", server], FILE_SCRIPT).problems(REFUSED, NO_REPLY, b"chaosd: " + wanted)
        self.check("ask tells it once, `no reply`, status 3", problems)

    def test_a_server_that_begins_within_a_second_is_reached(self):
        """A server that is started behind its client. Where the machine lets it begin later than that, all is tried again."""
        spent = 2
        while spent > 1:
            own, port = free_ports(2)
            with folder() as here:
                begun = time.monotonic()
                client = started(["ask", "402", at(own), "401", f"401={at(port)}"], **PIPES)
                client.stdin.write(b"T  LOGIN M\n")
                client.stdin.flush()
                time.sleep(0.6)
                server = started(["serve", "401", at(port), here, f"402={at(own)}"], **PIPES)
                line_of(server.stderr)
                spent = time.monotonic() - begun
                problems = finished(client, b"", LONG).problems(DONE, b"T  LOGIN M\n", b"")
                server.kill()
                server.communicate()
            spent = spent if problems else 0
        self.check("it is asked again", problems)


class Unknown(Case):
    """A server that doesn't answer this client."""

    seconds = 22

    def test_each_mistake_says_what_to_look_at(self):
        """Another Chaosnet address of the server, no such peer, and a peer at another port: all wait at once."""
        first, second, third = free_ports(3)
        with folder() as here, serving(peers=3) as server:
            (here / "A").write_bytes(b"(A)")
            to = at(server.port)
            waiting = {
                "another address of the server": (server.peers[0], "402", f"403={to}"),
                "no such peer": (first, "410", f"401={to}"),
                "a peer at another port": (second, "402", f"401={to}"),
            }
            running = {name: started(["put", me, at(own), other, here / "A"], **PIPES) for name, (own, me, other) in waiting.items()}
            asking = started(["ask", "411", at(third), "401", f"401={to}"], **PIPES)
            ends = {name: finished(process, b"", LONG) for name, process in running.items()}
            asked = finished(asking, FILE_SCRIPT, LONG)
            stored = list(server.folder.iterdir())
        for name, (own, me, _) in waiting.items():
            problems = ends[name].problems(REFUSED, b"", unopened(to, f"{me} at {at(own)}"))
            self.check(name, problems + ([] if not stored else [f"there are {stored}"]))
        self.check("ask", asked.problems(REFUSED, NO_REPLY, unopened(to, f"411 at {at(third)}")))

    def test_a_client_at_any_of_its_udp_addresses_names_none(self):
        with folder() as here, socket.socket(socket.AF_INET, socket.SOCK_DGRAM) as silent:
            silent.bind(("127.0.0.1", 0))
            to = at(silent.getsockname()[1])
            (here / "hosts").write_text(f"401 {to} lispm\n412 * self\n")
            ended = run(["get", "--hosts", here / "hosts", "--timeout", "1", "--output", "/dev/null", "lispm:A"])
        self.check("a client by a table", ended.problems(REFUSED, b"", unopened(to, "412")))

    def test_the_own_address_as_the_servers_is_a_bad_line(self):
        own, other = free_ports(2)
        ended = run(["put", "401", at(own), f"401={at(other)}", "A"])
        self.check("the own address", ended.problems(BAD_LINE, b"", [b"a Chaosnet address other than this host's own"]))


def shown(words, wanted, patience=LONG):
    """What a terminal as standard error shows up to this text, or in so many seconds."""
    master, slave = pty.openpty()
    process = subprocess.Popen([PROGRAM, *words], stdin=subprocess.PIPE, stdout=subprocess.DEVNULL, stderr=slave)
    os.close(slave)
    with contextlib.suppress(BrokenPipeError):
        process.stdin.write(b"T  LOGIN M\n")
        process.stdin.flush()
    seen, end = "", time.monotonic() + patience
    while wanted not in seen and select.select([master], [], [], max(0, end - time.monotonic()))[0]:
        with contextlib.suppress(OSError):
            seen += os.read(master, 65_536).decode().replace("\r\n", "\n")
            continue
        break
    process.kill()
    process.communicate()
    os.close(master)
    return seen


class Terminal(Case):
    """A terminal shows whom a client waits for."""

    seconds = 12

    def test_after_a_second_it_is_shown(self):
        """Of a socket that hears and says nothing."""
        (own,) = free_ports(1)
        with socket.socket(socket.AF_INET, socket.SOCK_DGRAM) as silent:
            silent.bind(("127.0.0.1", 0))
            server = at(silent.getsockname()[1])
            wanted = f"chaosd: waiting for host 401 at {server}\n"
            for name, words in [
                ("get", ["get", "402", at(own), f"401={server}", "--output", "/dev/null", "A"]),
                ("delete", ["delete", "402", at(own), f"401={server}", "A"]),
                ("ask", ["ask", "402", at(own), "401", f"401={server}"]),
            ]:
                seen = shown(words, wanted)
                self.check(f"{name} shows it once", [] if seen.count(wanted) == 1 else [f"it showed {seen!r}"])
            quiet = shown(["get", "--quiet", "402", at(own), f"401={server}", "--output", "/dev/null", "A"], wanted, 3)
            self.check("get --quiet shows nothing", [] if quiet == "" else [f"it showed {quiet!r}"])
