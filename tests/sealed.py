"""The sealed link: keys by the line and by the hosts table, files that give no key, and what is reported where the two ends differ."""

import contextlib
import os
import socket
import subprocess
import time

from tests.hosts import ServingTable, place, written
from tests.support import (BAD_LINE, CLIENT, DONE, FAULT, FOR_LONG, Case, Relay, Serving, at, finished, folder, free_ports, line_of,
                           mixed_content, network_before, run, started, stored_problems)

KEY = "000102030405060708090a0b0c0d0e0f101112131415161718191A1B1C1D1E1F"
OTHER_KEY = KEY[:-1] + "E"
SEALED = b"CH\x03\x00"
# A status of host 401 for host 402, without a seal.
STATUS = bytes.fromhex("43480100 07000004 01020101 01010203 00000010 0012000d")
UNHEARD = b"chaosd: nothing sealed came from host 401 yet: does it run, and does it have this key for 402?\n"
QUESTION = [b"no connection opened in ", b", and does its hosts table (or a PEER) have host 402 at "]
# A message about keys comes within so many seconds.
SECONDS = 20


def key_in(path, text=KEY + "\n", mode=0o600):
    """A file with this text as its key."""
    path.write_text(text)
    path.chmod(mode)
    return path


class Heads(Relay):
    """A network that keeps the first four bytes of each datagram."""

    def __init__(self, port, ends):
        super().__init__(port, ends)
        self.heads = []

    def passed(self, datagram, port):
        self.heads.append(datagram[:4])
        return super().passed(datagram, port)


@contextlib.contextmanager
def sealing(options=(), peers=1):
    """A folder with a key, and a server that has the key for each of its peers, if its options say so."""
    with folder() as here:
        key_in(here / "key")
        (here / "files").mkdir()
        server = Serving(here / "files", peers, [str(here / word) if word == "key" else word for word in options])
        server.here = here
        try:
            yield server
        finally:
            server.end()


def calling(server, name, *words, options=(), peer=0, own=None):
    """The words of a call of a server by its first peer."""
    own = server.peers[peer] if own is None else own
    return [name, *options, f"{CLIENT + peer:o}", at(own), f"401={at(server.port)}", *map(str, words)]


def begun(words):
    return started([*map(str, words)], stdin=subprocess.DEVNULL, stdout=subprocess.PIPE, stderr=subprocess.PIPE)


def calm(ended):
    """How a run ended, without a word that the server was slow, as it may be on a busy machine."""
    ended.err = ended.err.replace(UNHEARD, b"")
    return ended


def told(process, pieces):
    """What is missing in the next line that a process reports, or that the line came late. The process is ended then."""
    since = time.monotonic()
    line = line_of(process.stderr, SECONDS)
    late = time.monotonic() - since
    process.kill()
    process.communicate()
    return [f"no {piece!r} in {line!r}" for piece in pieces if piece not in line] + ([f"after {late:.1f} s"] if late > SECONDS else [])


class Sealed(Case):
    """Calls under seal."""

    seconds = 15

    def test_all_that_goes_between_two_hosts_with_a_key_is_sealed(self):
        with sealing(["--key", "key"]) as server, network_before(server, Heads) as network:
            here, key = server.here, ["--key", str(server.here / "key"), *FOR_LONG]
            content = mixed_content(20_000)
            (here / "A").write_bytes(content)
            to = f"401={at(network.port)}"
            line = [f"{CLIENT:o}", at(network.peers[0])]
            self.check("put", calm(run(["put", *key, *line, to, here / "A"])).problems(DONE, b"", b""))
            self.check("stored", stored_problems(here / "files/A", content))
            self.check("get", calm(run(["get", "--carriage=2", *key, *line, to, "--output", here / "B", "A"])).problems(DONE, b"", b""))
            self.check("got", stored_problems(here / "B", content))
            self.check("rename", calm(run(["rename", *key, *line, to, "A", "C"])).problems(DONE, b"", b""))
            self.check("delete", calm(run(["delete", *key, *line, to, "C"])).problems(DONE, b"", b""))
            asked = run(["ask", *key, *line, "401", to], b"T1  LOGIN LISPM\n")
            self.check("ask", calm(asked).problems(DONE, b"T1  LOGIN LISPM\n", b""))
            self.check("all is sealed", [] if set(network.heads) == {SEALED} else [f"heads {set(network.heads)}"])

    def test_a_host_without_a_key_is_served_beside(self):
        with place(clients=2) as here:
            here.server.end()
            key_in(here.top / "first.key")
            served = here.served.read_text().replace("client0", "client0 key=first.key")
            written(here.served, *served.splitlines())
            here.server = ServingTable(here)
            wanted = f" to 402={at(here.ports[0])} 403={at(here.ports[1])}, with a key for 402\n".encode()
            self.check("the key is logged", [] if here.server.said.endswith(wanted) else [repr(here.server.said)])
            (here.top / "A").write_bytes(b"(a)")
            first = ["402", at(here.ports[0]), f"401={at(here.port)}"]
            second = ["403", at(here.ports[1]), f"401={at(here.port)}"]
            self.check("with", calm(run(["put", "--key", here.top / "first.key", *FOR_LONG, *first, here.top / "A"])).problems(DONE, b"", b""))
            self.check("without", calm(run(["get", *FOR_LONG, *second, "--output", here.top / "B", "A"])).problems(DONE, b"", b""))
            self.check("got", stored_problems(here.top / "B", b"(a)"))

    def test_a_restarted_server_is_reached_again(self):
        with sealing(["--key", "key"]) as server:
            (server.here / "A").write_bytes(b"a")
            words = calling(server, "put", server.here / "A", options=["--key", str(server.here / "key"), *FOR_LONG])
            for turn in range(3):
                self.check(f"put {turn}", calm(run(words)).problems(DONE, b"", b""))
                server.end()
                server.begin()


class Tables(Case):
    """Keys of a hosts table."""

    seconds = 20

    def keyed(self, here):
        """Both tables name a key file beside them, each with another name."""
        (here.top / "etc").mkdir()
        here.table = written(here.top / "etc/hosts", *here.table.read_text().replace("lispm ", "key=lispm.key lispm ").splitlines())
        key_in(here.top / "etc/lispm.key")
        key_in(here.top / "own.key", " " + KEY.lower() + "\n\n")
        written(here.served, *here.served.read_text().replace("client", f"key={here.top}/own.key client").splitlines())

    def test_a_file_is_in_the_folder_of_its_table(self):
        with place(serves=False) as here:
            self.keyed(here)
            server = ServingTable(here)
            try:
                (here.top / "A").write_bytes(b"(a)")
                self.check("put", calm(here.call("put", "A", "lispm:")).problems(DONE, b"", b""))
                self.check("get", calm(here.call("get", "lispm:A", "B")).problems(DONE, b"", b""))
                self.check("got", stored_problems(here.top / "B", b"(a)"))
                asked = started(["ask", "--hosts", str(here.table), *FOR_LONG, "lispm"], stdin=subprocess.PIPE, stdout=subprocess.PIPE,
                                stderr=subprocess.PIPE)
                self.check("asked", calm(finished(asked, b"T1  LOGIN LISPM\n")).problems(DONE, b"T1  LOGIN LISPM\n", b""))
                key_in(here.top / "etc/lispm.key", OTHER_KEY)
                given = here.call("get", "--key", "own.key", "lispm:A", "C")
                self.check("the line's key stands for the table's", calm(given).problems(DONE, b"", b""))
                self.check("delete", calm(here.call("delete", "--key", "own.key", "lispm:A")).problems(DONE, b"", b""))
            finally:
                server.end()

    def test_a_key_that_changes_needs_a_restart(self):
        with place(clients=1, serves=False) as here:
            self.keyed(here)
            here.server = ServingTable(here)
            try:
                good = here.served.read_text()
                wanted = b"the keys changed, which needs a restart; the hosts stay"
                (here.top / "A").write_bytes(b"a")
                for name, text in [
                    ("another file", good.replace("own.key", "other.key")),
                    ("no key", good.replace(f"key={here.top}/own.key ", "")),
                    ("one key more", good + f"405 {at(here.port)} more key=more.key\n"),
                    ("a host in clear", good + f"405 {at(here.port)} more\n"),
                ]:
                    written(here.served, *text.splitlines())
                    line = here.server.line_with(b"hosts table")
                    self.check(f"{name} is logged", [] if wanted in line else [repr(line)])
                    self.check(f"put beside {name}", calm(here.call("put", "A", "lispm:")).problems(DONE, b"", b""))
                own = f"key={here.top}/own.key "
                written(here.served, *good.replace(own, f"{own}more ").splitlines())
                line = here.server.line_with(b"hosts table")
                self.check("a name is taken in", [] if b"read again, 1 other host\n" in line else [repr(line)])
            finally:
                here.server.end()

    def test_a_key_of_the_table_is_not_for_chudp(self):
        with place(clients=1, serves=False) as here:
            self.keyed(here)
            client = here.call("get", "--chudp", "lispm:A")
            self.check("client", client.problems(BAD_LINE, b"", [b"etc/hosts: host 401 has a key, which can't be used with --chudp"]))
            server = here.run("serve", "--chudp", "--hosts", here.served, here.files)
            self.check("server", server.problems(BAD_LINE, b"", [b"server: host 402 has a key, which can't be used with --chudp"]))


class Files(Case):
    """Files that give no key."""

    seconds = 5

    def test_each_fault_has_its_message(self):
        with sealing() as server:
            here = server.here
            os.mkfifo(here / "fifo", 0o600)
            (here / "folder").mkdir()
            digits = b"expected 64 hexadecimal digits"
            rows = [
                ("missing", FAULT, [b"can't read the key file ", b"/missing: "]),
                ("fifo", FAULT, [b"can't read the key file ", b"/fifo: expected a regular file"]),
                ("folder", FAULT, [b"can't read the key file ", b"/folder: expected a regular file"]),
                (key_in(here / "short", KEY[:-2]).name, BAD_LINE, [b"/short: too short or too long for a key", digits]),
                (key_in(here / "odd", KEY[:-1]).name, BAD_LINE, [b"/odd: too short or too long", digits]),
                (key_in(here / "long", KEY + "00").name, BAD_LINE, [b"/long: too short or too long", digits]),
                (key_in(here / "large", " " * 1_000_000 + KEY).name, BAD_LINE, [b"/large: too short or too long", digits]),
                (key_in(here / "empty", "").name, BAD_LINE, [b"/empty: too short or too long", digits]),
                (key_in(here / "letters", "g" + KEY[1:]).name, BAD_LINE, [b"/letters: a character is no hexadecimal digit", digits]),
                (key_in(here / "inside", KEY[:32] + " " + KEY[33:]).name, BAD_LINE, [b"/inside: a character is no", digits]),
                (key_in(here / "group", mode=0o640).name, BAD_LINE, [b"/group: others can read it; run chmod 600 ", b"/group\n"]),
                (key_in(here / "others", mode=0o604).name, BAD_LINE, [b"/others: others can read it; run chmod 600 "]),
            ]
            for name, status, pieces in rows:
                client = run(calling(server, "get", "A", options=["--key", str(here / name)]))
                self.check(f"get with {name}", client.problems(status, b"", [b"chaosd: ", *pieces]))
                line = ["serve", "--key", here / name, "401", at(server.peers[0]), here / "files", f"402={at(server.port)}"]
                self.check(f"serve with {name}", run(line).problems(status, b"", [b"chaosd: ", *pieces]))
            asked = run(["ask", "--key", here / "short", "402", at(server.peers[0]), "401", f"401={at(server.port)}"], b"T1  LOGIN A\n")
            self.check("ask", asked.problems(BAD_LINE, b"", [b"/short: too short"]))

    def test_a_table_with_such_a_file_begins_no_server(self):
        with place(clients=1, serves=False) as here:
            written(here.served, *here.served.read_text().replace("client", "key=missing.key client").splitlines())
            ended = here.run("serve", "--hosts", here.served, here.files)
            self.check("serve", ended.problems(FAULT, b"", [f"can't read the key file {here.top}/missing.key: ".encode()]))

    def test_a_key_is_not_for_chudp_and_not_beside_a_served_table(self):
        with folder() as here:
            key = str(key_in(here / "key"))
            for words in [["get", "--chudp", "--key", key, "lispm:A"],
                          ["serve", "--chudp", "--key", key, "401", "127.0.0.1:1", str(here), "402=127.0.0.1:2"]]:
                self.check(f"{words[0]} --chudp", run(words).problems(BAD_LINE, b"", [b"--key", b"can't be used with '--chudp'"]))
            words = ["serve", "--key", key, "--hosts", str(here / "hosts"), str(here)]
            self.check("serve FOLDER", run(words).problems(BAD_LINE, b"", [b"--key", b"write key=FILE into the table"]))


class Differences(Case):
    """Ends that have different keys, or a key at one end alone: both say so within seconds."""

    seconds = 40

    def test_another_key(self):
        with sealing(["--key", "key"]) as server:
            other = key_in(server.here / "other", OTHER_KEY)
            client = begun(calling(server, "get", "A", options=["--key", str(other)]))
            self.check("client", told(client, [UNHEARD]))
            line = server.line_with(b"refused")
            wanted = b"refused a datagram of %s: a wrong tag" % at(server.peers[0]).encode()
            self.check("server", [] if wanted in line else [repr(line)])

    def test_refusals_are_counted(self):
        """The first is logged at once. Those of the next ten seconds have one line."""
        with sealing(["--key", "key"]) as server:
            other = key_in(server.here / "other", OTHER_KEY)
            client = begun(calling(server, "get", "A", options=["--key", str(other), "--timeout", "60"]))
            first, second = server.line_with(b"refused"), server.line_with(b"refused")
            client.kill()
            client.communicate()
            self.check("the first", [] if b"refused a datagram of" in first else [repr(first)])
            self.check("the others", [] if b"datagrams of " in second and second.endswith(b": a wrong tag\n") else [repr(second)])

    def test_a_quiet_server_logs_none(self):
        with sealing(["--quiet", "--key", "key"]) as server:
            other = key_in(server.here / "other", OTHER_KEY)
            client = begun(calling(server, "get", "A", options=["--key", str(other)]))
            self.check("client", told(client, [UNHEARD]))
            (server.here / "A").write_bytes(b"a")
            put = run(calling(server, "put", server.here / "A", options=["--key", str(server.here / "key"), *FOR_LONG]))
            self.check("put", calm(put).problems(DONE, b"", b""))
            server.process.kill()
            _, err = server.process.communicate()
            self.check("server", [] if b"refused" not in err else [repr(err)])

    def test_a_key_at_the_client_alone(self):
        with sealing() as server:
            client = begun(calling(server, "get", "A", options=["--key", str(server.here / "key")]))
            self.check("client", told(client, [UNHEARD]))

    def test_what_a_client_with_a_key_reports_at_its_end(self):
        with sealing() as server:
            ended = run(calling(server, "get", "A", options=["--key", str(server.here / "key"), "--timeout", "3"]))
            wanted = [UNHEARD, *QUESTION, b", with the same key?\n"]
            self.check("client", ended.problems(ended.status, b"", wanted))

    def test_a_key_at_the_server_alone(self):
        with sealing(["--key", "key"]) as server:
            ended = run(calling(server, "get", "A", options=["--timeout", "3"]))
            hint = b"? A server that has a key for this host answers under seal alone\n"
            self.check("client", ended.problems(ended.status, b"", [*QUESTION, hint]))
            line = server.line_with(b"refused")
            wanted = b"a packet without a seal\n"
            self.check("server", [] if line.endswith(wanted) else [repr(line)])

    def test_an_answer_without_a_seal_is_reported(self):
        with folder() as here, socket.socket(socket.AF_INET, socket.SOCK_DGRAM) as server:
            key = key_in(here / "key")
            own, port = free_ports(2)
            server.bind(("127.0.0.1", port))
            server.settimeout(SECONDS)
            client = begun(["get", "--key", key, "402", at(own), f"401={at(port)}", "A"])
            sealed, source = server.recvfrom(4_096)
            self.check("what came is sealed", [] if sealed.startswith(SEALED) else [sealed.hex()])
            server.sendto(STATUS, source)
            wanted = b"chaosd: refused a datagram of %s: a packet without a seal\n" % at(port).encode()
            self.check("client", told(client, [wanted]))
