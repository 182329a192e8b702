"""Tests `chaosd serve` and `chaosd ask` as their users meet them: FILE sessions between two processes over UDP."""

import contextlib
import os
import re
import signal
import struct
import subprocess

from tests.packets import CLS, DATA, EOF, LOS, OPN, RFC, SNS, STS, Peer, datagram
from tests.scripts import EMPTY_REPLY, FILE_REPLIES, FILE_SCRIPT, HELLO_REPLIES, NO_REPLY, content_read, get_script, put_script
from tests.support import (
    BAD_LINE, CLIENT, DONE, FILE_DATA, FILE_LIMIT, FOR_LONG, LONG, REFUSED, ROOT, SERVER, USUAL_WINDOW,
    Case, finished, line_of, mixed_content, plain_content, run, serving, started, stored_problems,
)  # fmt: skip

PIPES = {"stdin": subprocess.PIPE, "stdout": subprocess.PIPE, "stderr": subprocess.PIPE}


class Asking:
    """`ask` or `loop` that is typed to line by line."""

    def __init__(self, words):
        self.process = started(words, **PIPES)

    def reply(self, line):
        """The reply to one line, which is awaited with the input kept open."""
        with contextlib.suppress(BrokenPipeError):
            self.process.stdin.write(line + b"\n")
            self.process.stdin.flush()
        return line_of(self.process.stdout)

    def problems(self, *exchanges):
        """The first that differs from these lines and their replies."""
        for line, wanted in exchanges:
            seen = self.reply(line)
            if seen != wanted + b"\n":
                return [f"{seen!r} came for {line!r} and not {wanted!r}"]
        return []

    def vanish(self):
        self.process.kill()
        self.process.communicate()

    def end(self):
        """Ends its input, and gives what is wrong with its end."""
        return finished(self.process).problems(DONE, b"", b"")


def got_problems(server, path, content):
    """What differs from the content where `ask` reads the file."""
    ended = run(server.words(), get_script(path, len(content)), patience=LONG)
    told, rest = content_read(ended.out)
    size = len(content)
    wanted = [b"T  LOGIN LISPM", b"T H OPEN %d" % size, b"T H EOF", b"T H CLOSE %d" % size]
    found = [] if told == content else [f"{len(told)} bytes came and not the {size} of the file"]
    found += [] if rest == wanted else [f"{rest} came beside them"]
    return found + ended.problems(DONE, None, b"")


class Sessions(Case):
    """Sessions of a client with a server."""

    seconds = 10

    def test_serve_says_where_it_listens(self):
        with serving() as server:
            problems = [f"no {piece!r} in {server.said!r}" for piece in server.untold()]
            self.check("serve says where it listens, for whom and on what", problems)

    def test_files_of_many_sizes_are_put(self):
        with serving() as server:
            self.check("ask: a file is written and read", run(server.words(), FILE_SCRIPT).problems(DONE, FILE_REPLIES, b""))
            for size in [0, 1, FILE_DATA, FILE_DATA + 1, 1_000_000]:
                content = plain_content(size) if size > 100_000 else mixed_content(size)
                path = b"put-%d" % size
                script, replies = put_script(path, content)
                problems = run(server.words(), script, patience=LONG).problems(DONE, replies, b"")
                problems += stored_problems(server.folder / path.decode(), content)
                self.check(f"ask: {size} bytes are put", problems or got_problems(server, path, content))

    def test_files_of_many_sizes_are_got(self):
        with serving() as server:
            for size in [0, 1, FILE_DATA, FILE_DATA + 1, 1_000_000, FILE_LIMIT]:
                path, content = b"get-%d" % size, mixed_content(size)
                (server.folder / path.decode()).write_bytes(content)
                self.check(f"ask: {size} bytes are got", got_problems(server, path, content))
            (server.folder / "greater").write_bytes(bytes(FILE_LIMIT + 1))
            wanted = b"T  LOGIN LISPM\nT H ERROR TBG File too big.\n"
            ended = run(server.words(), b"T  LOGIN LISPM\nT H OPEN READ^greater\n")
            self.check("ask: a file of 1,048,577 bytes is too big", ended.problems(DONE, wanted, b""))
            self.check("serve goes on", [] if server.process.poll() is None else [f"status {server.process.returncode}"])

    def test_server_and_client_may_send_by_different_carriages(self):
        script = (ROOT / "examples/hello.file").read_bytes()
        for version in ["1", "2"]:
            with serving(options=["--carriage", version]) as server:
                for client in ["1", "2"]:
                    problems = run(server.words(options=["--carriage", client]), script).problems(DONE, HELLO_REPLIES, b"")
                    self.check(f"serve --carriage {version}, ask --carriage {client}: the session of the demo", problems)

    def test_each_command_that_is_typed_is_answered_before_the_next(self):
        exchanges = list(zip(FILE_SCRIPT.splitlines(), FILE_REPLIES.splitlines()))
        with serving() as server:
            for words in [server.words(), ["loop"]]:
                asking = Asking(words)
                problems = asking.problems(*exchanges) or asking.end()
                self.check(f"{words[0]}: each command that is typed is answered before the next", problems)
                asking = Asking(words)
                problems = asking.problems(exchanges[0])
                ended = finished(asking.process, b"\x00\nT2  LOGIN X\n")
                problems += ended.problems(BAD_LINE, b"", [b"line 2: bad: "])
                self.check(f"{words[0]}: a bad line stops when it is its turn, status 2", problems)

    def test_an_error_in_a_reply_leaves_the_status_0(self):
        with serving() as server:
            ended = run(server.words(), b"\nT9\n")
            self.check("ask: ERROR replies leave the status 0", ended.problems(DONE, EMPTY_REPLY * 2, b""))


class Several(Case):
    """Several clients of a server at once."""

    seconds = 4

    def test_four_that_type_in_turn_have_a_session_each(self):
        with serving(peers=4) as server:
            clients = [Asking(server.words(peer)) for peer in range(4)]
            rounds = [(n, b"T  LOGIN U%d" % n, b"T  LOGIN U%d" % n) for n in range(3)]
            rounds += [(3, b"T H OPEN WRITE^F3", b"T H ERROR NLI Not logged in."), (3, b"T  LOGIN X", b"T  LOGIN X")]
            rounds += [(n, b"T H OPEN WRITE^F%d" % n, b"T H OPEN 0") for n in range(4)]
            for size in range(FILE_DATA, 31 * FILE_DATA, FILE_DATA):
                rounds += [(n, b"T H WRITE^" + b"%d" % n * FILE_DATA, b"T H WRITE %d" % size) for n in range(4)]
            rounds += [(n, b"T H CLOSE", b"T H CLOSE %d" % size) for n in range(4)]
            problems = []
            for n, line, wanted in rounds:
                problems = problems or clients[n].problems((line, wanted))
            for n, client in enumerate(clients):
                problems += client.end() or stored_problems(server.folder / f"F{n}", b"%d" % n * size)
            self.check("four clients at once have a session each", problems)

    def test_four_write_100_000_bytes_each(self):
        scripts = [put_script(b"G%d" % n, mixed_content(100_000 + n)) for n in range(4)]
        with serving(peers=4) as server:
            running = [started(server.words(n), **PIPES) for n in range(4)]
            for process, (script, _) in zip(running, scripts):
                process.stdin.write(script[:50])
                process.stdin.flush()
            problems = []
            for n in (3, 2, 1, 0):
                problems += finished(running[n], scripts[n][0][50:], LONG).problems(DONE, scripts[n][1], b"")
                problems += stored_problems(server.folder / f"G{n}", mixed_content(100_000 + n))
            self.check("four clients write 100,000 bytes each", problems)


def at_once(server, script, replies, peer=0):
    """What is wrong where a client asks again. It has two tries: one index in 256 is that of the connection that it left open,
    which the server keeps."""
    for _ in range(2):
        asking = Asking(server.words(peer))
        wanted = replies.splitlines(keepends=True)
        problems = [] if asking.reply(script.splitlines()[0]) == wanted[0] else ["it was not answered in time"]
        if not problems:
            problems += asking.problems(*zip(script.splitlines()[1:], replies.splitlines()[1:])) or asking.end()
            return problems
        asking.vanish()
    return problems


def vanish_in_a_file(server, peer):
    """A client that is gone in the middle of a file that it writes. Gives what was wrong before."""
    process = started(server.words(peer), stdin=subprocess.PIPE, stdout=subprocess.PIPE, stderr=subprocess.DEVNULL)
    os.set_blocking(process.stdin.fileno(), False)
    os.write(process.stdin.fileno(), put_script(b"HALF", plain_content(60_000))[0][:60_000])
    problems = [] if line_of(process.stdout) == b"T  LOGIN LISPM\n" else ["it was not answered"]
    process.kill()
    process.communicate()
    return problems


class Vanished(Case):
    """Clients that are gone without a word, and come back from the same address and socket."""

    seconds = 2

    def test_a_client_that_comes_back_has_a_new_session_at_once(self):
        with serving(peers=4) as server:
            asking = Asking(server.words())
            opened = [(b"T  LOGIN A", b"T  LOGIN A"), (b"T H OPEN WRITE^LOST", b"T H OPEN 0"), (b"T H WRITE^x", b"T H WRITE 1")]
            problems = asking.problems(*opened)
            asking.vanish()
            self.check("a client vanishes", problems)
            ended = run(server.words(1), FILE_SCRIPT)
            self.check("another client is served meanwhile", ended.problems(DONE, FILE_REPLIES, b""))
            wanted = b"T  ERROR NLI Not logged in.\n"
            self.check("it comes back and is answered at once, with a new session", at_once(server, b"T  DELETE^LOST\n", wanted))
            login = b"T  LOGIN A\n"
            wanted = login + b"T H ERROR FNF No such file.\n"
            self.check("what it wrote and did not close is lost", at_once(server, login + b"T H OPEN READ^LOST\n", wanted))
            problems = []
            for peer in (2, 3):
                problems += vanish_in_a_file(server, peer) + at_once(server, FILE_SCRIPT, FILE_REPLIES, peer)
            self.check("two that vanish in the middle of a file come back", problems)
            listed = sorted(path.name for path in server.folder.iterdir())
            self.check("no half of a file is left", [] if listed == ["A.LISP"] else [f"there are {listed}"])


# What `serve` tells of a connection.
OPENS, ENDS = b"chaosd: host 402 opens connection %06o\n", b"chaosd: connection %06o of host 402 ends: "


def of_a_connection(server):
    """The next line that a server tells of a connection."""
    line = line_of(server.process.stderr)
    while line.startswith(b"chaosd: host 402 at "):
        line = line_of(server.process.stderr)
    return uncounted(line)


def uncounted(line):
    """A line without its count of retransmissions: how many there are depends on what else the machine does."""
    return re.sub(rb"\d+ retransmissions?", b"N retransmissions", line)


class Told(Case):
    """What `serve` tells on its standard error."""

    seconds = 2

    def test_a_fault_of_the_store_is_told_and_the_service_goes_on(self):
        with serving() as server:
            (server.folder / "SUB").mkdir()
            os.mkfifo(server.folder / "FIFO")
            (server.folder / "A").write_bytes(b"(A)")
            asking = Asking(server.words())
            problems = asking.problems(
                (b"T  LOGIN LISPM", b"T  LOGIN LISPM"),
                (b"T H OPEN READ^SUB", b"T H ERROR STF Store fault."),
                (b"T H OPEN READ^FIFO", b"T H ERROR STF Store fault."),
                (b"T H OPEN WRITE^SUB", b"T H OPEN 0"),
                (b"T H WRITE^x", b"T H WRITE 1"),
                (b"T H CLOSE", b"T H ERROR STF Store fault."),
                (b"T  RENAME^A^SUB", b"T  ERROR STF Store fault."),
                (b"T  DELETE^FIFO", b"T  ERROR STF Store fault."),
                (b"T  RENAME^A^A", b"T  ERROR FAE File exists."),
                (b"T  RENAME^NONE^A", b"T  ERROR FNF No such file."),
                (b"T  RENAME^A^../A", b"T  ERROR ILP Illegal path."),
                (b"T G OPEN READ^.new", b"T G ERROR ILP Illegal path."),
            )
            (server.folder / "SUB").rmdir()
            problems += asking.problems((b"T H CLOSE", b"T H CLOSE 1"), (b"T  RENAME^A^B", b"T  RENAME"), (b"T  DELETE^B", b"T  DELETE"))
            problems += asking.end()
            listed = sorted(path.name for path in server.folder.iterdir())
            problems += [] if listed == ["FIFO", "SUB"] else [f"there are {listed}"]
            self.check("a store fault is told in the reply, and the same CLOSE succeeds later", problems)
            faults = [b"read SUB", b"read FIFO", b"write SUB", b"rename A to SUB", b"delete FIFO"]
            wanted = [b"chaosd: can't %s: it is no file\n" % fault for fault in faults]
            seen = [server.fault() for _ in wanted]
            self.check("and what it was on the server's standard error", [] if seen == wanted else [f"it said {seen}"])

    def test_quiet_tells_a_fault_of_the_store_and_nothing_else(self):
        with serving(options=["--quiet"]) as server:
            (server.folder / "SUB").mkdir()
            script = b"T  LOGIN LISPM\nT H OPEN READ^SUB\n"
            problems = run(server.words(), script).problems(DONE, b"T  LOGIN LISPM\nT H ERROR STF Store fault.\n", b"")
            seen = line_of(server.process.stderr)
            problems += [] if seen == b"chaosd: can't read SUB: it is no file\n" else [f"it said {seen!r}"]
            self.check("serve --quiet tells that, and nothing else", problems)

    def test_each_connection_that_opens_and_ends_is_told(self):
        """Who, how many commands, and why."""
        with serving() as server:
            for name, script, last in [
                ("a session", FILE_SCRIPT, b"LISPM, 7 commands, N retransmissions, done\n"),
                ("commands without a login", b"T1  DELETE^A.LISP\n", b"nobody, 1 command, N retransmissions, done\n"),
            ]:
                problems = [] if run(server.words(), script).status == DONE else ["it did not end well"]
                seen = [of_a_connection(server) for _ in range(2)]
                index = int(seen[0].split()[-1], 8) if b" opens connection " in seen[0] else 0
                wanted = [OPENS % index, ENDS % index + last]
                self.check(f"serve tells of {name}", problems + ([] if seen == wanted else [f"it said {seen}"]))

    def test_a_connection_that_its_peer_closes_is_told(self):
        with serving() as server, contextlib.closing(Peer(server)) as peer:
            peer.send(RFC, (SERVER, 0), peer.me, 5, 0, b"FILE")
            problems = [] if line_of(server.process.stderr) == OPENS % 0o1405 else ["its opening is not told"]
            index, first = struct.unpack(">2H", peer.receive()[14:18])
            peer.send(DATA, (SERVER, index), peer.me, 6, first, b"T  LOGIN M")
            peer.receive()
            peer.send(CLS, (SERVER, index), peer.me, 0, 0, b"Bye.")
            seen = uncounted(line_of(server.process.stderr))
            problems += [] if seen == ENDS % 0o1405 + b"M, 1 command, N retransmissions, closed by its host\n" else [f"it said {seen!r}"]
            self.check("serve tells of one that its peer closes", problems)


def unconnected_problems(peer, host, new):
    """What differs where a peer asks for what isn't there, sends to no connection, and what is no packet."""
    peer.send(RFC, host, peer.me, 7, 0, b"NONE")
    problems = peer.problems("NONE", CLS, peer.me, host, 0, 0, b"No server for this contact name.")
    peer.send(DATA, new, peer.me, 5, 0x10, b"A")
    problems += peer.problems("data", LOS, peer.me, new, 0, 0, b"No such connection.")
    request = datagram(RFC, host, peer.me)
    for rubbish in [b"", b"CH", b"CH\x01", datagram(DATA, new, peer.me)[:19], request + b"\x00", bytes(2_000)]:
        peer.socket.sendto(rubbish, peer.server)
    peer.send(RFC, (SERVER + 1, 0), peer.me, 5, 0, b"FILE")
    peer.send(RFC, host, (0, 1), 5, 0, b"FILE")
    return problems


def session_problems(peer, host):
    """What differs where a peer opens the connection of the first place, asks and closes it."""
    me, window = peer.me, USUAL_WINDOW
    peer.send(RFC, host, me, 5, 0, b"FILE and more")
    opened = peer.receive()
    index, first = struct.unpack(">2H", opened[14:18])
    new = (host[0], index)
    problems = [] if index % 256 == 1 and opened == peer.framed(OPN, me, new, first, 5, struct.pack("<2H", 5, window)) else [opened.hex(" ")]
    peer.send(SNS, new, me, 0, first)
    problems += peer.problems("SNS", STS, me, new, 0, 5, struct.pack("<2H", 5, window))
    peer.send(DATA, new, me, 7, first, b"T  DELETE\x8dA")
    peer.send(SNS, new, me, 0, first)
    problems += peer.problems("a gap", STS, me, new, 0, 5, struct.pack("<2H", 5, window))
    peer.send(DATA, new, me, 6, first, b"T  LOGIN M")
    second, third = (first + 1) % 65_536, (first + 2) % 65_536
    problems += peer.problems("the first reply", DATA, me, new, second, 6, b"T  LOGIN M")
    problems += peer.problems("the second reply", DATA, me, new, third, 7, b"T  ERROR FNF No such file.")
    peer.send(DATA, new, me, 6, third, b"T  LOGIN M")
    problems += peer.problems("a command again", STS, me, new, 0, 7, struct.pack("<2H", 7, window))
    peer.send(EOF, new, me, 8, third)
    return problems + peer.problems("EOF", CLS, me, new)


class Packets(Case):
    """A peer that is no program of ours."""

    def test_each_packet_counts_to_the_byte_and_17_connections_are_one_too_many(self):
        host, new = (SERVER, 0), (SERVER, 1)
        with serving(peers=2) as server, contextlib.closing(Peer(server)) as peer:
            self.check("a peer without a connection is answered to the byte, or not at all", unconnected_problems(peer, host, new))
            self.check("a peer opens, asks and closes, each packet to the byte", session_problems(peer, host))
            for n in range(17):
                peer.send(RFC, host, (CLIENT, n + 1), 5, 0, b"FILE")
            ops = [peer.receive()[4] for _ in range(17)]
            self.check("of 17 connections 16 are taken", [] if ops == [OPN] * 16 + [CLS] else [f"{ops}"])
            ended = run(server.words(1, FOR_LONG), FILE_SCRIPT)
            said = [b"refused the connection: Connection table full."]
            problems = ended.problems(REFUSED, NO_REPLY, said)
            self.check("ask: a request that is turned away has no reply, status 3, at once, and its text is told", problems)


class Indices(Case):
    """The indices of a server's connections."""

    def test_each_run_draws_the_generation_of_its_first_index(self):
        seen = []
        for _ in range(6):
            with serving() as server, contextlib.closing(Peer(server)) as peer:
                indices = []
                for n in range(3):
                    peer.send(RFC, (SERVER, 0), (CLIENT, n + 1), 5, 0, b"FILE")
                    indices.append(struct.unpack(">H", peer.receive()[14:16])[0])
                seen.append(indices)
        alike = [indices for indices in seen if {index >> 8 for index in indices} != {indices[0] >> 8}]
        places = [indices for indices in seen if [index % 256 for index in indices] != [1, 2, 3]]
        self.check("all slots of a run begin with the same generation", alike)
        self.check("an index has its place", places)
        self.check("six runs don't have the same generation", [] if len({indices[0] >> 8 for indices in seen}) > 1 else seen)


class Signals(Case):
    """SIGINT and SIGTERM."""

    def test_a_signal_ends_each_program(self):
        for number in [signal.SIGINT, signal.SIGTERM]:
            with serving() as server:
                programs = [("serve", server.process)]
                for words in [server.words(), ["loop"]]:
                    asking = Asking(words)
                    asking.reply(b"T  LOGIN LISPM")
                    programs.append((words[0], asking.process))
                for name, process in programs:
                    process.send_signal(number)
                    status = finished(process).status
                    problems = [] if status in (-number, 128 + number) else [f"status {status}"]
                    self.check(f"{signal.Signals(number).name} ends {name}", problems)
