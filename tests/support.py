"""What the tests of the program share: checks, runs of the program, ports, folders, servers and networks of 127.0.0.1.

    python3 -m unittest tests.copies            the tests of one file, from the top of the repository
    python3 -m unittest tests.copies -k window  those with a word in their names
    make test NAME=copies                       the same, and what they need is compiled first

The program is bin/chaosd, or the one that CHAOSD names.
"""

import contextlib
import functools
import itertools
import os
import pathlib
import random
import select
import shutil
import signal
import socket
import struct
import subprocess
import tempfile
import threading
import time
import unittest

ROOT = pathlib.Path(__file__).resolve().parent.parent
PROGRAM = pathlib.Path(os.environ.get("CHAOSD", ROOT / "bin/chaosd")).resolve()

DONE, FAULT, BAD_LINE, REFUSED, NO_MEMORY = range(5)

# The most bytes of an input, of a line of a script, of a line of `show`, of a packet's data, and of a file.
INPUT_LIMIT, LINE_LIMIT, SHOW_LINE_LIMIT, DATA_LIMIT, FILE_LIMIT = 1_048_576, 4_096, 8_192, 488, 1_048_576
# The bytes of a file that one reply of READ, or one WRITE, carries.
FILE_DATA = 448

SERVER, CLIENT = 0o401, 0o402
# The window that `serve` and `ask` announce, and the one of a copy. They never announce another.
USUAL_WINDOW, COPYING_WINDOW = 13, 64

# Whether the program is one that `tools/checked` compiled: it takes ten times as long, and reserves memory of its own.
IS_CHECKED = PROGRAM.is_file() and b"AddressSanitizer" in PROGRAM.read_bytes()
# Seconds, all far away, so that no verdict rests on how fast the machine is: what is waited for comes by then or never. The second is
# for runs that wait for a thousand turns, or copy much.
PATIENCE, LONG = 600, 1_200
# What comes at once on a machine at rest.
SOON = PATIENCE
# The option of a client that waits for a reply for longer than any test. Such a run that ends within a test waited for none.
FOR_LONG = ["--timeout", "1000"]


class Checking(unittest.TestCase):
    """Tests of several checks. Classes run side by side, those first that say that they take the most seconds. A class names the program
    that it needs beside `chaosd`, by words of tools/checked."""

    seconds, needs = 1, []

    def check(self, name, problems):
        """One check of several in a test, which holds where there are no problems. The others follow in either case."""
        with self.subTest(name):
            if problems:
                self.fail("\n".join(problems))


class Case(Checking):
    """Tests of the program."""

    @classmethod
    def setUpClass(cls):
        if not PROGRAM.is_file():
            raise FileNotFoundError(f"{PROGRAM} isn't there: `make try` builds bin/chaosd without proof, and `make` a proved one")


def checked(name, *words):
    """A program that `tools/checked` compiles, with checks and without proof. Where it isn't there, the test is skipped."""
    program = ROOT / "out/checked" / name
    if not program.is_file():
        raise unittest.SkipTest(f"out/checked/{name} isn't there: `{' '.join(['tools/checked', *words, name])}` compiles it")
    return program


def preloaded(folder, name):
    """The library of tests/NAME.c, which is loaded before the C library of a program. Where cc isn't there, the test is skipped."""
    if not shutil.which("cc"):
        raise unittest.SkipTest(f"cc isn't there, which tests/{name}.c wants")
    library = pathlib.Path(folder) / f"{name}.so"
    subprocess.run(["cc", "-shared", "-fPIC", "-O1", "-o", library, ROOT / f"tests/{name}.c", "-ldl"], check=True)
    return library


# Runs of the program.


class Ended:
    """How a run of the program ended."""

    def __init__(self, status, out, err):
        self.status = status
        self.out = out
        self.err = err

    def problems(self, status, out=None, err=None):
        """What differs from what is wanted. A text that is a list has to stand in the output piece by piece."""
        found = []
        if self.status != status:
            found.append(f"status {self.status} and not {status}")
        for name, seen, wanted in [("output", self.out, out), ("error output", self.err, err)]:
            if isinstance(wanted, list):
                found += [f"no {piece!r} in {name} {seen!r}" for piece in wanted if piece not in seen]
            elif wanted is not None and seen != wanted:
                found.append(f"{name} {seen[:300]!r} and not {wanted[:300]!r}")
        return found


def finished(process, given=None, patience=PATIENCE):
    """How a process ended that is given so much, and no more. One that doesn't end in time is ended."""
    try:
        out, err = process.communicate(given, timeout=patience)
    except subprocess.TimeoutExpired:
        process.kill()
        out, err = process.communicate()
        return Ended("after its time", out or b"", err or b"")
    return Ended(process.returncode, out or b"", err or b"")


def run(words, given=b"", stdin=None, stdout=None, closed=(), patience=PATIENCE):
    """Runs the program on the words. What it is given comes through a pipe, or from the file `stdin`; what it writes goes
    to a pipe, or to the file `stdout`. The file descriptors in `closed` are closed before it starts."""

    def close():
        for number in closed:
            os.close(number)

    pipe = subprocess.PIPE
    streams = {"stdin": pipe if stdin is None else stdin, "stdout": pipe if stdout is None else stdout, "stderr": pipe}
    process = subprocess.Popen([PROGRAM, *words], preexec_fn=close, **streams)
    return finished(process, given if stdin is None else None, patience)


def started(words, prepare=lambda: None, **streams):
    """The program, started on the words, by a process that was prepared so. Signals end it as they do by default."""

    def begin():
        signal.signal(signal.SIGINT, signal.SIG_DFL)
        prepare()

    return subprocess.Popen([PROGRAM, *words], preexec_fn=begin, **streams)


def within(stream, count, patience=PATIENCE):
    """So many bytes of an unbuffered stream, or as many as came in time."""
    seen, end = b"", time.monotonic() + patience
    while len(seen) < count and select.select([stream], [], [], max(0, end - time.monotonic()))[0]:
        more = os.read(stream.fileno(), count - len(seen))
        if not more:
            break
        seen += more
    return seen


def line_of(stream, patience=SOON):
    """The next line of an unbuffered stream, or as much of it as came in time."""
    seen, end = b"", time.monotonic() + patience
    while not seen.endswith(b"\n"):
        more = within(stream, 1, max(0, end - time.monotonic()))
        if not more:
            break
        seen += more
    return seen


# Folders and contents.


@contextlib.contextmanager
def folder():
    """A folder that goes with all that is in it."""
    with tempfile.TemporaryDirectory() as name:
        yield pathlib.Path(name)


def joined(lines):
    return b"".join(line + b"\n" for line in lines)


def plain_content(size):
    """So many bytes that a script writes as they are."""
    plain = bytes(byte for byte in range(0x20, 0x7F) if byte not in b"^\\")
    return (plain * (size // len(plain) + 1))[:size]


def mixed_content(size):
    """So many bytes of every value."""
    return random.Random(size).randbytes(size)


def stored_problems(path, content):
    """What differs from the content in a stored file."""
    if not path.is_file():
        return [f"{path.name} isn't there"]
    seen = path.read_bytes()
    return [] if seen == content else [f"{path.name} holds {len(seen)} bytes that differ from the {len(content)}"]


# Sockets of 127.0.0.1.


def at(port):
    return f"127.0.0.1:{port}"


def is_free(port):
    """Whether nobody has this port of 127.0.0.1."""
    with socket.socket(socket.AF_INET, socket.SOCK_DGRAM) as one:
        try:
            one.bind(("127.0.0.1", port))
        except OSError:
            return False
    return True


@functools.cache
def ports_in_turn():
    """The ports of this process, by chance, and each again only after all others: whoever chose one binds it later."""
    first, last = map(int, os.environ.get("TEST_PORTS", "10000-31999").split("-"))
    return itertools.cycle(random.sample(range(first, last + 1), last + 1 - first))


def free_ports(count):
    """Ports of 127.0.0.1 that nobody has: none of those that the system hands out by itself, which another may have by the time
    that it is bound, and none of those of tests that run beside, which have ranges of their own in TEST_PORTS."""
    return list(itertools.islice(filter(is_free, ports_in_turn()), count))


class Serving:
    """`serve` as host 000401 on a folder, with peers from 000402 on, and others that are given as words of its line."""

    def __init__(self, folder, peers=1, options=(), prepare=lambda: None, others=()):
        self.folder = pathlib.Path(folder)
        self.port, *self.peers = free_ports(1 + peers)
        words = [f"{CLIENT + n:o}={at(port)}" for n, port in enumerate(self.peers)]
        self.line, self.prepare = ["serve", *options, "401", at(self.port), folder, *words, *others], prepare
        self.told = [] if {"--quiet", "quiet"} & {*options} else [b"401", at(self.port).encode(), str(folder).encode()]
        self.begin()

    def begin(self):
        """Starts it, and waits until it says that it listens."""
        self.process = started(self.line, self.prepare, stderr=subprocess.PIPE, stdout=subprocess.PIPE)
        self.said = b""
        while self.untold() and (line := line_of(self.process.stderr)):
            self.said += line

    def untold(self):
        """What it has to say when it listens, and did not."""
        return [piece for piece in self.told if piece not in self.said]

    def fault(self):
        """The next line in which it tells what the folder's system said, or the last that came in time."""
        return self.line_with(b"chaosd: can't ")

    def line_with(self, piece):
        """The next line that it logs with this piece, or the last that came in time."""
        line = line_of(self.process.stderr)
        while line and piece not in line:
            line = line_of(self.process.stderr)
        return line

    def words(self, peer=0, options=()):
        """The words of `ask` for that peer."""
        return ["ask", *options, f"{CLIENT + peer:o}", at(self.peers[peer]), "401", f"401={at(self.port)}"]

    def end(self):
        self.process.kill()
        self.process.communicate()


@contextlib.contextmanager
def serving(peers=1, options=(), prepare=lambda: None):
    """A server on a folder of its own."""
    with tempfile.TemporaryDirectory() as name:
        server = Serving(name, peers, options, prepare)
        try:
            yield server
        finally:
            server.end()


class Relay(threading.Thread):
    """A network between a server and a client, each at a port. What becomes of each datagram is what `passed` says: by default it is
    handed on. To the client the network stands for the server: it has a port, and a peer at another."""

    def __init__(self, port, ends):
        super().__init__(daemon=True)
        self.socket = socket.socket(socket.AF_INET, socket.SOCK_DGRAM)
        self.socket.bind(("127.0.0.1", port))
        self.port, self.peers = port, [ends[1]]
        self.other = {ends[0]: ends[1], ends[1]: ends[0]}
        self.is_over = False

    def run(self):
        while not self.is_over:
            for each, to in self.taken():
                self.hand_on(each, to)

    def taken(self):
        """What becomes of the next datagram. One of another port is nobody's."""
        datagram, (_, port) = self.socket.recvfrom(4_096)
        return self.passed(datagram, self.other[port]) if port in self.other else []

    def hand_on(self, datagram, port):
        with contextlib.suppress(OSError):
            self.socket.sendto(datagram, ("127.0.0.1", port))

    def passed(self, datagram, port):
        """The datagrams that are handed on now that this came for a port, and each one's port."""
        return [(datagram, port)]

    def close(self):
        """Ends it, wakes it up by a datagram of its own, and gives its port back."""
        self.is_over = True
        self.hand_on(b"", self.port)
        self.join()
        self.socket.close()


# The opcodes of packets that tell a status.
STATUSES = (0o2, 0o7)


class Lossy(Relay):
    """A network that loses, repeats and reorders. It keeps the first four bytes of each datagram, and the windows that the statuses
    tell of those of version 1."""

    def __init__(self, port, ends):
        super().__init__(port, ends)
        self.heads, self.windows, self.late = [], set(), None
        self.count, self.lost, self.random = 0, 0, random.Random(1981)

    def passed(self, datagram, port):
        self.count += 1
        self.heads.append(datagram[:4])
        if datagram[2] == 1 and datagram[4] in STATUSES:
            self.windows.update(struct.unpack(">H", datagram[22:24]))
        chance = self.random.randrange(10)
        if chance == 0:
            self.lost += 1
            return []
        if chance == 1 and self.late is None:
            self.late = datagram, port
            return []
        late, self.late = self.late, None
        return [(datagram, port)] * (2 if chance == 2 else 1) + ([late] if late else [])


@contextlib.contextmanager
def network_before(server, make=Relay):
    """A network between a server and its first peer."""
    (client,) = free_ports(1)
    network = make(server.peers[0], (server.port, client))
    network.start()
    try:
        yield network
    finally:
        network.close()
