"""Servers that have keys: what the tests of sealed hosts share."""

import contextlib
import pathlib
import tempfile
import threading

from tests.copying import copied
from tests.support import FOR_LONG, Serving, at, free_ports

KEY = bytes(range(32))


def key_file(place, name="402.key", key=KEY):
    """A key in a file that nobody else can read."""
    path = pathlib.Path(place) / name
    path.write_text(key.hex() + "\n")
    path.chmod(0o600)
    return path


class SealedServing(Serving):
    """`serve` by a hosts table: host 402 has a key with it where that is wished, and host 403 has the same key where all are to have one, and
    none otherwise. Its log is read as it comes."""

    def __init__(self, place, is_sealed=True, of_all=False, options=()):
        top = pathlib.Path(place)
        self.folder, self.key, table = top / "files", key_file(top), top / "hosts"
        self.folder.mkdir()
        self.is_sealed = is_sealed
        self.port, *self.peers = free_ports(3)
        keys = [f"key={self.key.name}" if it else "" for it in (is_sealed, is_sealed and of_all)]
        lines = [f"401 {at(self.port)} self", f"402 {at(self.peers[0])} laptop {keys[0]}", f"403 {at(self.peers[1])} other {keys[1]}"]
        table.write_text("".join(f"{line}\n" for line in lines))
        self.line, self.prepare = ["serve", "--log", "all", *options, "--hosts", str(table), str(self.folder)], lambda: None
        self.told = [b"401", at(self.port).encode()]
        self.begin()

    def begin(self):
        super().begin()
        self.log = []
        self.reader = threading.Thread(target=lambda: self.log.extend(self.process.stderr), daemon=True)
        self.reader.start()

    def end(self):
        """Ends it. All that it logged is there then."""
        self.process.kill()
        self.process.wait()
        self.reader.join()
        self.process.stderr.close()
        self.process.stdout.close()

    def options(self):
        """The options by which host 402 calls it."""
        return ["--key", str(self.key)] if self.is_sealed else []

    def logged(self, piece):
        return [line for line in self.log if piece in line]


@contextlib.contextmanager
def sealed_serving(is_sealed=True, of_all=False, options=()):
    with tempfile.TemporaryDirectory() as name:
        server = SealedServing(name, is_sealed, of_all, options)
        try:
            yield server
        finally:
            server.end()


def called(server, place, subcommand, *names, options=FOR_LONG, **streams):
    """How a call of host 402 ended, at a server or through a network before it."""
    return copied(place, subcommand, *names, options=[*server.options(), *options], **streams)
