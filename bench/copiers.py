"""Programs that copy files between two hosts: chaosd, the same in plain Rust, and what a user would take instead.

Each is a server on a folder, and a client of it that runs in another folder. A copier says why it can't run here, where it can't.
"""

import contextlib
import dataclasses
import os
import pathlib
import shutil
import signal
import socket
import subprocess
import threading
import time

import line

HERE = pathlib.Path(__file__).resolve().parent
FILE_LIMIT = 1_048_576
FILE_DATA = 448
# seconds in which a server has to be there, and in which a client has to end
PATIENCE, MOST = 20, 300
PATH = os.environ["PATH"] + ":/usr/sbin:/sbin"


def content_of(count=FILE_LIMIT):
    """So many bytes of a file."""
    return bytes(0x21 + n % 50 for n in range(count))


def build_plain(folder):
    """The plain Rust program, for the processor that rt builds for."""
    program = f"{folder}/plain_loop"
    subprocess.run(["rustc", "--edition=2021", "-O", "-C", "target-cpu=x86-64-v2", "-o", program, HERE / "plain_loop.rs"], check=True)
    return program


@dataclasses.dataclass
class Spent:
    """What a run of a client took: seconds, and seconds of its processor time."""

    seconds: float
    processor: float


def spent_by(words, folder):
    """Runs a client in a folder."""
    start = time.perf_counter()
    client = subprocess.Popen(words, cwd=folder, stdin=subprocess.DEVNULL, stdout=subprocess.DEVNULL, stderr=subprocess.PIPE)
    timer = threading.Timer(MOST, client.kill)
    timer.start()
    told = client.stderr.read()
    _, status, used = os.wait4(client.pid, 0)
    seconds = time.perf_counter() - start
    timer.cancel()
    client.returncode = os.waitstatus_to_exitcode(status)
    if client.returncode:
        raise subprocess.CalledProcessError(client.returncode, words, stderr=told)
    return Spent(seconds, used.ru_utime + used.ru_stime)


def told_by(fault):
    """What a fault of a copier says, in a line."""
    if isinstance(fault, subprocess.CalledProcessError):
        last = (fault.stderr or b"").decode(errors="replace").strip().splitlines()[-1:]
        return " ".join([f"the client ended with {fault.returncode}", *last])
    return str(fault)


class Copier:
    """A program's server and client at a place of a line; the server runs while the copier's block does."""

    name, needs, several, control = "", [], True, line.CONTROL

    def missing(self):
        """What it needs and isn't here, or None."""
        missing = [program for program in self.needs if not shutil.which(program, path=PATH)]
        return f"{' and '.join(missing)} can't be found" if missing else None

    @contextlib.contextmanager
    def serving(self, place, folder, scratch, before=()):
        """The server on a folder, with its own files in another; `before` are words that stand before its own."""
        self.place, self.folder, self.scratch = place, pathlib.Path(folder), pathlib.Path(scratch)
        self.scratch.mkdir(exist_ok=True)
        with open(self.scratch / "log", "wb") as log:
            words = [*place.at_server, *before, *self.server()]
            server = subprocess.Popen(list(map(str, words)), stdin=subprocess.DEVNULL, stdout=log, stderr=log)
        try:
            self.await_server(server)
            yield server
        finally:
            self.end(server, before)

    def end(self, server, before):
        if before:
            # strace itself would leave its server behind
            for own in pathlib.Path(f"/proc/{server.pid}/task/{server.pid}/children").read_text().split():
                os.kill(int(own), signal.SIGTERM)
        else:
            server.terminate()
        server.wait(PATIENCE)

    def await_server(self, server):
        """Waits until the server has said that it is there."""
        until = time.monotonic() + PATIENCE
        while not self.is_there():
            if server.poll() is not None or time.monotonic() > until:
                raise OSError(f"{self.name}: the server isn't there: {(self.scratch / 'log').read_text(errors='replace')}")
            time.sleep(0.01)

    def is_there(self):
        """Whether somebody listens at the port, seen from the client."""
        words = [*self.place.at_client, "bash", "-c", f": < /dev/tcp/{self.place.host}/{self.place.port}"]
        return subprocess.run(words, stderr=subprocess.DEVNULL).returncode == 0

    def client(self, way, names):
        """The words of the client that puts or gets files of these names."""
        return [*self.place.at_client, *map(str, self.words(way, names))]

    def copied(self, way, names, here):
        return spent_by(self.client(way, names), here)


class Chaosd(Copier):
    """chaosd, or the plain Rust program, which has no options. With a key its datagrams are sealed."""

    def __init__(self, name, program, window=None, carriage=None, has_key=False):
        self.name, self.program, self.has_key = name, program, has_key
        self.carriage = ["--carriage", str(carriage)] if carriage else []
        self.window = ["--window", str(window)] if window else []

    def key(self):
        """The option that names the key's file, which is written where it isn't there."""
        if not self.has_key:
            return []
        file = self.scratch / "key"
        if not file.exists():
            file.touch(mode=0o600)
            file.write_text("5a" * 32 + "\n")
        return ["--key", str(file)]

    def server(self):
        peer = f"402={self.place.seen_client}"
        return [self.program, "serve", *self.key(), *self.carriage, *self.window, "401", self.place.server, self.folder, peer]

    def is_there(self):
        return b"serves" in (self.scratch / "log").read_bytes()

    def words(self, way, names):
        return [self.program, way, *self.key(), *self.carriage, "402", self.place.client, f"401={self.place.seen_server}", *names]


NGINX = """user root;
daemon off;
worker_processes 1;
pid {scratch}/pid;
error_log {scratch}/errors;
events {{ worker_connections 64; }}
http {{
    access_log off;
    sendfile on;
    client_max_body_size 8m;
    client_body_temp_path {folder}/.temp;
    keepalive_requests 10000;
    server {{
        listen {host}:{port};
        root {folder};
        dav_methods PUT;
    }}
}}
"""


class Curl(Copier):
    """curl and nginx: all files of a command go over one connection."""

    needs = ["curl", "nginx"]

    def __init__(self, control=line.CONTROL):
        self.name, self.control = f"curl, {control}", control

    def missing(self):
        known = line.CONTROLS.read_text().split() if line.CONTROLS.exists() else [line.CONTROL]
        return super().missing() or (None if self.control in known else f"this system has no {self.control}")

    def server(self):
        text = NGINX.format(scratch=self.scratch, folder=self.folder, host=self.place.host, port=self.place.port)
        (self.scratch / "conf").write_text(text)
        return [shutil.which("nginx", path=PATH), "-p", self.scratch, "-e", self.scratch / "errors", "-c", self.scratch / "conf"]

    def words(self, way, names):
        at = f"http://{self.place.host}:{self.place.port}"
        own = ["curl", "--silent", "--show-error", "--fail"]
        if way == "put":
            return [*own, "--upload-file", f"{{{','.join(names)}}}", f"{at}/"]
        return [*own, "--remote-name-all", *[f"{at}/{name}" for name in names]]


SSHD = """ListenAddress {host}:{port}
HostKey {scratch}/host_key
AuthorizedKeysFile {scratch}/own_key.pub
PidFile none
StrictModes no
UsePAM no
PermitRootLogin yes
Subsystem sftp internal-sftp
"""


class Scp(Copier):
    """scp and sshd, with keys that are made for them."""

    name, needs = "scp", ["scp", "sshd", "ssh-keygen"]

    def missing(self):
        return super().missing() or (None if os.geteuid() == 0 else "sshd needs root")

    def server(self):
        for key in ["host_key", "own_key"]:
            subprocess.run(["ssh-keygen", "-q", "-t", "ed25519", "-N", "", "-f", self.scratch / key], check=True)
        (self.scratch / "conf").write_text(SSHD.format(scratch=self.scratch, host=self.place.host, port=self.place.port))
        pathlib.Path("/run/sshd").mkdir(exist_ok=True)
        return [shutil.which("sshd", path=PATH), "-D", "-e", "-f", self.scratch / "conf"]

    def words(self, way, names):
        told = [f"UserKnownHostsFile={self.scratch}/known", "StrictHostKeyChecking=no", "BatchMode=yes", "LogLevel=ERROR"]
        own = ["scp", "-q", "-F", "/dev/null", "-P", self.place.port, "-i", self.scratch / "own_key", *[f"-o{it}" for it in told]]
        far = f"root@{self.place.host}:{self.folder}"
        if way == "put":
            return [*own, *names, f"{far}/"]
        # a pattern, since scp makes a connection for each name
        return [*own, f"{far}/{names[0] if len(names) == 1 else os.path.commonprefix(names) + '*'}", "."]


class Atftp(Copier):
    """atftp and atftpd, with windows of 32 blocks of 512 bytes: one file a command."""

    name, needs, several = "atftp", ["atftp", "atftpd"], False

    def server(self):
        own = [shutil.which("atftpd", path=PATH), "--daemon", "--no-fork", "--user", "root.root", "--logfile", "-"]
        return [*own, "--bind-address", self.place.host, "--port", self.place.port, self.folder]

    def is_there(self):
        """Whether the port of UDP is taken, as the server's namespace has it."""
        table = subprocess.run([*self.place.at_server, "cat", "/proc/net/udp"], capture_output=True, text=True).stdout
        address = socket.inet_aton(self.place.host)[::-1].hex().upper()
        return f"{address}:{self.place.port:04X}" in table

    def words(self, way, names):
        (name,) = names
        which = ["-p", "-l", name, "-r", name] if way == "put" else ["-g", "-r", name, "-l", name]
        return ["atftp", "--option", "windowsize 32", *which, self.place.host, self.place.port]
