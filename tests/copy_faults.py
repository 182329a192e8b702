"""Tests what `chaosd get` and `chaosd put` leave where a file can't be read or written, changes, or an end is killed: nothing half done."""

import contextlib
import os
import pathlib
import resource
import shutil
import signal
import threading
from unittest import mock

from tests import support
from tests.copying import NO_FILE, changing, copied, copying, left_problems, told_problems
from tests.support import (
    DONE, FAULT, FILE_LIMIT, LONG, REFUSED,
    Case, Relay, Serving, finished, folder, mixed_content, network_before, serving, stored_problems,
)  # fmt: skip

NOBODY = 65534


def limited():
    """A limit on a file's size, which stands for a full disk."""
    signal.signal(signal.SIGXFSZ, signal.SIG_IGN)
    resource.setrlimit(resource.RLIMIT_FSIZE, (10_000, 10_000))


class Files(Case):
    """Files that can't be read or written."""

    def test_what_a_local_file_refuses_is_told_and_the_next_is_got(self):
        with serving() as server, folder() as here:
            (server.folder / "A").write_bytes(b"new")
            (server.folder / "B").write_bytes(b"b")
            (here / "A").mkdir()
            ended = copied(server, "get", "A", "B", cwd=here)
            problems = told_problems(ended, rb"chaosd: can't write A: .*\n", FAULT) + stored_problems(here / "B", b"b") + left_problems(here)
            self.check("get onto a folder: status 1, and the next is got", problems)
            ended = copied(server, "put", "NOWHERE", cwd=here)
            self.check("put of what isn't there: status 1", told_problems(ended, rb"chaosd: can't open NOWHERE: .*\n", FAULT))
            ended = copied(server, "get", "A", options=["--output", "no/such/place"], cwd=here)
            problems = ended.problems(FAULT, b"", [b"chaosd: can't write no/such/place: "])
            self.check("get into a folder that isn't there: status 1", problems)
            ended = copied(server, "get", "NONE", "A", "B", cwd=here)
            problems = ended.problems(FAULT, b"", [NO_FILE % b"NONE", b"chaosd: can't write A: "])
            self.check("of a file that the server refuses and one that fails here the status is 1", problems)

    def test_what_the_servers_folder_refuses_is_told_and_the_next_is_put(self):
        with serving() as server, folder() as here:
            (server.folder / "SUB").mkdir()
            (here / "SUB").write_bytes(b"sub")
            (here / "B").write_bytes(b"more")
            ended = copied(server, "put", "SUB", "B", cwd=here)
            problems = ended.problems(REFUSED, b"", b"chaosd: SUB: STF Store fault.\n") + stored_problems(server.folder / "B", b"more")
            seen = server.fault()
            problems += [] if seen == b"chaosd: can't write SUB: it is no file\n" else [f"the server said {seen!r}"]
            self.check("a put that the server's folder refuses at its CLOSE: its code and text, status 3, and the next is put", problems)

    def test_get_to_a_full_disk_is_told_and_the_old_file_stays(self):
        with serving() as server, folder() as here:
            (server.folder / "F").write_bytes(mixed_content(50_000))
            (here / "F").write_bytes(b"old")
            ended = copied(server, "get", "F", cwd=here, prepare=limited)
            problems = ended.problems(FAULT, b"", [b"chaosd: can't write F: "])
            problems += stored_problems(here / "F", b"old") + left_problems(here)
            self.check("get to a full disk: told, status 1, and the old file stays", problems)

    def test_put_to_a_full_disk_is_told_and_the_old_file_stays(self):
        with serving(prepare=limited) as server, folder() as here:
            (server.folder / "F").write_bytes(b"old")
            (here / "F").write_bytes(mixed_content(50_000))
            (here / "G").write_bytes(b"more")
            ended = copied(server, "put", "F", "G", cwd=here)
            problems = ended.problems(REFUSED, b"", b"chaosd: F: STF Store fault.\n")
            problems += stored_problems(server.folder / "F", b"old") + stored_problems(server.folder / "G", b"more")
            self.check("put to a full disk: the server's code and text, status 3, the old file stays, and the next is put", problems)
            seen = server.fault()
            problems = [] if seen.startswith(b"chaosd: can't write F: File too large") else [f"it said {seen!r}"]
            self.check("and the server tells what the system said", problems)


# The superuser may write anywhere: nobody takes his place.


def as_nobody():
    if os.getuid() == 0:
        os.setgid(NOBODY)
        os.setuid(NOBODY)


def given(place, mode):
    """A place that becomes nobody's, with this mode."""
    if os.getuid() == 0:
        os.chown(place, NOBODY, NOBODY)
    place.chmod(mode)
    return place


@contextlib.contextmanager
def room():
    """A folder for nobody, with a program that he can run, a folder `kept` for a server, and one, `here`, for a client."""
    with folder() as place:
        given(place, 0o755)
        program = given(pathlib.Path(shutil.copy(support.PROGRAM, place)), 0o755)
        for name in ["kept", "here"]:
            (place / name).mkdir()
            given(place / name, 0o700)
        with mock.patch.object(support, "PROGRAM", program):
            yield place / "kept", place / "here"
        for name in ["kept", "here"]:
            given(place / name, 0o700)


class Forbidden(Case):
    """Folders in which this user may write nothing."""

    def test_a_folder_without_permission_is_told_at_each_side(self):
        with room() as (kept, here):
            server = Serving(kept, prepare=as_nobody)
            self.addCleanup(server.end)
            for path in [kept / "F", here / "UP"]:
                path.write_bytes(b"new")
                given(path, 0o600)
            given(here, 0o500)
            ended = copied(server, "get", "F", cwd=here, prepare=as_nobody)
            problems = ended.problems(FAULT, b"", [b"chaosd: can't write F: "]) + left_problems(here)
            self.check("get into a folder without permission: told, status 1", problems)
            given(kept, 0o500)
            ended = copied(server, "put", "UP", options=["--as", "F"], cwd=here, prepare=as_nobody)
            problems = ended.problems(REFUSED, b"", b"chaosd: UP: STF Store fault.\n")
            seen = server.fault()
            problems += [] if seen.startswith(b"chaosd: can't write F: Permission denied") else [f"the server said {seen!r}"]
            self.check("put into a folder without permission: the server's code and text, status 3, and what the system said", problems)


class Counting(Relay):
    """A network that counts what it hands on."""

    def __init__(self, port, ends):
        super().__init__(port, ends)
        self.enough, self.count = threading.Condition(), 0

    def passed(self, datagram, port):
        with self.enough:
            self.count += 1
            self.enough.notify_all()
        return [(datagram, port)]

    def wait_for(self, count):
        """Waits until it handed so many on."""
        with self.enough:
            self.enough.wait_for(lambda: self.count >= count, LONG)


class Middle(Case):
    """What happens while a file travels."""

    seconds = 6

    def check_changed(self, name, old, new):
        """A file is got that becomes another behind the first READ, and then is got again."""
        places = []

        def change(is_clients, text):
            if is_clients and text.endswith(b" READ") and places:
                places.pop().write_bytes(new)
            return text

        with changing(change) as (server, network), folder() as here:
            (server.folder / "F").write_bytes(old)
            places.append(server.folder / "F")
            problems = copied(network, "get", "F", cwd=here).problems(DONE, b"", b"") + stored_problems(here / "F", old)
            problems += ["it wasn't changed"] if places else []
            self.check(f"get of a file that {name} under way", problems)
            problems = copied(network, "get", "F", cwd=here).problems(DONE, b"", b"") + stored_problems(here / "F", new)
            self.check(f"and the next get of the one that {name}", problems)

    def test_a_file_that_changes_comes_as_it_was_when_it_was_opened(self):
        old = mixed_content(40 * 448)
        self.check_changed("grows", old, old * 2)
        self.check_changed("shrinks", old, old[:500])

    def check_killed(self, subcommand, victim):
        content = mixed_content(FILE_LIMIT)
        with serving() as server, folder() as here:
            source, target = (here, server.folder) if subcommand == "put" else (server.folder, here)
            (source / "F").write_bytes(content)
            (target / "F").write_bytes(b"old")
            with network_before(server, Counting) as network:
                client = copying(network, subcommand, "F", options=["--window", "1"], cwd=here)
                network.wait_for(40)
                (client if victim == "client" else server.process).kill()
                ended = finished(client, patience=LONG)
            is_told = victim == "server" and ended.status != DONE
            problems = told_problems(ended, rb"chaosd: F: .*\n") if is_told else []
            server.end()
            seen = target / "F"
            problems += [] if seen.read_bytes() in (b"old", content) else [f"{seen.name} has {seen.stat().st_size} bytes"]
            self.check(f"the {victim} of a {subcommand} is killed: old or whole", problems)

    def test_an_end_that_is_killed_leaves_the_old_file_or_the_whole_new_one(self):
        for subcommand, victim in [("put", "client"), ("get", "client"), ("put", "server"), ("get", "server")]:
            self.check_killed(subcommand, victim)

    def test_a_get_that_is_interrupted_leaves_nothing_that_is_taken_for_the_file(self):
        content = mixed_content(FILE_LIMIT)
        with serving() as server, folder() as here:
            (server.folder / "F").write_bytes(content)
            with network_before(server, Counting) as network:
                client = copying(network, "get", "F", options=["--window", "1"], cwd=here)
                network.wait_for(40)
                client.send_signal(signal.SIGINT)
                finished(client, patience=LONG)
            seen = here / "F"
            problems = [] if not seen.exists() or seen.read_bytes() == content else ["half a file has the name"]
            problems += [f"{each.name} isn't hidden" for each in here.iterdir() if each.name != "F" and not each.name.startswith(".")]
            self.check("get that is interrupted", problems)
