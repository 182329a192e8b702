"""Hosts by name: the hosts table, where it is looked for, what `serve` takes from it, and what becomes of it while `serve` runs."""

import contextlib
import os
import pathlib
import subprocess
import tempfile

from tests.support import (BAD_LINE, DONE, FAULT, FOR_LONG, PATIENCE, Case, Ended, Serving, at, finished, free_ports, mixed_content,
                           started, stored_problems)


def written(path, *lines):
    """A file of these lines, in folders that are made for it."""
    path.parent.mkdir(parents=True, exist_ok=True)
    path.write_text("".join(f"{line}\n" for line in lines))
    return path


class Place:
    """A folder with a server's table, a client's table, and a folder of files, and the environment of a user there."""

    def __init__(self, name, clients=2):
        self.top = pathlib.Path(name)
        self.port, *self.ports = free_ports(1 + clients)
        self.files = self.top / "files"
        self.files.mkdir()
        own = [f"{0o402 + n:o} {at(port)} self" for n, port in enumerate(self.ports)]
        self.table = written(self.top / "client", "# what we know", f"401 {at(self.port)} lispm lm1.mit.example", *own)
        self.served = written(self.top / "server", f"401 {at(self.port)} self",
                              *(f"{0o402 + n:o} {at(port)} client{n}" for n, port in enumerate(self.ports)))
        self.home = self.top / "home"
        self.home.mkdir()

    def environment(self, **more):
        kept = {key: value for key, value in os.environ.items() if key not in ("CHAOSD_HOSTS", "XDG_CONFIG_HOME", "HOME")}
        return {**kept, "HOME": str(self.home), **more}

    def begin(self, *words, **more):
        streams = {"stdin": subprocess.DEVNULL, "stdout": subprocess.PIPE, "stderr": subprocess.PIPE}
        return started([*map(str, words)], env=self.environment(**more), cwd=self.top, **streams)

    def run(self, *words, **more) -> Ended:
        return finished(self.begin(*words, **more), patience=PATIENCE)

    def call(self, subcommand, *words):
        """A call by the client's table."""
        return self.run(subcommand, "--hosts", self.table, *FOR_LONG, *words)


class ServingTable(Serving):
    """`serve` by a table."""

    def __init__(self, place, *options):
        self.folder = place.files
        self.line, self.prepare = ["serve", *options, "--hosts", str(place.served), str(place.files)], lambda: None
        self.told = [b"401", at(place.port).encode()]
        self.begin()


@contextlib.contextmanager
def place(clients=2, serves=True):
    with tempfile.TemporaryDirectory() as name:
        found = Place(name, clients)
        server = ServingTable(found) if serves else None
        found.server = server
        try:
            yield found
        finally:
            if server:
                server.end()


class ByName(Case):
    """Calls of a host by its name."""

    seconds = 10

    def test_files_are_put_got_renamed_and_deleted(self):
        with place() as here:
            for name, content in [("A.LISP", b"(a)"), ("B.LISP", b"")]:
                (here.top / name).write_bytes(content)
            self.check("put", here.call("put", "A.LISP", "B.LISP", "lispm:").problems(DONE, b"", b""))
            self.check("stored", stored_problems(here.files / "A.LISP", b"(a)") + stored_problems(here.files / "B.LISP", b""))
            self.check("get, by another name and case", here.call("get", "LM1.mit.example:A.LISP", "copy").problems(DONE, b"", b""))
            self.check("got", stored_problems(here.top / "copy", b"(a)"))
            (here.top / "to").mkdir()
            self.check("get into a folder", here.call("get", "lispm:A.LISP", "Lispm:B.LISP", "to/").problems(DONE, b"", b""))
            self.check("got there", stored_problems(here.top / "to/A.LISP", b"(a)") + stored_problems(here.top / "to/B.LISP", b""))
            self.check("rename", here.call("rename", "lispm:A.LISP", "C.LISP").problems(DONE, b"", b""))
            self.check("delete", here.call("delete", "lispm:B.LISP", "lispm:C.LISP").problems(DONE, b"", b""))
            self.check("nothing is left", [each.name for each in here.files.iterdir() if not each.name.startswith(".")])

    def test_a_script_is_put_to_a_host(self):
        with place() as here:
            asked = started(["ask", "--hosts", str(here.table), *FOR_LONG, "lispm"], stdin=subprocess.PIPE, stdout=subprocess.PIPE,
                            stderr=subprocess.PIPE)
            self.check("asked", finished(asked, b"T1  LOGIN LISPM\n").problems(DONE, b"T1  LOGIN LISPM\n", b""))

    def test_two_copies_at_once_take_an_entry_each(self):
        with place() as here:
            content = mixed_content(1_000_000)
            (here.top / "A").write_bytes(content)
            (here.top / "B").write_bytes(content[::-1])
            both = [here.begin("put", "--hosts", here.table, *FOR_LONG, name, "lispm:") for name in "AB"]
            for name, each in zip("AB", both):
                self.check(f"put of {name}", finished(each).problems(DONE, b"", b""))
            self.check("stored", stored_problems(here.files / "A", content) + stored_problems(here.files / "B", content[::-1]))

    def test_an_entry_that_is_in_use_is_passed_over_until_none_is_left(self):
        with place(clients=1) as here:
            (here.top / "A").write_bytes(b"a")
            ready, write = os.pipe()
            waiting = started(["ask", "--hosts", str(here.table), "lispm"], stdin=ready, stdout=subprocess.PIPE, stderr=subprocess.PIPE)
            os.close(ready)
            os.write(write, b"T1  LOGIN LISPM\n")
            waiting.stdout.read(1)
            refused = here.call("put", "A", "lispm:")
            self.check("refused", refused.problems(FAULT, b"", [b"chaosd: ", b"each entry self is in use: ", b"in use"]))
            os.close(write)
            self.check("the other", finished(waiting).problems(DONE, None, b""))
            self.check("then", here.call("put", "A", "lispm:").problems(DONE, b"", b""))


class Tables(Case):
    """Where a table is looked for, and what is wrong with tables."""

    seconds = 5

    def test_the_option_comes_before_the_variable_and_the_users_file(self):
        with place() as here:
            good = here.table.read_text()
            (here.top / "A").write_bytes(b"a")
            user = written(here.home / ".config/chaosd/hosts", good)
            self.check("the user's", here.run("put", *FOR_LONG, "A", "lispm:").problems(DONE, b"", b""))
            other = written(here.top / "xdg/chaosd/hosts", good.replace("lispm", "elsewhere"))
            self.check("XDG", here.run("put", *FOR_LONG, "A", "elsewhere:", XDG_CONFIG_HOME=str(other.parents[1])).problems(DONE, b"", b""))
            relative = here.run("put", *FOR_LONG, "A", "lispm:", XDG_CONFIG_HOME="xdg")
            self.check("a relative path is ignored", relative.problems(DONE, b"", b""))
            named = written(here.top / "named", good.replace("lispm", "named"))
            self.check("the variable", here.run("put", *FOR_LONG, "A", "named:", CHAOSD_HOSTS=str(named)).problems(DONE, b"", b""))
            last = here.run("put", "--hosts", here.table, *FOR_LONG, "A", "lispm:", CHAOSD_HOSTS=str(named))
            self.check("the option", last.problems(DONE, b"", b""))
            missing = here.run("put", "A", "lispm:", CHAOSD_HOSTS=str(here.top / "nowhere"))
            self.check("no such file", missing.problems(FAULT, b"", [b"chaosd: can't read the hosts table ", b"nowhere: "]))
            user.unlink()

    def test_a_bad_line_is_reported_with_file_line_and_reason(self):
        with place(serves=False) as here:
            (here.top / "A").write_bytes(b"a")
            for line, reason in [
                ("9 127.0.0.1:9 x", "'9' is no Chaosnet address"),
                ("404", "'404' has no UDP address"),
                ("404 127.0.0.1:0 x", "'127.0.0.1:0' is no UDP address"),
                ("404 127.0.0.1:9", "'404' has no name"),
                ("404 127.0.0.1:9 44", "'44' is no name of a host"),
                (f"401 {at(9)} other", "'401' has an entry already"),
                (f"404 {at(9)} LISPM", "'LISPM' names a host already"),
                ("* *", "'*' has no UDP address"),
            ]:
                bad = written(here.top / "bad", *here.table.read_text().splitlines(), line)
                place_of = len(bad.read_text().splitlines())
                ended = here.run("put", "--hosts", bad, "A", "lispm:")
                self.check(line, ended.problems(BAD_LINE, b"", [f"chaosd: {bad}: line {place_of}: {reason}".encode()]))

    def test_what_a_line_needs_of_the_table_is_reported(self):
        with place(serves=False) as here:
            (here.top / "A").write_bytes(b"a")
            table = str(here.table).encode()
            self.check("no such host", here.call("put", "A", "nobody:").problems(BAD_LINE, b"", b"chaosd: %s: there is no host nobody\n" % table))
            star = written(here.top / "star", "401 * lispm", f"402 {at(here.ports[0])} self")
            self.check("no UDP address", here.run("put", "--hosts", star, "A", "lispm:").problems(
                BAD_LINE, b"", b"chaosd: %s: lispm has no UDP address, and there is no bridge\n" % str(star).encode()))
            alone = written(here.top / "alone", f"401 {at(here.port)} lispm")
            self.check("no entry self", here.run("put", "--hosts", alone, "A", "lispm:").problems(
                BAD_LINE, b"", [b"chaosd: %s: there is no entry self" % str(alone).encode()]))
            self.check("serve without one", here.run("serve", "--hosts", alone, here.files).problems(
                BAD_LINE, b"", b"chaosd: %s: there is no entry self\n" % str(alone).encode()))

    def test_a_table_that_is_too_long_or_no_text_is_refused(self):
        with place(serves=False) as here:
            (here.top / "A").write_bytes(b"a")
            for name, content in [("long", b"# " + b"x" * 65_535), ("bytes", b"\xff\n")]:
                (here.top / name).write_bytes(content)
                ended = here.run("put", "--hosts", here.top / name, "A", "lispm:")
                self.check(name, ended.problems(FAULT, b"", [b"chaosd: can't read the hosts table "]))


class Served(Case):
    """`serve` by a table that changes."""

    seconds = 45

    def test_a_new_peer_needs_no_restart(self):
        with place(clients=1) as here:
            (new,) = free_ports(1)
            (here.top / "A").write_bytes(b"a")
            client = written(here.top / "new", f"401 {at(here.port)} lispm", f"405 {at(new)} self")
            written(here.served, *here.served.read_text().splitlines(), f"405 {at(new)} new")
            self.check("logged", [] if b"read again, 2 other hosts\n" in here.server.line_with(b"hosts table") else ["nothing is logged"])
            self.check("put", here.run("put", "--hosts", client, *FOR_LONG, "A", "lispm:").problems(DONE, b"", b""))
            self.check("an old peer", here.call("get", "lispm:A", "copy").problems(DONE, b"", b""))

    def test_a_bad_table_changes_nothing(self):
        with place(clients=1) as here:
            (here.top / "A").write_bytes(b"a")
            written(here.served, "401 nonsense self")
            line = here.server.line_with(b"hosts table")
            self.check("logged", [] if b"line 1: 'nonsense' is no UDP address" in line and b"the hosts stay" in line else [repr(line)])
            self.check("put", here.call("put", "A", "lispm:").problems(DONE, b"", b""))

    def check_logged(self, here, name, *wanted):
        """The next lines about the table, which all come of one text."""
        lines = [here.server.line_with(b"hosts table").decode() for _ in wanted]
        self.check(name, [] if lines == [f"chaosd: hosts table {here.served}: {it}\n" for it in wanted] else [repr(lines)])

    def test_an_own_entry_that_changes_needs_a_restart(self):
        with place(clients=1) as here:
            (other,) = free_ports(1)
            (here.top / "A").write_bytes(b"a")
            own, client = here.served.read_text().splitlines()
            changed, again = "the first entry self changed, which needs a restart", "read again, 1 other host"
            for name, line, wanted in [
                ("another Chaosnet address", f"407 {at(here.port)} self", [changed]),
                ("another UDP address", f"401 {at(other)} self", [changed]),
                ("no UDP address", "401 * self", [changed]),
                ("no entry", "#", ["there is no entry self, which a restart needs"]),
                ("the entry of the start", own, []),
            ]:
                written(here.served, line, client)
                self.check_logged(here, name, again, *wanted)
            written(here.served, own, client, f"405 {at(other)} new")
            self.check_logged(here, "nothing more", "read again, 2 other hosts")
            self.check("put", here.call("put", "A", "lispm:").problems(DONE, b"", b""))

    def test_a_new_host_outside_the_bridge_needs_a_restart(self):
        with place(clients=1, serves=False) as here:
            bridge, new = free_ports(2)
            lines = [*here.served.read_text().splitlines(), f"* {at(bridge)}"]
            written(here.served, *lines)
            here.server = ServingTable(here, "--chudp", "--bridge", "501")
            try:
                written(here.served, *lines, f"405 {at(new)} outside", f"1402 {at(bridge)} behind", f"501 {at(bridge)} bridge")
                wanted = "host 405 outside the bridge is new, which needs a restart"
                self.check_logged(here, "outside", "read again, 4 other hosts", wanted)
                written(here.served, *lines)
                self.check_logged(here, "gone", "read again, 1 other host")
            finally:
                here.server.end()

    def test_a_table_that_a_start_would_refuse_is_left(self):
        with place(clients=1, serves=False) as here:
            (here.top / "A").write_bytes(b"a")
            here.server = ServingTable(here, "--only-peers")
            try:
                written(here.served, *here.served.read_text().splitlines(), "404 * roaming")
                self.check_logged(here, "a host with *", "a host with * can't be heard with --only-peers; the hosts stay")
                self.check("put", here.call("put", "A", "lispm:").problems(DONE, b"", b""))
            finally:
                here.server.end()

    def test_a_host_is_followed_where_it_goes(self):
        with place(clients=2) as here:
            server = ServingAt(here, "402=*")
            try:
                for port in here.ports:
                    (here.top / "A").write_bytes(b"%d" % port)
                    table = written(here.top / "moving", f"401 {at(server.port)} lispm", f"402 {at(port)} self")
                    self.check(f"from {port}", here.run("put", "--hosts", table, *FOR_LONG, "A", "lispm:").problems(DONE, b"", b""))
                    self.check("stored", stored_problems(server.folder / "A", b"%d" % port))
                table = written(here.top / "any", f"401 {at(server.port)} lispm", "402 * self")
                self.check("at any port", here.run("get", "--hosts", table, *FOR_LONG, "lispm:A", "copy").problems(DONE, b"", b""))
            finally:
                server.end()


class ServingAt(Serving):
    """`serve` at a port of its own, with these peers."""

    def __init__(self, here, *peers):
        self.folder = here.top / "followed"
        self.folder.mkdir()
        (self.port,) = free_ports(1)
        self.line, self.prepare = ["serve", "401", at(self.port), str(self.folder), *peers], lambda: None
        self.told = [at(self.port).encode()]
        self.begin()
