"""Tests `chaosd get` and `chaosd put` as their users meet them: whole files between two processes over UDP."""

import contextlib
import itertools
import os
import pty
import re
import resource
import time

from tests.copying import NO_FILE, copied, copying, left_problems
from tests.packets import DATA, EOF
from tests.support import (
    BAD_LINE, DONE, FAULT, FILE_LIMIT, FOR_LONG, IS_CHECKED, LONG, REFUSED,
    Case, Ended, Relay, finished, folder, mixed_content, network_before, run, serving, stored_problems,
)  # fmt: skip

# What a client says that finds all slots of the server taken.
FULL = b"it refused the connection: Connection table full.\n"

SIZES = [0, 1, 447, 448, 449, 100_000, FILE_LIMIT]


class Lines(Case):
    """Lines that are none of `get` or `put`."""

    def test_a_wrong_line_is_told_before_anything_is_opened(self):
        line = ["402", "127.0.0.1:9002", "401=127.0.0.1:9001"]
        for name, bad in [
            ("no file", ["get", *line]),
            ("a path with a slash", ["get", *line, "A/B"]),
            ("a path with a dot in front", ["get", *line, ".A"]),
            ("one path twice", ["get", *line, "A", "A"]),
            ("two locals of one name", ["put", *line, "a/X", "b/X"]),
            ("two locals of one name when they are renamed", ["put", "--rename", *line, "a+b", "a_b"]),
            ("an output for two files", ["get", "--output", "X", *line, "A", "B"]),
            ("a name for two files", ["put", "--as", "X", *line, "A", "B"]),
            ("standard input without a name", ["put", *line, "-"]),
            ("no window", ["get", "--window", "0", *line, "A"]),
            ("a window of 65", ["get", "--window", "65", *line, "A"]),
            ("a server without a socket", ["get", "402", "127.0.0.1:9002", "401", "A"]),
            ("a user's name with a dash", ["get", "--login", "A-B", *line, "A"]),
        ]:
            ended = run(bad)
            self.check(f"{bad[0]} with {name}: status 2", ended.problems(BAD_LINE) + ([] if ended.err else ["it told nothing"]))


class Whole(Case):
    """Files that come whole, byte for byte."""

    seconds = 6

    def test_files_of_many_sizes_and_every_byte_go_both_ways(self):
        with serving() as server, folder() as here:
            for size in SIZES:
                content = bytes(range(256)) * (size // 256) + bytes(range(size % 256))
                (here / "UP").write_bytes(content)
                problems = copied(server, "put", "UP", cwd=here).problems(DONE, b"", b"")
                self.check(f"put: {size} bytes", problems + stored_problems(server.folder / "UP", content))
                (server.folder / "DOWN").write_bytes(content)
                problems = copied(server, "get", "DOWN", cwd=here).problems(DONE, b"", b"")
                self.check(f"get: {size} bytes", problems + stored_problems(here / "DOWN", content) + left_problems(here))
            (here / "BIG").write_bytes(bytes(FILE_LIMIT + 1))
            ended = copied(server, "put", "BIG", cwd=here)
            problems = ended.problems(REFUSED, b"", b"chaosd: BIG has more than 1048576 bytes\n")
            self.check("put: a file of 1,048,577 bytes is refused before anything is sent", problems)

    def test_of_many_files_those_are_got_that_are_there(self):
        with serving() as server, folder() as here:
            contents = {f"F{n}": mixed_content(n) for n in range(200)}
            for name, content in contents.items():
                (server.folder / name).write_bytes(content)
            ended = copied(server, "get", *contents, "NONE", cwd=here)
            problems = ended.problems(REFUSED, b"", NO_FILE % b"NONE")
            for name, content in contents.items():
                problems += stored_problems(here / name, content)
            self.check("get: 200 files, and one that isn't there", problems + left_problems(here))
            ended = copied(server, "get", "NONE", "F7", cwd=here)
            self.check("get: the next file is tried", ended.problems(REFUSED, b"", NO_FILE % b"NONE"))

    def test_server_and_client_may_send_by_different_carriages(self):
        content = mixed_content(100_000)
        for version, own in itertools.product(["1", "2"], repeat=2):
            with serving(options=["--carriage", version]) as server, folder() as here:
                (here / "UP").write_bytes(content)
                (server.folder / "DOWN").write_bytes(content)
                problems = copied(server, "put", "UP", options=["--carriage", own], cwd=here).problems(DONE, b"", b"")
                problems += copied(server, "get", "DOWN", options=["--carriage", own], cwd=here).problems(DONE, b"", b"")
                problems += stored_problems(server.folder / "UP", content) + stored_problems(here / "DOWN", content)
                self.check(f"serve --carriage {version}, put and get --carriage {own}", problems)

    def test_a_copy_needs_little_of_the_stack(self):
        # a program with checks takes more of it
        stack = 262_144 if IS_CHECKED else 131_072

        def limited():
            resource.setrlimit(resource.RLIMIT_STACK, (stack, stack))

        content = mixed_content(FILE_LIMIT)
        with serving() as server, folder() as here:
            (here / "UP").write_bytes(content)
            (server.folder / "DOWN").write_bytes(content)
            for subcommand, name, seen in [("put", "UP", server.folder / "UP"), ("get", "DOWN", here / "DOWN")]:
                ended = copied(server, subcommand, name, cwd=here, prepare=limited)
                problems = ended.problems(DONE) + stored_problems(seen, content)
                self.check(f"{subcommand} of 1 MiB with a stack of {stack // 1024} KiB", problems)


class Again(Relay):
    """A network that counts how often an end sends what it keeps again."""

    def __init__(self, port, ends):
        super().__init__(port, ends)
        self.seen, self.is_again, self.rounds = set(), {}, 0

    def passed(self, datagram, port):
        if datagram[4:5] >= bytes([DATA]) or datagram[4:5] == bytes([EOF]):
            item = datagram[8:18]
            self.rounds += item in self.seen and not self.is_again.get(port)
            self.is_again[port] = item in self.seen
            self.seen.add(item)
        return [(datagram, port)]


class Windows(Case):
    """Every window carries files whole, and none starves: an end that waits for what doesn't come sends again for each file."""

    seconds = 20

    # A machine that is slow for a while makes an end send again, too: then a copy is tried again.
    TRIES = 5

    def copy_problems(self, server, subcommand, names, window, here):
        """What is wrong with the least troubled of some copies of these files. An end that starves sends again for each of them."""
        for _ in range(self.TRIES):
            with network_before(server, Again) as network:
                problems = copied(network, subcommand, *names, options=["--window", window, *FOR_LONG], cwd=here).problems(DONE, b"", b"")
            if problems or network.rounds < len(names):
                return problems
        return [f"{network.rounds} times it was sent again"]

    def check_windows(self, own, others):
        """The server's window, and each of its clients'."""
        names = [f"F{n}" for n in range(32)]
        content = mixed_content(9_000)
        with serving(options=["--window", own]) as server, folder() as here:
            for window, (subcommand, source, target) in itertools.product(others, [("get", server.folder, here), ("put", here, server.folder)]):
                for name in names:
                    (source / name).write_bytes(content)
                    (target / name).unlink(missing_ok=True)
                problems = self.copy_problems(server, subcommand, names, window, here)
                for name in names:
                    problems += stored_problems(target / name, content)
                self.check(f"serve --window {own}, {subcommand} --window {window}", problems)

    def test_each_window_of_a_client_carries_files_from_and_to_the_usual_one(self):
        self.check_windows("13", ["1", "2", "13", "14", "39", "40", "64"])

    def test_the_least_and_the_greatest_window_of_a_server_carry_files(self):
        for own, others in [("1", ["1", "64"]), ("2", ["64"]), ("64", ["1", "13", "64"])]:
            self.check_windows(own, others)


class Streams(Case):
    """Standard input and output in a file's place, and texts."""

    def test_standard_streams_stand_for_a_file(self):
        content = mixed_content(5_000)
        with serving() as server, folder() as here:
            problems = copied(server, "put", "-", options=["--as", "IN"], given=content, cwd=here).problems(DONE, b"", b"")
            self.check("put -", problems + stored_problems(server.folder / "IN", content))
            ended = copied(server, "get", "IN", options=["--output", "-"], cwd=here)
            self.check("get --output -", ended.problems(DONE, content, b""))
            ended = copied(server, "put", "-", options=["--as", "IN"], given=bytes(FILE_LIMIT + 1), cwd=here)
            problems = ended.problems(REFUSED, b"", b"chaosd: - has more than 1048576 bytes\n")
            self.check("put - of 1,048,577 bytes is refused", problems + stored_problems(server.folder / "IN", content))

    def test_a_standard_stream_that_fails_is_told(self):
        content = mixed_content(5_000)
        with serving() as server, folder() as here:
            (server.folder / "IN").write_bytes(content)
            full = os.open("/dev/full", os.O_WRONLY)
            reader, unread = os.pipe()
            os.close(reader)
            for name, place in [("an output that takes nothing", full), ("a pipe that nobody reads", unread)]:
                ended = copied(server, "get", "IN", options=["--output", "-"], cwd=here, stdout=place)
                os.close(place)
                self.check(f"get to {name}: told, status 1", ended.problems(FAULT, b"", [b"chaosd: can't write -: "]))
            ended = copied(server, "get", "IN", options=["--output", "-"], cwd=here, prepare=lambda: os.close(1))
            self.check("get with standard output closed: told, status 1", ended.problems(FAULT, None, [b"chaosd: can't write -: "]))
            ended = copied(server, "put", "-", options=["--as", "IN"], cwd=here, prepare=lambda: os.close(0))
            problems = ended.problems(FAULT, b"", [b"chaosd: -: "]) + stored_problems(server.folder / "IN", content)
            self.check("put - with standard input closed: told, status 1, and nothing is put", problems)

    def test_text_comes_back_as_it_was_or_is_refused(self):
        text, lisp = b"(A)\n\tB\x08\x0c", b"(A)\x8d\x89B\x88\x8c"
        with serving() as server, folder() as here:
            (here / "T").write_bytes(text)
            problems = copied(server, "put", "T", options=["--text"], cwd=here).problems(DONE, b"", b"")
            self.check("put --text", problems + stored_problems(server.folder / "T", lisp))
            problems = copied(server, "get", "T", options=["--text"], cwd=here).problems(DONE, b"", b"")
            self.check("get --text", problems + stored_problems(here / "T", text))
            (here / "U").write_bytes("č\n".encode())
            ended = copied(server, "put", "U", options=["--text"], cwd=here)
            problems = ended.problems(REFUSED, b"", b"chaosd: U has a byte 8D at line 1, byte 2, which --text would not give back; leave --text out\n")
            problems += ["it was put"] if (server.folder / "U").exists() else []
            self.check("put --text of a text with a byte that would not come back", problems)
            (server.folder / "V").write_bytes(b"a\nb")
            ended = copied(server, "get", "V", options=["--text"], cwd=here)
            problems = ended.problems(REFUSED, b"", b"chaosd: V has a byte 0A at line 1, byte 2, which --text would not give back; leave --text out\n")
            problems += ["it was written"] if (here / "V").exists() else []
            self.check("get --text likewise", problems)


class Several(Case):
    """Several copies at once."""

    seconds = 3

    def test_of_two_puts_on_one_path_one_is_there_whole(self):
        one, other = mixed_content(200_000), mixed_content(200_001)
        with serving(peers=2) as server, folder() as here:
            (here / "ONE").write_bytes(one)
            (here / "OTHER").write_bytes(other)
            running = [copying(server, "put", name, options=["--as", "F"], peer=n, cwd=here) for n, name in enumerate(["ONE", "OTHER"])]
            problems = []
            for process in running:
                problems += finished(process, patience=LONG).problems(DONE, b"", b"")
            is_one = any(not stored_problems(server.folder / "F", content) for content in (one, other))
            problems += [] if is_one else ["it is neither"]
            self.check("two puts at once on one path", problems)

    def test_sixteen_clients_get_a_file_each(self):
        with serving(peers=16) as server, folder() as here:
            contents = [mixed_content(30_000 + n) for n in range(16)]
            for n, content in enumerate(contents):
                (server.folder / f"F{n}").write_bytes(content)
            running = [copying(server, "get", f"F{n}", options=FOR_LONG, peer=n, cwd=here) for n in range(16)]
            problems, end = [], time.monotonic() + LONG
            for n, process in enumerate(running):
                ended = finished(process, patience=LONG)
                # On a slow machine a client asks again from another index, and so takes two of the server's sixteen slots for a while.
                while ended.err.endswith(FULL) and time.monotonic() < end:
                    ended = copied(server, "get", f"F{n}", options=FOR_LONG, peer=n, cwd=here)
                problems += ended.problems(DONE, b"", b"") or stored_problems(here / f"F{n}", contents[n])
            self.check("sixteen clients at once", problems)


def shown(*words, **more):
    """How a copy ended whose standard error is a terminal, with what that was shown."""
    near, far = pty.openpty()
    process = copying(*words, stderr=far, **more)
    os.close(far)
    seen = b""
    # Reading fails where nobody has the terminal's other end any more.
    with contextlib.suppress(OSError):
        while piece := os.read(near, 4_096):
            seen += piece
    os.close(near)
    ended = finished(process, patience=LONG)
    return Ended(ended.status, ended.out, seen)


class Terminals(Case):
    """What a terminal is shown of a copy."""

    seconds = 3

    def test_a_line_is_told_of_each_file(self):
        with serving() as server, folder() as here:
            (server.folder / "A").write_bytes(b"(A)")
            for options, wanted in [([], rb"A 3 bytes, (\d+ ms|\d+\.\d s), \d+ k?B/s\r\n"), (["--quiet"], rb"")]:
                ended = shown(server, "get", "A", options=options, cwd=here)
                is_told = re.search(wanted + rb"\Z", ended.err) and bool(ended.err) == bool(wanted)
                problems = ended.problems(DONE, b"") + ([] if is_told else [f"{ended.err!r}"])
                self.check(f"get {' '.join(options)} on a terminal", problems)

    def test_the_line_has_the_other_name_that_a_file_goes_under(self):
        """Standard output is no such name, and neither is a name whose last part is the path."""
        rows = [
            ("put", ["--rename"], ["a+b", "NONE", "sub/.dot", "sub/A"], FAULT, [b"a+b as a_b", b"sub/.dot as _dot", b"sub/A"]),
            ("put", ["--as", "B"], ["sub/A"], DONE, [b"sub/A as B"]),
            ("put", ["--as", "B"], ["xB"], DONE, [b"xB as B"]),
            ("put", ["--as", "A"], ["sub/A"], DONE, [b"sub/A"]),
            ("get", ["--output", "C"], ["A"], DONE, [b"A as C"]),
            ("get", ["--output", "sub/C"], ["A"], DONE, [b"A as sub/C"]),
            ("get", ["--output", "sub/A"], ["A"], DONE, [b"A"]),
            ("get", ["--output", "sub/"], ["A"], DONE, [b"A"]),
            ("get", ["--output", "-"], ["A"], DONE, [b"A"]),
        ]  # fmt: skip
        with serving() as server, folder() as here:
            (here / "sub").mkdir()
            for name in ["a+b", "xB", "sub/.dot", "sub/A"]:
                (here / name).write_bytes(name.encode())
            for subcommand, options, names, status, wanted in rows:
                ended = shown(server, subcommand, *names, options=options, cwd=here)
                seen = re.findall(rb"^(?:.*\x1b\[K)?(.*) \d+ bytes, ", ended.err, re.MULTILINE)
                problems = ended.problems(status) + ([] if seen == wanted else [f"{seen} in {ended.err!r}"])
                self.check(f"{subcommand} {' '.join(options + names)}", problems)
            ended = copied(server, "put", "-", options=["--as", "IN", "--verbose"], given=b"x", cwd=here)
            self.check("put --verbose of standard input", ended.problems(DONE, b"", [b"- as IN 1 bytes, "]))

    def test_a_line_is_told_of_each_change(self):
        """On a terminal, and with `--verbose` elsewhere."""
        changes = [(["rename", "A", "B"], b"A renamed to B"), (["delete", "B"], b"B deleted")]
        with serving() as server:
            for options, is_told, is_told_elsewhere in [([], True, False), (["--quiet"], False, False), (["--verbose"], True, True)]:
                for how, is_wanted, end in [(shown, is_told, b"\r\n"), (copied, is_told_elsewhere, b"\n")]:
                    (server.folder / "A").write_bytes(b"(A)")
                    for words, line in changes:
                        problems = how(server, *words, options=options).problems(DONE, b"", line + end if is_wanted else b"")
                        self.check(f"{' '.join(words[:1] + options)}, {how.__name__}", problems)
