"""Tests where `chaosd get` writes files, and what `get` and `put` tell of them: what they replace, what they refuse, and what is closed."""

import contextlib
import hashlib
import os
import resource
import socket
import stat
import subprocess

from tests.copying import copied, left_problems, told_problems
from tests.support import (
    DONE, FAULT, FOR_LONG, REFUSED, Case, at, finished, folder, free_ports, mixed_content, serving, started, stored_problems,
)  # fmt: skip

SMALL = 10_000


def limited():
    """A limit on the size of the files that a process writes, and the system's way with one that passes it: it ends the process."""
    resource.setrlimit(resource.RLIMIT_FSIZE, (SMALL, SMALL))


def mode_problems(place, mode):
    """What differs from this mode of a file."""
    found = stat.S_IMODE(place.stat().st_mode)
    return [] if found == mode else [f"{place.name} has mode {found:o}, not {mode:o}"]


def made(place, kind):
    """Something of this kind at a place."""
    if kind == "folder":
        place.mkdir()
    elif kind == "link":
        place.symlink_to("elsewhere")
    elif kind == "fifo":
        os.mkfifo(place)
    else:
        listener = socket.socket(socket.AF_UNIX)
        listener.bind(str(place))
        listener.close()


class Targets(Case):
    """What a file that is got may replace, and where it may go."""

    seconds = 3

    def test_what_is_no_file_is_refused_by_name(self):
        with serving() as server, folder() as here:
            (server.folder / "A").write_bytes(b"new")
            for kind in ["folder", "link", "fifo", "socket"]:
                made(here / kind, kind)
                ended = copied(server, "get", "A", options=["--output", kind], cwd=here)
                problems = ended.problems(FAULT, b"", f"chaosd: can't write {kind}: it is a {kind}\n".encode())
                problems += ["it is gone"] if not os.path.lexists(here / kind) else []
                self.check(f"get onto a {kind}: told, status 1", problems + left_problems(here))
            ended = copied(server, "get", "A", options=["--output", "/dev/full"], cwd=here)
            self.check("get onto a device", ended.problems(FAULT, b"", b"chaosd: can't write /dev/full: it is a device\n"))
            self.check("nothing was made where the link leads", ["it is there"] if (here / "elsewhere").exists() else [])

    def test_two_devices_are_written_as_such(self):
        with serving() as server, folder() as here:
            (server.folder / "A").write_bytes(b"new")
            ended = copied(server, "get", "A", options=["--output", "/dev/null"], cwd=here)
            problems = ended.problems(DONE, b"", b"")
            problems += [] if stat.S_ISCHR(os.stat("/dev/null").st_mode) else ["/dev/null is no device any more"]
            self.check("get --output /dev/null", problems)
            ended = copied(server, "get", "NONE", options=["--output", "/dev/null"], cwd=here)
            self.check("get --output /dev/null of a file that isn't there", ended.problems(REFUSED, b""))
            ended = copied(server, "get", "A", options=["--output", "/dev/stdout"], cwd=here)
            self.check("get --output /dev/stdout", ended.problems(DONE, b"new", b""))

    def test_several_files_go_into_a_folder(self):
        with serving() as server, folder() as here:
            contents = {f"F{n}": mixed_content(500 + n) for n in range(5)}
            for name, content in contents.items():
                (server.folder / name).write_bytes(content)
            (here / "sub").mkdir()
            ended = copied(server, "get", *contents, options=["--output", "sub/"], cwd=here)
            problems = ended.problems(DONE, b"", b"")
            for name, content in contents.items():
                problems += stored_problems(here / "sub" / name, content)
            self.check("get --output DIR/ of five files", problems + left_problems(here / "sub"))
            ended = copied(server, "get", "F0", options=["--output", "sub/"], cwd=here)
            self.check("get --output DIR/ of one", ended.problems(DONE, b"", b""))
            ended = copied(server, "get", "F0", "F1", options=["--output", "none/"], cwd=here)
            told = [b"chaosd: can't write none/F0: No such file", b"chaosd: can't write none/F1: No such file"]
            self.check("get --output DIR/ of a folder that isn't there", ended.problems(FAULT, b"", told))

    def test_a_file_that_is_replaced_leaves_its_mode(self):
        with serving() as server, folder() as here:
            (server.folder / "A").write_bytes(b"new")
            for mode in [0o600, 0o400, 0o755]:
                (here / "A").unlink(missing_ok=True)
                (here / "A").write_bytes(b"old")
                (here / "A").chmod(mode)
                problems = copied(server, "get", "A", cwd=here).problems(DONE, b"", b"") + stored_problems(here / "A", b"new")
                self.check(f"get over a file of mode {mode:o}", problems + mode_problems(here / "A", mode))
            (here / "A").unlink()
            ended = copied(server, "get", "A", cwd=here, prepare=lambda: os.umask(0o027))
            self.check("get of a new file takes the umask's", ended.problems(DONE, b"", b"") + mode_problems(here / "A", 0o640))


class Sources(Case):
    """What is put of local files that are none."""

    seconds = 3

    def test_what_is_no_file_is_refused_by_name_and_the_next_is_put(self):
        with serving() as server, folder() as here:
            (here / "G").write_bytes(b"g")
            for kind, told in [
                ("folder", b"chaosd: folder is a folder; FILE has no folders: name its files, as in folder/*\n"),
                ("fifo", b"chaosd: can't open fifo: it is a fifo; - reads standard input\n"),
                ("socket", b"chaosd: can't open socket: it is a socket; - reads standard input\n"),
            ]:
                made(here / kind, kind)
                ended = copied(server, "put", kind, "G", cwd=here)
                problems = ended.problems(FAULT, b"", told) + stored_problems(server.folder / "G", b"g")
                problems += ["it was put"] if (server.folder / kind).exists() else []
                self.check(f"put of a {kind}: reported, status 1, and the next is put", problems)
            (here / "LINK").symlink_to("fifo")
            ended = copied(server, "put", "LINK", cwd=here)
            told = b"chaosd: can't open LINK: it is a fifo; - reads standard input\n"
            self.check("put of a link to a fifo", ended.problems(FAULT, b"", told))
            told = b"chaosd: can't open /dev/zero: it is a device; - reads standard input\n"
            self.check("put of a device", copied(server, "put", "/dev/zero").problems(FAULT, b"", told))

    def test_a_pipe_of_this_process_is_put_by_its_name(self):
        content = mixed_content(5_000)
        with serving() as server:
            for folder_of in ["/dev/fd", "/proc/self/fd"]:
                reader, writer = os.pipe()
                os.write(writer, content)
                os.close(writer)
                ended = copied(server, "put", f"{folder_of}/{reader}", options=["--as", "P"], pass_fds=[reader])
                os.close(reader)
                self.check(f"put {folder_of}/N", ended.problems(DONE, b"", b"") + stored_problems(server.folder / "P", content))
                (server.folder / "P").unlink(missing_ok=True)
            ended = copied(server, "put", "/dev/stdin", options=["--as", "P"], given=content)
            self.check("put /dev/stdin", ended.problems(DONE, b"", b"") + stored_problems(server.folder / "P", content))
            ended = copied(server, "put", "/dev/null", options=["--as", "E"])
            self.check("put /dev/null", ended.problems(DONE, b"", b"") + stored_problems(server.folder / "E", b""))


class Before(Case):
    """What is made sure before anything is asked of a server."""

    def test_a_place_that_can_not_be_written_is_told_at_once(self):
        own, other = free_ports(2)
        with folder() as here:
            (here / "A").mkdir()
            for output, said in [("no/such/place", b"No such file or directory"), ("A", b"it is a folder")]:
                line = ["get", *FOR_LONG, "--output", output, "402", at(own), f"401={at(other)}", "F"]
                ended = finished(started(line, stdin=subprocess.DEVNULL, stdout=subprocess.PIPE, stderr=subprocess.PIPE, cwd=here))
                problems = told_problems(ended, rb"chaosd: can't write " + output.encode() + b": " + said + rb".*\n", FAULT)
                self.check(f"get --output {output} where no server is", problems)
            self.check("nothing is left", left_problems(here))


class Limits(Case):
    """Files of more bytes than a process may write, whose write the system answers by its end."""

    seconds = 2

    def test_get_of_too_large_a_file_is_told_and_leaves_nothing(self):
        with serving() as server, folder() as here:
            (server.folder / "F").write_bytes(mixed_content(5 * SMALL))
            (server.folder / "G").write_bytes(b"g")
            (here / "F").write_bytes(b"old")
            ended = copied(server, "get", "F", "G", cwd=here, prepare=limited)
            problems = ended.problems(FAULT, b"", [b"chaosd: can't write F: File too large"])
            problems += stored_problems(here / "F", b"old") + stored_problems(here / "G", b"g") + left_problems(here)
            self.check("get past the limit of sizes: told, status 1, and the next is got", problems)

    def test_get_past_the_limit_through_standard_output_is_told(self):
        content, small = mixed_content(SMALL - 100), mixed_content(101)
        with serving() as server, folder() as here:
            (server.folder / "F").write_bytes(content)
            (server.folder / "G").write_bytes(small)
            out = here / "out"
            for output in ["-", "/dev/stdout"]:
                told = f"chaosd: can't write {output}: File too large".encode()
                for name, mode, status, kept in [("F", "wb", DONE, content), ("G", "ab", FAULT, content), ("G", "wb", DONE, small)]:
                    with out.open(mode) as stream:
                        ended = copied(server, "get", name, options=["--output", output], stdout=stream, prepare=limited)
                    problems = ended.problems(status, None, [told] if status == FAULT else b"") + stored_problems(out, kept)
                    self.check(f"get --output {output} of {name} into a file, as {mode}: status {status}", problems)
            (server.folder / "F").write_bytes(mixed_content(5 * SMALL))
            ended = copied(server, "get", "F", options=["--output", "-"], prepare=limited)
            self.check("get --output - of more into a pipe", ended.problems(DONE, mixed_content(5 * SMALL), b""))

    def test_put_of_too_large_a_file_is_a_store_fault_and_the_server_goes_on(self):
        with serving(prepare=limited) as server, folder() as here:
            (here / "F").write_bytes(mixed_content(5 * SMALL))
            (here / "G").write_bytes(b"g")
            ended = copied(server, "put", "F", "G", cwd=here)
            problems = ended.problems(REFUSED, b"", b"chaosd: F: STF Store fault.\n") + stored_problems(server.folder / "G", b"g")
            problems += [f"{each.name} is left" for each in server.folder.iterdir() if each.name != "G"]
            self.check("put past the server's limit of sizes: a store fault, and the next is put", problems)


def closed(*numbers):
    """What closes these descriptors."""

    def close():
        for number in numbers:
            with contextlib.suppress(OSError):
                os.close(number)

    return close


class Closed(Case):
    """Standard input, output and error that are closed: no socket takes their place."""

    seconds = 3

    def test_a_file_is_copied_whatever_is_closed(self):
        content = mixed_content(5_000)
        with serving() as server, folder() as here:
            (server.folder / "A").write_bytes(content)
            for numbers in [(0,), (1,), (2,), (0, 1), (1, 2), (0, 1, 2)]:
                (here / "A").unlink(missing_ok=True)
                ended = copied(server, "get", "A", cwd=here, prepare=closed(*numbers))
                self.check(f"get with {numbers} closed", ended.problems(DONE) + stored_problems(here / "A", content))
                ended = copied(server, "put", "A", options=["--as", "B"], cwd=here, prepare=closed(*numbers))
                problems = ended.problems(DONE) + stored_problems(server.folder / "B", content)
                (server.folder / "B").unlink(missing_ok=True)
                self.check(f"put with {numbers} closed", problems)

    def test_nothing_is_written_to_what_is_closed(self):
        with serving() as server, folder() as here:
            (server.folder / "A").write_bytes(b"new")
            for numbers in [(1,), (0, 1)]:
                ended = copied(server, "get", "A", options=["--output", "-"], cwd=here, prepare=closed(*numbers))
                told = [b"chaosd: can't write -: Bad file descriptor"]
                self.check(f"get --output - with {numbers} closed: told, status 1", ended.problems(FAULT, None, told))
            ended = copied(server, "put", "-", options=["--as", "B"], cwd=here, prepare=closed(0))
            problems = ended.problems(FAULT, b"", [b"chaosd: -: "]) + (["it was put"] if (server.folder / "B").exists() else [])
            self.check("put - with standard input closed: told, status 1", problems)

    def test_a_server_serves_whatever_is_closed(self):
        with serving(prepare=closed(0)) as server, folder() as here:
            (server.folder / "A").write_bytes(b"new")
            problems = copied(server, "get", "A", cwd=here).problems(DONE, b"", b"") + stored_problems(here / "A", b"new")
            self.check("serve with standard input closed", problems)


def told_of(name, content):
    """What `--verbose` reports of a file that was copied."""
    digest = hashlib.sha256(content).hexdigest().encode()
    return rb"%s %d bytes, (\d+ ms|\d+\.\d s), \d+ k?B/s, SHA-256 %s\n" % (name.encode(), len(content), digest)


class Verbose(Case):
    """What is told of each file where that is asked for, wherever standard error goes."""

    def test_each_file_has_a_line_with_its_size_and_digest(self):
        contents = {"A": b"", "B": b"(B)", "C": mixed_content(20_000)}
        with serving() as server, folder() as here:
            lines = [told_of(name, it) for name, it in contents.items()]
            bound = rb"chaosd: the server's window of 13 bounds this copy; serve --window 64 lets more commands be in flight\n"
            for name, content in contents.items():
                (here / name).write_bytes(content)
            ended = copied(server, "put", *contents, options=["--verbose"], cwd=here)
            self.check("put --verbose", told_problems(ended, b"".join(lines) + bound, DONE))
            for name in contents:
                (here / name).unlink()
            ended = copied(server, "get", *contents, "NONE", options=["--verbose"], cwd=here)
            self.check("get --verbose", told_problems(ended, b"".join(lines) + rb"chaosd: NONE: FNF No such file\.\n" + bound))

    def test_of_a_text_it_is_the_local_file_that_is_told(self):
        text = b"(A)\n\tB"
        told = told_of("T", text)
        with serving() as server, folder() as here:
            (here / "T").write_bytes(text)
            self.check("put --text --verbose", told_problems(copied(server, "put", "T", options=["--text", "--verbose"], cwd=here), told, DONE))
            self.check("get --text --verbose", told_problems(copied(server, "get", "T", options=["--text", "--verbose"], cwd=here), told, DONE))
