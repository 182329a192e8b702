"""Tests which files `chaosd put` puts under which names, and what `chaosd delete` and `chaosd rename` do with them."""

import os
import pty
import subprocess

from tests.copying import NO_FILE, copied
from tests.support import (
    BAD_LINE, DONE, FAULT, REFUSED, Case, at, finished, folder, free_ports, run, serving, started, stored_problems,
)  # fmt: skip

SKIPPED = (
    b"chaosd: %s: skipped, since its name is no path of FILE (1 to 64 letters, digits, dots, hyphens and underscores, no dot in front); "
    b"--as or --rename gives it one\n"
)

# A folder of Lisp sources as editors leave it, and the path that each name is renamed to.
SOURCES = {
    "foo.lisp": "foo.lisp", "foo.lisp~": "foo.lisp_", "foo.lisp.~1~": "foo.lisp._1_", "a+b": "a_b", "with space": "with_space",
    ".emacs": "_emacs", "#bar#": "_bar_", "baz.qfasl": "baz.qfasl", "č": "__", "..": None,
}  # fmt: skip


def sources(here):
    """The folder, and what is in each file."""
    contents = {name: name.encode() * 100 for name, path in SOURCES.items() if path}
    (here / "cl").mkdir()
    for name, content in contents.items():
        (here / "cl" / name).write_bytes(content)
    return contents


class Names(Case):
    """Local files and the paths that they go under."""

    seconds = 4

    def test_a_name_that_file_does_not_take_is_skipped_and_told_and_the_others_go(self):
        with serving() as server, folder() as here:
            contents = sources(here)
            ended = copied(server, "put", *(f"cl/{name}" for name in contents), cwd=here)
            bad = [name for name in contents if SOURCES[name] != name]
            problems = ended.problems(REFUSED, b"", b"".join(SKIPPED % f"cl/{name}".encode() for name in bad))
            for name in ["foo.lisp", "baz.qfasl"]:
                problems += stored_problems(server.folder / name, contents[name])
            problems += [f"{each.name} is there" for each in server.folder.iterdir() if each.name in bad]
            self.check("put of a folder of Lisp sources: status 3", problems)
            ended = copied(server, "put", "cl/a+b", options=["--as", "a-b"], cwd=here)
            self.check("put --as names one", ended.problems(DONE, b"", b"") + stored_problems(server.folder / "a-b", contents["a+b"]))

    def test_rename_gives_each_name_a_path(self):
        with serving() as server, folder() as here:
            contents = sources(here)
            ended = copied(server, "put", *(f"cl/{name}" for name in contents), options=["--rename"], cwd=here)
            problems = ended.problems(DONE, b"", b"")
            for name, content in contents.items():
                problems += stored_problems(server.folder / SOURCES[name], content)
            self.check("put --rename of a folder of Lisp sources", problems)
            long = "l" * 65
            (here / long).write_bytes(b"x")
            ended = copied(server, "put", long, "cl/", "foo/", "cl/a+b", options=["--rename"], cwd=here)
            problems = ended.problems(REFUSED, b"", b"".join(SKIPPED % name for name in [long.encode(), b"cl/", b"foo/"]))
            self.check("put --rename of a name of 65 letters and of none: skipped, told, status 3", problems)

    def test_text_tells_where_a_byte_stands_that_would_not_come_back_and_that_lines_end_in_cr_lf(self):
        with serving() as server, folder() as here:
            (here / "E").write_bytes("a\n\tbcÉt\n".encode())
            ended = copied(server, "put", "E", options=["--text"], cwd=here)
            wanted = b"chaosd: E has a byte 89 at line 2, byte 5, which --text would not give back; leave --text out\n"
            self.check("put --text of É: its place, status 3", ended.problems(REFUSED, b"", wanted))
            (here / "DOS").write_bytes(b"a\r\nb\r\n")
            ended = copied(server, "put", "DOS", options=["--text"], cwd=here)
            told = b"chaosd: DOS has lines that end in CR LF; --text keeps the CRs\n"
            problems = ended.problems(DONE, b"", told) + stored_problems(server.folder / "DOS", b"a\r\x8db\r\x8d")
            self.check("put --text of CR LF: told, and kept", problems)
            ended = copied(server, "put", "DOS", options=["--text", "--quiet"], cwd=here)
            self.check("put --text --quiet of CR LF: not told", ended.problems(DONE, b"", b""))


# A name by which a terminal would do something, and how it is printed; and one of letters that stays.
WILD = "w\x1b[31m\r\n\x7f\u009b\u202e\\č"
PRINTED = "w\\x1b[31m\\x0d\\x0a\\x7f\\u{9b}\\u{202e}\\\\č".encode()


class Printed(Case):
    """Local names as they are printed."""

    seconds = 3

    def test_no_name_that_is_told_makes_a_terminal_do_anything(self):
        with serving() as server, folder() as here:
            ended = copied(server, "put", WILD, options=["--as", "A"], cwd=here)
            self.check("can't open", ended.problems(FAULT, b"", [b"chaosd: can't open " + PRINTED + b": No such file"]))
            (here / WILD).write_bytes(b"a\r\n")
            ended = copied(server, "put", WILD, cwd=here)
            self.check("skipped", ended.problems(REFUSED, b"", SKIPPED % PRINTED))
            ended = copied(server, "put", WILD, options=["--as", "A", "--verbose", "--text"], cwd=here)
            told = b"chaosd: " + PRINTED + b" has lines that end in CR LF; --text keeps the CRs\n"
            self.check("--verbose and --text", ended.problems(DONE, b"", [told, b"\n" + PRINTED + b" as A 3 bytes, ", b", SHA-256 "]))
            (here / "sub").mkdir()
            (here / "sub" / WILD).write_bytes(b"b")
            ended = copied(server, "put", WILD, f"sub/{WILD}", options=["--rename"], cwd=here)
            self.check("two of one path", ended.problems(BAD_LINE, b"", [b"the files '" + PRINTED + b"' and 'sub/" + PRINTED + b"' would go"]))
            for output, path in [(f"no/{WILD}", "A"), (f"{WILD}/", "A")]:
                ended = copied(server, "get", path, options=["--output", output], cwd=here)
                told = b"chaosd: can't write " + output.encode().replace(WILD.encode(), PRINTED) + (b"A" if output.endswith("/") else b"")
                self.check(f"can't write {output!r}", ended.problems(FAULT, b"", [told + b": "]))

    def test_no_folder_that_is_told_makes_a_terminal_do_anything(self):
        (port,) = free_ports(1)
        with folder() as here:
            ended = run(["serve", "401", at(port), here / WILD])
            self.check("can't open", ended.problems(FAULT, b"", [b"chaosd: can't open " + str(here).encode() + b"/" + PRINTED + b": "]))
            (here / WILD).mkdir()
            process = started(["serve", "--turns", "1", "401", at(port), here / WILD], stdout=subprocess.PIPE, stderr=subprocess.PIPE)
            ended = finished(process)
            self.check("serves", ended.problems(DONE, b"", [b"serves " + str(here).encode() + b"/" + PRINTED + b" at "]))

    def test_the_line_of_a_terminal_that_shows_how_far_a_file_has_come_has_the_name_as_printed(self):
        with serving() as server, folder() as here:
            (here / WILD).write_bytes(b"x" * 1_000)
            terminal, end = pty.openpty()
            ended = copied(server, "put", WILD, options=["--as", "A"], cwd=here, stderr=end)
            os.close(end)
            seen = os.read(terminal, 65_536)
            os.close(terminal)
            problems = ended.problems(DONE) + ([] if PRINTED in seen and b"\x1b[31m" not in seen else [f"the terminal saw {seen!r}"])
            self.check("put on a terminal", problems)


BAD = b"a\xff"
SKIPPED_WORD = b"chaosd: argument %d is not UTF-8: skipped\n"
BAD_WORD = b"chaosd: argument %d is not UTF-8; try --help\n"


class Words(Case):
    """Words that are no text."""

    seconds = 3

    def test_a_file_whose_name_is_no_text_is_skipped_by_its_place_and_the_others_are_done(self):
        with serving() as server, folder() as here:
            for name in ["B", "C"]:
                (here / name).write_bytes(name.encode())
            ended = copied(server, "put", BAD, "B", b"\xfe", "C", cwd=here)
            problems = ended.problems(REFUSED, b"", SKIPPED_WORD % 5 + SKIPPED_WORD % 7)
            for name in ["B", "C"]:
                problems += stored_problems(server.folder / name, name.encode())
                (here / name).unlink()
            self.check("put: reported, the others are put, status 3", problems)
            ended = copied(server, "get", "B", BAD, "C", options=["--verbose"], cwd=here)
            problems = ended.problems(REFUSED, b"", [SKIPPED_WORD % 7]) + stored_problems(here / "C", b"C")
            self.check("get: reported, the others are got, status 3", problems)
            ended = copied(server, "delete", BAD, "C", cwd=here)
            problems = ended.problems(REFUSED, b"", SKIPPED_WORD % 5)
            problems += [] if [each.name for each in server.folder.iterdir()] == ["B"] else ["not only B is left"]
            self.check("delete: reported, the other is deleted, status 3", problems)
            ended = copied(server, "put", BAD, options=["--as", "D"], cwd=here)
            problems = ended.problems(REFUSED, b"", SKIPPED_WORD % 7) + (["it is there"] if (server.folder / "D").exists() else [])
            self.check("put of such a file alone: reported, nothing is put, status 3", problems)

    def test_elsewhere_such_a_word_is_a_bad_line_by_its_place(self):
        own, other = free_ports(2)
        calling = ["402", at(own), f"401={at(other)}"]
        rows = [
            ([BAD], 1), (["serve", "401", at(own), BAD], 4), (["get", "--output", BAD, *calling, "A"], 3), (["put", "--as", BAD, *calling, "A"], 3),
            (["put", "--login", BAD, *calling, "A", b"\xfe"], 3), (["get", *calling, "A", "--output", BAD], 7), (["rename", *calling, "A", BAD], 6),
            (["get", "402", BAD, f"401={at(other)}", "A"], 3), (["get", *calling, b"-\xff"], 5),
        ]  # fmt: skip
        for words, place in rows:
            self.check(f"{words}: status 2", run(words).problems(BAD_LINE, b"", BAD_WORD % place))


class Changes(Case):
    """Files of the server that are deleted and renamed."""

    seconds = 4

    def test_delete_deletes_what_is_there_and_tells_what_is_not(self):
        with serving() as server, folder() as here:
            for name in ["A", "B", "C"]:
                (server.folder / name).write_bytes(b"x")
            self.check("delete: nothing is printed", copied(server, "delete", "A", cwd=here).problems(DONE, b"", b""))
            ended = copied(server, "delete", "NONE", "B", "A", cwd=here)
            problems = ended.problems(REFUSED, b"", NO_FILE % b"NONE" + NO_FILE % b"A")
            problems += [] if [each.name for each in server.folder.iterdir()] == ["C"] else ["not only C is left"]
            self.check("delete of some that aren't there: reported, the others are deleted, status 3", problems)

    def test_rename_moves_a_file_and_replaces_none(self):
        with serving() as server, folder() as here:
            (server.folder / "A").write_bytes(b"a")
            (server.folder / "C").write_bytes(b"c")
            ended = copied(server, "rename", "A", "B", cwd=here)
            self.check("rename: nothing is printed", ended.problems(DONE, b"", b"") + stored_problems(server.folder / "B", b"a"))
            ended = copied(server, "rename", "A", "D", cwd=here)
            self.check("rename of what isn't there: status 3", ended.problems(REFUSED, b"", NO_FILE % b"A"))
            ended = copied(server, "rename", "B", "C", cwd=here)
            problems = ended.problems(REFUSED, b"", b"chaosd: B: FAE File exists.\n") + stored_problems(server.folder / "C", b"c")
            self.check("rename to what is there: status 3, and both stay", problems + stored_problems(server.folder / "B", b"a"))

    def test_a_change_that_no_server_hears_is_told(self):
        with serving() as server:
            server.process.kill()
            for words in [["delete", "A", "B"], ["rename", "A", "B"]]:
                ended = copied(server, *words)
                problems = ended.problems(REFUSED, b"", [b"chaosd: A: no server listens at "])
                problems += [] if words[0] == "rename" or b"chaosd: B: not tried\n" in ended.err else [f"{ended.err!r}"]
                self.check(f"{words[0]} without a server: status 3", problems)
