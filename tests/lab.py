"""Tests `chaosd lab` and `chaosd filelab`: the examples, bad lines, statuses, and what a fault of reading or writing does."""

import os
import resource
import select
import subprocess
import unittest

from tests.support import BAD_LINE, DONE, FAULT, INPUT_LIMIT, IS_CHECKED, NO_MEMORY, PATIENCE, PROGRAM, REFUSED, ROOT
from tests.support import Case, Ended, folder, run, within

EXAMPLES = ROOT / "examples/lab"
FILE_EXAMPLES = ROOT / "examples/filelab"

START = b"ends 2 2 2 2 1\n"
START_TEXT = b"copy 0 a RFC num 1 ack 0\n"
STORED = b"stored a 1 b 0\n"

# an end that is open at both sides, and what it prints
OPEN = b"ends 64 64 64 64 1\ndeliver 0\naccept 100\ndeliver 1\ndeliver 2\n"
OPEN_TEXT = (
    b"copy 0 a RFC num 1 ack 0\ndelivered Requested\naccepted 100\ncopy 1 b OPN num 100 ack 1\ndelivered Opened\n"
    b"copy 2 a STS num 0 ack 100\ndelivered Status\n"
)


# what `settle` prints of two ends that are open, with windows of 64, and have nothing to send
SETTLED_TEXT = (
    b"window b 64\nannounced 64\ncopy 3 b STS num 0 ack 1\ndeliver 3\ndelivered Status\ntick a 500\nticked quiet\n"
    b"window a 64\nannounced 64\ncopy 4 a STS num 0 ack 100\ndeliver 4\ndelivered Status\ntick b 1000\nticked quiet\n"
    b"window a 64\nannounced 64\ncopy 5 a STS num 0 ack 100\ndeliver 5\ndelivered Status\n"
    b"window b 64\nannounced 64\ncopy 6 b STS num 0 ack 1\ndeliver 6\ndelivered Status\n"
)
# and of two ends with windows of 2, where the first of A's two items was lost, and B's
LOSSES = b"ends 2 2 2 2 1\ndeliver 0\naccept 100\ndeliver 1\ndeliver 2\nwrite a 200 A\nwrite a 200 B\nwrite b 200 C\ndeliver 4\nread b\n"
LOSSES_TEXT = OPEN_TEXT + (
    b"wrote 2\ncopy 3 a DAT num 2 ack 100\nwrote 3\ncopy 4 a DAT num 3 ack 100\nwrote 101\ncopy 5 b DAT num 101 ack 1\n"
    b"delivered Took\nread nothing\n"
)
ARRIVED_TEXT = (
    b"window b 2\nannounced 2\ncopy 6 b STS num 0 ack 1\ndeliver 6\ndelivered Status\n"
    b"tick a 500\nticked resent 2\ncopy 7 a DAT num 2 ack 100\ncopy 8 a DAT num 3 ack 100\n"
    b"window a 2\nannounced 2\ncopy 9 a STS num 0 ack 100\ndeliver 9\ndelivered Status\n"
    b"tick b 1000\nticked resent 1\ncopy 10 b DAT num 101 ack 1\n"
    b"deliver 10\ndelivered Took\nread a\nread 200 C\ncopy 11 a STS num 0 ack 101\n"
    b"window a 2\nannounced 2\ncopy 12 a STS num 0 ack 101\ndeliver 12\ndelivered Status\n"
    b"deliver 7\ndelivered Took\nread b\nread 200 A\ncopy 13 b STS num 0 ack 2\n"
    b"deliver 8\ndelivered Duplicate\ncopy 14 b STS num 0 ack 2\n"
    b"read b\nread 200 B\ncopy 15 b STS num 0 ack 3\n"
    b"window b 2\nannounced 2\ncopy 16 b STS num 0 ack 3\ndeliver 16\ndelivered Status\n"
)


def shown(byte):
    """A byte as text, as it is printed."""
    if byte == 0x8D:
        return b"^"
    return bytes([byte]) if 0x20 <= byte <= 0x7E and byte not in b"^\\" else b"\\%02x" % byte


class Scripts(Case):
    """What scripts of `lab` and `filelab` print, and their statuses."""

    seconds = 4

    def test_each_example_of_lab_prints_its_text(self):
        """Each script of examples/lab prints its text."""
        scripts = sorted(EXAMPLES.glob("*.lab"))
        self.check("there are ten examples", [] if len(scripts) == 10 else [f"there are {len(scripts)}"])
        for script in scripts:
            text = script.with_suffix(".txt").read_bytes()
            status = REFUSED if b"\nrefused " in text else DONE
            self.check(f"{script.name}, status {status}", run(["lab"], script.read_bytes()).problems(status, text, b""))

    def test_each_example_of_filelab_prints_its_text_and_only_the_server_serves(self):
        """Each script of examples/filelab prints its text, and what only the server may do is refused."""
        scripts = sorted(FILE_EXAMPLES.glob("*.lab"))
        self.check("there are four examples of FILE", [] if len(scripts) == 4 else [f"there are {len(scripts)}"])
        for script in scripts:
            text = script.with_suffix(".txt").read_bytes()
            self.check(f"filelab {script.name}", run(["filelab"], script.read_bytes()).problems(DONE, text, b""))
        for name, script, status, text in [
            ("a server that was never asked", START + b"serve\n", DONE, START_TEXT + b"served ended Inactive\n" + STORED),
            ("the server's own calls", START + b"write b 200 X\nread b\n", REFUSED, START_TEXT + 2 * b"refused 5 ByServer\n" + STORED),
        ]:
            self.check(f"filelab: {name}", run(["filelab"], script).problems(status, text, b""))
        self.check(
            "filelab: serve has no words", run(["filelab"], START + b"serve b\n").problems(BAD_LINE, START_TEXT, [b"line 2: bad: "])
        )
        self.check("lab has no serve", run(["lab"], START + b"serve\n").problems(BAD_LINE, START_TEXT, [b"line 2: bad: "]))

    def test_the_session_of_the_demo_comes_whole_where_every_copy_comes_twice(self):
        """The session of the demo, each of its eight commands asked and answered over a network that delivers every copy twice."""
        commands = (ROOT / "examples/hello.file").read_bytes().splitlines()
        replies = [b"T1  LOGIN LISPM", b"T2 H1 OPEN 0", b"T3 H1 WRITE 39", b"T4 H1 CLOSE 39", b"T5 H2 OPEN 39"]
        replies += [b'T6 H2 READ^(DEFUN HELLO () (PRINT "HELLO, WORLD"))', b"T7 H2 EOF", b"T8 H2 CLOSE 39"]
        script, delivered = b"ends 13 13 13 13 65530\n", 0

        def deliver():
            nonlocal script, delivered
            while copies := run(["filelab"], script).out.count(b"copy ") - delivered:
                script += b"".join(2 * (b"deliver %d\n" % (delivered + n)) for n in range(copies))
                delivered += copies

        deliver()
        script += b"accept 65534\n"
        for command in commands:
            deliver()
            script += b"write a 200 %s\n" % command
            deliver()
            script += b"serve\nserve\n"
            deliver()
            script += b"read a\n"
        ended = run(["filelab"], script)
        read = [line[9:] for line in ended.out.splitlines() if line.startswith(b"read 200 ")]
        problems = [] if (len(commands), read) == (8, replies) else [f"{len(commands)} commands, read {read}"]
        self.check("the demo's session with every copy delivered twice", problems)

    def test_scripts_are_played_to_their_end(self):
        """Scripts that are played to their end."""
        for name, script, status, text in [
            ("a first line alone", START, DONE, START_TEXT + STORED),
            ("a first line without its end", START[:-1], DONE, START_TEXT + STORED),
            ("a byte 13 at the end of a line is ignored", START[:-1] + b"\r\nread a\r\n", DONE, START_TEXT + b"read nothing\n" + STORED),
            ("a copy that wasn't sent is refused, status 3", START + b"deliver 1\n", REFUSED, START_TEXT + b"refused 1 NoSuchCopy\n" + STORED),
            (
                "what follows a refusal is played",
                START + b"write a 200 early\nread a\n",
                REFUSED,
                START_TEXT + b"refused 3 1 NotOpen\nread nothing\n" + STORED,
            ),
            (
                "the greatest number of a copy",
                START + b"deliver 18446744073709551615\n",
                REFUSED,
                START_TEXT + b"refused 1 NoSuchCopy\n" + STORED,
            ),
            ("the greatest moment", START + b"tick a 18446744073709551615\n", DONE, START_TEXT + b"ticked down\n" + STORED),
            (
                "a window is announced at open ends alone, and up to the greatest",
                START + b"window a 1\nwindow b 65535\ndeliver 0\naccept 100\nwindow b 3\nwindow b 65535\nwindow b 2\n",
                REFUSED,
                START_TEXT
                + b"refused 3 1 NotOpen\nrefused 3 1 NotOpen\ndelivered Requested\naccepted 100\ncopy 1 b OPN num 100 ack 1\n"
                + b"refused 3 9 BadWindow\nrefused 3 9 BadWindow\nannounced 2\ncopy 2 b STS num 0 ack 1\nstored a 1 b 1\n",
            ),
            (
                "data before the OPN are dropped, and taken after it",
                b"ends 2 2 2 2 65534\ndeliver 0\naccept 100\nwrite b 200 X\ndeliver 2\ndeliver 1\ndeliver 2\nread a\n",
                DONE,
                b"copy 0 a RFC num 65534 ack 0\ndelivered Requested\naccepted 100\ncopy 1 b OPN num 100 ack 65534\nwrote 101\n"
                + b"copy 2 b DAT num 101 ack 65534\ndelivered Dropped NotOpen\ndelivered Opened\ncopy 3 a STS num 0 ack 100\n"
                + b"delivered Took\nread 200 X\ncopy 4 a STS num 0 ack 101\nstored a 0 b 2\n",
            ),
            (
                "a lost item is sent again, and what came before it waits",
                b"ends 2 2 2 2 65534\ndeliver 0\naccept 100\ndeliver 1\nwrite a 200 A\nwrite a 200 B\ndeliver 4\nread b\ntick a 500\n"
                + b"deliver 5\ndeliver 6\nread b\nread b\n",
                DONE,
                b"copy 0 a RFC num 65534 ack 0\ndelivered Requested\naccepted 100\ncopy 1 b OPN num 100 ack 65534\ndelivered Opened\n"
                + b"copy 2 a STS num 0 ack 100\nwrote 65535\ncopy 3 a DAT num 65535 ack 100\nwrote 0\ncopy 4 a DAT num 0 ack 100\n"
                + b"delivered Took\nread nothing\nticked resent 2\ncopy 5 a DAT num 65535 ack 100\ncopy 6 a DAT num 0 ack 100\n"
                + b"delivered Took\ndelivered Duplicate\ncopy 7 b STS num 0 ack 65534\nread 200 A\ncopy 8 b STS num 0 ack 65535\n"
                + b"read 200 B\ncopy 9 b STS num 0 ack 0\nstored a 2 b 0\n",
            ),
            (
                "refusals of the connection, and a request that is refused and comes again",
                START + b"accept 5\nwrite a 200 X\nclose b not yet\ndeliver 0\ndeliver 0\nclose b no\ndeliver 0\nread b\n",
                REFUSED,
                START_TEXT
                + b"refused 3 6 WrongState\nrefused 3 1 NotOpen\nclosed\ndelivered Requested\ndelivered Duplicate\nclosed\n"
                + b"copy 1 b CLS num 0 ack 0\ndelivered Dropped NotOpen\nread ended Inactive\n" + STORED,
            ),
            ("an end that was never asked", START + b"read b\nclose b\n", DONE, START_TEXT + b"read ended Inactive\nclosed\n" + STORED),
        ]:
            self.check(name, run(["lab"], script).problems(status, text, b""))

    def test_both_ends_settle_and_each_event_is_printed_as_if_it_were_typed(self):
        """Both ends settle, each event is printed as if it were typed, and it is refused where an end isn't open."""
        none, cannot = b"stored a 0 b 0\n", b"refused 6 CannotSettle\n"
        for name, script, status, text in [
            ("two open ends settle", OPEN + b"settle\n", DONE, OPEN_TEXT + SETTLED_TEXT + none),
            ("what was lost arrives", LOSSES + b"settle\n", DONE, LOSSES_TEXT + ARRIVED_TEXT + none),
            ("the script goes on behind it", OPEN + b"settle\nread b\ndeliver 9\n", REFUSED, OPEN_TEXT + SETTLED_TEXT + b"read nothing\nrefused 1 NoSuchCopy\n" + none),
            ("it is refused before the opening", START + b"settle\nread a\n", REFUSED, START_TEXT + cannot + b"read nothing\n" + STORED),
            ("it is refused behind a close", OPEN + b"close a\nsettle\n", REFUSED, OPEN_TEXT + b"closed\ncopy 3 a CLS num 0 ack 0\n" + cannot + none),
            ("it is refused at the greatest moment", OPEN + b"tick b 18446744073709551615\nsettle\n", REFUSED, OPEN_TEXT + b"ticked down\n" + cannot + none),
        ]:
            self.check(f"settle: {name}", run(["lab"], script).problems(status, text, b""))
        for line in [b"settle ", b"settle a", b"Settle", b" settle"]:
            self.check(f"{line} is bad", run(["lab"], START + line + b"\n").problems(BAD_LINE, START_TEXT, [b"line 2: bad: "]))
        self.check("filelab: settle before the opening", run(["filelab"], START + b"settle\n").problems(REFUSED, START_TEXT + cannot + STORED, b""))

    def test_every_byte_is_written_and_read_as_it_was(self):
        """Every byte can be written, and is read as it was; and so are 488 of them."""
        every = b"".join(shown(byte) for byte in range(256))
        for name, text, printed in [
            ("every byte", every, every),
            ("a byte 8D by its number", b"\\8d", b"^"),
            ("488 bytes, each by its number", b"\\00" * 488, b"\\00" * 488),
            ("488 bytes, each as it is", b"x" * 488, b"x" * 488),
            ("spaces at both ends", b" x ", b" x "),
        ]:
            wanted = OPEN_TEXT + b"wrote 2\ncopy 3 a DAT num 2 ack 100\ndelivered Took\nread 200 " + printed + b"\n" + STORED
            ended = run(["lab"], OPEN + b"write a 200 " + text + b"\ndeliver 3\nread b\n")
            self.check(f"{name}: written and read", ended.problems(DONE, wanted, b""))
        for line in [b"write a 200", b"write a 200 "]:
            wanted = OPEN_TEXT + b"wrote 2\ncopy 3 a DAT num 2 ack 100\ndelivered Took\nread 200\n" + STORED
            self.check(f"{line}: no bytes", run(["lab"], OPEN + line + b"\ndeliver 3\nread b\n").problems(DONE, wanted, b""))

    def test_the_longest_text_of_an_event_is_printed_whole(self):
        """The longest text of one event, 64 items sent again, is printed whole wherever it falls among the texts before it."""
        opening = b"ends 64 64 64 64 65000\ndeliver 0\naccept 65001\ndeliver 1\ndeliver 2\n"
        copies = [b"a RFC num 65000 ack 0", b"b OPN num 65001 ack 65000", b"a STS num 0 ack 65001"]
        items = [b"a DAT num %d ack 65001" % (65001 + n) for n in range(64)]
        text = b"copy 0 %s\ndelivered Requested\naccepted 65001\ncopy 1 %s\ndelivered Opened\ncopy 2 %s\ndelivered Status\n" % tuple(copies)
        text += b"".join(b"wrote %d\ncopy %d %s\n" % (65001 + n, 3 + n, item) for n, item in enumerate(items))
        count = 3 + len(items)
        ticks = 15
        for _ in range(ticks):
            text += b"ticked resent 64\n" + b"".join(b"copy %d %s\n" % (count + n, item) for n, item in enumerate(items))
            count += len(items)
        script = opening + b"write a 200 x\n" * 64 + b"".join(b"tick a %d\n" % (600 * (n + 1)) for n in range(ticks))
        self.check("64 items sent again, 15 times", run(["lab"], script).problems(DONE, text + b"stored a 64 b 0\n", b""))


class Limits(Case):
    """Bad lines, the longest script, stale copies, and too little memory."""

    seconds = 4

    def test_a_bad_line_is_told_by_its_number(self):
        """A bad line is told by its number, the text of the lines before it stands, and the status is 2."""
        firsts = [b"", b"\n", b"ends 2 2 2 2\n", b"ends 2 2 2 2 1 \n", b" ends 2 2 2 2 1\n", b"ends 0 2 2 2 1\n", b"ends 2 2 2 65 1\n"]
        for first in [*firsts, b"ends 2 2 2 2 65536\n", b"ends 2 2 02 2 1\n", b"read a\n", b"\r"]:
            self.check(f"{first} is no first line", run(["lab"], first).problems(BAD_LINE, b"", [b"line 1: bad: "]))
        lines = [b"", b"read", b"read c", b"read a ", b"read  a", b"read A", b"Read a", b"tick a", b"tick a -1", b"tick a +1"]
        lines += [b"tick a 01", b"tick a 18446744073709551616", b"accept", b"accept 65536", b"deliver 18446744073709551616", b"deliver 0x1"]
        lines += [b"write a", b"write a 20 X", b"write a 400 X", b"write a 0200 X", b"write a 288 X", b"write a 200 \\8D", b"write a 200 \\8"]
        lines += [b"write a 200 \x8d", b"write a 200 \t", b"close a \x7f", b"close", b"write a 200 " + b"x" * 489, b"write a 200 \\", b"serve"]
        lines += [b"window", b"window a", b"window c 1", b"window a 65536", b"window a 01", b"window a -1", b"window a 1 "]
        lines += [b"ends 2 2 2 2 1", b"read a\r\r", b"read a" + b" " * 5_000, b"deliver " + b"9" * 40_000]
        for line in lines:
            ended = run(["lab"], START + line + b"\nread a\n")
            self.check(f"{line[:40]} is a bad line", ended.problems(BAD_LINE, START_TEXT, [b"line 2: bad: "]))
        ended = run(["lab"], START + b"read a\n" * 9_999 + b"read b")
        self.check("10,001 good lines", ended.problems(DONE, START_TEXT + b"read nothing\n" * 9_999 + b"read ended Inactive\n" + STORED, b""))
        ended = run(["lab"], START + b"read a\n" * 9_999 + b"read")
        self.check("a bad last line without its end", ended.problems(BAD_LINE, START_TEXT + b"read nothing\n" * 9_999, [b"line 10001: bad: "]))

    def test_what_is_wrong_with_a_bad_line_is_told(self):
        words = b"a line begins with write, read, window, tick, close, accept, deliver or settle, in `filelab` also with serve"
        first = b"the first line must be `ends SA RA SB RB N`: four windows from 1 to 64, and a number up to 65535"
        for script, number, why in [
            (b"ends 99 4 4 4 1\n", 1, first), (b"", 1, first), (b"# comment\n", 1, b"a script has no comments"),
            (START + b"# comment\n", 2, b"a script has no comments"), (START + b"\r\n", 2, b"a script has no empty lines"),
            (START + b"read a\n" * 5_000 + b"delivr 0\n", 5_002, words), (START + START, 2, b"only the first line is `ends`"),
            (START + b"write a 200 \t", 2, b"the text: byte 13 is not a printable character of ASCII"),
            (START + b"write a 200 \\8D", 2, b"the text: each \\ needs two lower-case hexadecimal digits behind it"),
            (START + b"close a " + b"x" * 489, 2, b"the text: it stands for more than 488 bytes"),
            (START + b"tick a 01\r\n", 2, b"expected `tick SIDE MOMENT (a or b; milliseconds)`, with one space between fields"),
            (START + b"read a" + b" " * 50_000 + b"\nread a\n", 2, b"it has more than 4096 bytes"),
        ]:  # fmt: skip
            for command in ["lab", "filelab"]:
                ended = run([command], script)
                self.check(f"{command}: {script[-20:]} is told", ended.problems(BAD_LINE, None, b"line %d: bad: %s\n" % (number, why)))
        ended = run(["lab"], START + b"serve\n")
        self.check("lab: serve is told", ended.problems(BAD_LINE, None, b"line 2: bad: `serve` is a line of `filelab`\n"))

    def test_the_longest_script_is_played_and_one_byte_more_is_a_fault(self):
        """The longest script, and one byte more; and too little memory."""
        first = b"ends 2 2 2 2 1234\n"
        count = (INPUT_LIMIT - len(first)) // 7
        script = first + b"read a\n" * count
        text = b"copy 0 a RFC num 1234 ack 0\n" + b"read nothing\n" * count
        assert len(script) == INPUT_LIMIT
        self.check("a script of 1,048,576 bytes is played", run(["lab"], script).problems(DONE, text + STORED, b""))
        ended = run(["lab"], script + b"r")
        self.check("one byte more is a fault, status 1, behind the text", ended.problems(FAULT, text, [b"chaosd: ", b"1048576"]))
        ended = run(["lab"], script[:-7] + b"read c\n" + b"read a\n")
        self.check("a bad line within the limit is met first", ended.problems(BAD_LINE, text[:-13], [b"line %d: bad: " % (count + 1)]))

    def test_a_copy_is_stale_once_32_640_items_were_written_since_it_was_sent(self):
        """A copy is delivered while one end has written 32,639 items since it was sent, and is stale behind one more."""
        eof, count = b"write a 014\n", 32_639
        settled = (64 * eof + b"settle\n") * (count // 64) + eof * (count % 64)
        served, copies, heard, status = [], 3, 0, None
        for item in range(1, count + 1):
            if item - heard > 64:
                # A hears the last status of B, which has sent one behind each 22 items that were read
                served.append(b"deliver %d\n" % status)
                heard = (item - 1) // 22 * 22
            served.append(eof + b"deliver %d\nserve\n" % copies)
            copies += 1
            if item % 22 == 0:
                status, copies = copies, copies + 1
        for mode, script in [("lab", settled), ("filelab", b"".join(served))]:
            ended = run([mode], OPEN + script + b"deliver 2\n" + eof + b"deliver 2\n")
            told = [b"delivered Status\nwrote 32641\n", b" a EOF num 32641 ack 100\nrefused 2 Stale\nstored a "]
            self.check(f"{mode}: {len(script)} bytes", ended.problems(REFUSED, told, b""))

    @unittest.skipIf(IS_CHECKED, "checks reserve more memory than the limit")
    def test_a_script_ends_at_an_event_that_finds_no_memory(self):
        """With little memory a long script ends at an event that finds none."""
        script = OPEN + b"".join(b"write a 200 x\ndeliver %d\nread b\n" % (3 + n) for n in range(3))
        script += b"".join(b"tick a %d\n" % (500 * n) for n in range(1, 150)) + b"deliver 3\n" * 60_000
        process = subprocess.Popen(
            [PROGRAM, "lab"],
            stdin=subprocess.PIPE,
            stdout=subprocess.PIPE,
            stderr=subprocess.PIPE,
            preexec_fn=lambda: resource.setrlimit(resource.RLIMIT_AS, (8 << 20, 8 << 20)),
        )
        out, err = process.communicate(script, timeout=PATIENCE)
        ended = Ended(process.returncode, out[-19:], err)
        self.check("too little memory: told behind the text, status 4", ended.problems(NO_MEMORY, b"refused 4 NoMemory\n", [b"chaosd: "]))


class Streams(Case):
    """Help, mistakes, and standard streams that fail."""

    seconds = 2

    def test_help_is_shown_and_a_mistake_is_told(self):
        """Help, and words that are no line of the program."""
        for words in [["lab", "--help"], ["help", "lab"]]:
            name = f"`chaosd {' '.join(words)}` shows help on standard output, status 0"
            self.check(name, run(words).problems(DONE, [b"Usage: chaosd lab"], b""))
        for words in [["lab", "more"], ["lab", "--loud"], ["Lab"]]:
            name = f"`chaosd {' '.join(words)}` is a mistake, told on standard error, status 2"
            self.check(name, run(words, START).problems(BAD_LINE, b"", [b"\n"]))

    def test_a_standard_output_that_takes_nothing_is_told(self):
        """Standard output that takes nothing: a fault is told on standard error, and no bad line is."""
        for name, script in [("a good script", START), ("a bad second line", START + b"\n")]:
            with open("/dev/full", "wb") as full:
                ended = run(["lab"], script, stdout=full)
            self.check(f"{name}, standard output full: told, status 1", ended.problems(FAULT, None, [b"chaosd: the output"]))
            ended = run(["lab"], script, closed=[1])
            self.check(f"{name}, standard output closed: told, status 1", ended.problems(FAULT, None, [b"chaosd: the output"]))
        with open("/dev/full", "wb") as full:
            ended = run(["lab"], b"", stdout=full)
        self.check("an empty script writes nothing: a bad line, status 2", ended.problems(BAD_LINE, None, [b"line 1: bad: "]))
        ended = run(["lab"], START + b"\n", closed=[2])
        self.check("a bad line with standard error closed: status 2", ended.problems(BAD_LINE, START_TEXT))

    def test_a_standard_input_that_gives_nothing_is_told(self):
        """Standard input that gives nothing."""
        with folder() as here:
            number = os.open(here, os.O_RDONLY)
            ended = run(["lab"], stdin=number)
            os.close(number)
        self.check("a folder as standard input: told, status 1", ended.problems(FAULT, b"", [b"chaosd: the input"]))
        ended = run(["lab"], stdin=subprocess.DEVNULL, closed=[0])
        self.check("standard input closed: told, status 1", ended.problems(FAULT, b"", [b"chaosd: the input"]))

    def test_what_came_of_each_line_that_is_typed_is_printed_before_the_next(self):
        """Somebody who types lines sees what came of each before the next is typed."""
        process = subprocess.Popen([PROGRAM, "lab"], stdin=subprocess.PIPE, stdout=subprocess.PIPE)
        problems = []
        for line, wanted in [(START, START_TEXT), (b"deliver 0\n", b"delivered Requested\n"), (b"deliver 7\n", b"refused 1 NoSuchCopy\n")]:
            process.stdin.write(line)
            process.stdin.flush()
            seen = within(process.stdout, len(wanted))
            if seen != wanted:
                problems.append(f"{seen!r} came and not {wanted!r}")
                break
        process.stdin.write(b"read")
        process.stdin.flush()
        if select.select([process.stdout], [], [], 0.2)[0]:
            problems.append("something came for half a line")
        process.stdin.write(b" b")
        process.stdin.close()
        wanted = b"read nothing\nstored a 1 b 1\n"
        seen = within(process.stdout, len(wanted) + 1)
        if seen != wanted:
            problems.append(f"{seen!r} came at the end and not {wanted!r}")
        if process.wait(PATIENCE) != REFUSED:
            problems.append(f"status {process.returncode}")
        self.check("what came of each line that is typed is printed before the next", problems)
