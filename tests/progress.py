"""Tests what `get` and `put` show on a terminal while they copy, and what they say of the server's window."""

import contextlib
import os
import pty
import re
import select
import time

from tests.copying import changing, copied, copying
from tests.support import DONE, FOR_LONG, LONG, Case, Ended, finished, folder, mixed_content, serving, stored_problems

# How fast a copy goes, and the end of a line about a file that was copied.
PACE = rb"(?:\d+ k?B/s(?:, \d+ (?:s|min) left)?|stalled)"
TIMED = rb"(?:\d+ ms|\d+\.\d s), \d+ k?B/s"
# A terminal has so many columns, of which a line leaves one free.
COLUMNS = 79


class Screen:
    """A copy whose standard error is a terminal, and what the terminal has got so far."""

    def __init__(self, *words, **more):
        self.near, far = pty.openpty()
        self.process = copying(*words, stderr=far, **more)
        os.close(far)
        self.seen = b""

    def read(self, until=None):
        """Reads on to the end, or until that was shown."""
        end = time.monotonic() + LONG
        # Reading fails where nobody has the terminal's other end any more.
        with contextlib.suppress(OSError):
            while (until is None or until not in self.seen) and select.select([self.near], [], [], max(0, end - time.monotonic()))[0]:
                piece = os.read(self.near, 4_096)
                if not piece:
                    break
                self.seen += piece

    def ended(self):
        """How the copy ended, with all that the terminal got."""
        self.read()
        os.close(self.near)
        ended = finished(self.process, patience=LONG)
        return Ended(ended.status, ended.out, self.seen)

    def progress(self):
        """The lines that showed how far a file has come, without what clears them."""
        return [line for line in re.findall(rb"\r([^\r\n]*?)\x1b\[K", self.seen) if line]


def screened(*words, **more):
    """A copy that has ended on a terminal, and the lines that showed how far it had come."""
    screen = Screen(*words, **more)
    ended = screen.ended()
    return ended, screen.progress()


def slow(_, text):
    """A network that takes its time."""
    time.sleep(0.01)
    return text


def unlike(pattern, lines):
    """What is wrong with lines of which each is to be like this, and one at least to be there."""
    return [f"{line!r} is not like {pattern!r}" for line in lines if not re.fullmatch(pattern, line)] + ([] if lines else ["no line was shown"])


def wide(lines):
    """The lines that are too wide for a terminal, in characters, of which an East Asian one takes two columns."""
    widths = [(sum(1 if ord(it) < 0x1100 else 2 for it in line.decode()), line) for line in lines]
    return [f"{width} columns: {line!r}" for width, line in widths if width > COLUMNS]


class Shown(Case):
    """What a terminal is shown while files are copied."""

    seconds = 12

    def test_of_one_file_its_bytes_the_speed_and_the_time_left(self):
        content = mixed_content(40 * 448)
        with changing(slow) as (server, network), folder() as here:
            (here / "UP").write_bytes(content)
            for subcommand, seen in [("put", server.folder / "UP"), ("get", here / "UP")]:
                ended, lines = screened(network, subcommand, "UP", cwd=here)
                problems = ended.problems(DONE, b"") + unlike(rb"UP \d+ of 17920 bytes, \d+%, " + PACE, lines)
                told = [re.match(rb"UP (\d+) of 17920 bytes, (\d+)%", line) for line in lines]
                problems += [f"{it[0]!r} isn't its share" for it in told if it and int(it[1]) * 100 // 17_920 != int(it[2])]
                problems += [] if any(b" left" in line for line in lines) else [f"no time is left in {lines}"]
                problems += [] if re.search(rb"\r\x1b\[KUP 17920 bytes, " + TIMED + rb"\r\n$", ended.err) else [f"it ends with {ended.err[-60:]!r}"]
                self.check(subcommand, problems + stored_problems(seen, content))

    def test_of_several_files_the_place_and_the_bytes_of_all_that_are_put(self):
        content = mixed_content(20 * 448)
        names = ["A", "B", "C"]
        with changing(slow) as (server, network), folder() as here:
            for name in names:
                (here / name).write_bytes(content)
            ended, lines = screened(network, "put", *names, cwd=here)
            problems = ended.problems(DONE, b"") + unlike(rb"[123] of 3: [ABC] \d+%; all \d+ of 26880 bytes, " + PACE, lines)
            told = [re.match(rb"([123]) of 3: ([ABC]) (\d+)%; all (\d+) of", line) for line in lines]
            for it in filter(None, told):
                place, share, reached = int(it[1]), int(it[3]), int(it[4])
                before = (place - 1) * len(content)
                is_right = names[place - 1] == it[2].decode() and (reached - before) * 100 // len(content) == share
                problems += [] if is_right else [f"{it[0]!r} isn't right"]
            self.check("put", problems)
            ended, lines = screened(network, "get", *names, cwd=here)
            self.check("get", ended.problems(DONE, b"") + unlike(rb"[123] of 3: [ABC] \d+ of 8960 bytes, \d+%, " + PACE, lines))
            ended, lines = screened(network, "put", "A", "NONE", "B", "C", cwd=here)
            last = [line for line in lines if line.startswith(b"4 of 4: C ")]
            problems = unlike(rb"4 of 4: C \d+%; all \d+ of 26880 bytes, " + PACE, last)
            self.check("put with a file that isn't there", problems)

    def test_no_line_is_wider_than_a_terminal(self):
        content = mixed_content(20 * 448)
        with changing(slow) as (_, network), folder() as here:
            for kind, name in [("letters", "sub/" + "long-name-" * 20 + "END"), ("wide letters", "\u6f22" * 60 + "END"), ("escapes", "\x1b" * 60 + "END")]:
                (here / name).parent.mkdir(exist_ok=True)
                (here / name).write_bytes(content)
                ended, lines = screened(network, "put", name, options=["--as", "UP"], cwd=here)
                self.check(f"a long name of {kind}", ended.problems(DONE, b"") + wide(lines) + unlike(rb"\.\.[^ ]*END \d+ of 8960 bytes, \d+%, " + PACE, lines))

    def test_a_copy_of_which_nothing_comes_is_stalled(self):
        """The network loses all that comes behind the tenth piece, until that is shown."""
        state = {"pieces": 0, "is_shut": True}

        def shut(is_clients, text):
            state["pieces"] += is_clients and b" WRITE\x8d" in text
            return None if state["is_shut"] and state["pieces"] > 10 else slow(is_clients, text)

        content = mixed_content(100 * 448)
        with changing(shut) as (server, network), folder() as here:
            (here / "UP").write_bytes(content)
            screen = Screen(network, "put", "UP", options=FOR_LONG, cwd=here)
            screen.read(until=b"%, stalled\x1b[K")
            shown = screen.progress()
            state["is_shut"] = False
            ended = screen.ended()
            problems = ended.problems(DONE, b"") + stored_problems(server.folder / "UP", content)
            problems += unlike(rb"UP \d+ of 44800 bytes, \d+%, " + PACE, screen.progress())
            problems += [] if shown and shown[-1].endswith(b"%, stalled") else [f"it isn't stalled: {shown[-3:]}"]
            self.check("put", problems)


BOUND = b"chaosd: the server's window of %d bounds this copy; serve --window %d lets more commands be in flight\n"


class Bound(Case):
    """Whose window bounds the commands in flight."""

    seconds = 5

    def check_bound(self, own, options, size, wanted):
        """Puts and gets two files of this size, to a server of this window."""
        names = ["A", "B"]
        with serving(options=["--window", own]) as server, folder() as here:
            for subcommand in ["put", "get"]:
                for name in names:
                    (here / name).write_bytes(mixed_content(size))
                ended = copied(server, subcommand, *names, options=options, cwd=here)
                said = b"".join(line + b"\n" for line in ended.err.splitlines() if b"window" in line)
                problems = ended.problems(DONE, b"") + ([] if said == wanted else [f"{said!r} and not {wanted!r}"])
                problems += [] if not wanted or ended.err.endswith(wanted) else ["it isn't the last line"]
                self.check(f"{subcommand} {' '.join(options)} of {size} bytes from a window of {own}", problems)

    def test_it_is_said_once_where_the_servers_window_bounds_a_copy(self):
        self.check_bound("13", ["--verbose"], 40 * 448, BOUND % (13, 64))
        self.check_bound("1", ["--verbose", "--window", "3"], 40 * 448, BOUND % (1, 3))

    def test_it_is_not_said_where_the_clients_window_or_the_file_does_or_nobody_asked(self):
        for own, options, size in [
            ("13", [], 40 * 448),
            ("13", ["--verbose", "--window", "13"], 40 * 448),
            ("13", ["--verbose", "--window", "5"], 40 * 448),
            ("64", ["--verbose"], 200 * 448),
            # OPEN and 11 WRITEs, or 12 READs and CLOSE
            ("13", ["--verbose"], 11 * 448),
        ]:
            self.check_bound(own, options, size, b"")
