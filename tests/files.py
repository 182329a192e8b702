"""Tests scripts of FILE commands in one process, and the lines of `loop`, `serve` and `ask`: what they may be, and what is opened."""

import os
import socket
import subprocess

from tests.packets import RFC, datagram
from tests.scripts import EMPTY_REPLY, FILE_REPLIES, FILE_SCRIPT, HELLO_REPLIES, NO_REPLY
from tests.support import (
    BAD_LINE, DATA_LIMIT, DONE, FAULT, FILE_DATA, FOR_LONG, INPUT_LIMIT, LINE_LIMIT, LONG, REFUSED, ROOT, SERVER,
    Case, Ended, at, folder, free_ports, line_of, run, serving, started,
)  # fmt: skip


class Scripts(Case):
    """Whole scripts of `loop`."""

    seconds = 5

    def test_each_command_has_its_reply(self):
        login = b"T1  LOGIN LISPM\n"
        full, over = b"x" * FILE_DATA, b"x" * (FILE_DATA + 1)
        for name, given, out in [
            ("a file is written and read", FILE_SCRIPT, FILE_REPLIES),
            ("nothing is done before a login", b"T1  DELETE^A.LISP\n", b"T1  ERROR NLI Not logged in.\n"),
            ("a file that isn't there", login + b"T2  DELETE^A.LISP\n", login + b"T2  ERROR FNF No such file.\n"),
            ("a command without its second space", login + b"T9\n", login + EMPTY_REPLY),
            ("a command that isn't known", login + b"T9  DIRECTORY\n", login + b"T9  ERROR UKC Unknown command.\n"),
            (
                "a WRITE of 448 bytes is taken and one of 449 isn't",
                login + b"T2 H1 OPEN WRITE^A\nT3 H1 WRITE^" + full + b"\nT4 H1 WRITE^" + over + b"\nT5 H9 WRITE^" + over + b"\n",
                login + b"T2 H1 OPEN 0\nT3 H1 WRITE 448\nT4 H1 ERROR SYN Bad command syntax.\nT5 H9 ERROR SYN Bad command syntax.\n",
            ),
            (
                "replies print bytes as scripts write them",
                login + rb"T2 H OPEN WRITE^A" + b"\n" + rb"T3 H WRITE^\00\1f ~\7f\80\8c\8d^\8e\ff\5e\5c\41" + b"\n"
                b"T4 H CLOSE\nT5 H OPEN READ^A\nT6 H READ\n",
                login + b"T2 H OPEN 0\nT3 H WRITE 14\nT4 H CLOSE 14\nT5 H OPEN 14\n"
                + rb"T6 H READ^\00\1f ~\7f\80\8c^^\8e\ff\5e\5cA" + b"\n",
            ),
        ]:  # fmt: skip
            self.check(f"loop: {name}", run(["loop"], given).problems(DONE, out, b""))

    def test_the_session_of_the_demo_is_the_same_by_both_carriages(self):
        script = (ROOT / "examples/hello.file").read_bytes()
        for version in ["1", "2"]:
            problems = run(["loop", "--carriage", version], script).problems(DONE, HELLO_REPLIES, b"")
            self.check(f"loop --carriage {version}: the session of the demo", problems)

    def test_a_script_is_cut_into_lines(self):
        for name, given, out in [
            ("an empty script has no reply", b"", b""),
            ("a last line without its end counts", FILE_SCRIPT[:-1], FILE_REPLIES),
            ("a carriage return at a line's end is ignored", FILE_SCRIPT.replace(b"\n", b"\r\n"), FILE_REPLIES),
            ("an empty line is the empty command", b"\n" + FILE_SCRIPT, EMPTY_REPLY + FILE_REPLIES),
            ("a last line that is a carriage return is the empty command", FILE_SCRIPT + b"\r", FILE_REPLIES + EMPTY_REPLY),
            ("a line of blanks is a command of no names", b"   \n", EMPTY_REPLY),
        ]:
            self.check(f"loop: {name}", run(["loop"], given).problems(DONE, out, b""))
        longest = b"T1  LOGIN LISPM".ljust(DATA_LIMIT)
        replied = b"T1  ERROR SYN Bad command syntax.\n"
        self.check("loop: a command of 488 bytes is run", run(["loop"], longest).problems(DONE, replied, b""))

    def test_a_bad_line_stops_a_script_when_it_is_its_turn(self):
        bad = [(b"T1  LOGIN\tX", b"byte 10"), (b"T1  LOGIN \x8d", b"byte 11"), (b"T1  LOGIN \xff", b"byte 11")]
        bad += [(line, b"hexadecimal") for line in [rb"T1  LOGIN \8D", rb"T1  LOGIN \8", rb"T1  LOGIN \g0", b"T1  LOGIN \\"]]
        bad += [(b"T1  LOGIN X\r\r", b"byte 12"), (b"T1  LOGIN\x00", b"byte 10")]
        bad += [(b"x" * (DATA_LIMIT + 1), b"488"), (rb"\20" * (DATA_LIMIT + 1), b"488"), (b"x" * (LINE_LIMIT + 1), b"4096")]
        for line, fault in bad:
            for before, out in [(b"", b""), (FILE_SCRIPT, FILE_REPLIES)]:
                number = before.count(b"\n") + 1
                ended = run(["loop"], before + line + b"\nT9  LOGIN MORE\n")
                name = f"loop: {line[:20]!r}.. of {len(line)} bytes is bad in line {number}, status 2"
                self.check(name, ended.problems(BAD_LINE, out, [b"line %d: bad: " % number, fault]))
        ended = run(["loop"], FILE_SCRIPT + b"\t")
        self.check("loop: a bad last line without its end", ended.problems(BAD_LINE, FILE_REPLIES, [b"line 8: bad: "]))

    def test_the_longest_script_is_run_and_one_byte_more_is_a_fault(self):
        line = rb"\58" * DATA_LIMIT + b"\n"
        count = INPUT_LIMIT // len(line)
        longest = line * count + b"\\58" * ((INPUT_LIMIT - count * len(line)) // 3)
        longest += b"X" * (INPUT_LIMIT - len(longest))
        ended = run(["loop"], longest, patience=LONG)
        self.check("loop: a script of 1,048,576 bytes is run", ended.problems(DONE, EMPTY_REPLY * (count + 1), b""))
        ended = run(["loop"], longest + b"X", patience=LONG)
        name = "loop: one byte more is a fault behind the replies, status 1"
        self.check(name, ended.problems(FAULT, EMPTY_REPLY * count, [b"chaosd: ", b"1048576"]))
        ended = run(["loop"], b"x" * INPUT_LIMIT)
        self.check("loop: a line of 1,048,576 bytes is bad", ended.problems(BAD_LINE, b"", [b"line 1: bad: "]))
        ended = run(["loop"], b"x" * (INPUT_LIMIT + 1))
        self.check("loop: a line past the limit is a fault, status 1", ended.problems(FAULT, b"", [b"chaosd: "]))


class Streams(Case):
    """Standard input and output that fail."""

    def check_streams(self, name, lines):
        """The checks of a program, by three lines that run it, since a client that ends by a fault leaves its connection open."""
        with open("/dev/full", "wb") as full:
            ended = run(lines[0], FILE_SCRIPT, stdout=full)
        self.check(f"{name} with standard output full: told, status 1", ended.problems(FAULT, None, [b"chaosd: "]))
        ended = run(lines[1], FILE_SCRIPT, closed=[1])
        self.check(f"{name} with standard output closed: told, status 1", ended.problems(FAULT, None, [b"chaosd: "]))
        reader, writer = os.pipe()
        os.close(reader)
        ended = run(lines[2], FILE_SCRIPT, stdout=writer)
        os.close(writer)
        self.check(f"{name} to a pipe that nobody reads: told, status 1", ended.problems(FAULT, None, [b"chaosd: "]))
        with folder() as here:
            number = os.open(here, os.O_RDONLY)
            ended = run(lines[0], stdin=number)
            os.close(number)
        self.check(f"{name} with a folder as standard input: told, status 1", ended.problems(FAULT, b"", [b"chaosd: "]))
        ended = run(lines[0], stdin=subprocess.DEVNULL, closed=[0])
        self.check(f"{name} with standard input closed: told, status 1", ended.problems(FAULT, b"", [b"chaosd: "]))

    def test_loop_tells_what_a_stream_refuses(self):
        self.check_streams("loop", [["loop"]] * 3)

    def test_ask_tells_what_a_stream_refuses(self):
        with serving(peers=3) as server:
            self.check_streams("ask", [server.words(peer) for peer in range(3)])


GOOD_SOCKET = "127.0.0.1:9001"
BAD_ADDRESSES = ["0", "000000", "8", "401x", "0o401", "0x101", "200000", "777777", "1777777", "0000401", "+401", " 401", "401 ", ""]
BAD_SOCKETS = ["127.0.0.1", "127.0.0.1:", ":9001", "127.0.0.1:0", "127.0.0.1:65536", "127.0.0.1:09001", "127.0.0.1:+9001"]
BAD_SOCKETS += ["127.0.0.01:9001", "256.0.0.1:9001", "127.0.1:9001", "localhost:9001", "[::1]:9001", "127.0.0.1:9001 ", "9001", ""]
BAD_PEERS = ["402", "402=", "=127.0.0.1:9002", "402:127.0.0.1:9002", "402==127.0.0.1:9002", "0=127.0.0.1:9002", ""]
BAD_PEERS += ["1777777=127.0.0.1:9002", "402=127.0.0.1:0", "402=127.0.0.1", "402=localhost:9002", "402 =127.0.0.1:9002"]
BAD_TURNS = ["", "01", "00", "+1", "1.5", "1e3", "ten", "0x10", "1000000001", "4294967296", "18446744073709551616", " 1"]


def wrong_lines():
    """Lines with a word that can't stand where it stands, or with too few or too many, and the word that is to be named."""
    serve = ["serve", "401", GOOD_SOCKET, "no-such-folder"]
    ask = ["ask", "402", "127.0.0.1:9002", "401", f"401={GOOD_SOCKET}"]
    wrong = [(["serve", word, *serve[2:]], word) for word in BAD_ADDRESSES]
    wrong += [(["serve", "401", word, serve[3]], word) for word in BAD_SOCKETS]
    wrong += [([*serve, word], word) for word in BAD_PEERS]
    wrong += [(["serve", "--turns", word, *serve[1:]], word) for word in BAD_TURNS]
    wrong += [(["ask", word, *ask[2:]], word) for word in BAD_ADDRESSES]
    wrong += [(["ask", "402", word, *ask[3:]], word) for word in BAD_SOCKETS]
    wrong += [([*ask[:3], word, ask[4]], word) for word in BAD_ADDRESSES]
    wrong += [([*ask[:4], word], word) for word in BAD_PEERS]
    wrong += [([*serve, f"402={GOOD_SOCKET}", "000402=127.0.0.1:9003"], "402"), (["serve", "--turns"], "turns")]
    wrong += [([*serve, *[f"{n:o}={GOOD_SOCKET}" for n in range(1, 34)]], ""), (["loop", "more"], "more")]
    wrong += [(serve[:count], "") for count in range(1, 4)] + [(ask[:count], "") for count in range(1, 4)]
    wrong += [(["ask", "--turns", "9", *ask[1:]], "turns"), (["loop", "--turns", "9"], "turns"), ([*serve, "--loud"], "loud")]
    return wrong


class Lines(Case):
    """The lines of `serve` and `ask`."""

    seconds = 4

    def test_a_wrong_word_is_named(self):
        wrong, problems = wrong_lines(), []
        for words, word in wrong:
            found = run(words, FILE_SCRIPT).problems(BAD_LINE, b"", [b"\n", word.encode()])
            problems += [f"`chaosd {' '.join(words)}`: {problem}" for problem in found]
        self.check(f"{len(wrong)} lines with a wrong word: it is named on standard error, status 2", problems)

    def test_the_least_and_the_greatest_words_are_taken(self):
        ports = free_ports(2)
        with folder() as here:
            peers = [f"{n:o}={at(ports[1])}" for n in range(1, 33)]
            for name, words in [
                ("serve of no turns", ["serve", "--turns", "0", "1", at(ports[0]), here]),
                ("serve of ten turns without a peer", ["serve", "--turns", "10", "177777", at(ports[0]), here]),
                ("serve with 32 peers", ["serve", "--turns", "1", "000401", at(ports[0]), here, *peers]),
                ("ask of an empty script", ["ask", "402", at(ports[0]), "401"]),
                ("ask of an empty script with 32 peers", ["ask", "402", at(ports[0]), "000401", *peers]),
            ]:
                self.check(f"{name}: status 0", run(words).problems(DONE, b"", None))

    def test_what_can_not_be_opened_is_told(self):
        """In the order in which it is opened: the folder before the socket, and neither for a bad line."""
        with socket.socket(socket.AF_INET, socket.SOCK_DGRAM) as taken, folder() as here:
            free, port = free_ports(2)
            taken.bind(("127.0.0.1", port))
            place, absent, plain = at(port), here / "absent", here / "plain"
            plain.write_bytes(b"")
            for name, words, said in [
                ("serve on a folder that isn't there", ["serve", "401", at(free), absent], absent),
                ("serve on a file", ["serve", "401", at(free), plain], plain),
                ("serve on a folder without a name", ["serve", "401", at(free), ""], "chaosd"),
                ("serve at a socket that is taken", ["serve", "401", place, here], place),
                ("serve opens its folder before its socket", ["serve", "401", place, absent], absent),
                ("ask at a socket that is taken", ["ask", "402", place, "401"], place),
            ]:
                ended = run(words, FILE_SCRIPT)
                self.check(f"{name}: told, status 1", ended.problems(FAULT, b"", [b"chaosd: ", str(said).encode()]))
            ended = run(["serve", "401", place, absent, "402"])
            self.check("a bad line is found before anything is opened", ended.problems(BAD_LINE, b"", [b"402"]))
            listed = sorted(path.name for path in here.iterdir())
            self.check("what can't be opened isn't made", [] if listed == ["plain"] else [f"there are {listed}"])


class Strangers(Case):
    """Hosts that are no PEER of the line."""

    seconds = 4

    def test_ask_of_a_host_that_is_no_peer_ends_at_once(self):
        own, other = free_ports(2)
        ended = run(["ask", *FOR_LONG, "402", at(own), "401", f"403={at(other)}"], FILE_SCRIPT)
        problems = ended.problems(REFUSED, NO_REPLY, b"chaosd: host 401 is no PEER\n")
        self.check("ask of a host that is no peer: told, `no reply`, status 3, at once", problems)

    def test_serve_tells_once_of_a_host_that_asks_and_is_no_peer(self):
        (port,) = free_ports(1)
        with folder() as here:
            server = started(["serve", "--turns", "300", "401", at(port), here], stdout=subprocess.PIPE, stderr=subprocess.PIPE)
            said = line_of(server.stderr)
            with socket.socket(socket.AF_INET, socket.SOCK_DGRAM) as stranger:
                stranger.bind(("127.0.0.1", 0))
                asks_from = stranger.getsockname()[1]
                for index in (1, 2, 3):
                    stranger.sendto(datagram(RFC, (SERVER, 0), (0o777, index), 5, 0, b"FILE"), ("127.0.0.1", port))
            out, err = server.communicate(timeout=LONG)
        wanted = b"chaosd: no PEER is given, so nobody is answered\nchaosd: host 777 asks from %s and is no PEER\n" % at(asks_from).encode()
        wanted += b"chaosd: 300 turns are over\n"
        problems = Ended(server.returncode, out, said + err).problems(DONE, b"", said + wanted)
        self.check("serve tells once of a host that is no peer and asks, and at its end that its turns are over", problems)

    def test_quiet_leaves_out_all_but_what_fails(self):
        (port,) = free_ports(1)
        with folder() as here:
            ended = run(["serve", "--quiet", "--turns", "3", "401", at(port), here, "402=127.0.0.1:9"])
            self.check("serve --quiet tells nothing where nothing fails", ended.problems(DONE, b"", b""))
            ended = run(["serve", "--quiet", "--turns", "3", "401", at(port), here / "absent"])
            self.check("serve --quiet tells what fails", ended.problems(FAULT, b"", [b"chaosd: can't open "]))
