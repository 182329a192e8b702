"""Tests `chaosd ask` as its users meet it: at a terminal, in a script that has to know whether it worked, and with a time of its own."""

import contextlib
import os
import pty
import select
import socket
import struct
import time

from tests.packets import OPN, SNS, STS, datagram
from tests.scripts import NO_REPLY
from tests.support import DONE, LONG, PATIENCE, REFUSED, Case, Ended, Relay, at, folder, free_ports, network_before, run, serving, started

LOGIN = b"T1  LOGIN LISPM\n"
NOT_SENT = b"chaosd: not sent: it is no command of FILE (help lists the commands)\n"
HINT = b"LOGIN was read as a handle: a command without a handle has two spaces before its word, as in `T1  LOGIN LISPM`\n"
NOT_KEPT = b"chaosd: handle %s was written and not closed, so its file was not kept\n"


HELP = b"""\
Commands, as you may type them; H is a name of your own for an open file:
  LOGIN NAME           log in, which is the first command
  H OPEN READ^PATH     open a file to be read
  H READ               get the next bytes of the file, at most 448
  H OPEN WRITE^PATH    open a file to be written
  H WRITE^TEXT         write at most 448 bytes; ^ is a newline, \\0a a byte
  H CLOSE              close the file, which stores what was written
  RENAME^OLD^NEW       rename a file
  DELETE^PATH          delete a file
A tid is put in front of each. No command lists the server's files.
Type quit, or control-D, to end.
"""


class Terminal:
    """A run whose three standard streams are a terminal, which shows no echo."""

    def __init__(self, words):
        self.master, slave = pty.openpty()
        self.process = started(words, stdin=slave, stdout=slave, stderr=slave)
        os.close(slave)

    def shown(self, last):
        """What the terminal shows until that comes last, or its time is over."""
        seen, end = b"", time.monotonic() + PATIENCE
        while not seen.endswith(last) and select.select([self.master], [], [], max(0, end - time.monotonic()))[0]:
            try:
                seen += os.read(self.master, 4_096).replace(b"\r\n", b"\n")
            except OSError:
                break
        return seen

    def typed(self, line, last=b"> "):
        """What is shown once this was typed, without what was typed."""
        os.write(self.master, line)
        return self.shown(last).removeprefix(line)

    def end(self):
        self.process.kill()
        self.process.wait()
        os.close(self.master)


class Typing(Case):
    """Somebody types commands."""

    seconds = 4

    def test_a_terminal_asks_for_each_line_and_a_bad_one_ends_nothing(self):
        with serving() as server:
            terminal = Terminal(server.words())
            try:
                shown = [terminal.shown(b"> ")]
                for line in [b"T1 LOGIN LISPM\n", b"T1  L\xc3\xa9\n", b"T1 LOGIN READ\n", LOGIN, b"T2 H OPEN WRITE^A\n", b"T3 H WRITE^(A\\5)\n", b"T4 H WRITE^(A)\n"]:
                    shown.append(terminal.typed(line))
                shown.append(terminal.typed(b"\x04", NOT_KEPT % b"H"))
                status = terminal.process.wait(PATIENCE)
            finally:
                terminal.end()
        wanted = [
            b"> ",
            b"chaosd: not sent: " + HINT + b"> ",
            b"chaosd: not sent: byte 6 is not a printable character of ASCII\n> ",
            b"T1 LOGIN ERROR NLI Not logged in.\nchaosd: " + HINT + b"> ",
            LOGIN + b"> ",
            b"T2 H OPEN 0\n> ",
            b"chaosd: not sent: each \\ needs two lower-case hexadecimal digits behind it\n> ",
            b"T4 H WRITE 3\n> ",
            NOT_KEPT % b"H",
        ]
        for name, seen, told in zip(["the prompt", "one space", "a key", "a handle LOGIN", "LOGIN", "OPEN", "an escape", "WRITE", "the end"], shown, wanted):
            self.check(f"{name} at a terminal", [] if seen.endswith(told) else [f"{seen!r} and not {told!r}"])
        self.check("the run ends", [] if status == DONE else [f"status {status}"])


    def test_a_tid_is_put_in_front_of_a_command_that_is_typed_without_one(self):
        """Where the command has a handle, one space follows the tid, otherwise two. What is sent is shown behind the prompt."""
        dialogue = [
            (b"LOGIN LISPM\n", b"> T1  LOGIN LISPM\nT1  LOGIN LISPM\n> "),
            (b"H OPEN WRITE^A\n", b"> T2 H OPEN WRITE^A\nT2 H OPEN 0\n> "),
            (b"H WRITE^\\0a b\n", b"> T3 H WRITE^\\0a b\nT3 H WRITE 3\n> "),
            (b"X9 H WRITE^c\n", b"X9 H WRITE 4\n> "),
            (b"H CLOSE\n", b"> T4 H CLOSE\nT4 H CLOSE 4\n> "),
            (b"H CLOSE\n", b"> T5 H CLOSE\nT5 H ERROR NOH No such handle.\n> "),
            (b"RENAME^A^B\n", b"> T6  RENAME^A^B\nT6  RENAME\n> "),
            (b"DELETE^.B\n", b"> T7  DELETE^.B\nT7  ERROR ILP Illegal path.\n> "),
            (b"DELETE^B\n", b"> T8  DELETE^B\nT8  DELETE\n> "),
            (b"NONSENSE\n", NOT_SENT + b"> "),
            (b"OPEN WRITE A\n", NOT_SENT + b"> "),
            (b"LOGIN\n", NOT_SENT + b"> "),
            (b"H WRITE^" + b"x" * 480 + b"\n", NOT_SENT + b"> "),
            (b"DELETE^B\n", b"> T9  DELETE^B\nT9  ERROR FNF No such file.\n> "),
        ]
        with serving() as server:
            terminal = Terminal(server.words())
            try:
                terminal.shown(b"> ")
                for typed, wanted in dialogue:
                    shown = terminal.typed(typed, wanted)
                    self.check(f"{typed[:20]!r}", [] if shown == wanted else [f"{shown!r} and not {wanted!r}"])
                wanted = b"X9  ERROR FNF No such file.\n> "
                shown = terminal.typed(b"X9  DEL\x04ETE^B\n", wanted)
                is_sent = shown.endswith(wanted) and b"not sent" not in shown
                self.check("a line in two parts, which control-D ends", [] if is_sent else [f"{shown!r}"])
                os.write(terminal.master, b"quit\n")
                status = terminal.process.wait(PATIENCE)
            finally:
                terminal.end()
        self.check("quit ends the run", [] if status == DONE else [f"status {status}"])

    def test_help_shows_what_can_be_typed_and_quit_ends(self):
        with serving() as server:
            terminal = Terminal(server.words())
            try:
                terminal.shown(b"> ")
                for word in [b"help\n", b"?\n"]:
                    shown = terminal.typed(word, b"end.\n> ")
                    self.check(f"{word!r}", [] if shown == HELP + b"> " else [f"{shown!r}"])
                shown = terminal.typed(b"T  quit\n")
                self.check("a line with that word is another", [] if shown == NOT_SENT + b"> " else [f"{shown!r}"])
                os.write(terminal.master, b"quit\n")
                status = terminal.process.wait(PATIENCE)
                left = terminal.shown(b"nothing")
            finally:
                terminal.end()
        self.check("quit ends the run", ([] if status == DONE else [f"status {status}"]) + ([] if left in (b"", b"quit\n") else [f"{left!r}"]))

    def test_a_script_is_sent_as_it_is(self):
        """Through a pipe `help`, `quit` and a command without a tid are commands like any other, which FILE refuses."""
        with serving() as server:
            bad = b"  ERROR SYN Bad command syntax.\n"
            ended = run(server.words(), b"LOGIN LISPM\nhelp\nquit\n" + LOGIN)
        self.check("a script", ended.problems(DONE, bad * 3 + LOGIN, b""))


class Kept(Relay):
    """A network that keeps what it hands on, and each one's port."""

    def __init__(self, port, ends):
        super().__init__(port, ends)
        self.kept = []

    def passed(self, datagram, port):
        self.kept.append((port, datagram))
        return [(datagram, port)]

    def asks(self, opened, client):
        """Asks the client of this OPN for its status, as a server does that heard nothing for long, and says whether it told it soon."""
        here, there = (struct.unpack(">HH", opened[place : place + 4]) for place in (8, 12))
        server, told = self.other[client], len(self.kept)
        self.socket.sendto(datagram(SNS, here, there), ("127.0.0.1", client))
        end = time.monotonic() + PATIENCE
        while time.monotonic() < end:
            if any(port == server and packet[4] == STS for port, packet in self.kept[told:]):
                return True
            time.sleep(0.01)
        return False


class Thinking(Case):
    """Somebody who types thinks, and the client goes on."""

    seconds = 4

    def test_a_server_is_answered_while_a_line_is_typed(self):
        with serving() as server, network_before(server, Kept) as network:
            (client,) = network.peers
            terminal = Terminal(["ask", "402", at(client), "401", f"401={at(network.port)}"])
            try:
                terminal.shown(b"> ")
                terminal.typed(LOGIN)
                opened = next(packet for port, packet in network.kept if port == client and packet[4] == OPN)
                answered = [network.asks(opened, client)]
                os.write(terminal.master, b"T2  DEL")
                answered.append(network.asks(opened, client))
                shown = terminal.typed(b"ETE^A\n")
                status = os.write(terminal.master, b"\x04") and terminal.process.wait(PATIENCE)
            finally:
                terminal.end()
        self.check("before a line", [] if answered[0] else ["a server that asks is told nothing"])
        self.check("in a line", [] if answered[1] else ["a server that asks is told nothing"])
        reply = b"T2  ERROR FNF No such file.\n> "
        self.check("the line begun is kept", [] if shown.endswith(reply) else [f"{shown!r} and not {reply!r}"])
        self.check("the run ends", [] if status == DONE else [f"status {status}"])


class Scripts(Case):
    """Scripts that have to know whether they worked."""

    seconds = 6

    def test_a_strict_run_ends_by_the_first_error(self):
        script = LOGIN + b"T2  DELETE^A\nT3  DELETE^NONE\nT4  DELETE^B\n"
        replies = LOGIN + b"T2  DELETE\nT3  ERROR FNF No such file.\n"
        with serving() as server:
            for options, status, out in [(["--strict"], REFUSED, replies), ([], DONE, replies + b"T4  DELETE\n")]:
                for name in "AB":
                    (server.folder / name).write_bytes(b"x")
                problems = run(server.words(options=options), script).problems(status, out, b"")
                left = [each.name for each in server.folder.iterdir()]
                problems += [] if left == (["B"] if options else []) else [f"{left} are left"]
                self.check(f"ask {' '.join(options)}: status {status}", problems)
            good = LOGIN + b"T2 H OPEN WRITE^A\nT3 H CLOSE\n"
            ended = run(server.words(options=["--strict"]), good)
            self.check("ask --strict without an error: status 0", ended.problems(DONE, LOGIN + b"T2 H OPEN 0\nT3 H CLOSE 0\n", b""))

    def test_handles_that_were_written_and_not_closed_are_told_at_the_end(self):
        script = LOGIN + b"A H OPEN WRITE^A\nA H WRITE^x\nB I OPEN WRITE^B\nB I WRITE^x\nB I CLOSE\nC J OPEN WRITE^C\nD K OPEN READ^B\n"
        with serving() as server:
            ended = run(server.words(), script)
            problems = ended.problems(DONE, None, NOT_KEPT % b"H")
            problems += [f"{name} is there" for name in "AC" if (server.folder / name).exists()]
            self.check("a script that forgets a CLOSE: told, status 0", problems)


@contextlib.contextmanager
def silent():
    """A socket at which nobody answers, and its port."""
    with socket.socket(socket.AF_INET, socket.SOCK_DGRAM) as one:
        (port,) = free_ports(1)
        one.bind(("127.0.0.1", port))
        yield one, port


class Timeouts(Case):
    """Times that a reply is waited for."""

    seconds = 26

    def check_time(self, name, begun, least):
        took = time.monotonic() - begun
        self.check(name, [] if took >= least else [f"it took {took:.1f} s and not {least}"])

    def test_a_timeout_is_kept(self):
        with silent() as (_, port):
            for words in [["get", "A"], ["delete", "A"], ["rename", "A", "B"]]:
                begun = time.monotonic()
                ended = run([words[0], "--timeout", "2", "402", at(free_ports(1)[0]), f"401={at(port)}", *words[1:]])
                self.check(f"{words[0]}: no reply", ended.problems(REFUSED, b"", [b"chaosd: A: no connection opened in "]))
                self.check_time(f"{words[0]} --timeout 2", begun, 2)
            begun = time.monotonic()
            ended = run(["ask", "--timeout", "2", "402", at(free_ports(1)[0]), "401", f"401={at(port)}"], LOGIN)
            self.check("ask: no reply", ended.problems(REFUSED, NO_REPLY, [b"chaosd: no connection opened in "]))
            self.check_time("ask --timeout 2", begun, 2)

    def test_a_longer_timeout_waits_for_a_server_that_comes_late(self):
        with silent() as (one, port), folder() as here:
            (client,) = free_ports(1)
            running = started(["get", "--timeout", "3600", "402", at(client), f"401={at(port)}", "NONE"], stderr=-1, stdout=-1)
            time.sleep(19)
            problems = [] if running.poll() is None else ["it gave up before"]
            one.close()
            server = started(["serve", "401", at(port), str(here), f"402={at(client)}"], stderr=-1)
            out, err = running.communicate(timeout=LONG)
            server.kill()
            server.communicate()
        ended = Ended(running.returncode, out, err)
        self.check("get --timeout 3600: the server comes after 19 s", problems + ended.problems(REFUSED, b"", [b"FNF No such file."]))
