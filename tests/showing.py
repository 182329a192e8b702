"""Tests `chaosd show --file`: what data say as a text, and what a command or a reply of FILE says."""

import struct

from tests.packets import turned
from tests.support import DONE, REFUSED, Case, run

RFC, DAT, DWD = 0o1, 0o200, 0o300


def datagram(op, data):
    """The hexadecimal line of a datagram of version 1."""
    head = struct.pack(">BBHHHHHHH", op, 0, len(data), 0o401, 1, 0o402, 2, 5, 6)
    return (b"CH\x01\x00" + head + turned(data + bytes(len(data) % 2))).hex().encode() + b"\n"


def lines_behind(op, data):
    """What a report says behind its line of data."""
    ended = run(["show", "--file"], datagram(op, data))
    return ended.out.partition(b"\ndata ")[2].partition(b"\n")[2].splitlines()


class Showing(Case):
    """Reports with what their data say."""

    def test_data_are_said_as_a_text_and_commands_and_replies_of_file_by_their_parts(self):
        for op, data, said in [
            (RFC, b"FILE", [b"text FILE"]),
            (RFC, b"T1  LOGIN LISPM", [b"text T1  LOGIN LISPM"]),
            (DAT, b"T1  LOGIN LISPM", [b"text T1  LOGIN LISPM", b"file command or reply tid T1 LOGIN user LISPM"]),
            (DWD, b"T2 H1 OPEN WRITE\x8dA.LISP", [b"text T2 H1 OPEN WRITE^A.LISP", b"file command tid T2 handle H1 OPEN WRITE path A.LISP"]),
            (DAT, b"T2 H1 OPEN 0", [b"text T2 H1 OPEN 0", b"file reply tid T2 handle H1 OPEN length 0"]),
            (DAT, b"T3 H1 WRITE\x8d(A)", [b"text T3 H1 WRITE^(A)", b"file command tid T3 handle H1 WRITE bytes 3"]),
            (DAT, b"T3 H1 WRITE 3", [b"text T3 H1 WRITE 3", b"file reply tid T3 handle H1 WRITE length 3"]),
            (DAT, b"T4 H1 CLOSE", [b"text T4 H1 CLOSE", b"file command tid T4 handle H1 CLOSE"]),
            (DAT, b"T5 H1 EOF", [b"text T5 H1 EOF", b"file reply tid T5 handle H1 EOF"]),
            (DAT, b"T  RENAME\x8dA\x8dB", [b"text T  RENAME^A^B", b"file command tid T RENAME path A new path B"]),
            (DAT, b"T  RENAME", [b"text T  RENAME", b"file reply tid T RENAME"]),
            (DAT, b"T  ERROR FNF No such file.", [b"text T  ERROR FNF No such file.", b"file reply tid T ERROR code FNF text No such file."]),
            (DAT, b"T H OPEN x", [b"text T H OPEN x"]),
            (DAT, b"hello", [b"text hello"]),
            (DAT, bytes(488), [b"text " + b"\\00" * 488]),
        ]:  # fmt: skip
            seen = lines_behind(op, data)
            self.check(f"{data[:30]} of opcode {op:o}", [] if seen == said else [f"{seen} and not {said}"])

    def test_the_plain_report_stays_as_it_is(self):
        given = b"".join(datagram(DAT, b"T3 H1 WRITE\x8d" + bytes([n % 256]) * n) for n in range(448)) + b"nonsense\n"
        plain, more = run(["show"], given), run(["show", "--file"], given)
        problems = plain.problems(REFUSED, None, b"") + more.problems(REFUSED, None, b"")
        kept = [line for line in more.out.splitlines() if not line.startswith((b"text ", b"file "))]
        problems += [] if kept == plain.out.splitlines() else ["another report"]
        self.check("448 datagrams and a bad line, with and without --file", problems)
        ended = run(["show", "--file"], datagram(DAT, b"")[:-1])
        self.check("a packet without data", ended.problems(DONE, None, b"") + (["a text"] if b"text" in ended.out else []))
