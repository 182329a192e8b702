"""Scripts of FILE commands, and the replies that are printed for them."""

import re

from tests.support import FILE_DATA, joined

FILE_SCRIPT = b"""T1  LOGIN LISPM
T2 H1 OPEN WRITE^A.LISP
T3 H1 WRITE^(A)
T4 H1 CLOSE
T5 H2 OPEN READ^A.LISP
T6 H2 READ
T7 H2 READ
"""
FILE_REPLIES = b"""T1  LOGIN LISPM
T2 H1 OPEN 0
T3 H1 WRITE 3
T4 H1 CLOSE 3
T5 H2 OPEN 3
T6 H2 READ^(A)
T7 H2 EOF
"""
# The replies to examples/hello.file.
HELLO_REPLIES = b"""T1  LOGIN LISPM
T2 H1 OPEN 0
T3 H1 WRITE 39
T4 H1 CLOSE 39
T5 H2 OPEN 39
T6 H2 READ^(DEFUN HELLO () (PRINT "HELLO, WORLD"))
T7 H2 EOF
T8 H2 CLOSE 39
"""
EMPTY_REPLY = b"  ERROR SYN Bad command syntax.\n"
NO_REPLY = b"no reply\n"


def text_of(content):
    """The bytes as a script writes them and as replies print them."""
    pieces = {byte: bytes([byte]) for byte in range(0x20, 0x7F)}
    pieces |= {ord("^"): rb"\5e", ord("\\"): rb"\5c", 0x8D: b"^"}
    return b"".join(pieces.get(byte, b"\\%02x" % byte) for byte in content)


def bytes_of(text):
    """The bytes that a printed text stands for."""
    byte = {b"^": b"\x8d"}
    return re.sub(rb"\\..|\^", lambda met: byte.get(met[0]) or bytes([int(met[0][1:], 16)]), text)


def put_script(path, content):
    """A script that writes a file, and the replies to it."""
    script, replies = [b"T  LOGIN LISPM", b"T H OPEN WRITE^" + path], [b"T  LOGIN LISPM", b"T H OPEN 0"]
    for at in range(0, len(content), FILE_DATA):
        piece = content[at : at + FILE_DATA]
        script.append(b"T H WRITE^" + text_of(piece))
        replies.append(b"T H WRITE %d" % (at + len(piece)))
    return joined(script + [b"T H CLOSE"]), joined(replies + [b"T H CLOSE %d" % len(content)])


def get_script(path, size):
    """A script that reads a file of so many bytes to its end."""
    reads = [b"T H READ"] * (-(-size // FILE_DATA) + 1)
    return joined([b"T  LOGIN LISPM", b"T H OPEN READ^" + path, *reads, b"T H CLOSE"])


def content_read(replies):
    """The content that the replies to such a script tell, and the rest of them."""
    lines = replies.splitlines()
    front = b"T H READ^"
    told = b"".join(bytes_of(line.removeprefix(front)) for line in lines if line.startswith(front))
    return told, [line for line in lines if not line.startswith(front)]
