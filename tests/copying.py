"""Copies of whole files: what the tests of `get` and `put` share."""

import contextlib
import re
import struct
import subprocess

from tests.packets import turned
from tests.support import CLIENT, LONG, REFUSED, Relay, at, finished, network_before, serving, started

NO_FILE = b"chaosd: %s: FNF No such file.\n"


def copying(server, subcommand, *names, options=(), peer=0, **streams):
    """A copy that runs, from or to a server, or a network before one."""
    place = [f"{CLIENT + peer:o}", at(server.peers[peer]), f"401={at(server.port)}"]
    streams = {"stdin": subprocess.DEVNULL, "stdout": subprocess.PIPE, "stderr": subprocess.PIPE, **streams}
    return started([subcommand, *options, *place, *names], **streams)


def copied(*words, given=None, patience=LONG, **more):
    """How such a copy ended, which may be given a file on standard input."""
    if given is not None:
        more["stdin"] = subprocess.PIPE
    return finished(copying(*words, **more), given, patience)


def left_problems(folder):
    """What lies in a folder that a copy should have taken away: nothing there may be taken for a file."""
    return [f"{each.name} is left" for each in folder.iterdir() if each.name.endswith(".part")]


# What `--verbose` reports where packets were sent again: on a busy machine also where none was lost.
LOSSES = rb"chaosd: \d+ loss(es)? on the way, after which packets were sent again\n"


def told_problems(ended, pattern, status=REFUSED):
    """What differs from this status, nothing on standard output, and a text like this on standard error, beside a count of losses."""
    found = ended.problems(status, b"")
    return found + ([] if re.fullmatch(pattern, re.sub(LOSSES, b"", ended.err)) else [f"error output {ended.err!r}"])


class Changing(Relay):
    """A network that changes what packets say. `change` is told of each datagram whether it is the client's, and the text of its packet,
    and gives the text to hand on, as long as it was, or None where it is lost."""

    def __init__(self, port, ends, change):
        super().__init__(port, ends)
        self.server, self.change = ends[0], change

    def passed(self, datagram, port):
        size = struct.unpack(">H", datagram[6:8])[0] & 0xFFF
        data = turned(datagram[20:])
        text = self.change(port == self.server, data[:size])
        return [] if text is None else [(datagram[:20] + turned(text + data[size:]), port)]


@contextlib.contextmanager
def changing(change):
    """A server, and a network before it that changes what packets say."""
    with serving() as server, network_before(server, lambda port, ends: Changing(port, ends, change)) as network:
        yield server, network
