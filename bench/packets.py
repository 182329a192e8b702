#!/usr/bin/env python3
"""Draws the packets of one get over a slow line, for each of some programs, as SVG.

    bench/packets.py TITLE=PROGRAM.. > docs/pictures/packets.svg

Each PROGRAM gets a file of 256 KiB over a line that takes 20 ms each way, carries 100,000 bytes a second and has a long queue. So the line
only delays, and no packet needs to go twice. The server has a window of 64, and all other options are as usual. A relay notes each packet
that the server hands to the line. A copy is ended after 300 seconds.
"""

import dataclasses
import math
import pathlib
import struct
import subprocess
import sys
import tempfile

sys.dont_write_bytecode = True

import line  # noqa: E402
from copiers import Chaosd, content_of, told_by  # noqa: E402
from plot import HEIGHT, LEFT, STYLE, TOP, WIDTH, text_of  # noqa: E402

MANNERS = line.Manners(delay=0.020, rate=100_000)
COUNT, WINDOW = 262_144, 64
# the form of the datagrams, the opcodes of data packets, and the room below a panel
FRONT, DATA, BELOW = b"CH\x01\x00", 0o200, 60
COLOURS = {False: "#0b5394", True: "#cc0000"}


@dataclasses.dataclass
class Sent:
    """A data packet of the server: when it was sent, in seconds since the first, its place in the stream, and whether it went before."""

    moment: float
    place: int
    again: bool


def sent_of(carried):
    """The data packets among the datagrams that a server sent, each with its moment."""
    sent, seen, first = [], set(), None
    for moment, datagram in carried:
        if not datagram.startswith(FRONT) or datagram[4] < DATA:
            continue
        (number,) = struct.unpack(">H", datagram[16:18])
        first = first or (moment, number)
        place = (number - first[1]) % 65_536
        sent.append(Sent(moment - first[0], place, number in seen))
        seen.add(number)
    return sent


def captured(title, program):
    """The data packets of the server in one get by a program."""
    copier = Chaosd(title, program, WINDOW)
    with tempfile.TemporaryDirectory() as name, line.of_datagrams(MANNERS) as place:
        top = pathlib.Path(name)
        here, far = top / "here", top / "far"
        here.mkdir()
        far.mkdir()
        (far / "FILE").write_bytes(content_of(COUNT))
        with copier.serving(place, far, top / "scratch"):
            try:
                copier.copied("get", ["FILE"], here)
            except subprocess.SubprocessError as fault:
                print(f"{title}: {told_by(fault)}", file=sys.stderr)
        at_server = int(place.server.rpartition(":")[2])
        return sent_of([(moment, datagram) for moment, port, datagram in place.carried if port == at_server])


def step_of(most):
    """The seconds between two marks of an axis: 1, 2 or 5 times a power of ten, for at most 10 marks."""
    power = 10.0 ** math.floor(math.log10(most / 10))
    return next(power * times for times in [1, 2, 5, 10] if power * times * 10 >= most)


def drawn(title, sent, left, seconds):
    """The elements of a panel that goes on for so many seconds: the place of each packet against its moment."""
    places = max(it.place for it in sent) + 1
    again = sum(it.again for it in sent)
    parts = [text_of(left + WIDTH / 2, TOP - 36, title, kind="title")]
    parts.append(text_of(left + WIDTH / 2, TOP - 18, f"{len(sent):,} packets, {again:,} of them sent again"))
    parts.append(f'<path class="axis" d="M{left} {TOP}V{TOP + HEIGHT}H{left + WIDTH}"/>')
    step = step_of(seconds)
    for number in range(math.floor(seconds / step) + 1):
        parts.append(text_of(left + WIDTH * number * step / seconds, TOP + HEIGHT + 18, f"{number * step:g} s"))
    for mark in range(0, places, 100):
        parts.append(text_of(left - 6, TOP + HEIGHT * (1 - mark / places) + 4, str(mark), "end"))
    for kind, colour in COLOURS.items():
        dots = "".join(f"M{left + WIDTH * it.moment / seconds:.1f} {TOP + HEIGHT * (1 - it.place / places):.1f}h1" for it in sent if it.again == kind)
        parts.append(f'<path stroke="{colour}" stroke-width="1.5" d="{dots}"/>')
    return parts


def picture_of(captures):
    """The picture of the packets of each program."""
    width, height = len(captures) * (LEFT + WIDTH) + LEFT, TOP + HEIGHT + BELOW
    parts = [f'<svg xmlns="http://www.w3.org/2000/svg" width="{width}" height="{height}" viewBox="0 0 {width} {height}" role="img">']
    parts += ["<title>The packets of a get, by time</title>", f"<style>\n{STYLE}\n</style>", f'<rect width="{width}" height="{height}" fill="#ffffff"/>']
    seconds = max(it.moment for _, sent in captures for it in sent)
    for number, (title, sent) in enumerate(captures):
        parts += drawn(title, sent, LEFT + number * (LEFT + WIDTH), seconds)
    for (_, colour), x, what in zip(COLOURS.items(), [LEFT, LEFT + 140], ["sent first", "sent again"]):
        parts.append(f'<path stroke="{colour}" stroke-width="4" d="M{x} {height - 14}h8"/>')
        parts.append(text_of(x + 14, height - 10, what, "start"))
    parts.append(text_of(width - LEFT, height - 10, "each packet by its place in the stream", "end"))
    return "\n".join([*parts, "</svg>", ""])


def main():
    programs = [word.partition("=") for word in sys.argv[1:]]
    if not programs or not all(program for _, _, program in programs):
        sys.exit(__doc__)
    print(picture_of([(title, captured(title, pathlib.Path(program).resolve())) for title, _, program in programs]), end="")


if __name__ == "__main__":
    main()
