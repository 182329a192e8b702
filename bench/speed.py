#!/usr/bin/env python3
"""Runs all benches and writes what they tell into the tables of docs/SPEED.md: `make bench`, on a quiet machine.

    bench/speed.py              runs the benches, keeps what they print in out/bench.log, and writes the tables and docs/pictures/lines.svg
    bench/speed.py --from LOG   writes both from what an earlier run kept

A row of a table is a line of a bench; some benches print whole tables, between the marks that the document has. At the end stand the
rows that miss their aim; docs/SPEED.md has them too, each with its reason where one is known.
A row or a table that no bench printed is a fault: then the document stays as it was, and the status is 1.
"""

import dataclasses
import os
import pathlib
import re
import subprocess
import sys

sys.dont_write_bytecode = True

import plot  # noqa: E402

ROOT = pathlib.Path(__file__).resolve().parent.parent
DOCUMENT = ROOT / "docs/SPEED.md"
# the picture of the tables of lines
PICTURE = ROOT / "docs/pictures/lines.svg"
LOG = ROOT / "out/bench.log"

# benches of the program, each a script, and those of libraries, which bench/beside.py has
OF_PROGRAM = ["lines", "copies", "calls", "show", "lab", "loop", "stack", "simulate"]
OF_LIBRARIES = ["codec", "links", "window", "host", "file", "seal", "turn"]

# the tables that benches print whole
PRINTED = ["lines", "rates", "copies", "calls", "simulate"]
# how the line of a row begins that misses its aim, of such a table
MISSED = "missed: "

# what a line of a bench compares: `NAME: OURS, plain Rust THEIRS, ratio RATIO`
TIME = r"(?P<{}>[\d.]+ (?:ns|us|ms|s))(?: a \w+)?"
TIMED = re.compile(rf"(?P<name>.+?): (?:chaosd )?{TIME.format('ours')}, plain Rust {TIME.format('theirs')}, ratio (?P<ratio>[\d.]+)")
COUNTED = re.compile(r"(?P<name>.+): (?:chaosd )?\d+ .*instructions.*, plain Rust .*, ratio (?P<ratio>[\d.]+)")


@dataclasses.dataclass
class Row:
    """A row of a table: what it says, how the bench's line begins, what is aimed at, and why it is missed where it is."""

    what: str
    line: str
    aim: float | None = None
    counted: str | None = None
    why: str = ""


LIBRARIES = {
    "codec": [
        Row(
            "a packet of 448 bytes read into a place that is kept",
            "codec: decode of 448 bytes in place",
            1.1,
            "codec: the whole run",
            "The copying loop's jump crosses 32 bytes of code, which Skylake decodes anew each time.",
        ),
        Row(
            "written into a lent buffer",
            "codec: encode of 448 bytes in place",
            1.1,
            why="The header is stored byte by byte: 16 stores for plain Rust's 4.",
        ),
    ],
    "links": [
        Row("a round trip of 508 bytes over two UDP links", "links: round trip of 508 bytes", 1.2, "links: the whole run"),
        Row("the same in CHUDP", "links: round trip of 508 bytes in CHUDP", 1.2),
    ],
    "window": [
        Row(
            "an item through a receive window of 64, in order",
            "window: item in order",
            1.2,
            "window: the whole run",
            "A slot that is read goes behind the others, where plain Rust moves an index.",
        ),
        Row("in reversed order", "window: item reversed", 1.2, why="As in order."),
    ],
    "host": [
        Row("a data packet through a host of 2 slots, and its read", "host: data of 2 connections", None, "host: the whole run"),
        Row("of 255 slots", "host: data of 255 connections"),
    ],
    "file": [
        Row(
            "a FILE WRITE of 448 bytes, in memory",
            "file: WRITE of 448 bytes",
            1.1,
            "file: the whole run",
            "A file that grows is copied into its new room, where plain Rust's `realloc` moves the pages.",
        ),
        Row(
            "a READ",
            "file: READ of 448 bytes",
            1.1,
            why="A reply's place is cleared before it is written, and copies look for an overlap.",
        ),
    ],
    "seal": [
        Row("a datagram of 508 bytes, sealed", "seal: seal of 508 bytes", None, "seal: the whole run"),
        Row("sealed, and opened at the other end", "seal: seal and open of 508 bytes"),
        Row("the same, whose tags plain Rust has from OpenSSL", "seal: seal and open of 508 bytes, beside OpenSSL"),
    ],
    "turn": [
        Row(
            "a server's turn with a command, 1 connection",
            "turn: turn of 1 connection",
            1.3,
            "turn: the whole run",
            "A packet waits before its datagram is written; places are cleared before they are filled.",
        ),
        Row(
            "1 connection and 254 free slots",
            "turn: turn of 1 connection and 254 free slots",
            1.3,
            why="A turn makes three walks over the slots in use, and the plain version three over all slots.",
        ),
        Row(
            "the same, beside plain Rust that walks over none",
            "turn: turn of 1 connection and 254 free slots, beside no walks",
            counted="turn: the whole run, beside no walks",
        ),
        Row("255 connections", "turn: turn of 255 connections", 1.3, why="A walk goes over 224 bytes of each connection."),
        Row("the same, beside plain Rust that walks over none", "turn: turn of 255 connections, beside no walks"),
    ],
}
PROGRAM = {
    "show": [
        Row("`show`, short lines", "short lines", 1.1),
        Row("long lines", "long lines", 1.1),
        Row("empty lines", "empty lines", 1.1, why="An end of a line is looked for by a call."),
        Row("four long packets a line, by version 2", "four long packets a line", 1.1),
        Row(
            "eight short packets a line",
            "eight short packets a line",
            1.1,
            why="Each packet's place is cleared before it is filled, and copied: 7 of 43 million instructions, 2 of 37 in plain Rust.",
        ),
    ],
    "lab": [
        Row(
            "`lab`, 16,000 items in turn",
            "16,000 items in turn",
            1.5,
            "16,000 items in turn",
            "The bodies of an item and of its status are copied ten times, where plain Rust copies them twice.",
        ),
        Row(
            "64 items, sent again 240 times",
            "64 items, sent again 240 times",
            1.5,
            "64 items, sent again 240 times",
            "By instructions it is within; short runs vary.",
        ),
    ],
    "loop": [
        Row("a command of `loop`, over two sockets", "loop, 4041 commands", 1.2, "loop, 4041 commands"),
        Row(
            "a command of `ask` to `serve`",
            "ask of serve, 1 MiB",
            1.2,
            why="Not known: it makes as many calls of the system, which take most of the time.",
        ),
    ],
}
TABLES = {"libraries": LIBRARIES, "program": PROGRAM}


@dataclasses.dataclass
class Figures:
    """What the benches told: by a line's name both times and their ratio, and the ratio of instructions; the tables that they printed
    whole, and what misses its aim there."""

    timed: dict
    counted: dict
    printed: dict
    missed: list


def marks_of(name):
    """What stands before a table of the document, and behind it."""
    return f"<!-- {name}: written by make bench -->\n", f"<!-- end of {name} -->"


def printed_in(text):
    """The tables that benches printed whole, by their names."""
    printed = {}
    for name in PRINTED:
        begin, end = marks_of(name)
        if begin in text and end in text:
            printed[name] = text.split(begin)[1].split(end)[0].rstrip("\n")
    return printed


def figures_of(text):
    """Reads what the benches printed."""
    figures = Figures({}, {}, printed_in(text), [])
    for line in text.splitlines():
        if line.startswith(MISSED):
            figures.missed.append(line.removeprefix(MISSED))
        elif found := TIMED.match(line):
            figures.timed[found["name"]] = (found["ours"], found["theirs"], float(found["ratio"]))
        elif found := COUNTED.match(line):
            figures.counted[found["name"]] = float(found["ratio"])
    return figures


def faults_of(figures):
    """The rows and tables that no bench printed."""
    rows = [row for table in TABLES.values() for of_bench in table.values() for row in of_bench]
    return [row.line for row in rows if row.line not in figures.timed] + [name for name in PRINTED if name not in figures.printed]


def both(ours, theirs):
    """Two times in one unit, that of ours: `130/101 ns`."""
    units = {"ns": 1.0, "us": 1e3, "ms": 1e6, "s": 1e9}
    (number, unit), (other, theirs_unit) = ours.split(), theirs.split()
    if unit == "ns" and float(number) >= 1000:
        number, unit = f"{float(number) / 1000:.2f}", "us"
    other = float(other) * units[theirs_unit] / units[unit]
    return f"{number}/{other:.{len(number.partition('.')[2])}f} {unit}"


def table_of(benches, figures):
    """A table of these rows, as a document has it."""
    lines = ["What|here/plain Rust|ratio|aim|instructions|`make bench-`", "---|---|---|---|---|---"]
    for bench, rows in benches.items():
        for row in rows:
            ours, theirs, ratio = figures.timed[row.line]
            aim = "" if row.aim is None else f"{row.aim}"
            counted = f"{figures.counted[row.counted]:.2f}" if row.counted in figures.counted else ""
            lines.append("|".join([row.what, both(ours, theirs), f"{ratio:.2f}", aim, counted, f"`{bench}`"]))
    return "\n".join(lines)


def missed(figures):
    """The rows that miss their aim, each as a line."""
    lines = [f"- {line}" for line in figures.missed]
    for benches in TABLES.values():
        for bench, rows in benches.items():
            for row in rows:
                ratio = figures.timed[row.line][2]
                if row.aim is not None and ratio > row.aim:
                    lines.append(f"- `{bench}`, {row.what}: {ratio:.2f}, aim {row.aim}. {row.why}".rstrip())
    return "\n".join(lines) or "No row misses its aim."


def written(text, figures):
    """The document with its tables as the figures have them."""
    parts = {name: table_of(benches, figures) for name, benches in TABLES.items()} | figures.printed
    parts["missed"] = missed(figures)
    for name, part in parts.items():
        begin, end = marks_of(name)
        if text.count(begin) != 1 or text.count(end) != 1:
            raise ValueError(f"{DOCUMENT.name} has no place for {name}")
        before, rest = text.split(begin)
        text = before + begin + part + "\n" + end + rest.split(end, 1)[1]
    return text


def run_all():
    """Runs the benches, shows what they print as it comes, and gives it."""
    LOG.parent.mkdir(exist_ok=True)
    commands = [[sys.executable, ROOT / f"bench/{name}.py"] for name in OF_PROGRAM]
    commands.append([sys.executable, ROOT / "bench/beside.py", *OF_LIBRARIES])
    with open(LOG, "w") as log:
        for command in commands:
            with subprocess.Popen(command, stdout=subprocess.PIPE, text=True, env=os.environ | {"PYTHONUNBUFFERED": "1"}) as ran:
                for line in ran.stdout:
                    print(line, end="", flush=True)
                    log.write(line)
            if ran.returncode:
                sys.exit(f"{' '.join(map(str, command[1:]))} ended with {ran.returncode}: {DOCUMENT.name} stays as it was")
    return LOG.read_text()


def main():
    words = sys.argv[1:]
    if words and (len(words) != 2 or words[0] != "--from"):
        sys.exit(__doc__)
    figures = figures_of(pathlib.Path(words[1]).read_text() if words else run_all())
    if faults := faults_of(figures):
        sys.exit(f"no bench told of {', '.join(faults)}: {DOCUMENT.name} stays as it was")
    text = written(DOCUMENT.read_text(), figures)
    DOCUMENT.write_text(text)
    PICTURE.write_text(plot.picture_of(text))
    print(f"\n{DOCUMENT.relative_to(ROOT)} and {PICTURE.relative_to(ROOT)} are written. What misses its aim:\n{missed(figures)}")


if __name__ == "__main__":
    main()
