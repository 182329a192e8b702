#!/usr/bin/env python3
"""Measures how much stack a turn takes: one of the client and one of the server in `chaosd loop`, by each carriage.

    make bench-stack, or bench/stack.py [PROGRAM]

PROGRAM is bin/chaosd by default. It is run under gdb: before a turn the stack below it is painted, and behind it the lowest byte that
isn't of that colour any more is looked for. Where gdb isn't installed nothing is measured.
"""

import pathlib
import re
import shutil
import subprocess
import sys
import tempfile

HERE = pathlib.Path(__file__).resolve().parent
PROGRAM = HERE.parent / "bin/chaosd"
SCRIPT = HERE.parent / "examples/hello.file"
# a turn of `loop`: one of both ends
TURN = "chaosd_ask::loop_run::LoopDriverDriver::turn::"
WISHED = 65_536

# what gdb does: at the beginning of each turn it paints, and at its end it looks
PAINTING = """
import gdb

SIZE, COLOUR = 80_000, 0xA5


def run(command):
    gdb.execute(command, to_string=True)


def base():
    for line in gdb.execute("info proc mappings", to_string=True).splitlines():
        if PROGRAM in line:
            return int(line.split()[0], 16)


def depth():
    process = gdb.selected_inferior()
    top = int(gdb.parse_and_eval("(unsigned long)$rsp"))
    process.write_memory(top - SIZE, bytes([COLOUR]) * SIZE)
    run("tbreak *%d" % int.from_bytes(process.read_memory(top, 8).tobytes(), "little"))
    run("continue")
    seen = process.read_memory(top - SIZE, SIZE).tobytes()
    return len(seen.lstrip(bytes([COLOUR])))


run("set pagination off")
run(f"starti loop --carriage {VERSION} < {SCRIPT} > /dev/null")
for turn in TURNS:
    run(f"break *{base() + turn}")
run("continue")
depths = []
while gdb.selected_inferior().pid:
    depths.append(depth())
    run("continue")
print(f"carriage {VERSION}: a turn of both takes {max(depths)} bytes of stack at most, of {len(depths)} turns (wish: {WISHED})")
"""


def measure(program, version, folder):
    symbols = subprocess.run(["nm", program], capture_output=True, text=True, check=True).stdout
    places = re.findall(rf"^([0-9a-f]+) t .*{TURN}", symbols, re.M)
    if not places:
        sys.exit(f"{program} has no symbol of {TURN}")
    turns = [int(it, 16) for it in places]
    named = {"PROGRAM": str(program), "SCRIPT": str(SCRIPT), "VERSION": version, "TURNS": turns, "WISHED": WISHED}
    text = pathlib.Path(folder) / "painting.py"
    text.write_text("".join(f"{name} = {value!r}\n" for name, value in named.items()) + PAINTING)
    ran = subprocess.run(["gdb", "-q", "-batch", "-nx", program, "-x", text], capture_output=True, text=True)
    told = [line for line in ran.stdout.splitlines() if line.startswith("carriage")]
    print("\n".join(told) or f"gdb could not measure: {ran.stderr.strip()[-300:]}")


def main():
    program = pathlib.Path(sys.argv[1]).resolve() if len(sys.argv) > 1 else PROGRAM
    if not program.is_file():
        sys.exit(f"{program} isn't there: run make first")
    if not shutil.which("gdb") or not shutil.which("nm"):
        print("gdb isn't installed: nothing is measured")
        return
    with tempfile.TemporaryDirectory() as folder:
        for version in ["1", "2"]:
            measure(program, version, folder)


if __name__ == "__main__":
    main()
