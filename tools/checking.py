"""Compiles programs without proof, with checks or fast, and keeps them in out/checked/. `tools/checked` and `tools/tests` stand on it."""

import hashlib
import os
import pathlib
import shlex
import shutil
import subprocess
import sys
import tempfile

import rooms

KEPT = rooms.TOP / "out/checked"
REFUSER = rooms.TOP / "tests/failmalloc.c"
LINKER, COMPILER = "toolchain/bin/ld.lld", "toolchain/bin/clang"

# each `rt` that runs now
RUNNING = set()

# The words of a script, without the sanitizer's runtime, which is the only archive that is linked as a whole.
WITHOUT_SANITIZER = """part=
for word; do
  shift
  case $word in
    --whole-archive) part=sanitizer ;;
    --no-whole-archive) part= ;;
    *) [ "$part" ] || set -- "$@" "$word" ;;
  esac
done
"""
# Links as the kit's linker does and keeps what it made. It fails then, so that nothing is run.
KEEPING_LINKER = """#!/bin/sh
{words}{linker} "$@" {more} || exit 1
while [ "$1" != -o ]; do shift; done
cp "$2" {kept}.part && mv {kept}.part {kept}
exit 1
"""

# Compiles as the kit's compiler does, but with its optimizer, without the sanitizer, and with the options that are given.
FAST_COMPILER = """#!/bin/sh
for word; do
  shift
  case $word in
    -O0) set -- "$@" {options} ;;
    -fsanitize=address) ;;
    *) set -- "$@" "$word" ;;
  esac
done
exec {compiler} "$@"
"""


def digest(*parts):
    """The sum of some bytes."""
    found = hashlib.sha256()
    for it in parts:
        found.update(len(it).to_bytes(8, "little") + it)
    return found.hexdigest()


def kit():
    """The folder of the kit."""
    found = shutil.which(rooms.RT) or sys.exit(f"there is no command {rooms.RT} on the path: README.md names the kit that has it")
    return pathlib.Path(found).resolve().parent.parent


class Wish:
    """A program that is wanted: its name in out/checked/, and of which crates `rt try` is to compile it; or their tests as one program: of
    one crate as they are named there, of several behind the names of their crates."""

    def __init__(self, name, names, is_test=False):
        self.name, self.names, self.words, self.environment = name, names, ["--test"] if is_test else [], {}

    def furnish(self, room):
        if len(self.names) == 1:
            return rooms.furnish(room, self.names[0])
        return rooms.furnish_together(room, self.name, self.names)

    def texts(self):
        """What the program is made from, beside the sources and the kit."""
        return [KEEPING_LINKER, REFUSER.read_text(), str(self.words)]

    def tools(self, room, kept):
        """The tools that take the place of the kit's, each a script. The linker keeps what it links."""
        return {LINKER: KEEPING_LINKER.format(words="", linker=kit() / LINKER, more=refuser(room), kept=shlex.quote(str(kept)))}


class FastWish(Wish):
    """A program that is wanted without checks of memory and optimized, with these options of the compiler, and these words more for the
    linker."""

    options, links = ("-O2",), ()

    def texts(self):
        return [KEEPING_LINKER, WITHOUT_SANITIZER, FAST_COMPILER, str((self.options, self.links, sorted(self.environment.items())))]

    def tools(self, _, kept):
        links, options = (" ".join(map(shlex.quote, it)) for it in (self.links, self.options))
        linker = KEEPING_LINKER.format(words=WITHOUT_SANITIZER, linker=kit() / LINKER, more=links, kept=shlex.quote(str(kept)))
        return {LINKER: linker, COMPILER: FAST_COMPILER.format(compiler=kit() / COMPILER, options=options)}


def fast(name):
    """The wish for the fast program of a crate."""
    return FastWish(f"{name}-fast", [name])


def sum_of(room, wish):
    """The sum of all that a program is made from, which stands in its room."""
    parts = [it.encode() for it in (*wish.texts(), str(kit()), (kit() / "KIT-ID").read_text())]
    for it in sorted(it for it in room.rglob("*") if it.is_file()):
        parts += [str(it.relative_to(room)).encode(), it.read_bytes()]
    return digest(*parts)


def refuser(room):
    """Compiles what refuses allocations; without a C compiler programs are linked without it."""
    made = room / "failmalloc.o"
    compiler = os.environ.get("CC", "cc")
    if not shutil.which(compiler):
        return ""
    subprocess.run([compiler, "-c", "-O1", "-fPIC", "-DLINKED", "-o", made, REFUSER], check=True)
    return shlex.quote(str(made))


def keeping_kit(room, tools):
    """Makes a kit of links to the installed one, but for these tools, one of which keeps what is linked, and gives its `rt`."""
    real, made = kit(), room / "kit"
    for folder in ("", "bin", "toolchain", "toolchain/bin"):
        (made / folder).mkdir()
        for it in (real / folder).iterdir():
            if it.relative_to(real).as_posix() not in ("bin", "toolchain", "toolchain/bin", *tools):
                (made / folder / it.name).symlink_to(it)
    # `rt` looks for its kit behind links
    for it in (made / "bin").glob("rt*"):
        text = it.resolve()
        it.unlink()
        shutil.copy(text, it)
    # beside it `rt` lets the prover look for names that a proof would refuse, as dear as the compilation
    (made / "bin/rattle").unlink()
    (made / "bin/rattle").symlink_to(shutil.which("true"))
    for name, script in tools.items():
        (made / name).write_text(script)
        (made / name).chmod(0o755)
    return made / "bin/rt"


def compile_in(room, folder, wish):
    """Compiles the crate in that folder of a room. Gives the program's path, or None, and what was said."""
    kept = room / "kept"
    line = [keeping_kit(room, wish.tools(room, kept)), "try", *wish.words]
    environment = {**os.environ, **wish.environment, "TMPDIR": str(room)}
    how = {"cwd": folder, "env": environment, "stdin": subprocess.DEVNULL, "stdout": subprocess.PIPE}
    with subprocess.Popen(line, stderr=subprocess.STDOUT, text=True, errors="replace", **how) as rt:
        RUNNING.add(rt)
        try:
            said = rt.communicate()[0]
        except BaseException:
            rt.terminate()  # it ends what it started
            raise
        finally:
            RUNNING.discard(rt)
    return kept if kept.is_file() else None, said


def end_all():
    """Ends all that compiles now, also in other threads."""
    for it in list(RUNNING):
        it.terminate()


class NotCompiled(Exception):
    """A program that isn't compiled, with what was said of it."""


def keep(wish):
    """Compiles the program where it isn't kept as the sources have it, and gives its path."""
    KEPT.mkdir(parents=True, exist_ok=True)
    program, note = KEPT / wish.name, KEPT / f"{wish.name}.sum"
    with tempfile.TemporaryDirectory(prefix=f"{wish.name}-", dir=KEPT) as made:
        room = pathlib.Path(made)
        folder = wish.furnish(room)
        wanted = sum_of(room, wish)
        if program.is_file() and note.is_file() and note.read_text() == f"{wanted} {digest(program.read_bytes())}\n":
            return program
        kept, said = compile_in(room, folder, wish)
        if not kept:
            raise NotCompiled(f"{said}{wish.name} isn't compiled: what is wrong stands above")
        sum_file = room / "sum"
        sum_file.write_text(f"{wanted} {digest(kept.read_bytes())}\n")
        kept.replace(program)
        sum_file.replace(note)
    return program
