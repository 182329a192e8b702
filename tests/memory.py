"""Refuses memory to tests of crates/world_tests and to the program itself, each allocation in turn, until a run meets no refusal.

A test goes on after a refusal and looks at what it left; where its own preparations are refused, it ends with that fault. The
program ends with status 4 and says so, and what it wrote is a beginning of what it writes with ample memory; a FILE command that
finds no memory is answered so, and its session goes on. At the end of each run all memory is given back.
"""

import os
import subprocess

from tests.support import LONG, NO_MEMORY, PROGRAM, Case, Checking, at, checked, folder, free_ports, preloaded

# a test of world_tests, and how many refusals it is to meet at least and go on after
TESTS = [
    ("tests::host::host_is_made_with_memory", 7),
    ("tests::files::want_of_memory_changes_nothing", 8),
    ("tests::files::want_of_memory_changes_no_folder", 4),
    ("tests::laboratory::want_of_memory_changes_nothing", 1),
    ("tests::sessions::want_of_memory_is_told", 4),
]
# a name, the words of the program, and what it is given; FOLDER is a new folder of each run, and UDP a place where nobody listens
FOLDER, UDP = "FOLDER", "UDP"
DATA_BEFORE_THE_OPN = b"ends 2 2 2 2 65534\ndeliver 0\naccept 100\nwrite b 200 X\ndeliver 2\ndeliver 1\ndeliver 2\nread a\n"
LOST_ITEM = (
    b"ends 2 2 2 2 65534\ndeliver 0\naccept 100\ndeliver 1\nwrite a 200 A\nwrite a 200 B\ndeliver 4\nread b\ntick a 500\n"
    b"deliver 5\ndeliver 6\nread b\nread b\n"
)
OPENING = b"ends 64 64 64 64 1\ndeliver 0\naccept 100\ndeliver 1\ndeliver 2\n"
SETTLED = OPENING + b"write a 200 a\n" * 9 + b"write b 200 b\n" * 9 + b"deliver 5\nsettle\n"
SERVED = OPENING + b"write a 200 T1  LOGIN M\nwrite a 200 T2 H1 OPEN WRITE^A\nwrite a 200 T3 H1 WRITE^(A)\nwrite a 200 T4 H1 CLOSE\nsettle\n"
SESSION = (
    b"T1  LOGIN LISPM\nT2 H1 OPEN WRITE^A.LISP\nT3 H1 WRITE^(A)\nT4 H1 CLOSE\nT5 H2 OPEN READ^A.LISP\nT6 H2 READ\n"
    b"T7 H2 READ\nT8  RENAME^A.LISP^B.LISP\nT9  DELETE^B.LISP\n"
)
SERVE = ["serve", "--turns", "0", "401", "127.0.0.1:1", "no/such/folder", "402=127.0.0.1:2"]
LABORATORIES = [
    ("lab, data before the OPN", ["lab"], DATA_BEFORE_THE_OPN),
    ("lab, an item that is lost", ["lab"], LOST_ITEM),
    ("lab, both ends settle", ["lab"], SETTLED),
    ("filelab, all is served", ["filelab"], SERVED),
]
LINES = [
    ("loop", ["loop"], SESSION),
    ("a line of serve, and a folder that isn't there", SERVE, b""),
    ("serve, for a turn", ["serve", "--turns", "1", "401", UDP, FOLDER, "402=127.0.0.1:9"], b""),
    ("a bad line", ["serve", "0", "127.0.0.1:1", "."], b""),
    ("help", ["ask", "--help"], b""),
]
# a run that is refused so many allocations in turn has no end
MOST = 1_000


def refuses(program):
    """Whether a program refuses memory by itself, as `tools/checked` compiles it."""
    return b"REFUSE_AT" in program.read_bytes()


def run(line, here, library, place, given=b""):
    """Runs a line with one allocation refused (none at place 0), by a library, if any. Gives the status and both outputs."""
    environment = {**os.environ, "REFUSE_AT": str(place)} | ({"LD_PRELOAD": str(library)} if library else {})
    ended = subprocess.run(line, cwd=here, env=environment, input=given, capture_output=True, timeout=LONG)
    return ended.returncode, ended.stdout, ended.stderr


def problem_of(status, out, err):
    """What is wrong with a run, or nothing."""
    own_fault = b"AllocError" in out + err or b"OutOfMemory" in out + err
    if status and not own_fault:
        return f"status {status}: {(out + err).strip()[-300:]!r}"
    if b"held 0\n" not in err and not status:
        return f"memory isn't given back: {err.strip()[-100:]!r}"
    return None


def try_each(program, test, least):
    """Refuses a test each allocation in turn. Gives a line for a person, and what is wrong."""
    met = 0
    with folder() as here:
        for place in range(1, MOST):
            status, out, err = run([program, test], here, None, place)
            if problem := problem_of(status, out, err):
                return f"{test}, allocation {place}", [problem]
            if b"refused" not in err:
                problems = [] if met >= least and b"ok" in out else [f"it is to meet {least}: {out[-300:]!r}"]
                return f"{test}: {place - 1} allocations refused in turn, {met} met and gone on after", problems
            met += b"met" in out and not status
    return test, [f"still refused at allocation {MOST}"]


def is_cut(out, whole):
    """Whether an output ends early: with what comes of the event, the command or the text that found no memory."""
    return whole.startswith(out.removesuffix(b"refused 4 NoMemory\n"))


def is_answered(out, whole):
    """Whether the first reply that differs says that there was no memory, and every command has one."""
    pairs = list(zip(out.splitlines(), whole.splitlines()))
    changed = [reply for reply, wanted in pairs if reply != wanted]
    return len(out.splitlines()) == len(whole.splitlines()) and (
        not changed or changed[0].endswith(b" ERROR MEM No memory.")
    )


def problem_of_run(ended, whole):
    """What is wrong with a run in which memory was refused, or nothing. `whole` is what a run with ample memory gives."""
    status, out, err = ended
    if b"held 0\n" not in err:
        return f"memory isn't given back: {err.strip()[-100:]!r}"
    if status == NO_MEMORY and b"memory" in err and is_cut(out, whole[1]):
        return None
    if status == whole[0] and is_answered(out, whole[1]):
        return None
    return f"status {status}, output {out[-200:]!r}, error output {err[-200:]!r}"


def run_program(words, given, library, place):
    """Runs the program over a folder of its own."""
    with folder() as here:
        places = {FOLDER: here, UDP: at(*free_ports(1))}
        return run([PROGRAM, *(places.get(word, word) for word in words)], here, library, place, given)


def try_program(name, words, given, library):
    """Refuses a run of the program each allocation in turn. Gives a line for a person, and what is wrong."""
    whole = run_program(words, given, library, 0)
    for place in range(1, MOST):
        ended = run_program(words, given, library, place)
        if b"refused\n" not in ended[2]:
            return f"{name}: {place - 1} allocations refused in turn", [] if place > 1 else ["it asks for no memory"]
        if problem := problem_of_run(ended, whole):
            return f"{name}, allocation {place}", [problem]
    return name, [f"still refused at allocation {MOST}"]


class Tests(Checking):
    """Tests of world_tests, which go on after a refusal."""

    seconds = 15
    needs = ["--test", "world_tests"]

    def test_a_call_that_finds_no_memory_changes_nothing(self):
        program = checked("world_tests", "--test")
        if not refuses(program):
            self.skipTest("out/checked/world_tests was compiled where cc isn't, and refuses no memory")
        for test, least in TESTS:
            self.check(*try_each(program, test, least))


class Runs(Case):
    """Runs of the program."""

    seconds = 25

    def check_runs(self, runs):
        with folder() as here:
            library = None if refuses(PROGRAM) else preloaded(here, "failmalloc")
            for name, words, given in runs:
                self.check(*try_program(name, words, given, library))


class Laboratories(Runs):
    def test_a_laboratory_that_finds_no_memory_tells_it(self):
        self.check_runs(LABORATORIES)


class Lines(Runs):
    def test_a_line_that_finds_no_memory_tells_it_or_goes_on(self):
        self.check_runs(LINES)
