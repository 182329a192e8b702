"""Tests what a folder's store makes of what std can't make: entries that are no file, what may not be read or written, a disk that takes
no more and is full, one that fails, and a folder that is another's. A test of crates/world_tests plays the rows that it is given. And
what a server does whose folder is no longer at its name.
"""

import contextlib
import ctypes
import errno
import fcntl
import os
import pathlib
import resource
import shutil
import socket
import stat
import subprocess
import tempfile
import unittest

from tests.copying import copied
from tests.support import DONE, REFUSED, Case, Checking, Serving, checked, folder, preloaded, serving, stored_problems

TEST = "tests::folders::dialogue_over_a_folder_made_outside"
PATIENCE = 600
NOBODY = 65534
NULL = os.makedev(1, 3)

# Rows are as in the crate's tests: `^` is the byte that ends a line, `%` 448 bytes.
LOGIN = "T1  LOGIN X => T1  LOGIN X\n"

# X is no file: no command opens, replaces, moves or takes it away
REFUSES = LOGIN + """\
T2 R OPEN READ^X => T2 R ERROR STF Store fault.
T3 W OPEN WRITE^X => T3 W OPEN 0
T3 W WRITE^(X) => T3 W WRITE 3
T3 W CLOSE => T3 W ERROR STF Store fault.
T4  DELETE^X => T4  ERROR STF Store fault.
T5  RENAME^X^Y => T5  ERROR STF Store fault.
T6  RENAME^A^X => T6  ERROR STF Store fault.
T7 R OPEN READ^A => T7 R OPEN 3
T7 R READ => T7 R READ^(A)
"""

# and the service goes on
GOES_ON = """\
T8 V OPEN WRITE^B => T8 V OPEN 0
T8 V WRITE^(B) => T8 V WRITE 3
T8 V CLOSE => T8 V CLOSE 3
T9 S OPEN READ^B => T9 S OPEN 3
T9 S READ => T9 S READ^(B)
"""

# a folder that takes no file, of which A can be read; and one in which nothing may be changed
NO_PUT = LOGIN + """\
T2 W OPEN WRITE^A => T2 W OPEN 0
T2 W WRITE^new => T2 W WRITE 3
T2 W CLOSE => T2 W ERROR STF Store fault.
T3 R OPEN READ^A => T3 R OPEN 3
T3 R READ => T3 R READ^(A)
"""
READ_ONLY = NO_PUT + """\
T4  DELETE^A => T4  ERROR STF Store fault.
T5  RENAME^A^B => T5  ERROR STF Store fault.
T6 S OPEN READ^NONE => T6 S ERROR FNF No such file.
"""

UNREADABLE = LOGIN + "T2 R OPEN READ^A => T2 R ERROR STF Store fault.\n"

# a file is replaced
PUT = LOGIN + """\
T2 W OPEN WRITE^A => T2 W OPEN 0
T2 W WRITE^new => T2 W WRITE 3
T2 W CLOSE => T2 W CLOSE 3
"""
FLUSHED_FILE = "flush file\nrename .new A\n"
FLUSHED = FLUSHED_FILE + "flush folder\n"
FAILED = PUT.replace("T2 W CLOSE 3", "T2 W ERROR STF Store fault.")
AGAIN = "T3 W CLOSE => T3 W CLOSE 3\n"

# the disk takes so many bytes of a file and no more: the old file stays, and so does what the handle holds
FULL_AT = 1_000
FULL = LOGIN + """\
T2 W OPEN WRITE^A => T2 W OPEN 0
T2 W WRITE^% => T2 W WRITE 448
T2 W WRITE^% => T2 W WRITE 896
T2 W WRITE^% => T2 W WRITE 1344
T2 W CLOSE => T2 W ERROR STF Store fault.
T3 R OPEN READ^A => T3 R OPEN 3
T3 R READ => T3 R READ^(A)
T4 W WRITE^ => T4 W WRITE 1344
"""

# a disk of 64 KiB takes one file of so many chunks and no second one, until the first is gone
DISK = 65_536
CHUNKS = 90


def make_fifo(at):
    os.mkfifo(at)


def make_socket(at):
    listener = socket.socket(socket.AF_UNIX)
    here = os.getcwd()
    os.chdir(at.parent)  # a socket's path is short
    listener.bind(at.name)
    os.chdir(here)
    listener.close()


def make_device(at):
    os.mknod(at, stat.S_IFCHR | 0o666, NULL)


def link_to(make):
    """A link to what is made outside of the folder."""

    def make_link(at):
        outside = at.parent.parent / f"outside{at.name}"
        make(outside)
        at.symlink_to(outside)

    return make_link


def make_file(at):
    at.write_bytes(b"outside")


def entries():
    """What may stand at a path and is no file: a name, how it is made, and whether it may stand at `.new` too."""
    makes = [("a fifo", make_fifo), ("a socket", make_socket), ("a device", make_device)]
    for name, make in makes:
        yield name, make, True
        yield f"a link to {name}", link_to(make), True
    yield "a link to a file", link_to(make_file), True
    yield "a link to a folder", link_to(pathlib.Path.mkdir), True
    yield "a link to nothing", lambda at: at.symlink_to("nothing"), True
    yield "a folder", pathlib.Path.mkdir, False


def shown(at):
    """What a name of a folder is, and not what a link leads to."""
    info = at.lstat()
    return stat.S_IFMT(info.st_mode), info.st_ino


def written(handle, path, chunks, told):
    """The rows that write a file of so many chunks, and what its CLOSE is told."""
    writes = [f"T2 {handle} WRITE^% => T2 {handle} WRITE {448 * n}" for n in range(1, chunks + 1)]
    return "\n".join([f"T2 {handle} OPEN WRITE^{path} => T2 {handle} OPEN 0", *writes, f"T2 {handle} CLOSE => T2 {handle} {told}\n"])


def free_of(folder):
    """The free bytes of the folder's disk."""
    disk = os.statvfs(folder)
    return disk.f_bfree * disk.f_frsize


@contextlib.contextmanager
def if_allowed():
    """What not every user may do: where it is refused, the test is skipped."""
    try:
        yield
    except OSError as refused:
        if refused.errno not in (errno.EPERM, errno.EACCES, errno.EINVAL):
            raise
        raise unittest.SkipTest(f"this user may not do it: {refused.strerror}") from None


def limit_files():
    """No file of this process may have more bytes."""
    resource.setrlimit(resource.RLIMIT_FSIZE, (FULL_AT, FULL_AT))


class Store(Checking):
    """A folder with a file A, which a store is made of, and rows that are played over it."""

    needs = ["--test", "world_tests"]

    def setUp(self):
        self.make_room()

    def tearDown(self):
        self.assertFalse(os.path.lexists(self.folder / ".new"), "`.new` was left")

    def make_room(self):
        """A room for the program and the folder, which another user reaches too."""
        program = checked("world_tests", "--test")
        room = tempfile.TemporaryDirectory()
        self.addCleanup(room.cleanup)
        self.room = pathlib.Path(room.name)
        self.room.chmod(0o755)
        self.program = shutil.copy(program, self.room)
        self.folder = self.room / "folder"
        self.folder.mkdir()
        self.file = self.folder / "A"
        self.file.write_bytes(b"(A)")

    def problem(self, rows, **options):
        """What went wrong where the rows are played over the folder, or nothing; what it wrote to standard error is kept."""
        (self.room / "rows").write_text(rows)
        ended = subprocess.run([self.program, TEST], cwd=self.room, capture_output=True, text=True, timeout=PATIENCE, **options)
        self.said = ended.stderr
        if ended.returncode or "met" not in ended.stdout:
            return (ended.stdout + ended.stderr).strip()[-300:] or f"status {ended.returncode}"
        return None

    def play(self, rows, **options):
        """The rows over the folder, each of which draws what it says."""
        problem = self.problem(rows, **options)
        self.assertIsNone(problem, problem)

    def assert_not_opened(self, why, **options):
        """The folder isn't opened, for this reason."""
        self.assertIn(why, self.problem(LOGIN, **options) or "it was opened")


class Entries(Store):
    """What stands in a folder and is no file."""

    seconds = 3

    def test_an_entry_that_is_no_file_is_a_store_fault_and_stays(self):
        for name, make, at_new in entries():
            beside = ", and one at `.new` is taken away" if at_new else ""
            with self.subTest(f"{name} at a path is a store fault to each command, and stays{beside}"):
                self.make_room()
                self.play_beside(make, at_new)

    def play_beside(self, make, at_new):
        """An entry that is no file is refused and stays, and one at `.new` is taken away and leads nowhere."""
        entry = self.folder / "X"
        with if_allowed():
            make(entry)
            if at_new:
                make(self.folder / ".new")
        before = shown(entry)
        self.play(REFUSES + GOES_ON)
        self.assertEqual(before, shown(entry), "the entry isn't what it was")
        for outside in self.room.glob("outside*"):
            self.assertTrue(not outside.is_file() or outside.read_bytes() == b"outside", f"{outside.name} was written to")
        self.assertEqual((b"(A)", b"(B)"), (self.file.read_bytes(), (self.folder / "B").read_bytes()))
        self.assertFalse(os.path.lexists(self.folder / ".new"), "`.new` was left")

    def test_what_lies_at_new_of_a_folder_that_is_opened_is_taken_away(self):
        (self.folder / ".new").write_bytes(b"left")
        self.play(LOGIN)


class Leave(Store):
    """Folders and files that this user may not read or write, and one that another has locked."""

    def bound(self):
        """The options of a run by a user whom modes bind, who owns the folder then."""
        if os.geteuid():
            return {}
        with if_allowed():
            for path in (self.folder, self.file):
                os.chown(path, NOBODY, NOBODY)
        return {"user": NOBODY, "group": NOBODY, "extra_groups": []}

    def play_bound(self, rows, of_folder, of_file):
        """The rows over a folder and a file of these modes, as a user whom they bind. Nothing changes."""
        options = self.bound()
        self.file.chmod(of_file)
        self.folder.chmod(of_folder)
        problem = self.problem(rows, **options)
        self.folder.chmod(0o700)
        self.file.chmod(0o600)
        self.assertIsNone(problem, problem)
        self.assertEqual(b"(A)", self.file.read_bytes())

    def assert_shut(self, of_folder):
        """A folder of this mode isn't opened by a user whom it binds."""
        options = self.bound()
        self.folder.chmod(of_folder)
        self.assert_not_opened("PermissionDenied", **options)
        self.folder.chmod(0o700)

    def test_a_folder_without_leave_to_write_is_a_store_fault_and_its_files_can_be_read(self):
        self.play_bound(READ_ONLY, 0o500, 0o600)

    def test_a_file_without_leave_to_read_is_a_store_fault(self):
        self.play_bound(UNREADABLE, 0o700, 0o000)

    def test_a_folder_that_may_not_be_read_is_not_opened(self):
        self.assert_shut(0o300)

    def test_a_folder_without_any_leave_is_not_opened(self):
        self.assert_shut(0o000)

    def test_a_folder_that_another_process_has_locked_is_not_opened_and_stays_as_it_is(self):
        new = self.folder / ".new"
        new.write_bytes(b"another's")
        held = os.open(self.folder, os.O_RDONLY)
        fcntl.flock(held, fcntl.LOCK_EX)
        self.assert_not_opened("another server")
        os.close(held)
        self.assertTrue(new.exists(), "`.new` is gone")
        new.unlink()

    def test_a_file_that_is_replaced_leaves_its_mode_to_the_new_one(self):
        """And a new one has what the user's mask leaves."""
        self.file.chmod(0o604)
        self.play(PUT + GOES_ON, umask=0o027)
        modes = [stat.S_IMODE(path.stat().st_mode) for path in (self.file, self.folder / "B")]
        self.assertEqual([0o604, 0o640], modes)


class Disk(Store):
    """A disk that takes no more, is full, or fails."""

    seconds = 2

    def test_a_disk_that_takes_no_more_is_a_store_fault_and_leaves_the_file_and_the_handle(self):
        """No signal ends who writes more: python ignores it, and so does what it starts."""
        limited = {"restore_signals": False, "preexec_fn": limit_files}
        self.play(FULL, **limited)
        self.assertFalse((self.folder / ".new").exists(), "`.new` was left")
        self.play(LOGIN + GOES_ON, **limited)

    def test_a_full_disk_is_a_store_fault_its_room_is_given_back_and_there_is_room_again_once_a_file_is_gone(self):
        self.mount()
        size = 448 * CHUNKS
        self.play(LOGIN + written("W", "A", CHUNKS, f"CLOSE {size}"))
        before = free_of(self.folder)
        full = written("V", "B", CHUNKS, "ERROR STF Store fault.")
        self.play(LOGIN + full)
        self.assertEqual(before, free_of(self.folder), "the disk is fuller than before")
        self.assertFalse((self.folder / ".new").exists(), "`.new` was left")
        self.play(LOGIN + full + f"T3  DELETE^A => T3  DELETE\nT4 V CLOSE => T4 V CLOSE {size}\n")
        self.assertEqual(b"A" * size, (self.folder / "B").read_bytes())

    def mount(self):
        """A disk of few bytes in the place of the folder."""
        words = ["mount", "-t", "tmpfs", "-o", f"size={DISK},mode=700", "tmpfs", self.folder]
        mounted = subprocess.run(words, capture_output=True, text=True)
        if mounted.returncode:
            self.skipTest(f"this user may mount no disk in memory: {mounted.stderr.strip()}")
        self.addCleanup(subprocess.run, ["umount", self.folder], check=True)

    def test_a_file_is_flushed_before_it_has_its_path_and_then_the_folder_is(self):
        self.play_flushed(PUT, 0, FLUSHED, b"new")

    def test_a_file_that_can_not_be_flushed_is_a_store_fault_and_can_be_put_again(self):
        self.play_flushed(FAILED + AGAIN, 1, FLUSHED, b"new")

    def test_until_a_file_is_flushed_its_path_is_as_it_was(self):
        self.play_flushed(FAILED, 1, "", b"(A)")

    def test_a_folder_that_can_not_be_flushed_is_a_store_fault_of_a_file_that_was_put(self):
        self.play_flushed(FAILED, 2, FLUSHED_FILE, b"new")

    def play_flushed(self, rows, fail_at, noted, left):
        """The rows where one flush fails, none at 0: what was flushed and renamed, and what the file has then."""
        library = preloaded(self.room, "failflush")
        self.play(rows, env={**os.environ, "LD_PRELOAD": str(library), "FAIL_AT": str(fail_at)})
        self.assertEqual(noted, self.said)
        self.assertEqual(left, self.file.read_bytes())


# What every command is answered while the folder isn't at its name.
STORE_FAULT = b"chaosd: %s: STF Store fault.\n"
CHANGES = [["put", "A"], ["get", "A"], ["delete", "A"], ["rename", "A", "B"]]
VERBS = {"put": b"write A", "get": b"read A", "delete": b"delete A", "rename": b"rename A to B"}

# Of unshare and mount.
CLONE_NEWNS = 0x00020000
MS_REC_PRIVATE = 0x00004000 | 0x00040000


def hide_proc():
    """From here on this process has no /proc, and no other process loses its own."""
    system = ctypes.CDLL(None, use_errno=True)
    for done in [
        system.unshare(CLONE_NEWNS),
        system.mount(b"none", b"/", None, MS_REC_PRIVATE, None),
        system.mount(b"tmpfs", b"/proc", b"tmpfs", 0, None),
    ]:
        if done:
            raise OSError(ctypes.get_errno(), "no namespace of mounts")


def mounted(place, *words):
    """Whether this mount could be made."""
    return subprocess.run(["mount", *words, place], capture_output=True).returncode == 0


def unmount(place, *words):
    subprocess.run(["umount", *words, place], check=True)


@contextlib.contextmanager
def disk_at(place):
    """A disk in memory at a place, which is away at the end. Where none may be mounted, the test is skipped."""
    if not mounted(place, "-t", "tmpfs", "tmpfs"):
        raise unittest.SkipTest("this user may mount no disk in memory")
    try:
        yield
    finally:
        if os.path.ismount(place):
            unmount(place, "-l")


class Held(Case):
    """A server whose folder is no longer at its name: nothing is read or changed, neither there nor in what has its name."""

    seconds = 6

    def gone_problems(self, server, here):
        """What differs from a store fault of each command, with a line of the log and nothing left in what has the folder's name."""
        (here / "A").write_bytes(b"new")
        gone = f": the folder is no longer at {server.folder}\n".encode()
        before = sorted(os.listdir(server.folder)) if server.folder.is_dir() else None
        problems = []
        for subcommand, *names in CHANGES:
            ended = copied(server, subcommand, *names, cwd=here)
            found = ended.problems(REFUSED, b"", STORE_FAULT % b"A")
            seen, wanted = server.fault(), b"chaosd: can't " + VERBS[subcommand] + gone
            found += [] if seen == wanted else [f"the server said {seen!r} and not {wanted!r}"]
            problems += [f"{subcommand}: {problem}" for problem in found]
        after = sorted(os.listdir(server.folder)) if server.folder.is_dir() else None
        return problems + ([] if after == before else [f"{after} is there, and {before} was"])

    def served_problems(self, server, here):
        """What differs from a file that is put and got."""
        (here / "A").write_bytes(b"new")
        problems = copied(server, "put", "A", cwd=here).problems(DONE, b"", b"") + stored_problems(server.folder / "A", b"new")
        return problems + copied(server, "get", "A", cwd=here).problems(DONE, b"", b"")

    def test_a_folder_that_is_moved_away_is_a_store_fault_until_it_is_back(self):
        with serving() as server, folder() as here:
            self.check("before", self.served_problems(server, here))
            away = server.folder.with_name(server.folder.name + ".away")
            server.folder.rename(away)
            self.check("moved away", self.gone_problems(server, here))
            server.folder.mkdir()
            (server.folder / "A").write_bytes(b"another's")
            self.check("another folder has its name", self.gone_problems(server, here))
            shutil.rmtree(server.folder)
            away.rename(server.folder)
            self.check("back at its name", self.served_problems(server, here))

    def test_a_folder_that_is_removed_and_made_anew_is_not_served_and_another_server_may_serve_the_new_one(self):
        with serving() as server, folder() as here:
            shutil.rmtree(server.folder)
            self.check("removed", self.gone_problems(server, here))
            server.folder.mkdir()
            self.check("made anew", self.gone_problems(server, here))
            second = Serving(server.folder)
            try:
                self.check("another server serves the new one", self.served_problems(second, here))
                self.check("and the first doesn't", self.gone_problems(server, here))
            finally:
                second.end()

    def test_without_proc_a_folder_that_is_made_anew_is_not_served(self):
        if subprocess.run(["unshare", "-m", "mount", "-t", "tmpfs", "tmpfs", "/proc"], capture_output=True).returncode:
            self.skipTest("this user may make no namespace of mounts")
        with serving(prepare=hide_proc) as server, folder() as here:
            self.check("served without /proc", self.served_problems(server, here))
            shutil.rmtree(server.folder)
            server.folder.mkdir()
            self.check("made anew", self.gone_problems(server, here))

    def test_a_folder_over_which_a_disk_is_mounted_is_a_store_fault_until_the_disk_is_away(self):
        with serving() as server, folder() as here:
            self.check("before", self.served_problems(server, here))
            with disk_at(server.folder):
                self.check("a disk over it", self.gone_problems(server, here))
            self.check("the disk is away", self.served_problems(server, here))

    def test_nothing_is_put_below_a_disk_that_was_unmounted(self):
        with folder() as place, folder() as here, disk_at(place):
            server = Serving(place)
            try:
                self.check("on the disk", self.served_problems(server, here))
                unmount(place, "-l")
                self.check("unmounted", self.gone_problems(server, here))
            finally:
                server.end()
