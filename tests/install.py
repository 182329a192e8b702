"""Tests `make install` and `make uninstall`, and the unit for systemd that is put there."""

import pathlib
import re
import shutil
import subprocess
import tempfile
import textwrap
import unittest

from tests.dist import tried
from tests.support import DONE, LONG, PROGRAM, ROOT, Case, run

# What is put below PREFIX: where it comes from, and its mode. A program without a stamp of its own has none there either.
STAMP = PROGRAM.with_name(f"{PROGRAM.name}.stamp")
IS_STAMPED = not subprocess.run([ROOT / "tools/stamp", "print", PROGRAM], capture_output=True).returncode
PLACES = {
    "bin/chaosd": (PROGRAM, 0o755),
    "share/man/man1/chaosd.1": (ROOT / "docs/chaosd.1", 0o644),
    "share/chaosd/chaosnet.lua": (ROOT / "tools/wireshark/chaosnet.lua", 0o644),
    "lib/systemd/system/chaosd.service": (ROOT / "examples/chaosd.service", 0o644),
    **({"share/chaosd/chaosd.stamp": (STAMP, 0o644)} if IS_STAMPED else {}),
}
UNIT = "lib/systemd/system/chaosd.service"
# The greatest exposure that `systemd-analyze security` may find, in tenths.
MOST_EXPOSED = 10


def made(wish, *words, mask=0o022):
    """What `make` ends with, for the program that is tested, under this mask of modes."""
    ended = subprocess.run(["make", wish, f"PROGRAM={PROGRAM}", *words], cwd=ROOT, capture_output=True, text=True, timeout=LONG, umask=mask)
    return [] if ended.returncode == 0 else [ended.stdout + ended.stderr]


def below(top):
    """The files below a folder, by their places in it."""
    return {str(path.relative_to(top)) for path in top.rglob("*") if not path.is_dir()}


def needs_systemd():
    if not shutil.which("systemd-analyze"):
        raise unittest.SkipTest("systemd-analyze isn't there, which verifies the unit")


def here(text):
    """A text of units with the program that is tested in place of the one that is installed."""
    return text.replace("/usr/local/bin/chaosd", str(PROGRAM))


def verified(unit):
    """What systemd has to say of a unit, and of what is added to it in a folder beside it."""
    said = subprocess.run(["systemd-analyze", "verify", "--man=no", unit], capture_output=True, text=True, timeout=LONG)
    return said.stderr.splitlines() or ([f"status {said.returncode}"] if said.returncode else [])


class Install(Case):
    """What is put where, and taken away again."""

    seconds = 4

    def setUp(self):
        room = tempfile.TemporaryDirectory()
        self.addCleanup(room.cleanup)
        self.room = pathlib.Path(room.name)

    def put(self, prefix):
        """What is wrong once it is installed with this PREFIX into a folder of its own, and that folder's part below it."""
        staged = self.room / "staged here"
        problems = made("install", f"DESTDIR={staged}", f"PREFIX={prefix}", mask=0o077)
        return problems, staged / prefix.lstrip("/")

    def test_all_goes_below_the_prefix_in_the_folder_that_is_named(self):
        for prefix in ["/usr/local", "/opt/chaos"]:
            problems, top = self.put(prefix)
            self.check(f"it is installed for {prefix}", problems)
            wanted = {str((top / place).relative_to(self.room)) for place in PLACES}
            self.check("nothing but what is named is there", sorted(below(self.room) ^ wanted))
            for place, (source, mode) in PLACES.items():
                held = source.read_bytes()
                if place == UNIT:
                    held = held.replace(b"/usr/local/bin/chaosd", f"{prefix}/bin/chaosd".encode())
                is_right = (top / place).read_bytes() == held and (top / place).stat().st_mode & 0o7777 == mode
                self.check(f"{place} is what it was, with its mode", [] if is_right else [oct((top / place).stat().st_mode)])
            self.check("it is taken away", made("uninstall", f"DESTDIR={self.room / 'staged here'}", f"PREFIX={prefix}"))
            self.check("and nothing is left", sorted(below(self.room)))

    def test_uninstall_leaves_what_others_put_there(self):
        _, top = self.put("/usr/local")
        others = [top / "bin/other", top / "share/chaosd/other", top / "lib/systemd/system/other.service"]
        for other in others:
            other.write_text("of somebody else\n")
        for time in ["once", "twice"]:
            self.check(f"it passes {time}", made("uninstall", f"DESTDIR={self.room / 'staged here'}"))
        self.check("and leaves them", sorted(below(self.room) ^ {str(other.relative_to(self.room)) for other in others}))

    def unit(self):
        """The unit that is installed, with this program in its words, and without the manual page, which isn't at its place here."""
        problems, top = self.put("/usr/local")
        self.check("it is installed", problems)
        unit = self.room / "chaosd.service"
        unit.write_text(re.sub(r"^Documentation=.*\n", "", here((top / UNIT).read_text()), flags=re.M))
        return unit

    def test_systemd_has_nothing_to_say_of_the_unit(self):
        needs_systemd()
        unit = self.unit()
        self.check("it verifies the unit", verified(unit))
        limit = [f"--threshold={MOST_EXPOSED}", "--offline=true"]
        exposed = subprocess.run(["systemd-analyze", "security", *limit, unit], capture_output=True, text=True, timeout=LONG)
        if "unrecognized option" in exposed.stderr:
            self.skipTest("this systemd-analyze knows no --offline: how exposed the unit is was left out")
        self.check("and finds it hardly exposed", [] if exposed.returncode == 0 else [exposed.stdout[-300:] + exposed.stderr])

    def test_systemd_has_nothing_to_say_of_what_its_page_adds_to_the_unit(self):
        needs_systemd()
        unit, page = self.unit(), (ROOT / "docs/OPERATING.md").read_text()
        added = textwrap.dedent(re.search(r"^ *```text\n(.*?)^ *```$", page.partition("\n## By systemd\n")[2], re.M | re.S)[1])
        (self.room / "chaosd.service.d").mkdir()
        wishes = ["AmbientCapabilities=CAP_NET_BIND_SERVICE", "CapabilityBoundingSet=CAP_NET_BIND_SERVICE", "PrivateUsers=no", "StateDirectoryMode=0550"]
        self.check("the page names what is wished for", [wish for wish in wishes if wish.partition("=")[0] not in page])
        self.check("and how options are added", [] if "add `ExecStart=`, and below it the unit's own line with your options" in page else [page])
        (own,) = re.findall(r"^ExecStart=(.+)$", unit.read_text(), re.M)
        commands = [own, own.replace(" serve ", " serve --log all ")]
        for command in commands:
            (self.room / "chaosd.service.d/override.conf").write_text("\n".join([here(added), "ExecStart=", f"ExecStart={command}", *wishes, ""]))
            self.check("it verifies the unit with that", verified(unit))
            self.check("and the program understands its words", run(tried(command, self.room)).problems(DONE))

    def test_journald_drops_none_of_its_lines(self):
        """Each change of a file is a line, and journald drops lines of a unit that has a limit."""
        self.check("the unit has no limit", [] if "\nLogRateLimitIntervalSec=0\n" in self.unit().read_text() else ["it has one"])
