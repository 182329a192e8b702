"""Tests the Debian package that `tools/dist --deb` builds: what it puts where, what it says of its program, and that it leaves nothing behind."""

import gzip
import os
import pathlib
import re
import shutil
import subprocess
import sys
import tempfile
import unittest

from tests.dist import dead, dist, is_summed, unproved
from tests.install import PLACES, UNIT, below
from tests.support import LONG, PATIENCE, PROGRAM, ROOT, Case

DOCUMENTS = "usr/share/doc/chaosd"
PAGES = ["README.md", "CHANGELOG.md", "LICENSE-MIT", "LICENSE-APACHE", "copyright", "docs/OPERATING.md", "docs/SECURITY.md", "examples/hello.file"]
# In place of the kit's command, which a stamp asks for its logic.
KIT = "#!/bin/sh\necho 'kit-1 logic 0123456789abcdef'\n"


def said_by(*words):
    """What a command prints, which ends well."""
    ended = subprocess.run(words, capture_output=True, text=True, timeout=LONG)
    if ended.returncode:
        raise AssertionError(f"{words} ends with {ended.returncode}: {ended.stdout}{ended.stderr}")
    return ended.stdout


def fields(package):
    """What the control file of a package says, by its fields."""
    return {name: said_by("dpkg-deb", "-f", package, name).rstrip("\n") for name in ["Package", "Version", "Architecture", "Depends", "Description"]}


@unittest.skipUnless(shutil.which("dpkg-deb"), "dpkg-deb isn't there, which builds and unpacks the Debian package")
class Deb(Case):
    """The package of the tested program."""

    seconds = 20

    @classmethod
    def setUpClass(cls):
        super().setUpClass()
        room = tempfile.TemporaryDirectory()
        cls.addClassCleanup(room.cleanup)
        cls.room = pathlib.Path(room.name)
        cls.package = cls.built(PROGRAM, "one")
        cls.top = cls.room / "unpacked"
        said_by("dpkg-deb", "-x", cls.package, cls.top)

    @classmethod
    def built(cls, program, folder):
        """The package of a program."""
        ended = dist("--deb", program, cls.room / folder)
        if ended.returncode:
            raise AssertionError(f"no package is built: {ended.stderr}")
        return pathlib.Path(ended.stdout.strip())

    def test_what_make_install_puts_below_usr_is_there_and_pages(self):
        places = {f"usr/{place}": it for place, it in PLACES.items() if place != "share/man/man1/chaosd.1"}
        for place, (source, mode) in places.items():
            held = source.read_bytes()
            if place == f"usr/{UNIT}":
                held = held.replace(b"/usr/local/bin/chaosd", b"/usr/bin/chaosd")
            file = self.top / place
            is_right = file.is_file() and file.read_bytes() == held and file.stat().st_mode & 0o7777 == mode
            self.check(f"{place} is there with its mode", [] if is_right else [str(sorted(below(self.top)))])
        manual = (self.top / "usr/share/man/man1/chaosd.1.gz").read_bytes()
        self.check("so is the manual page", [] if gzip.decompress(manual) == (ROOT / "docs/chaosd.1").read_bytes() else ["another text"])
        found = below(self.top)
        self.check("pages and licences are there", [it for it in PAGES if f"{DOCUMENTS}/{it}" not in found])
        others = [it for it in found if it not in [*places, "usr/share/man/man1/chaosd.1.gz"] and not it.startswith(f"{DOCUMENTS}/")]
        self.check("and nothing else", others)
        copyright = (self.top / DOCUMENTS / "copyright").read_text()
        self.check("the licences stand in its file", [it for it in PAGES[2:4] if (ROOT / it).read_text() not in copyright])

    def test_all_is_of_root_and_can_be_read_by_everyone(self):
        wrong = []
        for line in said_by("dpkg-deb", "-c", self.package).splitlines():
            mode, owner, *_, place = line.split()
            is_run = place.endswith(("/bin/chaosd", "/tools/ladder"))
            wanted = "drwxr-xr-x" if place.endswith("/") else "-rwxr-xr-x" if is_run else "-rw-r--r--"
            wrong += [] if (mode, owner) == (wanted, "root/root") else [line]
        self.check("owners and modes", wrong)

    def test_its_pages_lead_somewhere_and_name_the_program_where_it_is(self):
        pages = sorted((self.top / DOCUMENTS).rglob("*.md"))
        self.assertIn(self.top / DOCUMENTS / "README.md", pages)
        self.check("every link", [link for page in pages for link in dead(page)])
        self.check("no page names another place", [str(it) for it in pages if re.search(r"(?<!/usr/)\bbin/chaosd\b", it.read_text())])
        command = re.search(r"^ExecStart=(\S+)", (self.top / "usr" / UNIT).read_text(), re.M)[1]
        self.check("the unit starts the program", [] if (self.top / command.lstrip("/")).is_file() else [command])

    def test_its_version_is_the_program_s_and_says_if_that_is_not_proved(self):
        version = said_by(self.top / "usr/bin/chaosd", "--version").split()[1]
        (other := self.room / "other").mkdir()
        program, kit = other / "chaosd", other / "kit"
        shutil.copy(PROGRAM, program)
        kit.write_text(KIT)
        kit.chmod(0o755)
        subprocess.run([ROOT / "tools/stamp", "write", program, "proved"], env={**os.environ, "RT": str(kit)}, check=True, timeout=PATIENCE)
        for package, why in [(self.package, unproved(PROGRAM)), (self.built(program, "proved"), "")]:
            said, number = fields(package), f"{version}~not-proved" if why else version
            problems = [] if package.name == f"chaosd_{number}_amd64.deb" else [package.name]
            problems += [] if (said["Package"], said["Version"], said["Architecture"]) == ("chaosd", number, "amd64") else [str(said)]
            readme = subprocess.run(["dpkg-deb", "--fsys-tarfile", package], capture_output=True, check=True).stdout
            problems += [] if (b"`chaosd` **isn't proved**: " if why else b"`chaosd` is proved. ") in readme else ["the README says something else"]
            last = said["Description"].splitlines()[-1]
            problems += [] if last.startswith(" chaosd isn't proved: " if why else " chaosd is proved. ") else [last]
            self.check(f"version {number}", problems)
        is_older = subprocess.run(["dpkg", "--compare-versions", f"{version}~not-proved", "lt", version]).returncode == 0
        self.check("one that isn't proved is older for dpkg", [] if is_older else ["it isn't"])
        newest = max(map(int, re.findall(rb"GLIBC_2[.](\d+)", PROGRAM.read_bytes())))
        least = int(re.search(r"libc6 \(>= 2\.(\d+)\)", said["Depends"])[1])
        self.check("it depends on a C library that has what the program names", [] if newest <= least else [f"2.{newest}"])

    def test_the_same_files_give_the_same_bytes(self):
        again = self.built(PROGRAM, "two")
        self.check("twice the same bytes", [] if again.read_bytes() == self.package.read_bytes() else ["they differ"])
        self.check("and the SHA-256 is that of the package", is_summed(again))

    def test_dpkg_installs_it_and_removes_all_of_it(self):
        if os.geteuid() or not shutil.which("dpkg"):
            self.skipTest("dpkg installs for root alone: the package was unpacked, and not installed")
        root = self.room / "root"
        (root / "var/lib/dpkg/info").mkdir(parents=True)
        (root / "var/lib/dpkg/status").touch()
        dpkg = ["dpkg", f"--root={root}", "--force-depends", "--force-script-chrootless", "--log=/dev/null"]
        own = {it for it in below(root) if not it.startswith("var/lib/dpkg")}
        said_by(*dpkg, "-i", self.package)
        wanted = below(self.top)
        found = {it for it in below(root) if not it.startswith("var/lib/dpkg")}
        self.check("what is unpacked is installed, and no unit is enabled", sorted(found ^ wanted ^ own))
        self.check("so is the folder of the hosts table", [] if (root / "etc/chaosd").is_dir() else ["it isn't there"])
        self.check("the program runs there", [] if "chaosd" in said_by(root / "usr/bin/chaosd", "--version") else ["it prints something else"])
        self.check("dpkg verifies the files", said_by(*dpkg, "--verify", "chaosd").splitlines())
        with (root / "usr/bin/chaosd").open("ab") as program:
            program.write(b"changed")
        changed = subprocess.run([*dpkg, "--verify", "chaosd"], capture_output=True, text=True, timeout=LONG).stdout.splitlines()
        self.check("and names the one that changed", [] if [it.split()[-1] for it in changed] == ["/usr/bin/chaosd"] else changed)
        said_by(*dpkg, "-r", "chaosd")
        left = [it for it in root.rglob("*") if "dpkg" not in it.parts]
        self.check("and all is removed", [str(it) for it in left if it not in (root / "var", root / "var/lib")])

    def test_its_scripts_make_the_user_and_ask_systemd_where_that_runs(self):
        """`systemctl` and `useradd` are scripts here that note their words, and a folder of its own stands for the one that systemd makes
        where it runs."""
        control, tools, running, noted = [self.room / name for name in ("control", "tools", "running", "noted")]
        said_by("dpkg-deb", "-e", self.package, control)
        for folder in [tools, running]:
            folder.mkdir()
        for name, lines in [("systemctl", f'echo "$@" >> "{noted}"\nexit 1'), ("useradd", f'echo useradd "$@" >> "{noted}"'), ("getent", 'exit "$NO_USER"')]:
            (tools / name).write_text(f"#!/bin/sh\n{lines}\n")
            (tools / name).chmod(0o755)
        reload, restart, stop = "daemon-reload", "try-restart chaosd.service", "disable --now chaosd.service"
        user = re.search(r"`(useradd .*?)`", (ROOT / "docs/OPERATING.md").read_text())[1]
        for script, words, more, wanted in [
            ("postinst", ["configure"], {}, [reload]),
            ("postinst", ["configure"], {"NO_USER": "2"}, [user, reload]),
            ("postinst", ["configure"], {"NO_USER": "2", "DPKG_ROOT": "/elsewhere"}, []),
            ("postinst", ["configure", "0.1.0"], {}, [reload, restart]),
            ("postinst", ["abort-remove"], {}, []),
            ("postinst", ["configure", "0.1.0"], {"DPKG_ROOT": "/elsewhere"}, []),
            ("prerm", ["remove"], {}, [stop]),
            ("prerm", ["upgrade", "0.3.0"], {}, []),
            ("prerm", ["remove"], {"DPKG_ROOT": "/elsewhere"}, []),
        ]:
            noted.write_text("")
            text = (control / script).read_text()
            self.assertIn("/run/systemd/system", text)
            (control / "here").write_text(text.replace("/run/systemd/system", str(running)))
            environment = {"PATH": f"{tools}:{os.environ['PATH']}", "NO_USER": "0", **more}
            ended = subprocess.run(["sh", control / "here", *words], env=environment, capture_output=True, text=True, timeout=PATIENCE)
            problems = [] if ended.returncode == 0 else [f"status {ended.returncode}: {ended.stderr}"]
            self.check(f"{script} {words} {more}", problems + ([] if noted.read_text().splitlines() == wanted else [noted.read_text()]))

    def test_without_dpkg_deb_one_line_says_what_to_install(self):
        words = [sys.executable, ROOT / "tools/dist", "--deb", PROGRAM, self.room / "none"]
        ended = subprocess.run(words, env={"PATH": ""}, capture_output=True, text=True, timeout=PATIENCE)
        wanted = "tools/dist: dpkg-deb isn't there, which builds Debian packages: Debian's package dpkg has it\n"
        self.assertEqual((1, "", wanted), (ended.returncode, ended.stdout, ended.stderr))
        self.assertEqual(set(), below(self.room / "none"))
