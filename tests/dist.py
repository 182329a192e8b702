"""Tests tools/dist: what it packs is unpacked elsewhere, and does there what its README and its pages say."""

import os
import pathlib
import pty
import re
import shlex
import subprocess
import tarfile
import tempfile

from tests.support import DONE, LONG, PATIENCE, PROGRAM, ROOT, Case, Ended, at, free_ports, line_of

NAMES = {
    "bin/chaosd", "share/man/man1/chaosd.1", "tools/wireshark/chaosnet.lua", "tools/ladder",
    "README.md", "CHANGELOG.md", "LICENSE-APACHE", "LICENSE-MIT",
    "examples/hello.file", "examples/chaosd.service", "examples/client.hosts", "examples/server.hosts", "examples/lab/opening.lab", "docs/PROTOCOL.md",
    "docs/FILE.md", "docs/SCRIPTS.md", "examples/lisp/chaosd.lisp", "examples/vectors/session.txt",
    "docs/LIBRARY.md", "docs/OPERATING.md", "crates/example_talk/src/main.rt",
}  # fmt: skip

FENCE = re.compile(r"^```.*?^```", re.M | re.S)


def dist(*words):
    """What the tool does with these words. It compresses for a second, and longer on a machine that does much else."""
    return subprocess.run([ROOT / "tools/dist", *words], capture_output=True, text=True, timeout=LONG)


def shells_of(page, section):
    """The lines that a page's section has the user type in each shell, with what is printed then."""
    said = page.read_text().partition(f"\n## {section}\n")[2].partition("\n## ")[0]
    blocks = re.findall(r"^```text\n(.*?)^```$", said, re.M | re.S)
    shells = [[tuple(typed.split("\n", 1)) for typed in re.split(r"^\$ ", block, flags=re.M)[1:]] for block in blocks]
    return [shell for shell in shells if shell]


def timeless(printed):
    """What was printed, with the same words for each time and each speed of a copy."""
    return re.sub(r"[\d.]+ m?s, [\d.]+ [kM]?B/s", "1 s, 1 B/s", printed)


def anchors(page):
    """The names by which a page's headings are linked."""
    heads = re.findall(r"^#+ (.*)$", FENCE.sub("", page.read_text()), re.M)
    return {re.sub(r"[^\w\- ]", "", head.lower()).strip().replace(" ", "-") for head in heads}


def dead(page):
    """The links of a page that lead to no file and no heading beside it."""
    found = []
    for path, name in re.findall(r"\]\((?![a-z]+:)([^)#\s]*)#?([^)\s]*)\)", FENCE.sub("", page.read_text())):
        target = page.parent / path if path else page
        if not target.is_file() or name and target.suffix == ".md" and name not in anchors(target):
            found.append(f"{page.name}: {path}#{name}")
    return found


def typed(top, words, printed):
    """Runs what is typed in a shell, and says where its terminal shows something else at the end, or its status isn't 0."""
    near, far = pty.openpty()
    try:
        ended = subprocess.run(words, cwd=top, stdin=subprocess.DEVNULL, stdout=far, stderr=far, timeout=PATIENCE)
        os.write(far, b"\0")
        seen = b""
        while not seen.endswith(b"\0"):
            seen += os.read(near, 4096)
    finally:
        os.close(near)
        os.close(far)
    seen = seen[:-1].decode().replace("\r\n", "\n")
    is_shown = timeless(seen).endswith(timeless(printed)) if printed else not seen
    return [] if ended.returncode == 0 and is_shown else [f"{words} ends with {ended.returncode}, and prints {seen!r}"]


def tried(command, folder):
    """The words of a unit's command, for a server of this folder at a port of its own that takes no turn."""
    _, serve, *words = shlex.split(command)
    table = folder / "hosts"
    table.write_text(f"401 {at(free_ports(1)[0])} self\n402 {at(9)} laptop\n")
    places = {"/etc/chaosd/hosts": str(table), "/var/lib/chaosd": str(folder)}
    return [serve, "--turns", "0", *(places.get(word, word) for word in words)]


def unproved(program):
    """Why a program isn't called proved, or an empty text where its stamp says that it was proved from these sources."""
    asked = subprocess.run([ROOT / "tools/stamp", "check", program], capture_output=True, text=True, timeout=PATIENCE)
    return asked.stderr.strip() if asked.returncode else ""


def is_summed(packed):
    """What `sha256sum --check` says of a file by the sum that was written beside it, if anything."""
    words = ["sha256sum", "--check", "--strict", "--quiet", f"{packed.name}.sha256"]
    ended = subprocess.run(words, cwd=packed.parent, capture_output=True, text=True, timeout=PATIENCE)
    return [ended.stdout + ended.stderr] if ended.returncode else []


def what_is_said(packed):
    """The line of a packed README that says whether its program is proved, and the files of the tar file by name."""
    with tarfile.open(packed) as tar:
        names = {it.name.partition("/")[2] for it in tar.getmembers()}
        readme = tar.extractfile(f"{packed.name.removesuffix('.tar.gz')}/README.md").read().decode()
    return readme.partition("## What is here\n\n")[2].partition("\n")[0], names


class Dist(Case):
    """What is packed, and unpacked elsewhere."""

    seconds = 5

    @classmethod
    def setUpClass(cls):
        super().setUpClass()
        room = tempfile.TemporaryDirectory()
        cls.addClassCleanup(room.cleanup)
        cls.room = pathlib.Path(room.name)
        ended = dist(PROGRAM, cls.room / "one")
        if ended.returncode:
            raise AssertionError(f"it isn't packed: {ended.stderr}")
        cls.packed = pathlib.Path(ended.stdout.strip())
        with tarfile.open(cls.packed) as tar:
            tar.extractall(cls.room / "else where")
        cls.top = cls.room / "else where" / cls.packed.name.removesuffix(".tar.gz")

    def test_the_same_files_give_the_same_bytes(self):
        again = pathlib.Path(dist(PROGRAM, self.room / "two").stdout.strip())
        self.assertEqual(self.packed.name, again.name)
        self.check("twice the same bytes", [] if self.packed.read_bytes() == again.read_bytes() else ["they differ"])
        self.check("and the SHA-256 is that of the tar file", is_summed(again))
        again.write_bytes(again.read_bytes() + b"\0")
        self.check("and of no other", [] if is_summed(again) else ["it passes"])

    def test_each_file_of_a_user_is_there_and_none_goes_elsewhere(self):
        with tarfile.open(self.packed) as tar:
            entries = tar.getmembers()
        top = {entry.name.split("/")[0] for entry in entries}
        self.check("all stands in one folder, named by the version", [] if top == {self.top.name} else [str(top)])
        names = {entry.name.partition("/")[2] for entry in entries}
        self.check("what a user needs is there", [f"no {name}" for name in sorted(NAMES - names)])
        is_run = lambda it: it.name.endswith(("/bin/chaosd", "/tools/ladder"))
        is_right = lambda it: it.isfile() and it.mode == (0o755 if is_run(it) else 0o644) and not it.uid and not it.mtime
        wrong = [f"{it.name} {it.mode:o}" for it in entries if not is_right(it)]
        self.check("files alone, of no user and no time", wrong)

    def test_every_link_of_every_page_leads_somewhere(self):
        pages = sorted(self.top.rglob("*.md"))
        self.assertIn(self.top / "README.md", pages)
        self.assertEqual([], [link for page in pages for link in dead(page)])

    def test_the_first_commands_of_the_readme_print_what_it_says(self):
        text = (self.top / "README.md").read_text()
        first = text.partition("\n## ")[2].partition("\n")[0]
        self.check("its first section is of what is here, and wants nothing built", [] if first == "What is here" else [first])
        lines = [line for shell in shells_of(self.top / "README.md", "What is here") for line in shell]
        problems = [problem for line, printed in lines for problem in typed(self.top, ["sh", "-c", line], printed)]
        self.check("its first commands print there what it says", problems if lines else ["no line"])
        named = re.findall(r"`(?:man -l )?([\w./]+/[\w.]+)`", text.partition("\n## Moving")[0])
        self.check("and what it names is there", [name for name in named if not (self.top / name).is_file()])

    def test_a_ladder_is_drawn_as_its_page_says(self):
        lines = [line for shell in shells_of(self.top / "docs/LABORATORY.md", "As a picture") for line in shell]
        problems = [problem for line, printed in lines for problem in typed(self.top, ["sh", "-c", line], printed)]
        self.check("the lines of the page pass", problems if len(lines) == 2 else [str(lines)])
        drawn = (self.top / "late.svg").read_text()
        self.check("and draw the picture of the page", [] if drawn == (self.top / "docs/pictures/late.svg").read_text() else [drawn[:200]])

    def test_the_dissector_is_copied_as_its_page_says(self):
        lines = [line for shell in shells_of(self.top / "docs/SCRIPTS.md", "In Wireshark") for line, _ in shell][:2]
        (home := self.top / "home").mkdir()
        problems = [problem for line in lines for problem in typed(self.top, ["sh", "-c", f"HOME={shlex.quote(str(home))}; {line}"], "")]
        copied = [path.read_bytes() for path in home.rglob("chaosnet.lua")]
        is_right = copied == [(ROOT / "tools/wireshark/chaosnet.lua").read_bytes()]
        self.check("the first two lines of the page put it into the folder of plugins", problems + ([] if is_right else [str(lines)]))

    def test_unpacked_elsewhere_it_serves_and_asks(self):
        ports = free_ports(2)
        chaosd, folder = self.top / "bin/chaosd", self.top / "more files"
        folder.mkdir()
        server = subprocess.Popen([chaosd, "serve", "401", at(ports[0]), folder, f"402={at(ports[1])}"], stderr=subprocess.PIPE)
        try:
            line_of(server.stderr)
            script = (self.top / "examples/hello.file").read_bytes()
            words = [chaosd, "ask", "402", at(ports[1]), "401", f"401={at(ports[0])}"]
            asked = subprocess.run(words, input=script, capture_output=True, timeout=PATIENCE)
        finally:
            server.kill()
            server.communicate()
        problems = Ended(asked.returncode, asked.stdout, asked.stderr).problems(DONE, [b"T1  LOGIN LISPM", b"T8 H2 CLOSE 39"], b"")
        self.check("unpacked elsewhere, it serves and asks", problems)
        kept = [path.name for path in folder.iterdir() if path.stat().st_size == 39]
        self.check("the server keeps the file", [] if len(kept) == 1 else [str(list(folder.iterdir()))])

    def test_the_two_shells_of_the_readme_print_what_it_says(self):
        server, client = shells_of(self.top / "README.md", "Moving files")
        tables = [self.top / f"examples/{name}.hosts" for name in ("client", "server")]
        for number, port in zip((9001, 9002, 9003), free_ports(3)):
            for table in tables:
                table.write_text(table.read_text().replace(f":{number} ", f":{port} "))
        *before, (serve, _) = server
        problems = [problem for line, printed in before for problem in typed(self.top, shlex.split(line), printed)]
        serving = subprocess.Popen(shlex.split(serve), cwd=self.top, stderr=subprocess.PIPE)
        try:
            line_of(serving.stderr)
            problems += [problem for line, printed in client for problem in typed(self.top, shlex.split(line), printed)]
        finally:
            serving.kill()
            serving.communicate()
        self.check("the README's two shells print there what it says", problems if len(client) == 2 else [f"{len(client)} lines"])
        hello = (self.top / "examples/hello.file").read_bytes()
        wrong = [str(path) for path in (self.top / "files/hello.file", self.top / "copy") if not path.is_file() or path.read_bytes() != hello]
        self.check("and copy the file there and back", wrong)

    def test_the_unit_for_systemd_starts_it_in_words_that_it_understands(self):
        text = (self.top / "examples/chaosd.service").read_text()
        set_to = dict(re.findall(r"^(\w+)=(.*)$", text, re.M))
        wanted = {"Restart": "always", "StartLimitIntervalSec": "0"}
        self.check("the unit starts it again, for ever", [name for name, word in wanted.items() if set_to.get(name) != word])
        (served := self.top / "served").mkdir()
        words = [self.top / "bin/chaosd", *tried(set_to["ExecStart"], served)]
        ended = subprocess.run(words, capture_output=True, text=True, timeout=PATIENCE)
        self.check("in words that it understands, and its turns end well", [] if ended.returncode == 0 else [ended.stderr])

    def test_the_program_tells_the_version_that_the_tar_file_bears(self):
        told = subprocess.run([self.top / "bin/chaosd", "--version"], capture_output=True, text=True, timeout=PATIENCE)
        version = re.fullmatch(r"poltxegun-(\d+\.\d+\.\d+)-x86_64-linux(-not-proved)?\.tar\.gz", self.packed.name)
        self.assertEqual((0, f"chaosd {version[1]}"), (told.returncode, told.stdout.splitlines()[0]))

    def test_only_a_program_that_was_proved_from_these_sources_is_called_proved(self):
        why = unproved(PROGRAM)
        said, names = what_is_said(self.packed)
        label = "-not-proved.tar.gz" if why else "-linux.tar.gz"
        self.check("the tested program is packed as what it is", [] if self.packed.name.endswith(label) else [self.packed.name])
        is_said = "`bin/chaosd` **isn't proved**: " in said if why else "`bin/chaosd` is proved." in said and "bin/chaosd.stamp" in names
        self.check("and so says its README", [] if is_said else [said])

        (other := self.room / "other").mkdir()
        program = other / "chaosd"
        program.write_bytes(PROGRAM.read_bytes())
        program.chmod(0o755)
        cases = [("no stamp", "chaosd.stamp isn't there"), ("the stamp of another program", "chaosd.stamp is of another program")]
        for what, reason in cases:
            ended = dist(program, other / "out")
            problems = [ended.stderr] if ended.returncode or reason not in ended.stderr else []
            packed = pathlib.Path(ended.stdout.strip())
            said, names = what_is_said(packed)
            if not packed.name.endswith("-not-proved.tar.gz") or f"**isn't proved**: {reason}" not in said or "bin/chaosd.stamp" in names:
                problems.append(f"{packed.name} {said} {sorted(names)}")
            self.check(f"a program with {what} isn't called proved", problems)
            sums = f"how: proved\nsources: {'0' * 64}\nlogic: 0\nprogram: {'0' * 64}\n"
            program.with_name("chaosd.stamp").write_text(sums)

    def test_what_can_not_be_packed_is_told_and_nothing_is_left(self):
        empty = self.room / "empty"
        empty.mkdir()
        for name, words in [("a program that isn't there", [self.room / "none", empty]), ("a folder that is a file", [PROGRAM, __file__])]:
            ended = dist(*words)
            self.check(f"{name} is told", [] if ended.returncode == 1 and ended.stderr.startswith("tools/dist: ") else [ended.stderr])
        self.check("and leaves nothing", [str(path) for path in empty.iterdir()])
