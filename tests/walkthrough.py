"""Follows the pages' lines that no other test follows, as a reader types them: what they print is what the page says.

The UDP addresses of a page are those of this machine here, each with a port that nobody has. tests/followed.txt names the test of each line.
"""

import contextlib
import os
import re
import shutil
import signal
import subprocess
import unittest

from tests.bridge import bridging
from tests.chudp import VECTORS
from tests.dist import timeless
from tests.pages import FENCE, text_of
from tests.support import BAD_LINE, DONE, FAULT, LONG, PATIENCE, PROGRAM, REFUSED, ROOT, Case, at, finished, folder, free_ports, line_of, run, stored_problems

SCRIPT = b"T1  LOGIN LISPM\nT2 H1 OPEN WRITE^A.LISP\nT3 H1 WRITE^(A)\nT4 H1 CLOSE\n"
SOURCE = b"(DEFUN HELLO ())\n"


def section_of(page, heading):
    """What stands below a heading, up to the next of its kind or a greater one."""
    depth = heading.split()[0]
    rest = text_of(page).partition(f"\n{heading}\n")[2]
    return re.split(rf"^#{{1,{len(depth)}}} ", rest, maxsplit=1, flags=re.M)[0]


def typed_in(text):
    """Each command of a shell's text, with what is printed then. A here-document belongs to its command."""
    for block in re.split(r"^\$ ", text, flags=re.M)[1:]:
        line, _, printed = block.partition("\n")
        if end := re.search(r"<< (\w+)$", line):
            given, _, printed = printed.partition(f"\n{end[1]}\n")
            line = f"{line}\n{given}\n{end[1]}"
        yield line, printed


class Shell:
    """A folder in which a page's lines run: the program as bin/chaosd and on the path, the examples and the tools. Each UDP address of a
    page has another in its place, always the same."""

    def __init__(self, here):
        self.here, self.moved, self.running = here, {}, []
        for name in ["examples", "tools"]:
            (here / name).symlink_to(ROOT / name)
        (here / "bin").mkdir()
        (here / "bin/chaosd").symlink_to(PROGRAM)
        (here / "home").mkdir()

    def place(self, address):
        """The UDP address in the place of a page's."""
        if address not in self.moved:
            self.moved[address] = at(*free_ports(1))
        return self.moved[address]

    def port(self, address):
        return int(self.place(address).split(":")[1])

    def here_of(self, text):
        """A text of a page, with the addresses of this machine."""
        return re.sub(r"\b\d+\.\d+\.\d+\.\d+:\d+\b", lambda it: self.place(it[0]), text)

    def begin(self, line, hosts=None):
        """A line that runs. SIGINT ends it, as by default."""
        environment = {key: it for key, it in os.environ.items() if key not in ("CHAOSD_HOSTS", "XDG_CONFIG_HOME")}
        environment |= {"HOME": str(self.here / "home"), "PATH": f"{self.here / 'bin'}:{os.environ['PATH']}"}
        environment |= {"CHAOSD_HOSTS": str(hosts)} if hosts else {}
        streams = {"stdin": subprocess.DEVNULL, "stdout": subprocess.PIPE, "stderr": subprocess.PIPE}
        begin = lambda: signal.signal(signal.SIGINT, signal.SIG_DFL)
        return subprocess.Popen(["bash", "-c", self.here_of(line)], cwd=self.here, env=environment, preexec_fn=begin, **streams)

    def run(self, line, hosts=None):
        """How a line ended."""
        return finished(self.begin(line, hosts), patience=LONG)

    def serve(self, line, hosts=None):
        """A server that runs, once it logged its first line. Gives that line."""
        self.running.append(self.begin(f"exec {line}", hosts))
        return line_of(self.running[-1].stderr, LONG).decode()

    def end(self):
        for it in self.running:
            it.kill()
            it.communicate()
        self.running = []


@contextlib.contextmanager
def shell():
    with folder() as here:
        found = Shell(here)
        try:
            yield found
        finally:
            found.end()


class Typed(Case):
    """Tests that type lines."""

    def check_line(self, here, line, printed="", hosts=None):
        """A line ends well and prints this, or begins so where the page leaves the rest out."""
        ended = here.run(line, hosts)
        seen, wanted = timeless(ended.out.decode()), timeless(here.here_of(printed))
        is_same = seen.startswith(wanted.removesuffix("...\n")) if wanted.endswith("...\n") else seen == wanted
        self.check(f"$ {line}", ended.problems(DONE, None, b"") + ([] if is_same else [f"it printed {seen!r} and not {wanted!r}"]))

    def check_serves(self, here, line, *pieces, hosts=None):
        said = here.serve(line, hosts)
        self.check(f"$ {line}", [f"no {it!r} in {said!r}" for it in [" serves ", *map(here.here_of, pieces)] if it not in said])


class FrontDoor(Typed):
    """README.md: what its two shells don't try."""

    def setUp(self):
        self.picture, *blocks = FENCE.findall(text_of("README.md"))
        (self.tables,) = [it for it in blocks if it.startswith("# on the server")]

    def test_the_tables_of_two_machines_copy_a_file(self):
        with shell() as here:
            for name, table in zip(["server", "client"], self.tables.split("\n\n"), strict=True):
                (here.here / name).write_text(here.here_of(table))
            (here.here / "files").mkdir()
            self.check_serves(here, "chaosd serve --hosts server files", "host 401", "402=192.0.2.7:9002")
            self.check_line(here, "chaosd put --hosts client examples/hello.file lispm:")
            self.check("the file is there", stored_problems(here.here / "files/hello.file", (ROOT / "examples/hello.file").read_bytes()))

    def test_the_machines_of_the_tables_are_those_of_the_picture(self):
        places, wanted = (set(re.findall(r"[\d.]+:\d+", it)) for it in (self.tables, self.picture))
        self.check("their UDP addresses", [] if places == wanted else [f"{places} and not {wanted}"])


class Laboratory(Typed):
    """docs/LABORATORY.md."""

    def test_its_lines_print_what_it_shows(self):
        with shell() as here:
            lines = [it for block in FENCE.findall(text_of("docs/LABORATORY.md")) for it in typed_in(block)]
            self.check("it has lines", [] if len(lines) == 4 else [str(lines)])
            for line, printed in lines:
                self.check_line(here, line, printed)

    def test_the_lines_of_its_script_stand_beside_what_they_print(self):
        script = text_of("examples/lab/opening.lab").splitlines()
        column = max(map(len, script)) + 4
        rows = [(line[:column].strip(), line[column:]) for line in FENCE.findall(text_of("docs/LABORATORY.md"))[1].splitlines()]
        self.check("the script is that of the example", [] if [it for it, _ in rows if it] == script else [str(rows)])
        self.check("the output, too", [] if "".join(f"{it}\n" for _, it in rows) == text_of("examples/lab/opening.txt") else [str(rows)])
        *starts, last = [n for n, (line, _) in enumerate(rows) if line] + [len(rows) - 1]
        for line, end in zip(range(1, len(script) + 1), [*starts[1:], last]):
            ended = run(["lab"], "".join(f"{it}\n" for it in script[:line]).encode())
            printed, beside = ended.out.decode().splitlines()[:-1], [it for _, it in rows[:end]]
            self.check(f"up to `{script[line - 1]}`", ended.problems(DONE, None, b"") + ([] if printed == beside else [f"{printed} and not {beside}"]))

    def test_the_forms_of_its_table_are_those_that_the_program_names(self):
        section = section_of("docs/LABORATORY.md", "## A script")
        first = re.search(r"The first line is `(.*?)`", section)[1]
        ended = run(["lab"], b"ends\n")
        self.check(first, ended.problems(BAD_LINE, b"", [f"the first line must be `{first}`".encode()]))
        forms = re.findall(r"^\| `(\w+.*?)` \|", section, re.M)
        self.check("eight forms", [] if len(forms) == 8 else forms)
        for form in forms:
            ended = run(["lab"], f"{first.split()[0]} 1 1 1 1 1\n{form.split()[0]} !\n".encode())
            named = re.search(r"expected `([^`(]*?)(?: \([^`]*)?`", ended.err.decode())
            self.check(form, ended.problems(BAD_LINE) + ([] if named and named[1] == form else [ended.err.decode()]))


class Glossary(Case):
    """docs/GLOSSARY.md."""

    def test_each_packet_that_the_laboratory_shows_is_explained(self):
        shown = {name for it in (ROOT / "examples").glob("*lab/*.txt") for name in re.findall(r"^copy \d+ [ab] (\w+) ", it.read_text(), re.M)}
        rows = re.findall(r"^\| ([A-Z]{3}) \|", text_of("docs/GLOSSARY.md"), re.M)
        self.check("the laboratory's", sorted(shown - set(rows)) if len(shown) > 4 else sorted(shown))
        names = re.findall(r"^   \d+(?: \.\. \d+)? +([A-Z]{3}) ", section_of("docs/PROTOCOL.md", "## Packets"), re.M)
        self.check("each is one of the protocol", sorted(set(rows) - set(names)))


class Reports(Case):
    """docs/SCRIPTS.md: the report of two lines."""

    def test_two_lines_give_the_output_that_stands_behind_them(self):
        given, printed = FENCE.findall(section_of("docs/SCRIPTS.md", "### Reports"))[1:3]
        ended = finished(subprocess.Popen([PROGRAM, "show"], stdin=subprocess.PIPE, stdout=subprocess.PIPE, stderr=subprocess.PIPE), given.encode())
        self.check("status 3 and this output", ended.problems(REFUSED, printed.encode(), b""))


def example_blocks():
    """The shells of the manual's examples."""
    examples = text_of("docs/chaosd.1").partition(".Sh EXAMPLES\n")[2].partition("\n.Sh ")[0]
    return [list(typed_in(it)) for it in re.findall(r"^\.Bd -literal -offset indent\n(.*?)^\.Ed$", examples, re.M | re.S)]


class Manual(Typed):
    """The examples of chaosd(1)."""

    seconds = 10

    def setUp(self):
        self.decode, self.loop, self.names, self.served, self.asked, self.bridge, self.lab, self.capture = example_blocks()

    def test_what_one_process_does_is_printed(self):
        with shell() as here:
            (_, script), loop = self.loop
            (here.here / "script").write_text(script)
            for line, printed in [*self.decode, loop, *self.lab]:
                self.check_line(here, line, printed)

    def test_files_are_copied_by_names(self):
        with shell() as here:
            server, client = here.here / "server.hosts", here.here / "client.hosts"
            server.write_text(here.here_of("401 192.0.2.1:9001 self\n402 192.0.2.2:9002 laptop\n"))
            client.write_text(here.here_of("401 192.0.2.1:9001 lispm\n402 192.0.2.2:9002 self\n"))
            for name in ["files", "src"]:
                (here.here / name).mkdir()
            for name in ["A.LISP", "B.LISP"]:
                (here.here / name).write_bytes(SOURCE)
            (here.here / "script").write_bytes(SCRIPT)
            (serve, _), *lines, (ask, _) = self.names
            self.check_serves(here, serve, "host 401", hosts=server)
            for line, _ in lines:
                self.check_line(here, line, hosts=client)
            self.check("src/ has the files", [it for name in ["A.LISP", "B.LISP"] for it in stored_problems(here.here / "src" / name, SOURCE)])
            self.check("the server has none", sorted(it.name for it in (here.here / "files").iterdir() if it.name[0] != "."))
            self.check("ask", here.run(ask, hosts=client).problems(DONE, [b"T4 H1 CLOSE 3\n"], b""))

    def test_files_are_copied_by_addresses(self):
        with shell() as here:
            (here.here / "A.LISP").write_bytes(SOURCE)
            (here.here / "script").write_bytes(SCRIPT)
            (make, _), (serve, _) = self.served
            self.check_line(here, make)
            self.check_serves(here, serve, "to 402=127.0.0.1:9002")
            *lines, (ask, _) = self.asked
            for line, _ in lines:
                self.check_line(here, line)
            self.check("B.LISP", stored_problems(here.here / "B.LISP", SOURCE))
            self.check("ask", here.run(ask).problems(DONE, [b"T4 H1 CLOSE 3\n"], b""))

    def test_a_server_behind_a_bridge_begins(self):
        with shell() as here:
            (here.here / "files").mkdir()
            self.check_serves(here, self.bridge[0][0], "to *=192.0.2.1:42042")

    def test_the_last_line_is_that_of_scripts(self):
        line = self.capture[0][0].replace("capture.pcap -Y chaosnet", "login.pcap").replace("| chaosd", "| bin/chaosd")
        self.check("docs/SCRIPTS.md has it", [] if f"`{line}`" in text_of("docs/SCRIPTS.md") else [line])


class Operating(Typed):
    """docs/OPERATING.md."""

    seconds = 5

    def test_a_key_is_made_given_and_named_as_the_page_says(self):
        """`scp` is `cp` here, and the user of `install` is the one who runs this."""
        text = section_of("docs/OPERATING.md", "## A key for each host")
        make, *_ = [line for line, _ in typed_in(re.sub(r"^ +", "", FENCE.findall(text)[0], flags=re.M)) if "/dev/urandom" in line]
        install = re.search(r"`(install -o chaosd -g chaosd .*)`", text)[1]
        at_server, at_client = [line.strip() for line in FENCE.findall(text)[1].splitlines()]
        with shell() as here:
            for name in ["etc", "config", "files"]:
                (here.here / name).mkdir()
            (here.here / "A.LISP").write_bytes(SOURCE)
            self.check_line(here, make)
            self.check_line(here, install.replace("-o chaosd -g chaosd", f"-o {os.getuid()} -g {os.getgid()}").replace("/etc/chaosd/", "etc/"))
            self.check_line(here, "cp -p laptop.key config/lispm.key")
            (here.here / "etc/hosts").write_text(here.here_of(f"401 192.0.2.1:9001 self\n{at_server}\n"))
            (here.here / "config/hosts").write_text(here.here_of(f"{at_client}\n402 192.0.2.7:9002 self\n"))
            self.check_serves(here, "chaosd serve --hosts etc/hosts files", "host 401")
            ended = here.run("chaosd put --hosts config/hosts A.LISP lispm:")
            # what a client reports after 2 seconds of silence, which a busy machine may be
            silence = b"chaosd: nothing sealed came from host 401 yet: does it run, and does it have this key for 402?\n"
            self.check("put", ended.problems(DONE, b"", silence if ended.err == silence else b""))
            self.check("the file is there", stored_problems(here.here / "files/A.LISP", SOURCE))
            # the same without the key at this end: nothing comes
            (here.here / "config/hosts").write_text(here.here_of(f"{at_client.partition('key=')[0]}\n402 192.0.2.7:9002 self\n"))
            ended = here.run("chaosd put --timeout 2 --hosts config/hosts A.LISP lispm:")
            self.check("if one end lacks the key, nothing comes", ended.problems(REFUSED, b"", [b"no connection opened in "]))

    def test_the_hosts_table_of_the_page_is_taken(self):
        with shell() as here:
            (here.here / "files").mkdir()
            (key := here.here / "laptop.key").write_text("0" * 64 + "\n")
            key.chmod(0o600)
            (here.here / "hosts").write_text(here.here_of(FENCE.findall(section_of("docs/OPERATING.md", "## The hosts table"))[0]))
            peers = ["402=192.0.2.7:9002", "*=192.0.2.1:42042"]
            line = re.search(r"`(chaosd serve --turns 0 .*?)`", text_of("docs/OPERATING.md"))[1].replace("FILE", "hosts").replace("FOLDER", "files")
            self.check(f"$ {line}", here.run(line).problems(DONE, b"", [b"0 turns are over"]))
            self.check_serves(here, "chaosd serve --hosts hosts files", "host 401 serves files at 0.0.0.0:9001", *peers)
            (here.here / "bad").write_text("401 nonsense self\n")
            ended = here.run(line.replace("hosts files", "bad files"))
            self.check("a bad line is reported, and nothing is opened", ended.problems(BAD_LINE, b"", [b"line 1: 'nonsense' is no UDP address"]))
            in_use = re.search(r"Beside a running server a good table ends in `(.*?)`", text_of("docs/OPERATING.md"))[1]
            self.check("a good one beside the server", here.run(line).problems(FAULT, b"", [f"can't open files: {in_use}\n".encode()]))
            key.unlink()
            self.check("a key that is gone", here.run(line).problems(FAULT, b"", [b"can't read the key file laptop.key: "]))

    def test_the_hosts_table_of_the_manual_is_taken(self):
        table = text_of("docs/chaosd.1").partition(".Ss Hosts table\n")[2].partition("-offset indent\n")[2].partition(".Ed\n")[0]
        with shell() as here:
            (here.here / "files").mkdir()
            (key := here.here / "laptop.key").write_text("0" * 64 + "\n")
            key.chmod(0o600)
            (here.here / "hosts").write_text(here.here_of(table))
            peers = ["402=192.0.2.7:9002", "*=192.0.2.1:42042"]
            self.check_serves(here, "chaosd serve --hosts hosts files", "host 401 serves files at 0.0.0.0:9001", *peers)

    def test_a_probe_ends_with_0_only_if_the_server_serves_the_folder(self):
        line = re.search(r"with a file PROBE in the folder, `(chaosd get .*?)`", text_of("docs/OPERATING.md"))[1]
        with shell() as here:
            (files := here.here / "files").mkdir()
            (files / "PROBE").write_bytes(SOURCE)
            (here.here / "table").write_text(here.here_of("401 192.0.2.1:9001 lispm\n402 192.0.2.7:9002 self\n"))
            self.check("no server", here.run(line, here.here / "table").problems(REFUSED, b"", [b"no server listens at "]))
            self.check_serves(here, "chaosd serve 401 192.0.2.1:9001 files 402=192.0.2.7:9002", "host 401")
            self.check(f"$ {line}", here.run(line, here.here / "table").problems(DONE, b"", b""))
            files.rename(here.here / "away")
            self.check("the folder is away", here.run(line, here.here / "table").problems(REFUSED, b"", [b"PROBE: STF Store fault."]))

    def test_a_server_says_that_it_is_there(self):
        line = re.search(r"`(echo \| chaosd ask .*?)`", text_of("docs/OPERATING.md"))[1]
        with shell() as here:
            (here.here / "files").mkdir()
            (here.here / "table").write_text(here.here_of("401 192.0.2.1:9001 lispm\n402 192.0.2.7:9002 self\n"))
            self.check_serves(here, "chaosd serve 401 192.0.2.1:9001 files 402=192.0.2.7:9002", "host 401")
            wanted = b"it refused the connection: No server for this contact name.\n"
            self.check(f"$ {line}", here.run(line, here.here / "table").problems(REFUSED, b"no reply\n", [wanted]))

    @unittest.skipUnless(shutil.which("nft"), "nft isn't there: `apt-get install nftables` gives it")
    def test_the_lines_for_nftables_are_understood(self):
        with folder() as here:
            (here / "rules").write_text(FENCE.findall(section_of("docs/OPERATING.md", "## A firewall"))[0])
            ended = subprocess.run(["nft", "--check", "-f", here / "rules"], capture_output=True, text=True, timeout=PATIENCE)
            if "Operation not permitted" in ended.stderr:
                self.skipTest("nft checks rules for root alone")
            self.check("nft --check", [ended.stderr] if ended.returncode else [])


class Networks(Typed):
    """docs/NETWORK.md, and the line of examples/lisp/LISPM.md."""

    seconds = 10

    def serve_and_get(self, here, heading):
        """The two lines of a section: the server begins, and the client gets its file."""
        shells = [list(typed_in(it)) for it in FENCE.findall(section_of("docs/NETWORK.md", heading))]
        (serve, _), (get, _) = next(it for it in shells if it)[:2]
        (here.here / "files").mkdir()
        (here.here / "files/A.LISP").write_bytes(SOURCE)
        self.check_serves(here, serve, "host 401")
        return get

    def test_two_hosts_and_ten_hosts_copy_a_file(self):
        for heading in ["## Two hosts", "## Ten hosts"]:
            with shell() as here:
                self.check_line(here, self.serve_and_get(here, heading))
                self.check(f"{heading}: A.LISP", stored_problems(here.here / "A.LISP", SOURCE))

    def test_behind_a_bridge_a_file_is_copied_and_a_script_asked(self):
        ask = next(line for it in FENCE.findall(section_of("docs/NETWORK.md", "## Behind cbridge")) for line, _ in typed_in(it) if "chaosd ask" in line)
        refused = next(line for it in FENCE.findall(section_of("docs/NETWORK.md", "## When nothing comes")) for line, _ in typed_in(it))
        with shell() as here, bridging() as bridge:
            here.moved["192.0.2.40:42042"] = at(bridge.port)
            for address, place in [(0o401, "192.0.2.1:42042"), (0o402, "192.0.2.2:42042")]:
                bridge.add_host(address, here.port(place))
            self.check_line(here, self.serve_and_get(here, "## Behind cbridge"))
            self.check("A.LISP", stored_problems(here.here / "A.LISP", SOURCE))
            (here.here / "script").write_bytes(SCRIPT)
            self.check(f"$ {ask}", here.run(ask).problems(DONE, [b"T4 H1 CLOSE 3\n"], b""))
            wanted = b"it refused the connection: No server for this contact name.\n"
            self.check(f"$ {refused}", here.run(refused).problems(REFUSED, b"no reply\n", [wanted]))

    @unittest.skipUnless(shutil.which("xxd"), "xxd isn't there: `apt-get install xxd` gives it")
    def test_the_bytes_of_a_file_are_shown(self):
        line = re.search(r"^\$ (xxd .*)$", text_of("docs/NETWORK.md"), re.M)[1]
        with shell() as here:
            for text, _, report, total in VECTORS:
                (here.here / "datagram").write_bytes(bytes.fromhex(text))
                ended = here.run(line)
                self.check(f"$ {line}", ended.problems(DONE, [report.encode(), f"sum {total}".encode()], b""))

    def test_the_server_for_a_lisp_machine_begins(self):
        line = re.search(r"`(chaosd serve --chudp 401 0\.0\.0\.0:42043 .*?)`", text_of("examples/lisp/LISPM.md"))[1]
        with shell() as here:
            (here.here / "files").mkdir()
            self.check_serves(here, line.replace("BRIDGE", "192.0.2.40"), "to *=192.0.2.40:42042")


class Vectors(Typed):
    """The lines of examples/vectors/README.md."""

    def test_a_file_is_reported_and_captured(self):
        lines = [line for block in FENCE.findall(text_of("examples/vectors/README.md")) for line, _ in typed_in(block)]
        self.check("two lines", [] if len(lines) == 2 else lines)
        text = text_of("examples/vectors/session.txt")
        with shell() as here:
            reports = "\n\n".join(re.findall(r"^[0-9A-F]{2} .*\n((?:  .*\n)+)", text, re.M)).replace("\n\n\n", "\n\n")
            self.check_line(here, lines[0], re.sub(r"^  ", "", reports, flags=re.M))
            if not shutil.which("text2pcap"):
                self.skipTest("text2pcap isn't there: `apt-get install tshark` gives it")
            self.check(f"$ {lines[1]}", here.run(lines[1]).problems(DONE))
            held = (here.here / "session.pcap").read_bytes()
            datagrams = re.findall(r"^[0-9A-F]{2} .*$", text, re.M)
            self.check("each datagram is in the capture", [it for it in datagrams if bytes.fromhex(it) not in held])


@unittest.skipUnless(shutil.which("sbcl"), "sbcl isn't there: `apt-get install sbcl` gives it")
class Lisp(Typed):
    """The lines of examples/lisp/README.md."""

    seconds = 10

    def test_a_file_goes_there_and_back(self):
        lines = [line for line, _ in typed_in(FENCE.findall(text_of("examples/lisp/README.md"))[0])]
        self.check("a server and two clients", [] if len(lines) == 3 else lines)
        with shell() as here:
            (here.here / "files").mkdir()
            here.serve(lines[0])
            for line in lines[1:]:
                self.check(f"$ {line}", here.run(line).problems(DONE))
            hello = (ROOT / "examples/hello.file").read_bytes()
            self.check("files/hello.file and copy", stored_problems(here.here / "files/hello.file", hello) + stored_problems(here.here / "copy", hello))
