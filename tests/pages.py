"""What the pages say against the program and the sources: each command is followed by a test, and each option, message and quotation is there."""

import importlib
import pathlib
import re
import subprocess

from tests.support import PROGRAM, ROOT, Case, Checking, run

# The pages whose commands a reader types. tests/followed.txt has a line for each command.
PAGES = [
    "README.md", "docs/OPERATING.md", "docs/UPGRADING.md", "docs/NETWORK.md", "docs/LIBRARY.md", "docs/LABORATORY.md", "docs/SCRIPTS.md",
    "docs/NCP.md", "examples/lisp/README.md", "examples/lisp/LISPM.md", "examples/vectors/README.md",
]  # fmt: skip
FOLLOWED = ROOT / "tests/followed.txt"
WALKTHROUGH = ROOT / "tools/walkthrough"
FENCE = re.compile(r"^ *```.*?\n(.*?)^ *```", re.M | re.S)
# What begins a command within a sentence: a name alone, as `get`, is no command.
COMMAND = re.compile(
    r"(?:make|rt|tools/[\w-]+|out/checked/\w+|(?:bin/)?chaosd|cd|mkdir|cp|scp|install|useradd|systemctl|journalctl|ss|tcpdump|tshark"
    r"|nft|iptables|apt|sbcl|clisp|ecl|get|python3|xxd|sed|echo|sha256sum|git) \S.*"
)
# Names of things that look like a command.
NAME = re.compile(r"chaosd (?!-)[\w.]+|apt install")
SUBCOMMANDS = ["show", "lab", "filelab", "loop", "serve", "ask", "get", "put", "delete", "rename"]


def text_of(page):
    return (ROOT / page).read_text()


def commands_of(page):
    """The commands of a page, each once: those that a shell shows, and those within sentences."""
    text = text_of(page)
    shells = [line for block in FENCE.findall(text) for line in re.findall(r"^ *\$ (.*)$", block, re.M)]
    spans = [it for it in re.findall(r"`([^`\n]+)`", FENCE.sub("", text)) if COMMAND.fullmatch(it) and not NAME.fullmatch(it)]
    return list(dict.fromkeys(shells + spans))


def followed():
    """The lines of tests/followed.txt: by page, each command and what follows it."""
    found, page = {}, None
    for line in FOLLOWED.read_text().splitlines():
        if line.startswith("    "):
            command, _, by = line.strip().rpartition("  by  ")
            found[page][command] = by
        elif line and not line.startswith("#"):
            page = line
            found[page] = {}
    return found


def is_test(name):
    """Whether there is such a test, FILE.CLASS.NAME."""
    file, group, test = name.split(".")
    return (ROOT / f"tests/{file}.py").is_file() and hasattr(getattr(importlib.import_module(f"tests.{file}"), group, None), test)


class Commands(Checking):
    """Commands of pages."""

    def test_each_command_of_a_page_is_followed(self):
        there = followed()
        self.assertEqual(PAGES, list(there))
        walked = WALKTHROUGH.read_text()
        for page in PAGES:
            commands = commands_of(page)
            problems = [f"nobody follows: {it}" for it in commands if it not in there[page]]
            problems += [f"it isn't on the page: {it}" for it in there[page] if it not in commands]
            for command, by in there[page].items():
                if by.startswith("the system: "):
                    continue
                is_there = f'"{command}"' in walked or f"'{command}'" in walked or f"PAGE {page}" in walked if by == "tools/walkthrough" else is_test(by)
                problems += [] if is_there else [f"{by} isn't there, which follows: {command}"]
            self.check(page, problems)


def options_of_the_program():
    """The options of each subcommand, by its help."""
    return {it: set(re.findall(r"(?<![\w-])--[a-z][a-z-]*", run([it, "--help"]).out.decode())) for it in SUBCOMMANDS}


# Options of other programs that the pages name.
OTHERS = {"--accept", "--allow-downgrades", "--allow-holes", "--check", "--home-dir", "--now", "--script", "--shell", "--start", "--system", "--self-test", "--user-group", "--verify"}


class Options(Case):
    """Options of pages."""

    def test_each_option_of_a_page_is_the_programs(self):
        options = options_of_the_program()
        every = set().union(*options.values(), {"--version", "--help"})
        for page in [*PAGES, "docs/SECURITY.md", "docs/FILE.md", "docs/PROTOCOL.md", "CHANGELOG.md"]:
            spans = re.findall(r"`([^`\n]+)`", FENCE.sub("", text_of(page)))
            problems = [f"{it} of `{span}`" for span in spans for it in re.findall(r"(?<![\w-])--[a-z][a-z-]*", span) if it not in every | OTHERS]
            for span in [*spans, *commands_of(page)]:
                found = re.search(r"\b(?:chaosd )?(" + "|".join(SUBCOMMANDS) + r") (-.*)", span)
                if found and not re.search(r"sbcl|tshark|ladder|systemctl", span):
                    mine = options[found[1]]
                    problems += [f"{it} of `{span}`" for it in re.findall(r"(?<![\w-])--[a-z][a-z-]*", found[2]) if it not in mine | {"--help"}]
            self.check(page, problems)

    def test_each_option_of_the_help_is_in_the_manual(self):
        manual = text_of("docs/chaosd.1")
        there = {f"--{it}" for it in re.findall(r"Fl -([a-z][a-z-]*)|\\-\\-([a-z][a-z-]*)", manual) for it in it if it} | set(re.findall(r"--[a-z][a-z-]*", manual))
        missing = {f"{name} {it}" for name, mine in options_of_the_program().items() for it in mine - there - {"--help"}}
        self.check("each is there", sorted(missing))


def texts_of_the_sources():
    """The sources' texts, and the manual's, in one line each."""
    files = [it for crate in sorted((ROOT / "crates").iterdir()) for it in sorted((crate / "src").rglob("*.rt"))]
    sources = re.sub(r"\\\n\s*", "", " ".join(it.read_text() for it in files)).replace('\\"', '"')
    return sources + re.sub(r"\s+", " ", text_of("docs/chaosd.1"))


# What a message has in the place of a number, a name or an address; and what the system says.
HOLE = re.compile(r"\.\.|a\.b\.c\.d:port|\b(?:NAME|FOLDER|FILE|UDP)\b|\b\d{1,3}\b|\d+\.\d+\.\d+\.\d+(?::\d+)?|'\*'|\*|: ")
OF_THE_SYSTEM = ["Address already in use", "Permission denied"]
MESSAGES = re.compile(r"^\| (?:Message|What it reports|Line)[^\n]*\n\|[-|]+\n((?:\|.*\n)+)", re.M)


def messages_of(page):
    """The messages of a page's tables, in their first columns."""
    for table in MESSAGES.findall(text_of(page)):
        for row in table.splitlines():
            yield from re.findall(r"`([^`]+)`", re.match(r"\|((?:`[^`]*`|[^|`])*)\|", row)[1])


class Messages(Checking):
    """Messages of pages."""

    def test_each_message_of_a_table_is_one_of_the_sources(self):
        texts = texts_of_the_sources()
        for page in ["docs/OPERATING.md", "docs/NETWORK.md"]:
            messages = list(messages_of(page))
            pieces = [(message, it.strip(" :,=;'")) for message in messages for it in HOLE.split(message)]
            wrong = [f"{piece!r} of `{message}`" for message, piece in pieces if len(piece) > 3 and piece not in [*OF_THE_SYSTEM] and piece not in texts]
            self.check(page, wrong if messages else ["it has no messages"])


def plain(text):
    return re.sub(r"\s+", " ", text).strip()


class Quotations(Checking):
    """What pages quote of other files, and what they compute."""

    def test_the_readme_has_the_table_of_the_example(self):
        table = re.sub(r"^#.*\n", "", text_of("examples/client.hosts"), flags=re.M)
        self.check("examples/client.hosts", [] if f"```text\n{table}```" in text_of("README.md") else ["README has other lines"])

    def test_the_readme_has_the_clauses_of_the_sources(self):
        section = text_of("README.md").partition("\n## The headline\n")[2].partition("\n## ")[0]
        blocks = [plain(it) for it in FENCE.findall(section)]
        files = [pathlib.Path(it) for it in re.findall(r"\]\((crates/[^)#]+\.(?:rt|antt))\)", section)]
        sources = [plain(text_of(it)) for it in files]
        self.check("each block", [it for it in blocks if not any(it in source for source in sources)] if len(blocks) == 2 else [f"{len(blocks)} blocks"])

    def test_the_pages_on_proofs_have_the_lines_of_the_sources(self):
        """Each line of a definition or a contract that a page shows stands in crates/, but for its margin and `pub`."""
        files = [it for form in ("specs/**/*.antt", "src/**/*.rt") for it in sorted((ROOT / "crates").glob(f"*/{form}"))]
        there = plain(" ".join(it.read_text() for it in files)).replace("pub ", "")
        for page in ["docs/PROVED.md", "docs/READING_PROOFS.md"]:
            lines = [plain(line) for block in FENCE.findall(text_of(page)) for line in block.splitlines() if re.search("[≡→]|ensures|requires", line)]
            self.check(page, [it for it in lines if it.replace("pub ", "") not in there] if len(lines) > 1 else [str(lines)])

    def test_each_example_is_named_by_a_page(self):
        pages = " ".join(text_of(it) for it in [*PAGES, "docs/PROTOCOL.md"])
        files = [it for it in sorted((ROOT / "examples").rglob("*")) if it.is_file() and "__pycache__" not in it.parts]
        wrong = [str(it) for it in files if it.name != "README.md" and it.name not in pages and f"`{it.stem}`" not in pages and f"{it.stem}." not in pages]
        self.check("each file", wrong if len(files) > 30 else [f"{len(files)} files"])

    def test_addresses_are_their_subnets_and_hosts(self):
        found = re.findall(r"\b(\d+) is host (\d+) of subnet (\d+)", text_of("docs/NETWORK.md") + text_of("README.md"))
        wrong = [f"{it[0]} isn't host {it[1]} of subnet {it[2]}" for it in found if int(it[0], 8) != int(it[2], 8) * 0o400 + int(it[1], 8)]
        self.check("octal", wrong if len(found) > 2 else [str(found)])

    def test_the_version_of_the_pages_is_the_programs(self):
        said = subprocess.run([ROOT / "tools/version"], stdout=subprocess.PIPE, text=True)
        self.check("each place", said.stdout.splitlines() if said.returncode else [])
        if PROGRAM.is_file():
            number = said.stdout.split()[1]
            told = run(["--version"]).out.decode().split("\n")[0]
            self.check("and the program's own", [] if told == f"chaosd {number}" else [told])
