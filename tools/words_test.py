"""Tests of tools/words, which `tools/words --self-test` runs: what a sentence and a reader are, and what is refused, by tables."""

import pathlib
import subprocess
import tempfile

from checks import Checks
from pages import NUMBERS, BadLine, before, lines_of, pages_of, problems, read, written
from prose import Page, paragraphs, sentences

# a text, and its sentences
SENTENCES = [
    ("It runs well. Then it\nends.", ["It runs well.", "Then it ends."]),
    ("Two words. It is so.", ["It is so."]),
    ("# A heading here\nIt is so.\n\n## Another heading here", ["It is so."]),
    ("It is:\n- one item here\n- another item here,\n  and more\n1. a first one", [
        "one item here", "another item here, and more", "a first one",
    ]),
    ("> A quoted line\n> goes on here.", ["A quoted line goes on here."]),
    ("It is so.\n\n| a b c | d e f |\n|---|---|\n| g h i | j k l |\n\nThen it ends.", ["It is so.", "Then it ends."]),
    ("| a b c | d e f |\n\nIt is so.\n\n---\nThen it ends.\n---", ["It is so.", "Then it ends."]),
    ("It is so:\na b c|d e f\n---|---\ng h i|j k l", ["It is so:"]),
    ("It is so.\n\n```\na b c d\n\ne f g h\n```\n\n- An item is:\n\n  ```text\n  a b c d\n  ```\n", ["It is so.", "An item is:"]),
    ("<!-- written by a tool -->\nIt is so.\n\n![A picture of it](a/b.svg)", ["It is so."]),
    ("See [the other page](a.md#b-c) for it.", ["See the other page for it."]),
    ("Run `a. B c. D`. It ends with `..` then.", ["Run `a. B c. D`.", "It ends with `..` then."]),
    ("**It is so.** \"Is it so?\" It runs .. and e.g. Ends. chaosd ends, too.", [
        "**It is so.**", "\"Is it so?\"", "It runs .. and e.g. Ends.", "chaosd ends, too.",
    ]),
    ("It takes 1.5 s. 2 hosts run it.", ["It takes 1.5 s.", "2 hosts run it."]),
]

# a page, and whom it is for
READERS = [
    ("# A\n\nFor whoever runs a server. More.", "whoever runs a server"),
    ("# Networks, for anyone who restores a Lisp machine\n\nMore of it.", "anyone who restores a Lisp machine"),
    ("# A\n\nThis page is for operators of Linux: they run it.", "operators of Linux"),
    ("# A\n\nIt shows all\nfor you who\nwrite it.", "you who write it"),
    ("For a reader who knows Agda.", "a reader who knows Agda"),
    ("# A\n\nIt shows all for you.", "you"),
    ("# A\n\n![A picture for you](a.svg)\n\n```\nfor you\n```\n\nFor programmers who wait.", "programmers who wait"),
    ("# A\n\nFor the options see `--help`. It is for a program, and who runs it knows.", None),
    ("It is for a program that runs on each of two hosts and those who run it.", None),
    ("# A\n\nWhat it is.\n\nFor whoever comes too late.", None),
    ("# A\n\n## For whoever reads headings", None),
    ("", None),
]

READER = "# A\n\nFor whoever reads.\n\n"  # 5 words, 3 of them a sentence
TWENTY, LONG = " ".join(["w"] * 20) + ".", " ".join(["w"] * 36) + "."
WORDS = READER + "\n\n".join(["| w |"] * 50) + "\n"  # 155 words
NO_READER = "no reader in its first paragraph: `for you ..`, `for whoever ..`, `for .. who ..` or `This page is for ..`"
LONG_ONE = "a sentence of 36 words, and not at most 35: w w w w w w w w .."
GREW = f"a.md grew by 50 words: write in {NUMBERS}, behind `<`, the page that shrank, or a new reason"

# a page, the line of it, what is wrong with the page, and the line that `--set` writes
PAGES = [
    ("a.md", WORDS, "200 a.md", [], None),
    ("a.md", WORDS, "155 a.md", [], None),
    ("a.md", WORDS, "254 a.md", [], None),
    ("a.md", WORDS, "154 a.md < b.md", [
        "a.md has 155 words, and not at most 154: cut it, or tools/words --set, and name the page that shrank",
    ], "200 a.md < b.md"),
    ("a.md", WORDS, "255 a.md < b.md", ["a.md has 155 words, so its number is 200 and not 255: tools/words --set"], "200 a.md"),
    ("a.md", WORDS, "", [f"a.md has no line in {NUMBERS}: tools/words --set"], "200 a.md"),
    ("b.md", READER, "50 b.md\n200 a.md", [f"a.md isn't there, and has a line in {NUMBERS}: tools/words --set"], "50 b.md"),
    ("a.md", "# A\n\nIt is so.", "50 a.md", [f"a.md has {NO_READER}"], None),
    ("a.md", READER + TWENTY, "50 a.md", [], None),
    ("a.md", READER + LONG, "50 a.md", [f"a.md has {LONG_ONE}"], None),
    ("a.md", f"{READER}{LONG} {LONG}", "100 a.md", ["a.md has 25.0 words a sentence, and not at most 20", f"a.md has {LONG_ONE}"], None),
]

# lines, the lines before, and what is wrong with the change
CHANGES = [
    ("100 a.md\n100 b.md", "100 a.md\n100 b.md", []),
    ("50 a.md\n100 b.md", "100 a.md\n100 b.md", []),
    ("150 a.md\n100 b.md", "100 a.md\n100 b.md", [GREW]),
    ("150 a.md < b.md\n50 b.md", "100 a.md\n100 b.md", []),
    ("150 a.md < b.md\n100 b.md", "100 a.md\n100 b.md", ["b.md shrank by 0 words, and the pages with it behind `<` grew by 50"]),
    ("150 a.md < a.md\n50 b.md", "100 a.md\n100 b.md", ["a.md shrank by 0 words, and the pages with it behind `<` grew by 50"]),
    ("200 a.md < b.md, c.md", "100 a.md\n50 b.md\n50 c.md", []),
    ("150 a.md < c.md\n150 b.md < c.md\n50 c.md", "100 a.md\n100 b.md\n100 c.md", [
        "c.md shrank by 50 words, and the pages with it behind `<` grew by 100",
    ]),
    ("150 a.md < c.mx", "100 a.md", [GREW]),
    ("150 a.md < bridges are new", "100 a.md", []),
    ("150 a.md < bridges are new", "100 a.md < bridges are new", [GREW]),
    ("150 a.md < bridges are new", "150 a.md < bridges are new", []),
    ("100 b.md\n50 a.md", "100 b.md", [GREW]),
    ("50 a.md < b.md\n50 b.md", "100 b.md", []),
]

# lines that can't be read
BAD = ["a.md 50", "50", "50 a.md b.md", "50 a.md later", "50 a.md <", "50 a.md\n50 a.md"]


def check_text(checks):
    for text, wanted in SENTENCES:
        checks.same(f"the sentences of {text[:30]!r}", [it for each in paragraphs(text) for it in sentences(each)], wanted)
    for text, wanted in READERS:
        checks.same(f"the reader is {wanted}", Page("a.md", text).reader, wanted)


def check_pages(checks):
    for name, text, lines, wanted, is_set in PAGES:
        pages = [Page(name, text)]
        seen = [*problems(pages, read(lines))]
        checks.same(f"{name} by {lines!r} is {'refused' if wanted else 'passed'}", seen, wanted)
        seen = lines_of(pages, read(lines))
        checks.same("and --set writes its line", seen, read(lines if is_set is None else is_set))


def check_changes(checks):
    for now, old, wanted in CHANGES:
        pages = [Page(name, "w " * line.most) for name, line in read(now).items()]
        seen = problems(pages, read(now), read(old))[len(problems(pages, read(now))) :]
        checks.same(f"{now!r} for {old!r} is {'refused' if wanted else 'passed'}", seen, wanted)


def check_lines(checks):
    """Lines are read as they are written."""
    for text in BAD:
        try:
            seen = read(text)
        except BadLine as fault:
            seen = str(fault).partition(" ")[0]
        checks.same(f"{text!r} can't be read", seen, f"{NUMBERS}:{len(text.splitlines())}:")
    lines = read("1000 a.md < b.md\n50 b.md\n50 crates/x/CALLING.md < it is new")
    checks.same("lines are written as they are read", read(written(lines)), lines)


def check_history(checks):
    """The lines before are those of the last commit where they were others. All pages are counted, but those that git ignores."""
    with tempfile.TemporaryDirectory() as folder:
        top = pathlib.Path(folder).resolve()
        git = lambda *words: subprocess.run(["git", "-c", "user.name=a", "-c", "user.email=a@b", *words], cwd=top, check=True)
        git("init", "-q")
        file = top / NUMBERS
        file.parent.mkdir()
        seen = [before(top, "")]
        for text in "50 a.md", "100 a.md", "150 a.md":
            file.write_text(text)
            seen.append(before(top, text))
            git("add", ".")
            git("commit", "-q", "-m", text)
            git("commit", "-q", "--allow-empty", "-m", "other")
            seen.append(before(top, text))
        first, second = read("50 a.md"), read("100 a.md")
        checks.same("the lines before their last change", seen, [None, None, None, first, first, second, second])
        for name, text in (".gitignore", "out/"), ("docs/new.md", "It is so."), ("out/built.md", "It is so."), ("new.txt", "It is so."):
            (top / name).parent.mkdir(exist_ok=True)
            (top / name).write_text(text)
        checks.same("a new page is counted", pages_of(top), [Page("docs/new.md", "It is so.")])


def self_test():
    """Shows what is counted, and that what is right passes and each wrong page, line and change is refused."""
    checks = Checks()
    check_text(checks)
    check_pages(checks)
    check_changes(checks)
    check_lines(checks)
    check_history(checks)
    print(f"{checks.all} checks of tools/words, {checks.failed} failed")
    return 1 if checks.failed else 0
