"""Reads and writes docs/pages.txt, and holds pages and their lines against the rules. The head of `tools/words` describes a line."""

import re
import subprocess
from dataclasses import dataclass

from prose import Page

NUMBERS = "docs/pages.txt"
STEP, ROOM = 50, 100  # numbers are multiples of STEP, and a page has less than ROOM words below its number
AVERAGE, LONGEST = 20, 35
REASON = 3  # words that a reason has at least
LINE = re.compile(r" *(\d+) +(\S+)(?: +< (\S.*?))? *")
HEAD = """\
# The most words that each page may have, and behind `<` the pages that shrank when it grew, or the reason. The head of tools/words
# describes a line. Change the lines by `tools/words --set`.
"""


class BadLine(Exception):
    """A line of docs/pages.txt that can't be read."""


@dataclass(frozen=True)
class Line:
    """How many words a page may have, and what is behind `<`."""

    most: int
    why: str = ""

    def written(self, name):
        return "  ".join([f"{self.most:6}", f"{name:34}", f"< {self.why}" if self.why else ""]).rstrip()


def pages_of(top):
    """All pages that are there, but those that git ignores."""
    words = ["git", "ls-files", "-z", "--cached", "--others", "--exclude-standard", "*.md"]
    said = subprocess.run(words, cwd=top, stdout=subprocess.PIPE, text=True, check=True).stdout
    names = sorted({it for it in said.split("\0") if it and (top / it).is_file()})
    return [Page(it, (top / it).read_text()) for it in names]


def read(text):
    """The lines by the names of their pages."""
    lines = {}
    for number, line in enumerate(text.split("\n"), 1):
        if not line.strip() or line.startswith("#"):
            continue
        found = LINE.fullmatch(line)
        if not found:
            raise BadLine(f"{NUMBERS}:{number}: not `NUMBER PAGE [< WHY]`")
        if found[2] in lines:
            raise BadLine(f"{NUMBERS}:{number}: a second line of {found[2]}")
        lines[found[2]] = Line(int(found[1]), found[3] or "")
    return lines


def written(lines):
    return HEAD + "".join(f"{lines[name].written(name)}\n" for name in sorted(lines))


def before(top, text):
    """The lines before their last change: those of the last commit where they were others, or None."""
    git = lambda *words: subprocess.run(["git", *words], cwd=top, stdout=subprocess.PIPE, stderr=subprocess.DEVNULL, text=True)
    for commit in git("log", "-2", "--format=%H", "--", NUMBERS).stdout.split():
        shown = git("show", f"{commit}:{NUMBERS}")
        if shown.returncode == 0 and shown.stdout != text:
            try:
                return read(shown.stdout)
            except BadLine:
                return None
    return None


def broken_rules(page):
    """What is wrong with the sentences of a page."""
    if not page.reader:
        yield "no reader in its first paragraph: `for you ..`, `for whoever ..`, `for .. who ..` or `This page is for ..`"
    if page.average > AVERAGE:
        yield f"{page.average:.1f} words a sentence, and not at most {AVERAGE}"
    if page.longest > LONGEST:
        begin = " ".join(page.sentences[page.lengths.index(page.longest)].split()[:8])
        yield f"a sentence of {page.longest} words, and not at most {LONGEST}: {begin} .."


def rounded(words):
    """The number of a page that has so many words."""
    return -(-words // STEP) * STEP


def problems_of_page(page, line):
    if not line:
        yield f"{page.name} has no line in {NUMBERS}: tools/words --set"
        return
    words = page.words
    if words > line.most:
        yield f"{page.name} has {words} words, and not at most {line.most}: cut it, or tools/words --set, and name the page that shrank"
    if words <= line.most - ROOM:
        yield f"{page.name} has {words} words, so its number is {rounded(words)} and not {line.most}: tools/words --set"
    yield from (f"{page.name} has {what}" for what in broken_rules(page))


def problems_of_growth(now, old):
    """A page grows by what the pages behind its `<` shrank, or for a reason that wasn't there before."""
    grown, shrunk = 0, set()
    for name, line in now.items():
        was, named = old.get(name, Line(0)), line.why.split(", ")
        if line.most <= was.most:
            continue
        if all(it in old for it in named):
            grown, shrunk = grown + line.most - was.most, shrunk | set(named)
        elif len(line.why.split()) < REASON or line.why == was.why:
            yield f"{name} grew by {line.most - was.most} words: write in {NUMBERS}, behind `<`, the page that shrank, or a new reason"
    fewer = sum(max(0, old[it].most - now.get(it, Line(0)).most) for it in shrunk)
    if grown > fewer:
        yield f"{', '.join(sorted(shrunk))} shrank by {fewer} words, and the pages with it behind `<` grew by {grown}"


def problems(pages, lines, old=None):
    """What is wrong with pages by their lines, and with the lines where there were others before."""
    found = [problem for page in pages for problem in problems_of_page(page, lines.get(page.name))]
    gone = [name for name in lines if name not in {page.name for page in pages}]
    found += [f"{name} isn't there, and has a line in {NUMBERS}: tools/words --set" for name in gone]
    return found if old is None else [*found, *problems_of_growth(lines, old)]


def mended(page, line):
    """The line of a page as it is now: with another number only where it must be."""
    words = page.words
    if line.most - ROOM < words <= line.most:
        return line
    return Line(rounded(words), line.why if words > line.most else "")


def lines_of(pages, lines):
    """The lines of pages as they are now."""
    return {it.name: mended(it, lines.get(it.name, Line(0))) for it in pages}
