"""Reads the tables of a page (.md), and the cells that link calls and name clauses."""

import re

UNNAMED = "its one clause"
CALL = r"`((?:\w+::)?\w+)`"
LINK = re.compile(rf"\[{CALL}\]\(([^)#\s]+)\)")
CLAUSES = r"`\w+`(?:(?:, | and )`\w+`)*"
ROW = re.compile(rf"\[?{CALL}")


def clauses_in(cell):
    """The clauses that a cell names, None for the one without a name; or nothing where it says something else."""
    if cell.replace("`", "") == UNNAMED:
        return [None]
    return re.findall(r"`(\w+)`", cell) if re.fullmatch(r"`\w+`(?:\s*,\s*`\w+`)*", cell) else []


def rows_of(text):
    """The rows of the tables of a document, each as the number of its line and its cells. A bar within backquotes divides nothing."""
    for number, line in enumerate(text.split("\n"), 1):
        if line.startswith("|"):
            yield number, [it.strip() for it in re.findall(r"((?:`[^`]*`|\\\||[^|`])*)\|", line.strip()[1:])]


def tables_of(text):
    """The tables of a document, each as its rows, of which the first is its head."""
    tables = []
    for number, cells in rows_of(text):
        if not tables or tables[-1][-1][0] != number - 1:
            tables.append([])
        tables[-1].append((number, cells))
    return tables


def is_of_call(cells):
    """Whether a row is about a call, which its second cell names or links."""
    return len(cells) > 2 and ROW.match(cells[1]) is not None


def section(text, title):
    """The section of a document below this heading, and how many lines stand before the section."""
    before, _, rest = text.partition(f"\n## {title}\n")
    return rest.partition("\n## ")[0], before.count("\n") + 2


def without_rows(text, title):
    """The document with empty lines in place of the rows of a section."""
    part, _ = section(text, title)
    return text.replace(part, re.sub(r"^\|.*$", "", part, flags=re.M)) if part else text
