"""Reads the column "Met by" of docs/PROVED.md, which names the laws that show that the premises of a law can be met. The head of
`tools/claims` says what stands in that column."""

import re
from dataclasses import dataclass

from tables import CLAUSES, clauses_in, is_of_call, tables_of

COLUMN, NOTHING = "Met by", "nothing to meet"
# a law behind clauses of the law, or clauses of the row's own law
ITEM = re.compile(rf"(?:({CLAUSES}) of )?(\[`[\w:]+`\]\([^)#\s]+\))|({CLAUSES})")
ITEMS = re.compile(rf"(?:{ITEM.pattern})(?:(?:, | and )(?:{ITEM.pattern}))*")


def is_law(call):
    """Whether a call is a law, by its name."""
    return re.fullmatch(r"law(?:_\w+)?", call.rpartition("::")[2]) is not None


def items_of(cell):
    """The laws that a cell links, None for the row's own law, each with clauses. Gives None where the cell says something else."""
    front = cell.partition(": ")[0]
    if front == NOTHING:
        return []
    if not ITEMS.fullmatch(front):
        return None
    return [(link or None, re.findall(r"`(\w+)`", of or own)) for of, link, own in ITEM.findall(front)]


@dataclass(frozen=True)
class Row:
    """A row about a call: the line of the row, the crate and the call, the clauses that it names, and its cell of the column."""

    number: int
    key: tuple
    clauses: tuple
    cell: str


class Met:
    """The column of a page, and what is wrong with it, each with its place."""

    def __init__(self, rows, file, text):
        self.rows, self.file, self.problems = rows, file, []
        tables = [(table[0], self.read(table)) for table in tables_of(text)]
        # rows about clauses with premises
        self.premised = [row for _, found in tables for row in found if items_of(row.cell)]
        for head, found in tables:
            self.table(*head, found)

    def read(self, table):
        """The rows of a table about calls. Those whose call isn't there are left out: another check refuses them."""
        head, found = table[0][1], []
        at = head.index(COLUMN) if COLUMN in head else len(head)
        for number, cells in table:
            key, _ = self.rows.link_of(self.file, cells[1]) if is_of_call(cells) else (None, None)
            if key:
                found.append(Row(number, key, tuple(clauses_in(cells[2])), "".join(cells[at : at + 1])))
        return found

    def wrong(self, number, problem):
        self.problems.append((self.file, number, problem))

    def table(self, number, head, found):
        """Holds the rows of a table, whose head stands in this line, against the rules."""
        laws = [it for it in found if is_law(it.key[1])]
        if COLUMN in head and found and not laws:
            self.wrong(number, f"the table has a column {COLUMN}, and no row of a law")
        for row in found:
            call = row.key[1]
            if row not in laws and row.cell:
                self.wrong(row.number, f"`{call}` is no law, so nothing stands in its row below {COLUMN}")
            elif row in laws and COLUMN not in head:
                self.wrong(row.number, f"`{call}` is a law, and the table has no column {COLUMN}")
            elif row in laws:
                self.law(row)

    def law(self, row):
        """Holds what the row of a law says against the rules."""
        items = items_of(row.cell)
        if items is None:
            self.wrong(row.number, f"no law shows that the premises of `{row.key[1]}` can be met: link a law, or write {NOTHING}")
        for link, names in items or ():
            if link:
                self.other(row, link, names)
            else:
                self.own(row, names)

    def own(self, row, names):
        """Holds clauses by which a law meets its other clauses against the rules."""
        self.rows.note((self.file, row.number), *row.key, names)
        if set(row.clauses) <= set(names):
            self.wrong(row.number, f"`{row.key[1]}` isn't met by the clause that the row is about: name another clause")

    def other(self, row, link, names):
        """Holds a law that a row links, with the clauses that the row names of the linked law, against the rules."""
        key, problem = self.rows.link_of(self.file, link)
        call, every = row.key[1], self.rows.sources.contracts(*key) if key else []
        names = names or [clause.name for it in every for clause in it.ensures()]
        if problem:
            self.wrong(row.number, problem)
        elif not is_law(key[1]):
            self.wrong(row.number, f"`{call}` is met by `{key[1]}`, which is no law")
        elif key == row.key:
            self.wrong(row.number, f"`{call}` isn't met by itself: name the clause that is the example, without a link")
        elif any(it.key == key and (None in names or set(it.clauses) & set(names)) for it in self.premised):
            self.wrong(row.number, f"`{call}` is met by `{key[1]}`, whose own premises have to be met")
        else:
            self.rows.note((self.file, row.number), *key, names)
