"""Reads the rows of README.md, docs/PROVED.md and docs/TRUST.md, and holds them against the sources and crates.txt. The head of
`tools/claims` says what a row is."""

import re

from definitions import Definitions, sum_of
from met import Met, is_law
from sources import without_words
from tables import CALL, CLAUSES, LINK, UNNAMED, clauses_in, is_of_call, rows_of, section, without_rows
from ways import PROGRAM, TITLE

DOCUMENTS = "README.md", "docs/PROVED.md"
SUMS = "docs/proved.sums"
TRUST, CRATES = "docs/TRUST.md", "crates.txt"
MUST_READ, BELOW, OF_PROGRAM = "What you must read to believe it", "Below the code", "The program"
NAMED = re.compile(rf"({CLAUSES}) of {CALL}")
ACCEPT = "then tools/claims --accept"


def crates_in(top):
    """The lines of crates.txt: the number of each, its crate, and what the crate stands on."""
    for number, line in enumerate((top / CRATES).read_text().split("\n"), 1):
        name, _, below = line.partition("#")[0].partition(":")
        if name.strip():
            yield number, name.split()[0], below.split()


def unnamed_libraries(top):
    """The libraries of crates.txt that are no crates here, and that no row of docs/TRUST.md names, each with its first place."""
    rows = rows_of(section((top / TRUST).read_text(), BELOW)[0])
    named = {name for _, cells in rows for name in re.findall(r"`(\w+)`", "".join(cells[:1]))}
    for number, _, below in crates_in(top):
        for name in below:
            if name not in named and not (top / "crates" / name).is_dir():
                named.add(name)
                yield top / CRATES, number, f"no row of {TRUST}, {BELOW}, names the library {name}"


def with_all_below(top, below):
    """This name and all names below it, so far as `below` has a list for them."""
    found, left = set(), [top]
    while left:
        name = left.pop()
        if name in below and name not in found:
            found.add(name)
            left += below[name]
    return found


class Rows:
    """The rows of the documents that name calls and clauses which are there, and what is wrong with others, each with its place."""

    def __init__(self, top, sources):
        self.top, self.sources, self.definitions = top, sources, Definitions(sources)
        # by crate and call: the places of its rows, and the clauses that these name
        self.places, self.names, self.problems = {}, {}, []
        # the rows of the table of files to read: place, crate, call, and the files, each as a crate and a name
        self.order = []
        # what is wrong with the column of what meets laws
        self.unmet = []
        for file in (top / it for it in DOCUMENTS if (top / it).is_file()):
            text = without_rows(file.read_text(), TITLE)
            for number, cells in rows_of(text):
                if is_of_call(cells):
                    self.row((file, number), cells)
            self.named(file, text)
            self.listed(file, text)
            self.unmet += Met(self, file, text).problems if file == top / DOCUMENTS[-1] else []

    def wrong(self, place, problem):
        self.problems.append((*place, problem))

    def row(self, place, cells):
        """Notes a row of a table, whose second cell is a link to the source file of a call, or what is wrong with it."""
        linked, names = self.linked(place, cells[1]), clauses_in(cells[2])
        if linked and not names:
            self.wrong(place, f"no clauses: {cells[2] or 'nothing'}; write `name`, `name`, or {UNNAMED}")
        elif linked:
            self.note(place, *linked, names)

    def link_of(self, page, cell):
        """The crate and the call that a cell of a page links to the call's source file, and what is wrong where the cell doesn't."""
        link = LINK.fullmatch(cell)
        file = (page.parent / link[2]).resolve() if link else self.top
        parts = file.relative_to(self.top).parts if file.is_relative_to(self.top) else ()
        if len(parts) < 4 or parts[0] != "crates" or parts[2] != "src" or not file.is_file():
            return None, f"{cell} is no link to the source file of a call"
        crate, call = parts[1], link[1]
        stands = [it.place[0].resolve() for it in self.sources.public(crate, call)]
        if file not in stands:
            return None, f"`{call}` {f'stands in {stands[0].relative_to(self.top)}' if stands else f'is no public call of {crate}'}"
        return (crate, call), None

    def linked(self, place, cell):
        """The crate and the call that a cell links. Notes what is wrong where the cell doesn't, and gives None."""
        key, problem = self.link_of(place[0], cell)
        if problem:
            self.wrong(place, problem)
        return key

    def listed(self, file, text):
        """Notes the rows of the table of files to read, behind its head: a link to a call, and files as `CRATE: NAME, NAME; CRATE: ..`."""
        part, before = section(text, MUST_READ)
        for number, cells in list(rows_of(part))[2:]:
            place = file, before + number
            call, read = [*cells, "", ""][:2]
            of_crates = [it.partition(":") for it in read.split(";")]
            files = {(crate.strip(), name.strip()) for crate, _, names in of_crates for name in names.split(",")}
            if linked := self.linked(place, call):
                self.order.append((place, *linked, files))

    def note(self, place, crate, call, names):
        """Notes what a row says, or which clauses are missing."""
        contracts = self.sources.contracts(crate, call)
        there = {clause.name for each in contracts for clause in each.ensures()}
        # where the one clause has no name and says that a record holds, its fields count as clauses
        fields = {name for each in contracts for clause in each.ensures() if there == {None} for name in self.definitions.fields(each, clause)}
        for name in names:
            if name not in there | fields:
                self.wrong(place, f"`{call}` has no clause {f'`{name}`' if name else 'without a name'}")
        if None in names and len(there) > 1:
            self.wrong(place, f"`{call}` has other clauses than one")
        self.places.setdefault((crate, call), []).append(place)
        self.names.setdefault((crate, call), set()).update(None if name in fields else name for name in names)

    def named(self, file, text):
        """Holds what a text says beside its tables: `CLAUSE` of `CALL` names clauses, and `Type::function` and `law_..` public calls."""
        place = lambda found: (file, text.count("\n", 0, found.start()) + 1)
        owners = lambda call: [it for it in self.sources.names() if self.sources.public(it, call)]
        for found in NAMED.finditer(text):
            for crate in owners(found[2]):
                self.note(place(found), crate, found[2], re.findall(r"`(\w+)`", found[1]))
            if not owners(found[2]):
                self.wrong(place(found), f"`{found[2]}` is no public call")
        for found in re.finditer(r"(?<! of )`(\w+::\w+|law_\w+)`", text):
            if found[1].partition("::")[0] not in self.sources.names() and not owners(found[1]):
                self.wrong(place(found), f"`{found[1]}` is no public call")

    def clauses(self, crate, call):
        """What a call requires, and the clauses of it that rows name, each with its function."""
        is_meant = lambda clause: clause.word == "requires" or clause.name in self.names[crate, call]
        return [(each, clause) for each in self.sources.contracts(crate, call) for clause in each.clauses if is_meant(clause)]

    def must_read(self):
        """The rows of the table of files to read that don't have just the files of the definitions which no row above rests on."""
        if not self.order:
            yield self.top / DOCUMENTS[-1], 1, f"no table stands below {MUST_READ}"
        seen = set()
        for place, crate, call, files in self.order:
            contracts = self.sources.contracts(crate, call)
            cited = set().union(*(self.definitions.of_clause(each, clause) for each in contracts for clause in each.clauses))
            below = set(self.definitions.below(cited))
            new, seen = {key[:2] for key in below - seen}, seen | below
            for it in sorted(new ^ files):
                yield *place, f"the row of `{call}` {'leaves out' if it in new else 'adds no definition of'} {': '.join(it)}"

    def called(self):
        """The names of all functions to which a chain of names leads from the program's `main`. Functions of one name count as one, so a
        function that nothing calls may be among them."""
        below = {crate: names for _, crate, names in crates_in(self.top)}
        functions = [it for crate in with_all_below(PROGRAM, below) for it in self.sources.crate(crate).functions.items()]
        words, texts = {}, {}
        for name, each in ((name, it) for (_, name), found in functions for it in found if it.body):
            file = each.place[0]
            texts[file] = texts.get(file) or without_words(file.read_text())
            words.setdefault(name, set()).update(re.findall(r"\w+", texts[file][slice(*each.body)]))
        return with_all_below("main", words)

    def uncalled(self):
        """The rows about the program whose call the program never makes, but those that say what the call wraps, by themselves or by "the
        same" as the row above. No program calls a law."""
        part, before = section((self.top / DOCUMENTS[-1]).read_text(), OF_PROGRAM)
        rows = [(number, cells, LINK.fullmatch(cells[1])) for number, cells in rows_of(part) if len(cells) > 2]
        called, rests = self.called() if rows else set(), ""
        for number, cells, link in rows:
            said = "".join(cells[3:4])
            rests = rests if said.startswith("the same") else said
            name = link[1].rpartition("::")[2] if link else ""
            if link and not is_law(name) and name not in called and not re.search(r"\bwraps\b", rests):
                yield self.top / DOCUMENTS[-1], before + number, f"{PROGRAM} never calls `{link[1]}`, and the row doesn't say what that call wraps"

    def sums(self):
        """The sums of the clauses of each call, and, behind `-`, of all definitions of each crate that these rest on."""
        sums, cited = {}, set()
        for key in self.names:
            clauses = self.clauses(*key)
            sums[key] = sum_of(word for _, clause in clauses for word in (clause.word, *clause.text.split()))
            cited = cited.union(*(self.definitions.of_clause(*it) for it in clauses))
        below = self.definitions.below(cited)
        for crate in {key[0] for key in below}:
            sums[crate, "-"] = sum_of(word for key in sorted(below) if key[0] == crate for word in (*key, *below[key].words))
        return sums

    def unread(self):
        """The rows whose clauses changed since they were read, and the crates whose definitions did."""
        file = self.top / SUMS
        noted = {tuple(it.split()[:2]): it.split()[2:] for it in file.read_text().splitlines()} if file.is_file() else {}
        sums = self.sums()
        for key in sorted(sums):
            if noted.get(key) == [sums[key]]:
                continue
            for place in self.places.get(key, ()):
                yield *place, f"a clause of `{key[1]}` changed since this row was read: read both, {ACCEPT}"
            if key[1] == "-":
                yield file, 1, f"definitions of {key[0]} changed on which rows rest: read the rows on them, {ACCEPT}"
        if gone := noted.keys() - sums.keys():
            yield file, 1, f"no row is about {', '.join(' '.join(it) for it in sorted(gone))} any more: tools/claims --accept"

    def accept(self):
        """Notes that each row was read beside its clauses as they are now. Gives how many sums that took."""
        sums = self.sums()
        (self.top / SUMS).write_text("".join(f"{crate} {call} {sums[crate, call]}\n" for crate, call in sorted(sums)))
        return len(sums)
