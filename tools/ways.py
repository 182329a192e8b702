"""Reads the way from `main` to the files in docs/PROVED.md, and holds the way against the sources. The head of `tools/way` says what
a row of the way is."""

import re

from definitions import Definitions
from met import is_law
from sources import without_words
from tables import LINK, clauses_in, rows_of, section

PAGE, TITLE = "docs/PROVED.md", "From `main` to the files"
PROGRAM = "chaosd"


def calls(function, name):
    """Whether the body of a function calls a function of this name."""
    text = without_words(function.place[0].read_text())
    return bool(function.body) and re.search(rf"(?<!fn )\b{name}\s*(?:::\s*<|\()", text[slice(*function.body)]) is not None


def follows(above, step):
    """Whether the call of a row makes the call of the next row, or is the trait's function that the next one implements."""
    name, before = (it.name.rpartition("::")[2] for it in (step, above))
    implements = name == before and step.function.trait and step.function.trait == above.function.owner
    return bool(implements) or calls(above.function, name)


class Step:
    """A row of the way: its line, the call or the definition that it links, the clauses that it names, and how it leads on."""

    def __init__(self, top, number, cells):
        said, self.cell, self.leads = [*cells, "", "", ""][:3]
        link = LINK.fullmatch(said)
        self.number, self.said, self.name = number, said, link[1] if link else ""
        self.file = ((top / PAGE).parent / link[2]).resolve() if link else top
        parts = self.file.relative_to(top).parts if self.file.is_relative_to(top) and self.file.is_file() else ()
        # the crate, and `src` for a call or `specs` for a definition; nothing where the row links neither
        self.crate, self.kind = parts[1:3] if len(parts) > 3 and parts[0] == "crates" else (None, None)
        self.names = clauses_in(self.cell)
        # the function of a call, and the clauses that the row names, each with the function that has it
        self.function, self.clauses = None, []

    @property
    def key(self):
        """The definition that the row links."""
        return self.crate, self.file.stem, self.name


class Way:
    """The rows of the way, and what is wrong with them, each with the row's line."""

    def __init__(self, top, sources):
        self.sources, self.definitions, self.problems = sources, Definitions(sources), []
        part, before = section((top / PAGE).read_text(), TITLE)
        self.steps = [Step(top, before + number, cells) for number, cells in list(rows_of(part))[2:]]
        for above, step in zip([None, *self.steps], self.steps):
            self.read(step)
            self.joined(above, step)
        if not self.steps:
            self.problems.append((1, f"no table stands below {TITLE}"))
        elif not any(is_law(it.name) for it in self.steps):
            self.wrong(self.steps[-1], "the way leads to no law")

    def wrong(self, step, problem):
        self.problems.append((step.number, problem))

    def read(self, step):
        """Finds the function and the clauses of a row."""
        if step.kind not in ("src", "specs"):
            return self.wrong(step, f"{step.said} is no link to a source file or a file of specs/")
        if step.kind == "specs":
            return None
        owner, _, name = step.name.rpartition("::")
        found = self.sources.crate(step.crate).functions.get((owner or None, name), [])
        step.function = next((it for it in found if it.place[0].resolve() == step.file), None)
        if not step.function:
            return self.wrong(step, f"`{step.name}` isn't a function of {step.file.name}")
        if is_law(name) and step.function not in self.sources.public(step.crate, step.name):
            self.wrong(step, f"`{step.name}` is no public call of {step.crate}")
        return self.named(step, name)

    def named(self, step, name):
        """Finds the clauses that a row names: those of the function, or of the trait that it implements, or ghost members of its type."""
        contract = self.sources.contract(step.function, name)
        members = self.sources.crate(step.crate).members
        for it in step.names:
            member = members.get((step.function.place[0], step.function.owner, it))
            found = [(contract, clause) for clause in contract.ensures() if clause.name == it] or [(step.function, member)] * bool(member)
            step.clauses += found[:1]
            if not found:
                self.wrong(step, f"`{step.name}` has no clause {f'`{it}`' if it else 'without a name'}")
        if not step.names and (contract.ensures() or step.cell):
            self.wrong(step, f"`{step.name}` has {'' if contract.ensures() else 'no '}clauses, and the row names {step.cell or 'none'}")

    def joined(self, above, step):
        """Holds a row against the row above."""
        if not above:
            if (step.crate, step.name) != (PROGRAM, "main"):
                self.wrong(step, f"the way begins with `{step.name}`, and not with the `main` of {PROGRAM}")
        elif step.kind == "specs":
            cited = [{above.key}] if above.kind == "specs" else [self.definitions.of_clause(*it) for it in above.clauses]
            if step.key not in self.definitions.below(set().union(*cited)):
                self.wrong(step, f"nothing that the row of `{above.name}` names rests on `{step.name}`")
        elif step.function and not is_law(step.name):
            if above.kind == "specs" or is_law(above.name):
                self.wrong(step, f"`{step.name}` is no law, and stands below `{above.name}`")
            elif above.function and not follows(above, step):
                self.wrong(step, f"`{above.name}` doesn't call `{step.name}`")
