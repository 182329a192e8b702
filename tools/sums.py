"""Sums of what the refusal of a wrong body rests on, and of its own text.

A wrong body of one function is refused since it breaks that function's contract. So its refusal rests on the function, on the contracts
of the functions that the body names, on the bodies of those that ensure nothing, and on the definitions, types and constants that all of
these cite, with all that they stand on. A proof or a lemma changes nothing of that. What changes a definition, a type, a constant, or a
function that ensures nothing may be seen by the whole crate: then the sum is of all that the proof of the crate reads.

Only words count, so neither a comment nor a layout changes a sum. The kit isn't in it: with another kit all are to be tried again.
"""

import re

from definitions import Definitions, sum_of
from sources import Clause, Sources, without_comments

COMMENT = re.compile(r"--(?=\s|-|$)[^\n]*")
NAME = re.compile(r"[A-Za-z_][\w']*")
PARTS = ("src", "specs", "proofs")
# stands for the clauses of a function that has none, whose parameters have types all the same
NO_CLAUSE = Clause("ensures", None, "")


def words_of(file):
    """The words of a source or a definition, without its comments."""
    text = file.read_text()
    return (COMMENT.sub("", text) if file.suffix == ".antt" else without_comments(text)).split()


def files_of(folder, parts):
    """The files of these parts of a crate, in order."""
    return sorted(it for part in parts for it in (folder / part).rglob("*") if it.suffix in (".rt", ".antt"))


def words_below(folder, parts):
    """The words of all files of these parts of a crate, each behind its name."""
    return [word for file in files_of(folder, parts) for word in (str(file.relative_to(folder)), *words_of(file))]


def words_of_contract(crate, called, function):
    """The words of a function's contract, behind whose it is."""
    clauses = (word for each in function.clauses for word in each.text.split())
    return [crate, called, function.owner or "", function.trait or "", *function.head.split(), *clauses]


class Sums:
    """The sums of a repository's crates and of their wrong bodies, as they are when each is first asked for."""

    def __init__(self, top):
        self.sources = Sources(top)
        lines = [it.partition("#")[0] for it in (top / "crates.txt").read_text().split("\n")]
        self.below = {it.partition(":")[0].split()[0]: it.partition(":")[2].split() for it in lines if it.strip()}
        self.definitions = Definitions(self.sources)
        self.crates, self.reads, self.functions, self.texts, self.plain, self.sums = {}, {}, {}, {}, {}, {}

    def all_below(self, crate):
        """The crates of this repository that a crate stands on."""
        found = {it for it in self.below.get(crate, []) if it in self.below}
        return found.union(*(self.all_below(it) for it in found))

    def cited(self, name):
        """The definitions of any crate that the files of a crate cite, by their names."""
        folder, found = self.sources.folder / name, set()
        for file in files_of(folder, PARTS):
            text = file.read_text() if file.suffix == ".antt" else without_comments(file.read_text())
            names, short = self.definitions.uses(text)
            named = self.definitions.type_named(name, text)
            found |= set(names.values()) | {named(word) for word in set(NAME.findall(text))} - {None}
            for key in short.values():
                module = self.definitions.module(*key[:2]) if len(key) == 2 and key[1] != "src" else None
                found |= {(*key, each) for each in module.texts} if module else {key} if len(key) == 3 else set()
        return {self.definitions.whole(key) for key in found}

    def named_below(self, name, words, types):
        """The public functions of the crates below a crate that have one of these names, and no owner, or one of these types or a trait."""
        for crate in sorted(self.all_below(name)):
            read = self.sources.crate(crate)
            for (owner, called), functions in sorted(read.functions.items(), key=str):
                if called in words and (owner is None or owner in types or owner in read.traits):
                    yield from ((crate, called, it) for it in functions if it.is_public)

    def of_clauses(self, functions):
        """The definitions that the clauses of functions cite, and the types of their parameters."""
        return {key for _, _, it in functions for clause in it.clauses or [NO_CLAUSE] for key in self.definitions.of_clause(it, clause)}

    def read_below(self, name):
        """What the proof of a crate reads of those below it: contracts, and definitions by their names."""
        if name not in self.reads:
            words = {word for file in files_of(self.sources.folder / name, PARTS) for word in NAME.findall(" ".join(words_of(file)))}
            reached, functions, found = self.definitions.below(self.cited(name)), None, []
            while functions is None or len(found) != len(functions):
                functions, types = found, {key[2] for key in reached if key[1] == "src"}
                found = list(self.named_below(name, words, types))
                reached |= self.definitions.below(self.of_clauses(found) - reached.keys())
            self.reads[name] = found, reached
        return self.reads[name]

    def of_crate(self, name):
        """The words of all that the proof of a crate reads."""
        if name not in self.crates:
            functions, reached = self.read_below(name)
            words = words_below(self.sources.folder / name, PARTS)
            for each in functions:
                words += words_of_contract(*each)
            for key in sorted(reached):
                words += [*key, *reached[key].words]
            self.crates[name] = words
        return self.crates[name]

    def texts_of(self, crate):
        """The texts of a crate's sources, by their paths."""
        if crate not in self.texts:
            folder = self.sources.folder / crate
            self.texts[crate] = {str(it.relative_to(folder)): it.read_text() for it in files_of(folder, PARTS)}
        return self.texts[crate]

    def body(self, crate, function):
        """The text of a function without its comments: its head, its clauses and its body."""
        file, line = function.place
        if file not in self.plain:
            self.plain[file] = without_comments(file.read_text())
        text = self.plain[file]
        first = sum(len(it) + 1 for it in text.split("\n")[: line - 1])
        return text[first : function.body[1]]

    def seen_bodies(self, crate, name, function):
        """A function of a crate, and those that it names and that ensure nothing, whose bodies others see, and so on: each with its name."""
        seen, left = [], [(name, function)]
        own = self.sources.crate(crate).functions
        while left:
            each = left.pop()
            if each in seen:
                continue
            seen.append(each)
            words = set(NAME.findall(self.body(crate, each[1])))
            left += [(called, it) for (_, called), found in own.items() if called in words for it in found if it.body and not it.ensures()]
        return seen

    def types_named(self, keys):
        """These types, and those that their declarations name: a body sees fields, and the fields of fields."""
        found, left = set(), [it for it in keys if it[1] == "src"]
        while left:
            key = left.pop()
            if key in found:
                continue
            found.add(key)
            for file, text in self.sources.crate(key[0]).types.get(key[2], []):
                named = self.definitions.of_file(key[0], file)[1]
                left += {named(word) for word in NAME.findall(text)} - {None}
        return found

    def named_by(self, crate, bodies):
        """The functions that these bodies may call, and the types that they see, by the names in them: a function without an owner, one of a
        type that is seen, or one of a trait that the file of a body names."""
        texts = " ".join(self.body(crate, it) for _, it in bodies)
        files = {it.place[0] for _, it in bodies}
        called, traits = set(NAME.findall(texts)), set(NAME.findall(" ".join(self.plain[it] for it in files)))
        own = [(crate, name, it) for (_, name), found in sorted(self.sources.crate(crate).functions.items(), key=str) for it in found]
        known = [it for it in [*own, *self.read_below(crate)[0]] if it[1] in called]
        keys = {self.definitions.of_file(crate, file)[1](word) for file in files for word in called}
        keys |= {(crate, "src", it.owner) for _, it in bodies if it.owner}
        types, functions, found = self.types_named(keys - {None}), None, []
        while functions is None or len(found) != len(functions):
            functions, names = found, {it[2] for it in types}
            found = [it for it in known if it[2].owner is None or it[2].owner in names or it[2].owner in traits or it[2].trait in traits]
            types |= self.types_named(self.of_clauses(found) - types)
        return found, types

    def of_function(self, crate, name, function):
        """The words of all that a wrong body of this function of a crate is refused by."""
        if function in self.functions:
            return self.functions[function]
        bodies = self.seen_bodies(crate, name, function)
        named, types = self.named_by(crate, bodies)
        contracts = [(where, each, self.sources.contract(it, each)) for where, each, it in [(crate, name, function), *named]]
        keys = self.of_clauses([*named, *contracts]) | {it for it in types if it[0] == crate}
        for _, it in bodies:
            keys |= self.definitions.cited(self.body(crate, it), *self.definitions.of_file(crate, it.place[0]))
        reached = self.definitions.below(keys)
        words = [word for _, it in bodies for word in self.body(crate, it).split()]
        for each in contracts:
            words += words_of_contract(*each)
        for key in sorted(reached):
            words += [*key, *reached[key].words]
        declared = self.sources.crate(crate).types
        words += [word for key in sorted(types) if key[0] == crate for _, text in declared.get(key[2], []) for word in text.split()]
        self.functions[function] = words
        return words

    def of(self, crate, edit):
        """The sum of a wrong body of a crate."""
        if (crate, edit) not in self.sums:
            span = edit.span(self.sources.crate(crate), self.sources.folder / crate, self.texts_of(crate))
            words = self.of_function(crate, span.name, span.function) if span else self.of_crate(crate)
            self.sums[crate, edit] = sum_of([*words, edit.name, *edit.text.split("\n")])
        return self.sums[crate, edit]
