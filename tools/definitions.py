"""Reads the definitions that contracts cite: those of specs/, the types and constants of the sources, and what stands for a type.

A definition is named by its crate, its module (a file of specs/, or `src`) and its name. What it cites is found by the names in its
text: those of its module, and those that `use` lines bring in. A name that something nearer hides is taken for the definition all
the same, so none that is cited is missed. The kit's own libraries are left out, since the kit is one.
"""

import hashlib
import re

HEAD = re.compile(r"^(\s*)(?:(?:abbrev|unfoldable) pub|pub (?:record|data))\s+([^\s:]+)")
ELSE = re.compile(r"^(?:use|pub mod)\b")
WITHIN = re.compile(r"^module\b")
USE = re.compile(r"\buse\s+Rattle\.([\w.]+?)(?:\.\{([^}]*)\})?(?:\s+as\s+(\w+))?\s*(?:;|$)", re.M)
RUST_USE = re.compile(r"(?<!ghost )\buse\s+(?!(?:crate|self|super)\b)(\w+)::([^;]*);")
NAME = re.compile(r"[\w']+(?:\.[\w']+)*")


def sum_of(words):
    """Eight hexadecimal digits of a text, in which only words count."""
    return hashlib.sha256(" ".join(words).encode()).hexdigest()[:8]


class Definition:
    """A definition: its words, and the definitions that it cites."""

    def __init__(self, text, cites):
        self.words, self.cites = text.split(), cites


def made(line):
    """The constructors that a line of a datum has."""
    found = re.match(r"\s+([\w' ]+?)\s*:", line)
    return found.group(1).split() if found else []


class Module:
    """A file of specs/: the text of each of its definitions with the first and the last line of it, and whose the constructors are."""

    def __init__(self, file):
        self.texts, self.lines, self.makes = {}, {}, {}
        text = re.sub(r"--(?=\s|-|$)[^\n]*", "", file.read_text())
        self.text, name, around = text, None, ""
        for number, line in enumerate(text.split("\n"), 1):
            found = HEAD.match(line)
            if found:
                name = found.group(2)
                self.texts[name] = f"{self.texts.get(name, around if found.group(1) else '')}\n{line}"
            elif WITHIN.match(line):
                name, around = None, line
            elif ELSE.match(line):
                name = None
            elif name:
                self.texts[name] += f"\n{line}"
                self.makes |= {word: name for word in made(line)} if "pub data" in self.texts[name] else {}
            if name and line.strip():
                self.lines[name] = self.lines.get(name, (number,))[0], number

    def name_of(self, word):
        """The definition that a word names: itself, or the datum that it constructs; None where it names none."""
        return word if word in self.texts else self.makes.get(word)


class Definitions:
    """The definitions of all crates, each read once."""

    def __init__(self, sources):
        self.sources = sources
        self.known = set(sources.names())
        self.modules, self.found, self.files = {}, {}, {}

    def module(self, crate, name):
        """A file of specs/, or None where there is none."""
        if (crate, name) not in self.modules:
            file = self.sources.folder / crate / "specs" / f"{name}.antt"
            self.modules[crate, name] = Module(file) if file.is_file() else None
        return self.modules[crate, name]

    def used(self, path):
        """What a `use` line's path leads to: a module, or one definition, of a type of the sources or of a datum; None of the kit's."""
        crate, _, rest = path.partition(".specs.")
        first, *inner = rest.split(".")
        if crate not in self.known or not rest:
            return None
        if first != "declared":
            return (crate, first, *inner[:1])
        # `declared.FILE.TYPE`, with `.TheVariants` and the like behind it; constants stand by themselves
        types = [part for part in inner if not part.startswith("The")]
        return (crate, "src") if "TheConstants" in inner else (crate, "src", types[-1])

    def uses(self, text):
        """What the `use` lines of a text bring in: names with their definitions, and short names of modules."""
        names, short = {}, {}
        for path, braces, alias in USE.findall(text):
            key = self.used(path)
            if key is None:
                continue
            for word in braces.split(","):
                name, _, other = word.strip().partition(" as ")
                if name:
                    names[other.strip() or name] = (*key, name)[:3]
            if alias:
                short[alias] = key
        return names, short

    def cited(self, text, uses, own):
        """The definitions that a text cites; `own` gives those of its own module by name."""
        names, short = uses
        found = set()
        for word in NAME.findall(text):
            first, _, rest = word.partition(".")
            if first in names:
                found.add(names[first])
            elif own(first):
                found.add(own(first))
            if first in short:
                key = short[first]
                found.add(key if len(key) == 3 else (*key, rest.partition(".")[0]))
        return {self.whole(key) for key in found}

    def whole(self, key):
        """The definition that a name names: of a constructor its datum."""
        crate, module, name = key
        read = self.module(crate, module) if module != "src" else None
        return (crate, module, read.name_of(name)) if read and read.name_of(name) else key

    def type_named(self, crate, text):
        """Gives which type or constant of the sources a name is in a file of a crate, or None."""
        brought = {name: other for other, names in RUST_USE.findall(text) for name in re.findall(r"\w+", names)}

        def named(name):
            other = brought.get(name, crate)
            if other not in self.known:
                return None
            read = self.sources.crate(other)
            return (other, "src", name) if name in read.types or name in read.ghosts else None

        return named

    def of_file(self, crate, file):
        """What a source file's `use` lines bring in, and which types its names are."""
        if file not in self.files:
            text = file.read_text()
            self.files[file] = self.uses(text), self.type_named(crate, text)
        return self.files[file]

    def of_specs(self, crate, name, key):
        module = self.module(crate, name)
        if module is None or key not in module.texts:
            return None
        text, uses = module.texts[key], self.uses(module.text)
        cites = self.cited(text, uses, lambda word: (crate, name, module.name_of(word)) if module.name_of(word) else None)
        return Definition(text, cites)

    def of_source(self, crate, name):
        """A type, a constant or a trait of the sources. Where contracts see it by ghost members, those; else as it is declared."""
        read = self.sources.crate(crate)
        texts = read.ghosts.get(name) or read.types.get(name)
        if not texts:
            return None
        cites = set()
        for file, text in texts:
            uses, named = self.of_file(crate, file)
            cites |= self.cited(text, uses, named)
        return Definition("\n".join(text for _, text in texts), cites - {(crate, "src", name)})

    def definition(self, key):
        """The definition that is named so, or None where it is the kit's or no definition."""
        if key not in self.found:
            crate, module, name = key
            self.found[key] = self.of_source(crate, name) if module == "src" else self.of_specs(crate, module, name)
        return self.found[key]

    def of_clause(self, function, clause):
        """The definitions that a clause of a function cites, and what stands for the types of its parameters."""
        file = function.place[0]
        crate = file.relative_to(self.sources.folder).parts[0]
        uses, named = self.of_file(crate, file)
        types = {named(word) for word in re.findall(r"\b[A-Z]\w*", f"{function.head} {function.owner or ''}")} - {None}
        return self.cited(clause.text, uses, named) | types

    def fields(self, function, clause):
        """The fields of the record that a clause says to hold: `Name ..` within its braces. None where it says something else."""
        file = function.place[0]
        crate = file.relative_to(self.sources.folder).parts[0]
        head = NAME.match(clause.text.partition("{")[2].lstrip())
        for key in self.cited(head.group(), *self.of_file(crate, file)) if head else ():
            module = self.module(key[0], key[1]) if key[1] != "src" else None
            text = module.texts.get(key[2], "") if module else ""
            if re.match(r"\s*pub record", text):
                return re.findall(r"^\s+pub ([\w']+)\s*:", text, re.M)
        return []

    def below(self, keys):
        """These definitions and all that they stand on, each by its name."""
        reached, left = {}, list(keys)
        while left:
            key = left.pop()
            definition = self.definition(key) if key not in reached else None
            if definition:
                reached[key] = definition
                left += definition.cites
        return reached
