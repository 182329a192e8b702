"""Reads the sources of crates: which functions they have, with which clauses, what is exported, and what stands for a type."""

import re

FUNCTION = re.compile(
    r"(?P<pub>\bpub(?:\s*\([^)]*\))?\s+)?(?:\b(?:const|final|unsafe)\s+)*\bfn\s+(?P<name>\w+)"
)
BLOCK = re.compile(r"\b(?P<word>impl|trait|mod)\b")
CLAUSE = re.compile(r"\b(?P<word>requires|ensures|ghost)\s*\*?\s*(?P<name>\w+)?\s*$")
DECLARED = re.compile(r"\b(?:enum|struct|const|type)\s+(?!fn\b)(\w+)")
GHOST = re.compile(r"\bghost\s+(\w+)\s*[=:]\s*\{")


class Clause:
    """A clause of a contract, `requires` or `ensures`, or a `ghost` member: its name or None, its text, and the number of its first line."""

    def __init__(self, word, name, text, line=0):
        self.word, self.name, self.text, self.line = word, name, text, line


class Function:
    """A function of the sources: where it stands, whether others may call it, and its clauses."""

    def __init__(self, place, is_public, owner, trait):
        self.place, self.owner = place, owner
        self.is_public = is_public
        # the trait that it implements, if it does
        self.trait = trait
        self.clauses = []
        # its text up to its first clause
        self.head = ""
        # the places in its file between which its body stands, where it has one
        self.body = None

    def ensures(self):
        return [clause for clause in self.clauses if clause.word == "ensures"]


COMMENT = r"//[^\n]*|/\*.*?\*/"
WORDS = r"(?<!\w)b?r?\"(?:\\.|[^\"\\])*\"|(?<!\w)b?'(?:\\[^\n']+|\\'|[^'\\\n])'"


def blanks(found):
    return re.sub(r"[^\n]", " ", found.group())


def without_comments(text):
    """The text with blanks for its comments."""
    return re.sub(f"({WORDS})|{COMMENT}", lambda found: found.group(1) or blanks(found), text, flags=re.S)


def without_words(text):
    """The text with blanks for its comments, its strings and its characters."""
    return re.sub(f"{COMMENT}|{WORDS}", blanks, text, flags=re.S)


def end_of_braces(text, at):
    """The place behind the braces that open at this place."""
    depth = 0
    for place in range(at, len(text)):
        depth += {"{": 1, "}": -1}.get(text[place], 0)
        if depth == 0:
            return place + 1
    return len(text)


def head_name(text):
    """The name of a type or a trait, without its path, its parameters and a reference in front."""
    found = re.match(r"\s*&?\s*(?:'\w+\s+)?(?:mut\s+)?(?:\w+::)*(\w+)", text)
    return found.group(1) if found else None


def without_parameters(text):
    """The text behind the parameters in angle brackets that it begins with."""
    text = text.lstrip()
    if not text.startswith("<"):
        return text
    depth = 0
    for place, letter in enumerate(text):
        depth += letter == "<"
        depth -= letter == ">" and text[place - 1] != "-"
        if depth == 0:
            return text[place + 1 :]
    return ""


def owner_of(word, head):
    """Whose functions the block has, and of which trait."""
    head = without_parameters(head) if word == "impl" else head
    head = re.split(r"\bwhere\b", head)[0]
    parts = re.split(r"\bfor\b", head)
    if word == "impl" and len(parts) == 2:
        return head_name(parts[1]), head_name(parts[0])
    return head_name(parts[0]), None


class Crate:
    """The functions of a crate, by their owner (or None) and their name, and what its root file exports."""

    def __init__(self, folder):
        self.functions = {}
        # by the name of a type or a trait, what it is declared as, and what stands for it in contracts
        self.types, self.ghosts = {}, {}
        # the ghost members that a file has for a type, by the file, the type and the member's name
        self.members = {}
        self.traits = set()
        self.exports = set()
        self.is_library = (folder / "src/lib.rt").is_file()
        for file in sorted((folder / "src").rglob("*.rt")):
            if file.stem == "tests" or "tests" in file.parts:
                continue
            self.file, raw = file, file.read_text()
            self.readable, text = without_comments(raw), without_words(raw)
            if file.name == "lib.rt" and file.parent == folder / "src":
                for use in re.findall(r"\bpub\s+use\s+([^;]*);", text):
                    self.exports.update(re.findall(r"\w+\b(?!\s*::)", use))
                self.exports.update(re.findall(r"\bpub\s+(?:fn|struct|enum|trait|mod)\s+(\w+)", text))
            self.declared(text)
            self.items(text, 0, None, None, False)

    def declared(self, text):
        """Notes the types and the constants of a file, each with its text."""
        for found in DECLARED.finditer(text):
            ends = re.compile(r"[{;]").search(text, found.end())
            end = (end_of_braces(text, ends.start()) if ends.group() == "{" else ends.end()) if ends else len(text)
            self.types.setdefault(found.group(1), []).append((self.file, self.readable[found.start() : end]))

    def noted_ghosts(self, text, at, end, owner):
        """Notes the ghost members that an impl or a trait has between these places."""
        while found := GHOST.search(text, at, end):
            at = end_of_braces(text, found.end() - 1)
            said, line = self.readable[found.start() : at], text.count("\n", 0, found.start()) + 1
            self.ghosts.setdefault(owner, []).append((self.file, said))
            self.members[self.file, owner, found.group(1)] = Clause("ghost", found.group(1), said, line)

    def items(self, text, at, owner, trait, in_trait):
        """Notes the functions among the items from this place on."""
        while at < len(text):
            function = FUNCTION.search(text, at)
            block = BLOCK.search(text, at)
            brace = text.find("{", at)
            first = min(x.start() for x in (function, block) if x) if function or block else len(text)
            if 0 <= brace < first:
                at = end_of_braces(text, brace)
            elif function and function.start() == first:
                at = self.function(text, function, owner, trait, in_trait)
            elif block:
                at = self.block(text, block)
            else:
                return

    def block(self, text, found):
        """Notes the functions of an impl, a trait or a module, and gives the place behind it."""
        ends = re.compile(r"[{;]").search(text, found.end())
        if not ends or ends.group() == ";":
            return ends.end() if ends else len(text)
        end = end_of_braces(text, ends.start())
        head, body = text[found.end() : ends.start()], text[: end - 1]
        word = found.group("word")
        if word == "mod":
            if head.strip() != "tests":
                self.items(body, ends.end(), None, None, False)
            return end
        owner, trait = owner_of(word, head)
        if word == "trait":
            self.traits.add(owner)
        self.noted_ghosts(body, ends.end(), len(body), owner)
        self.items(body, ends.end(), owner, trait, word == "trait")
        return end

    def function(self, text, found, owner, trait, in_trait):
        """Notes a function with its clauses, and gives the place behind it."""
        is_public = (found.group("pub") or "").strip() == "pub" or in_trait or trait is not None
        line = text.count("\n", 0, found.start("name")) + 1
        function = Function((self.file, line), is_public, owner, trait)
        self.functions.setdefault((owner, found.group("name")), []).append(function)
        at = found.end()
        # A `{` may follow a clause's name, and else begins the body; a `;` in an array's type ends nothing.
        while True:
            ends = re.compile(r"[{;(\[]").search(text, at)
            if not ends:
                return len(text)
            if ends.group() in "([":
                at = self.behind(text, ends.start())
                continue
            if ends.group() == ";":
                function.head = function.head or self.readable[found.start() : ends.start()]
                return ends.end()
            clause = CLAUSE.search(text, found.start(), ends.start())
            function.head = function.head or self.readable[found.start() : clause.start() if clause else ends.start()]
            at = end_of_braces(text, ends.start())
            if not clause:
                function.body = ends.start(), at
                return at
            if clause.group("word") != "ghost":
                # The text begins with the blanks before it, so that its lines keep their places to each other.
                begins = text.rfind("\n", 0, clause.start()) + 1
                begins = clause.start() if text[begins : clause.start()].strip() else begins
                said = self.readable[begins:at]
                line = text.count("\n", 0, clause.start("word")) + 1
                function.clauses.append(Clause(clause.group("word"), clause.group("name"), said, line))

    @staticmethod
    def behind(text, at):
        """The place behind the parentheses or brackets that open at this place."""
        depth = 0
        for place in range(at, len(text)):
            depth += {"(": 1, "[": 1, ")": -1, "]": -1}.get(text[place], 0)
            if depth == 0:
                return place + 1
        return len(text)


class Sources:
    """The crates below a folder, each read once."""

    def __init__(self, top):
        self.folder = top / "crates"
        self.crates = {}

    def names(self):
        return sorted(folder.name for folder in self.folder.iterdir() if (folder / "src").is_dir())

    def crate(self, name):
        if name not in self.crates:
            self.crates[name] = Crate(self.folder / name)
        return self.crates[name]

    def of_trait(self, trait, name):
        """That function of a trait of any crate, where it is written here."""
        for crate in self.names():
            if trait in self.crate(crate).traits:
                return self.crate(crate).functions.get((trait, name), [])
        return []

    def contract(self, function, name):
        """The function whose clauses hold of this one: the trait's where it ensures nothing of its own."""
        if function.trait and not function.ensures():
            for declared in self.of_trait(function.trait, name):
                return declared
        return function

    def public(self, crate, call):
        """The functions of a crate that have this name and that others may call; of a program none is exported, and all are."""
        owner, _, name = call.rpartition("::")
        found = self.crate(crate)
        is_exported = not found.is_library or (owner or name) in found.exports
        return [it for it in found.functions.get((owner or None, name), []) if it.is_public and is_exported]

    def contracts(self, crate, call):
        """The functions whose clauses hold of a public call; none where the crate has no such call."""
        return [self.contract(it, call.rpartition("::")[2]) for it in self.public(crate, call)]

    def is_hidden(self, trait):
        """Whether a trait is one of a crate here that doesn't export it."""
        owners = [self.crate(crate) for crate in self.names() if trait in self.crate(crate).traits]
        return bool(owners) and not any(trait in crate.exports for crate in owners)

    def ensuring(self, crate):
        """The functions of a crate that others may call and that have clauses of their own, each behind its name."""
        for owner, name in self.crate(crate).functions:
            call = f"{owner}::{name}" if owner else name
            yield from ((call, it) for it in self.public(crate, call) if it.ensures() and not self.is_hidden(it.trait))
