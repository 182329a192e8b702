"""Reads wrong bodies: files `NAME.edit` with a line `file: PATH`, and pairs of lines `old: TEXT` and `new: TEXT`.

The kit's `rt must-fail` tries them one by one. Several of one crate can be tried by one check where each changes the body of another
function, since a proof reads no body but its own: `Edit.span` says which function that is.
"""

import re

LINE = re.compile(r"^(file: |old: |new: ?)(.*)$", re.M)
CONST = re.compile(r"(pub\s*(\([^)]*\)\s*)?)?const\b")


class Edit:
    """A wrong body: its name, its text, and what it changes, as (path, old, new)."""

    def __init__(self, file):
        self.file, self.name = file, file.stem
        self.text = file.read_text()
        self.changes = []
        path = old = None
        for word, rest in LINE.findall(self.text):
            if word.startswith("file"):
                path = rest.strip()
            elif word.startswith("old"):
                old = rest
            else:
                self.changes.append((path, old, rest))

    def applied(self, texts):
        """These texts, by their paths, with the changes made; or None where an old text doesn't stand in its file exactly once."""
        texts = dict(texts)
        for path, old, new in self.changes:
            if texts.get(path, "").count(old) != 1:
                return None
            texts[path] = texts[path].replace(old, new)
        return texts

    def span(self, crate, folder, texts):
        """The one function of the crate in this folder whose body alone it changes, or None where others may see what it changes.

        Of a function others see what it ensures. Of one that ensures nothing they may see the body; and what a `const fn` computes
        for a constant is seen by all.
        """
        paths = {path for path, _, _ in self.changes}
        path = paths.pop()
        if paths or self.applied(texts) is None:
            return None
        places = [(texts[path].find(old), len(old)) for _, old, _ in self.changes]
        for (_, name), functions in crate.functions.items():
            for it in functions:
                is_here = it.body and it.place[0] == folder / path
                if is_here and all(it.body[0] < at and at + size < it.body[1] for at, size in places):
                    is_closed = it.ensures() and not CONST.match(it.head)
                    return Span(path, name, it, texts[path]) if is_closed else None
        return None


class Span:
    """Where a function stands: its file, its first and its last line, and its folder in proofs/. Its attributes are of it: the prover
    names the line of the first."""

    def __init__(self, path, name, function, text):
        self.path, self.name, self.function, self.first = path, name, function, function.place[1]
        above = text.split("\n")[: self.first - 1]
        while above and above.pop().lstrip().startswith("#["):
            self.first -= 1
        self.last = text.count("\n", 0, function.body[1]) + 1
        module = path.removeprefix("src/").removesuffix(".rt").removesuffix("/mod")
        owner = f"{function.owner}{function.trait or ''}" if function.owner else ""
        self.folder = "/".join(it for it in ("proofs", "" if module in ("lib", "main") else module, owner, name) if it)
        # a type's functions have their answers below the type's module, in whichever file they stand
        crate = function.place[0].parents[path.count("/")]
        there = [str(it.relative_to(crate)) for it in crate.glob(f"proofs/**/{owner}/{name}")] if owner else []
        if len(there) == 1:
            self.folder = there[0]
