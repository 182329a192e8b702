"""Keeps which wrong bodies the prover was seen to refuse.

The repository has a line for each wrong body that was: docs/wrong-bodies.txt, with the crate, the wrong body's name, and the sum of what its
refusal rests on. The machine keeps the same as an empty file with the sum in its name, below XDG_CACHE_HOME or ~/.cache. So any checkout
tries only what changed.
"""

import contextlib
import os
import pathlib


class Seen:
    """What was seen of the wrong bodies of a repository, by their sums."""

    def __init__(self, top, sums):
        self.file, self.sums = top / "docs/wrong-bodies.txt", sums
        cache = os.environ.get("XDG_CACHE_HOME") or pathlib.Path.home() / ".cache"
        self.store = pathlib.Path(cache, "poltxegun/wrong-bodies")

    def lines(self):
        """The sums that the repository has, by crate and name."""
        return dict(it.split() for it in self.file.read_text().splitlines()) if self.file.exists() else {}

    def place(self, crate, edit):
        return self.store / f"{crate}.{edit.name}.{self.sums.of(crate, edit)}"

    def left(self, crate, edits):
        """Those of a crate's wrong bodies that weren't seen refused."""
        lines = self.lines()
        return [it for it in edits if lines.get(f"{crate}/{it.name}") != self.sums.of(crate, it) and not self.place(crate, it).exists()]

    def keep(self, crate, edits):
        """Keeps on this machine, where it can, that these were refused."""
        with contextlib.suppress(OSError):
            self.store.mkdir(parents=True, exist_ok=True)
            for it in edits:
                self.place(crate, it).touch()

    def end(self, crate, edits, let_through):
        """Writes the lines of a crate's wrong bodies: of all but those that were let through, which are kept no longer."""
        with contextlib.suppress(OSError):
            for it in let_through:
                self.place(crate, it).unlink(missing_ok=True)
        lines = {name: sum for name, sum in self.lines().items() if not name.startswith(f"{crate}/")}
        lines |= {f"{crate}/{it.name}": self.sums.of(crate, it) for it in edits if it not in let_through}
        self.file.write_text("".join(f"{name} {lines[name]}\n" for name in sorted(lines)))
