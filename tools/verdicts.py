"""Reads what `rt check` says of functions that aren't proved, and what `rt must-fail` says of wrong bodies."""

import re

# a goal of a function that the prover doesn't show, by a line of the source, and an answer that proves another goal, by the function's
# folder in proofs/. That a function isn't proved since it calls one that isn't is neither.
GOAL = re.compile(r"^(?:note: )?(?:\./)?(src/\S+\.rt):(\d+):\d+: (?:error: )?it is not proved that", re.M)
ANSWER = re.compile(r"^(?:\./)?(proofs/\S+)/(?:Answers|Invariants|Proof)\.antt:\d+:\d+: error: (.*)", re.M)
# what is said of an answer that names what is gone, or that can't be read: it tells nothing of the contract
UNREAD = re.compile(r"is not in scope|has no field|has no `|was not admitted|is no name|operand is missing|expected the end|cannot continue")
VERDICT = re.compile(r"^logic=(proved|not-proved)\b", re.M)
REFUSED = re.compile(r"^(?:rt: )?must-fail \w+/(\S+)\.edit: refused, as it must be", re.M)


class Verdict:
    """What a check says of a crate: whether it came to a verdict, which it was, and at which places goals aren't proved."""

    def __init__(self, said):
        found = VERDICT.search(said)
        self.is_there = bool(found)
        self.is_proved = self.is_there and found[1] == "proved"
        self.lines = {(path, int(line)) for path, line in GOAL.findall(said)}
        self.folders = {folder for folder, why in ANSWER.findall(said) if not UNREAD.search(why)}

    def refuses(self, span):
        """Whether the check came to a verdict, in which a goal isn't proved of the function that stands at this span."""
        in_source = any(path == span.path and span.first <= line <= span.last for path, line in self.lines)
        return self.is_there and (in_source or span.folder in self.folders)

    def blames(self, spans):
        """Whether each goal that isn't proved is one of these functions."""
        known = {it.folder for it in spans}
        inside = lambda path, line: any(it.path == path and it.first <= line <= it.last for it in spans)
        return self.folders <= known and all(inside(*place) for place in self.lines)


def refused_alone(said):
    """The names of the wrong bodies that `rt must-fail` saw refused."""
    return set(REFUSED.findall(said))
