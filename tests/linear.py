"""Whether a history of files is linearizable: whether its operations could have happened one behind another, each at one moment between
its call and its return, with the responses that they had (the search of Wing and Gong, with a memory of what was tried).

An operation of which the end isn't known may have happened at any moment behind its call, or not at all.
"""

import dataclasses
import math
import random

from tests.support import Checking

# The responses of operations, beside the content that a get returns.
DONE, NO_FILE, EXISTS, UNKNOWN = "done", "no such file", "file exists", "unknown"


@dataclasses.dataclass(frozen=True)
class Operation:
    """An operation on files, with the moments of its call and its return, and its response."""

    call: float
    back: float
    kind: str
    names: tuple
    content: str | None
    response: str

    def is_known(self):
        return self.response != UNKNOWN

    def end(self):
        """The moment by which it happened."""
        return self.back if self.is_known() else math.inf


def happen(operation, files):
    """The response of an operation that happens now, and the files behind it. Files are pairs of a name and a content."""
    held = dict(files)
    name, content = operation.names[0], operation.content
    if operation.kind == "put":
        held[name] = content
        return DONE, frozenset(held.items())
    if name not in held:
        return NO_FILE, files
    if operation.kind == "get":
        return held[name], files
    if operation.kind == "rename" and operation.names[1] in held:
        return EXISTS, files
    moved = held.pop(name)
    if operation.kind == "rename":
        held[operation.names[1]] = moved
    return DONE, frozenset(held.items())


def next_of(history, left, files):
    """What may happen next of the operations that are left, as their places and the files behind: first what ends first."""
    end = min((history[place].end() for place in left), default=math.inf)
    for place in sorted(left, key=lambda place: history[place].end(), reverse=True):
        operation = history[place]
        if operation.call <= end:
            response, behind = happen(operation, files)
            if response == operation.response or not operation.is_known() and behind != files:
                yield place, behind


def unexplained(history, files=frozenset()):
    """The operations that no order explains, where as many others as can be are explained: none where the history is linearizable."""
    all_known = frozenset(place for place, operation in enumerate(history) if operation.is_known())
    waiting = [(frozenset(range(len(history))), files)]
    tried, best = set(waiting), all_known
    while waiting:
        left, files = waiting.pop()
        known = left & all_known
        best = min(best, known, key=len)
        if not known:
            return []
        for place, behind in next_of(history, left, files):
            then = (left - {place}, behind)
            if then not in tried:
                tried.add(then)
                waiting.append(then)
    return [history[place] for place in sorted(best)]


# Histories that are typed by hand: operations of a kind, with the moments of their calls and returns.


def put(call, back, content, name="A", response=DONE):
    return Operation(call, back, "put", (name,), content, response)


def get(call, back, response, name="A"):
    return Operation(call, back, "get", (name,), None, response)


def delete(call, back, response=DONE, name="A"):
    return Operation(call, back, "delete", (name,), None, response)


def rename(call, back, response=DONE, names=("A", "B")):
    return Operation(call, back, "rename", names, None, response)


GOOD = {
    "nothing": [],
    "one behind another": [get(0, 1, NO_FILE), put(2, 3, "1"), get(4, 5, "1"), delete(6, 7), get(8, 9, NO_FILE), delete(10, 11, NO_FILE)],
    "a get beside a put sees it": [put(0, 9, "1"), get(1, 2, "1"), get(3, 4, "1")],
    "a get beside a put doesn't see it yet": [put(0, 9, "1"), get(1, 2, NO_FILE), get(3, 4, "1")],
    "of two puts at once either is last": [put(0, 9, "1"), put(0, 9, "2"), get(10, 11, "1")],
    "a put whose end isn't known is seen late": [put(0, 1, "1", response=UNKNOWN), get(2, 3, NO_FILE), get(4, 5, "1")],
    "a put whose end isn't known never happened": [put(0, 1, "1", response=UNKNOWN), get(2, 3, NO_FILE), get(9, 10, NO_FILE)],
    "a delete whose end isn't known": [put(0, 1, "1"), delete(2, 3, UNKNOWN), get(4, 5, "1"), get(6, 7, NO_FILE)],
    "a rename": [put(0, 1, "1"), rename(2, 3), get(4, 5, "1", "B"), get(4, 5, NO_FILE), rename(6, 7, NO_FILE)],
    "a rename onto a file": [put(0, 1, "1"), put(0, 1, "2", "B"), rename(2, 3, EXISTS), delete(4, 5, name="B"), rename(6, 7)],
    "a rename beside a get of each name": [put(0, 1, "1"), rename(2, 9), get(3, 4, NO_FILE), get(5, 6, "1", "B")],
    "a rename whose end isn't known": [put(0, 1, "1"), rename(2, 3, UNKNOWN), put(4, 5, "2"), get(6, 7, "1", "B"), get(6, 7, "2")],
}  # fmt: skip
BAD = {
    "a put that is lost": [put(0, 1, "1"), get(2, 3, NO_FILE)],
    "a content that comes from nowhere": [put(0, 1, "1"), get(2, 3, "2")],
    "an old content behind a new one": [put(0, 1, "1"), put(2, 3, "2"), get(4, 5, "1")],
    "a content before it was put": [get(0, 1, "1"), put(2, 3, "1")],
    "a new content and then the old one": [put(0, 1, "1"), put(2, 9, "2"), get(3, 4, "2"), get(5, 6, "1")],
    "a put whose end isn't known is seen, and then what was before": [put(0, 1, "1"), put(2, 3, "2", response=UNKNOWN), get(4, 5, "2"), get(6, 7, "1")],
    "one file is deleted twice": [put(0, 1, "1"), delete(2, 9), delete(2, 9)],
    "a file comes back": [put(0, 1, "1"), delete(2, 3), get(4, 5, "1")],
    "a file of two names": [put(0, 1, "1"), rename(2, 3), get(4, 5, "1"), get(4, 5, "1", "B")],
    "a rename that took another file's place": [put(0, 1, "1"), put(0, 1, "2", "B"), rename(2, 3)],
    "a put that happened twice": [put(0, 1, "1"), delete(2, 3), put(4, 5, "2"), get(6, 7, "1")],
}  # fmt: skip


class Search(Checking):
    """Histories that are known to be linearizable, or not to be."""

    def test_what_is_linearizable_is_found_to_be(self):
        for name, history in GOOD.items():
            self.check(name, [str(operation) for operation in unexplained(history)])

    def test_what_is_not_linearizable_is_found_not_to_be(self):
        for name, history in BAD.items():
            self.check(name, [] if unexplained(history) else ["it was explained"])

    def test_what_was_played_is_explained_and_one_get_that_returns_another_content_is_not(self):
        """Operations that happened at a moment each, with calls and returns around it, and some whose ends were forgotten."""
        chance, files, history = random.Random(1981), frozenset(), []
        for moment in range(160):
            kind = chance.choice(["put", "get", "delete", "rename"])
            names = ("A", "B") if chance.random() < 0.5 else ("B", "A")
            operation = Operation(moment - 5 * chance.random(), moment + 5 * chance.random(), kind, names, f"{moment}", UNKNOWN)
            response, files = happen(operation, files)
            is_forgotten = kind != "get" and moment % 20 == 0
            history.append(operation if is_forgotten else dataclasses.replace(operation, response=response))
        self.check("160 operations, up to 10 at a time", [str(operation) for operation in unexplained(history)])
        place = next(place for place, it in enumerate(history) if place > 100 and it.kind == "get" and it.response != NO_FILE)
        wrong = [*history[:place], dataclasses.replace(history[place], response="another"), *history[place + 1 :]]
        self.check("one of them returns another content", [] if unexplained(wrong) else ["it was explained"])
