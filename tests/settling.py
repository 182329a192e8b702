"""Random schedules that end in `settle`: writes, reads, windows, ticks, losses, late and repeated copies, and then all arrives.

There are COUNT schedules of `chaosd lab`, 1,000 where the environment names no other number, each made from a seed of its own, from
FIRST on, which is 1; and a tenth of that of `chaosd filelab`. What each user wrote and read is counted here, from what the program
printed.
"""

import os
import random
import re
import subprocess

from tests.support import PATIENCE, PROGRAM, REFUSED, Case, run

FIRST = int(os.environ.get("FIRST", 1))
COUNT = int(os.environ.get("COUNT", 1_000))
# No schedule settles by more events, of `lab` and of `filelab`.
MOST_EVENTS, MOST_FILE_EVENTS = 394, 586
# Every so many schedules the events that `settle` printed are typed.
TYPED_AGAIN = 20

OTHER = {"a": "b", "b": "a"}
OPENING = ["deliver 0", "accept 100", "deliver 1", "deliver 2"]
# so many lines come of the first line and those
OPENED = 7
# Refused at once by an open end, and changes nothing: it shows that what came of the line before it is there.
MARK, MARKED = "accept 0", "refused 3 6 WrongState"
TYPED = re.compile(r"(?:read|window|tick|deliver|serve)(?: [ab])?(?: \d+)?")


class Laboratory:
    """A run of the program whose answers are read as soon as they are there."""

    def __init__(self, word, first):
        self.process = subprocess.Popen([PROGRAM, word], stdin=subprocess.PIPE, stdout=subprocess.PIPE, text=True)
        self.lines, self.copies = [first, *OPENING], 3
        self.process.stdin.write("\n".join(self.lines) + "\n")
        self.process.stdin.flush()
        self.printed = [self.process.stdout.readline().rstrip("\n") for _ in range(OPENED)]

    def ask(self, line):
        """What came of a line: the lines that it printed."""
        self.lines.append(line)
        self.process.stdin.write(f"{line}\n{MARK}\n")
        self.process.stdin.flush()
        came = []
        for told in self.process.stdout:
            if told == MARKED + "\n":
                break
            came.append(told.rstrip("\n"))
        self.copies += sum(told.startswith("copy ") for told in came)
        self.printed += came
        return came

    def end(self):
        """The last line, and the status."""
        self.process.stdin.close()
        last = self.process.stdout.read()
        return last, self.process.wait(PATIENCE)


class Users:
    """What each user wrote and read."""

    def __init__(self):
        self.wrote = {"a": [], "b": []}
        self.read = {"a": [], "b": []}

    def note(self, line, came):
        """What came of one event."""
        verb, side, *more = line.split(" ", 2)[:3] + [""] * 2
        answer = came[0] if came else ""
        if verb == "write" and answer.startswith("wrote "):
            self.wrote[side].append(more[0].rstrip())
        if verb == "read" and re.match(r"read \d{3}", answer):
            self.read[side].append(answer.removeprefix("read "))

    def problems(self):
        """What a user wrote and the other didn't read, in order."""
        return [
            f"{side} wrote {self.wrote[side]}, and {OTHER[side]} read {self.read[OTHER[side]]}"
            for side in OTHER
            if self.wrote[side] != self.read[OTHER[side]]
        ]


def events_of(printed):
    """The events that `settle` printed: the line of each, and what came of it."""
    events = []
    for line in printed:
        if TYPED.fullmatch(line) and not re.match(r"read \d{3}", line):
            events.append((line, []))
        elif events:
            events[-1][1].append(line)
    return events


KINDS = ["write", "read", "window", "tick", "deliver", "serve"]


def schedule(chance, caps, word, weights):
    """A line of a schedule, or none where it is a delivery: the caller knows which copies there are."""
    side = chance.choice("ab")
    kind = chance.choices(KINDS, weights)[0]
    if kind == "write" and word == "filelab":
        return f"write a 200 T{chance.randrange(99)}  {chance.choice(['LOGIN LISPM', 'LOGOUT', 'NOSUCH'])}"
    if kind == "write":
        text = "".join(chance.choices("abcdefgh ^", k=chance.choice([0, 1, 7, 60])))
        return f"write {side} {chance.choice(['200', '200', '201', '014'])} {text}".rstrip()
    if kind == "window":
        return f"window {side} {chance.randrange(caps[side] + 1)}"
    if kind == "read" and word == "filelab":
        return "read a"
    return None if kind == "deliver" else f"read {side}" if kind == "read" else kind


def play(seed, word):
    """A schedule from a seed, up to `settle`: the laboratory, its users, how many copies there were before, and what it printed."""
    chance = random.Random(seed)
    caps = {side: chance.choice([1, 2, 5, 13, 64]) for side in OTHER}
    first = f"ends {chance.choice([1, 3, 13, 64])} {caps['a']} {chance.choice([1, 3, 13, 64])} {caps['b']} {chance.choice([1, 65530])}"
    laboratory, users, moment = Laboratory(word, first), Users(), 0
    # some write much and lose all, and some lose little
    weights = [chance.choice([3, 9]), chance.choice([1, 4]), 1, 2, chance.choice([0, 2, 9]), 3 * (word == "filelab")]
    for _ in range(chance.choice([4, 30, 90, 180])):
        line = schedule(chance, caps, word, weights)
        if line is None:
            late = chance.random() < 0.3
            line = f"deliver {chance.randrange(laboratory.copies) if late else max(0, laboratory.copies - chance.randrange(1, 5))}"
        elif line == "tick":
            moment += chance.choice([0, 1, 300, 600])
            line = f"tick {chance.choice('ab')} {moment}"
        users.note(line, laboratory.ask(line))
    before = laboratory.copies
    return laboratory, users, before, laboratory.ask("settle")


def arrivals(users, events, before):
    """What is wrong with the events of `settle`, and with what the users read then."""
    problems = []
    for line, came in events:
        users.note(line, came)
        old = line.startswith("deliver ") and int(line.split()[1]) < before
        problems += [f"{line}: {came}"] * (old or not came or came[0].startswith("refused"))
    return problems + users.problems()


def typed_again(laboratory, word, settled):
    """Whether the events print the same where they are typed in place of `settle`."""
    events = events_of(settled)
    script = laboratory.lines[:-1] + [line for line, _ in events]
    wanted = laboratory.printed[: len(laboratory.printed) - len(settled)] + [told for _, came in events for told in came]
    ended = run([word], ("\n".join(script) + "\n").encode())
    return [] if ended.out.decode().splitlines()[:-1] == wanted else ["its events, typed, print otherwise"]


def settled(seed, word):
    """What is wrong with a schedule of `lab`, and how many events it took."""
    laboratory, users, before, printed = play(seed, word)
    last, status = laboratory.end()
    events = events_of(printed)
    problems = arrivals(users, events, before)
    problems += [f"{len(events)} events"] * (not 0 < len(events) <= MOST_EVENTS)
    problems += [f"the end is {last!r}, status {status}"] * ((last, status) != ("stored a 0 b 0\n", REFUSED))
    if seed % TYPED_AGAIN == 0:
        problems += typed_again(laboratory, word, printed)
    return [f"seed {seed}: {problem}" for problem in problems], len(events)


def served(seed, word):
    """The same of `filelab`: each command that was written has its reply, which begins with its transaction."""
    laboratory, users, before, printed = play(seed, word)
    last, status = laboratory.end()
    events = events_of(printed)
    commands, replies = users.wrote["a"], users.read
    problems = [problem for problem in arrivals(users, events, before) if not problem.startswith(("a wrote", "b wrote"))]
    tags = [line.split(" ")[1] if " " in line else line for line in commands]
    answered = [line.split(" ")[1] if " " in line else line for line in replies["a"]]
    problems += [f"{commands} were written, and {replies['a']} read"] * (tags != answered)
    problems += [f"{len(events)} events"] * (not 0 < len(events) <= MOST_FILE_EVENTS)
    problems += [f"the end is {last!r}, status {status}"] * ((last, status) != ("stored a 0 b 0\n", REFUSED))
    if seed % TYPED_AGAIN == 0:
        problems += typed_again(laboratory, word, printed)
    return [f"seed {seed}: {problem}" for problem in problems], len(events)


def settle_all(case, word, of_one, many):
    """So many schedules, each of which settles, are one check."""
    problems, most = [], 0
    for seed in range(FIRST, FIRST + many):
        found, events = of_one(seed, word)
        problems, most = problems + found, max(most, events)
    case.check(f"{many} schedules of {word} settle, by {most} events at most", problems[:20])


class Settling(Case):
    """Two connections."""

    seconds = 30

    def test_all_that_was_written_is_read_and_nothing_is_stored(self):
        settle_all(self, "lab", settled, COUNT)


class FileSettling(Case):
    """A client of FILE and its server."""

    seconds = 10

    def test_each_command_that_was_written_has_its_reply_read(self):
        settle_all(self, "filelab", served, COUNT // 10)
