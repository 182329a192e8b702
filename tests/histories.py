"""Tests that `chaosd` keeps files as if every operation happened at one moment: several clients over roads that lose, repeat and reorder,
which are killed, and a server that is killed and begins again. The history of the files is searched for an order that explains it.

HISTORY_SECONDS says for how long at least, in place of a minute; HISTORY_SEED the seed of all chance, which is printed.
"""

import contextlib
import os
import random
import subprocess
import threading
import time

from tests.copying import copying
from tests.linear import DONE, EXISTS, NO_FILE, UNKNOWN, Operation, unexplained
from tests.road import road_before
from tests.support import LONG, Case, Serving, finished, folder

SECONDS = int(os.environ.get("HISTORY_SECONDS", 60))
SEED = int(os.environ.get("HISTORY_SEED", time.time_ns() // 1_000 % 1_000_000))
CLIENTS = 4
# So many operations on two files, and then others: of a short history an order is found soon.
GROUP = 40
# One operation in so many ends by the death of its client, after a third of a second at most.
KILLED, KILLED_WITHIN = 8, 0.33
# The server lives for so many seconds.
LIVES = (2, 8)
# Fewer operations that were done are no test: where a machine is busy it goes on until there are so many, for as long as LONG more.
LEAST_DONE = 20


class World:
    """A server, its clients, and what happened."""

    def __init__(self, server, roads):
        self.server, self.roads = server, roads
        self.end = time.monotonic() + SECONDS
        self.noting, self.begun, self.done, self.deaths = threading.Lock(), 0, 0, 0
        self.histories, self.faults = {}, []

    def left(self):
        """The seconds until it ends: none where time is over and enough was done."""
        return self.end + (LONG if self.done < LEAST_DONE else 0) - time.monotonic()

    def names(self):
        """The two files of the operation that begins now."""
        with self.noting:
            self.begun += 1
            return [f"G{self.begun // GROUP}{letter}" for letter in "AB"]

    def note(self, operation):
        with self.noting:
            self.done += operation.is_known()
            self.histories.setdefault(operation.names[0][:-1], []).append(operation)

    def run(self, client, kind, names, content, patience):
        """An operation of a client, which is killed when its patience is over, as it happened."""
        options, words = ["--timeout", "5"], names
        if kind == "put":
            options, words = [*options, "--as", names[0]], ["-"]
        elif kind == "get":
            options = [*options, "--output", "-"]
        call = time.monotonic()
        process = copying(self.roads[client], kind, *words, options=options, peer=client, stdin=subprocess.PIPE)
        ended = finished(process, content.encode() if kind == "put" else b"", patience)
        return Operation(call, time.monotonic(), kind, tuple(names), content, response_of(kind, ended))

    def work(self, client):
        """Operations of a client, one behind another."""
        chance, count = random.Random(f"{SEED} {client}"), 0
        while self.left() > 0:
            count += 1
            kind = chance.choice(["put"] * 3 + ["get"] * 3 + ["delete", "rename"])
            first, second = chance.sample(self.names(), 2)
            content = f"content {count} of client {client}\n" * chance.choice([1, 3, 100])
            patience = chance.random() * KILLED_WITHIN if chance.randrange(KILLED) == 0 else LONG
            operation = self.run(client, kind, [first, second] if kind == "rename" else [first], content, patience)
            if kind != "get" or operation.is_known():
                self.note(operation)

    def kill(self):
        """Kills the server again and again, and lets it begin again."""
        chance = random.Random(f"{SEED} server")
        while (left := self.left()) > 0:
            time.sleep(min(left, chance.uniform(*LIVES)))
            self.server.end()
            self.server.begin()
            self.deaths += 1

    def look(self):
        """What lies in the server's folder when all is over, as gets of all files."""
        for group in self.histories:
            for letter in "AB":
                path, now = self.server.folder / f"{group}{letter}", time.monotonic()
                response = path.read_text() if path.is_file() else NO_FILE
                self.note(Operation(now, time.monotonic(), "get", (path.name,), None, response))


def response_of(kind, ended):
    """The response of an operation whose process ended so."""
    if ended.status == 0:
        return ended.out.decode(errors="replace") if kind == "get" else DONE
    if b": FNF " in ended.err:
        return NO_FILE
    return EXISTS if b": FAE " in ended.err else UNKNOWN


def played():
    """A world behind its end."""
    with folder() as kept, contextlib.ExitStack() as stack:
        server = Serving(kept, CLIENTS, ["--log", "quiet"])
        stack.callback(server.end)
        roads = [stack.enter_context(road_before(server, n, lost=0.05, twice=0.05, jitter=0.01, seed=SEED + n)) for n in range(CLIENTS)]
        world = World(server, roads)
        threads = [threading.Thread(target=world.work, args=[n]) for n in range(CLIENTS)] + [threading.Thread(target=world.kill)]
        for each in threads:
            each.start()
        for each in threads:
            each.join()
        server.end()
        world.look()
    return world


class Histories(Case):
    """Histories of several clients."""

    seconds = SECONDS + 10

    def test_the_history_of_all_files_is_linearizable(self):
        world = played()
        all_of_them = [operation for history in world.histories.values() for operation in history]
        done = [operation for operation in all_of_them if operation.is_known()]
        name = f"{len(all_of_them)} operations, {len(done)} of them with a known end, and {world.deaths} deaths of the server, from seed {SEED}"
        problems = [] if len(done) >= LEAST_DONE else ["too few"]
        for group, history in world.histories.items():
            history.sort(key=lambda operation: operation.call)
            if wrong := unexplained(history):
                problems += [f"of {group} no order explains:", *map(str, wrong), "in:", *map(str, history)]
        self.check(name, problems)
