"""Tests the sealed link by itself: the host of tests/seal_reference.py against the vectors of examples/vectors/sealed.txt, two such hosts
against each other, and the library beside them. `make seals` flips bits of a million datagrams."""

import os
import random
import re
import shutil
import subprocess
import time
from concurrent.futures import ThreadPoolExecutor

from tests.packets import DATA, RFC, SNS, datagram
from tests.seal_reference import (
    BAD_TAG, HANDED_UP, HELLO, LAST_COUNTER, LEARNED, MOST_PAYLOAD, OLD_COUNTER, OLD_SESSION, SEAL_BYTES, STALE, WINDOW,
    Head, Host, destinations_of, head_of, is_sealed, sealed,
)  # fmt: skip
from tests.support import CLIENT, LONG, ROOT, SERVER, Checking, checked, folder

SEALED = ROOT / "examples/vectors/sealed.txt"
OTHER = 0o403
KEY, OTHER_KEY = bytes(range(32)), bytes(range(255, 223, -1))
REQUEST = datagram(RFC, (SERVER, 0), (CLIENT, 0o1405), 5, 0, b"FILE")
# what stands before a tag, and the tag by `openssl dgst -sha256 -mac HMAC -macopt hexkey:0001..1f`
TEXT = bytes.fromhex("4348030003040102010203040506070800000000000000000000000000000001") + b"hi"
TAG = bytes.fromhex("08d921305401765fc70e7ada44404830")


def blocks():
    """The vectors: for each what it shows, the datagram, and the lines of its report."""
    for block in SEALED.read_text().split("\n\n"):
        lines = block.splitlines()
        names = [line[2:] for line in lines if line.startswith("#")]
        digits, *report = lines[len(names) :]
        yield names, bytes.fromhex(digits), [line[2:] for line in report]


def differences(*pairs):
    """The names of what differs."""
    return [f"{name}: {seen!r} and not {wanted!r}"[:400] for name, seen, wanted in pairs if seen != wanted]


def fields_of(one):
    """The lines of a report that say what stands in a sealed datagram."""
    if not is_sealed(one) or len(one) < SEAL_BYTES or one[3]:
        return []
    to, sender, session, peer, counter = head_of(one)
    lines = [f"to {to:06o} from {sender:06o}", f"session {session} peer {peer} counter {counter}"]
    return [*lines, f"payload {len(one) - SEAL_BYTES}", "tag " + one[-16:].hex(" ").upper()]


def outcome_of(host, one):
    """The last line of a report: what becomes of a datagram at this host."""
    opened, answer = host.takes(one)
    if opened.told == HELLO:
        return f"hello {answer.hex(' ').upper()}"
    return opened.told if opened.told in (HANDED_UP, LEARNED) else f"fault {opened.told}"


class Reference(Checking):
    """The host in Python."""

    def test_each_vector_is_opened_as_it_says(self):
        found = list(blocks())
        (session,) = re.findall(r"It has session (\d+)", " ".join(found[0][0]))
        keys = dict(re.findall(r"^(\d{6}): ((?:[0-9A-F]{2} ?){32})$", "\n".join(found[0][0]), re.M))
        host = Host(SERVER, int(session), {int(address, 8): bytes.fromhex(key) for address, key in keys.items()})
        for names, one, report in found:
            self.check(names[-1], differences(("report", [*fields_of(one), outcome_of(host, one)], report)))
        faults = {report[-1] for _, _, report in found}
        missing = [f"{number}" for number in range(1, 11) if not any(it.startswith(f"fault {number} ") for it in faults)]
        self.check("each fault stands there", missing)

    def test_the_first_vectors_are_what_two_hosts_send(self):
        (_, first, _), (_, again, second), _, (_, third, _) = list(blocks())[:4]
        client = Host(CLIENT, head_of(first).session, {SERVER: KEY})
        hello = bytes.fromhex(second[-1].removeprefix("hello "))
        sent = [client.sends(REQUEST)]
        client.others[SERVER].sent = 2  # the vectors have an empty datagram with this counter
        opened, answer = client.takes(hello)
        problems = differences(("told", opened.told, LEARNED), ("sent", [*sent, answer], [first, third]), ("again", again, first))
        self.check("a request, and the same again once the hello came", problems)

    def test_a_tag_is_that_of_openssl(self):
        head = Head(0x0304, 0x0102, 0x0102030405060708, 0, 1)
        self.check("a tag, typed", differences(("sealed", sealed(KEY, head, b"hi"), TEXT + TAG)))


def pair(session=7):
    """Two hosts that have a key."""
    return Host(CLIENT, 5, {SERVER: KEY}), Host(SERVER, session, {CLIENT: KEY})


def flipped(dice, good):
    """A datagram with one to three of its bits flipped."""
    bad = bytearray(good)
    for bit in dice.sample(range(8 * len(good)), dice.randrange(1, 4)):
        bad[bit // 8] ^= 1 << bit % 8
    return bytes(bad)


def met(client, server):
    """Two hosts whose sessions have met, by a request of the client."""
    _, answer = server.takes(client.sends(REQUEST))
    _, again = client.takes(answer)
    return server.takes(again)[0].told


class TwoHosts(Checking):
    """Two hosts in Python, and whoever stands between."""

    def test_sessions_meet_in_three_datagrams_and_again_after_a_restart(self):
        client, server = pair()
        self.check("the request is handed up", differences(("told", met(client, server), HANDED_UP)))
        self.check("and the reply", differences(("told", client.takes(server.sends(datagram(SNS, (CLIENT, 1), (SERVER, 1))))[0].told, HANDED_UP)))
        newer = Host(SERVER, 8, {CLIENT: KEY})
        self.check("after a restart of the server", differences(("told", met(client, newer), HANDED_UP)))
        self.check("and of the client", differences(("told", met(Host(CLIENT, 6, {SERVER: KEY}), newer), HANDED_UP)))
        told = newer.takes(client.sends(REQUEST))[0].told
        self.check("the client's run before is heard no more", differences(("told", told, OLD_SESSION)))

    def test_an_answer_is_shorter_than_what_it_answers_and_draws_none(self):
        client, server = pair()
        one = client.sends(REQUEST)
        _, hello = server.takes(one)
        self.check("a hello has 48 bytes", differences(("bytes", len(hello), SEAL_BYTES)))
        opened, answer = Host(CLIENT, 9, {SERVER: KEY}).takes(hello)
        self.check("a hello for another session draws nothing", differences(("told", opened.told, STALE), ("answer", answer, None)))

    def test_of_flipped_bits_nothing_is_handed_up(self):
        """Where the mark or the version is hit, a datagram is taken for one in clear, which carries no packet for this host."""
        dice, (client, server) = random.Random(1981), pair()
        met(client, server)
        told, problems = [], []
        for number in range(2_000):
            good = client.sends(datagram(DATA, (SERVER, 1), (CLIENT, 1), number, 0, dice.randbytes(dice.randrange(489))))
            opened = server.open(flipped(dice, good))
            told.append(opened.told)
            problems += [f"{number}: {opened}"] if SERVER in destinations_of(opened.payload) else []
            self.assertEqual([HANDED_UP, OLD_COUNTER], [server.open(good).told for _ in range(2)])
        self.check(f"of {len(told)} with one to three bits flipped none hands up a packet", problems)
        self.check("most have a wrong tag", [] if told.count(BAD_TAG) > 0.9 * len(told) else [f"{told.count(BAD_TAG)}"])

    def test_any_order_with_repeats_hands_up_each_once_and_none_too_old(self):
        dice, (client, server) = random.Random(1981), pair()
        met(client, server)
        sent = [client.sends(REQUEST) for _ in range(5_000)]
        sent.sort(key=lambda one: head_of(one).counter + dice.randrange(2 * WINDOW))
        counters, greatest, problems = [], 0, []
        for one in sent + dice.sample(sent, 1_000):
            counter, is_up = head_of(one).counter, server.takes(one)[0].told == HANDED_UP
            problems += [] if is_up == (counter not in counters and counter + WINDOW > greatest) else [f"{counter} behind {greatest}: {is_up}"]
            counters += [counter] * is_up
            greatest = max(greatest, counter) if is_up else greatest
        self.check("5,000 datagrams in another order, and 1,000 again", problems[:3])
        self.check("many come too late", [] if 500 < len(counters) < 4_900 else [f"{len(counters)}"])

    def test_what_can_not_be_sealed_goes_nowhere(self):
        client, _ = pair()
        self.check("to a host without a key", differences(("seal", client.seal(OTHER, REQUEST), None)))
        self.check("a payload too long", differences(("seal", client.seal(SERVER, bytes(MOST_PAYLOAD + 1)), None)))
        client.others[SERVER].sent = LAST_COUNTER - 1
        self.check("the last counter", differences(("counter", head_of(client.seal(SERVER)).counter, LAST_COUNTER)))
        self.check("and none after it", differences(("seal", client.seal(SERVER), None)))
        plain = datagram(RFC, (OTHER, 0), (CLIENT, 1), 1, 0, b"FILE")
        self.check("to a host without a key a datagram goes in clear", differences(("sent", client.sends(plain), plain)))


class Keys(Checking):
    """How docs/OPERATING.md makes a key."""

    def test_each_line_makes_a_file_of_64_digits_that_nobody_else_reads(self):
        lines = re.findall(r"^ *\$ (\(umask .*> (\S+)\))$", (ROOT / "docs/OPERATING.md").read_text(), re.M)
        self.check("the page has two lines", [] if len(lines) == 2 else [f"{lines}"])
        for line, name in lines:
            if "openssl" in line and not shutil.which("openssl"):
                continue
            with folder() as here:
                ended = subprocess.run(["bash", "-c", line], cwd=here, capture_output=True)
                text, mode = (here / name).read_text(), (here / name).stat().st_mode & 0o777
            problems = differences(("status", (ended.returncode, ended.stderr), (0, b"")), ("mode", mode, 0o600))
            self.check(line, problems + ([] if re.fullmatch(r"[0-9a-f]{64}\n?", text) else [text]))


# The library, by the program of tests/crates/random_seals.

SEEDS, FLIPPED, LINES = [1, 2, 3], 4_000, 4_000


def ran(*words):
    """The status of random_seals, and what it printed."""
    ended = subprocess.run([checked("random_seals"), *map(str, words)], capture_output=True, text=True, timeout=LONG)
    return ended.returncode, ended.stdout


def bytes_of(digits):
    return b"" if digits == "-" else bytes.fromhex(digits)


def outcome_text(host, one):
    """What becomes of a datagram at a host in Python, as the program prints it."""
    opened, answer = host.takes(one)
    if opened.told == HANDED_UP:
        return f"handed up {opened.payload.hex().upper() or '-'}"
    return f"hello {answer.hex().upper()}" if opened.told == HELLO else opened.told if opened.told == LEARNED else f"fault {opened.told}"


class Library(Checking):
    """What chaos_seal seals and opens."""

    seconds = 60
    needs = ["random_seals"]

    def test_of_flipped_bits_the_library_hands_up_nothing(self):
        seeds = [*SEEDS, time.time_ns() // 1_000]
        with ThreadPoolExecutor(len(os.sched_getaffinity(0))) as lanes:
            runs = list(lanes.map(lambda seed: ran("flips", seed, FLIPPED), seeds))
        for seed, (status, told) in zip(seeds, runs):
            wanted = ["flipped, handed up or answered 0", f"whole, handed up {FLIPPED // 8}", "again, handed up 0", "ok"]
            problems = [line for line in wanted if line not in told.splitlines()]
            self.check(f"{FLIPPED} datagrams from seed {seed}", [f"status {status}", told] if status or problems else [])

    def test_the_library_and_the_reference_make_the_same_of_any_datagram(self):
        keys, host, wrong, outcomes = {}, None, [], set()
        status, told = ran("lines", 1981, LINES)
        for line in told.splitlines():
            word, rest = line.split(" ", 1)
            if word == "key":
                address, digits = rest.split()
                keys[int(address, 8)] = bytes_of(digits)
            elif word == "session":
                host = Host(SERVER, int(rest), keys)
            else:
                seen = outcome_text(host, bytes_of(word))
                wrong += [f"{word}: {rest} and not {seen}"] if seen != rest else []
                outcomes.add(re.match(r"fault \d+|\w+", rest)[0])
        self.check(f"{LINES} datagrams of all kinds", wrong[:3] + ([f"status {status}"] if status else []))
        wanted = {"handed", "hello", "learned", *(f"fault {number}" for number in range(1, 11))}
        self.check("each outcome is among them", sorted(wanted - outcomes))

    def test_words_that_are_none_of_its_are_a_mistake_status_2(self):
        self.assertEqual([(2, "")] * 2, [ran("nonsense"), ran("flips", "x")])
