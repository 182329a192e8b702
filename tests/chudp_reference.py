"""CHUDP, the framing of cbridge and other Chaosnet programs over UDP, by itself: a second reader and writer beside the program's.

A datagram is 01 01 and two bytes that are 0 and ignored, the words of a packet, and a trailer of three words: the next hop, the last
hop, and the Internet checksum (RFC 1071) of packet and trailer. Each word goes high byte first.
"""

import typing

HEAD = bytes([1, 1, 0, 0])
HEADER_WORDS, TRAILER_WORDS = 8, 3
DATA_LIMIT, LONGEST = 488, 2_048


class Fault(Exception):
    """Why a datagram is refused, in the words of `chaosd show --chudp`."""


class Delivery(typing.NamedTuple):
    """The words of a packet, data and all, with the next hop and the last hop."""

    words: tuple
    to: int
    sender: int


def checksum(octets):
    """The complement of the one's-complement sum of the words. 16 bits up, a carry counts as one: so that sum is a remainder by 65,535."""
    number = int.from_bytes(octets, "big")
    total = number % 65_535 or (65_535 if number else 0)
    return 65_535 - total


def octets_of(words):
    return b"".join(word.to_bytes(2, "big") for word in words)


def words_of(octets):
    return tuple(octets[at] << 8 | octets[at + 1] for at in range(0, len(octets), 2))


def encode(words, to, sender):
    """The datagram of a packet's words."""
    body = octets_of([*words, to, sender])
    return HEAD + body + octets_of([checksum(body)])


def in_chudp(datagram, to, sender):
    """A datagram of version 1 as one of CHUDP, which has another head, and a trailer."""
    return encode(words_of(datagram[len(HEAD) :]), to, sender)


def decode(datagram):
    """The delivery of a datagram, or its first fault."""
    if len(datagram) > LONGEST:
        raise Fault("1 TooLong")
    if len(datagram) < len(HEAD):
        raise Fault("2 Short")
    if datagram[0] != 1:
        raise Fault("3 BadVersion")
    if datagram[1] != 1:
        raise Fault("4 BadFunction")
    body = datagram[len(HEAD) :]
    if len(body) % 2 or len(body) < 2 * (HEADER_WORDS + TRAILER_WORDS):
        raise Fault("2 Short")
    if checksum(body):
        raise Fault("5 BadSum")
    *words, to, sender, _ = words_of(body)
    count = words[1] % 4_096
    if count > DATA_LIMIT:
        raise Fault("6 Packet 2 BadCount")
    size = HEADER_WORDS + (count + 1) // 2
    if len(words) < size:
        raise Fault("6 Packet 3 Truncated")
    if len(words) > size:
        raise Fault("7 Trailing")
    return Delivery(tuple(words), to, sender)


# What `chaosd show --chudp` reports.

NAMES = {1: "RFC", 2: "OPN", 3: "CLS", 4: "FWD", 5: "ANS", 6: "SNS", 7: "STS", 9: "LOS", 10: "LSN", 12: "EOF", 13: "UNC"}
NAMES |= {op: "DAT" for op in range(0o200, 0o300)} | {op: "DWD" for op in range(0o300, 0o400)}
WITH_STATUS = ("OPN", "STS")


def data_of(words):
    """The data bytes of a packet, two to a word, the first in the low half."""
    both = b"".join(word.to_bytes(2, "little") for word in words[HEADER_WORDS:])
    return both[: words[1] % 4_096]


def packet_lines(words):
    """The report of a packet."""
    op, data = words[0] >> 8, data_of(words)
    name = NAMES.get(op)
    lines = [f"op {op:03o}" + (f" {name}" if name else ""), f"fwd {words[1] >> 12} count {len(data)}"]
    lines += [f"to {words[2]:06o} {words[3]:06o}", f"from {words[4]:06o} {words[5]:06o}", f"num {words[6]} ack {words[7]}"]
    if name in WITH_STATUS and len(data) >= 4:
        lines.append(f"receipt {words[8]} window {words[9]}")
    elif data:
        lines.append("data " + data.hex(" ").upper())
    return lines


def report(datagram):
    """The report of a datagram: that of its packet, the hops and the sum of its trailer; or its fault."""
    try:
        words, to, sender = decode(datagram)
    except Fault as fault:
        return f"fault {fault}"
    trailer = [f"trailer to {to:06o} from {sender:06o}", "sum " + datagram[-2:].hex().upper()]
    return "\n".join(packet_lines(words) + trailer)


# Random datagrams, good and bad.

ENDS = [(0o401, 0), (0o401, 0o1001), (0o402, 0o1405), (0o1001, 0), (0o177777, 0o177777)]
SIZES = [0, 1, 2, 3, 4, 5, 487, 488]


def random_words(dice):
    """A packet as words, with whatever in its free halves."""
    count = dice.choice(SIZES) if dice.random() < 0.5 else dice.randrange(DATA_LIMIT + 1)
    op = dice.choice([*NAMES, 0o10, 0o13, 0o16]) if dice.random() < 0.8 else dice.randrange(256)
    free = dice.randrange(256) if dice.random() < 0.3 else 0
    numbers = [dice.choice([0, 65_535, dice.randrange(65_536)]) for _ in range(2)]
    data = dice.choice([bytes(count), b"\xff" * count, dice.randbytes(count), dice.randbytes(count)])
    data += bytes([dice.choice([0, free])]) * (count % 2)
    words = [int.from_bytes(data[at : at + 2], "little") for at in range(0, len(data), 2)]
    return [op << 8 | free, dice.randrange(16) << 12 | count, *dice.choice(ENDS), *dice.choice(ENDS), *numbers, *words]


def random_hops(dice):
    return dice.choice([0o401, 0o1001, 0, 65_535]), dice.choice([0o402, dice.randrange(65_536)])


def with_octets(datagram, at, new):
    return datagram[:at] + bytes(new) + datagram[at + len(new) :]


def summed(datagram):
    """A datagram with its sum made right, so far as it has one."""
    body = datagram[len(HEAD) : -2]
    return datagram[: len(HEAD)] + body + octets_of([checksum(body)])


# What makes a good datagram another, mostly a bad one.
HARMS = [
    lambda dice, good: good[: dice.randrange(len(good))],
    lambda dice, good: good + dice.randbytes(dice.randrange(1, 5)),
    lambda dice, good: good.ljust(dice.randrange(2_046, 2_052), b"x"),
    lambda dice, good: with_octets(good, dice.randrange(2), [dice.randrange(256)]),
    lambda dice, good: with_octets(good, 2, dice.randbytes(2)),
    lambda dice, good: with_octets(good, at := dice.randrange(len(good)), [good[at] ^ 1 << dice.randrange(8)]),
    lambda dice, good: with_octets(good, len(good) - 2, dice.randbytes(2)),
    lambda dice, good: summed(with_octets(good, 6, octets_of([dice.randrange(65_536)]))),
    lambda dice, good: summed(with_octets(good, 6, octets_of([dice.randrange(489, 4_096)]))),
    lambda dice, good: summed(good[:-6] + dice.randbytes(2 * dice.randrange(1, 3)) + good[-6:]),
    lambda dice, good: summed(good[:-8] + good[-6:]) if len(good) > 28 else good,
    lambda dice, good: dice.randbytes(dice.randrange(40)),
]


def random_datagram(dice, harmed=0.5):
    """The datagram of a random packet, such a share of them harmed."""
    good = encode(random_words(dice), *random_hops(dice))
    return dice.choice(HARMS)(dice, good) if dice.random() < harmed else good
