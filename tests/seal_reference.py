"""The sealed link by itself: a second host that seals and opens beside the program's, from docs/PROTOCOL.md.

A sealed datagram is the mark 43 48, the version 03 00, the addresses of receiver and sender, the sender's session, the receiver's
session as the sender last heard it, a counter, a payload and a tag: the first 16 bytes of HMAC-SHA-256 over everything before it. Each
number goes high byte first. The payload is a whole datagram of version 1 or 2, or empty.
"""

import hmac
import struct
import typing

MARK, VERSION, FRONT = b"CH", b"\x03\x00", 4
HEAD_BYTES, TAG_BYTES, KEY_BYTES = 32, 16, 32
SEAL_BYTES = HEAD_BYTES + TAG_BYTES
LONGEST, MOST_PAYLOAD = 2_048, 2_000
WINDOW, LAST_COUNTER, MOST_PEERS = 256, 2**64 - 1, 32
HEADER_BYTES, DATA_LIMIT, MOST_PACKETS, LONGEST_BUNDLE = 16, 488, 8, 2_020

SHORT, BAD_VERSION, OTHER_HOST, NO_KEY, BAD_TAG = "1 Short", "2 BadVersion", "3 OtherHost", "4 NoKey", "5 BadTag"
STALE, OLD_SESSION, OLD_COUNTER, FOREIGN, UNSEALED = "6 Stale", "7 OldSession", "8 OldCounter", "9 ForeignPacket", "10 Unsealed"


class Head(typing.NamedTuple):
    """What stands in front of the payload, behind the version."""

    to: int
    sender: int
    session: int
    peer: int
    counter: int


def tag_of(key, text):
    return hmac.digest(key, text, "sha256")[:TAG_BYTES]


def sealed(key, head, payload=b""):
    """The one datagram that seals a payload behind this head."""
    text = MARK + VERSION + struct.pack(">2H3Q", *head) + payload
    return text + tag_of(key, text)


def is_sealed(datagram):
    """Whether a datagram is of version 3, right or wrong."""
    return datagram[:3] == MARK + VERSION[:1]


def head_of(datagram):
    return Head(*struct.unpack(">2H3Q", datagram[FRONT:HEAD_BYTES]))


def payload_of(datagram):
    return datagram[HEAD_BYTES:-TAG_BYTES]


# The packets of a datagram of version 1 or 2, so far as a seal looks at them.


def packet_end(datagram, at):
    """Where the packet ends that begins at a byte, or None where none does."""
    count = int.from_bytes(datagram[at + 2 : at + 4], "big") % 4_096
    end = at + HEADER_BYTES + count + count % 2
    return end if len(datagram) >= at + HEADER_BYTES and count <= DATA_LIMIT and end <= len(datagram) else None


def packets_at(datagram):
    """Where each packet of a datagram begins: nowhere in a datagram that has a fault."""
    if len(datagram) < FRONT or datagram[:2] != MARK or datagram[2] not in (1, 2) or datagram[2:FRONT] == b"\x02\x00":
        return []
    number = 1 if datagram[2] == 1 else datagram[3]
    if number > MOST_PACKETS or datagram[2] == 1 and datagram[3] or datagram[2] == 2 and len(datagram) > LONGEST_BUNDLE:
        return []
    found, at = [], FRONT
    for _ in range(number):
        found.append(at)
        at = packet_end(datagram, at)
        if at is None:
            return []
    return found if at == len(datagram) else []


def word_at(datagram, at):
    return int.from_bytes(datagram[at : at + 2], "big")


def sources_of(datagram):
    """The hosts that sent the packets of a datagram."""
    return {word_at(datagram, at + 8) for at in packets_at(datagram)}


def destinations_of(datagram):
    """The hosts that the packets of a datagram are for."""
    return {word_at(datagram, at + 4) for at in packets_at(datagram)}


def destination_of(datagram):
    """The host that the first packet of a datagram is for."""
    return word_at(datagram, FRONT + 4)


# A host's state.


class Known:
    """What a host knows of another that it has a key with."""

    def __init__(self, key):
        self.key, self.sent, self.session = key, 0, 0
        self.greatest, self.heard = 0, {0}

    def begin(self, session):
        """A newer session begins with nothing heard but counter 0, which is never sent."""
        self.session, self.greatest, self.heard = session, 0, {0}

    def is_fresh(self, counter):
        return counter not in self.heard and counter + WINDOW > self.greatest

    def hear(self, counter):
        self.heard.add(counter)
        self.greatest = max(self.greatest, counter)


class Opened(typing.NamedTuple):
    """What becomes of a datagram: it is handed up, or why it isn't; with the bytes that are handed up, and the host and the session that
    a hello is for, or the host that was learned."""

    told: str
    payload: bytes = b""
    host: int = 0
    session: int = 0


HANDED_UP, HELLO, LEARNED = "handed up", "hello", "learned"


class Host:
    """A host with an address, a session, and keys with others by their addresses. It keeps one datagram: the last that it sealed."""

    def __init__(self, me, session, keys=()):
        self.me, self.session = me, session
        self.others = {address: Known(key) for address, key in dict(keys).items()}
        self.kept = None

    def seal(self, to, payload=b"", peer=None):
        """The payload under seal for a host, whose session is the newest heard where no other is given; None where nothing is sealed."""
        other = self.others.get(to)
        if not other or other.sent == LAST_COUNTER or len(payload) > MOST_PAYLOAD:
            return None
        other.sent += 1
        return sealed(other.key, Head(to, self.me, self.session, other.session if peer is None else peer, other.sent), payload)

    def open(self, datagram):
        """What becomes of a datagram."""
        if not is_sealed(datagram):
            return Opened(UNSEALED if sources_of(datagram) & self.others.keys() else HANDED_UP, datagram)
        if len(datagram) < SEAL_BYTES:
            return Opened(SHORT)
        if datagram[3]:
            return Opened(BAD_VERSION)
        head = head_of(datagram)
        if head.to != self.me:
            return Opened(OTHER_HOST)
        if head.sender not in self.others:
            return Opened(NO_KEY)
        other, payload = self.others[head.sender], payload_of(datagram)
        if not hmac.compare_digest(tag_of(other.key, datagram[:-TAG_BYTES]), datagram[-TAG_BYTES:]):
            return Opened(BAD_TAG)
        return self.judged(other, head, payload)

    def judged(self, other, head, payload):
        """What becomes of a datagram whose tag is right."""
        if head.peer != self.session:
            return Opened(HELLO, b"", head.sender, head.session) if payload else Opened(STALE)
        if head.session < other.session:
            return Opened(OLD_SESSION)
        if head.session > other.session:
            other.begin(head.session)
        if not other.is_fresh(head.counter):
            return Opened(OLD_COUNTER)
        other.hear(head.counter)
        if not payload:
            return Opened(LEARNED, b"", head.sender)
        return Opened(HANDED_UP, payload) if sources_of(payload) <= {head.sender} else Opened(FOREIGN)

    def sends(self, datagram):
        """What goes out where this datagram is to be sent: under seal to a host with a key, and then it is kept. None goes nowhere."""
        to = destination_of(datagram)
        if to not in self.others:
            return datagram
        self.kept = (to, datagram)
        return self.seal(to, datagram)

    def takes(self, datagram):
        """What becomes of a datagram that came, and what goes back to where it came from, or None: a hello, or what was kept."""
        opened = self.open(datagram)
        if opened.told == HELLO:
            return opened, self.seal(opened.host, b"", opened.session)
        if opened.told == LEARNED and self.kept and self.kept[0] == opened.host:
            return opened, self.seal(*self.kept)
        return opened, None
