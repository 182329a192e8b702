"""The vectors of sealed datagrams, `sealed.txt` of examples/vectors: datagrams that one host opens, one after the other. Tags are
computed by Python's hmac. What becomes of each datagram is typed here, and not computed.
"""

import hmac
import struct

SERVER, CLIENT, OTHER, STRANGER = 0o401, 0o402, 0o403, 0o404
KEYS = {CLIENT: bytes(range(32)), OTHER: bytes(range(255, 223, -1)), STRANGER: bytes(32)}
SESSION, BEFORE, FIRST, SECOND = (1_764_000_000_000_000_000 + 1_000 * n for n in (3, 1, 2, 4))
LAST_COUNTER = 2**64 - 1
UP, LEARNED = "handed up", "learned"
VERSION_1 = b"CH\x01\x00"

ABOUT = f"""Host 000401 opens all datagrams of this file, one after the other. It has session {SESSION}. Its entry
# for host 000404 has no key, so it takes packets in clear. It has keys with two hosts:
# 000402: {KEYS[CLIENT].hex(" ").upper()}
# 000403: {KEYS[OTHER].hex(" ").upper()}
# A request of host 000402, in its session {FIRST}. It has heard nothing of 000401, so it names session 0, and draws a hello."""


def sealed(payload=b"", counter=1, session=FIRST, peer=SESSION, sender=CLIENT, to=SERVER, key=None):
    """The datagram that seals a payload, usually from host 402 to host 401, whose session it has heard."""
    text = b"CH\x03\x00" + struct.pack(">2H3Q", to, sender, session, peer, counter) + payload
    return text + hmac.digest(key or KEYS[sender if to == SERVER else to], text, "sha256")[:16]


def hello(counter, session):
    """What host 401 answers to a datagram of this session."""
    return "hello " + sealed(b"", counter, SESSION, session, SERVER, CLIENT).hex(" ").upper()


def flipped(datagram, at, bit=0):
    """A datagram with one bit of this byte turned."""
    return datagram[:at] + bytes([datagram[at] ^ 1 << bit]) + datagram[at + 1 :]


def first(packet):
    """How sessions meet."""
    request = VERSION_1 + packet(1, (SERVER, 0), (CLIENT, 0o1405), 5, 0, b"FILE")
    yield ABOUT, sealed(request, 1, peer=0), hello(1, FIRST)
    yield "The same again: it changed nothing, and draws another hello.", sealed(request, 1, peer=0), hello(2, FIRST)
    yield "An empty datagram that names another session is never answered.", sealed(b"", 2, peer=0), "fault 6 Stale"
    yield "Host 000402 heard the hello, and sends the request again at once, in the session of 000401.", sealed(request, 3), UP
    yield "A datagram counts once.", sealed(request, 3), "fault 8 OldCounter"
    yield "An empty datagram that names the session: the host that sent it is learned. This is what a hello is.", sealed(b"", 4), LEARNED


def refused(packet):
    """Each fault of the form and of the tag. None changes anything: the datagram of the last row still counts."""
    data = VERSION_1 + packet(0o200, (SERVER, 0o1001), (CLIENT, 0o1405), 6, 258, b"T1  DELETE\x8dFILE1")
    good, wrong = sealed(data, 5), "fault 5 BadTag"
    yield "One byte too few for a seal.", good[:47], "fault 1 Short"
    yield "The third byte alone makes it version 3.", good[:3], "fault 1 Short"
    yield "Version 3 has a zero behind it.", flipped(good, 3), "fault 2 BadVersion"
    yield "It is for host 000403.", sealed(data, 5, to=OTHER), "fault 3 OtherHost"
    yield "One bit of the receiver's address is turned.", flipped(good, 5), "fault 3 OtherHost"
    yield "Host 000404 and this host have no key.", sealed(data, 5, sender=STRANGER), "fault 4 NoKey"
    yield "The sender's address says 000403, whose key is another.", flipped(good, 7), wrong
    yield "One bit of the sender's session is turned.", flipped(good, 15), wrong
    yield "One bit of the receiver's session is turned: the tag is looked at first.", flipped(good, 16, 7), wrong
    yield "One bit of the counter is turned.", flipped(good, 31), wrong
    yield "One bit of the payload is turned: the path would be FILE3.", flipped(good, len(good) - 18, 1), wrong
    yield "One bit of the tag's first byte is turned.", flipped(good, len(good) - 16, 7), wrong
    yield "One bit of the tag's last byte is turned.", flipped(good, len(good) - 1), wrong
    yield "A byte less: the last 16 bytes are no longer the tag.", good[:-1], wrong
    yield "A byte more.", good + b"\x00", wrong
    yield "Sealed by the key of host 000403 in the name of 000402.", sealed(data, 5, key=KEYS[OTHER]), wrong
    yield "The datagram itself.", good, UP


def windows(packet):
    """Counters and sessions."""
    data = VERSION_1 + packet(6, (SERVER, 0o1001), (CLIENT, 0o1405), 0, 258)
    yield "Counters may be left out.", sealed(data, 1_000), UP
    yield "255 below the greatest counter is new enough.", sealed(data, 745), UP
    yield "But it counts once.", sealed(data, 745), "fault 8 OldCounter"
    yield "256 below is too old.", sealed(data, 744), "fault 8 OldCounter"
    yield "An earlier session of host 000402, whatever the counter.", sealed(data, 1_001, BEFORE), "fault 7 OldSession"
    yield "Host 000402 was restarted: a later session begins a new window.", sealed(data, 1, SECOND), UP
    yield "Now its session before is an earlier one.", sealed(data, 1_001), "fault 7 OldSession"
    yield "A hello of that session changes nothing, either.", sealed(b"", 1_002), "fault 7 OldSession"
    yield "The session of 000401 is looked at before that of the sender.", sealed(b"", 1_003, peer=1), "fault 6 Stale"
    yield "The greatest counter.", sealed(data, LAST_COUNTER, SECOND), UP
    yield "All counters but the last 256 are too old from now on.", sealed(data, LAST_COUNTER - 256, SECOND), "fault 8 OldCounter"
    yield "Host 000403 has a session and counters of its own.", sealed(b"", 1, 1, sender=OTHER), LEARNED


def payloads(packet):
    """What a seal may carry, and what comes in clear."""
    end = (SERVER, 0o1001)
    mine, foreign, strange = (packet(6, end, (sender, 0o1405), 0, 258) for sender in (CLIENT, OTHER, STRANGER))
    longest = b"CH\x02\x04" + packet(0o200, end, (CLIENT, 0o1405), 6, 258, bytes(488)) * 3 + packet(0o200, end, (CLIENT, 0o1405), 7, 258, bytes(468))
    counters = iter(range(LAST_COUNTER - 255, LAST_COUNTER))
    later = lambda payload: sealed(payload, next(counters), SECOND)
    yield "The longest: a payload of 2,000 bytes, of version 2.", later(longest), UP
    yield "The packet's source is host 000403, so the seal of 000402 doesn't speak for it.", later(VERSION_1 + foreign), "fault 9 ForeignPacket"
    yield "One packet of two has another source.", later(b"CH\x02\x02" + mine + foreign), "fault 9 ForeignPacket"
    yield "Its counter was heard all the same.", sealed(VERSION_1 + mine, LAST_COUNTER - 253, SECOND), "fault 8 OldCounter"
    yield "A payload that is no datagram carries no packet. It is handed up, and refused there.", later(VERSION_1 + mine[:15]), UP
    yield "A datagram in clear of a host without a key.", VERSION_1 + strange, UP
    yield "A datagram in clear of a host with a key.", VERSION_1 + mine, "fault 10 Unsealed"
    yield "Version 2 in clear: the second packet is of a host with a key.", b"CH\x02\x02" + strange + mine, "fault 10 Unsealed"
    yield "In clear, with a byte too many: it carries no packet, so it is handed up, and refused there.", VERSION_1 + mine + b"\x00", UP


def head_lines(datagram):
    """What stands in a sealed datagram, or nothing where it is none."""
    if len(datagram) < 48 or datagram[:4] != b"CH\x03\x00":
        return []
    to, sender, session, peer, counter = struct.unpack(">2H3Q", datagram[4:32])
    lines = [f"to {to:06o} from {sender:06o}", f"session {session} peer {peer} counter {counter}"]
    return [*lines, f"payload {len(datagram) - 48}", "tag " + datagram[-16:].hex(" ").upper()]


def rows(packet):
    """Each datagram: what it shows, its bytes, and what becomes of it. `packet` makes the words of one."""
    for part in (first, refused, windows, payloads):
        yield from part(packet)


def blocks_of(packet):
    """The named datagrams, and their reports."""
    found = list(rows(packet))
    return [(name, datagram) for name, datagram, _ in found], [[*head_lines(datagram), told] for _, datagram, told in found]
