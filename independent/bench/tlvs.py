"""The script of `bench`: the length octet of a TLV, which is the value's length less one.

Document 02 (iv); RULES 9.3 to 9.6; DECISIONS, iv-zero-tlvs to iv-empty. Most TLVs stand here as raw
octets, apart from the tool that the other cases make theirs with.
"""

from ..lines import ok, run_of
from .commands import RELAY, UNDER, WIRE_DEVICE, WITH_TLVS, bodies
from .tools import OWN, no, tlv

RELAYS = ("down", "up")
OTHERS = tuple(word for word in WITH_TLVS if word not in RELAYS)
UPDATE = ("update",)
SEVEN = b"\x00\x06" + run_of(7)                    # just too short for Relay
HELD = 256                                         # octets that a field holds
GREATEST = {"transport4": 70, "transport2": 77, "transport3": 77, "update": 92, "down": 103,
            "up": 103}                             # of a single value, in a frame of 108


class Carriers:
    """Commands that carry TLVs, read, asked for values and written; how many were written."""

    def __init__(self, bench):
        self.bench, self.turn, self.written = bench, 0, 0
        bench.board(OWN, 77)

    def each(self, words, tlvs, values, number=None):
        """Commands with just these TLVs, and the values of some tags; refused with the number, if
        one is told."""
        for word, fields, body in bodies(tlvs, b""):
            if word not in words:
                continue
            self.turn += 1
            under = UNDER[word][self.turn // 2 % len(UNDER[word])]
            self.bench.add("read", under, b"\x41\x07" + body,
                           expect=no(number) if number else ok(word, *fields))
            for tag, value in values.items():
                self.bench.add("tlv", under, tag, b"\x01\x07" + body, expect=ok(value))
            ack = self.turn & 1
            front = bytes([0x41 if ack else 0x01, self.written % 256])
            self.bench.add("write", "ack" if ack else "noack", word, *fields,
                           expect=no(number) if number else ok(front + body))
            self.written += number is None

    def refused(self, words, tlvs, *tags):
        """TLVs that are 11, read and written; the values of some tags are empty."""
        self.each(words, tlvs, dict.fromkeys(tags, b""), 11)

    def written_as(self, words, tlvs, number):
        """TLVs that the writer refuses with a number; no frame that is read holds them."""
        for word, fields, _ in bodies(tlvs, b""):
            if word in words:
                self.bench.add("write", "ack", word, *fields, expect=no(number))

    def counted(self):
        """Asks for the state: only what was written moved the APS counter."""
        self.bench.state(77, self.written % 256, "-")


# ---- the least ---------------------------------------------------------------------------------

def add_least(bench):
    """TLVs of 3 octets, which are the least, and none at all."""
    carriers = Carriers(bench)
    bench.group("RULES 9.3: length octet 0 means one octet; the least TLV has 3 octets, alone in "
                "every command but Relay")
    for tlvs, tag, value in ((b"\x00\x00\x00", 0, b"\x00"), (b"\xff\x00z", 255, b"z")):
        carriers.each(OTHERS, tlvs, {tag: value})
        carriers.refused(RELAYS, tlvs, tag)
    bench.group("the least TLV before Relay's own, behind it, and many of them")
    carriers.each(RELAYS, b"\x00\x00z" + RELAY, {0: b"z"})
    carriers.each(RELAYS, RELAY + b"\x01\x00\x00", {0: RELAY[2:], 1: b"\x00"})
    carriers.each(("update", "transport4"), b"\x00" * 69, {0: b"\x00", 1: b""})
    carriers.refused(("update", "transport4"), b"\x00" * 68, 0)
    bench.group("DECISIONS, iv-zero-tlvs: no TLVs at all in every command but Relay")
    carriers.each(OTHERS, b"", {0: b""})
    carriers.refused(RELAYS, b"", 0)
    carriers.counted()


def add_empty(bench):
    """What had an empty value while the length octet was the value's length."""
    carriers = Carriers(bench)
    bench.group("DECISIONS, iv-length-octet: no value is empty: length octet 0 with nothing behind "
                "it is cut, alone, behind a good TLV and behind Relay's own")
    carriers.refused(WITH_TLVS, b"\x00\x00", 0)
    for tlvs, tag in ((b"\xff\x00", 255), (b"\x08\x00", 8), (b"\x00", 0), (b"\x00\x00z\x00", 0),
                      (b"\x07\x01ab\x08\x00", 7), (b"\x01\x00x\x01\x01yz\x00\x00", 1)):
        carriers.refused(UPDATE, tlvs, tag)
    for header in (b"\x00\x00", b"\xff\x00"):
        carriers.refused(RELAYS, RELAY + header, 0)
    bench.group("length octet 0 with a TLV behind it takes that one's tag for its value")
    carriers.refused(UPDATE, b"\x01\x00" + b"\x02\x00x", 1, 2)
    carriers.refused(UPDATE, b"\x01\x00" + b"\x02\x01xy", 1, 2)
    carriers.each(UPDATE, b"\x01\x00" + b"\x02\x01\x00a", {1: b"\x02", 2: b""})
    carriers.each(UPDATE, b"\x01\x00" + b"\x02\x02\x00a", {1: b"\x02", 2: b"a"})
    carriers.refused(RELAYS, b"\x00\x00" + RELAY, 0)
    carriers.refused(RELAYS, b"\x05\x00a" + RELAY + b"\x05\x00", 5)
    was = b"\x07\x02ab" + b"\x08\x00" + b"\x07\x01c" + b"\xff\x03xyz"
    carriers.refused(UPDATE, was, 7, 8, 255)
    for words in (UPDATE, RELAYS):
        carriers.each(words, was + b"!", {7: b"ab\x08", 0: b"\x01c\xff\x03xyz!", 8: b""})
    carriers.counted()


# ---- the length octet --------------------------------------------------------------------------

def add_meanings(bench):
    """Octets that TLVs fill by one meaning of the length octet and not by the other."""
    carriers = Carriers(bench)
    bench.group("the length octet taken for the length: TLVs that would fill their place are 11")
    carriers.refused(WITH_TLVS, b"\x00\x08relaying", 0)
    carriers.refused(OTHERS, b"\x01\x03abc", 1)
    carriers.refused(UPDATE, b"\x07\x01a\x08\x01b", 7, 8)
    bench.group("the same values with the length less one fill it")
    carriers.each(WITH_TLVS, b"\x00\x07relaying", {0: b"relaying"})
    carriers.each(OTHERS, b"\x01\x02abc", {1: b"abc"})
    carriers.each(UPDATE, b"\x07\x00a\x08\x00b", {7: b"a", 8: b"b"})
    carriers.counted()


def add_long(bench):
    """Long values: read up to 108 octets of frame, lent to the writer up to what a field holds."""
    carriers = Carriers(bench)
    bench.group("the longest value in a frame of 108 octets; its length octet one more, one less, "
                "255")
    for word, size in GREATEST.items():
        value = run_of(size)
        carriers.each((word,), bytes([0, size - 1]) + value, {0: value})
        for octet in (size, size - 2, 255) if word in ("update", "down") else (size,):
            carriers.refused((word,), bytes([0, octet]) + value, 0)
    bench.group("write: length octet 253 and 254 octets are as many as a field holds: well formed, "
                "so 2; another length octet, or one octet less: 11; one more: bad")
    words, most = ("update", "down"), HELD - 2
    carriers.written_as(words, b"\x00\xfd" + bytes(most), 2)
    for octet, size in ((0xFC, most), (0xFE, most), (0xFF, most), (0xFD, most - 1), (0xFF, 0)):
        carriers.written_as(words, bytes([0, octet]) + bytes(size), 11)
    bench.add("write", "ack", "down", b"\x00\xfe" + bytes(most + 1), expect="bad")
    bench.add("write", "ack", "down", b"\x00\xff" + bytes(most + 2), expect="bad")
    bench.group("write: 85 TLVs of the least size are well formed; with an octet more or less not")
    carriers.written_as(UPDATE, bytes(255), 2)
    carriers.written_as(RELAYS, bytes(255), 11)
    for size in (254, 256):
        carriers.written_as(words, bytes(size), 11)
    carriers.counted()


# ---- Relay's rule, and values ------------------------------------------------------------------

def add_relay(bench):
    """Relay's rule counts octets of value."""
    carriers = Carriers(bench)
    bench.group("DECISIONS, iv-relay-octets: tag 0 with length octet 6 is too short, with 7 and 8 "
                "it is not")
    carriers.refused(RELAYS, SEVEN, 0)
    for octet in (7, 8):
        value = run_of(octet + 1, octet)
        carriers.each(RELAYS, bytes([0, octet]) + value, {0: value})
    bench.group("Relay: 8 octets behind length octet 6, 7 behind 7, 8 behind 8; another tag")
    for tlvs in (b"\x00\x06" + run_of(8), b"\x00\x07" + run_of(7), b"\x00\x08" + run_of(8),
                 b"\x01\x07" + run_of(8)):
        carriers.refused(RELAYS, tlvs, tlvs[0])
    bench.group("DECISIONS, relay-any-tlv: a shorter first one of tag 0, whose value is the one "
                "asked for; none long enough")
    for tlvs, first in ((SEVEN + RELAY, run_of(7)), (b"\x00\x00x" + SEVEN + RELAY, b"x"),
                        (SEVEN + b"\x01\x07" + run_of(8) + RELAY, run_of(7)),
                        (RELAY + SEVEN, run_of(8))):
        carriers.each(RELAYS, tlvs, {0: first})
    for tlvs in (SEVEN + SEVEN, SEVEN + b"\x01\x07" + run_of(8), b"\x01\x07" + run_of(8) + SEVEN):
        carriers.refused(RELAYS, tlvs, 0)
    bench.group("DECISIONS, iv-inside: TLVs inside of a value are octets of it")
    carriers.refused(RELAYS, tlv(1, RELAY), 0, 1)
    carriers.each(RELAYS, tlv(0, RELAY), {0: RELAY, 3: b""})
    carriers.counted()


def add_first(bench):
    """The values of tags: empty exactly where the frame is refused or the tag missing."""
    bench.group("DECISIONS, iv-empty: tlv: first of several, one octet long, missing; refused by "
                "protection, cut, one octet more")
    tlvs = b"\x07\x00a" + b"\x08\x01bc" + b"\x07\x02def" + b"\xff\x00\x00" + b"\xff\x01gh"
    frame = b"\x41\x07\x06" + WIRE_DEVICE + b"\x08\x3c\x01" + tlvs
    for tag, value in ((7, b"a"), (8, b"bc"), (255, b"\x00"), (0, b""), (6, b"")):
        bench.add("tlv", 0, tag, frame, expect=ok(value))
        bench.add("tlv", 0, tag, frame[:-1], expect=ok(""))
    for under in ("none", 1, 2, 3, 255):
        bench.add("tlv", under, 255, frame, expect=ok(""))
    for octets in (frame + b"\x07", frame + b"\x07\x00", frame + bytes(109 - len(frame)),
                   b"\x61" + frame[1:]):
        bench.add("tlv", 0, 7, octets, expect=ok(""))


def add_length_octets(bench):
    """All of this file."""
    for add in (add_least, add_empty, add_meanings, add_long, add_relay, add_first):
        add(bench)
