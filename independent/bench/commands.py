"""The script of `bench`: APS commands read and written, TLVs, the APS counter.

Document 01, "The commands", with the points that docs/DECISIONS.md settles there and for the bench
language; document 02 (iv) for the length of a TLV. Layouts and protections are written out here
once more, apart from model/commands.py.
"""

from ..lines import Chance, address, ok, run_of, sure
from ..published import annexc
from .tools import ALL_ONES, OWN, no, tlv

DEVICE, TRUST = 0x00124B00AABBCCDD, 0x0102030405060708
WIRE_DEVICE, WIRE_TRUST = bytes.fromhex("ddccbbaa004b1200"), bytes.fromhex("0807060504030201")
KEY, HASH, INNER = run_of(16, 40), run_of(16, 90), b"\x21\x05\x20" + run_of(17, 7)
RELAY = tlv(0, run_of(8))
UNDER = {"transport1": (2,), "transport2": (3,), "transport3": (3,), "transport4": (3,),
         "update": (0,), "remove": (0,), "request2": (0,), "request4": (0,),
         "switchkey": ("none", 0), "tunnel": ("none",), "verify": ("none",), "confirm": (0,),
         "down": ("none", 0), "up": ("none", 0)}
LEAST = {"transport1": 35, "transport2": 27, "transport3": 27, "transport4": 34, "update": 12,
         "remove": 9, "request2": 10, "request4": 2, "switchkey": 2, "tunnel": 29, "verify": 26,
         "confirm": 11, "down": 11, "up": 11}
PROTECTIONS = ("none", 0, 1, 2, 3, 4, 255)
TLV_SETS = (tlv(0, b"\x00"), tlv(255, b"\xff"), tlv(1, b"abc"),
            tlv(1, b"x") + tlv(1, b"yz") + tlv(0, b"\x00"), tlv(0, b"relaying"),
            tlv(0x4B, b"\x02") + tlv(0, b"relaying!"))
CUT_LONG = b"\x01\xff" + bytes(41)
BAD_TLVS = (b"\x00", b"\x01\x00", b"\x01\x01x", tlv(0, b"\x00") + b"\x00",
            tlv(1, b"x") + b"\x02", CUT_LONG, tlv(1, b"x") + b"y")


def bodies(tlvs=b"", relay=RELAY):
    """Each command as word, fields and the octets from the identifier on."""
    device, trust = address(DEVICE), address(TRUST)
    return (
        ("transport1", (KEY, 9, device, trust),
         b"\x05\x01" + KEY + b"\x09" + WIRE_DEVICE + WIRE_TRUST),
        ("transport4", (KEY, device, trust, tlvs),
         b"\x05\x04" + KEY + WIRE_DEVICE + WIRE_TRUST + tlvs),
        ("transport2", (KEY, device, 1, tlvs), b"\x05\x02" + KEY + WIRE_DEVICE + b"\x01" + tlvs),
        ("transport3", (KEY, device, 0, tlvs), b"\x05\x03" + KEY + WIRE_DEVICE + b"\x00" + tlvs),
        ("update", (device, 0x3C08, 1, tlvs), b"\x06" + WIRE_DEVICE + b"\x08\x3c\x01" + tlvs),
        ("remove", (device,), b"\x07" + WIRE_DEVICE),
        ("request2", (device,), b"\x08\x02" + WIRE_DEVICE),
        ("request4", (), b"\x08\x04"),
        ("switchkey", (5,), b"\x09\x05"),
        ("tunnel", (device, INNER), b"\x0e" + WIRE_DEVICE + INNER),
        ("verify", (4, device, HASH), b"\x0f\x04" + WIRE_DEVICE + HASH),
        ("confirm", (0, 4, device), b"\x10\x00\x04" + WIRE_DEVICE),
        ("down", (relay + tlvs,), b"\x11" + relay + tlvs),
        ("up", (tlvs + relay,), b"\x12" + tlvs + relay),
    )


WITH_TLVS = ("transport4", "transport2", "transport3", "update", "down", "up")


def read(bench, protection, body, expect, control=0x41):
    """Reads a body behind a command header."""
    bench.add("read", protection, bytes([control, 7]) + body, expect=expect)


def least(word, body):
    """A body cut to its least size."""
    sure(len(body) == LEAST[word], "not the least octets of", word)
    return body


def filled(body, size):
    """A body grown to a size by one TLV of tag 1."""
    return body + tlv(1, run_of(size - len(body) - 2))


# ---- reading -----------------------------------------------------------------------------------

def add_reading(bench):
    """Every command under every protection, at its least size, one under, one over and at 108."""
    for word, fields, body in bodies():
        bench.group(f"read {word}: every protection, least size {LEAST[word]}, one under, one over")
        good = UNDER[word][0]
        for protection in PROTECTIONS:
            expect = (ok(word, *fields) if protection in UNDER[word]
                      else no(14) if protection in (1, 4, 255) else no(12))
            read(bench, protection, least(word, body), expect)
        for protection in ("none", 0, 2, 3):
            read(bench, protection, body[:-1], no(11))
            read(bench, protection, body + b"\x00",
                 no(11) if word != "tunnel" else no(12) if protection != "none" else
                 ok(word, fields[0], INNER + b"\x00"))
        for size in sorted({1, 2, len(body) // 2, len(body) - 2} - {len(body), 0}):
            read(bench, good, body[:size], no(11))
        for control in (0x01, 0x09, 0x49):
            read(bench, good, body, ok(word, *fields), control)
        add_full_reading(bench, word, fields, body, good)


def add_full_reading(bench, word, fields, body, good):
    """A command of 108 octets with its header, and one of 109."""
    full = filled(body, 106) if word in WITH_TLVS else body + run_of(106 - len(body))
    if word in WITH_TLVS:
        expect = ok(word, *fields[:-1], fields[-1] + full[len(body):])
    elif word == "tunnel":
        expect = ok(word, fields[0], full[9:])
    else:
        expect = no(11)
    read(bench, good, full, expect)
    read(bench, good, full + b"\x00", no(2))
    bench.add("tlv", good, 1, b"\x41\x07" + full, expect=ok(full[len(body) + 2:])
              if word in WITH_TLVS else ok(""))
    bench.add("tlv", good, 1, b"\x41\x07" + full + b"\x00", expect=ok(""))


def add_tlvs(bench):
    """TLVs well and ill formed, and the values of tags."""
    bench.group("read: well-formed TLVs, and the first value of some tags")
    for tlvs in TLV_SETS:
        for word, fields, body in bodies(tlvs):
            if word in WITH_TLVS:
                good = UNDER[word][-1]
                read(bench, good, body, ok(word, *fields))
                bench.add("tlv", good, tlvs[0], b"\x01\x00" + body)
    bench.group("read: TLVs that don't fill the rest exactly")
    for tlvs in BAD_TLVS:
        for word, _, body in bodies(tlvs):
            if word in WITH_TLVS and (word != "up" or tlvs == CUT_LONG):
                read(bench, UNDER[word][0], body, no(11))
                bench.add("tlv", UNDER[word][0], 1, b"\x41\x07" + body, expect=ok(""))
    bench.group("DECISIONS, relay-any-tlv: any TLV of tag 0 with 8 or more octets; tlv: the first")
    for tlvs, first in ((b"", None), (tlv(0, bytes(7)), None), (tlv(1, bytes(8)), None),
                        (tlv(0, b"y") + RELAY, b"y"), (RELAY + tlv(0, b"z"), run_of(8)),
                        (tlv(0, bytes(7)) + tlv(1, bytes(9)), None),
                        (tlv(5, b"a") + RELAY + tlv(5, b"b"), run_of(8)),
                        (tlv(0, run_of(9)), run_of(9)), (RELAY + RELAY, run_of(8)),
                        (tlv(0, b"abcd") + tlv(0, b"efgh"), None), (RELAY + b"\x00", None),
                        (tlv(0, run_of(95)), run_of(95))):
        for word, identifier in (("down", b"\x11"), ("up", b"\x12")):
            read(bench, "none", identifier + tlvs, no(11) if first is None else ok(word, tlvs))
            bench.add("tlv", 0, 0, b"\x01\x07" + identifier + tlvs, expect=ok(first or b""))
    add_values(bench)


def add_values(bench):
    """The values of tags, missing, refused, first of several."""
    bench.group("tlv: first of several, the least, missing; DECISIONS, parts-empty")
    tlvs = tlv(7, b"ab") + tlv(8, b"\x00") + tlv(7, b"c") + tlv(255, b"xyz")
    frame = b"\x41\x07\x06" + WIRE_DEVICE + b"\x08\x3c\x01" + tlvs
    for tag, value in ((7, b"ab"), (8, b"\x00"), (255, b"xyz"), (0, b""), (6, b"")):
        bench.add("tlv", 0, tag, frame, expect=ok(value))
        for protection in ("none", 1, 2, 3, 4, 255):
            bench.add("tlv", protection, tag, frame, expect=ok(""))
    for word, _, body in bodies():
        if word not in WITH_TLVS:
            for tag in (0, 4, 9, body[0]):
                bench.add("tlv", UNDER[word][0], tag, b"\x41\x07" + body, expect=ok(""))
    for octets in (b"", b"\x41", b"\x61\x07" + body, b"\xff" * 109, b"\x41\x07"):
        bench.add("tlv", "none", 0, octets, expect=ok(""))


def add_identifiers(bench):
    """Reserved identifiers and types, and the order of the reader."""
    bench.group("read: reserved identifiers are 11, of any size")
    for identifier in [*range(0x00, 0x05), *range(0x0A, 0x0E), *range(0x13, 0x20), 0x80, 0xFF]:
        for size in (1, 2, 9, 35):
            read(bench, ("none", 0, 2, 3)[identifier % 4], bytes([identifier]) + bytes(size - 1),
                 no(11))
    bench.group("read: Transport-Key and Request-Key: every other type is 11")
    for kind in (0, 5, 6, 127, 128, 255):
        for size in (27, 34, 35):
            read(bench, 3, bytes([5, kind]) + bytes(size - 2), no(11))
    for kind in (0, 1, 3, 5, 255):
        for size in (2, 10):
            read(bench, 0, bytes([8, kind]) + bytes(size - 2), no(11))
    bench.group("read: one type's size under the other's name")
    for kind, size, number in ((1, 34, 11), (4, 35, 11), (2, 26, 11), (3, 28, 11), (1, 27, 11),
                               (4, 27, 11), (4, 36, 11), (2, 29, 11), (4, 37, None), (2, 30, None)):
        read(bench, 2 if kind == 1 else 3, bytes([5, kind]) + bytes(size - 2),
             number and no(number))
    read(bench, 0, b"\x08\x02", no(11))
    read(bench, 0, b"\x08\x04" + bytes(8), no(11))
    bench.group("read: status, flag and type fields are handed on unjudged; "
                "DECISIONS, addresses-unjudged: addresses too")
    for octet in (0, 1, 127, 255):
        for sender in (0, ALL_ONES):
            wire, text = sender.to_bytes(8, "little"), address(sender)
            read(bench, 0, bytes([0x10, octet, octet ^ 255]) + wire,
                 ok("confirm", octet, octet ^ 255, text))
            read(bench, "none", bytes([0x0F, octet]) + wire + HASH, ok("verify", octet, text, HASH))
            read(bench, 0, b"\x06" + wire + bytes([octet, octet ^ 255, octet]),
                 ok("update", text, octet + 256 * (octet ^ 255), octet, b""))
            read(bench, 3, b"\x05\x02" + KEY + wire + bytes([octet]),
                 ok("transport2", KEY, text, octet, b""))


def add_order(bench):
    """The reader's refusals in their order."""
    body = b"\x09\x05"
    bench.group("RULES 9.4: 14 first, even with 200 octets; then 2, 3, 4, 3, 4, 11, 12")
    for protection in (1, 4, 100, 255):
        for octets in (bytes(200), b"", b"\x41\x07" + body):
            bench.add("read", protection, octets, expect=no(14))
    for protection in ("none", 0, 2, 3):
        for octets, number in ((bytes(109), 2), (bytes(256), 2), (b"", 3), (b"\x41", 3),
                               (b"\x61", 3), (b"\x03", 4), (b"\x51\x07", 4), (b"\xc1\x07", 4),
                               (b"\x45\x07", 4), (b"\x41\x07", 11), (b"\x41\x07\x09", 11)):
            bench.add("read", protection, octets, expect=no(number))
    read(bench, 2, body, no(12))
    read(bench, 3, body + b"\x00", no(11))
    bench.group("DECISIONS, readers-header: data and acks: their own header's 3, then 4; secured "
                "commands 4")
    for control, length in ((0x40, 8), (0x08, 8), (0x0C, 9), (0x02, 8), (0x12, 2), (0x61, 2),
                            (0x29, 2), (0x20, 8)):
        for size in (1, length - 1, length, length + 5):
            octets = bytes([control]) + b"\x09" * (size - 1)
            bench.add("read", "none", octets, expect=no(3) if size < length else no(4))


# ---- writing -----------------------------------------------------------------------------------

def add_writing(bench):
    """Every command written, read back, with and without TLVs, at its limits."""
    bench.board(OWN, 77)
    counter = 0
    for turn, tlvs in enumerate((b"",) + TLV_SETS):
        bench.group(f"write, then read back: TLVs {tlvs.hex() or 'none'}; RULES 1.2: "
                    "numbers least octet first, keys and hashes in order")
        for word, fields, body in bodies(tlvs):
            if turn and word not in WITH_TLVS:
                continue
            ack = (turn + len(body)) % 2 == 0
            frame = bytes([0x41 if ack else 0x01, counter]) + body
            bench.add("write", "ack" if ack else "noack", word, *fields, expect=ok(frame))
            bench.add("read", UNDER[word][0], frame, expect=ok(word, *fields))
            counter += 1
    bench.state(77, counter, "-")
    counter = add_limits(bench, counter)
    add_wrong_parts(bench, counter)


def add_limits(bench, counter):
    """106 octets of command are written, 107 are 2."""
    bench.group("DECISIONS, writers-order: a frame of 108 octets is written, one of 109 is 2")
    for word, fields, body in bodies():
        if word not in WITH_TLVS + ("tunnel",):
            continue
        for size in (105, 106, 107, 120):
            full = body + run_of(size - len(body)) if word == "tunnel" else filled(body, size)
            part = full[9:] if word == "tunnel" else fields[-1] + full[len(body):]
            good = size <= 106
            bench.add("write", "ack", word, *fields[:-1], part,
                      expect=ok(bytes([0x41, counter]) + full) if good else no(2))
            counter += good
    bench.add("write", "ack", "tunnel", address(0), INNER + bytes(236), expect=no(2))
    bench.add("write", "noack", "down", tlv(0, bytes(254)), expect=no(2))
    bench.state(77, counter, "-")
    return counter


def add_wrong_parts(bench, counter):
    """Parts of a wrong length or form: 11, before 2; room: 1, before both."""
    bench.group("DECISIONS, bad-or-refused: keys, hashes and inner frames of a wrong length, "
                "TLVs ill formed: 11")
    for word, fields, _ in bodies():
        for place, field in enumerate(fields):
            if not isinstance(field, bytes):
                continue
            if field == INNER:
                wrong = [INNER[:n] for n in (0, 1, 19)]
            elif field in (KEY, HASH):
                wrong = [bytes(n) for n in (0, 1, 15, 17, 32, 256)]
            else:
                wrong = [*BAD_TLVS, bytes(256)] + ([b"", tlv(0, bytes(7))]
                                                   if word in ("down", "up") else [])
            for part in wrong:
                bench.add("write", "ack", word, *fields[:place], part, *fields[place + 1:],
                          expect=no(11))
    bench.group("write: 11 before 2")
    long = tlv(1, bytes(200))
    bench.add("write", "ack", "transport2", KEY[:15], address(DEVICE), 0, long, expect=no(11))
    bench.add("write", "ack", "transport2", KEY, address(DEVICE), 0, long + b"\x00", expect=no(11))
    bench.add("write", "ack", "transport2", KEY, address(DEVICE), 0, long, expect=no(2))
    bench.add("write", "ack", "up", long, expect=no(11))
    bench.group("write: 1 under 108 octets of output, before all else; 108 are enough")
    for room in (107, 0):
        bench.lend(room, 0, 0)
        for parts in ((KEY, b""), (KEY[:3], b""), (KEY, long)):
            bench.add("write", "ack", "transport2", parts[0], address(DEVICE), 0, parts[1],
                      expect=no(1))
        bench.add("write", "noack", "request4", expect=no(1))
    bench.state(77, counter, "-")
    for room in (108, 115, 256):
        bench.lend(room, 0, 0)
        bench.add("write", "noack", "request4", expect=ok(bytes([1, counter, 8, 4])))
        counter += 1
    bench.lend()
    add_wrap(bench, counter)


def add_wrap(bench, counter):
    """Written until the APS counter has gone once around."""
    bench.group("after 255 comes 0: commands written at random, some read back")
    chance = Chance(2001)
    choices = bodies() + bodies(TLV_SETS[3])
    while counter < 258:
        word, fields, body = chance.pick(choices)
        ack = chance.below(2)
        frame = bytes([0x41 if ack else 0x01, counter % 256]) + body
        if counter in (255, 256):
            bench.state(77, counter % 256, "-")
        bench.add("write", "ack" if ack else "noack", word, *fields, expect=ok(frame))
        if chance.below(4) == 0:
            bench.add("read", UNDER[word][-1], frame, expect=ok(word, *fields))
        counter += 1
    bench.state(77, counter % 256, "-")
    bench.group("refusals don't move it")
    bench.add("write", "ack", "verify", 4, address(DEVICE), HASH[:15], expect=no(11))
    bench.state(77, counter % 256, "-")


def add_hashes(bench):
    """Hashes of lengths about the padding's edges, and their limits."""
    bench.group("hash (M5 to M8: 13, 14, 17 and 32 octets); DECISIONS, bad-or-refused: 257 octets "
                "are bad")
    for length in (0, 1, 13, 14, 15, 16, 17, 29, 30, 31, 32, 33, 45, 46, 108, 240, 256):
        bench.add("hash", run_of(length))
    bench.add("hash", run_of(257), expect="bad")
    bench.group("DECISIONS, hash-limits: keyedhash: up to 240 octets, then 2, then bad")
    for length in (0, 1, 13, 14, 16, 30, 239, 240):
        bench.add("keyedhash", KEY, run_of(length))
    for length in (241, 242, 255, 256):
        bench.add("keyedhash", KEY, run_of(length), expect=no(2))
    bench.add("keyedhash", KEY, run_of(257), expect="bad")
    bench.group("Annex C.5 and C.6; DECISIONS, keyed-hash-key: C.6.2's longer key by two calls")
    for _, word, fields, published in annexc():
        if word in ("hash", "keyedhash"):
            bench.add(word, *fields, expect=ok(published))


def add_commands(bench):
    """All of this file."""
    for add in (add_reading, add_tlvs, add_identifiers, add_order, add_writing, add_hashes):
        add(bench)
