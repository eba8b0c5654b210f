"""The script of `margins`: commands written, their parts, and the values of TLVs.

Document 01, "The commands"; document 02 (i) for what stands inside of a Tunnel, (iv) for the length
of a TLV.
"""

from ..bench.tools import put, tlv
from ..lines import ok, run_of, sure
from .tools import APS_COUNTER, Done

DEVICE, TRUST = bytes(range(0x80, 0x88)), bytes(range(0x88, 0x90))
DEVICE_FIELD = "8786858483828180"
KEY, HASH = bytes(range(0x60, 0x70)), bytes(range(0x70, 0x80))
INNER = b"\x21\x1e\x20" + bytes(range(0xC0, 0xD1))
FIRST, SECOND = bytes(range(0x90, 0x9D)), bytes(range(0xA0, 0xAC))
RELAYED = bytes(range(0xB0, 0xB9))
TLVS = tlv(0x1A, FIRST) + tlv(0x1B, SECOND)
RELAY = tlv(0, RELAYED)


def inner_parts(inner):
    """An inner frame and its parts: 2 octets, 13, the rest, 4."""
    end = len(inner) - 4
    return {"inner": inner, "header": inner[:2], "auxiliary": inner[2:15],
            "payload": inner[15:end], "tag": inner[end:]}


COMMANDS = {  # protections, octets from the identifier on, parts
    "transport1": ((2,), b"\x05\x01" + KEY + b"\x55" + DEVICE + TRUST, {"key": KEY}),
    "transport4": ((3,), b"\x05\x04" + KEY + DEVICE + TRUST + TLVS, {"key": KEY, "tlvs": TLVS}),
    "transport2": ((3,), b"\x05\x02" + KEY + DEVICE + b"\x56" + TLVS, {"key": KEY, "tlvs": TLVS}),
    "transport3": ((3,), b"\x05\x03" + KEY + DEVICE + b"\x56" + TLVS, {"key": KEY, "tlvs": TLVS}),
    "update": ((0,), b"\x06" + DEVICE + b"\x57\x58\x59" + TLVS, {"tlvs": TLVS}),
    "remove": ((0,), b"\x07" + DEVICE, {}),
    "request2": ((0,), b"\x08\x02" + DEVICE, {}),
    "request4": ((0,), b"\x08\x04", {}),
    "switchkey": (("none", 0), b"\x09\x55", {}),
    "tunnel": (("none",), b"\x0e" + DEVICE + INNER, inner_parts(INNER)),
    "verify": (("none",), b"\x0f\x56" + DEVICE + HASH, {"digest": HASH}),
    "confirm": ((0,), b"\x10\x57\x58" + DEVICE, {}),
    "down": (("none", 0), b"\x11" + TLVS + RELAY, {"tlvs": TLVS + RELAY}),
    "up": (("none", 0), b"\x12" + RELAY + TLVS, {"tlvs": RELAY + TLVS}),
}
INNER_PARTS = ("header", "auxiliary", "payload", "tag")
PARTS = ("key", "digest", "inner", "tlvs", *INNER_PARTS)
FRONT = b"\x41\x3e"


def add_writing(script):
    """Commands written: the counter 255 is stamped, and 0 comes after it."""
    def done(control, octets):
        return Done(bytes([control, APS_COUNTER]) + octets, (), (0,))

    script.group("remove: after 255 comes 0; DECISIONS, addresses-unjudged: addresses are not "
                 "judged")
    script.everywhere("remove", DEVICE_FIELD, gives=done(0x41, b"\x07" + DEVICE))
    for octet in (0, 0xFF):
        script.once("remove", f"{octet:02x}" * 8, gives=done(0x41, b"\x07" + bytes([octet]) * 8))
    script.group("tunnel: inner frames of 20 to 97 octets, without acknowledgement")
    front = b"\x0e" + DEVICE
    script.everywhere("tunnel", DEVICE_FIELD, INNER, gives=done(0x01, front + INNER))
    for control, security in ((0x29, 0x20), (0x21, 0x30), (0x29, 0x38), (0x21, 0xE7)):
        inner = put(put(INNER, 0, control), 2, security)
        script.once("tunnel", DEVICE_FIELD, inner, gives=done(0x01, front + inner))
    for room, length in ((115, 95), (116, 96), (108, 97), (256, 97)):
        inner = INNER + run_of(length - 20)
        script.ask(room, "tunnel", DEVICE_FIELD, inner, gives=done(0x01, front + inner))
    script.group("tunnel, 11: under 20 octets; 2: over 108 with the header (DECISIONS, "
                 "writers-order), so an inner frame of 98")
    script.mostly("tunnel", DEVICE_FIELD, INNER[:19], gives=11)
    script.once("tunnel", DEVICE_FIELD, b"", gives=11)
    script.mostly("tunnel", DEVICE_FIELD, INNER + run_of(78), gives=2)
    for length in (99, 512):
        script.once("tunnel", DEVICE_FIELD, INNER + run_of(length - 20), gives=2)
    add_wrong_insides(script)
    add_down(script, done)


def add_wrong_insides(script):
    """Tunnels around octets that may not stand inside."""
    script.group("tunnel, 11: a control inside but 0x21 and 0x29; identifier 1; no extended nonce; "
                 "before 2")
    script.mostly("tunnel", DEVICE_FIELD, put(INNER, 0, 0x61), gives=11)
    for control in (0x01, 0x20, 0x22, 0x23, 0x25, 0x2D, 0x31, 0xA1, 0x69):
        script.once("tunnel", DEVICE_FIELD, put(INNER, 0, control), gives=11)
    for security in (0x28, 0x2D, 0x00, 0x10, 0x18, 0xC0):
        script.once("tunnel", DEVICE_FIELD, put(INNER, 2, security), gives=11)
    for inner in (put(INNER, 0, 0x61), put(INNER, 2, 0x28)):
        script.once("tunnel", DEVICE_FIELD, inner + run_of(77), gives=11)
        script.once("tunnel", DEVICE_FIELD, inner + run_of(78), gives=11)
        script.once("tunnel", DEVICE_FIELD, inner + run_of(492), gives=11)


def add_down(script, done):
    """Relay down written."""
    script.group("down: TLVs of 10 to 105 octets; DECISIONS, relay-any-tlv: any TLV of tag 0 may "
                 "be the one")
    script.everywhere("down", TLVS + RELAY, gives=done(0x41, b"\x11" + TLVS + RELAY))
    for tlvs in (tlv(0, b"relaying"), tlv(0, b"x") + RELAY, tlv(0, run_of(103))):
        script.once("down", tlvs, gives=done(0x41, b"\x11" + tlvs))
    full = RELAY + tlv(1, run_of(92))
    script.ask(108, "down", full, gives=done(0x41, b"\x11" + full))
    script.group("down, 11: TLVs that don't fill their place, and Relay's rule; before 2")
    script.mostly("down", TLVS + RELAY + b"\x00", gives=11)
    for tlvs in (b"", RELAY + b"\x01\x00", RELAY[:-1], tlv(0, run_of(7)), TLVS,
                 tlv(0, b"abcd") + tlv(0, b"efgh"), tlv(1, run_of(200)), run_of(512)):
        script.once("down", tlvs, gives=11)
    script.group("down, 2: over 108 octets, so TLVs of 106")
    script.mostly("down", tlv(0, run_of(104)), gives=2)
    for tlvs in (RELAY + tlv(1, run_of(93)), 2 * tlv(0, run_of(254))):
        script.once("down", tlvs, gives=2)
    add_length_octets(script, done)


def add_length_octets(script, done):
    """Relay down written with raw octets: the length octet is the value's length less one."""
    script.group("down: length octets 7 and 8, and 0 before and behind Relay's own")
    for tlvs in (b"\x00\x07" + run_of(8), b"\x00\x08" + run_of(9), b"\x01\x00x" + RELAY,
                 RELAY + b"\x00\x00\x00"):
        script.once("down", tlvs, gives=done(0x41, b"\x11" + tlvs))
    script.group("down, 11: the length octet taken for the length; length octet 6; no value is "
                 "empty")
    for tlvs in (b"\x00\x08" + run_of(8), b"\x00\x06" + run_of(7), b"\x00\x06" + run_of(8),
                 b"\x00\x00", b"\x00\x00" + RELAY, RELAY + b"\x05\x00", b"\x00\x00\x00"):
        script.once("down", tlvs, gives=11)
    script.group("down: length octet 255 means 256 octets, which are well formed, so 2; with an "
                 "octet less or more 11")
    script.once("down", b"\x00\xff" + run_of(256), gives=2)
    script.once("down", RELAY + b"\x01\xff" + run_of(256), gives=2)
    for size in (255, 257):
        script.once("down", b"\x00\xff" + run_of(size), gives=11)


def lacked(parts, turn):
    """One of the parts that a command lacks, in turn; two if it has none."""
    others = [part for part in PARTS if part not in parts]
    return [others[(turn + i) % len(others)] for i in range(1 if parts else 2)]


def add_parts(script):
    """Parts of every command, in frames of all-different octets."""
    script.group("parts of every command, under every protection")
    for word, (protections, body, parts) in COMMANDS.items():
        sure(len(set(FRONT + body)) == len(FRONT + body), "an octet stands twice in", word)
        for part, octets in parts.items():
            for under in ("none", 0, 2, 3):
                script.add(part, under, FRONT + body,
                           expect=ok(octets if under in protections else b""))
    script.group("DECISIONS, parts-empty: parts that a command lacks, in turn")
    for turn, (protections, body, parts) in enumerate(COMMANDS.values()):
        for part in lacked(parts, turn):
            script.add(part, protections[0], FRONT + body, expect=ok(b""))
    script.group("no TLVs; frames of 108 octets; another control")
    for part, under, body, octets in (
            ("tlvs", 3, b"\x05\x02" + KEY + DEVICE + b"\x56", b""),
            ("key", 3, b"\x05\x02" + KEY + DEVICE + b"\x56" + tlv(1, run_of(77)), KEY),
            ("tlvs", 0, b"\x12" + tlv(0, run_of(103)), tlv(0, run_of(103))),
            ("tlvs", 0, b"\x06" + DEVICE + b"\x57\x58\x59" + b"\x00\x00z", b"\x00\x00z"),
            ("inner", "none", b"\x0e" + DEVICE + INNER + run_of(77), INNER + run_of(77))):
        script.add(part, under, FRONT + body, expect=ok(octets))
    script.add("digest", "none", b"\x09\x3e" + COMMANDS["verify"][1], expect=ok(HASH))
    add_inner_parts(script)
    add_refused_parts(script)


def add_inner_parts(script):
    """Parts of inner frames of several lengths, of ones that may not stand there, and of none."""
    front = FRONT + b"\x0e" + DEVICE
    script.group("parts of a tunnel's inner frame: 20 to 97 octets; other controls")
    for length in (21, 36, 97):
        parts = inner_parts(INNER + run_of(length - 20))
        for part, octets in parts.items():
            script.add(part, "none", front + parts["inner"], expect=ok(octets))
    for control, security in ((0x29, 0x20), (0x21, 0x3D), (0x29, 0xF0)):
        parts = inner_parts(put(put(INNER, 0, control), 2, security))
        for part in INNER_PARTS:
            script.add(part, "none", front + parts["inner"], expect=ok(parts[part]))
    script.group("parts where something else stands inside: 11")
    for turn, inner in enumerate((INNER[:19], INNER[:3], b"", put(INNER, 0, 0x61),
                                  put(INNER, 0, 0x01), put(INNER, 0, 0x25), put(INNER, 0, 0xA1),
                                  put(INNER, 2, 0x28), put(INNER, 2, 0x10))):
        for part in ("inner", INNER_PARTS[turn % 4], INNER_PARTS[(turn + 1) % 4]):
            script.add(part, "none", front + inner, expect=ok(b""))
    script.group("parts of an inner frame, asked of every other command")
    for word, (protections, body, _) in COMMANDS.items():
        if word != "tunnel":
            for part in INNER_PARTS:
                script.add(part, protections[-1], FRONT + body, expect=ok(b""))


def add_refused_parts(script):
    """Parts of frames that the reader refuses are empty."""
    frames = {word: FRONT + body for word, (_, body, _) in COMMANDS.items()}
    script.group("parts where the reader refuses: 14, 2, 3, 4, 11")
    for part, under, frame in (
            ("key", 1, frames["transport1"]), ("digest", 4, frames["verify"]),
            ("inner", 255, frames["tunnel"]), ("tlvs", 1, frames["down"]),
            ("header", 1, frames["tunnel"]), ("auxiliary", 4, frames["tunnel"]),
            ("payload", 255, frames["tunnel"]), ("tag", 1, frames["tunnel"]),
            ("inner", "none", frames["tunnel"] + run_of(78)), ("tlvs", 0, run_of(512)),
            ("payload", "none", frames["tunnel"] + run_of(78)), ("tag", "none", run_of(512)),
            ("key", 2, b""), ("tlvs", 0, FRONT), ("header", "none", b""), ("tag", "none", FRONT),
            ("key", 2, put(frames["transport1"], 0, 0x61)),
            ("inner", "none", put(frames["tunnel"], 0, 0x40)),
            ("header", "none", put(frames["tunnel"], 0, 0x40)),
            ("auxiliary", "none", put(frames["tunnel"], 0, 0x61)),
            ("key", 2, frames["transport1"] + b"\x00"), ("key", 3, put(frames["transport4"], 3, 5)),
            ("digest", "none", frames["verify"][:-1]), ("inner", "none", frames["tunnel"][:-1]),
            ("tlvs", 3, frames["transport3"] + b"\x1c"), ("tlvs", "none", FRONT + b"\x11" + TLVS),
            ("tlvs", 3, frames["transport4"] + b"\x1c\x00"),
            ("key", 3, frames["transport2"] + b"\x1c\x00")):
        script.add(part, under, frame, expect=ok(b""))


def add_values(script):
    """The values of TLVs."""
    script.group("value: every command that has TLVs: one after the other, then tag 0 of Relay")
    for protections, body, parts in COMMANDS.values():
        if "tlvs" in parts:
            for tag, value in ((0x1A, FIRST), (0x1B, SECOND)):
                script.add("value", protections[-1], tag, FRONT + body, expect=ok(value))
    for word in ("down", "up"):
        script.add("value", "none", 0, FRONT + COMMANDS[word][1], expect=ok(RELAYED))
    script.group("value: first of several, the least, tags 0 and 255, missing; the first of tag "
                 "0, however short (DECISIONS, relay-any-tlv); the longest")
    front = FRONT + b"\x06" + DEVICE + b"\x57\x58\x59"
    tlvs = (tlv(7, b"ab") + tlv(8, b"j") + tlv(7, b"c") + tlv(0, b"def") + tlv(0, b"g")
            + tlv(255, b"hi") + tlv(255, b"k"))
    for tag, value in ((7, b"ab"), (8, b"j"), (0, b"def"), (255, b"hi"), (1, b"")):
        script.add("value", 0, tag, front + tlvs, expect=ok(value))
    script.add("value", "none", 0, FRONT + b"\x11" + tlv(0, b"x") + RELAY, expect=ok(b"x"))
    script.add("value", 0, 0, FRONT + b"\x12" + tlv(0, b"\x00") + RELAY, expect=ok(b"\x00"))
    script.add("value", 0, 0, FRONT + b"\x12" + tlv(0, run_of(103)), expect=ok(run_of(103)))
    script.group("value: ill-formed behind a good TLV; over 108; wrong protections; no TLVs")
    for under, tag, frame in (
            (0, 7, front + tlvs + b"\x07"), (0, 7, front + tlvs + b"\x07\x00"),
            (0, 7, front + b"\x07\x04abcd"), (0, 7, front + tlv(7, b"ab") + bytes(93)),
            ("none", 7, front + tlvs), (1, 7, front + tlvs), (2, 7, front + tlvs),
            (3, 7, front + tlvs), (255, 7, front + tlvs), (0, 7, put(front + tlvs, 0, 0x61)),
            ("none", 0, FRONT + b"\x11" + tlv(0, run_of(7))), (0, 0, front), (0, 255, run_of(512)),
            ("none", 0x21, FRONT + COMMANDS["tunnel"][1]),
            (2, 0x60, FRONT + COMMANDS["transport1"][1])):
        script.add("value", under, tag, frame, expect=ok(b""))
    add_least_values(script, front)


def add_least_values(script, front):
    """Values behind length octets 0 and 1, as raw octets, and where one lacks its octets."""
    script.group("value: length octet 0 means one octet; zero is no empty value; TLVs inside of a "
                 "value")
    tlvs = b"\x07\x00a" + b"\x08\x01bc" + b"\x07\x01de" + b"\xff\x00\x00" + b"\x05\x02\x06\x00f"
    for tag, value in ((7, b"a"), (8, b"bc"), (255, b"\x00"), (5, b"\x06\x00f"), (6, b"")):
        script.add("value", 0, tag, front + tlvs, expect=ok(value))
    script.group("value: the length octet taken for the length, no value behind it, or the next "
                 "TLV's tag for it: refused, so empty, or what the octets then are")
    for tag, octets, value in (
            (7, b"\x07\x02ab", b""), (7, b"\x07\x01a", b""), (8, b"\x07\x01ab\x08\x00", b""),
            (7, b"\x07\x01ab\x08\x00", b""), (0, b"\x00\x00", b""), (255, b"\xff\x00", b""),
            (7, b"\x07\x00\x08\x00a", b""), (7, b"\x07\x00\x08\x08\x00a", b"\x08"),
            (8, b"\x07\x00\x08\x08\x00a", b"a")):
        script.add("value", 0, tag, front + octets, expect=ok(value))
    for identifier in (b"\x11", b"\x12"):
        for octets, value in ((b"\x00\x00" + RELAY, b""), (b"\x00\x08" + run_of(8), b""),
                              (b"\x00\x06" + run_of(7), b""), (b"\x00\x07" + run_of(8), run_of(8))):
            script.add("value", 0, 0, FRONT + identifier + octets, expect=ok(value))
