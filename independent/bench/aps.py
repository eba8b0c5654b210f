"""The script of `bench`: APS frames, opened and sealed.

Document 01, "Layout of an APS frame", "The auxiliary header and the nonce", "Opening and sealing"
and "Bench cases"; docs/DECISIONS.md, where a bench line can show the point.
"""

from ..lines import flip, ok, run_of, sure
from ..model import ccm, mmo
from .tools import (ALL_ONES, ALTERED, COMMAND_HEADER, DATA_HEADER, GENUINE, GROUP_HEADER,
                    NETWORK_HEADER, OWN, TOP, aps_frame, hashed, key, network_frame, no, opened,
                    put, sealed, unsecured)

PARTNER = 0x00124B00AABBCCDD
FRIEND = 0x00124B00AABBCCDE
STRANGER = 0x00124B0055555555
SHORT_ACK = bytes.fromhex("1233")
LONG_ACK = bytes.fromhex("0201060004010133")
HEADERS = (COMMAND_HEADER, put(COMMAND_HEADER, 0, 0x09), DATA_HEADER, put(DATA_HEADER, 0, 0x08),
           GROUP_HEADER, SHORT_ACK, LONG_ACK)


def length_of(control):
    """The header's length, or None for a form that is not listed: the table of 01 written out."""
    return {0x00: 8, 0x08: 8, 0x0C: 9, 0x01: 2, 0x09: 2, 0x02: 8, 0x12: 2}.get(control & 0x9F)


def fresh(bench):
    """A board with two partners."""
    bench.board()
    bench.link(PARTNER, key(1))
    bench.link(FRIEND, key(2))


def hear(bench, frame, identifier, plain, sender=PARTNER, caller=0):
    """A frame that must open."""
    bench.open_aps(caller, frame, opened(sender, identifier, plain))


# ---- opening -----------------------------------------------------------------------------------

def add_identifiers(bench):
    """The keys of the identifiers, and one floor for the three."""
    fresh(bench)
    bench.group("aps: identifiers 0, 2 (over 0x00) and 3 (over 0x02), 13 and 5 octets; "
                "RULES 6.4")
    counter = 0
    for identifier in (0, 2, 3):
        for carried in (True, False):
            for length in (0, 1, 3, 16, 17, 40):
                payload = run_of(length, counter)
                frame = aps_frame(key(1), identifier, PARTNER, counter, payload, carried=carried)
                hear(bench, frame, identifier, COMMAND_HEADER + payload,
                     caller=0 if carried else PARTNER)
                counter += 1
    bench.group("one identifier's key under another's name, and hashes over 0x01 and 0x03: 9")
    wrong = [(0, hashed(key(1), 2)), (0, hashed(key(1), 3)), (2, key(1)), (2, hashed(key(1), 3)),
             (3, key(1)), (3, hashed(key(1), 2))]
    wrong += [(name, mmo.keyed(key(1), over)) for name in (2, 3) for over in (b"\x01", b"\x03")]
    for name, octets in wrong:
        auxiliary = (bytes([0x20 | name << 3]) + counter.to_bytes(4, "little")
                     + PARTNER.to_bytes(8, "little"))
        bench.open_aps(0, sealed(octets, b"\x61\x07", auxiliary, PARTNER, counter,
                                 0x25 | name << 3, b"\x01"), no(9))
    bench.group("RULES 2.5: a counter opened under one identifier is stale under the others; "
                "DECISIONS, stale-field-for-aps: genuine or altered is said here too")
    for first in (0, 2, 3):
        hear(bench, aps_frame(key(1), first, PARTNER, counter), first, COMMAND_HEADER)
        for second in (0, 2, 3):
            bench.open_aps(0, aps_frame(key(1), second, PARTNER, counter), GENUINE)
            bench.open_aps(0, aps_frame(key(2), second, PARTNER, counter), ALTERED)
        counter += 1
    bench.links((0, PARTNER, counter), (1, FRIEND, 0))
    bench.group("identifier 1 is 5, in both forms and with any level")
    for bits in (0, 5, 7, 0xC0):
        for carried in (True, False):
            frame = aps_frame(key(1), 1, PARTNER, counter, bytes(4), carried=carried, bits=bits)
            bench.open_aps(PARTNER, frame, no(5))


def add_callers(bench):
    """The sender that the caller gives."""
    fresh(bench)
    bench.group("DECISIONS, callers-sender: where the frame carries a sender the caller's is "
                "ignored")
    counter = 0
    for caller in (0, ALL_ONES, FRIEND, STRANGER, OWN, PARTNER):
        hear(bench, aps_frame(key(1), 0, PARTNER, counter, b"\x21"), 0, COMMAND_HEADER + b"\x21",
             caller=caller)
        bench.open_aps(caller, COMMAND_HEADER + b"\x21", unsecured(COMMAND_HEADER + b"\x21"))
        counter += 1
    bench.group("DECISIONS, five-octet-form: the caller's address goes into the nonce and nowhere "
                "else")
    short = aps_frame(key(1), 0, PARTNER, counter, b"\x22", carried=False)
    bench.open_aps(FRIEND, short, no(9))
    bench.open_aps(STRANGER, short, no(6))
    wire = counter.to_bytes(4, "little")
    filled = b"\x61\x07\x00" + wire + ccm.seal(
        4, key(1), PARTNER.to_bytes(8, "little") + wire + b"\x05",
        b"\x61\x07\x05" + wire + PARTNER.to_bytes(8, "little"), b"\x22")
    bench.open_aps(PARTNER, filled, no(9))
    hear(bench, short, 0, COMMAND_HEADER + b"\x22", caller=PARTNER)
    bench.open_aps(PARTNER, short, GENUINE)
    bench.open_aps(FRIEND, short, no(9))
    bench.group("the caller's 0 or all ones is 5 for the 5-octet form only, behind 3 for the tag")
    least = aps_frame(key(1), 0, PARTNER, counter + 1, carried=False)
    for caller in (0, ALL_ONES):
        bench.open_aps(caller, least, no(5))
        bench.open_aps(caller, least[:-1], no(3))
        bench.open_aps(caller, least[:2], no(3))
        bench.open_aps(caller, COMMAND_HEADER, unsecured(COMMAND_HEADER))
    hear(bench, least, 0, COMMAND_HEADER, caller=PARTNER)
    bench.group("the frame's own 0 or all ones is 5, whatever the caller gives")
    for sender in (0, ALL_ONES):
        frame = aps_frame(key(1), 0, sender, 99)
        bench.open_aps(PARTNER, frame, no(5))
        bench.open_aps(PARTNER, frame[:-1], no(3))


def add_controls(bench):
    """Every APS control octet, unsecured and secured; every security control."""
    fresh(bench)
    bench.group("aps: every control octet, unsecured or secured as it says")
    counter = 0
    for control in range(256):
        length = length_of(control)
        header = bytes([control]) + run_of((length or 9) - 1)
        if length is None:
            bench.open_aps(PARTNER, header + bytes(20), no(4))
        elif control & 0x20:
            frame = aps_frame(key(1), 2, PARTNER, counter, b"\x44", header=header)
            hear(bench, frame, 2, put(header, 0, control & ~0x20) + b"\x44")
            counter += 1
        else:
            bench.open_aps(0, header + b"\x44", unsecured(header + b"\x44"))
            bench.open_aps(0, header, unsecured(header))
    bench.group("aps: every fourth security control: identifier 1 is 5; other bits are free")
    for control in range(0, 256, 4):
        identifier, carried = control >> 3 & 3, bool(control & 0x20)
        level = control & 7 | counter & 3
        frame = aps_frame(key(1), identifier, PARTNER, counter, b"\x45", carried=carried,
                          bits=control & 0xC0 | level)
        bench.open_aps(PARTNER, frame, no(5) if identifier == 1 else
                       opened(PARTNER, identifier, COMMAND_HEADER + b"\x45"))
        counter += 1


def add_cuts(bench):
    """Every cut of genuine frames, then the frame."""
    fresh(bench)
    for turn, header in enumerate(HEADERS):
        for carried in (True, False):
            bench.group(f"aps: every cut of a secured frame, control {header[0]:02x}, "
                        f"{13 if carried else 5} octets; then the frame")
            counter = 2 * turn + (not carried)
            frame = aps_frame(key(1), 0, PARTNER, counter, header=header, carried=carried)
            for length in range(turn % 2, len(frame), 1 if turn in (0, 4) else 2):
                bench.open_aps(PARTNER, frame[:length], no(3))
            hear(bench, frame, 0, header, caller=PARTNER)
    bench.group("DECISIONS, unsecured-header: the header alone opens, an octet less is short")
    for header in HEADERS:
        bench.open_aps(0, header[:-1], no(3))
        bench.open_aps(0, header, unsecured(header))
        bench.open_aps(0, put(header, 0, header[0] | 0x20), no(3))


def add_flips(bench):
    """Every bit of a genuine frame changed."""
    fresh(bench)
    bench.group("aps: every bit of a genuine frame changed, and the frame whole now and then")
    counter = 1
    for bit in range(8 * 21):
        frame = aps_frame(key(1), 3, PARTNER, counter, b"\x61\x62")
        if bit in range(16, 19):
            hear(bench, flip(frame, bit), 3, COMMAND_HEADER + b"\x61\x62")
            counter += 1
            continue
        bench.open_aps(PARTNER, flip(frame, bit), no(9) if bit >= 8 * 15 else None)
        if bit % 12 == 11:
            hear(bench, frame, 3, COMMAND_HEADER + b"\x61\x62")
            counter += 1


def add_orders(bench):
    """Two causes at once: the earlier one is given."""
    fresh(bench)
    hear(bench, aps_frame(key(1), 0, PARTNER, 9), 0, COMMAND_HEADER)
    good = aps_frame(key(1), 0, PARTNER, 20, run_of(40))
    bench.group("DECISIONS, room-for-aps: 116 octets of output at this layer too; lists are not "
                "judged")
    for lent in ((115, 64, 64), (108, 64, 64), (0, 0, 0)):
        bench.lend(*lent)
        for frame in (bytes(109), b"", COMMAND_HEADER, good):
            bench.open_aps(PARTNER, frame, no(1))
            bench.seal_aps(PARTNER, 1, frame, no(1))
    bench.lend(116, 0, 1024)
    bench.group("openaps: 2 before 3 and 4; 108 octets are read")
    bench.open_aps(0, bytes(109), no(2))
    bench.open_aps(0, b"\xff" * 256, no(2))
    bench.open_aps(0, b"\xff" * 108, no(4))
    bench.open_aps(0, DATA_HEADER + bytes(100), unsecured(DATA_HEADER + bytes(100)))
    bench.open_aps(0, DATA_HEADER + bytes(101), no(2))
    add_later_orders(bench, good)
    bench.lend()
    add_tops(bench)


def add_later_orders(bench, good):
    """The order behind 1 and 2; the good frame opens at the end."""
    bench.group("openaps: 3 for the control, 4, 3 up to the security control, 5, 3, 5, 6, 7, 8, 9")
    for frame, number in ((b"", 3), (b"\x03", 4), (b"\x21", 3), (b"\x31", 4), (b"\x21\x07", 3),
                          (b"\x21\x07\x08", 5), (b"\x21\x07\x28", 5), (b"\x21\x07\x20", 3),
                          (good[:18], 3), (b"\x20" * 8, 3), (b"\x20" * 9, 3)):
        bench.open_aps(0, frame, no(number))
    bench.open_aps(0, aps_frame(key(9), 0, ALL_ONES, TOP), no(5))
    bench.open_aps(0, aps_frame(key(9), 0, STRANGER, TOP), no(6))
    bench.open_aps(0, aps_frame(key(9), 0, PARTNER, TOP), no(7))
    bench.open_aps(0, aps_frame(key(1), 2, PARTNER, TOP), no(7))
    bench.open_aps(0, aps_frame(key(9), 0, PARTNER, 9), ALTERED)
    bench.open_aps(0, aps_frame(key(9), 0, PARTNER, 10), no(9))
    bench.links((0, PARTNER, 10), (1, FRIEND, 0))
    hear(bench, good, 0, COMMAND_HEADER + run_of(40))


def add_tops(bench):
    """Floors about 7 and at the top."""
    bench.group("M9 to M11 at this layer: floor 7, the top, and no wrapping")
    for counter, floor in ((6, 7), (7, 8), (TOP - 1, TOP)):
        hear(bench, aps_frame(key(2), 0, FRIEND, counter), 0, COMMAND_HEADER, FRIEND)
        bench.links((0, PARTNER, 21), (1, FRIEND, floor))
        bench.open_aps(0, aps_frame(key(2), 0, FRIEND, counter), GENUINE)
    bench.open_aps(0, aps_frame(key(2), 0, FRIEND, 0), GENUINE)
    bench.open_aps(0, aps_frame(key(2), 0, FRIEND, TOP), no(7))
    bench.group("a forged frame raises no floor")
    bench.open_aps(0, flip(aps_frame(key(1), 0, PARTNER, TOP - 1), 140), no(9))
    hear(bench, aps_frame(key(1), 0, PARTNER, 21), 0, COMMAND_HEADER)


# ---- sealing -----------------------------------------------------------------------------------

def add_sealing(bench):
    """Sealed octets and sizes; the next outgoing counter."""
    fresh(bench)
    bench.step()
    bench.network(0, 5, key(4))
    bench.add("switch", 5, expect="ok")
    bench.link(OWN, key(3))
    counter = 0
    bench.group("sealaps: headers, identifiers and payloads; own frames open again")
    for turn, header in enumerate(HEADERS):
        for identifier in (0, 2, 3):
            payload = run_of((0, 1, 15, 16, 17, 33, 50)[(turn + identifier) % 7], counter)
            frame = aps_frame(key(3), identifier, OWN, counter, payload, header=header)
            bench.seal_aps(OWN, identifier, header + payload, ok(frame))
            hear(bench, frame, identifier, header + payload, OWN)
            counter += 1
    bench.group("RULES 2.1: one counter for all keys and both layers")
    bench.seal(NETWORK_HEADER, ok(network_frame(key(4), 5, OWN, counter)))
    bench.seal_aps(PARTNER, 0, COMMAND_HEADER, ok(aps_frame(key(1), 0, OWN, counter + 1)))
    bench.seal_aps(FRIEND, 2, COMMAND_HEADER, ok(aps_frame(key(2), 2, OWN, counter + 2)))
    counter += 3
    bench.group("01: sealing 91 octets gives 108; 92 gives 2")
    plain = DATA_HEADER + run_of(83)
    frame = aps_frame(key(3), 0, OWN, counter, run_of(83), header=DATA_HEADER)
    sure((len(plain), len(frame)) == (91, 108), "octets of the longest", len(plain), len(frame))
    bench.seal_aps(OWN, 0, plain, ok(frame))
    bench.seal_aps(OWN, 0, plain + b"\x00", no(2))
    hear(bench, frame, 0, plain, OWN)
    counter += 1
    return counter


def add_sealing_orders(bench, counter):
    """The order of refusals when sealing, and every form."""
    bench.group("sealaps: 2, 3, 4, 3, 14, 6 (RULES 8.3); DECISIONS, seal-for-nobody: partner 0 is "
                "6")
    for partner, identifier, octets, number in (
            (STRANGER, 1, bytes(92), 2), (STRANGER, 1, b"", 3), (STRANGER, 1, b"\x03", 4),
            (STRANGER, 1, b"\x61", 4), (STRANGER, 1, b"\x41", 3), (STRANGER, 1, b"\x0c" * 8, 3),
            (STRANGER, 1, COMMAND_HEADER, 14), (PARTNER, 1, COMMAND_HEADER, 14),
            (PARTNER, 4, COMMAND_HEADER, 14), (PARTNER, 255, COMMAND_HEADER, 14),
            (0, 1, COMMAND_HEADER, 14), (STRANGER, 0, COMMAND_HEADER, 6),
            (0, 0, COMMAND_HEADER, 6), (ALL_ONES, 3, COMMAND_HEADER, 6),
            (PARTNER, 0, b"\x41", 3), (PARTNER, 0, b"\x80", 4), (PARTNER, 0, bytes(7), 3)):
        bench.seal_aps(partner, identifier, octets, no(number))
    bench.group("sealaps: every form: 4 with the security bit set, else sealed")
    for control in range(0, 256, 3):
        length = length_of(control)
        header = bytes([control]) + run_of((length or 9) - 1)
        good = length is not None and not control & 0x20
        bench.seal_aps(FRIEND, 3, header, ok(aps_frame(key(2), 3, OWN, counter, header=header))
                       if good else no(4))
        counter += good
    bench.state(counter, 0, 0)


def add_sealing_top(bench):
    """The outgoing counter at its top."""
    bench.group("sealaps: 6 before 7, 14 before both; 4294967294 is sealed, then 7")
    bench.board(OWN, TOP)
    bench.seal_aps(PARTNER, 0, COMMAND_HEADER, no(6))
    bench.seal_aps(PARTNER, 1, COMMAND_HEADER, no(14))
    bench.board(OWN, TOP - 1)
    bench.step(asked=False)
    bench.link(PARTNER, key(1))
    bench.seal_aps(PARTNER, 3, COMMAND_HEADER, ok(aps_frame(key(1), 3, OWN, TOP - 1)))
    bench.seal_aps(PARTNER, 3, COMMAND_HEADER, no(7))
    bench.seal_aps(PARTNER, 1, COMMAND_HEADER, no(14))
    bench.seal_aps(STRANGER, 3, COMMAND_HEADER, no(6))
    bench.state(TOP, 0, "-")


def add_aps(bench):
    """All of this file."""
    for add in (add_identifiers, add_callers, add_controls, add_cuts, add_flips, add_orders):
        add(bench)
    add_sealing_orders(bench, add_sealing(bench))
    add_sealing_top(bench)
