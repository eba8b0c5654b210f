"""The script of `bench`: network frames, opened and sealed.

Document 01, "Layout of a network frame", "Opening and sealing", "Bench cases" and "Slips we have
seen on benches"; docs/DECISIONS.md, where a bench line can show the point.
"""

from ..lines import flip, ok, run_of, sure
from ..model import ccm
from .tools import (ALL_ONES, ALTERED, GENUINE, NETWORK_HEADER, OWN, TOP, key, network_frame, no,
                    opened, put, unsecured)

SENDER = 0x00124B00AABBCCDD
M1_SENDER = 0x0000000100000000
LONG = bytes.fromhex("0102030405060708")


def header_of(control, route=None, low=0xFC):
    """A header with the long addresses and the route that the control announces."""
    header = control.to_bytes(2, "little") + bytes([low, 0xFF, 0x34, 0x12, 0x1E, 0x01])
    header += b"\x11" * 8 if control >> 11 & 1 else b""
    header += b"\x22" * 8 if control >> 12 & 1 else b""
    if control >> 10 & 1:
        route = 1 if route is None else route
        header += bytes([route, 0xFF]) + run_of(2 * route)
    return header


ODD_HEADERS = (header_of(0x0048), header_of(0x0009), header_of(0x0808), header_of(0x1008),
               header_of(0x1849), header_of(0x0408, 0), header_of(0x0408, 3), header_of(0x2008),
               header_of(0x3C48, 2))


def fresh(bench):
    """A board with two keys, slot 0 active."""
    bench.board()
    bench.network(0, 0, key(1))
    bench.network(1, 7, key(2))
    bench.add("switch", 0, expect="ok")


def hear(bench, frame, plain, sender=SENDER):
    """A frame that must open."""
    bench.open(frame, opened(sender, 1, plain))


def half_right(octets, sender, counter, payload):
    """Sealed with level 0 in the nonce only, in the authenticated octets only, and with a header
    authenticated as if it had no security bit."""
    wire = counter.to_bytes(4, "little")
    rest = wire + sender.to_bytes(8, "little") + b"\x00"
    start = sender.to_bytes(8, "little") + wire
    header = put(NETWORK_HEADER, 1, 2)
    for nonce, authenticated in ((b"\x28", header + b"\x2d"), (b"\x2d", header + b"\x28"),
                                 (b"\x2d", NETWORK_HEADER + b"\x2d")):
        yield header + b"\x28" + rest + ccm.seal(4, octets, start + nonce, authenticated + rest,
                                                 payload)


# ---- opening -----------------------------------------------------------------------------------

def add_named(bench):
    """The named cases of 01, M1 to M4 and M9 to M12 as far as a bench shows them."""
    fresh(bench)
    bench.group("M1: sender 0x0000000100000000, counter 5; M2, M3: 3 octets; M4: 22 authenticated")
    hear(bench, network_frame(key(1), 0, M1_SENDER, 5, b"abc"), NETWORK_HEADER + b"abc", M1_SENDER)
    bench.heard(0, (0, M1_SENDER, 6))
    bench.group("M9: floor 7: counter 6 gives 8, counter 7 leaves floor 8")
    hear(bench, network_frame(key(1), 0, M1_SENDER, 6), NETWORK_HEADER, M1_SENDER)
    bench.heard(0, (0, M1_SENDER, 7))
    bench.open(network_frame(key(1), 0, M1_SENDER, 6), GENUINE)
    bench.heard(0, (0, M1_SENDER, 7))
    hear(bench, network_frame(key(1), 0, M1_SENDER, 7), NETWORK_HEADER, M1_SENDER)
    bench.heard(0, (0, M1_SENDER, 8))
    bench.group("M12: 25 octets with an 8-octet header are cut short, 26 carry an empty payload")
    frame = network_frame(key(1), 0, M1_SENDER, 8)
    bench.open(frame[:25], no(3))
    hear(bench, frame, NETWORK_HEADER, M1_SENDER)
    bench.group("M10: counter 4294967294 leaves floor 4294967295; slip: no wrapping to floor 0")
    hear(bench, network_frame(key(1), 0, M1_SENDER, TOP - 1), NETWORK_HEADER, M1_SENDER)
    bench.heard(0, (0, M1_SENDER, TOP))
    bench.open(network_frame(key(1), 0, M1_SENDER, TOP - 1), GENUINE)
    bench.open(network_frame(key(1), 0, M1_SENDER, 0), GENUINE)
    bench.group("M11: the next value gives 7 whatever the floor; "
                "DECISIONS, heard-top: after 6, before 9")
    for sender in (M1_SENDER, SENDER):
        frame = network_frame(key(1), 0, sender, TOP)
        bench.open(frame, no(7))
        bench.open(flip(frame, 205), no(7))
        bench.open(put(frame, 21, 99), no(6))
    bench.heard(0, (0, M1_SENDER, TOP))


def add_slips(bench):
    """Slips that a bench can show, with the board's own words for stale frames."""
    fresh(bench)
    bench.group("slip: a forged frame with a high counter raises no floor")
    hear(bench, network_frame(key(1), 0, SENDER, 3), NETWORK_HEADER)
    forged = network_frame(key(9), 0, SENDER, TOP - 1)
    bench.open(forged, no(9))
    bench.heard(0, (0, SENDER, 4))
    hear(bench, network_frame(key(1), 0, SENDER, 4), NETWORK_HEADER)
    bench.group("a forged stranger takes no row")
    bench.open(network_frame(key(9), 0, M1_SENDER, 1), no(9))
    bench.heard(0, (0, SENDER, 5))
    bench.group("slip: worked with the wire's level 0, in both, in the nonce, in "
                "the authenticated octets: 9; also a header authenticated without its security bit")
    bench.open(network_frame(key(1), 0, SENDER, 5, b"\x01", worked=0x28), no(9))
    for frame in half_right(key(1), SENDER, 5, b"\x01"):
        bench.open(frame, no(9))
    hear(bench, network_frame(key(1), 0, SENDER, 5, b"\x01", worked=0x2D), NETWORK_HEADER + b"\x01")
    bench.group("slip: half-deciphered octets in a refusal's output: no line shows that output")
    bench.open(flip(network_frame(key(1), 0, SENDER, 6, run_of(60)), 8 * 85), no(9))
    bench.group("RULES 7.2: an unsecured frame leaves the lists alone")
    bench.open(NETWORK_HEADER + b"\x02", unsecured(NETWORK_HEADER + b"\x02"))
    bench.heard(0, (0, SENDER, 6))
    bench.group("stale or forged: a low counter in a genuine frame and in altered ones")
    old = network_frame(key(1), 0, SENDER, 5, b"\x01")
    bench.open(old, GENUINE)
    for bit in (3, 20, 63, 8 * 22, 8 * 23, 8 * 27 - 1):
        bench.open(flip(old, bit))
    bench.open(flip(old, 8 * 22 + 1), ALTERED)
    bench.open(network_frame(key(9), 0, SENDER, 2), ALTERED)
    bench.open(network_frame(key(2), 0, SENDER, 2), ALTERED)
    bench.group("a higher floor under the other key counts nothing here")
    hear(bench, network_frame(key(2), 7, SENDER, 100), NETWORK_HEADER)
    hear(bench, network_frame(key(1), 0, SENDER, 6), NETWORK_HEADER)
    bench.open(network_frame(key(2), 7, SENDER, 99), GENUINE)
    bench.heard(0, (0, SENDER, 7))
    bench.heard(1, (32, SENDER, 101))
    add_skipped(bench)


def add_skipped(bench):
    """Counters that were left out."""
    bench.group("skipped counters stay open until passed")
    for counter, expect in ((50, None), (49, GENUINE), (50, GENUINE), (51, None), (1000, None)):
        frame = network_frame(key(1), 0, SENDER, counter, run_of(counter % 50))
        plain = NETWORK_HEADER + run_of(counter % 50)
        bench.open(frame, expect or opened(SENDER, 1, plain))


def add_controls(bench):
    """Every control field's parts, secured and not."""
    fresh(bench)
    counter = 0
    bench.group("network: every type, version and discovery value; bits 8, 13, 14 and 15")
    controls = [t | 2 << 2 for t in range(4)] + [v << 2 for v in range(16)]
    controls += [8 | d << 6 for d in range(4)] + [8 | 1 << b for b in (8, 10, 11, 12, 13, 14, 15)]
    controls += [0x2008 | t | d << 6 for t in (0, 1) for d in (0, 1)] + [0xC108, 0xFFFF, 0x0000]
    for control in controls:
        good = (control & 3 < 2 and control >> 2 & 15 == 2 and control >> 6 & 3 < 2
                and not control & 0xC100)
        plain = header_of(control & ~0x200, 1) + b"\x42"
        bench.open(plain, unsecured(plain) if good else no(4))
        frame = network_frame(key(1), 0, SENDER, counter, b"\x42", header=plain[:-1])
        bench.open(frame, opened(SENDER, 1, plain) if good else no(4))
        counter += 1


def add_security_controls(bench):
    """All 256 security controls, each worked with as it came but for its level."""
    fresh(bench)
    bench.group("network: every security control: identifier 1 and extended nonce, else 5; "
                "DECISIONS, bits-6-and-7: bits 6 and 7 as received")
    for control in range(256):
        frame = network_frame(key(1), 0, SENDER, control, b"\x33", control=control)
        good = control >> 3 & 7 == 5
        bench.open(frame, opened(SENDER, 1, NETWORK_HEADER + b"\x33") if good else no(5))
    bench.group("bits 6 and 7 of the control are authenticated: worked with without them 9")
    for control in (0x68, 0xA8, 0xE8):
        bench.open(network_frame(key(1), 0, SENDER, 300, control=control, worked=0x2D), no(9))


def add_headers(bench):
    """Long addresses, routes and end device."""
    fresh(bench)
    bench.step()
    counter = 0
    bench.group("network: every mix of source route, long addresses and end device, "
                "in place and cut in the header")
    for bits in range(16):
        header = header_of(8 | bits << 10, 1 + bits % 3)
        for payload in (b"", run_of(5)):
            bench.open(header + payload, unsecured(header + payload))
            frame = network_frame(key(1), 0, SENDER, counter, payload, header=header)
            hear(bench, frame, header + payload)
            counter += 1
        bench.open(header[:-1], no(3))
        bench.open(frame[:len(header)], no(3))
    bench.group("DECISIONS, route-and-payload, and RULES 4.1: routes of 0, 1, 40, 127, 128 and 255 "
                "relays")
    for count in (0, 1, 40, 127, 128, 129, 255):
        header = header_of(0x0408, count)
        whole = len(header) <= 98
        bench.open(header[:116], unsecured(header) if whole else no(3))
        frame = network_frame(key(1), 0, SENDER, counter, header=header)
        bench.open(frame[:116], opened(SENDER, 1, header) if whole else no(3))
        bench.seal(header[:98], None if whole else no(3))
        counter += 1
    bench.group("a route's index is not judged")
    for index in (0, 1, 2, 255):
        header = put(header_of(0x0408, 1), 9, index)
        hear(bench, network_frame(key(1), 0, SENDER, counter, header=header), header)
        counter += 1
    bench.group("DECISIONS, addresses-unjudged: addresses in the header are not judged")
    for octet in (0, 255):
        header = header_of(0x1808)[:2] + bytes([octet]) * 22
        header = put(header, 6, 1)
        hear(bench, network_frame(key(1), 0, SENDER, counter, header=header), header)
        counter += 1


def add_cuts(bench):
    """Every cut of genuine frames, and those frames whole."""
    fresh(bench)
    bench.group("network: every cut of a secured frame, then the frame")
    frame = network_frame(key(1), 0, SENDER, 1, b"\x51\x52")
    for length in range(26):
        bench.open(frame[:length], no(3))
    bench.open(frame[:26], no(9))
    bench.open(frame[:27], no(9))
    bench.open(frame + b"\x00", no(9))
    hear(bench, frame, NETWORK_HEADER + b"\x51\x52")
    bench.group("network: every cut of one with long addresses and a route, then the frame")
    header = header_of(0x1C49, 2)
    frame = network_frame(key(1), 0, SENDER, 2, header=header)
    for length in range(len(frame)):
        bench.open(frame[:length], no(3))
    hear(bench, frame, header)
    bench.group("DECISIONS, unsecured-header: 8 octets open, 7 are short; secured 8 are short")
    for length in range(8):
        bench.open(NETWORK_HEADER[:length], no(3))
    bench.open(NETWORK_HEADER, unsecured(NETWORK_HEADER))
    bench.open(put(NETWORK_HEADER, 1, 2), no(3))


def add_flips(bench):
    """Every bit of a genuine frame changed, the frame itself in between."""
    fresh(bench)
    bench.group("network: every bit of a genuine frame changed, and the frame whole now and then; "
                "the level is read as anything")
    header = header_of(0x0848)
    level = range(8 * 16, 8 * 16 + 3)
    counter = 1
    for bit in range(8 * 36):
        frame = network_frame(key(1), 0, SENDER, counter, b"\x61\x62", header=header)
        if bit in level:
            hear(bench, flip(frame, bit), header + b"\x61\x62")
        else:
            bench.open(flip(frame, bit), no(9) if bit >= 8 * 30 else None)
            if bit % 16 == 15:
                hear(bench, frame, header + b"\x61\x62")
        counter += bit in level or bit % 16 == 15


def add_orders(bench):
    """Two causes at once: the earlier one is given."""
    fresh(bench)
    hear(bench, network_frame(key(1), 0, SENDER, 9), NETWORK_HEADER)
    good = network_frame(key(1), 0, SENDER, 20, run_of(90))
    bench.group("open: 1 before 2, lists too (DECISIONS, lists-before-frame: also for an unsecured "
                "frame)")
    for lent in ((115, 64, 64), (0, 64, 64), (116, 63, 64), (116, 64, 63), (116, 65, 65),
                 (256, 1024, 1022)):
        bench.lend(*lent)
        for frame in (bytes(117), b"", NETWORK_HEADER, good):
            bench.open(frame, no(1))
    bench.lend(256, 64, 64)
    bench.group("open: 2 before 3 and 4; 116 octets are read")
    bench.open(good + bytes(117 - len(good)), no(2))
    bench.open(bytes(117), no(2))
    bench.open(bytes(256), no(2))
    bench.open(bytes(116), no(4))
    bench.lend()
    bench.open(NETWORK_HEADER + bytes(108), unsecured(NETWORK_HEADER + bytes(108)))
    bench.open(NETWORK_HEADER + bytes(109), no(2))
    add_later_orders(bench, good)


def add_later_orders(bench, good):
    """The order behind 1 and 2; the good frame opens at the end."""
    bench.group("open: 3 for the control, 4, 3 up to the security control, 5, 3, 5, 6, 7, 8, 9")
    for frame, number in ((b"", 3), (b"\x00", 3), (b"\x00\x00", 4), (b"\x08\x02", 3),
                          (b"\x08\x03", 4), (good[:8], 3), (good[:8] + b"\x20", 5),
                          (good[:8] + b"\x08", 5), (good[:8] + b"\x28", 3), (good[:25], 3)):
        bench.open(frame, no(number))
    for sender in (0, ALL_ONES):
        frame = network_frame(key(9), 99, sender, TOP)
        bench.open(frame[:25], no(3))
        bench.open(frame, no(5))
    bench.open(network_frame(key(9), 99, SENDER, TOP), no(6))
    bench.open(network_frame(key(9), 0, SENDER, TOP), no(7))
    bench.open(network_frame(key(9), 0, SENDER, 9), ALTERED)
    bench.open(network_frame(key(9), 0, SENDER, 10), no(9))
    hear(bench, good, NETWORK_HEADER + run_of(90))
    bench.group("no slot present: 6, before 7")
    bench.board()
    bench.open(network_frame(key(1), 0, SENDER, TOP), no(6))
    bench.open(network_frame(key(1), 0, SENDER, 1), no(6))


# ---- sealing -----------------------------------------------------------------------------------

def add_sealing(bench):
    """Sealed octets, sizes, the counter, and the order of refusals."""
    fresh(bench)
    bench.step()
    counter = 0
    bench.group("seal: payloads about the cipher's blocks, then other headers, each opened again")
    for header, length in ([(NETWORK_HEADER, n) for n in (0, 1, 3, 15, 16, 17, 31, 32, 33, 48, 90)]
                           + [(header, 7) for header in ODD_HEADERS]):
        payload = run_of(length, counter)
        frame = network_frame(key(1), 0, OWN, counter, payload, header=header)
        bench.seal(header + payload, ok(frame))
        hear(bench, frame, header + payload, OWN)
        counter += 1
    bench.group("01: sealing 98 octets gives 116; 99 gives 2")
    plain = NETWORK_HEADER + run_of(90)
    frame = network_frame(key(1), 0, OWN, counter, run_of(90))
    sure((len(plain), len(frame)) == (98, 116), "octets of the longest", len(plain), len(frame))
    bench.seal(plain, ok(frame))
    bench.seal(plain + b"\x00", no(2))
    hear(bench, frame, plain, OWN)
    counter += 1
    bench.group("seal: 1, 2, 3, 4, 3, 6 (refusals spend no counter)")
    bench.lend(115, 64, 64)
    for octets in (plain, bytes(99), b""):
        bench.seal(octets, no(1))
    bench.lend(116, 0, 0)
    for octets, number in ((bytes(99), 2), (bytes(256), 2), (bytes(98), 4), (b"", 3), (b"\x08", 3),
                           (b"\x08\x02", 4), (b"\x08\x00", 3), (NETWORK_HEADER[:7], 3),
                           (put(NETWORK_HEADER, 1, 2), 4), (header_of(0x0408, 4)[:-1], 3),
                           (header_of(0x0408, 45), 2), (header_of(0x1808)[:23], 3)):
        bench.seal(octets, no(number))
    for control in (0x0A, 0x0B, 0x04, 0x0C, 0x88, 0xC8, 0x108, 0x4008, 0x8008, 0x0208):
        bench.seal(header_of(control), no(4))
    bench.lend()
    bench.state(counter, 0, 0)


def add_sealing_top(bench):
    """The outgoing counter at its top."""
    bench.board(OWN, TOP)
    bench.group("seal: 6 before 7")
    bench.seal(NETWORK_HEADER, no(6))
    bench.seal(NETWORK_HEADER[:7], no(3))
    bench.group("01: outgoing 4294967294 is sealed; then 7, and there it stays (RULES 8.2)")
    bench.board(OWN, TOP - 1)
    bench.step()
    bench.network(0, 9, key(3))
    bench.network(1, 8, key(4))
    bench.link(SENDER, key(5))
    bench.add("switch", 9, expect="ok")
    bench.seal(NETWORK_HEADER, ok(network_frame(key(3), 9, OWN, TOP - 1)))
    for _ in range(2):
        bench.seal(NETWORK_HEADER, no(7))
        bench.seal_aps(SENDER, 0, b"\x41\x07", no(7))
        bench.state(TOP, 0, 0)
    bench.seal(NETWORK_HEADER + bytes(91), no(2))
    bench.add("switch", 8, expect="ok")
    bench.seal(NETWORK_HEADER, no(7))
    bench.group("opening goes on; a new installation doesn't lower the counter")
    hear(bench, network_frame(key(3), 9, SENDER, 0), NETWORK_HEADER)
    bench.network(1, 8, key(6))
    bench.state(TOP, 0, 1)
    bench.seal(NETWORK_HEADER, no(7))


def add_network(bench):
    """All of this file."""
    for add in (add_named, add_slips, add_controls, add_security_controls, add_headers, add_cuts,
                add_flips, add_orders, add_sealing, add_sealing_top):
        add(bench)
