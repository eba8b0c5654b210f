"""The script of `bench`: what may stand inside of a tunnel, when it is read, written and routed.

Document 02 (i); DECISIONS, i-inner-order to i-tunnel-counter. Which insides may stand there is
written out here once more, apart from model/commands.py.
"""

from ..lines import address, flip, ok, run_of, sure
from ..model import opening
from .commands import DEVICE, UNDER, WIRE_DEVICE, bodies
from .tools import (ALL_ONES, DATA_HEADER, GENUINE, NETWORK_HEADER, OWN, TOP, Station, aps_frame,
                    key, no, opened)

JOINER = 0x00124B0000000BEE
CONTROLS = (0x21, 0x29)  # a secured command of delivery 0 or 2, without acknowledgement
SECURITIES = (0x20, 0x30, 0x38, 0x25, 0x37, 0x3A, 0x60, 0xB0, 0xF8, 0xFF)
WRONG_CONTROLS = (
    (0x20, "data"), (0x22, "an ack"), (0x23, "type 3"), (0x25, "delivery 1"), (0x2D, "delivery 3"),
    (0x31, "bit 4"), (0x01, "not secured"), (0x61, "acknowledgement"), (0xA1, "extended header"),
    (0x28, "data, delivery 2"), (0x2A, "an ack, delivery 2"), (0x2B, "type 3, delivery 2"),
    (0x39, "bit 4, delivery 2"), (0x09, "not secured, delivery 2"),
    (0x69, "acknowledgement, delivery 2"), (0xA9, "extended header, delivery 2"),
    (0x32, "an ack with a header of 2 octets"))
WRONG_SECURITIES = (
    (0x28, "identifier 1"), (0x2D, "identifier 1, level 5"), (0xE8, "identifier 1, bits 6 and 7"),
    (0x00, "no extended nonce, identifier 0"), (0x10, "no extended nonce, identifier 2"),
    (0x18, "no extended nonce, identifier 3"), (0x05, "no extended nonce, level 5"),
    (0xC0, "no extended nonce, bits 6 and 7"), (0x08, "identifier 1, no extended nonce"))
BY_PROTECTION = (("none", None), (0, 12), (2, 12), (3, 12), (1, 14), (4, 14), (255, 14))


def inside(control=0x21, security=0x20, size=31):
    """Octets to stand inside; nobody sealed them."""
    return bytes([control, 0x05, security]) + run_of(size - 3, 7)


def insides(causes, security=False):
    """Octets with one cause each for which they must not stand inside."""
    return [inside(security=octet) if security else inside(octet) for octet, _ in causes]


WRONG = insides(WRONG_CONTROLS) + insides(WRONG_SECURITIES, True)


def tunnel(octets, front=b"\x41\x07", to=DEVICE):
    """The frame of a tunnel around octets."""
    return front + b"\x0e" + to.to_bytes(8, "little") + octets


def handed_on(octets, to=DEVICE):
    """The router's answer: destination, inner frame, header, auxiliary header, payload, tag."""
    end = len(octets) - 4
    return ok(address(to), octets, octets[:2], octets[2:15], octets[15:end], octets[end:])


class Tunnels:
    """Insides tried by all three words, and how many tunnels were written."""

    def __init__(self, bench):
        self.bench, self.written = bench, 0
        bench.board(OWN, 77)

    def read(self, octets, number=None, under="none"):
        """Reads a tunnel around octets."""
        self.bench.add("read", under, tunnel(octets),
                       expect=no(number) if number else ok("tunnel", address(DEVICE), octets))

    def route(self, octets, number=None, under="none"):
        """Routes a tunnel around octets."""
        self.bench.add("route", under, tunnel(octets),
                       expect=no(number) if number else handed_on(octets))

    def write(self, octets, number=None):
        """Writes a tunnel around octets, with and without acknowledgement by turns."""
        ack = len(octets) + self.written & 1
        front = bytes([0x41 if ack else 0x01, self.written % 256])
        self.bench.add("write", "ack" if ack else "noack", "tunnel", address(DEVICE), octets,
                       expect=no(number) if number else ok(tunnel(octets, front)))
        self.written += number is None

    def each(self, octets, number=None):
        """All three."""
        for word in (self.read, self.route, self.write):
            word(octets, number)

    def counted(self):
        """Asks for the state: the writer moved the APS counter, and nothing moved the other."""
        self.bench.state(77, self.written % 256, "-")


# ---- form --------------------------------------------------------------------------------------

def add_insides(bench):
    """Every control and every security control inside, and each single cause of 11."""
    tunnels = Tunnels(bench)
    bench.group("DECISIONS, i-inner-control: 0x21 and 0x29; i-inner-security: identifiers 0, 2, 3, "
                "extended nonce, any level, bits 6 and 7")
    for control in CONTROLS:
        for security in SECURITIES:
            tunnels.each(inside(control, security))
    for causes, security in ((WRONG_CONTROLS, False), (WRONG_SECURITIES, True)):
        for octets, (_, title) in zip(insides(causes, security), causes):
            bench.group("inside, 11: " + title)
            tunnels.each(octets, 11)
    tunnels.counted()
    bench.group("read: every control inside")
    for control in range(256):
        tunnels.read(inside(control), None if control in CONTROLS else 11)
    bench.group("route: every security control inside: bits 3 to 5 are 4, 6 or 7")
    for security in range(256):
        tunnels.route(inside(0x29, security), None if security >> 3 & 7 in (4, 6, 7) else 11)
    bench.group("inside, 11: control and security control both wrong")
    for control, security in ((0x61, 0x28), (0x01, 0x00), (0x20, 0x20), (0x20, 0x21), (0x00, 0x29)):
        tunnels.each(inside(control, security), 11)


def add_unjudged(bench):
    """What is not judged of the inside, and of the tunnel around it."""
    tunnels = Tunnels(bench)
    bench.group("DECISIONS, i-inner-security, i-whose-frame: sender, counter, command and tag "
                "inside are not judged")
    for sender in (0, ALL_ONES, OWN, DEVICE):
        for counter in (0, TOP):
            front = counter.to_bytes(4, "little") + sender.to_bytes(8, "little")
            tunnels.each(b"\x21\x00\x20" + front + b"\x00" + bytes(4))
            tunnels.each(b"\x29\xff\x38" + front + b"\xff" * 9 + b"\xff" * 4)
    bench.group("route: controls of the tunnel, counters and destinations")
    for control in (0x01, 0x41, 0x09, 0x49):
        for to in (0, 1, ALL_ONES, OWN):
            frame = tunnel(inside(), bytes([control, to % 256]), to)
            bench.add("route", "none", frame, expect=handed_on(inside(), to))
    tunnels.counted()


# ---- sizes and orders --------------------------------------------------------------------------

def add_sizes(bench):
    """The least and the greatest inside."""
    tunnels = Tunnels(bench)
    bench.group("01's size check first: under 20 octets inside is 11, whatever they are")
    for size in (0, 1, 2, 3, 14, 15, 18, 19):
        tunnels.each(inside(size=20)[:size], 11)
        tunnels.each(inside(0x61, 0x28, size=20)[:size], 11)
    bench.group("inside: 20 and 21 octets, and up to 97; a payload of 1 octet at least")
    for size in (20, 21, 22, 50, 96, 97):
        tunnels.each(inside(0x29, 0x30, size))
        tunnels.each(inside(0x29, 0x28, size), 11)
    bench.group("a frame of 109 octets is 2, when it is read or routed before 11, when it is "
                "written after it")
    for size in (98, 99, 200, 240):
        for octets in (inside(size=size), inside(0x61, size=size), inside(0x29, 0x28, size)):
            tunnels.read(octets, 2)
            tunnels.route(octets, 2)
        tunnels.write(inside(size=size), 2)
        for octets in (inside(0x61, size=size), inside(0x29, 0x28, size)):
            tunnels.write(octets, 11)
    tunnels.counted()


def add_orders(bench):
    """11 for the inside among the other refusals."""
    tunnels = Tunnels(bench)
    bench.group("DECISIONS, i-inner-order: 14, then 11 for the inside, then 12")
    for under, number in BY_PROTECTION:
        for octets in (inside(), inside(0x29, 0x38, 20)):
            tunnels.read(octets, number, under)
            tunnels.route(octets, number, under)
        for octets in WRONG[::4] + WRONG[-3:] + [inside(size=19)]:
            tunnels.read(octets, 14 if number == 14 else 11, under)
            tunnels.route(octets, 14 if number == 14 else 11, under)
    bench.group("write: 1 before 11 and before 2; 108 octets of output are enough")
    for room in (107, 0):
        bench.lend(room)
        for octets in (inside(), *WRONG[::6], inside(size=19), inside(size=98),
                       inside(0x61, size=98)):
            tunnels.write(octets, 1)
    bench.lend(108, 0, 0)
    tunnels.write(inside(size=97))
    tunnels.write(inside(0x61, size=97), 11)
    tunnels.write(inside(size=98), 2)
    bench.group("DECISIONS, i-sent-on: read and route need no output and no lists")
    bench.lend(0, 0, 0)
    tunnels.read(inside())
    tunnels.route(inside())
    tunnels.route(inside(0x61), 11)
    bench.lend()
    tunnels.counted()


def add_routing(bench):
    """The router's other refusals."""
    bench.group("route: another command is 11 where it is read, else the reader's refusal")
    for word, _, body in bodies():
        frame = b"\x41\x07" + body
        for under in ("none", 0, 1, 2, 3, 4, 255):
            good = under in UNDER[word]
            if word != "tunnel" or not good:
                bench.add("route", under, frame,
                          expect=no(14 if under in (1, 4, 255) else 11 if good else 12))
        bench.add("route", UNDER[word][0], frame[:-1], expect=no(11))
        bench.add("route", UNDER[word][0], frame + bytes(109 - len(frame)), expect=no(2))
    bench.group("route: the reader's 14, 2, 3, 4, 3, 4, 11 in their order")
    good = tunnel(inside())
    for octets, number in ((bytes(109), 2), (b"", 3), (b"\x41", 3), (b"\x61", 3), (b"\x03", 4),
                           (b"\x51\x07", 4), (b"\xc1\x07", 4), (b"\x40" + bytes(6), 3),
                           (DATA_HEADER + good[2:], 4), (b"\x12\x07" + good[2:], 4),
                           (b"\x61" + good[1:], 4), (b"\x29" + good[1:], 4), (b"\x41\x07", 11),
                           (good[:11], 11), (good[:3], 11), (b"\x41\x07\x0d" + good[3:], 11)):
        for under in ("none", 0):
            bench.add("route", under, octets, expect=no(number))
        bench.add("route", 1, octets, expect=no(14))


# ---- sealed insides ----------------------------------------------------------------------------

def add_sealed(bench):
    """A centre seals a frame and wraps it; the joiner opens what the router hands on."""
    bench.group("DECISIONS, i-tunnel-counter: the inner seal spends one outgoing counter, the "
                "tunnel one APS counter and no outgoing one")
    bench.board(OWN, 40)
    bench.step(asked=False)
    bench.link(JOINER, key(5))
    joiner = Station(JOINER).link(OWN, key(5))
    forms = [(control, identifier, size) for size in (1, 35, 78) for control in (0x01, 0x09)
             for identifier in (0, 2, 3)]
    for turn, (control, identifier, size) in enumerate(forms):
        header, payload = bytes([control, 0x33]), run_of(size, identifier)
        inner = aps_frame(key(5), identifier, OWN, 40 + turn, payload, header=header)
        bench.seal_aps(JOINER, identifier, header + payload, ok(inner))
        bench.state(41 + turn, turn, "-")
        frame = tunnel(inner, bytes([0x01, turn]), JOINER)
        bench.add("write", "noack", "tunnel", address(JOINER), inner, expect=ok(frame))
        bench.state(41 + turn, turn + 1, "-")
        bench.add("read", "none", frame, expect=ok("tunnel", address(JOINER), inner))
        bench.add("route", "none", frame, expect=handed_on(inner, JOINER))
        sure(opening.open_aps(joiner.board, 116, 0, inner) == (OWN, identifier, header + payload),
             "what the router hands on does not open", inner.hex())
    bench.state(58, 18, "-")


def add_sealed_wrong(bench):
    """Sealed frames that no tunnel may hold."""
    bench.group("sealed and genuine, but no inside: acknowledgement, data, an ack, 5-octet form, "
                "a network frame")
    tunnels = Tunnels(bench)
    station = Station(JOINER).link(OWN, key(5)).install(0, 0, key(6))
    payload = b"\x05" + run_of(20)
    for header in (b"\x41\x33", b"\x49\x33", DATA_HEADER, b"\x08" + DATA_HEADER[1:],
                   b"\x02" + DATA_HEADER[1:], b"\x12\x33"):
        tunnels.each(station.seal_aps(OWN, 2, header + payload), 11)
    for identifier in (0, 2, 3):
        tunnels.each(aps_frame(key(5), identifier, JOINER, 9, payload, header=b"\x01\x33",
                               carried=False), 11)
    tunnels.each(station.seal(NETWORK_HEADER + payload), 11)
    tunnels.each(tunnel(inside()), 11)
    tunnels.counted()


def add_handed_on(bench):
    """The inner frame opened behind the router, once; altered ones, which the router can't tell."""
    bench.group("what was handed on opens once; routing changes nothing; the router has no key, so "
                "that an altered inner frame is handed on too")
    bench.board(OWN, 5)
    bench.link(JOINER, key(5))
    station = Station(JOINER, 70).link(OWN, key(5))
    plain = b"\x01\x33\x05" + run_of(30)
    for turn, identifier in enumerate((0, 2, 3)):
        inner = station.seal_aps(OWN, identifier, plain)
        forged = flip(inner, 8 * (15 + turn))
        for octets in (inner, forged, inner):
            bench.add("route", "none", tunnel(octets, to=OWN), expect=handed_on(octets, OWN))
        bench.links((0, JOINER, 0 if turn == 0 else 70 + turn))
        bench.open_aps(0, forged, no(9))
        bench.open_aps(0, inner, opened(JOINER, identifier, plain))
        bench.open_aps(0, inner, GENUINE)
        bench.add("route", "none", tunnel(inner, to=OWN), expect=handed_on(inner, OWN))
    bench.state(5, 0, "-")
    bench.links((0, JOINER, 73))


def add_tunnels(bench):
    """All of this file."""
    sure(tunnel(b"") == b"\x41\x07\x0e" + WIRE_DEVICE, "the front of a tunnel")
    for add in (add_insides, add_unjudged, add_sizes, add_orders, add_routing, add_sealed,
                add_sealed_wrong, add_handed_on):
        add(bench)
