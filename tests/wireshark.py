#!/usr/bin/env python3
"""Frames sealed by the bench, opened by Wireshark.

    python3 tests/wireshark.py                      the repository's crates/bench/out/bench
    python3 tests/wireshark.py --keep frames.pcap   the same, and keeps the capture to look at
    python3 tests/wireshark.py --bench 'python3 -m independent bench --answer'

It needs Wireshark's command `tshark` (Debian: apt-get install -y tshark), and is no part of the
gate. A board seals network frames of many headers and lengths, and APS frames inside of network
frames. Each is put into an IEEE 802.15.4 data frame and a capture file, and tshark, given the
keys, deciphers it. Compared are, for each layer: the plain octets with those that were handed to
`seal` or `sealaps`; the security control, the frame counter, the sender, the key identifier, the
key sequence number, the tag and the key used; and what Wireshark shows of the header and of the
command inside. The frame inside of a tunnel Wireshark deciphers in its place; it is also looked at
as the router hands it on (`route`), in a network frame without security.

With Wireshark 4.4 or later, which read Relay and the TLVs of commands, these are compared too, and
TLVs that the bench refuses when it reads them must be malformed there. With an older one they are
not, and a line says so before the last. 4.4.18 and 4.0.17 were tried.

The other way round, each frame is tried with each of its octets altered in one bit, at either
layer: Wireshark must decipher none of those, and find no key for it. Where a layer's payload is
empty 4.0.17 has nothing to decipher and looks at no tag; with one before 4.4 such lines say so.

Then the shipped capture, examples/first-capture.pcapng: with the label's key alone Wireshark must
decipher the frames that desk.py finds genuine, and no others, to what is inside, and show the
verdicts of desk.py as comments.

One line is printed for each frame, and at last `N frames, 0 differ`. The exit code is 0, 1 where
something differs, 2 where tshark is missing or fails.
"""

import argparse
import shutil
import sys
import tempfile
from dataclasses import dataclass, field
from pathlib import Path

sys.path.insert(0, str(Path(__file__).resolve().parent.parent))

import wireshark_capture
from bench_pipe import (BENCH_HELP, Bench, Differs, bench_words, flipped, give_up, in_words, least,
                        text)
from named_tlvs import (ENCAPSULATION, FEATURES, FRAGMENTS, KEY_METHODS, METHODS, RELAY_MESSAGE,
                        TEST_SPECIFIC, of_octets, tlv)
from tshark import MALFORMED, NEWER, NOT_READ, TROUBLE, Tshark, version, write_capture

NETWORK_KEYS = (bytes.fromhex("abcdef01234567890000000000000000"),
                bytes.fromhex("00112233445566778899aabbccddeeff"))
NUMBERS = (0, 7)               # the slots' key sequence numbers
LINK_KEYS = (b"ZigBeeAlliance09", bytes.fromhex("7e11c0de00000000000000000000a001"))
PARTNERS = ("aaaaaaaaaaaaaaaa", "00124b00deadbeef")
DEVICE = "00000000000000ed"    # an address that commands speak of
SENT_KEY = bytes(range(16, 32))
RELAYED = bytes.fromhex("41070804")  # a message in a Relay: Request-Key, type 4
# Wireshark 4.4.18 reads an address behind the two masks, whether the value has one or not.
ADDRESSED = of_octets(METHODS, KEY_METHODS[2:] + least(int(DEVICE, 16), 8))
ADDRESSED_JOINER = tlv(ENCAPSULATION, TEST_SPECIFIC + FRAGMENTS + ADDRESSED)
TAG, NETWORK, NONE = 4, 1, None
LINK, TRANSPORT, LOAD = 0, 2, 3
PLAIN = {"zbee_nwk.dst": 0x0000, "zbee_nwk.src": 0x1234, "zbee_nwk.radius": 30}


# ---- what was sealed ---------------------------------------------------------------------------

@dataclass
class Layer:
    """What Wireshark should find of one secured layer."""
    counter: int
    sender: str
    identifier: int
    tag: bytes
    key: bytes
    payload: bytes
    level: int = 0             # as on the wire


@dataclass
class Case:
    """A frame, its layers from the outside, and what else Wireshark should show."""
    name: str
    frame: bytes
    layers: list
    sequence: list                               # the network key's sequence number, if secured
    shown: dict = field(default_factory=dict)
    altered: list = field(default_factory=list)  # frames, with how many layers may be deciphered


class Sealer:
    """A board on the bench with both keys of each kind, and the counter and mark that it should be
    at; newer says whether its frames are for a Wireshark of 4.4 or later."""

    def __init__(self, bench, own, counter, newer):
        self.bench, self.own, self.counter, self.newer, self.slot = bench, own, counter, newer, 0
        self.mark = counter
        bench.ok("board", own, counter)
        for slot in (0, 1):
            bench.ok("network", slot, NUMBERS[slot], NETWORK_KEYS[slot])
            bench.ok("link", PARTNERS[slot], LINK_KEYS[slot])

    def use(self, slot):
        """Makes a slot active."""
        self.slot = slot
        self.bench.ok("switch", NUMBERS[slot])

    def seal(self, *line):
        """What is sealed; the mark is moved first where the counter has come up to it."""
        if self.counter == self.mark:
            self.mark = int(self.bench.so_many(1, "mark")[0])
            self.bench.ok("marked", self.mark)
        return self.bench.octets(*line)

    def layer(self, frame, identifier, key, payload):
        """A layer that was just sealed."""
        self.counter += 1
        return Layer(self.counter - 1, self.own, identifier, frame[-TAG:], key, payload)

    def network(self, header, payload):
        """A network frame, sealed, and its layer."""
        frame = self.seal("seal", header + payload)
        return frame, self.layer(frame, NETWORK, NETWORK_KEYS[self.slot], payload)

    def aps(self, partner, identifier, header, payload):
        """An APS frame, sealed, and its layer."""
        frame = self.seal("sealaps", PARTNERS[partner], identifier, header + payload)
        return frame, self.layer(frame, identifier, LINK_KEYS[partner], payload)

    def case(self, name, header, payload, shown, inside=(), level=0):
        """A network frame around octets that may have secured layers of their own."""
        frame, layer = self.network(header, payload)
        frame, layer.level = flipped(frame, len(header), level), level
        name = f"{name}, slot {self.slot}, counter {layer.counter}"
        case = Case(name, frame, [layer, *inside], [NUMBERS[self.slot]], {**PLAIN, **shown})
        if payload or self.newer:
            case.altered += [(flipped(frame, place), 0) for place in range(len(frame))]
        return case


# ---- network frames ----------------------------------------------------------------------------

def header(bits=0, kind=0, long_to=None, long_from=None, route=None, number=1):
    """A plain network header, with long addresses and a source route where they are given."""
    control = (kind | 2 << 2 | bits | (route is not None) << 10 | (long_to is not None) << 11
               | (long_from is not None) << 12)
    octets = least(control, 2) + least(0x0000, 2) + least(0x1234, 2) + bytes([30, number])
    for address in (long_to, long_from):
        octets += b"" if address is None else least(int(address, 16), 8)
    if route is not None:
        octets += bytes([len(route), max(len(route) - 1, 0)])
        octets += b"".join(least(relay, 2) for relay in route)
    return octets


def headers():
    """Headers of different kinds: a name, the octets, and what Wireshark should show."""
    to, own = PARTNERS[0], "0000000100000000"
    yield "data", header(), {"zbee_nwk.seqno": 1}
    yield "data, route discovery", header(0x40, number=2), {"zbee_nwk.seqno": 2}
    yield "data, end device", header(1 << 13, number=3), {"zbee_nwk.seqno": 3}
    yield "command", header(kind=1, number=255), {"zbee_nwk.seqno": 255}
    yield "data, long destination", header(long_to=to), {"zbee_nwk.dst64": to}
    yield "data, long source", header(long_from=own), {"zbee_nwk.src64": own}
    yield ("data, long addresses", header(long_to=to, long_from=own),
           {"zbee_nwk.dst64": to, "zbee_nwk.src64": own})
    yield "data, empty source route", header(route=()), {"zbee_nwk.relay.count": 0}
    yield ("data, source route", header(route=(0x0BEE, 0x3C08)),
           {"zbee_nwk.relay.count": 2, "zbee_nwk.relay.index": 1,
            "zbee_nwk.relay": [0x0BEE, 0x3C08]})
    yield ("command, long addresses, source route",
           header(kind=1, long_to=to, long_from=own, route=(0x0BEE,)),
           {"zbee_nwk.dst64": to, "zbee_nwk.src64": own, "zbee_nwk.relay": 0x0BEE})


def as_list(shown):
    """What is shown of a field, as a list."""
    return shown if isinstance(shown, list) else [shown]


def count(octets):
    """A number of octets in words."""
    return f"{octets} octet{'' if octets == 1 else 's'}"


def network_payload(length):
    """Octets that start as an unsecured APS data frame does."""
    return (bytes.fromhex("0001060004010155") + bytes(i * 37 & 255 for i in range(90)))[:length]


def network_cases(sealer):
    """Every header with every length that fits, in either slot by turns."""
    for turn, (name, octets, shown) in enumerate(headers()):
        for length in (0, 1, 16, 80, 98 - len(octets)):
            if len(octets) + length <= 98:
                sealer.use((turn + length) % 2)
                yield sealer.case(f"network {name}, {count(length)}", octets,
                                  network_payload(length), shown)


# ---- APS frames inside -------------------------------------------------------------------------

APS_HEADERS = (
    ("data", "0001060004010109", 8), ("data, broadcast", "48ff06000401010a", 8),
    ("data, group", "0c230106000401010b", 9), ("ack", "020106000401010c", 8),
    ("ack of a command", "120d", 2), ("command", "010e", 2), ("command, broadcast", "490f", 2),
)


def both(sealer, name, partner, identifier, octets, size, shown, level=0):
    """A secured APS frame inside a secured network frame, and the APS frame altered."""
    inner, layer = sealer.aps(partner, identifier, octets[:size], octets[size:])
    inner, layer.level = flipped(inner, size, level), level
    outer = header(number=9)
    case = sealer.case(f"APS {name}, identifier {identifier}, {count(len(octets) - size)}", outer,
                       inner, shown, [layer])
    if layer.payload or sealer.newer:
        case.altered += [(sealer.network(outer, flipped(inner, place))[0], 1)
                         for place in range(len(inner))]
    return case


def aps_cases(sealer):
    """APS frames of every form, identifier and some lengths."""
    turn = 0
    for name, octets, size in APS_HEADERS:
        plain = bytes.fromhex(octets)
        for identifier in (LINK, TRANSPORT, LOAD):
            for length in (0, 1, 16, 98 - 8 - 17 - size):
                turn += 1
                sealer.use(turn % 2)
                payload = (b"\x09" + bytes(i * 41 & 255 for i in range(90)))[:length]
                yield both(sealer, name, turn // 2 % 2, identifier, plain + payload, size, {})


def commands():
    """Commands, the identifier they go under, and what Wireshark should show of them."""
    a, tc, at = DEVICE, PARTNERS[0], "zbee_aps.cmd."
    key = {at + "id": 5, at + "key": SENT_KEY.hex()}
    yield TRANSPORT, ("transport1", SENT_KEY, 3, a, tc), {
        **key, at + "key_type": 1, at + "seqno": 3, at + "dst": a, at + "src": tc}
    yield LOAD, ("transport4", SENT_KEY, a, tc, ""), {
        **key, at + "key_type": 4, at + "dst": a, at + "src": tc}
    for kind, first in ((2, 1), (3, 0)):
        yield LOAD, (f"transport{kind}", SENT_KEY, a, first, ""), {
            **key, at + "key_type": kind, at + "partner": a, at + "init_flag": first}
    yield LINK, ("update", a, 0x0BEE, 1, ""), {
        at + "id": 6, at + "device": a, at + "addr": 0x0BEE, at + "update_status": 1}
    yield LINK, ("remove", a), {at + "id": 7, at + "device": a}
    yield LINK, ("request2", a), {at + "id": 8, at + "key_type": 2, at + "partner": a}
    yield LINK, ("request4",), {at + "id": 8, at + "key_type": 4}
    for identifier in (LINK, NONE):
        yield identifier, ("switchkey", 7), {at + "id": 9, at + "seqno": 7}
    yield NONE, ("verify", 4, a, SENT_KEY), {
        at + "id": 15, at + "key_type": 4, at + "src": a, at + "key_hash": SENT_KEY.hex()}
    yield LINK, ("confirm", 0, 4, a), {
        at + "id": 16, at + "status": 0, at + "key_type": 4, at + "dst": a}


# ---- TLVs --------------------------------------------------------------------------------------

def read_as(types, lengths, **fields):
    """What Wireshark should show of TLVs: their tags and length octets, in the frame's order, those
    inside of an encapsulation too, and what is in their values."""
    return {MALFORMED: [], "zbee_tlv.type_global": types, "zbee_tlv.length": lengths,
            **{f"zbee_tlv.{name}": value for name, value in fields.items()}}


def joiners():
    """TLVs of a joiner for Update-Device: a name, the octets, and what Wireshark should show."""
    inside = {"supported_key_negotiation_methods": 3, "supported_secrets": 5,
              "device_eui64": DEVICE}
    yield "a joiner's TLVs", ADDRESSED_JOINER, read_as(
        [0x48, 0x40, 0x47, 0x41], [24, 3, 4, 9], manufacturer_specific=0x1234, value="aabb",
        node_id=1, frag_opt=2, max_buf_size=10, **inside)
    more = FRAGMENTS + ADDRESSED_JOINER + TEST_SPECIFIC + FRAGMENTS
    yield "one more before them, two behind", more, \
        read_as([0x47, 0x48, 0x40, 0x47, 0x41, 0x40, 0x47], [4, 24, 3, 4, 9, 3, 4],
                manufacturer_specific=[0x1234] * 2, value=["aabb"] * 2, node_id=[1] * 3,
                frag_opt=[2] * 3, max_buf_size=[10] * 3, **inside)


def with_tlvs():
    """Commands with TLVs: a name, the identifiers they go under, the words, what Wireshark should
    show of the command, and what of its TLVs."""
    a, tc, at = DEVICE, PARTNERS[0], "zbee_aps.cmd."
    for name, tlvs, shown in joiners():
        yield (f"update, {name}", (LINK,), ("update", a, 0x0BEE, 1, tlvs),
               {at + "id": 6, at + "device": a}, shown)
    one_octet = tlv(FEATURES, 1) + FRAGMENTS
    shown = read_as([0x47], [0, 4], type=0, value="01", node_id=1, frag_opt=2, max_buf_size=10)
    yield ("transport4, a value of one octet", (LOAD,), ("transport4", SENT_KEY, a, tc, one_octet),
           {at + "id": 5, at + "key_type": 4, at + "dst": a}, shown)
    for kind, first in ((2, 1), (3, 0)):
        yield (f"transport{kind}, a value of one octet", (LOAD,),
               (f"transport{kind}", SENT_KEY, a, first, one_octet),
               {at + "id": 5, at + "key_type": kind, at + "partner": a}, shown)
    yield from relays()


def relays():
    """Relay, down and up, with a message and a TLV before and behind it."""
    at, told = "zbee_aps.cmd.", tlv(RELAY_MESSAGE, int(DEVICE, 16), RELAYED)
    relayed = {"relay.type": 0, "relay.length": 11, "relay.joiner_ieee": DEVICE}
    fragments = {"node_id": 1, "frag_opt": 2, "max_buf_size": 10}
    for number, word in ((17, "down"), (18, "up")):
        inside = {at + "id": [number, 8], at + "key_type": 4}
        for name, tlvs, shown in (
                ("a message", told, read_as([], [], **relayed)),
                ("a TLV before it", FRAGMENTS + told, read_as([0x47], [4], **relayed, **fragments)),
                ("one behind it", told + FRAGMENTS, read_as([0x47], [4], **relayed, **fragments))):
            yield (f"{word}, {name}", (LINK, NONE), (word, tlvs), {at + "id": number},
                   {**shown, **inside})


def cut_cases(sealer):
    """TLVs that the bench refuses when it reads them, and Wireshark too."""
    own = sealer.bench.octets("write", "ack", "update", DEVICE, 0x0BEE, 1, "")
    joiner = ADDRESSED_JOINER
    for name, tlvs in (("cut by an octet", joiner[:-1]), ("cut to tag and length", joiner[:2]),
                       ("without a value at the end", joiner + FRAGMENTS[:1] + b"\x00"),
                       ("with its length for the length octet",
                        FRAGMENTS[:1] + bytes([len(FRAGMENTS) - 2]) + FRAGMENTS[2:])):
        read = sealer.bench.ask("read", LINK, own + tlvs)
        if read != ["refused", "11", "command"]:
            raise Differs(f"TLVs {name} are read: {' '.join(read)}")
        yield sealer.case(f"APS command update, a TLV {name}", header(), own + tlvs, {
            "zbee_aps.cmd.id": 6, **({MALFORMED: NOT_READ} if sealer.newer else {})})


def all_commands(newer):
    """Every command: a name, the identifier it goes under, its words, and what is shown of it."""
    for identifier, words, shown in commands():
        yield words[0], identifier, words, shown
    for name, identifiers, words, shown, of_tlvs in with_tlvs():
        for identifier in identifiers:
            yield name, identifier, words, {**shown, **(of_tlvs if newer else {})}


def command_cases(sealer):
    """Commands as `write` makes them."""
    sealer.use(0)
    for name, identifier, words, shown in all_commands(sealer.newer):
        plain = sealer.bench.octets("write", "ack", *words)
        if identifier is NONE:
            yield sealer.case(f"APS command {name}, not secured by APS", header(), plain, shown)
        else:
            yield both(sealer, f"command {name}", 0, identifier, plain, 2, shown)


# ---- tunnels -----------------------------------------------------------------------------------

def in_tunnel(shown):
    """What Wireshark should show of a tunnel: its own identifier and destination, then what it
    shows of the command inside."""
    at = "zbee_aps.cmd."
    inside = as_list(shown[at + "dst"]) if at + "dst" in shown else []
    return {**shown, at + "id": [14, *as_list(shown[at + "id"])], at + "dst": [DEVICE, *inside]}


def around(sealer, name, inner, layer, shown):
    """A tunnel, and the frame inside of it altered; the frame is deciphered in its place."""
    tunnel = sealer.bench.octets("write", "ack", "tunnel", DEVICE, inner)
    case = sealer.case(f"APS command tunnel around {name}", header(), tunnel, in_tunnel(shown),
                       [layer])
    start = len(tunnel) - len(inner)
    case.altered += [(sealer.network(header(), flipped(tunnel, start + place))[0], 1)
                     for place in range(len(inner))]
    return case, tunnel


def sent_on(sealer, name, tunnel, layer, shown):
    """The frame that the router hands on, in a network frame without security: to a joiner that
    has no network key."""
    handed_on = sealer.bench.unhexed(sealer.bench.so_many(6, "route", "none", tunnel)[1])
    front = header(number=7)
    case = Case(f"APS command {name}, sent on by the router", front + handed_on, [layer], [],
                {**PLAIN, **shown})
    case.altered += [(front + flipped(handed_on, place), 0) for place in range(len(handed_on))]
    return case


def tunnel_cases(sealer):
    """Tunnels around every command that goes secured, of delivery 0 and 2 by turns, and what the
    router sends on of them."""
    secured = [case for case in all_commands(sealer.newer) if case[1] is not NONE]
    for turn, (what, identifier, words, shown) in enumerate(secured):
        sealer.use(turn % 2)
        plain = flipped(sealer.bench.octets("write", "noack", *words), 0, turn % 2 << 3)
        inner, layer = sealer.aps(turn // 2 % 2, identifier, plain[:2], plain[2:])
        name = f"{what}, identifier {identifier}, delivery {turn % 2 * 2}"
        case, tunnel = around(sealer, name, inner, layer, shown)
        yield case
        yield sent_on(sealer, name, tunnel, layer, shown)


# ---- counters, levels --------------------------------------------------------------------------

def counter_cases(bench, newer):
    """Frames of other boards at other counters, up to the last one that is sealed."""
    for own, counter in (("00124b0001020304", 0), ("fffffffffffffffe", 255), ("1", 65535),
                         ("8000000000000000", 2**31 - 1), ("00124b0001020304", 2**32 - 3)):
        sealer = Sealer(bench, own.zfill(16), counter, newer)
        sealer.use(counter % 2)
        octets = bytes.fromhex("000106000401010941")
        inner, layer = sealer.aps(1, LINK, octets[:8], octets[8:])
        yield sealer.case(f"APS data, sender {sealer.own}, counter {counter}, and network",
                          header(), inner, {}, [layer])


def level_cases(sealer):
    """Frames with a level on the wire, which is sent as 0 and read as anything."""
    octets = bytes.fromhex("000106000401010941")
    for level in range(1, 8):
        yield sealer.case(f"network data, level {level} on the wire, 16 octets", header(),
                          network_payload(16), {}, level=level)
        yield both(sealer, f"data, level {level} on the wire", 0, LINK, octets, 8, {}, level)


def all_cases(bench, newer):
    """Every case."""
    sealer = Sealer(bench, "0000000100000000", 0, newer)
    return [*network_cases(sealer), *aps_cases(sealer), *command_cases(sealer), *cut_cases(sealer),
            *tunnel_cases(sealer), *level_cases(sealer), *counter_cases(bench, newer)]


# ---- comparing ---------------------------------------------------------------------------------

def expected(case, newer):
    """What tshark should read of a frame."""
    layers = case.layers
    judged = [layer for layer in layers if layer.payload or newer]
    asked = {"zbee.sec.field": [0x20 | layer.identifier << 3 | layer.level for layer in layers],
             "zbee.sec.counter": [layer.counter for layer in layers],
             "zbee.sec.src64": [layer.sender for layer in layers],
             "zbee.sec.key_id": [layer.identifier for layer in layers],
             "zbee.sec.mic": [layer.tag.hex() for layer in layers],
             "zbee.sec.key": [layer.key.hex() for layer in judged],
             "zbee.sec.key_seqno": case.sequence, **{name: [] for name in TROUBLE}}
    return {**asked, **{name: as_list(value) for name, value in case.shown.items()}}


def differences(case, payloads, read, altered, newer):
    """What is not as it should be with one frame and its altered copies."""
    asked = [layer.payload for layer in case.layers if layer.payload]
    if payloads != asked:
        yield f"deciphered {' '.join(map(text, payloads)) or 'nothing'}, and not " + \
            " ".join(map(text, asked))
    for name, value in expected(case, newer).items():
        if read[name] != value:
            yield f"{name} is {read[name]}, and not {value}"
    for (frame, most), found in zip(case.altered, altered):
        if len(found) > most:
            yield f"deciphered though altered: {frame.hex()}"


def verdict(case, wrong, newer):
    """What the line of a frame says."""
    if wrong:
        return "; ".join(wrong[:3])
    said = "alike"
    if case.altered:
        said += f"; altered {len(case.altered)} times, never deciphered"
    if not newer and not all(layer.payload for layer in case.layers):
        said += "; a payload is empty, and its tag not looked at"
    return said


def look(folder, cases, keep, newer):
    """What tshark deciphers and reads of the frames, and deciphers of the altered ones."""
    sealed, spoilt = folder / "sealed.pcap", folder / "altered.pcap"
    frames = [case.frame for case in cases]
    altered = [frame for case in cases for frame, _ in case.altered]
    write_capture(sealed, frames)
    write_capture(spoilt, altered)
    if keep:
        shutil.copy(sealed, keep)
    tshark = Tshark(folder, NETWORK_KEYS + LINK_KEYS, newer)
    seen = tshark.deciphered(sealed), tshark.fields(sealed), tshark.opened(spoilt)
    if [len(found) for found in seen] != [len(frames), len(frames), len(altered)]:
        raise Differs("tshark doesn't tell of as many frames as it was given")
    return seen


def compare(folder, cases, keep, newer):
    """Prints a line for each frame; how many differ."""
    payloads, read, rest = look(folder, cases, keep, newer)
    differ = 0
    for case, plain, found in zip(cases, payloads, read):
        altered, rest = rest[:len(case.altered)], rest[len(case.altered):]
        wrong = list(differences(case, plain, found, altered, newer))
        differ += bool(wrong)
        print(f"{case.name}: {verdict(case, wrong, newer)}")
    return differ


def main():
    """Seals, lets tshark look, compares; the exit code."""
    parser = argparse.ArgumentParser(description=__doc__,
                                     formatter_class=argparse.RawDescriptionHelpFormatter)
    parser.add_argument("--bench", metavar="COMMAND", help=BENCH_HELP)
    parser.add_argument("--keep", metavar="FILE", help="also write the capture there")
    given = parser.parse_args()
    if shutil.which("tshark") is None:
        give_up("tshark is missing: install it (Debian: apt-get install -y tshark)")
    said, numbers = version()
    newer = numbers >= NEWER
    print(said)
    bench = Bench(bench_words(given.bench))
    try:
        cases = all_cases(bench, newer)
        label_key = bench.unhexed(bench.so_many(2, "label", wireshark_capture.LABEL)[1])
        with tempfile.TemporaryDirectory() as folder:
            differ = compare(Path(folder), cases, given.keep, newer)
            differ += wireshark_capture.compare(Path(folder), label_key, newer, given.bench)
    except Differs as difference:
        print(difference)
        return 1
    finally:
        bench.close()
    print("Relay and TLVs were compared" if newer else
          "Relay and TLVs were not compared: that needs Wireshark 4.4 or later")
    print(f"{len(cases)} frames, {differ} differ")
    return 1 if differ else 0


if __name__ == "__main__":
    sys.exit(in_words(main))
