"""The script of `margins`: frames of both layers, sealed.

Document 01, "Opening and sealing".
"""

from ..bench.aps import HEADERS
from ..bench.network import ODD_HEADERS, header_of
from ..bench.tools import ALL_ONES, COMMAND_HEADER, DATA_HEADER, NETWORK_HEADER, put
from ..lines import address, run_of, sure
from .opening import aps, network
from .tools import A1, A2, A3, OUTGOING, OWN, Done


def add_seal(script):
    """Network frames sealed and refused."""
    def done(header, payload):
        return Done(network(OWN, OUTGOING, payload, header=header), (), (OUTGOING + 1,))

    script.group("seal: the active key, the outgoing counter, raised by 1")
    script.everywhere("seal", NETWORK_HEADER + run_of(20), gives=done(NETWORK_HEADER, run_of(20)))
    for length in (0, 16, 17):
        script.once("seal", NETWORK_HEADER + run_of(length),
                    gives=done(NETWORK_HEADER, run_of(length)))
    for header in ODD_HEADERS[2::3]:
        script.once("seal", header + b"\x51\x52", gives=done(header, b"\x51\x52"))
    script.group("seal: 98 octets give 116, 99 give 2")
    longest = done(NETWORK_HEADER, run_of(90))
    sure(len(longest.frame) == 116, "octets of the longest network frame", len(longest.frame))
    for room in (116, 256):
        script.ask(room, "seal", NETWORK_HEADER + run_of(90), gives=longest)
    script.mostly("seal", NETWORK_HEADER + run_of(91), gives=2)
    script.once("seal", run_of(512), gives=2)
    script.group("seal, 3: cut short")
    script.mostly("seal", NETWORK_HEADER[:7], gives=3)
    for octets in (b"", header_of(0x0408, 4)[:-1]):
        script.once("seal", octets, gives=3)
    script.group("seal, 4: the security bit set, before 3 for the header; type, bit 15")
    script.mostly("seal", put(NETWORK_HEADER, 1, 2) + run_of(20), gives=4)
    for octets in (b"\x08\x02", header_of(0x000A), header_of(0x8008)):
        script.once("seal", octets, gives=4)


def add_seal_aps(script):
    """APS frames sealed and refused."""
    def done(partner, identifier, header, payload=b""):
        frame = aps(OWN, OUTGOING, payload, identifier, key_of=partner, header=header)
        return Done(frame, (), (OUTGOING + 1,))

    script.group("sealaps: the partner's key, 13 octets, the outgoing counter raised by 1")
    script.everywhere("sealaps", address(A1), 0, COMMAND_HEADER + run_of(20),
                      gives=done(A1, 0, COMMAND_HEADER, run_of(20)))
    script.group("sealaps: identifiers 0 to 4; the other partner; each form of header")
    for partner, identifier in ((A1, 0), (A1, 1), (A1, 2), (A1, 3), (A1, 4), (A2, 2)):
        good = identifier in (0, 2, 3)
        script.once("sealaps", address(partner), identifier, DATA_HEADER + run_of(9),
                    gives=done(partner, identifier, DATA_HEADER, run_of(9)) if good else 14)
    for header in HEADERS:
        script.once("sealaps", address(A2), 3, header, gives=done(A2, 3, header))
    script.group("sealaps: 91 octets give 108, 92 give 2")
    longest = done(A1, 2, DATA_HEADER, run_of(83))
    sure(len(longest.frame) == 108, "octets of the longest APS frame", len(longest.frame))
    for room in (116, 256):
        script.ask(room, "sealaps", address(A1), 2, DATA_HEADER + run_of(83), gives=longest)
    cases = (
        (2, "over 91 octets", (A1, 2, DATA_HEADER + run_of(84)),
         ((A3, 1, run_of(512)),)),
        (3, "cut short, before 14", (A1, 0, DATA_HEADER[:7]),
         ((A3, 1, b""), (A3, 1, b"\x41"))),
        (4, "the security bit set, before 3 for the header; other forms",
         (A1, 0, b"\x61\x07" + run_of(20)),
         ((A3, 1, b"\x61"), (A1, 0, b"\x51\x07"))),
        (14, "identifiers 1, 4 and 255, before 6", (A1, 1, COMMAND_HEADER + run_of(20)),
         ((A1, 255, COMMAND_HEADER), (A3, 4, COMMAND_HEADER))),
        (6, "no link entry (DECISIONS, seal-for-nobody: zero and all ones too)",
         (A3, 0, COMMAND_HEADER + run_of(20)),
         ((0, 0, COMMAND_HEADER), (ALL_ONES, 3, COMMAND_HEADER), (OWN, 2, COMMAND_HEADER))),
    )
    for number, title, (partner, *first), others in cases:
        script.group(f"sealaps, {number}: {title}")
        script.mostly("sealaps", address(partner), *first, gives=number)
        for partner, *fields in others:
            script.once("sealaps", address(partner), *fields, gives=number)
