"""The MAC layer of IEEE 802.15.4: what stands before a network frame, read and taken off.

Frames of versions 0 and 1 (2003, 2006) and 2 (2015), with every mode of addressing, PAN ID
compression, suppressed sequence numbers and information elements. Only data frames have a network
frame inside; the others are named.
"""

import struct
from dataclasses import dataclass

from .links import Passed

BEACON, DATA, ACK, COMMAND = range(4)
KINDS = ("beacon", "data", "ack", "MAC command", "reserved MAC frame", "multipurpose MAC frame",
         "MAC fragment", "extended MAC frame")
COMMANDS = {1: "association request", 2: "association response", 3: "disassociation", 4:
            "data request", 5: "PAN ID conflict", 6: "orphan notification", 7: "beacon request",
            8: "coordinator realignment", 9: "GTS request"}
NONE, RESERVED, SHORT, LONG = range(4)  # modes of addressing
WIDTHS = (0, 0, 2, 8)                   # octets of an address, by its mode
NEWEST = 2                              # the version that has information elements
PAYLOAD_FOLLOWS, FRAME_FOLLOWS, ELEMENTS_END = 0x7E, 0x7F, 0xF  # elements that end a list


@dataclass(slots=True)
class Mac:
    """A MAC frame: who sent it to whom, and what it carries."""
    name: str           # what it is passed over as, or None for a data frame
    pan: int = None     # the sender's PAN, as far as the frame tells
    source: str = ""    # addresses in hex digits, most significant first; empty where it has none
    destination: str = ""
    payload: bytes = b""


def read(octets):
    """The MAC frame in these octets."""
    if len(octets) < 2:
        raise Passed("too short for a MAC frame")
    control = octets[0] | octets[1] << 8
    kind, version = control & 7, control >> 12 & 3
    if kind > COMMAND or version > NEWEST:
        return Mac(KINDS[kind] if kind > COMMAND else "MAC frame of another version")
    start = 2 if version == NEWEST and control >> 8 & 1 else 3
    if kind == ACK and version < NEWEST:
        return Mac("ack")
    frame, start = addressed(octets, start, control, version == NEWEST)
    if control >> 3 & 1:
        frame.name = "secured MAC frame"
        return frame
    if version == NEWEST and control >> 9 & 1 and kind in (DATA, COMMAND):
        start = behind_elements(octets, start)
    if kind == DATA:
        frame.name, frame.payload = None, octets[start:]
    elif kind == COMMAND:
        frame.name = named(octets[start:start + 1])
    return frame


def named(identifier):
    """A MAC command by its identifier."""
    known = COMMANDS.get(identifier[0]) if identifier else None
    return f"MAC command ({known})" if known else "MAC command"


def addressed(octets, start, control, newest):
    """The frame with its addresses, and where they end."""
    to, by = control >> 10 & 3, control >> 14 & 3
    if RESERVED in (to, by):
        raise Passed("MAC frame with a reserved mode of addressing")
    pans = with_pans(to, by, control >> 6 & 1, newest)
    widths = (2 * pans[0], WIDTHS[to], 2 * pans[1], WIDTHS[by])
    end = start + sum(widths)
    if len(octets) < end:
        raise Passed("cut MAC header")
    fields = []
    for width in widths:
        fields.append(octets[start:start + width][::-1])
        start += width
    pan = fields[2] or fields[0]  # a compressed frame has the sender's PAN in the first place
    return Mac(KINDS[control & 7], int.from_bytes(pan, "big") if pan else None, fields[3].hex(),
               fields[1].hex()), end


def with_pans(to, by, compressed, newest):
    """Whether the frame has the destination's PAN ID, and the source's."""
    if not newest:
        if compressed and NONE in (to, by):
            raise Passed("MAC frame with PAN ID compression and fewer than two addresses")
        return to != NONE, by != NONE and not compressed
    if to == NONE and by == NONE:
        return bool(compressed), False
    if NONE in (to, by) or (to, by) == (LONG, LONG):
        there = not compressed
        return there and to != NONE, there and to == NONE
    return True, not compressed


def behind_elements(octets, start):
    """Where the payload starts behind the information elements. A list that nothing follows may
    end without an element that says so."""
    of_payload, more = False, True
    while more:
        if len(octets) < start + 2:
            raise Passed("cut MAC header")
        element, = struct.unpack_from("<H", octets, start)
        if element >> 15 != of_payload:
            raise Passed("MAC frame with an information element out of place")
        if of_payload:
            start += 2 + (element & 0x7FF)
            more = element >> 11 & 15 != ELEMENTS_END and start < len(octets)
        else:
            start += 2 + (element & 0x7F)
            of_payload = element >> 7 & 0xFF == PAYLOAD_FOLLOWS
            more = of_payload or element >> 7 & 0xFF != FRAME_FOLLOWS and start < len(octets)
    if len(octets) < start:
        raise Passed("cut MAC header")
    return start
