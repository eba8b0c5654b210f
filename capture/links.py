"""From a stored frame to a frame of IEEE 802.15.4: what sniffers put around it taken off.

Link types 195 (with checksum), 230 (without), 283 (TAP, whose fields say which) and 1 (Ethernet),
where it stands behind EtherType 0x809a or in ZEP, versions 1 and 2, over UDP port 17754.
"""

import binascii
import struct
import zlib

ETHERNET, WITH_CHECKSUM, WITHOUT_CHECKSUM, TAP = 1, 195, 230, 283
VLANS, IPV4, IPV6, WPAN = (0x8100, 0x88A8, 0x9100), 0x0800, 0x86DD, 0x809A  # EtherTypes
UDP, ZEP_PORT = 17, 17754
ETHERNET_LEAST = 60           # octets; a shorter frame is filled up
CHECKSUM_TYPE = 0             # the TAP field that says what checksum follows the frame
CHIP_SAYS_RIGHT = 0x80        # in the last octet, where a chip wrote its verdict over the checksum


class Passed(Exception):
    """The frame is passed over; its name, or why."""


def frame_of(packet, by_chip=False):
    """The frame of IEEE 802.15.4 in a stored one, its checksum found right and taken off; by the
    verdict that a chip wrote in the checksum's place, where that is so."""
    if len(packet.octets) < packet.length:
        raise Passed(f"cut: {len(packet.octets)} of {packet.length} octets")
    if packet.spoilt:
        raise Passed("wrong checksum")
    if packet.link == WITHOUT_CHECKSUM:
        return packet.octets
    if packet.link == WITH_CHECKSUM:
        return checked_by_chip(packet.octets) if by_chip else checked(packet.octets)
    if packet.link == TAP:
        return tapped(packet.octets)
    if packet.link == ETHERNET:
        return in_ethernet(packet.octets)
    raise Passed("an interface that the file doesn't describe" if packet.link is None
                 else f"link type {packet.link}")


# ---- the checksum ------------------------------------------------------------------------------

# The library has the same polynomial from the most significant bit; here the least comes first.
TURNED = bytes(int(f"{octet:08b}"[::-1], 2) for octet in range(256))


def checksum_fits(octets):
    """Whether octets end with their checksum, the ITU-T's CRC of 16 bits from 0 (IEEE 802.15.4,
    7.2.11): the register is 0 behind it."""
    return binascii.crc_hqx(octets.translate(TURNED), 0) == 0


def checked(octets):
    """A frame with its checksum taken off, which must be right."""
    if len(octets) < 2:
        raise Passed("too short for a checksum")
    if not checksum_fits(octets):
        raise Passed("wrong checksum")
    return octets[:-2]


def checked_by_chip(octets):
    """A frame whose checksum a chip replaced by signal strength and its own verdict; where the
    checksum still stands there, it counts too."""
    if len(octets) < 2:
        raise Passed("too short for a checksum")
    if not checksum_fits(octets) and not octets[-1] & CHIP_SAYS_RIGHT:
        raise Passed("wrong checksum")
    return octets[:-2]


def checked_long(octets):
    """A frame with a checksum of 32 bits."""
    if len(octets) < 4:
        raise Passed("too short for a checksum")
    if zlib.crc32(octets[:-4].ljust(4, b"\0")) != int.from_bytes(octets[-4:], "little"):
        raise Passed("wrong checksum")
    return octets[:-4]


# ---- TAP ---------------------------------------------------------------------------------------

def tapped(octets):
    """The frame behind a TAP header."""
    if len(octets) < 4:
        raise Passed("too short for TAP")
    version, size = struct.unpack_from("<BxH", octets)
    if version != 0 or not 4 <= size <= len(octets):
        raise Passed("no TAP header that is known")
    place, kind = 4, 0
    while size >= place + 4:
        field, length = struct.unpack_from("<HH", octets, place)
        place += 4
        if size < place + length or field == CHECKSUM_TYPE and not length:
            raise Passed("no TAP header that is known")
        if field == CHECKSUM_TYPE:
            kind = octets[place]
        place += length + -length % 4
    if kind > 2:
        raise Passed(f"TAP, with checksum {kind}")
    return (lambda whole: whole, checked, checked_long)[kind](octets[size:])


# ---- Ethernet ----------------------------------------------------------------------------------

def in_ethernet(octets):
    """The frame in one of Ethernet."""
    kind, start = int.from_bytes(octets[12:14], "big"), 14
    while kind in VLANS:
        kind, start = int.from_bytes(octets[start + 2:start + 4], "big"), start + 4
    inside = octets[start:]
    if kind == WPAN:
        filled = ETHERNET_LEAST <= len(octets) <= ETHERNET_LEAST + start - 14
        return checked(unfilled(inside) if filled else inside)
    if kind == IPV4:
        return zep(udp_in_ipv4(inside))
    if kind == IPV6:
        return zep(udp_in_ipv6(inside))
    raise Passed("other Ethernet")


def unfilled(octets):
    """A frame without the zeros that it may have been filled up with. The checksum fits with any
    number of zeros behind it; one that itself ends with a zero, 1 in 256, can't be told from a
    frame that is an octet shorter."""
    return octets.rstrip(b"\0")


def udp_in_ipv4(octets):
    """What UDP carries to or from ZEP's port in a packet of IPv4."""
    if len(octets) < 20 or not 0x45 <= octets[0] <= 0x4F or octets[9] != UDP:
        raise Passed("other Ethernet")
    size, part = struct.unpack_from(">H2xH", octets, 2)
    if part & 0x3FFF:
        raise Passed("a fragment of IPv4")
    return udp(octets[(octets[0] & 15) * 4:size])


def udp_in_ipv6(octets):
    """The same in a packet of IPv6."""
    if len(octets) < 40 or octets[6] != UDP:
        raise Passed("other Ethernet")
    return udp(octets[40:40 + int.from_bytes(octets[4:6], "big")])


def udp(octets):
    """What a datagram to or from ZEP's port carries."""
    if len(octets) < 8:
        raise Passed("other Ethernet")
    here, there, size = struct.unpack_from(">HHH", octets)
    if ZEP_PORT not in (here, there):
        raise Passed("other Ethernet")
    return octets[8:size]


def zep(octets):
    """The frame that ZEP carries. In its mode 1 the frame has its checksum; in mode 0 a chip's
    verdict stands there."""
    if octets[:2] != b"EX":
        raise Passed("no ZEP, though on its port")
    version, kind = octets[2:3], octets[3:4]
    if version == b"\x02" and kind == b"\x02":
        raise Passed("ZEP acknowledgement")
    start = {b"\x01": 16, b"\x02": 32}.get(version)
    if start is None or version == b"\x02" and kind != b"\x01" or len(octets) < start:
        raise Passed("no ZEP that is known")
    mode, length = octets[6 if start == 16 else 7], octets[start - 1] & 0x7F
    frame = octets[start:start + length]
    if len(frame) < length:
        raise Passed(f"cut: {len(frame)} of {length} octets")
    return checked(frame) if mode else checked_by_chip(frame)
