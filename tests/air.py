"""What is in the air and in a sniffer's file: MAC frames and captures, for the scripts of tests/.

Written from IEEE 802.15.4 and the formats' drafts, beside capture/, which reads them: nothing of
that is used here but the checksum's definition, bit by bit.
"""

import struct

from bench_pipe import least

ACKNOWLEDGED, COMPRESSED = 1 << 5, 1 << 6      # bits of a MAC frame's control field
BEACON, DATA, ACK, COMMAND = range(4)
ANY = 0xFFFF


def with_checksum(frame):
    """A frame and its checksum: the remainder of the ITU-T's CRC, from 0, least bit first."""
    register = 0
    for octet in frame:
        register ^= octet
        for _ in range(8):
            register = register >> 1 ^ 0x8408 * (register & 1)
    return frame + least(register, 2)


def mode(address):
    """The mode of addressing of an address: short as a number, long as 16 hex digits."""
    return 0 if address is None else 3 if isinstance(address, str) else 2


def written(address):
    """An address as it is sent."""
    if address is None:
        return b""
    return least(int(address, 16), 8) if isinstance(address, str) else least(address, 2)


def mac(kind, number, pan, destination, source, payload=b"", bits=0, source_pan=None):
    """A MAC frame of the versions of 2003 and 2006; its PANs are compressed where both ends are in
    one PAN."""
    one_pan = destination is not None and source is not None and source_pan is None
    control = (kind | bits | COMPRESSED * one_pan | mode(destination) << 10 | mode(source) << 14)
    octets = least(control, 2) + bytes([number & 255])
    if destination is not None:
        octets += least(pan, 2) + written(destination)
    if source is not None:
        octets += b"" if one_pan else least(pan if source_pan is None else source_pan, 2)
        octets += written(source)
    return octets + payload


def data(number, pan, destination, source, frame):
    """A MAC data frame around a network frame; one to a single device asks for an ack."""
    return mac(DATA, number, pan, destination, source, frame,
               ACKNOWLEDGED if destination != ANY else 0)


def ack(number):
    """The ack of a MAC frame."""
    return mac(ACK, number, None, None, None)


# ---- files -------------------------------------------------------------------------------------

def pcap(frames, link=195, order="<", nanoseconds=False):
    """A pcap file of frames: nanoseconds and octets each, and the octets in the air where some were
    cut."""
    unit = 1 if nanoseconds else 1000
    octets = [struct.pack(order + "IHHiIII", 0xA1B23C4D if nanoseconds else 0xA1B2C3D4, 2, 4, 0, 0,
                          65535, link)]
    for time, stored, *length in frames:
        seconds, parts = divmod(time, 10**9)
        octets.append(struct.pack(order + "IIII", seconds, parts // unit, len(stored),
                                  *length or [len(stored)]) + stored)
    return b"".join(octets)


def option(order, code, value):
    """An option of a pcapng block."""
    return struct.pack(order + "HH", code, len(value)) + value + bytes(-len(value) % 4)


def block(order, kind, body):
    """A pcapng block."""
    size = struct.pack(order + "I", len(body) + 12)
    return struct.pack(order + "I", kind) + size + body + size


def section(order="<"):
    """A section header."""
    return block(order, 0x0A0D0D0A, struct.pack(order + "IHHq", 0x1A2B3C4D, 1, 0, -1))


def interface(link=195, order="<", options=b"", most=0):
    """An interface of a section."""
    return block(order, 1, struct.pack(order + "HHI", link, 0, most) + options)


def enhanced(ticks, stored, number=0, order="<", length=None, options=b""):
    """A frame of an interface."""
    head = struct.pack(order + "IIIII", number, ticks >> 32, ticks & 0xFFFFFFFF, len(stored),
                       len(stored) if length is None else length)
    return block(order, 6, head + stored + bytes(-len(stored) % 4) + options)


def old(ticks, stored, number=0, order="<", length=None, options=b""):
    """A frame of an interface in the block that was there before the enhanced one."""
    head = struct.pack(order + "HHIIII", number, 0, ticks >> 32, ticks & 0xFFFFFFFF, len(stored),
                       len(stored) if length is None else length)
    return block(order, 2, head + stored + bytes(-len(stored) % 4) + options)


def simple(stored, order="<", length=None):
    """A frame of the first interface, without a time."""
    head = struct.pack(order + "I", len(stored) if length is None else length)
    return block(order, 3, head + stored + bytes(-len(stored) % 4))


def pcapng(frames, link=195, order="<"):
    """A pcapng file of frames, nanoseconds and octets each, stored in microseconds."""
    return section(order) + interface(link, order) + b"".join(
        enhanced(time // 1000, stored, order=order) for time, stored in frames)


# ---- what sniffers put around a frame ----------------------------------------------------------

def tap_field(code, value):
    """A field of a TAP header."""
    return struct.pack("<HH", code, len(value)) + value + bytes(-len(value) % 4)


def tap(frame, fields=b""):
    """A frame behind a TAP header."""
    return struct.pack("<BBH", 0, 0, 4 + len(fields)) + fields + frame


def ethernet(kind, inside, tags=()):
    """An Ethernet frame, with a VLAN tag of each of these EtherTypes."""
    tagged = b"".join(struct.pack(">HH", tag, 5) for tag in tags)
    return bytes.fromhex("020000000001020000000002") + tagged + struct.pack(">H", kind) + inside


def ipv4(inside, options=b"", protocol=17, part=0):
    """A packet of IPv4, or a part of one, without a checksum."""
    size = 20 + len(options)
    return (struct.pack(">BBHHHBBH", 0x40 | size // 4, 0, size + len(inside), 1, part, 64, protocol,
                        0) + bytes.fromhex("0a0000010a000002") + options + inside)


def ipv6(inside, following=17):
    """A packet of IPv6."""
    address = bytes.fromhex("fe80") + bytes(13)
    return (struct.pack(">IHBB", 6 << 28, len(inside), following, 64) + address + b"\1" + address
            + b"\2" + inside)


def udp(inside, source=17754, destination=17754):
    """A datagram, without a checksum."""
    return struct.pack(">HHHH", source, destination, 8 + len(inside), 0) + inside


def zep1(frame, mode=1):
    """ZEP of version 1: in mode 1 a frame with its checksum, in mode 0 with a chip's verdict."""
    return b"EX" + struct.pack(">BBHBB7xB", 1, 15, 0x1234, mode, 200, len(frame)) + frame


def zep2(frame, mode=1, kind=1):
    """ZEP of version 2, of which kind 1 is data."""
    return b"EX" + struct.pack(">BBBHBBQI10xB", 2, kind, 15, 0x1234, mode, 200, 0xE8 << 56, 7,
                               len(frame)) + frame
