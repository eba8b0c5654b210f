"""The capture written again, each verdict as its frame's comment, for Wireshark to show."""

import struct

from .files import ENHANCED_PACKET, INTERFACE, RESOLUTION, SECTION, SIMPLE_PACKET
from .links import WITH_CHECKSUM

COMMENT, END = 1, 0
SECTION_TYPE, ORDER_MAGIC = 0x0A0D0D0A, 0x1A2B3C4D
NANOSECONDS = 9
NO_LENGTH = b"\xff" * 8  # in the place of a section's length, in either byte order
COMMENT_MOST = 0xFFFF - 3


def padded(octets):
    """Octets filled up to whole words, as pcapng has them."""
    return octets + bytes(-len(octets) % 4)


def option(order, code, value):
    """An option of a block."""
    return struct.pack(order + "HH", code, len(value)) + padded(value)


def block(order, kind, body):
    """A block, its length before and behind its body."""
    size = struct.pack(order + "I", len(body) + 12)
    return struct.pack(order + "I", kind) + size + body + size


def section_and_interface(link):
    """What a pcapng file starts with that has one interface, its times in nanoseconds."""
    section = struct.pack("<IHHq", ORDER_MAGIC, 1, 0, -1)
    interface = (struct.pack("<HHI", link, 0, 0) + option("<", RESOLUTION, bytes([NANOSECONDS]))
                 + option("<", END, b""))
    return block("<", SECTION_TYPE, section) + block("<", INTERFACE, interface)


def commented(order, octets, comment):
    """A packet's options with a comment before them, the others as they stand."""
    value = comment.encode("utf-8")[:COMMENT_MOST]
    return option(order, COMMENT, value) + (octets or option(order, END, b""))


def enhanced(order, head, packet, comment):
    """A packet block made anew: the four words before its lengths are given."""
    body = (head + struct.pack(order + "II", len(packet.octets), packet.length)
            + padded(packet.octets) + commented(order, b"", comment))
    return block(order, ENHANCED_PACKET, body)


class Annotated:
    """The file that is written. What a pcapng capture has besides its frames goes there as it
    stands; a pcap file gets a section and one interface."""

    def __init__(self, path, capture):
        self.file, self.started = open(path, "wb"), capture.pcapng
        capture.passed_on = self.pass_on

    def pass_on(self, octets):
        """A block that is no frame, as it stands; but a section no longer says how long it is,
        since comments make it longer."""
        if octets.startswith(SECTION):
            octets = octets[:16] + NO_LENGTH + octets[24:]
        self.file.write(octets)

    def write(self, packet, comment):
        """A frame with its comment."""
        self.file.write(self.rewritten(packet, comment))

    def rewritten(self, packet, comment):
        """The block of a frame, with what must stand before it."""
        if packet.block is None:
            start = b"" if self.started else section_and_interface(packet.link)
            self.started = True
            high, low = divmod(packet.time, 1 << 32)
            return start + enhanced("<", struct.pack("<III", 0, high, low), packet, comment)
        order, kind, body = packet.block.order, packet.block.kind, packet.block.body
        if kind == SIMPLE_PACKET:  # it has no room for a comment, and no time
            return enhanced(order, struct.pack(order + "III", 0, 0, 0), packet, comment)
        end = 20 + len(packet.octets) + -len(packet.octets) % 4
        return block(order, kind, body[:end] + commented(order, body[end:], comment))

    def close(self):
        """Closes the file, which has a section even where the capture has no frame."""
        if not self.started:
            self.file.write(section_and_interface(WITH_CHECKSUM))
        self.file.close()
