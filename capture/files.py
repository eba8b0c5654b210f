"""Capture files, read frame by frame: pcap and pcapng, in either byte order, gzip or not.

The pcap format (microseconds and nanoseconds), and pcapng with its sections, interfaces and the
three kinds of packet blocks, as the pcap drafts of the IETF's opsawg describe them. Nothing is read
ahead of the frame that is asked for, so that a file of any length takes the same memory.
"""

import os
import struct
import zlib
from dataclasses import dataclass

GZIP, GZIP_MEMBER = b"\x1f\x8b", 31  # how a member starts, and zlib's name for its format
SECTION = b"\x0a\x0d\x0d\x0a"  # the type of a section header block: the same in either order
PCAP_MAGICS = {  # by the first four octets: the byte order, and nanoseconds for a unit of time
    b"\xd4\xc3\xb2\xa1": ("<", 1000), b"\xa1\xb2\xc3\xd4": (">", 1000),
    b"\x4d\x3c\xb2\xa1": ("<", 1), b"\xa1\xb2\x3c\x4d": (">", 1)}
ORDERS = {b"\x4d\x3c\x2b\x1a": "<", b"\x1a\x2b\x3c\x4d": ">"}  # by a section's byte-order magic
INTERFACE, OLD_PACKET, SIMPLE_PACKET, ENHANCED_PACKET = 1, 2, 3, 6  # types of pcapng blocks
PACKETS = (OLD_PACKET, SIMPLE_PACKET, ENHANCED_PACKET)
END, FLAGS, RESOLUTION, OFFSET = 0, 2, 9, 14                        # codes of their options
CHECKSUM_WRONG = 1 << 24                                            # a bit of a packet's flags
RECORD_MOST = 262144        # octets of a pcap record: more is damage, as to Wireshark
BLOCK_MOST = 16 * 1024**2   # octets of a pcapng block, likewise
INTERFACES_MOST = 1 << 16   # interfaces of a section: they are kept, and a file may have any length
PIECE = 65536               # octets that are unpacked at a time
SECOND = 10**9              # times are nanoseconds


class NoCapture(Exception):
    """The file is none that can be read; why, in words."""


class BrokeOff(Exception):
    """The file ends, or is damaged, before its end; where, in words."""


@dataclass(slots=True)
class Block:
    """A packet block of pcapng as it stands in the file."""
    order: str
    kind: int
    body: bytes


@dataclass(slots=True)
class Packet:
    """A frame as the sniffer stored it."""
    number: int          # from 1
    time: int            # in nanoseconds; the one before it where the file has none
    link: int            # the link type, or None where the file doesn't describe the interface
    octets: bytes        # as stored
    length: int          # octets that it had in the air
    spoilt: bool = False # the sniffer says that the checksum was wrong
    block: Block = None  # pcapng only


@dataclass(slots=True)
class Interface:
    """What a pcapng section says of an interface."""
    link: int
    most: int            # octets that it stores of a frame; 0 where it has no limit
    exponent: int = 6    # a tick is 10 or 2 to the power of minus this many seconds
    base: int = 10
    offset: int = 0      # seconds

    def time(self, ticks):
        """A time stamp in nanoseconds."""
        return ticks * SECOND // self.base**self.exponent + self.offset * SECOND


# ---- the file ----------------------------------------------------------------------------------

def looks_like_one(path):
    """Whether a file starts as a capture does. A pipe is not looked into: what is read of it is
    gone."""
    if os.path.exists(path) and not os.path.isfile(path):
        return False
    with open(path, "rb") as file:
        first = file.read(4)
    return first == SECTION or first in PCAP_MAGICS or first[:2] == GZIP


class Unpacked:
    """A gzip file, unpacked as it is read. The library's own reader loses what it has unpacked
    where the file breaks off; here all of it is handed out first."""

    def __init__(self, file, first):
        self.file, self.ready, self.fault, self.ended = file, bytearray(), None, False
        self.member, self.left = zlib.decompressobj(GZIP_MEMBER), first

    def read(self, count):
        """The next octets, fewer than asked for only at the file's end."""
        while len(self.ready) < count and not self.ended:
            self.unpack(self.left or self.file.read(PIECE))
        octets = bytes(self.ready[:count])
        del self.ready[:count]
        if len(octets) < count and self.fault:
            raise BrokeOff(self.fault)
        return octets

    def unpack(self, packed):
        """Unpacks a piece; a file may have several members, and zeros behind each."""
        if self.member.eof:
            self.left, self.ended = packed.lstrip(b"\0"), not packed
            self.member = zlib.decompressobj(GZIP_MEMBER) if self.left else self.member
            return
        before = self.member.copy()
        try:
            fresh = self.member.decompress(packed, PIECE)
        except zlib.error:
            self.unpack_sound(before, packed)
            return
        self.ready += fresh
        self.left = self.member.unused_data or self.member.unconsumed_tail
        if not packed and not fresh:
            self.ended, self.fault = True, "the packed file ends in the middle"

    def unpack_sound(self, member, packed):
        """Unpacks octet by octet what stands before the damage in a piece, of which the library
        hands out nothing."""
        self.ended, self.fault = True, "the packed file is damaged"
        try:
            for place in range(len(packed)):
                self.ready += member.decompress(packed[place:place + 1])
        except zlib.error:
            pass

    def close(self):
        """Closes the file."""
        self.file.close()


class Capture:
    """An open capture file. `passed_on` is called with each pcapng block that is no frame."""

    def __init__(self, path):
        self.path, self.number, self.time = path, 0, 0
        self.passed_on = lambda block: None
        self.file = open(path, "rb")
        try:
            self.first = self.start()
        except BrokeOff as fault:
            self.close()
            raise NoCapture(f"{path}: {fault}") from None
        self.pcapng = self.first == SECTION
        if not self.pcapng and self.first not in PCAP_MAGICS:
            self.close()
            raise NoCapture(f"{path} is {'no pcap or pcapng file' if self.first else 'empty'}")

    def start(self):
        """The first octets, unpacked where they are packed."""
        first = self.file.read(4)
        if not first.startswith(GZIP):
            return first
        self.file = Unpacked(self.file, first)
        return self.file.read(4)

    def close(self):
        """Closes the file."""
        self.file.close()

    def whole(self, count, what, head=b""):
        """The next octets, all that were asked for, behind those that were read already."""
        octets = head + self.file.read(count - len(head))
        if len(octets) < count:
            raise BrokeOff(f"the file ends in the middle of {what}")
        return octets

    def packets(self):
        """The frames, one by one; at last BrokeOff where the file breaks off."""
        return self.of_pcapng() if self.pcapng else self.of_pcap()

    def next_number(self):
        """The number of the next frame."""
        self.number += 1
        return self.number

    # ---- pcap ----

    def of_pcap(self):
        """The frames of a pcap file."""
        order, unit = PCAP_MAGICS[self.first]
        link = struct.unpack(order + "16xI", self.whole(20, "its header"))[0] & 0xFFFF
        while head := self.file.read(16):
            what = f"frame {self.number + 1}"
            head = self.whole(16, what, head)
            seconds, parts, stored, length = struct.unpack(order + "IIII", head)
            if stored > RECORD_MOST:
                raise BrokeOff(f"the file is damaged: {what} would have {stored} octets")
            octets = self.whole(stored, what)
            self.time = seconds * SECOND + parts * unit
            yield Packet(self.next_number(), self.time, link, octets, max(length, stored))

    # ---- pcapng ----

    def of_pcapng(self):
        """The frames of a pcapng file, block by block."""
        order, interfaces, head = None, [], self.first
        while head:
            what = (f"the block behind frame {self.number}" if self.number
                    else "one of its first blocks")
            if self.whole(4, what, head) == SECTION:
                order, interfaces = self.section(what), []
            else:
                block = self.block(order, head, what)
                if block.kind in PACKETS:
                    yield self.packet(block, interfaces, what)
                elif block.kind == INTERFACE:
                    if len(interfaces) == INTERFACES_MOST:
                        raise BrokeOff(f"the file is damaged: {what} is one interface too many")
                    interfaces.append(interface(order, block.body, what))
            head = self.file.read(4)

    def section(self, what):
        """Passes a section header on; the byte order of the section."""
        head = self.whole(8, what)
        order = ORDERS.get(head[4:])
        if order is None:
            raise BrokeOff(f"the file is damaged: {what} has no byte order")
        size = sized(order, head[:4], 28, what)
        rest = self.whole(size - 12, what)
        ended(order, size, rest[-4:], what)
        self.passed_on(SECTION + head + rest)
        return order

    def block(self, order, kind, what):
        """A block of another kind; one that is no frame is passed on."""
        head = self.whole(4, what)
        size = sized(order, head, 12, what)
        rest = self.whole(size - 8, what)
        ended(order, size, rest[-4:], what)
        block = Block(order, struct.unpack(order + "I", kind)[0], rest[:-4])
        if block.kind not in PACKETS:
            self.passed_on(kind + head + rest)
        return block

    def packet(self, block, interfaces, what):
        """The frame in a block."""
        order, body, number = block.order, block.body, 0
        if len(body) < (4 if block.kind == SIMPLE_PACKET else 20):
            raise BrokeOff(f"the file is damaged: {what} is too short")
        if block.kind == SIMPLE_PACKET:
            length, = struct.unpack_from(order + "I", body)
            most = interfaces[0].most if interfaces else 0
            start, stored = 4, min(length, most or length)
        else:
            fields = "HxxIIII" if block.kind == OLD_PACKET else "IIIII"
            number, high, low, stored, length = struct.unpack_from(order + fields, body)
            start = 20
        known = interfaces[number] if number < len(interfaces) else Interface(None, 0)
        if block.kind != SIMPLE_PACKET:
            self.time = known.time(high << 32 | low)
        octets, rest = body[start:start + stored], body[start + stored + -stored % 4:]
        spoilt = block.kind != SIMPLE_PACKET and bool(flags(order, rest) & CHECKSUM_WRONG)
        return Packet(self.next_number(), self.time, known.link, octets, max(length, stored),
                      spoilt, block)


# ---- blocks of pcapng --------------------------------------------------------------------------

def sized(order, octets, least, what):
    """The length of a block, which must be one that a block can have."""
    size, = struct.unpack(order + "I", octets)
    if size < least or size % 4 or size > BLOCK_MOST:
        raise BrokeOff(f"the file is damaged: {what} would have {size} octets")
    return size


def ended(order, size, octets, what):
    """A block says its length once more at its end."""
    if struct.unpack(order + "I", octets)[0] != size:
        raise BrokeOff(f"the file is damaged: {what} doesn't end where it says")


def options(order, octets):
    """The codes and values of a block's options; what is cut is left out."""
    place = 0
    while len(octets) >= place + 4:
        code, size = struct.unpack_from(order + "HH", octets, place)
        place += 4
        if code == END or len(octets) < place + size:
            return
        yield code, octets[place:place + size]
        place += size + -size % 4


def flags(order, octets):
    """The flags among a packet's options, 0 where there are none."""
    for code, value in options(order, octets):
        if code == FLAGS and len(value) == 4:
            return struct.unpack(order + "I", value)[0]
    return 0


def interface(order, body, what):
    """An interface as its block describes it."""
    if len(body) < 8:
        raise BrokeOff(f"the file is damaged: {what} is too short")
    link, most = struct.unpack_from(order + "HxxI", body)
    found = Interface(link, most)
    for code, value in options(order, body[8:]):
        if code == RESOLUTION and len(value) == 1:
            found.base, found.exponent = (2 if value[0] & 0x80 else 10), value[0] & 0x7F
        elif code == OFFSET and len(value) == 8:
            found.offset, = struct.unpack(order + "q", value)
    return found
