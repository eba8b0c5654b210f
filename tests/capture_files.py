#!/usr/bin/env python3
"""The reader of captures, capture/files.py, links.py and mac.py, on files and frames made for it.

    python3 tests/capture_files.py

`air.py` builds the files; what should be read of each is written here. Where an expectation could
be asked of Wireshark 4.0.17, it was; where that reads something else, a comment says why. A line
for each group of cases and at last `all captures as read`; the exit code is 0, 1 at the first
difference, 2 where nothing could be run. No bench is needed.
"""

import argparse
import gzip
import os
import random
import struct
import sys
import tempfile
import threading
import tracemalloc
import zlib
from contextlib import closing
from functools import partial
from itertools import accumulate
from pathlib import Path

sys.path.insert(0, str(Path(__file__).resolve().parent.parent))

import air
from bench_pipe import Differs, flipped, in_words, least
from capture import files, links, mac

ORDERS = ("<", ">")
TIME = 1_763_280_000_123_456_789        # nanoseconds
MICROSECONDS = TIME // 1000
PAYLOAD = bytes.fromhex("f00dfeedcafebabe5a5a")
FRAME = bytes.fromhex("418877d1d02b1a4d3c") + PAYLOAD  # from 0x3c4d to 0x1a2b in PAN 0xd0d1
CHECKED = FRAME + bytes.fromhex("2c0b")
SPOILT = flipped(CHECKED, 20, 0x10)
WRONG, SHORT_OF_CHECKSUM = "wrong checksum", "too short for a checksum"
DAMAGED, MIDDLE = "the packed file is damaged", "the packed file ends in the middle"
NO_CAPTURE = "FILE is no pcap or pcapng file"


# ---- comparing ---------------------------------------------------------------------------------

def same(what, found, asked):
    """What was found is what was asked for."""
    if found != asked:
        raise Differs(f"{what}:\n    {found}\nand not\n    {asked}")


def stored(time, octets, link=195, length=None, spoilt=False):
    """A frame as the reader should tell it, without its number."""
    return time, link, octets, len(octets) if length is None else length, spoilt


class Reader:
    """Reads octets as a file."""

    def __init__(self, folder):
        self.path, self.pipe = Path(folder) / "capture", Path(folder) / "pipe"

    def write(self, octets):
        """Makes the file anew; a disk is slow to write over one."""
        self.path.unlink(missing_ok=True)
        self.path.write_bytes(octets)

    def read(self, octets):
        """The frames of a file with these octets, and the words that it ends with or None."""
        self.write(octets)
        try:
            return self.read_from(self.path)
        except (Differs, OSError):
            raise
        except Exception as fault:
            raise Differs(f"{fault!r} leaves the reader at {octets.hex()}") from fault

    def read_from(self, path):
        """The same of the file or pipe that is there."""
        found = []
        try:
            with closing(files.Capture(path)) as capture:
                for packet in capture.packets():
                    same("the number of a frame", packet.number, len(found) + 1)
                    found.append((packet.time, packet.link, packet.octets, packet.length,
                                  packet.spoilt))
        except (files.NoCapture, files.BrokeOff) as fault:
            return found, str(fault).replace(str(path), "FILE")
        return found, None

    def passed_on(self, octets):
        """What is passed on of a file with these octets, since it is no frame."""
        self.write(octets)
        passed = []
        with closing(files.Capture(self.path)) as capture:
            capture.passed_on = passed.append
            same("frames", sum(1 for _ in capture.packets()), capture.number)
        return passed

    def compare(self, what, octets, asked, words=None):
        """A file has these frames, and ends with these words."""
        same(what, self.read(octets), (asked, words))


def told(function, given, octets):
    """What a function gives, or the words that it passes a frame over with."""
    try:
        return function(given)
    except links.Passed as passed:
        return str(passed)
    except Exception as fault:
        raise Differs(f"{fault!r} leaves the reader at {octets.hex()}") from fault


def inside(link, octets, length=None, spoilt=False, by_chip=False):
    """The frame in a stored one, or the words that it is passed over with."""
    packet = files.Packet(1, 0, link, octets, len(octets) if length is None else length, spoilt)
    return told(partial(links.frame_of, by_chip=by_chip), packet, octets)


# ---- pcap --------------------------------------------------------------------------------------

def pcap(reader):
    """Byte orders, units of time, link types; frames that are cut, empty, or longer than said."""
    frames = [(TIME, CHECKED), (TIME + 1_000_000_001, CHECKED[:5], 21), (5 * 10**9, b""),
              (0, CHECKED, 3)]
    times = {False: (1_763_280_000_123_456_000, 1_763_280_001_123_456_000, 5 * 10**9, 0),
             True: (1_763_280_000_123_456_789, 1_763_280_001_123_456_790, 5 * 10**9, 0)}
    link_types_read = {1: 1, 195: 195, 230: 230, 283: 283, 0x2400_00C3: 195, 0xFFFF_00E6: 230}
    for order in ORDERS:
        for nanoseconds in (False, True):
            for link, known in link_types_read.items():
                asked = [stored(time, octets, known, 21 if octets else 0)
                         for time, (_, octets, *_) in zip(times[nanoseconds], frames)]
                reader.compare(f"pcap {order} {nanoseconds} {link}",
                               air.pcap(frames, link, order, nanoseconds), asked)
        beyond = struct.pack(order + "IIII", 1, 3_000_000, 0, 0)  # to Wireshark it overflows
        reader.compare("microseconds", air.pcap([], 195, order) + beyond, [stored(4 * 10**9, b"")])
    return "24 files as written, in both orders and units of time"


def pcap_broken_off(reader):
    """A pcap file that ends at each of its octets, and frames of absurd lengths."""
    frames, count = [(TIME, CHECKED), (TIME, b""), (TIME, CHECKED[:7])], 0
    asked = [stored(TIME, octets) for _, octets in frames]
    for order in ORDERS:
        octets = air.pcap(frames, 195, order, True)
        ends = list(accumulate([24, 16 + 21, 16, 16 + 7]))
        for size in range(len(octets)):
            there = sum(end <= size for end in ends)
            words = (f"the file ends in the middle of frame {there}" if size > 24
                     else "the file ends in the middle of its header")
            if size < 4:
                words = NO_CAPTURE if size else "FILE is empty"
            reader.compare(f"pcap of {size} octets", octets[:size], asked[:max(there - 1, 0)],
                           None if size in ends else words)
            count += 1
        for length, words in ((262145, "is damaged: frame 4 would have 262145 octets"),
                              (0xFFFFFFFF, "is damaged: frame 4 would have 4294967295 octets"),
                              (262144, "ends in the middle of frame 4")):
            head = struct.pack(order + "IIII", 1, 1, length, length)
            reader.compare("an absurd length", octets + head + bytes(1000), asked,
                           f"the file {words}")
    return f"{count} that end early, at each octet, and 6 with absurd lengths"


# ---- pcapng ------------------------------------------------------------------------------------

# Resolution and offset of an interface, a time stamp, and its nanoseconds. The sum that Wireshark
# makes overflows where a second has more than some 2 to the power of 34 ticks.
TIMES = (
    (None, None, MICROSECONDS, 1_763_280_000_123_456_000),
    (6, None, MICROSECONDS, 1_763_280_000_123_456_000),
    (9, None, TIME, 1_763_280_000_123_456_789),
    (3, None, 1_763_280_000_123, 1_763_280_000_123_000_000),
    (0, None, 1_763_280_000, 1_763_280_000_000_000_000),
    (10, None, 17_632_800_001_234_567_899, 1_763_280_000_123_456_789),
    (12, None, 1_234_567_890_123_999, 1_234_567_890_123),
    (127, None, 2**64 - 1, 0),
    (0x80, None, 7, 7_000_000_000),
    (0x8A, None, 1_763_280_000 * 1024 + 513, 1_763_280_000_500_976_562),
    (0x9E, None, 3, 2),
    (0xA0, None, 1 << 31, 500_000_000),
    (0xBF, None, 1 << 63, 1_000_000_000),
    (0xFF, None, 2**64 - 1, 0),
    (6, 1000, 5, 1_000_000_005_000),
    (9, -5, 12_345, -4_999_987_655),
    (None, 2**40, 1, 1_099_511_627_776_000_001_000),
    (0x8A, -2**40, 512, -1_099_511_627_775_500_000_000),
)


def pcapng_times(reader):
    """Resolutions and offsets of interfaces, and forms of their options."""
    for order in ORDERS:
        end = air.option(order, 0, b"")
        for resolution, offset, ticks, asked in TIMES:
            options = b"" if resolution is None else air.option(order, 9, bytes([resolution]))
            if offset is not None:
                options += air.option(order, 14, struct.pack(order + "q", offset))
            for closed in (options, options + end):
                octets = (air.section(order) + air.interface(195, order, closed)
                          + air.enhanced(ticks, CHECKED, order=order))
                reader.compare(f"resolution {resolution}, offset {offset}", octets,
                               [stored(asked, CHECKED)])
        nano = air.option(order, 9, b"\x09")
        for what, options, asked in (
                ("behind one of odd length", air.option(order, 1, b"hello") + nano, 1),
                ("behind the end", end + nano, 1000),
                ("of two octets", air.option(order, 9, b"\x09\x00"), 1000),
                ("cut", struct.pack(order + "HH", 9, 5) + b"\x09\0\0\0", 1000),
                ("beside an offset of 4 octets", air.option(order, 14, b"\1\1\1\1") + nano, 1),
                ("before a cut offset", nano + struct.pack(order + "HHq", 14, 12, 1), 1),
                ("twice", air.option(order, 9, b"\x03") + nano, 1)):
            octets = (air.section(order) + air.interface(195, order, options)
                      + air.enhanced(1, CHECKED, order=order))
            reader.compare(f"a resolution {what}", octets, [stored(asked, CHECKED)])
    return f"{len(TIMES)} resolutions and offsets, and 7 forms of options, in both orders"


def parts(order, other):
    """A pcapng file in parts, the frame that each has or None: sections in both orders, several
    interfaces, every kind of packet block, and blocks that are none. Wireshark goes no further than
    to a frame whose interface is not described."""
    wrong = air.option(order, 1, b"odd") + air.option(order, 2, struct.pack(order + "I", 1 << 24))
    others = (air.option(order, 2, b"\xff\xff") + air.option(order, 5, b"\xff\xff\xff\xff")
              + air.option(order, 2, struct.pack(order + "I", 0xFE00_0005)))  # every other error
    cut = struct.pack(order + "HH", 2, 8) + b"\xff\xff\xff\xff"
    nano = air.option(other, 9, b"\x09")
    return (
        (air.section(order), None),
        (air.interface(195, order, most=6), None),
        (air.block(order, 0x99, b"what"), None),
        (air.simple(CHECKED[:6], order, 21), stored(0, CHECKED[:6], length=21)),
        (air.enhanced(MICROSECONDS, CHECKED, order=order), stored(TIME // 1000 * 1000, CHECKED)),
        (air.simple(CHECKED[:5], order), stored(TIME // 1000 * 1000, CHECKED[:5])),
        (air.interface(230, order), None),
        (air.enhanced(1, FRAME, 1, order), stored(1000, FRAME, 230)),
        (air.simple(CHECKED[:6], order, 9), stored(1000, CHECKED[:6], length=9)),
        (air.simple(b"", order), stored(1000, b"")),
        (air.enhanced(2, FRAME, 2, order), stored(2000, FRAME, None)),
        (air.enhanced(3, b"", 0, order), stored(3000, b"")),
        (air.block(order, 5, bytes(12)), None),
        (air.enhanced(4, CHECKED, 0, order, 3), stored(4000, CHECKED)),
        (air.enhanced(5, CHECKED[:9], 0, order, 21), stored(5000, CHECKED[:9], length=21)),
        (air.enhanced(6, CHECKED, 0, order, None, wrong), stored(6000, CHECKED, spoilt=True)),
        (air.enhanced(7, CHECKED, 0, order, None, others), stored(7000, CHECKED)),
        (air.old(8, CHECKED, 0, order, None, cut), stored(8000, CHECKED)),
        (air.old(9, CHECKED[:9], 1, order, 21, wrong),
         stored(9000, CHECKED[:9], 230, 21, True)),
        (air.section(other), None),
        (air.enhanced(1, FRAME, 1, other), stored(1000, FRAME, None)),
        (air.simple(FRAME, other), stored(1000, FRAME, None)),
        (air.interface(283, other), None),
        (air.interface(1, other, nano), None),
        (air.block(other, 0x8000_0001, b""), None),
        (air.enhanced(10, CHECKED, 1, other), stored(10, CHECKED, 1)),
        (air.simple(CHECKED, other), stored(10, CHECKED, 283)))


def pcapng(reader):
    """Whole files, and files that end at each of their octets."""
    count = 0
    for order, other in (ORDERS, ORDERS[::-1]):
        octets, frames = zip(*parts(order, other))
        whole, ends = b"".join(octets), list(accumulate(map(len, octets)))
        asked = [frame for frame in frames if frame]
        reader.compare("pcapng", whole, asked)
        same("other blocks", reader.passed_on(whole),
             [part for part, frame in zip(octets, frames) if not frame])
        for size in range(len(whole)):
            there = [frame for end, frame in zip(ends, frames) if end <= size and frame]
            words = (f"the file ends in the middle of the block behind frame {len(there)}" if there
                     else "the file ends in the middle of one of its first blocks")
            if size < 4:
                words = NO_CAPTURE if size else "FILE is empty"
            reader.compare(f"pcapng of {size} octets", whole[:size], there,
                           None if size in ends else words)
            count += 1
    return f"2 files of {len(asked)} frames as written, and {count} that end early, at each octet"


def damaged(order):
    """Files that are damaged behind some frames: how many those are, the octets, and the words,
    None where the file merely ends in the middle of a block that could be."""
    start = air.section(order) + air.interface(195, order)
    packet = air.enhanced(1, CHECKED, order=order)
    first, behind = "one of its first blocks", "the block behind frame 1"
    yield 0, start[:8] + b"\x1a\x2b\x4d\x3c" + start[12:], f"{first} has no byte order"
    yield (0, start[:4] + struct.pack(order + "I", 24) + start[8:],
           f"{first} would have 24 octets")
    for size in (0, 8, 11, 13, 57, 16 * 1024**2 + 4, 2**32 - 4):
        number = struct.pack(order + "I", size)
        yield 0, start[:32] + number + start[36:], f"{first} would have {size} octets"
        yield (1, start + packet + packet[:4] + number + packet[8:],
               f"{behind} would have {size} octets")
    yield 1, start + packet + packet[:4] + struct.pack(order + "I", 16 * 1024**2), None
    for octets in (packet[:-4] + struct.pack(order + "I", 60),
                   packet[:4] + struct.pack(order + "I", 52) + packet[8:]):
        yield 1, start + packet + octets, f"{behind} doesn't end where it says"
    for kind, body in ((6, bytes(16)), (2, bytes(16)), (3, b""), (1, bytes(4))):
        yield 1, start + packet + air.block(order, kind, body), f"{behind} is too short"


def pcapng_damaged(reader):
    """Damaged files, a length that lies inside of its block, and more interfaces than are kept."""
    count = 0
    for order in ORDERS:
        for frames, octets, words in damaged(order):
            reader.compare(words, octets, [stored(1000, CHECKED)] * frames,
                           f"the file is damaged: {words}" if words
                           else "the file ends in the middle of the block behind frame 1")
            count += 1
        start = air.section(order) + air.interface(195, order)
        packet = air.enhanced(1, CHECKED, order=order)
        lying = packet[:20] + struct.pack(order + "II", 4000, 4000) + packet[28:]
        reader.compare("a length beyond the block", start + lying + packet,
                       [stored(1000, CHECKED + bytes(3), length=4000), stored(1000, CHECKED)])
    many = air.section() + air.interface() * 65536 + air.enhanced(1, CHECKED, 65535)
    reader.compare("interfaces", many + air.interface(), [stored(1000, CHECKED)],
                   "the file is damaged: the block behind frame 1 is one interface too many")
    return f"{count} damaged, the frames before the damage read; 65536 interfaces and no more"


# ---- gzip --------------------------------------------------------------------------------------

def unpacked(octets):
    """What the library unpacks of a gzip file with one member, octet by octet, and the words that
    its reading should end with."""
    member, plain = zlib.decompressobj(31), b""
    try:
        for place in range(len(octets)):
            plain += member.decompress(octets[place:place + 1])
    except zlib.error:
        return plain, DAMAGED
    return plain, DAMAGED if member.unused_data else None if member.eof else MIDDLE


def packed(octets, level=9):
    """Octets as a gzip member, always the same."""
    return gzip.compress(octets, level, mtime=0)


def gzip_whole(reader):
    """Levels, names in the header, several members, zeros behind them, and more than a piece."""
    dice = random.Random(2)
    frames = [(TIME + turn, dice.randbytes(dice.randrange(130))) for turn in range(3000)]
    plain, asked = air.pcap(frames, 195, "<", True), [stored(*frame) for frame in frames]
    named = b"\x1f\x8b\x08\x08" + bytes(6) + b"capture.pcap\0" + packed(plain)[10:]
    thirds = [packed(plain[:40]), packed(plain[40:70_000]), packed(plain[70_000:])]
    for what, octets in (
            ("level 0", packed(plain, 0)), ("level 9", packed(plain)), ("a name", named),
            ("members", b"".join(thirds)), ("an empty member", packed(b"").join(thirds)),
            ("zeros", (bytes(70_000)).join(thirds) + bytes(512))):
        reader.compare(f"gzip: {what}", octets, asked)
    wide = air.pcap([(0, bytes(200_000))] * 40)
    reader.compare("gzip: what packs well", packed(wide), [stored(0, bytes(200_000))] * 40)
    return "7 files as written"


def gzip_broken_off(reader):
    """A packed file that ends at each octet, or is damaged in one bit of each: all frames that can
    be unpacked come first."""
    frames, count = [(TIME + turn, CHECKED[turn:]) for turn in range(4)], 0
    for plain in (air.pcap(frames, 195, ">", True), air.pcapng(frames)):
        for level in (0, 9):
            whole = packed(plain, level)
            for octets in ([whole[:size] for size in range(2, len(whole))]
                           + [flipped(whole, place) for place in range(2, len(whole))]):
                there, words = unpacked(octets)
                asked, at_end = reader.read(there)
                if len(there) < 4:
                    words = f"FILE: {words}"
                elif at_end == NO_CAPTURE or at_end and "damaged" in at_end:
                    words = at_end
                reader.compare("a gzip file", octets, asked, words)
                count += 1
    return f"{count} that end early or are altered, at each octet"


def gzip_damaged(reader):
    """What stands behind a member and is none, and a checksum that is wrong."""
    frames = [(TIME, CHECKED)] * 500
    plain, asked = air.pcap(frames, 195, "<", True), [stored(TIME, CHECKED)] * 500
    whole, half = packed(plain), 24 + 37 * 200
    second = packed(plain[half:])
    for what, octets, count in (
            ("a wrong checksum", whole[:-8] + flipped(whole[-8:], 1), 500),
            ("a wrong length", whole[:-1] + b"\x01", 500),
            ("octets behind it", whole + b"more", 500),
            ("no second member", packed(plain[:half]) + b"\0" + second[1:], 200),
            ("a member of another method", packed(plain[:half]) + flipped(second, 2), 200)):
        reader.compare(f"gzip: {what}", octets, asked[:count], DAMAGED)
    return "5 damaged, the frames before the damage read"


# ---- other files -------------------------------------------------------------------------------

def feed(path, octets):
    """Writes to a pipe octet by octet, as long as somebody reads."""
    try:
        with open(path, "wb", buffering=0) as pipe:
            for octet in octets:
                pipe.write(bytes([octet]))
    except BrokenPipeError:
        pass


def pipes(reader):
    """Captures in pipes, fed octet by octet; and a pipe that is only looked at and keeps all."""
    plain = air.pcap([(TIME, CHECKED)] * 3, 195, "<", True)
    os.mkfifo(reader.pipe)
    for octets in (plain, packed(plain)):
        feeder = threading.Thread(target=feed, args=(reader.pipe, octets), daemon=True)
        feeder.start()
        same("a pipe", reader.read_from(reader.pipe), ([stored(TIME, CHECKED)] * 3, None))
        feeder.join()
    both_ends = os.open(reader.pipe, os.O_RDWR)
    os.write(both_ends, plain)
    same("a pipe that is looked at", files.looks_like_one(reader.pipe), False)
    same("what it keeps", os.read(both_ends, len(plain)), plain)
    os.close(both_ends)
    return "2 read, and 1 looked at"


def other_files(reader):
    """Files that are no captures, and folders."""
    plain = air.pcap([(TIME, CHECKED)] * 3, 195, "<", True)
    for octets, words in ((b"", "FILE is empty"), (packed(b""), "FILE is empty"),
                          (b"# a script\n", NO_CAPTURE), (packed(packed(plain)), NO_CAPTURE),
                          (b"\x1f\x8b", f"FILE: {MIDDLE}"), (b"\x1f\x8bno", f"FILE: {DAMAGED}")):
        reader.compare("no capture", octets, [], words)
    for octets, asked in ((plain, True), (packed(plain), True), (air.section(">"), True),
                          (b"", False), (b"board\t00\n", False)):
        reader.write(octets)
        same(f"whether it looks like one: {octets[:9]}", files.looks_like_one(reader.path), asked)
    for path in (reader.path.parent, reader.path / "missing", reader.path.parent / "missing"):
        try:
            files.Capture(path)
        except OSError:
            continue
        raise Differs(f"{path} was opened")
    return "6 that are no captures, and no folder"


def memory(reader):
    """The memory that reading takes, which must not grow with the file."""
    for write in (air.pcap, air.pcapng, lambda frames: packed(air.pcap(frames))):
        peaks = []
        for count in (500, 2000):
            reader.write(write([(turn, bytes(range(256))) for turn in range(count)]))
            tracemalloc.start()
            with closing(files.Capture(reader.path)) as capture:
                same("frames", sum(1 for _ in capture.packets()), count)
            peaks.append(tracemalloc.get_traced_memory()[1])
            tracemalloc.stop()
        if peaks[1] > peaks[0] + 65536:
            raise Differs(f"four times the file takes {peaks[1]} octets of memory, not {peaks[0]}")
    return "the same for four times the file"


# ---- link types --------------------------------------------------------------------------------

# Ethernet, and the frame or the words that should come of it. Wireshark differs: it takes the zeros
# of a filled frame for its end, and IPv4 of length 0 for whole; kinds of ZEP that are not known for
# data, a length that isn't the datagram's for no ZEP, and in mode 0 the chip's verdict alone.
FILLED = air.ethernet(0x809A, CHECKED).ljust(60, b"\0")
TAGGED = air.ethernet(0x809A, CHECKED, [0x8100]).ljust(64, b"\0")
CHIP, CHIP_WRONG = FRAME + b"\x20\xe5", FRAME + b"\x20\x65"
OTHER, NO_ZEP, UNKNOWN_ZEP = ("other Ethernet", "no ZEP, though on its port",
                              "no ZEP that is known")


def in_ipv4(octets, **others):
    """What a datagram on ZEP's port carries, in Ethernet."""
    return air.ethernet(0x0800, air.ipv4(air.udp(octets), **others))


def altered(octets, place, new):
    """Octets with others in their place."""
    return octets[:place] + new + octets[place + len(new):]


def ends_with_zero(size):
    """The first frame of so many octets whose checksum ends with a zero."""
    return next(frame for number in range(1 << 16)
                if not air.with_checksum(frame := bytes(size - 2) + least(number, 2))[-1])


DATAGRAM, DATAGRAM_6 = in_ipv4(air.zep2(CHECKED)), air.ethernet(
    0x86DD, air.ipv6(air.udp(air.zep2(CHECKED))))
ETHERNET = (
    ("EtherType 0x809a", air.ethernet(0x809A, CHECKED), FRAME),
    ("filled up", FILLED, FRAME),
    ("filled up behind a tag", TAGGED, FRAME),
    ("filled up, the tag counted", TAGGED[:60], FRAME),
    ("a wrong checksum", air.ethernet(0x809A, SPOILT), WRONG),
    ("a wrong checksum, filled up", air.ethernet(0x809A, SPOILT).ljust(60, b"\0"), WRONG),
    *((f"{size} octets, not filled up, the last zero",
       air.ethernet(0x809A, air.with_checksum(ends_with_zero(size))), ends_with_zero(size))
      for size in (43, 45)),
    ("nothing but zeros", air.ethernet(0x809A, bytes(46)), SHORT_OF_CHECKSUM),
    ("nothing", air.ethernet(0x809A, b""), SHORT_OF_CHECKSUM),
    ("a tag", air.ethernet(0x809A, CHECKED, [0x8100]), FRAME),
    ("two tags", air.ethernet(0x809A, CHECKED, [0x88A8, 0x8100]), FRAME),
    ("two old tags", air.ethernet(0x809A, CHECKED, [0x9100, 0x9100]), FRAME),
    ("tags alone", air.ethernet(0x8100, b"\0\5\x81"), OTHER),
    ("ARP", air.ethernet(0x0806, bytes(46)), OTHER),
    ("no EtherType", bytes(13), OTHER),
    ("no octet", b"", OTHER),
    ("IPv4", DATAGRAM, FRAME),
    ("IPv4 behind a tag", air.ethernet(0x0800, DATAGRAM[14:], [0x8100]), FRAME),
    ("IPv4 with options", in_ipv4(air.zep2(CHECKED), options=b"\1\1\1\0"), FRAME),
    ("IPv4 with all options", in_ipv4(air.zep2(CHECKED), options=bytes(40)), FRAME),
    ("IPv4, not to be parted", in_ipv4(air.zep2(CHECKED), part=0x4000), FRAME),
    ("IPv4, the first part", in_ipv4(air.zep2(CHECKED), part=0x2000), "a fragment of IPv4"),
    ("IPv4, another part", in_ipv4(air.zep2(CHECKED), part=1), "a fragment of IPv4"),
    ("IPv4 of 40 octets of header", altered(DATAGRAM, 14, b"\x4a"), OTHER),
    ("IPv4 of 16 octets of header", altered(DATAGRAM, 14, b"\x44"), OTHER),
    ("IPv4 of version 5", altered(DATAGRAM, 14, b"\x55"), OTHER),
    ("IPv4 of length 0", altered(DATAGRAM, 16, b"\0\0"), OTHER),
    ("IPv4 of length 30", altered(DATAGRAM, 16, b"\0\x1e"), UNKNOWN_ZEP),
    ("IPv4 of length 3000", altered(DATAGRAM, 16, b"\x0b\xb8"), FRAME),
    ("TCP", in_ipv4(air.zep2(CHECKED), protocol=6), OTHER),
    ("a datagram of length 0", altered(DATAGRAM, 38, b"\0\0"), NO_ZEP),
    ("a datagram of length 7", altered(DATAGRAM, 38, b"\0\7"), NO_ZEP),
    ("a datagram of length 30", altered(DATAGRAM, 38, b"\0\x1e"), UNKNOWN_ZEP),
    ("a datagram of length 900", altered(DATAGRAM, 38, b"\3\x84"), FRAME),
    ("from ZEP's port", altered(DATAGRAM, 36, b"\0\x35"), FRAME),
    ("to ZEP's port", altered(DATAGRAM, 34, b"\0\x35"), FRAME),
    ("other ports", altered(DATAGRAM, 34, b"\0\x35\0\x35"), OTHER),
    ("a datagram cut in its header", DATAGRAM[:41], OTHER),
    ("IPv6", DATAGRAM_6, FRAME),
    ("IPv6, not named", altered(DATAGRAM_6, 12, b"\x86\xdc"), OTHER),
    ("IPv6 of length 30", altered(DATAGRAM_6, 18, b"\0\x1e"), UNKNOWN_ZEP),
    ("IPv6 of length 286", altered(DATAGRAM_6, 18, b"\1\x1e"), FRAME),
    ("IPv6, cut", air.ethernet(0x86DD, air.ipv6(b"")[:39]), OTHER),
    ("IPv6, cut behind its header", air.ethernet(0x86DD, air.ipv6(b"")), OTHER),
    ("IPv6, TCP", altered(DATAGRAM_6, 20, b"\6"), OTHER),
)
ZEP = tuple((what, in_ipv4(octets), asked) for what, octets, asked in (
    ("version 1, mode 1", air.zep1(CHECKED), FRAME),
    ("version 1, mode 1, a wrong checksum", air.zep1(SPOILT), WRONG),
    ("version 1, mode 1, a chip's verdict", air.zep1(CHIP), WRONG),
    ("version 1, mode 0", air.zep1(CHIP, 0), FRAME),
    ("version 1, mode 0, found wrong", air.zep1(CHIP_WRONG, 0), WRONG),
    ("version 1, mode 0, the checksum itself", air.zep1(CHECKED, 0), FRAME),
    ("version 1, mode 2", air.zep1(CHECKED, 2), FRAME),
    ("version 1, no frame", air.zep1(b""), SHORT_OF_CHECKSUM),
    ("version 1, mode 0, no frame", air.zep1(b"", 0), SHORT_OF_CHECKSUM),
    ("version 1, mode 0, half a verdict", air.zep1(b"\xe5", 0), SHORT_OF_CHECKSUM),
    ("version 1, mode 0, a verdict alone", air.zep1(b"\x20\xe5", 0), b""),
    ("version 1, the length's first bit", altered(air.zep1(CHECKED), 15, b"\x95"), FRAME),
    ("version 1, cut", air.zep1(CHECKED)[:-1], "cut: 20 of 21 octets"),
    ("version 1, a length of 127", altered(air.zep1(CHECKED), 15, b"\x7f"),
     "cut: 21 of 127 octets"),
    ("version 1, a length of 20", altered(air.zep1(CHECKED), 15, b"\x14"), WRONG),
    ("version 1, octets behind it", air.zep1(CHECKED) + b"more", FRAME),
    ("version 1, its header cut", air.zep1(CHECKED)[:15], UNKNOWN_ZEP),
    ("version 2, mode 1", air.zep2(CHECKED), FRAME),
    ("version 2, mode 1, a wrong checksum", air.zep2(SPOILT), WRONG),
    ("version 2, mode 0", air.zep2(CHIP, 0), FRAME),
    ("version 2, mode 0, found wrong", air.zep2(CHIP_WRONG, 0), WRONG),
    ("version 2, acknowledgement", b"EX\2\2\0\0\0\7", "ZEP acknowledgement"),
    ("version 2, kind 3", air.zep2(CHECKED, kind=3), UNKNOWN_ZEP),
    ("version 2, its header cut", air.zep2(CHECKED)[:31], UNKNOWN_ZEP),
    ("version 3", b"EX\3" + air.zep2(CHECKED)[3:], UNKNOWN_ZEP),
    ("no version", b"EX", UNKNOWN_ZEP),
    ("another start", b"XE" + air.zep2(CHECKED)[2:], NO_ZEP),
    ("nothing", b"", NO_ZEP),
))

# TAP: a field says which checksum the frame has. The last checksums are the standard's examples:
# the one of 32 bits fills a frame of less than 4 octets up with zeros, which Wireshark doesn't.
LONG_CHECKSUM = FRAME + bytes.fromhex("711a939f")
NO_TAP = "no TAP header that is known"
TYPES = [air.tap_field(0, bytes([kind])) for kind in range(4)]
CHANNEL = air.tap_field(3, b"\x0f\0\0")
TAP = (
    ("no field", air.tap(FRAME), FRAME),
    ("no checksum", air.tap(FRAME, TYPES[0]), FRAME),
    ("a checksum of 16 bits", air.tap(CHECKED, TYPES[1]), FRAME),
    ("a wrong one", air.tap(SPOILT, TYPES[1]), WRONG),
    ("a checksum of 32 bits", air.tap(LONG_CHECKSUM, TYPES[2]), FRAME),
    ("a wrong one of 32 bits", air.tap(flipped(LONG_CHECKSUM, 5), TYPES[2]), WRONG),
    ("32 bits cut", air.tap(b"\0\0\0", TYPES[2]), SHORT_OF_CHECKSUM),
    ("32 bits alone", air.tap(bytes.fromhex("1cdf4421"), TYPES[2]), b""),
    ("another checksum", air.tap(CHECKED, TYPES[3]), "TAP, with checksum 3"),
    ("other fields, no checksum", air.tap(FRAME, CHANNEL), FRAME),
    ("other fields before it", air.tap(CHECKED, CHANNEL + air.tap_field(99, b"x") + TYPES[1]),
     FRAME),
    ("other fields behind it", air.tap(CHECKED, TYPES[1] + CHANNEL), FRAME),
    ("two types", air.tap(CHECKED, TYPES[0] + TYPES[1]), FRAME),
    ("a type of 4 octets", air.tap(CHECKED, air.tap_field(0, b"\1\0\0\0")), FRAME),
    ("a type of no octet", air.tap(CHECKED, air.tap_field(0, b"")), NO_TAP),
    ("a type without its octet", air.tap(CHECKED, TYPES[1][:4]), NO_TAP),
    ("a type not filled up", air.tap(CHECKED, TYPES[1][:5]), FRAME),
    ("a field that is cut", air.tap(CHECKED, TYPES[1] + b"\3\0\5\0\0\0\0\0"), NO_TAP),
    ("3 octets of a field", air.tap(CHECKED, TYPES[1] + b"\3\0\0"), FRAME),
    ("another version", b"\1" + air.tap(CHECKED, TYPES[1])[1:], NO_TAP),
    ("a length of 3", altered(air.tap(FRAME), 2, b"\3"), NO_TAP),
    ("a length beyond it", altered(air.tap(FRAME), 2, b"\x18"), NO_TAP),
    ("no frame", air.tap(b""), b""),
    ("3 octets", b"\0\0\4", "too short for TAP"),
    ("nothing", b"", "too short for TAP"),
    ("the standard's example", air.tap(bytes.fromhex("02006ae479"), TYPES[1]), b"\2\0\x6a"),
    ("its example of 32 bits", air.tap(bytes.fromhex("02006aba945f14"), TYPES[2]), b"\2\0\x6a"),
)


def link_types(_reader):
    """Link types with and without checksum, others, and what a sniffer cut."""
    for link, octets, asked in (
            (195, CHECKED, FRAME), (195, bytes.fromhex("02006ae479"), b"\2\0\x6a"),
            (195, b"", SHORT_OF_CHECKSUM), (195, b"\0", SHORT_OF_CHECKSUM), (195, b"\0\0", b""),
            (195, CHIP, WRONG),
            (230, FRAME, FRAME), (230, CHECKED, CHECKED), (230, b"", b""),
            (147, FRAME, "link type 147"), (0, b"", "link type 0"),
            (None, FRAME, "an interface that the file doesn't describe")):
        same(f"link type {link}", inside(link, octets), asked)
        same(f"link type {link}, cut", inside(link, octets, 200),
             f"cut: {len(octets)} of 200 octets")
        same(f"link type {link}, found wrong", inside(link, octets, None, True), WRONG)
    for link, octets, asked in (
            (195, CHIP, FRAME), (195, CHIP_WRONG, WRONG), (195, CHECKED, FRAME),
            (195, SPOILT, WRONG), (195, b"\xe5", SHORT_OF_CHECKSUM), (230, CHIP, CHIP),
            (283, air.tap(CHIP, TYPES[1]), WRONG), (1, air.ethernet(0x809A, CHIP), WRONG)):
        same(f"link type {link}, by a chip", inside(link, octets, by_chip=True), asked)
    return "12 frames, and the same cut or found wrong by the sniffer; 8 by a chip's verdict"


def checksums(_reader):
    """A checksum of 16 and of 32 bits with each single bit of its frame turned."""
    count = 0
    for link, head, octets in ((195, b"", CHECKED), (283, air.tap(b"", TYPES[1]), CHECKED),
                               (283, air.tap(b"", TYPES[2]), LONG_CHECKSUM)):
        same("a right checksum", inside(link, head + octets), FRAME)
        for bit in range(8 * len(octets)):
            same("a wrong bit", inside(link, head + flipped(octets, bit // 8, 1 << bit % 8)), WRONG)
            count += 1
    return f"3 right, {count} with one bit wrong"


def around(name, link, cases, _reader):
    """Frames in what sniffers put around them: whole, and cut at each octet."""
    count = 0
    for what, octets, asked in cases:
        same(f"{name}: {what}", inside(link, octets), asked)
        for size in range(len(octets)):
            if inside(link, octets[:size]) == FRAME and octets[size:].strip(b"\0more"):
                raise Differs(f"{name}: {what}, cut to {size} octets, is read as if it were whole")
            count += 1
    return f"{len(cases)} frames as told, and {count} that end early"


# ---- the MAC layer -----------------------------------------------------------------------------

NONE, SHORT, LONG = 0, 2, 3
TO = {NONE: "", SHORT: "1a2b", LONG: "0102030405060708"}  # addresses by their mode, as read
BY = {NONE: "", SHORT: "3c4d", LONG: "1112131415161718"}
TO_PAN, BY_PAN = 0xD0D1, 0x5051

# The PAN IDs that a frame has, by the modes of destination and source: without PAN ID compression,
# and with it. In the versions of 2003 and 2006 it is not allowed but with both addresses: the
# standard has the bit 0 then, and what it would leave out its editions tell differently.
REFUSED = "MAC frame with PAN ID compression and fewer than two addresses"
OLDER = {
    (NONE, NONE): ("", REFUSED),
    (NONE, SHORT): ("source", REFUSED),
    (NONE, LONG): ("source", REFUSED),
    (SHORT, NONE): ("destination", REFUSED),
    (SHORT, SHORT): ("both", "destination"),
    (SHORT, LONG): ("both", "destination"),
    (LONG, NONE): ("destination", REFUSED),
    (LONG, SHORT): ("both", "destination"),
    (LONG, LONG): ("both", "destination"),
}
NEWEST = {  # IEEE 802.15.4-2015, table 7-2
    (NONE, NONE): ("", "destination"),
    (NONE, SHORT): ("source", ""),
    (NONE, LONG): ("source", ""),
    (SHORT, NONE): ("destination", ""),
    (SHORT, SHORT): ("both", "destination"),
    (SHORT, LONG): ("both", "destination"),
    (LONG, NONE): ("destination", ""),
    (LONG, SHORT): ("both", "destination"),
    (LONG, LONG): ("destination", ""),
}
PANS = {"": None, "destination": TO_PAN, "source": BY_PAN, "both": BY_PAN}  # the one that is told

# Information elements and what is behind them, or the words that they are passed over with. The
# first octets of each are least first: 803f ends the header's and 003f says that those of the
# payload follow, which 00f8 ends. Wireshark takes up to two octets behind 003f, and a single one
# behind an element, for the payload; the standard has the payload's behind 00f8 alone.
OUT_OF_PLACE, CUT = "MAC frame with an information element out of place", "cut MAC header"
HEADER, INSIDE = "02 18 aa bb", "03 b0 61 62 63"
ELEMENTS = (
    ("80 3f", PAYLOAD), (f"{HEADER} 80 3f", PAYLOAD), (f"{HEADER} 00 18 80 3f", PAYLOAD),
    ("82 3f aa bb", PAYLOAD),
    ("00 3f 00 f8", PAYLOAD), (f"00 3f {INSIDE} 00 f8", PAYLOAD), ("02 3f aa bb 00 f8", PAYLOAD),
    (f"{HEADER} 00 3f {INSIDE} 01 b8 64 00 f8", PAYLOAD), ("00 3f 02 f8 aa bb", PAYLOAD),
    ("00 3f 01 f0 64 00 f8", PAYLOAD), (f"00 3f c8 b0 {'00' * 200} 00 f8", PAYLOAD),
    (f"00 3f 2c b1 {'00' * 300} 00 f8", PAYLOAD),
)
WITHOUT_PAYLOAD = (
    (HEADER, b""), ("80 3f", b""), (f"00 3f {INSIDE}", b""), (f"00 3f {INSIDE} 00 f8", b""),
    ("00 3f 00 b0", b""),
    ("", CUT), ("02", CUT), (f"{HEADER} 02", CUT), ("02 18 aa", CUT), ("82 3f aa", CUT),
    ("00 3f", CUT), ("00 3f 01", CUT), (f"00 3f {INSIDE} 01", CUT), ("00 3f 03 b0 61 62", CUT),
    ("00 3f 02 f8 aa", CUT), ("00 3f ff b7 61", CUT), ("7f 18 aa", CUT),
    (f"{INSIDE} 00 f8 f0 0d", OUT_OF_PLACE), (f"{HEADER} {INSIDE} 00 f8", OUT_OF_PLACE),
    (f"00 3f {HEADER} 00 f8", OUT_OF_PLACE), ("00 3f 80 3f f0 0d", OUT_OF_PLACE),
)

# Frames that are no data, by their names, and such as are none. In the newest version a command's
# identifier stands behind the information elements.
NAMES = (
    ("0080 77 d1d0 4d3c ffcf0000", "beacon"),
    ("00a2 77 d1d0 4d3c 0018", "beacon"),
    ("0200 77", "ack"),
    ("1210 77", "ack"),
    ("42cc 77", "ack"),
    ("022a 77 d1d0 2b1a 02 18 aa bb", "ack"),
    ("4388 77 d1d0 2b1a 4d3c 01", "MAC command (association request)"),
    ("4388 77 d1d0 2b1a 4d3c 02", "MAC command (association response)"),
    ("4388 77 d1d0 2b1a 4d3c 03", "MAC command (disassociation)"),
    ("6388 77 d1d0 2b1a 4d3c 04", "MAC command (data request)"),
    ("4398 77 d1d0 2b1a 4d3c 05", "MAC command (PAN ID conflict)"),
    ("4388 77 d1d0 2b1a 4d3c 06", "MAC command (orphan notification)"),
    ("0308 77 ffff ffff 07", "MAC command (beacon request)"),
    ("4388 77 d1d0 2b1a 4d3c 08", "MAC command (coordinator realignment)"),
    ("0380 77 d1d0 4d3c 09 00", "MAC command (GTS request)"),
    ("4388 77 d1d0 2b1a 4d3c 0a", "MAC command"),
    ("4388 77 d1d0 2b1a 4d3c", "MAC command"),
    ("032a 77 ffff ffff 803f 07", "MAC command (beacon request)"),
    ("032a 77 ffff ffff 0318aabbcc 003f 03b0616263 00f8 04", "MAC command (data request)"),
    ("032a 77 ffff ffff 0318aabbcc", "MAC command"),
    ("4988 77 d1d0 2b1a 4d3c 0d01000000 f00d", "secured MAC frame"),
    ("4b88 77 d1d0 2b1a 4d3c 0d01000000 04", "secured MAC frame"),
    ("0400 77", "reserved MAC frame"),
    ("0500 77", "multipurpose MAC frame"),
    ("0600 77", "MAC fragment"),
    ("0700 77", "extended MAC frame"),
    ("41b8 77 d1d0 2b1a 4d3c f00d", "MAC frame of another version"),
    ("43b8 77 d1d0 2b1a 4d3c 04", "MAC frame of another version"),
    ("4184 77 d1d0 2b1a 4d3c f00d", "MAC frame with a reserved mode of addressing"),
    ("4148 77 d1d0 2b1a 4d3c f00d", "MAC frame with a reserved mode of addressing"),
    ("032a 77 ffff ffff 0318aa", CUT),
    ("4188 77 d1d0 2b1a 4d", CUT),
    ("0000", CUT),
    ("41", "too short for a MAC frame"),
    ("", "too short for a MAC frame"),
)


def header(version, modes, pans, compressed, bits=0, kind=1):
    """A MAC header with these PAN IDs; bit 8 leaves its number out."""
    control = kind | compressed << 6 | bits | modes[0] << 10 | version << 12 | modes[1] << 14
    octets = least(control, 2) + (b"" if bits >> 8 & 1 else b"\x77")
    if pans in ("destination", "both"):
        octets += least(TO_PAN, 2)
    octets += bytes.fromhex(TO[modes[0]])[::-1]
    if pans in ("source", "both"):
        octets += least(BY_PAN, 2)
    return octets + bytes.fromhex(BY[modes[1]])[::-1]


def read(octets):
    """PAN, source, destination and payload of a data frame, or words: a name, or why it is none."""
    frame = told(mac.read, octets, octets)
    if isinstance(frame, str) or frame.name is not None:
        return frame if isinstance(frame, str) else frame.name
    return frame.pan, frame.source, frame.destination, frame.payload


def headers():
    """Every header of a data frame: its octets, and the PAN, source and destination it tells of, or
    words. Bits that the older versions reserve are ignored, as they ask: 7, 9, and also 8, which
    leaves the number out in the newest version and to Wireshark in all."""
    for version in range(3):
        for modes, row in (OLDER if version < 2 else NEWEST).items():
            for compressed, pans in enumerate(row):
                for bits in (0, 0x30, 0x80, 0x100 if version == 2 else 0):
                    if pans == REFUSED:
                        yield header(version, modes, "both", compressed, bits), REFUSED
                    else:
                        yield (header(version, modes, pans, compressed, bits),
                               (PANS[pans], BY[modes[1]], TO[modes[0]]))
                if version < 2 and pans != REFUSED:
                    ignored = bytearray(header(version, modes, pans, compressed))
                    ignored[1] |= 0x03
                    yield bytes(ignored), (PANS[pans], BY[modes[1]], TO[modes[0]])


def addressing(_reader):
    """Every mode of addressing with every PAN ID compression; and the headers cut at each octet."""
    frames = cut = 0
    for octets, asked in headers():
        if isinstance(asked, str):
            same(f"header {octets.hex()}", read(octets + PAYLOAD), asked)
        else:
            same(f"header {octets.hex()}", read(octets + PAYLOAD), (*asked, PAYLOAD))
            same(f"header {octets.hex()} alone", read(octets), (*asked, b""))
            for size in range(len(octets)):
                same(f"header {octets[:size].hex()}", read(octets[:size]),
                     "too short for a MAC frame" if size < 2 else CUT)
                cut += 1
        frames += 1
    return f"{frames} headers as the table has them, and {cut} cut"


def elements(_reader):
    """Information elements behind every header of the newest version that can have them."""
    count = 0
    for modes, row in NEWEST.items():
        for compressed, pans in enumerate(row):
            for bits in (0x200, 0x300):
                start = header(2, modes, pans, compressed, bits)
                ends = PANS[pans], BY[modes[1]], TO[modes[0]]
                for digits, behind in (*ELEMENTS, *WITHOUT_PAYLOAD):
                    octets = start + bytes.fromhex(digits)
                    if (digits, behind) in ELEMENTS:
                        octets += behind
                    same(f"elements {octets.hex()}", read(octets),
                         behind if isinstance(behind, str) else (*ends, behind))
                    count += 1
    return f"{count} frames as told"


def names(_reader):
    """What is passed over, by its name; and who sent it to whom, where it tells."""
    for digits, asked in NAMES:
        same(f"frame {digits}", read(bytes.fromhex(digits)), asked)
    for digits, source, destination in (("0080 77 d1d0 4d3c ffcf0000", BY[SHORT], ""),
                                        ("0228 77 d1d0 2b1a", "", TO[SHORT]),
                                        ("6388 77 d1d0 2b1a 4d3c 04", BY[SHORT], TO[SHORT]),
                                        ("4988 77 d1d0 2b1a 4d3c 0d", BY[SHORT], TO[SHORT])):
        frame = mac.read(bytes.fromhex(digits))
        same(f"the ends of frame {digits}", (frame.pan, frame.source, frame.destination,
                                             frame.payload), (TO_PAN, source, destination, b""))
    return f"{len(NAMES)} frames by their names"


# ---- random octets -----------------------------------------------------------------------------

def shaken(dice, octets):
    """Octets with some changed, taken out, put in or cut off."""
    octets = bytearray(octets)
    for _ in range(dice.randrange(1, 5)):
        place = dice.randrange(len(octets) + 1)
        match dice.randrange(5):
            case 0:
                octets[place:place + 1] = dice.randbytes(1)
            case 1:
                octets[place:place + 4] = dice.choice((bytes(4), b"\xff" * 4, b"\4\0\0\0"))
            case 2:
                del octets[place:place + dice.randrange(20)]
            case 3:
                octets[place:place] = dice.randbytes(dice.randrange(20))
            case _:
                del octets[place + dice.randrange(40):]
    return bytes(octets)


def random_octets(reader):
    """Random and altered files and frames, which must all end in words or a frame."""
    dice = random.Random(7)
    frames = [(195, CHECKED), (230, FRAME), *((1, octets) for _, octets, _ in ETHERNET),
              *((1, octets) for _, octets, _ in ZEP),
              *((283, octets) for _, octets, _ in TAP)]
    whole = [b"".join(octets for octets, _ in parts(*orders)) for orders in (ORDERS, ORDERS[::-1])]
    whole += [air.pcap([(TIME, octets)] * 3, 195, order) for _, octets in frames[:4]
              for order in ORDERS]
    whole += [packed(octets) for octets in whole]
    for _ in range(2000):
        reader.read(shaken(dice, dice.choice(whole)))
    for _ in range(500):
        reader.read(dice.choice(whole)[:dice.choice((2, 4, 12, 24, 60))] + dice.randbytes(60))
    for _ in range(10000):
        link, octets = dice.choice(frames)
        octets = shaken(dice, octets)
        read(octets)
        frame = inside(link, octets)
        if isinstance(frame, bytes):
            read(frame)
    return "2500 files and 10000 frames, none of which makes the reader fall"


# ---- the whole ---------------------------------------------------------------------------------

GROUPS = {
    "pcap": pcap, "pcap, broken off": pcap_broken_off,
    "pcapng": pcapng, "pcapng, times": pcapng_times, "pcapng, damaged": pcapng_damaged,
    "gzip": gzip_whole, "gzip, broken off": gzip_broken_off, "gzip, damaged": gzip_damaged,
    "pipes": pipes, "other files": other_files, "memory": memory,
    "link types": link_types, "checksums": checksums,
    "Ethernet": partial(around, "Ethernet", 1, ETHERNET),
    "ZEP": partial(around, "ZEP", 1, ZEP),
    "TAP": partial(around, "TAP", 283, TAP),
    "addressing": addressing, "information elements": elements, "passed over": names,
    "random octets": random_octets,
}


def main():
    """Runs every group; the exit code."""
    parser = argparse.ArgumentParser(description=__doc__,
                                     formatter_class=argparse.RawDescriptionHelpFormatter)
    parser.parse_args()
    with tempfile.TemporaryDirectory() as folder:
        reader = Reader(folder)
        for name, group in GROUPS.items():
            print(f"{name}: {group(reader)}", flush=True)
    print("all captures as read")
    return 0


if __name__ == "__main__":
    sys.exit(in_words(main))
