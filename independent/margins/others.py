"""The script of `margins`: frames and commands by chance, and bad and odd lines."""

from ..bench.aps import HEADERS
from ..bench.network import ODD_HEADERS
from ..bench.tools import NETWORK_HEADER
from ..lines import Chance, address, flip, ok, refused, run_of
from .opening import aps, copied, heard, heard_aps, network
from .tools import A1, A2, B1, ROOMS, STRANGER, laid


# ---- by chance ---------------------------------------------------------------------------------

def add_chance(script):
    """Genuine frames and forgeries of any length, with any output."""
    script.group("by chance: genuine frames, some with a bit of payload or tag changed")
    chance = Chance(3001)
    for _ in range(8):
        sender, row, number = chance.pick(((B1, 0, 5), (STRANGER, 1, 5), (0xC2A, 42, 6)))
        header, counter = chance.pick((NETWORK_HEADER, *ODD_HEADERS)), 100 + chance.below(10**9)
        payload = run_of(chance.below(60), chance.below(256))
        frame = network(sender, counter, payload, number, header=header)
        forged = chance.below(3) == 0
        if forged:
            frame = flip(frame, 8 * (len(header) + 14) + chance.below(8 * len(payload) + 32))
        script.ask(chance.pick(ROOMS[4:]), "open", frame,
                   gives=9 if forged else heard(header + payload, sender, counter, row))
    for _ in range(8):
        sender, identifier, carried = chance.pick((A1, A2)), chance.pick((0, 2, 3)), chance.below(2)
        header, counter = chance.pick(HEADERS), 100 + chance.below(10**9)
        payload = run_of(chance.below(80), chance.below(256))
        frame = aps(sender, counter, payload, identifier, header=header, carried=bool(carried))
        forged = chance.below(3) == 0
        if forged:
            front = len(header) + (13 if carried else 5)
            frame = flip(frame, 8 * front + chance.below(8 * len(payload) + 32))
        script.ask(chance.pick(ROOMS[4:]), "openaps", address(sender), frame,
                   gives=9 if forged else heard_aps(header + payload, sender, counter, identifier))


def add_hall_chance(script):
    """Lists of any even length, then of any other, and frames of both slots."""
    script.group("by chance: lists of any even length; the same with a row more, of floors or both")
    chance = Chance(3002)
    for _ in range(12):
        rows = 2 + 2 * chance.below(512)
        row, counter = rows // 2 + chance.below(rows // 2), 100 + chance.below(10**9)
        sender, row, number = chance.pick(((B1, 0, 5), (STRANGER, 1, 5), (0xC00 + row, row, 6),
                                           (0xC00 + row, row, 6)))
        payload = run_of(chance.below(20), chance.below(256))
        frame = network(sender, counter, payload, number)
        room = chance.pick(ROOMS[4:])
        script.ask(room, "hall", rows, rows, frame,
                   gives=10 if number == 5 and row == rows // 2
                   else heard(NETWORK_HEADER + payload, sender, counter, row))
        script.ask(room, "hall", rows + chance.below(2), rows + 1, frame, gives=1)
        script.ask(room, "hall", rows, rows, NETWORK_HEADER, gives=copied(NETWORK_HEADER))


# ---- bad and odd lines -------------------------------------------------------------------------

def add_bad(script):
    """Lines that are not the language's."""
    script.group("bad: a field of each word, malformed or beyond its range")
    device, frame = address(A1), "413e"
    for line in (("open", 257, frame), ("hall", 257, 64, 64, frame), ("hall", 116, 1027, 64, frame),
                 ("hall", 116, 64, 1027, frame), ("hall", 116, "064", 64, frame),
                 ("hall", 116, 64, "", frame), ("hall", 116, 65600, 64, frame),
                 ("hall", 116, 64, "-64", frame), ("hall", 116, 64, 64, bytes(513)),
                 ("openaps", 116, device[1:], frame), ("seal", "0116", frame),
                 ("sealaps", 116, device, 256, frame), ("remove", 116, device + "00"),
                 ("tunnel", 116, device, bytes(513)), ("down", "", frame), ("hash", bytes(513)),
                 ("keyedhash", "4g"), ("key", 256, frame), ("digest", "None", frame),
                 ("inner", "01", frame), ("tlvs", "none", "413"), ("value", "none", "-1", frame),
                 ("header", "none", bytes(513)), ("auxiliary", "00", frame),
                 ("payload", "none", "413g"), ("tag", 256, frame), ("sealat", 257, 7, 8, frame),
                 ("sealat", 116, 4294967296, 8, frame), ("sealat", 116, 7, 4294967296, frame),
                 ("sealat", 116, "07", 8, frame), ("sealat", 116, 7, "", frame),
                 ("sealat", 116, 7, 8, bytes(513)), ("sealapsat", 116, "-7", 8, device, 0, frame),
                 ("sealapsat", 116, 7, "08", device, 0, frame),
                 ("sealapsat", 116, 7, 18446744073709551624, device, 0, frame),
                 ("sealapsat", 116, 7, 8, device[1:], 0, frame),
                 ("sealapsat", 116, 7, 8, device, 256, frame),
                 ("sealapsat", 116, 7, 8, device, 0, "4g")):
        script.add(*line, expect="bad")
    script.group("bad: a field less or more, other words, blanks")
    for line in ("open\t116", "hall\t116\t64\t413e", "hall\t116\t64\t64\t413e\t",
                 "hall\t116\t413e", "hall\t64\t64\t413e", "Hall\t116\t64\t64\t413e",
                 "remove\t116\t00000000000000a1\t", "hash", "value\tnone\t413e",
                 "header\tnone", "auxiliary\t413e", "payload\tnone\t413e\t", "tag\tnone\t0\t413e",
                 "route\tnone\t413e", "Tag\tnone\t413e",
                 "Open\t116\t413e", "up\t116\t", "hash\t00 ", "board",
                 "sealat\t116\t7\t413e", "sealat\t116\t7\t8\t413e\t", "Sealat\t116\t7\t8\t413e",
                 "seal at\t116\t7\t8\t413e", "sealapsat\t116\t7\t8\t00000000000000a1\t413e",
                 "sealapsat\t116\t00000000000000a1\t0\t413e", "mark\t116", "marked\t116\t8"):
        script.raw(line, "bad")


def add_fine(script):
    """Lines that only look bad, and the last one."""
    script.group("fine: empty lines, comments, either case of hex, empty octets")
    for line in ("", "#", "#\thash", ""):
        script.raw(line)
    script.raw("hash\tC0", ok("ae3a102a28d43ee0d4a09e22788b206c"))
    script.raw("remove\t108\t00000000000000A1",
               ok(11, laid(108, bytes.fromhex("41ff07a100000000000000")), 0))
    script.raw("open\t0\t", refused(1) + "\t")
    script.raw("openaps\t116\t00000000000000a1\t", refused(3) + "\t" + "ee" * 116 + "\t100\t0")
    script.raw("value\tnone\t0\t", "ok\t")
    script.group("the last line has no line feed")
    script.raw("key\tnone\t", "ok\t")
