"""The script of `margins`: network frames opened with lists of many lengths.

Document 02 (iii), and 01's rules on rows with half the length for its 32; the line `hall`.
"""

from ..bench.tools import NETWORK_HEADER, TOP
from ..lines import flip, run_of
from .opening import copied, heard, network, network_refusals
from .tools import B1, STRANGER

LENGTHS = (2, 4, 62, 64, 66, 1022, 1024)  # of both lists
REFUSED_LISTS = (  # addresses and floors
    (0, 0), (1, 1), (3, 3), (63, 63), (65, 65), (1023, 1023), (1025, 1025), (1026, 1026),
    (64, 66), (66, 64), (2, 4), (4, 2), (1024, 1022), (1022, 1024), (62, 64), (64, 62), (0, 2),
    (2, 0), (1, 2), (0, 1), (1024, 1026), (1026, 1024), (1024, 1025), (2, 1026), (1026, 0))
PLAIN = NETWORK_HEADER + run_of(20)


def add_like_open(script):
    """64 rows: each verdict that `open` gives, with the same outputs."""
    script.group("hall, 64 rows: as open: row 0, a stranger, the full slot's last row, unsecured")
    for sender, row, number in ((B1, 0, 5), (STRANGER, 1, 5), (0xC3F, 63, 6)):
        script.mostly("hall", 64, 64, network(sender, 100, run_of(20), number),
                      gives=heard(PLAIN, sender, 100, row))
    script.mostly("hall", 64, 64, NETWORK_HEADER, gives=copied(NETWORK_HEADER))
    for number, title, first, _ in network_refusals():
        script.group(f"hall, {number}: {title}")
        script.mostly("hall", 64, 64, first, gives=number)


def add_refused_lists(script):
    """1 before all else, whatever the frame; the output is EE and no row changes."""
    good = network(B1, 100, run_of(20))
    others = (PLAIN, network(STRANGER, 7), network(0xC20, 9, number=6), b"", run_of(117),
              flip(good, 8 * 40), network(B1, TOP))
    script.group("hall, 1: lists that are unequal, odd, too short or too long: a genuine frame, "
                 "and others in turn")
    for turn, rows in enumerate(REFUSED_LISTS):
        script.once("hall", *rows, good, gives=1)
        script.once("hall", *rows, others[turn % len(others)], gives=1)
    script.group("hall, 1: with every output, a genuine frame of either slot and an unsecured one")
    script.everywhere("hall", 1026, 1026, good, gives=1)
    script.mostly("hall", 64, 66, network(0xC20, 9, run_of(20), 6), gives=1)
    script.mostly("hall", 65, 65, PLAIN, gives=1)


def add_slot_0(script, rows):
    """Row 0, and strangers, who take the next row if slot 0 has one."""
    half = rows // 2
    script.group(f"hall, {rows} rows: slot 0 has rows 0 to {half - 1}: row 0, strangers, forgeries")
    script.once("hall", rows, rows, network(B1, 100, run_of(20)), gives=heard(PLAIN, B1, 100, 0))
    for sender, counter in ((STRANGER, 0), (0xC00 + half, 5), (0xC00 + rows - 1, TOP - 1)):
        script.once("hall", rows, rows, network(sender, counter, run_of(20)),
                    gives=heard(PLAIN, sender, counter, 1) if half > 1 else 10)
    for number, frame in ((8, network(B1, 99)), (8, flip(network(B1, 99), 205)),
                          (9, flip(network(STRANGER, 3), 205)), (7, network(STRANGER, TOP))):
        script.once("hall", rows, rows, frame, gives=number)
    script.once("hall", rows, rows, PLAIN, gives=copied(PLAIN))


def add_slot_1(script, rows):
    """The full slot: its own rows, and who has none in it."""
    half, last = rows // 2, rows - 1
    script.group(f"hall, {rows} rows: slot 1 has rows {half} to {last}, all used: each sender in "
                 "its row; 10 for others, also for who would stand in the row before or behind")
    for row in sorted({half, (half + last) // 2, last}):
        for counter in (1, TOP - 1):
            script.once("hall", rows, rows, network(0xC00 + row, counter, run_of(20), 6),
                        gives=heard(PLAIN, 0xC00 + row, counter, row))
    for sender in (STRANGER, B1, 0xC00 + half - 1, 0xC00 + rows):
        script.once("hall", rows, rows, network(sender, 150, run_of(20), 6), gives=10)
    sender = 0xC00 + last
    for number, frame in ((8, network(sender, 0, number=6)),
                          (8, flip(network(sender, 0, number=6), 205)),
                          (9, flip(network(sender, 1, number=6), 205)),
                          (9, flip(network(STRANGER, 1, number=6), 205)),
                          (7, network(STRANGER, TOP, number=6))):
        script.once("hall", rows, rows, frame, gives=number)


def add_halls(script):
    """All of this file."""
    add_like_open(script)
    add_refused_lists(script)
    for rows in LENGTHS:
        add_slot_0(script, rows)
        add_slot_1(script, rows)
