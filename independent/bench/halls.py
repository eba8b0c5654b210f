"""The script of `bench`: lists of other lengths than those lent at first.

Document 02 (iii), and 01's rules on rows with half the length for its 32; the bench language for
`heard`; DECISIONS, iii-row-numbers, iii-other-length, lend-keeps-rows and bad-or-refused.
"""

from ..lines import address, flip, ok
from .keys import forget, hear, switch
from .tools import (ALTERED, COMMAND_HEADER, GENUINE, NETWORK_HEADER, OWN, TOP, aps_frame, key,
                    network_frame, no, opened, unsecured)

LENGTHS = (2, 4, 62, 64, 66, 1022, 1024)  # of both lists
REFUSED = ((0, 0), (1, 1), (3, 3), (63, 63), (65, 65), (1023, 1023),  # addresses and floors
           (64, 66), (66, 64), (2, 4), (4, 2), (1024, 1022), (1022, 1024), (62, 64), (64, 62),
           (0, 2), (2, 0), (1, 2), (2, 1024), (63, 64), (1024, 1023))
BEYOND = ((1025, 1025), (1026, 1026), (1025, 1024), (1024, 1025), (1026, 64), (64, 1026))
NUMBERS = (1, 2)  # the sequence numbers of slots 0 and 1, whose keys are key(1) and key(2)
CROWD = [0x00124B0000010000 + i for i in range(512)]
PARTNER = 0x00124B0000000300
STRANGER, SECOND = 0x00124B00DEADBEEF, 0x00124B00DEADBEF0


def fresh(bench, rows):
    """A board whose slots have a key each, with lists of so many rows."""
    bench.hall(rows)
    bench.board()
    for slot, number in enumerate(NUMBERS):
        bench.network(slot, number, key(number))


def of_slot(slot, sender, counter, payload=b""):
    """A frame under the key of a slot."""
    return network_frame(key(NUMBERS[slot]), NUMBERS[slot], sender, counter, payload)


def heard_in(bench, slot, sender, counter):
    """A frame under the key of a slot, which must open."""
    hear(bench, key(NUMBERS[slot]), NUMBERS[slot], sender, counter)


# ---- lengths that are not allowed --------------------------------------------------------------

def add_judged(bench, turn, frame):
    """What judges the lists, in turn with other causes of refusal and without."""
    installs = ((2, 1, key(1)), (0, 1, key(2)), (1, 1, key(2)), (0, 1, key(1)))
    forgets = ((0, CROWD[0]), (2, CROWD[0]), (0, 0))
    for i in (0, 1):
        bench.network(*installs[(2 * turn + i) % len(installs)], no(1))
        forget(bench, *forgets[(2 * turn + i) % len(forgets)], no(1))
    for octets in (frame, (NETWORK_HEADER, bytes(117), b"")[turn % 3]):
        bench.open(octets, no(1))
    for slot, expect in ((0, no(1)), (1, no(1)), (2, "bad")):
        bench.add("heard", slot, expect=expect)


def add_not_judged(bench, turn):
    """What doesn't judge the lists; each turn spends two outgoing counters and an APS counter, and
    moves the mark, needed or not."""
    switch(bench, 1)
    bench.step()
    bench.link(PARTNER, key(3))
    bench.seal(NETWORK_HEADER, ok(network_frame(key(1), 1, OWN, 2 * turn)))
    bench.seal_aps(PARTNER, 0, COMMAND_HEADER, ok(aps_frame(key(3), 0, OWN, 2 * turn + 1)))
    bench.open_aps(0, aps_frame(key(3), 0, PARTNER, turn), opened(PARTNER, 0, COMMAND_HEADER))
    bench.add("write", "ack", "request4", expect=ok(f"41{turn:02x}0804"))
    bench.links((0, PARTNER, turn + 1))
    bench.state(2 * turn + 2, turn + 1, 0)
    bench.add("unlink", address(PARTNER), expect="ok")


def add_refused_lists(bench):
    """Lengths that are odd, unequal or too small."""
    bench.lend()
    bench.board()
    bench.network(0, 1, key(1))
    hear(bench, key(1), 1, CROWD[0], 5)
    frame = network_frame(key(1), 1, CROWD[0], 6, b"\x09")
    for turn, (addresses, floors) in enumerate(REFUSED):
        bench.group(f"02 (iii): {addresses} addresses and {floors} floors: 1 where lists are "
                    "judged, before all else; the others don't judge them")
        bench.lend(116, addresses, floors)
        add_judged(bench, turn, frame)
        add_not_judged(bench, turn)
    bench.group("lends of more than 1024 rows are bad, and the one before them holds")
    bench.hall(1024)
    for rows in BEYOND:
        bench.add("lend", 116, *rows, expect="bad")
        bench.heard(0, (0, CROWD[0], 6))
    bench.lend()
    bench.group("nothing of the lists changed")
    bench.heard(0, (0, CROWD[0], 6))
    bench.heard(1)
    bench.open(frame, opened(CROWD[0], 1, NETWORK_HEADER + b"\x09"))


# ---- lengths that are allowed ------------------------------------------------------------------

def add_length(bench, rows):
    """The first rows of both slots of one length."""
    half = rows // 2
    bench.group(f"02 (iii): {rows} rows: slot 1 starts at row {half} (DECISIONS, iii-row-numbers)")
    fresh(bench, rows)
    for slot in (0, 1):
        bench.heard(slot)
    bench.add("heard", 2, expect="bad")
    heard_in(bench, 1, CROWD[0], 3)
    heard_in(bench, 0, CROWD[0], 5)
    bench.heard(0, (0, CROWD[0], 6))
    bench.heard(1, (half, CROWD[0], 4))
    if half > 1:
        heard_in(bench, 0, CROWD[1], 7)
        heard_in(bench, 1, CROWD[2], 8)
        bench.heard(0, (0, CROWD[0], 6), (1, CROWD[1], 8))
        bench.heard(1, (half, CROWD[0], 4), (half + 1, CROWD[2], 9))
    bench.open(of_slot(0, CROWD[0], 5), GENUINE)
    bench.open(NETWORK_HEADER, unsecured(NETWORK_HEADER))
    bench.network(2, 9, key(9), no(14))
    bench.network(1, 1, key(2), no(14))
    forget(bench, 2, CROWD[0], no(14))
    forget(bench, 1, CROWD[0])
    forget(bench, 1, CROWD[0], no(13))
    bench.heard(1, *([(half + 1, CROWD[2], 9)] if half > 1 else []))
    bench.group("an output that is too short is 1 with lists that are allowed, but not for heard")
    bench.lend(115, rows, rows)
    bench.open(of_slot(0, CROWD[0], 6), no(1))
    bench.heard(0, (0, CROWD[0], 6), *([(1, CROWD[1], 8)] if half > 1 else []))


def fill(bench, slot, senders, counter):
    """A slot filled with these senders by frames of one counter; its rows."""
    for sender in senders:
        heard_in(bench, slot, sender, counter)
    base = len(senders) * slot
    return [(base + i, sender, counter + 1) for i, sender in enumerate(senders)]


def add_no_room(bench, slot, stranger):
    """A stranger before a full slot: 6, 7, 9 and, genuine, 10."""
    genuine = of_slot(slot, stranger, 5, b"\x01")
    bench.open(genuine, no(10))
    bench.open(flip(genuine, 8 * len(genuine) - 1), no(9))
    bench.open(of_slot(slot, stranger, TOP), no(7))
    bench.open(network_frame(key(1), 9, stranger, 5), no(6))


def add_small_hall(bench, rows):
    """Both slots of a short list filled, and one sender more in each."""
    half = rows // 2
    fresh(bench, rows)
    full = []
    for slot in (0, 1):
        bench.group(f"02 (iii): {rows} rows: {half} in slot {slot}; one more genuine is 10, "
                    "forged 9, at the top 7")
        full.append(fill(bench, slot, CROWD[:half], 20 + slot))
        add_no_room(bench, slot, STRANGER)
        bench.heard(slot, *full[slot])
    bench.group("heard senders open, the last row's too; its replay is stale, genuine or altered")
    for slot in (0, 1):
        last = CROWD[half - 1]
        heard_in(bench, slot, last, 30)
        full[slot][-1] = (half * slot + half - 1, last, 31)
        bench.open(of_slot(slot, last, 30), GENUINE)
        bench.open(flip(of_slot(slot, last, 29), 8 * 25), ALTERED)
        bench.heard(slot, *full[slot])
    bench.group("forgetting the last makes room for one, in its row")
    for slot in (0, 1):
        forget(bench, slot, CROWD[half - 1])
        heard_in(bench, slot, STRANGER, 0)
        full[slot][-1] = (half * slot + half - 1, STRANGER, 1)
        bench.open(of_slot(slot, CROWD[half - 1], 31), no(10))
    for slot in (0, 1):
        bench.heard(slot, *full[slot])
    bench.group("another key in slot 0 frees its half, then another in slot 1 the other")
    bench.network(0, 1, key(4))
    bench.heard(0)
    bench.heard(1, *full[1])
    bench.network(1, 2, key(5))
    bench.heard(1)


# ---- a hall of 512 senders a slot --------------------------------------------------------------

def add_full_hall(bench):
    """1,024 rows, all of them used; what opens there and what doesn't."""
    bench.group("02 (iii): 1024 rows: 512 senders in slot 0, and 512 in slot 1 in the other order, "
                "with the longest answer to heard")
    fresh(bench, 1024)
    full = [fill(bench, 0, CROWD, 70), fill(bench, 1, CROWD[::-1], TOP - 90)]
    for slot in (0, 1):
        bench.heard(slot, *full[slot])
    bench.group("a genuine stranger is 10, a forged one 9, one at the top counter 7")
    for slot in (0, 1):
        add_no_room(bench, slot, STRANGER)
    bench.group("the first and the last row of each slot: heard, then stale, genuine or altered")
    for slot in (0, 1):
        for place, skipped in ((0, 10), (511, 20)):
            row, sender, floor = full[slot][place]
            counter = floor + skipped
            bench.open(of_slot(slot, sender, floor - 1), GENUINE)
            heard_in(bench, slot, sender, counter)
            full[slot][place] = (row, sender, counter + 1)
            bench.open(of_slot(slot, sender, counter, b"\x02"), GENUINE)
            bench.open(flip(of_slot(slot, sender, counter, b"\x02"), 8 * 22), ALTERED)
            bench.open(flip(of_slot(slot, sender, counter + 1), 8 * 25), no(9))
    for slot in (0, 1):
        bench.heard(slot, *full[slot])
    add_full_forget(bench, full)
    add_full_lengths(bench, full)
    add_full_keys(bench, full)


def add_full_forget(bench, full):
    """Rows in the middle freed and used again; the same key again."""
    bench.group("a sender in the middle is forgotten, and its row is used again")
    for slot, place in ((0, 255), (1, 300)):
        row, sender, _ = full[slot][place]
        forget(bench, slot, sender)
        forget(bench, slot, sender, no(13))
        heard_in(bench, slot, STRANGER, 4)
        full[slot][place] = (row, STRANGER, 5)
        bench.open(of_slot(slot, sender, 99), no(10))
        add_no_room(bench, slot, SECOND)
    bench.group("slip: the same key again frees no row")
    for slot, number in enumerate(NUMBERS):
        bench.network(slot, number, key(number))
        bench.open(of_slot(slot, STRANGER, 4), GENUINE)
        bench.open(of_slot(slot, SECOND, 0), no(10))
    for slot in (0, 1):
        bench.heard(slot, *full[slot])


def add_full_lengths(bench, full):
    """The full hall at other lengths: full too, in other halves."""
    rows = full[0] + full[1]
    for length in (1022, 66, 2):
        half = length // 2
        bench.group(f"the same rows, {length} of them lent: full in both halves, the second "
                    f"from row {half} on")
        bench.hall(length)
        for slot in (0, 1):
            add_no_room(bench, slot, SECOND)
        if length < 1022:
            bench.heard(0, *rows[:half])
            bench.heard(1, *rows[half:length])
        bench.group("a row behind a slot's, lent or not, is none of its rows; the last one counts, "
                    "whichever key it was heard under (DECISIONS, iii-other-length)")
        bench.open(of_slot(0, rows[half][1], 200), no(10))
        bench.open(of_slot(1, rows[length][1], 200), no(10))
        last, sender, floor = rows[length - 1]
        bench.open(of_slot(1, sender, floor - 1), GENUINE)
        heard_in(bench, 1, sender, floor)
        rows[last] = (last, sender, floor + 1)
    full[0][:], full[1][:] = rows[:512], rows[512:]
    bench.hall(1024)
    for slot in (0, 1):
        bench.heard(slot, *full[slot])


def add_full_keys(bench, full):
    """Other keys free just their half of what is lent."""
    bench.group("another key in slot 0: its 512 rows are free, those of slot 1 stay")
    bench.network(0, 1, key(4))
    bench.heard(0)
    bench.heard(1, *full[1])
    hear(bench, key(4), 1, SECOND, 6)
    bench.heard(0, (0, SECOND, 7))
    bench.group("another key in slot 1 of 1022 rows: rows 511 to 1021 are free, and no other")
    hear(bench, key(4), 1, CROWD[1], 7)
    bench.hall(1022)
    bench.network(1, 2, key(5))
    bench.heard(1)
    bench.heard(0, (0, SECOND, 7), (1, CROWD[1], 8))
    hear(bench, key(5), 2, STRANGER, 8)
    bench.heard(1, (511, STRANGER, 9))
    bench.hall(1024)
    bench.heard(0, (0, SECOND, 7), (1, CROWD[1], 8), (511, STRANGER, 9))
    bench.heard(1, *full[1][510:])
    bench.group("a new board is fresh in all 1024 rows, and keeps the lend (DECISIONS, "
                "lend-outlives-board)")
    bench.board()
    for slot in (0, 1):
        bench.heard(slot)
        forget(bench, slot, full[1][511][1], no(13))


# ---- one length after another ------------------------------------------------------------------

def add_other_length(bench):
    """The same rows read as other slots."""
    bench.group("DECISIONS, iii-other-length: rows 32 to 40 are slot 1's of 64 rows")
    fresh(bench, 64)
    heard_in(bench, 0, CROWD[0], 50)
    held = []
    for i, sender in enumerate(CROWD[:9]):
        heard_in(bench, 1, sender, 10 + i)
        held.append((32 + i, sender, 11 + i))
    bench.heard(0, (0, CROWD[0], 51))
    bench.heard(1, *held)
    bench.group("and slot 0's of 128, with their floors; slot 1, from row 64 on, has nobody")
    bench.hall(128)
    bench.heard(0, (0, CROWD[0], 51), *held)
    bench.heard(1)
    bench.open(of_slot(0, CROWD[8], 18), GENUINE)
    bench.open(flip(of_slot(0, CROWD[8], 18), 8 * 25), ALTERED)
    bench.open(of_slot(0, CROWD[8], TOP), no(7))
    heard_in(bench, 0, CROWD[8], 19)
    held[8] = (40, CROWD[8], 20)
    bench.group("of two rows of one sender the lowest counts")
    bench.open(of_slot(0, CROWD[0], 20), GENUINE)
    heard_in(bench, 0, CROWD[0], 60)
    bench.heard(0, (0, CROWD[0], 61), *held)
    bench.group("what slot 1's key opened at 64 rows opens again at 128, in row 64")
    heard_in(bench, 1, CROWD[8], 18)
    bench.open(of_slot(1, CROWD[8], 18), GENUINE)
    bench.heard(1, (64, CROWD[8], 19))
    bench.group("forget at 128 rows: the lowest of two, then the other, then 13")
    for expect in ("ok", "ok", no(13)):
        forget(bench, 0, CROWD[0], expect)
    bench.heard(0, *held[1:])
    bench.group("back at 64: slot 1 has its rows again, row 40 with the floor that it got")
    bench.lend()
    bench.heard(0)
    bench.heard(1, *held[1:])
    bench.open(of_slot(1, CROWD[8], 19), GENUINE)
    heard_in(bench, 1, CROWD[8], 20)
    heard_in(bench, 1, STRANGER, 7)
    held[0], held[8] = (32, STRANGER, 8), (40, CROWD[8], 21)
    bench.heard(1, *held)
    add_installs(bench, held)


def add_installs(bench, held):
    """Keys installed at other lengths than the rows were used at; row 64 is used too."""
    bench.group("at 4 rows slot 1 has rows 2 and 3, which are slot 0's of 64")
    bench.hall(4)
    for i, expect in ((1, None), (2, None), (3, no(10))):
        bench.open(of_slot(1, CROWD[i], i), expect or opened(CROWD[i], 1, NETWORK_HEADER))
    bench.heard(0)
    bench.heard(1, (2, CROWD[1], 2), (3, CROWD[2], 3))
    bench.lend()
    bench.heard(0, (2, CROWD[1], 2), (3, CROWD[2], 3))
    bench.heard(1, *held)
    bench.group("another key in slot 1 of 66 rows: rows 33 to 65 are free; row 32, slot 0's there, "
                "stays")
    bench.hall(66)
    bench.heard(1, *held[1:], (64, CROWD[8], 19))
    bench.network(1, 2, key(5))
    bench.heard(1)
    bench.heard(0, (2, CROWD[1], 2), (3, CROWD[2], 3), held[0])
    bench.lend()
    bench.heard(1, held[0])
    bench.hall(128)
    bench.heard(1)
    bench.group("another key in slot 1 of 4 rows: rows 2 and 3 alone; in slot 0 of 2 rows: row 0")
    hear(bench, key(1), 1, CROWD[5], 5)
    hear(bench, key(1), 1, CROWD[6], 6)
    bench.heard(0, (0, CROWD[5], 6), (1, CROWD[6], 7), (2, CROWD[1], 2), (3, CROWD[2], 3), held[0])
    bench.hall(4)
    bench.network(1, 2, key(6))
    bench.hall(128)
    bench.heard(0, (0, CROWD[5], 6), (1, CROWD[6], 7), held[0])
    bench.hall(2)
    bench.heard(0, (0, CROWD[5], 6))
    bench.heard(1, (1, CROWD[6], 7))
    bench.network(0, 1, key(7))
    bench.heard(0)
    bench.heard(1, (1, CROWD[6], 7))
    bench.lend()
    bench.heard(0, (1, CROWD[6], 7))
    bench.heard(1, held[0])


def add_halls(bench):
    """All of this file; at its end is lent what is lent at first."""
    add_refused_lists(bench)
    for rows in LENGTHS:
        add_length(bench, rows)
    for rows in (2, 4, 62, 66):
        add_small_hall(bench, rows)
    add_full_hall(bench)
    add_other_length(bench)
