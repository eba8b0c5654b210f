"""The script of `bench`: the requests that change keys.

Document 01, "The state and the lists" and "Requests that change keys", with the points that
docs/DECISIONS.md settles there, and the slip of rows that are freed.
"""

from ..lines import address, flip, ok
from .tools import (ALL_ONES, COMMAND_HEADER, GENUINE, NETWORK_HEADER, OWN, Station, aps_frame, key,
                    network_frame, no, opened)

SENDERS = [0x00124B0000000100 + i for i in range(40)]
STRANGER = 0x00124B00DEADBEEF
LISTS = ((116, 63, 64), (116, 64, 63), (116, 65, 64), (116, 64, 65), (116, 0, 0), (116, 1024, 1022),
         (116, 128, 64), (256, 33, 33))


def hear(bench, octets, number, sender, counter):
    """Opens an empty genuine frame of a sender."""
    bench.open(network_frame(octets, number, sender, counter), opened(sender, 1, NETWORK_HEADER))


def switch(bench, number, expect="ok"):
    """Switches."""
    bench.add("switch", number, expect=expect)


def forget(bench, slot, sender, expect="ok"):
    """Forgets a sender."""
    bench.add("forget", slot, address(sender), expect=expect)


def add_install(bench):
    """14 for slot and number; the fresh slot's number is 0."""
    bench.group("install: 14 for the slot, then for the other slot's number")
    bench.board()
    for slot in (2, 3, 128, 255):
        bench.network(slot, 7, key(1), no(14))
    bench.group("RULES 3.2: a fresh slot has number 0 and is not present")
    bench.network(1, 0, key(1))
    bench.network(0, 0, key(2), no(14))
    bench.network(0, 255, key(2))
    bench.network(1, 255, key(1), no(14))
    bench.network(1, 255, key(2), no(14))
    bench.network(2, 255, key(2), no(14))
    bench.network(1, 0, key(1))
    bench.group("both slots may have the same octets under two numbers")
    bench.network(1, 0, key(2))
    bench.state(0, 0, "-")
    bench.board()
    bench.network(0, 0, key(2))
    bench.network(1, 0, key(2), no(14))
    bench.network(0, 1, key(2))
    bench.network(1, 0, key(2))


def add_switch(bench):
    """13 for what is not there; sealing uses the active slot."""
    bench.group("switch: nothing present, number 0 and others; to seal 6")
    bench.board()
    bench.step()
    for number in (0, 1, 255):
        switch(bench, number, no(13))
    bench.seal(NETWORK_HEADER, no(6))
    bench.network(1, 9, key(1))
    bench.seal(NETWORK_HEADER, no(6))
    switch(bench, 0, no(13))
    switch(bench, 1, no(13))
    switch(bench, 9)
    bench.state(0, 0, 1)
    bench.seal(NETWORK_HEADER, ok(network_frame(key(1), 9, OWN, 0)))
    bench.network(0, 8, key(2))
    bench.state(1, 0, 1)
    switch(bench, 8)
    switch(bench, 8)
    bench.state(1, 0, 0)
    bench.seal(NETWORK_HEADER, ok(network_frame(key(2), 8, OWN, 1)))
    switch(bench, 7, no(13))
    bench.state(2, 0, 0)
    bench.group("RULES 3.2: the active mark stays, also on the replaced slot")
    bench.network(0, 7, key(3))
    bench.state(2, 0, 0)
    switch(bench, 8, no(13))
    bench.seal(NETWORK_HEADER, ok(network_frame(key(3), 7, OWN, 2)))
    bench.network(1, 6, key(1))
    bench.state(3, 0, 0)


def add_same_key(bench, slot):
    """What frees the rows of a slot and what doesn't."""
    other, base, rows = 1 - slot, 32 * slot, 32 * (1 - slot)
    bench.board()
    bench.network(slot, 4, key(1))
    bench.network(other, 5, key(2))
    switch(bench, 4)
    bench.group(f"slot {slot}: a sender heard under both keys has a row and a floor in each slot")
    hear(bench, key(1), 4, SENDERS[0], 10)
    hear(bench, key(1), 4, SENDERS[1], 20)
    hear(bench, key(2), 5, SENDERS[0], 3)
    bench.heard(slot, (base, SENDERS[0], 11), (base + 1, SENDERS[1], 21))
    bench.heard(other, (rows, SENDERS[0], 4))
    bench.group("slip: the same key sent again frees nothing, and replays stay out")
    bench.network(slot, 4, key(1))
    bench.heard(slot, (base, SENDERS[0], 11), (base + 1, SENDERS[1], 21))
    bench.open(network_frame(key(1), 4, SENDERS[0], 10), GENUINE)
    bench.network(slot, 5, key(1), no(14))
    bench.heard(slot, (base, SENDERS[0], 11), (base + 1, SENDERS[1], 21))
    for what, number, octets in (("another number", 6, key(1)),
                                 ("another last octet", 6, flip(key(1), 127)),
                                 ("another first octet", 6, flip(flip(key(1), 127), 0))):
        bench.group(f"RULES 3.2: {what}: the rows of that slot only are freed")
        bench.network(slot, number, octets)
        bench.heard(slot)
        bench.heard(other, (rows, SENDERS[0], 4))
        bench.state(0, 0, slot)
        bench.open(network_frame(key(1), 4, SENDERS[0], 11), no(6))
        hear(bench, octets, 6, SENDERS[1], 0)
        hear(bench, octets, 6, SENDERS[0], 10)
        bench.heard(slot, (base, SENDERS[1], 1), (base + 1, SENDERS[0], 11))


def add_rows(bench):
    """32 senders in slot 0, a 33rd, and freed rows."""
    bench.group("01: 32 senders in slot 0")
    bench.board()
    bench.network(0, 1, key(1))
    bench.network(1, 2, key(2))
    full = [(i, SENDERS[i], 6) for i in range(32)]
    for _, sender, _ in full:
        hear(bench, key(1), 1, sender, 5)
    bench.heard(0, *full)
    genuine = network_frame(key(1), 1, STRANGER, 5, b"\x01")
    bench.group("01: a genuine 33rd is 10")
    bench.open(genuine, no(10))
    bench.group("01: the same with a bad tag is 9")
    bench.open(flip(genuine, 8 * len(genuine) - 1), no(9))
    bench.group("RULES 7.2: 6, 7 and 8 as always, and heard senders open")
    bench.open(network_frame(key(1), 3, STRANGER, 5), no(6))
    bench.open(network_frame(key(1), 1, STRANGER, 2**32 - 1), no(7))
    bench.open(network_frame(key(1), 1, SENDERS[31], 5), GENUINE)
    bench.open(network_frame(key(1), 1, STRANGER, 0), no(10))
    hear(bench, key(1), 1, SENDERS[31], 8)
    full[31] = (31, SENDERS[31], 9)
    bench.heard(0, *full)
    bench.group("slot 1 has room; its rows are 32 to 63 (DECISIONS, heard-row-numbers)")
    for i, sender in enumerate((STRANGER, SENDERS[0], OWN)):
        hear(bench, key(2), 2, sender, i)
    bench.heard(1, (32, STRANGER, 1), (33, SENDERS[0], 2), (34, OWN, 3))
    add_freed_rows(bench, full, genuine)
    add_full_other(bench)


def add_freed_rows(bench, full, genuine):
    """Rows of a full slot freed and taken again."""
    bench.group("forgetting makes room; the lowest free row is taken")
    for i in (20, 7, 31):
        forget(bench, 0, SENDERS[i])
        forget(bench, 0, SENDERS[i], no(13))
    for i, row in ((35, 7), (20, 20), (36, 31)):
        hear(bench, key(1), 1, SENDERS[i], 0)
        full[row] = (row, SENDERS[i], 1)
    bench.open(genuine, no(10))
    bench.heard(0, *full)
    bench.heard(1, (32, STRANGER, 1), (33, SENDERS[0], 2), (34, OWN, 3))
    bench.group("another key: all 32 rows are free again, and the 33rd opens")
    bench.network(0, 1, key(3))
    bench.heard(0)
    bench.open(genuine, no(9))
    hear(bench, key(3), 1, STRANGER, 5)
    bench.heard(0, (0, STRANGER, 6))


def add_full_other(bench):
    """32 senders in slot 1 through stations that seal for themselves."""
    bench.group("32 senders in slot 1, heard from boards; slot 0 is not touched")
    stations = [Station(sender, 2 * i).install(1, 2, key(4)) for i, sender in enumerate(SENDERS)]
    bench.network(1, 2, key(4))
    for station in stations[:32]:
        bench.open(station.seal(NETWORK_HEADER + b"\x77"),
                   opened(station.own, 1, NETWORK_HEADER + b"\x77"))
    for station in stations[32:]:
        bench.open(station.seal(NETWORK_HEADER), no(10))
    bench.heard(1, *((32 + i, SENDERS[i], 2 * i + 1) for i in range(32)))
    bench.heard(0, (0, STRANGER, 6))
    bench.group("each of them once more")
    for station in stations[:32]:
        bench.open(station.seal(NETWORK_HEADER), opened(station.own, 1, NETWORK_HEADER))


def add_forget(bench):
    """Forgetting: orders and ends."""
    bench.group("forget: DECISIONS, forget-without-key: a slot without a key has no 6, only 13; "
                "all ones too")
    bench.board()
    for slot in (0, 1):
        for sender in (0, SENDERS[0], ALL_ONES):
            forget(bench, slot, sender, no(13))
    bench.group("forget: 14 for the slot first")
    for slot in (2, 255):
        forget(bench, slot, 0, no(14))
        forget(bench, slot, SENDERS[0], no(14))
    bench.group("forget: only the sender of the named slot; address 0 is absent, free rows or not")
    for slot, number in ((0, 1), (1, 2)):
        bench.network(slot, number, key(number))
        for i in range(3):
            hear(bench, key(number), number, SENDERS[i], 50 + i)
    forget(bench, 0, 0, no(13))
    forget(bench, 1, ALL_ONES, no(13))
    forget(bench, 0, SENDERS[1])
    bench.heard(0, (0, SENDERS[0], 51), (2, SENDERS[2], 53))
    bench.heard(1, (32, SENDERS[0], 51), (33, SENDERS[1], 52), (34, SENDERS[2], 53))
    forget(bench, 0, SENDERS[1], no(13))
    forget(bench, 1, SENDERS[2])
    bench.heard(1, (32, SENDERS[0], 51), (33, SENDERS[1], 52))
    bench.group("a forgotten sender starts from floor 0, in the lowest free row")
    bench.open(network_frame(key(2), 2, SENDERS[1], 51), GENUINE)
    hear(bench, key(1), 1, SENDERS[5], 9)
    hear(bench, key(1), 1, SENDERS[1], 0)
    bench.heard(0, (0, SENDERS[0], 51), (1, SENDERS[5], 10), (2, SENDERS[2], 53),
                (3, SENDERS[1], 1))
    bench.open(network_frame(key(1), 1, SENDERS[1], 0), GENUINE)


def add_lists(bench):
    """Lists of lengths that are not allowed; halls.py has every other length."""
    bench.group("RULES 2.6: install and forget judge the lists before all else")
    bench.board()
    bench.network(0, 1, key(1))
    hear(bench, key(1), 1, SENDERS[0], 5)
    frame = network_frame(key(1), 1, SENDERS[0], 6, b"\x09")
    for lent in LISTS:
        bench.lend(*lent)
        bench.network(2, 1, key(1), no(1))
        bench.network(1, 1, key(1), no(1))
        bench.network(0, 1, key(1), no(1))
        bench.network(0, 1, key(2), no(1))
        forget(bench, 2, SENDERS[0], no(1))
        forget(bench, 0, 0, no(1))
        forget(bench, 0, SENDERS[0], no(1))
        bench.open(frame, no(1))
    bench.group("the others don't judge them, but for heard (DECISIONS, iii-row-numbers)")
    switch(bench, 1)
    bench.link(STRANGER, key(3))
    bench.step()
    bench.seal(NETWORK_HEADER, ok(network_frame(key(1), 1, OWN, 0)))
    bench.seal_aps(STRANGER, 0, COMMAND_HEADER, ok(aps_frame(key(3), 0, OWN, 1)))
    bench.open_aps(0, aps_frame(key(3), 0, STRANGER, 1), opened(STRANGER, 0, COMMAND_HEADER))
    bench.add("unlink", address(STRANGER), expect="ok")
    bench.add("write", "ack", "request4", expect=ok("41000804"))
    bench.add("heard", 0, expect=no(1))
    bench.lend()
    bench.heard(0, (0, SENDERS[0], 6))
    bench.open(frame, opened(SENDERS[0], 1, NETWORK_HEADER + b"\x09"))


def add_links(bench):
    """Adding and removing link keys."""
    partners = [0x00124B0000000200 + i for i in range(9)]
    bench.group("link: partner zero or all ones is 14, before 10 too")
    bench.board()
    for partner in (0, ALL_ONES):
        bench.link(partner, key(1), no(14))
        bench.add("unlink", address(partner), expect=no(13))
    for i, partner in enumerate(partners[:8]):
        bench.link(partner, key(i))
    bench.link(partners[8], key(8), no(10))
    bench.link(0, key(8), no(14))
    bench.link(ALL_ONES, key(8), no(14))
    bench.links(*((i, partner, 0) for i, partner in enumerate(partners[:8])))
    bench.group("RULES 3.4: the same key keeps the floor, other octets set it to 0")
    for i, counter in ((3, 40), (7, 50)):
        bench.open_aps(0, aps_frame(key(i), 0, partners[i], counter),
                       opened(partners[i], 0, COMMAND_HEADER))
    bench.link(partners[3], key(3))
    bench.open_aps(0, aps_frame(key(3), 0, partners[3], 40), GENUINE)
    bench.link(partners[7], flip(key(7), 127))
    floors = [(i, partner, 41 if i == 3 else 0) for i, partner in enumerate(partners[:8])]
    bench.links(*floors)
    bench.open_aps(0, aps_frame(key(7), 0, partners[7], 50), no(9))
    bench.open_aps(0, aps_frame(flip(key(7), 127), 0, partners[7], 0),
                   opened(partners[7], 0, COMMAND_HEADER))
    floors[7] = (7, partners[7], 1)
    bench.link(partners[7], flip(key(7), 0))
    floors[7] = (7, partners[7], 0)
    bench.links(*floors)
    add_unlinks(bench, partners, floors)


def add_unlinks(bench, partners, floors):
    """Removing link keys, and the lowest free entry."""
    bench.group("unlink: gone, then 13; the lowest free entry is taken")
    for i in (5, 2):
        bench.add("unlink", address(partners[i]), expect="ok")
        bench.add("unlink", address(partners[i]), expect=no(13))
        bench.open_aps(0, aps_frame(key(i), 0, partners[i], 1), no(6))
        bench.seal_aps(partners[i], 0, COMMAND_HEADER, no(6))
    bench.link(partners[8], key(8))
    floors[2] = (2, partners[8], 0)
    bench.links(*(entry for entry in floors if entry[0] != 5))
    bench.link(partners[2], key(2))
    floors[5] = (5, partners[2], 0)
    bench.links(*floors)
    bench.link(partners[5], key(5), no(10))
    bench.group("removed and added again: floor 0, an old frame opens again")
    bench.add("unlink", address(partners[3]), expect="ok")
    bench.link(partners[3], key(3))
    bench.open_aps(0, aps_frame(key(3), 0, partners[3], 40), opened(partners[3], 0, COMMAND_HEADER))
    bench.group("DECISIONS, own-address: the own address as partner and as sender")
    bench.step(asked=False)
    bench.add("unlink", address(partners[0]), expect="ok")
    bench.link(OWN, key(9))
    frame = aps_frame(key(9), 2, OWN, 0, b"\x05")
    bench.seal_aps(OWN, 2, COMMAND_HEADER + b"\x05", ok(frame))
    bench.open_aps(0, frame, opened(OWN, 2, COMMAND_HEADER + b"\x05"))
    bench.open_aps(0, frame, GENUINE)
    bench.network(0, 1, key(1))
    switch(bench, 1)
    frame = network_frame(key(1), 1, OWN, 1, b"\x06")
    bench.seal(NETWORK_HEADER + b"\x06", ok(frame))
    bench.open(frame, opened(OWN, 1, NETWORK_HEADER + b"\x06"))
    bench.heard(0, (0, OWN, 2))
    for i in range(8):
        bench.add("unlink", address(partners[(5 * i) % 9]), expect=no(13) if i in (0, 1) else "ok")
    bench.links((0, OWN, 1), (4, partners[4], 0))


def add_keys(bench):
    """All of this file."""
    for add in (add_install, add_switch):
        add(bench)
    for slot in (0, 1):
        add_same_key(bench, slot)
    for add in (add_rows, add_forget, add_lists, add_links):
        add(bench)
